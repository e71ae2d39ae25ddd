"""Rows, which are test cases: what a program is given and, to the byte, what it writes. They are read from tests/rows and run."""

import os
import subprocess
import tempfile
from dataclasses import dataclass
from pathlib import Path

from belkasim.runner import difference, one_line
from belkasim.server import STACK, limits
from belkasim.tables import FORMATS, Mistyped, Row

TOP = Path(__file__).resolve().parents[2]
ROWS = TOP / "tests/rows"
USAGE = "stix_command (match | check | show | serve | make) WORDS"
FILES = {"args", "stdin", "stdout", "stderr", "status", "memory", "feed"}
SCRIPTS = {"args.sh", "stdin.sh", "stdout.sh"}
PATHS = {"stdin.path", "stdout.path", "stderr.path"}
ENVIRONMENT = {**os.environ, "LC_ALL": "C", "top": str(TOP)}
# The longest input that is written one byte a write.
BY_BYTE = 20000


# ---- reading

@dataclass
class Table:
    """The rows of a table or of a folder, whose row is read when it is run; or the fault in it."""

    name: str
    rows: list
    fault: str = ""


def folders_of(program):
    """The folders of the rows of a program, each with the program's words as its usage has them."""
    for folder in sorted(it for it in ROWS.iterdir() if it.is_dir()):
        named = folder / "program"
        usage = named.read_text().rstrip("\n") if named.exists() else USAGE
        if program in (None, usage.split(" ")[0]):
            yield folder, usage


def tables_of(folder, usage):
    """All tables and rows below a folder, in order of their names."""
    for path in sorted(folder.rglob("*")):
        name = str(path.relative_to(ROWS))
        if path.is_dir():
            names = {it.name for it in path.iterdir() if it.is_file()}
            if names & (FILES | SCRIPTS | PATHS):
                yield folder_table(path, name, names)
        elif path.suffix in FORMATS:
            yield read_table(path, name, usage)
        elif path.suffix != ".talk" and path != folder / "program" and path.name not in FILES | SCRIPTS | PATHS:
            yield Table(name, [], f"{name}: no file of a row, and no table")


def folder_table(path, name, names):
    if not names & {"args", "args.sh"}:
        return Table(name, [], f"{name}: a row without args")
    return Table(name, [Row(name, path)])


def read_table(path, name, usage):
    try:
        rows = list(FORMATS[path.suffix](name, path.read_text(encoding="utf-8"), usage))
    except Mistyped as it:
        return Table(name, [], f"tests/rows/{name}:{it.args[0]}: {one_line(it.args[1], 300)}")
    return Table(name, rows, "" if rows else f"{name}: no row")


def read_folder(folder, name):
    """The row of a folder."""
    def part(file):
        if (folder / f"{file}.sh").exists():
            return subprocess.run(["bash", folder / f"{file}.sh"], env=ENVIRONMENT, stdout=subprocess.PIPE, check=True).stdout
        return (folder / file).read_bytes() if (folder / file).exists() else b""

    words = part("args").split(b"\n")
    row = Row(name, words if words[-1] else words[:-1], part("stdin"), part("stdout"), part("stderr"))
    row.status = int(part("status") or 0)
    row.memory = int(part("memory") or 0) or None
    row.paths = {it.stem: it.read_text().rstrip("\n") for it in folder.glob("*.path")}
    return row


# ---- running

def status_of(process):
    """The status as a shell gives it."""
    return process.returncode if process.returncode >= 0 else 128 - process.returncode


class Player:
    """Runs rows over a program. The files of its input and outputs are used again for each run."""

    def __init__(self, program):
        self.program = program
        self.input, self.output, self.errors, self.feed = (tempfile.NamedTemporaryFile(buffering=0) for _ in range(4))

    def play(self, row):
        """Runs a row in each way, and returns a line for each difference."""
        try:
            if isinstance(row.args, Path):
                row = read_folder(row.args, row.name)
            self.refill(self.input, row.stdin)
            self.refill(self.feed, row.feed or b"")
            words = [self.feed.name if row.feed is not None and it == "FILE" else it for it in row.args]
            return [one_line(f"{row.name}: {it}") for it in self.faults(row, [self.program, *words])]
        except (OSError, ValueError, subprocess.SubprocessError) as it:
            return [one_line(f"{row.name}: {it}")]

    def faults(self, row, words):
        yield from self.with_files(row, words, "plain", row.paths)
        yield from self.with_files(row, words, "small-stack", row.paths, lambda: limits(stack=STACK))
        if row.memory:
            given = {it: path for it, path in row.paths.items() if it == "stdin"}
            yield from self.with_files(row, words, "little-memory", given, lambda: limits(memory=row.memory * 1024))
        if row.paths:
            return
        yield from self.with_one_pipe(row, words)
        if 0 < len(row.stdin) <= BY_BYTE:
            yield from self.by_byte(row, words)

    @staticmethod
    def refill(file, data):
        file.seek(0)
        file.truncate()
        view = memoryview(data)
        while view:
            view = view[file.write(view):]

    @staticmethod
    def read(file):
        file.seek(0)
        return file.read()

    def streams(self, paths):
        """The standard streams of a run, and those of them that are files of `paths`."""
        for file in (self.output, self.errors):
            self.refill(file, b"")
        self.input.seek(0)
        opened = {it: os.open(path, os.O_RDONLY if it == "stdin" else os.O_WRONLY) for it, path in paths.items()}
        return {"stdin": self.input, "stdout": self.output, "stderr": self.errors, **opened}, opened

    def with_files(self, row, words, way, paths, before=None):
        """A run whose standard streams are files; `paths` replaces some of them."""
        streams, opened = self.streams(paths)
        process = subprocess.Popen(words, env=ENVIRONMENT, preexec_fn=before, **streams)
        process.wait()
        for it in opened.values():
            os.close(it)
        yield from self.compared(row, way, process, opened)

    def with_one_pipe(self, row, words):
        """A run with both outputs in one pipe: standard error follows all of standard output."""
        self.input.seek(0)
        process = subprocess.run(words, env=ENVIRONMENT, stdin=self.input, stdout=subprocess.PIPE, stderr=subprocess.STDOUT, check=False)
        if process.stdout != row.stdout + row.stderr:
            yield f"one-pipe: {difference(row.stdout + row.stderr, process.stdout)}"
        if status_of(process) != row.status:
            yield f"one-pipe: status: expected {row.status}, got {status_of(process)}"

    def by_byte(self, row, words):
        """A run whose input is a pipe, with one byte a write."""
        streams, _ = self.streams({})
        process = subprocess.Popen(words, env=ENVIRONMENT, bufsize=0, **{**streams, "stdin": subprocess.PIPE})
        descriptor = process.stdin.fileno()
        try:
            for at in range(len(row.stdin)):
                os.write(descriptor, row.stdin[at:at + 1])
        except BrokenPipeError:
            pass
        process.stdin.close()
        process.wait()
        yield from self.compared(row, "by-byte", process)

    def compared(self, row, way, process, elsewhere=()):
        """What differs after a run, without the streams that went elsewhere."""
        for name, expected, file in (("stdout", row.stdout, self.output), ("stderr", row.stderr, self.errors)):
            actual = self.read(file)
            if name not in elsewhere and actual != expected:
                yield f"{way}: {name}: {difference(expected, actual)}"
        if status_of(process) != row.status:
            yield f"{way}: status: expected {row.status}, got {status_of(process)}"
