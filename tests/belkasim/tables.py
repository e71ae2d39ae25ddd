"""The tables of tests/rows: a function of each format makes a row of a line. tests/README.md says how they are written.

A line that isn't a row is a comment or a mistake. A comment precedes the rows of its paragraph. It begins with a letter, ends with
a full stop, and has no tab, arrow or bar.
"""

import json
import re
from dataclasses import dataclass, field
from pathlib import Path

from belkasim.objects import brackets, bundle, compact, indicator, login, moment, observed_data, sighting, uuid

EVENT = re.compile(r"\w+@[0-9]+(\.[0-9]+)?(\.\.[0-9]+(\.[0-9]+)?)?")
NO_COMMENT = re.compile(r"=>|->|= >|\t|\|")
ESCAPE = re.compile(rb"\\(x[0-9a-f]{2}|.?)", re.S)
ESCAPED = {b"n": b"\n", b"r": b"\r", b"t": b"\t", b"\\": b"\\"}
KEYS = {"from", "until", "made", "changed", "revoked", "language", "tool", "broken"}


class Mistyped(Exception):
    """A line of this number is neither a row nor a comment, or has a part of no known form."""


@dataclass
class Row:
    """What the program is given and what it writes. A word FILE is replaced by a file with `feed`. In place of its arguments a row
    may have the folder from which it is read when it is run."""

    name: str
    args: list | Path
    stdin: bytes = b""
    stdout: bytes = b""
    stderr: bytes = b""
    status: int = 0
    feed: bytes | None = None
    memory: int | None = None
    paths: dict = field(default_factory=dict)

    def refuse(self, status, text):
        self.status, self.stderr = int(status), f"{text}\n".encode()
        return self


def lines_of(texts):
    return "".join(f"{it}\n" for it in texts).encode()


def check_comment(lines):
    """Raises where these lines, which precede a paragraph's rows, aren't a comment."""
    for number, text in lines:
        if NO_COMMENT.search(text):
            raise Mistyped(number, f"no row: {text}")
    for is_right, (number, text) in ((lines[0][1][0].isalpha(), lines[0]), (lines[-1][1].endswith("."), lines[-1])) if lines else ():
        if not is_right:
            raise Mistyped(number, f"neither a row nor a sentence: {text}")


def rows_of_lines(name, text, read):
    """The rows that `read` makes of the lines of a table: it gives None for a line that isn't a row's."""
    comment, has_row = [], False
    for number, line in enumerate([*text.split("\n"), ""], 1):
        try:
            row = read(f"{name}:{number}", line) if line else None
        except ValueError as it:
            raise Mistyped(number, f"{it}: {line}") from None
        if not row and line and has_row:
            raise Mistyped(number, f"no row, below a row: {line}")
        if row or not line:
            check_comment(comment)
            comment, has_row = [], bool(row)
        else:
            comment.append((number, line))
        if row:
            yield row


def of_lines(read):
    """The format whose rows are lines, each read by itself."""
    return lambda name, text, usage: rows_of_lines(name, text, lambda row, line: read(row, line, usage))


# ---- .patterns and .inputs

def pattern_row(name, line, _):
    """PATTERN => TEXT, or PATTERN => ! WHY"""
    pattern, _, text = line.partition(" => ")
    if not text:
        return None
    row = Row(name, ["show", pattern])
    if text.startswith("! "):
        return row.refuse(3, f"pattern refused: {text[2:]}")
    row.stdout = lines_of([text])
    return row


def unescaped(text):
    """The bytes of a text with escapes."""
    def byte(found):
        if found[1].startswith(b"x"):
            return bytes.fromhex(found[1][1:].decode())
        if found[1] not in ESCAPED:
            raise ValueError(f"an unknown escape {found[0].decode()}")
        return ESCAPED[found[1]]

    return ESCAPE.sub(byte, text.encode())


def input_rows(name, text, _):
    """A line `words: COMMAND` or `words: COMMAND WORD`, and lines INPUT => TEXT, INPUT => ! WHY, or INPUT =>"""
    words = re.findall(r"^words: (.*)\n", text, re.M)
    if len(words) != 1:
        raise Mistyped(1, f"{len(words)} lines begin with 'words: '")
    words = words[0].split(" ", 1)

    def read(row_name, line):
        given, arrow, result = line.partition(" =>")
        if not arrow or result[:1].strip():
            return None
        row = Row(row_name, words, unescaped(given))
        if result.startswith(" ! "):
            return row.refuse(4, f"line 1 refused: {result[3:]}")
        row.stdout = lines_of([result[1:]] if result else [])
        return row

    yield from rows_of_lines(name, re.sub(r"^words: .*$", "", text, flags=re.M), read)


# ---- .objects and .truths

def object_rows(name, text, _):
    """Lines of objects, and under each, indented, what `check` reports of it; all objects are one bundle."""
    objects, faults, markings = [], [], []
    for number, line in enumerate(text.splitlines(), 1):
        if line.startswith("    ") and line[4:].strip() and objects:
            found = markings if line[4:].startswith("marking") else faults
            found.append(f"object {len(objects) - 1}: {line[4:]}")
        elif is_object(line):
            objects.append(line)
        else:
            raise Mistyped(number, f"neither an object nor what is indented below one: {line}")
    if not objects:
        return
    head = '{"type":"bundle","id":"bundle--%s","objects":[' % uuid(1)
    given = "".join(("," if at else head) + it + "\n" for at, it in enumerate(objects)) + "]}\n"
    result = faults + markings
    yield Row(name, ["check"], given.encode(), lines_of(result or [f"ok {len(objects)} objects"]), status=4 if result else 0)


def is_object(line):
    try:
        return isinstance(json.loads(line), dict)
    except ValueError:
        return False


def truth_row(name, line, _):
    """PATTERN, OBJECTS and `holds` or `fails`, between tabs"""
    parts = line.split("\t")
    if len(parts) != 3 or parts[2] not in ("holds", "fails"):
        return None
    pattern, objects, truth = parts
    listed = json.loads(objects) if objects.startswith("[") else [json.loads(objects)]
    refs = [listed[0]["id"]]
    texts = objects[1:-1] if objects.startswith("[") else objects
    time = moment("0")
    given = f'{bundle([observed_data(time, time, refs)])[:-3]},{texts}]}}\n'
    return Row(name, ["match", pattern], given.encode(), b"1: 1\n" if truth == "holds" else b"")


# ---- .logs, .alerts and .hunts

def events(log):
    for it in log.split():
        if not EVENT.fullmatch(it):
            raise ValueError(f"'{it}' is no event NAME@SECOND or NAME@FIRST..LAST")
        yield login(it)


def log_parts(line, bars):
    """The parts between the bars of a row, its expected lines and its error; None if it isn't a row."""
    left, arrow, wanted = line.rpartition(" =>")
    parts = [it.strip() for it in left.split(" | ")] if arrow else []
    if len(parts) != bars + 1 or wanted[:1].strip():
        return None
    lines, _, end = wanted.partition("! ")
    return parts, [it.strip() for it in lines.split("; ") if it.strip()], end


def ended(row, end):
    return row.refuse(*end.split(" ", 1)) if end else row


def log_row(name, line, _):
    """WORDS | LOG => LINES, or WORDS | LOG => LINES ! STATUS TEXT"""
    found = log_parts(line, 1)
    if not found:
        return None
    (words, log), lines, end = found
    options, pattern = re.fullmatch(r"((?:--cap \S+ |--\S+ )*)(.*)", words).groups()
    row = Row(name, ["match", *options.split(), brackets(pattern)], "".join(events(log)).encode(), lines_of(lines))
    return ended(row, end)


def alert_row(name, line, _):
    """PATTERN N SECONDS | LOG => LINES, or with an end"""
    found = log_parts(line, 1)
    if not found:
        return None
    (words, log), lines, end = found
    pattern, count, seconds = words.rsplit(" ", 2)
    return ended(Row(name, [brackets(pattern), count, seconds], "".join(events(log)).encode(), lines_of(lines)), end)


def millis(seconds):
    """The time of so many seconds, a text, with three digits of a fraction."""
    whole, _, fraction = seconds.partition(".")
    return moment(f"{whole}.{fraction[:3].ljust(3, '0')}")


def hunted(text):
    """The object of an indicator 'N: PATTERN' or 'N KEYS: PATTERN'."""
    head, _, pattern = text.partition(": ")
    number, *keys = head.split()
    given = dict(key.partition("=")[::2] for key in keys)
    if not pattern or not number.isdigit() or given.keys() - KEYS:
        raise ValueError(f"'{text}' is no indicator")
    made = given.get("made", "0")
    times = {"created": millis(made), "modified": millis(given.get("changed", made))}
    if "tool" in given:
        return {"type": "tool", "id": f"tool--{uuid(number)}", "name": "x", "spec_version": "2.1", **times}
    it = indicator(number, brackets(pattern), **times, pattern_type=given.get("language", "stix"), valid_from=moment(given.get("from", "0")))
    if "until" in given:
        it["valid_until"] = moment(given["until"])
    if "revoked" in given:
        it["revoked"] = True
    if "broken" in given:
        del it["valid_from"]
    return it


def hunt_lines(lines, objects, time):
    """The lines of a hunt: 'skipped N WHY', 'N LINE', and behind them the envelope of those that are 'seen N COUNT FIRST LAST'."""
    created = {it["id"]: it["created"] for it in objects}
    sightings = []
    for line in lines:
        word, _, rest = line.partition(" ")
        if word == "skipped":
            number, why = rest.split(" ", 1)
            yield f"skipped indicator--{uuid(number)}: {why}"
        elif word == "seen":
            number, count, first, last = rest.split()
            made = created[f"indicator--{uuid(number)}"]
            sightings.append(sighting(number, count, moment(first), moment(last), made, max(made, time)))
        else:
            yield f"indicator--{uuid(word)} {rest}"
    if sightings:
        yield compact({"objects": sightings})


def hunt_row(name, line, _):
    """WORDS | INDICATORS | LOG => LINES, or with an end"""
    found = log_parts(line, 2)
    if not found:
        return None
    (words, indicators, log), lines, end = found
    words, time = words.split(), None
    for at, word in enumerate(words):
        if re.fullmatch(r"\+[0-9.]+", word) or (at == 0 and re.fullmatch(r"[0-9.]+", word)):
            time, words[at] = millis(word.lstrip("+")), moment(word.lstrip("+"))
    objects = [hunted(it) for it in indicators.split("; ") if it]
    row = Row(name, words, "".join(events(log)).encode(), lines_of(hunt_lines(lines, objects, time)))
    if "FILE" in words:
        row.feed = lines_of(map(compact, objects))
    else:
        row.stdin = bundle(objects).encode() + row.stdin
    return ended(row, end)


# ---- .lines

def word_of(text):
    """The word that is written so in a table of words."""
    if text == "''":
        return ""
    if text == "A":
        return brackets("A")
    repeated = re.fullmatch(r"(.*)x\*(\d+)", text)
    return repeated[1] + "x" * int(repeated[2]) if repeated else text.replace("\\_", " ")


def words_row(name, line, usage):
    """WORDS => TEXT, WORDS => usage, or WORDS => STATUS TEXT"""
    words, _, text = line.partition(" => ")
    if not text:
        return None
    row = Row(name, [word_of(it) for it in words.split()], login("a@0").encode())
    end = re.fullmatch(r"([1-9]\d?) (.*)", text)
    if text == "usage":
        return row.refuse(2, f"usage: {usage}")
    if end:
        return row.refuse(end[1], end[2])
    row.stdout = lines_of([text])
    return row


FORMATS = {
    ".patterns": of_lines(pattern_row), ".inputs": input_rows, ".objects": object_rows, ".truths": of_lines(truth_row),
    ".logs": of_lines(log_row), ".alerts": of_lines(alert_row), ".hunts": of_lines(hunt_row), ".lines": of_lines(words_row),
}
