"""A program under its limits, and `serve` as a server that is started, asked and stopped."""

import json
import resource
import signal
import socket
import subprocess
import time

from belkasim.http import PATIENCE, Connection, request
from belkasim.objects import COLLECTION, OBJECTS, envelope, number_of, uuid
from belkasim.runner import Differs

STACK = 2**20
# A connection ends after so many requests.
REQUESTS = 1024


def limits(stack=None, memory=None, file_size=None):
    """What a child process does before it runs the program. Past a file's size a write fails, and no signal ends the program."""
    signal.signal(signal.SIGXFSZ, signal.SIG_IGN)
    for what, most in ((resource.RLIMIT_STACK, stack), (resource.RLIMIT_AS, memory), (resource.RLIMIT_FSIZE, file_size)):
        if most:
            resource.setrlimit(what, (most, most))


def spawn(program, words, file_size=None, **streams):
    """Starts a program with a stack of 1 MB."""
    return subprocess.Popen(
        [program, *map(str, words)], stdin=subprocess.DEVNULL, preexec_fn=lambda: limits(stack=STACK, file_size=file_size), **streams,
    )


def run(program, words, timeout=4 * PATIENCE, **more):
    """Runs a program with a stack of 1 MB to its end."""
    streams = {"stdin": subprocess.DEVNULL, "stdout": subprocess.PIPE, "stderr": subprocess.PIPE}
    return subprocess.run(
        [program, *map(str, words)], timeout=timeout, check=False, preexec_fn=lambda: limits(stack=STACK), **{**streams, **more},
    )


def free_port():
    with socket.socket() as it:
        it.bind(("127.0.0.1", 0))
        return it.getsockname()[1]


def listens(port):
    """Whether a socket of this machine listens at the port. No connection is opened for it. The listening sockets come first in the list."""
    with open("/proc/net/tcp", encoding="ascii") as it:
        next(it)
        for row in map(str.split, it):
            if row[3] != "0A":
                return False
            if row[1] == f"0100007F:{port:04X}":
                return True
    return False


def wait_for(port, process):
    """Waits until the process listens at the port."""
    begun = time.monotonic()
    while not listens(port):
        if process.poll() is not None or time.monotonic() - begun > PATIENCE:
            raise Differs(f"nobody listens at the port; status {process.returncode}")
        time.sleep(0.005)


class Server:
    """`serve`, from when it listens; at the end of a block it is killed. With a store, the words name it."""

    def __init__(self, program, *words, callers=100000, file_size=None, stderr=None):
        self.port = free_port()
        given = ["serve", "--port", self.port, "--connections", callers, *words, f"{COLLECTION}:rw:Indicators"]
        self.process = spawn(program, given, file_size=file_size, stdout=subprocess.DEVNULL, stderr=stderr)
        try:
            wait_for(self.port, self.process)
        except Differs:
            self.kill()
            raise
        self.client = Client(self.port)

    def kill(self):
        self.process.kill()
        self.process.wait()

    def __enter__(self):
        return self

    def __exit__(self, *_):
        self.client.close()
        self.kill()


class Client:
    """Asks a server, over one connection as long as it lasts, or over one for each request where it `shares` the server."""

    def __init__(self, port, shares=False):
        self.port, self.shares, self.connection, self.left = port, shares, None, 0

    def close(self):
        if self.connection:
            self.connection.close()
        self.connection, self.left = None, 0

    def ask(self, method, path, body=None):
        """The status and the body of the answer."""
        if self.left == 0:
            self.close()
            self.connection, self.left = Connection(self.port), 1 if self.shares else REQUESTS
        self.left -= 1
        self.connection.send(request(method, path, ["Connection: close"] if self.shares else [], body))
        answer = self.connection.read()
        if self.shares:
            self.close()
        return answer.status, answer.body.decode()

    def add(self, entries):
        """The status of an addition of these texts of objects."""
        return self.ask("POST", OBJECTS, envelope(entries))[0]

    def delete(self, number):
        """The status of the deletion of the identity of this number."""
        return self.ask("DELETE", f"{OBJECTS}identity--{uuid(number)}/")[0]

    def page(self, after=None, limit=100):
        """The objects on the page behind the one that ended so, and where it ends, if there is more."""
        goes_on = f"&next={after}" if after else ""
        status, body = self.ask("GET", f"{OBJECTS}?match%5Bversion%5D=all&limit={limit}{goes_on}")
        if status != 200:
            raise Differs(f"a page: {status} {body}")
        page = json.loads(body)
        return page.get("objects", []), page.get("next")

    def objects(self, after=None):
        """All objects, or those behind a page, in the order in which they were added."""
        found = []
        while True:
            objects, after = self.page(after)
            found += objects
            if not after:
                return found

    def numbers(self, after=None):
        """The numbers in the identifiers of those."""
        return [number_of(it) for it in self.objects(after)]
