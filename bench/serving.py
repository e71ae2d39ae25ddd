"""A server over loopback, what is asked of it, and stores of many rows: for bench/run and bench/dearest."""

import re
import socket
import sqlite3
import subprocess
import sys
import time

from processes import small_stack

COLLECTION = "91a7b528-80eb-42ed-a74d-c6fbd5a26116"
HERE = f"/api/collections/{COLLECTION}/"
TAXII = "application/taxii+json;version=2.1"
MAX_REQUESTS = 1024
# An earlier form of the store, word for word: the server accepts no other text of a table.
TABLES = (
    "CREATE TABLE stix_row (date INTEGER PRIMARY KEY, collection BLOB NOT NULL, kind TEXT NOT NULL, number BLOB NOT NULL, "
    "version INTEGER NOT NULL, dated INTEGER NOT NULL, body TEXT NOT NULL) STRICT;"
    "CREATE TABLE stix_mark (one INTEGER PRIMARY KEY CHECK (one = 1), date INTEGER NOT NULL) STRICT;"
)
# 2021-06-10T00:00:00Z, in milliseconds since 1970.
FIRST_VERSION = 1_623_283_200_000
FIRST_NUMBER = 0x4000_8000_0000_0000_0000


def uuid(number):
    text = f"{FIRST_NUMBER + number:032x}"
    return "-".join((text[:8], text[8:12], text[12:16], text[16:20], text[20:]))


def timestamp(version):
    seconds = FIRST_VERSION // 1000 + version // 1000
    return time.strftime("%Y-%m-%dT%H:%M:%S", time.gmtime(seconds)) + f".{version % 1000:03d}Z"


def insert_rows(file, rows):
    """Makes a store of these rows: object number, version, type and body."""
    base = sqlite3.connect(file)
    base.executescript("PRAGMA journal_mode = OFF; PRAGMA synchronous = OFF;" + TABLES)
    collection, count = bytes.fromhex(COLLECTION.replace("-", "")), 0
    def lines():
        nonlocal count
        for number, version, kind, body in rows:
            count += 1
            yield count, collection, kind, (FIRST_NUMBER + number).to_bytes(16, "big"), (FIRST_VERSION + version) * 1000, body
    base.executemany("INSERT INTO stix_row VALUES (?, ?, ?, ?, ?, 1, ?)", lines())
    base.execute("INSERT INTO stix_mark VALUES (1, ?)", (count,))
    base.commit()
    base.close()


def row_body(kind, number, version):
    return (
        f'{{"created":"2021-06-10T00:00:00.000Z","id":"{kind}--{uuid(number)}","modified":"{timestamp(version)}",'
        f'"name":"an object of a campaign, seen in {number}","spec_version":"2.1","type":"{kind}"}}'
    )


def indicator(number):
    return (
        '{"created":"2021-06-10T00:00:00.000Z","description":"%s","id":"indicator--00000000-0000-4000-8000-%012x",'
        '"modified":"2021-06-10T00:00:00.000Z","name":"a file of a known campaign","pattern":"[file:hashes.\'SHA-256\' = '
        '\'%064x\']","pattern_type":"stix","spec_version":"2.1","type":"indicator","valid_from":"2021-06-10T00:00:00Z"}'
        % ("x" * 150, number, number)
    )


def request_of(method, path, fields=(), body=b""):
    lines = [f"{method} {path} HTTP/1.1", "Host: h", *fields]
    if method == "POST":
        lines += [f"Content-Type: {TAXII}", f"Content-Length: {len(body)}"]
    return "\r\n".join(lines).encode() + b"\r\n\r\n" + body


def post_of(objects):
    return request_of("POST", f"{HERE}objects/", (), ('{"objects":[' + ",".join(objects) + "]}").encode())


class Server:
    """`serve` with one collection, once it answers; without FILE its rows are in memory. It accepts one connection at a time."""

    def __init__(self, program, file=None):
        with socket.socket() as it:
            it.bind(("127.0.0.1", 0))
            self.port = it.getsockname()[1]
        store = ["--store", file] if file else []
        words = [program, "serve", "--port", str(self.port), "--connections", "1000000", *store, f"{COLLECTION}:rw:Objects"]
        with small_stack():
            self.process = subprocess.Popen(words, stdout=subprocess.DEVNULL)
        self.link, self.left, began = None, 0, time.perf_counter()
        while self.link is None:
            try:
                self.connect()
            except OSError:
                if self.process.poll() is not None:
                    sys.exit(f"the server ended with status {self.process.returncode}")
                time.sleep(0.05)
        self.loaded = time.perf_counter() - began

    def connect(self):
        self.link = socket.create_connection(("127.0.0.1", self.port), 600)
        self.link.setsockopt(socket.IPPROTO_TCP, socket.TCP_NODELAY, 1)
        self.left = MAX_REQUESTS

    def hang_up(self):
        """Closes the connection, so that other clients are served."""
        self.link.close()
        self.left = 0

    def send(self, request):
        """The status of the answer, and its body."""
        if self.left == 0:
            self.connect()
        self.left -= 1
        self.link.sendall(request)
        came = b""
        while b"\r\n\r\n" not in came:
            piece = self.link.recv(1 << 20)
            if not piece:
                raise ConnectionError
            came += piece
        head, body = came.split(b"\r\n\r\n", 1)
        pieces, missing = [body], int(re.search(rb"Content-Length: (\d+)", head)[1]) - len(body)
        while missing > 0:
            pieces.append(self.link.recv(1 << 22))
            missing -= len(pieces[-1])
        if b"Connection: close" in head or self.left == 0:
            self.hang_up()
        return int(head.split()[1]), b"".join(pieces)

    def ask(self, request):
        """Seconds, status and body; over a new connection if the server has closed the present one."""
        began = time.perf_counter()
        try:
            status, body = self.send(request)
        except OSError:
            self.left, began = 0, time.perf_counter()
            status, body = self.send(request)
        return time.perf_counter() - began, status, body

    def end(self):
        self.link.close()
        self.process.kill()
        self.process.wait()
