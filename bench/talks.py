"""What is measured over a server: each function takes the Bench and returns its figures, in the unit of its case, and peak memory."""

import functools
import glob
import itertools
import os
import re
import socket
import sqlite3
import threading
import time

import serving
from processes import memory_of, run_once
from serving import COLLECTION, HERE, Server, post_of, request_of, row_body, uuid

ROWS, FEW, AT_ONCE, TURN = 1_000_000, 15, 1000, 300
MAX_QUERY, MAX_BODY, MAX_REPLY = 16_000, 8_388_608, 67_108_864
NUMBERS = itertools.count(0xA000_0000_0000)


def rows_of(count):
    """Nine in ten rows are versions of few objects."""
    for place in range(count):
        number, version = (place % FEW, place // FEW) if place < count // 10 * 9 else (place, 0)
        yield number, version, "indicator", row_body("indicator", number, version)


def counted(bench, rows):
    """The rows, whose bodies' bytes are added up."""
    bench.bodies = 0
    for row in rows:
        bench.bodies += len(row[3])
        yield row


def answer(server, request, *statuses):
    """The seconds until the answer, which has one of these statuses, and its body."""
    seconds, status, body = server.ask(request)
    if status not in statuses:
        raise RuntimeError(f"answered {status}: {body[:80]!r}")
    return seconds, body


def load(bench):
    """Opens a store of 1,000,000 rows; the last server stays for the talks below."""
    count, file = bench.size(ROWS), f"{bench.folder}/large.db"
    serving.insert_rows(file, counted(bench, rows_of(count)))
    seconds = []
    for turn in range(min(2, bench.repetitions)):
        if turn:
            bench.large.end()
        bench.large = Server(bench.program("stix_command"), file)
        bench.servers.append(bench.large)
        seconds.append(bench.large.loaded)
    return seconds, memory_of(bench.large.process.pid)


def large(bench):
    if bench.large is None:
        load(bench)
    return bench.large


def row_memory(bench):
    """What a row takes beside its body, without what an empty server takes."""
    server, count = large(bench), bench.size(ROWS)
    empty = Server(bench.program("stix_command"), f"{bench.folder}/empty.db")
    taken = memory_of(server.process.pid, "VmRSS") - memory_of(empty.process.pid, "VmRSS")
    empty.end()
    return [(taken - bench.bodies) / count], memory_of(server.process.pid)


def rate(bench, server, requests, *statuses):
    """Answers a second, of so many requests in each repetition."""
    figures = []
    for _ in range(bench.repetitions):
        sent = [next(requests) for _ in range(TURN)]
        began = time.perf_counter()
        for request in sent:
            answer(server, request, *statuses)
        figures.append(TURN / (time.perf_counter() - began))
    return figures, memory_of(server.process.pid)


def page(bench):
    return rate(bench, large(bench), itertools.repeat(request_of("GET", f"{HERE}objects/?match[version]=all&limit=100")), 200)


def walk(bench):
    """Objects a second, over all pages of 100 versions."""
    server, count, following, began = large(bench), 0, "", time.perf_counter()
    while following is not None:
        path = f"{HERE}objects/?match[version]=all&limit=100{following}"
        _, body = answer(server, request_of("GET", path), 200)
        count += body.count(b'"spec_version"')
        following = re.search(rb'"next":"([^"]*)"', body)
        following = f"&next={following[1].decode()}" if following else None
    seconds = time.perf_counter() - began
    if count != bench.size(ROWS):
        raise RuntimeError(f"a walk gave {count} objects")
    return [count / seconds], memory_of(server.process.pid)


def request(bench, path, fields=(), method="GET"):
    """Seconds of one request to the store of 1,000,000 rows."""
    server = large(bench)
    seconds = [answer(server, request_of(method, path, fields), 200)[0] for _ in range(bench.repetitions)]
    return seconds, memory_of(server.process.pid)


def query(text, path=f"{HERE}objects/"):
    return functools.partial(request, path=f"{path}?{text}")


def many(word, member):
    """A query whose word has as many members as a head holds."""
    text, number = f"{word}={member(0)}", 1
    while len(text) + len(member(number)) < MAX_QUERY:
        text, number = f"{text},{member(number)}", number + 1
    return query(text)


def fields(bench):
    return request(bench, f"{HERE}objects/?limit=1", ["a:"] * 3900)


def deletion(bench):
    """Another of the objects with 60,000 versions each time."""
    server, seconds = large(bench), []
    for _ in range(min(3, bench.repetitions)):
        path = f"{HERE}objects/indicator--{uuid(bench.deleted)}/"
        bench.deleted += 1
        seconds.append(answer(server, request_of("DELETE", path), 200)[0])
    return seconds, memory_of(server.process.pid)


def single_posts():
    while True:
        yield post_of([serving.indicator(next(NUMBERS))])


def post(bench):
    return rate(bench, large(bench), single_posts(), 202)


def post_in_memory(bench):
    server = Server(bench.program("stix_command"))
    figures = rate(bench, server, single_posts(), 202)
    server.end()
    return figures


def sqlite(bench):
    """Transactions a second of SQLite's own library, each of one such row and the mark, with a sync each."""
    file = f"{bench.folder}/sqlite.db"
    serving.insert_rows(file, [])
    database = sqlite3.connect(file, isolation_level=None)
    database.executescript("PRAGMA journal_mode = WAL; PRAGMA synchronous = FULL")
    figures, date = [], 0
    for _ in range(bench.repetitions):
        began = time.perf_counter()
        for _ in range(TURN):
            date += 1
            database.execute("BEGIN")
            row = (date, bytes(16), "indicator", bytes(16), 1, serving.indicator(date))
            database.execute("INSERT INTO stix_row VALUES (?, ?, ?, ?, ?, 1, ?)", row)
            database.execute("REPLACE INTO stix_mark VALUES (1, ?)", (date,))
            database.execute("COMMIT")
        figures.append(TURN / (time.perf_counter() - began))
    database.close()
    return figures, 0


def body(make):
    """Seconds of a POST of 8 MB, which holds other objects each time."""
    def posted(bench):
        server, seconds = large(bench), []
        for _ in range(min(3, bench.repetitions)):
            seconds.append(answer(server, post_of(make(bench.size(MAX_BODY) - 20)), 202)[0])
        return seconds, memory_of(server.process.pid)
    return posted


def dated(more=""):
    number = next(NUMBERS)
    return (
        f'{{"type":"x-b","id":"x-b--{uuid(number)}","spec_version":"2.1","created":"2021-06-10T00:00:00.000Z",'
        f'"modified":"2021-06-10T00:00:00.000Z"{more}}}'
    )


def new_objects(room):
    return [dated() for _ in range(room // (len(dated()) + 1))]


def any_order(room):
    count = (room - 200) // len('"0000000":1,')
    return [dated(',"v":{' + ",".join(f'"{it * 0x9E3779B1 % 0x1000_0000:07x}":1' for it in range(count)) + "}")]


# Clients


def posted(bench, count):
    """A server in memory with so many objects, made once for all talks that ask for as many."""
    if bench.source is None:
        bench.source = Server(bench.program("stix_command"))
        bench.servers.append(bench.source)
        for first in range(0, count, AT_ONCE):
            objects = [serving.indicator(it) for it in range(first, min(first + AT_ONCE, count))]
            answer(bench.source, post_of(objects), 202)
        bench.source.hang_up()
    return bench.source


def client(bench, count, words, prepare=lambda: None):
    """Objects a second that the client takes from such a server."""
    figures, memory = [], 0
    for _ in range(bench.repetitions):
        prepare()
        run = run_once(words)
        bench.accept(run, 0)
        figures.append(count / run.clock)
        memory = max(memory, run.memory)
    return figures, memory


def pull(bench):
    count = bench.size(50_000)
    server = posted(bench, count)
    return client(bench, count, [bench.program("stix_pull"), "127.0.0.1", str(server.port), "/api/", COLLECTION, "100"])


def mirror(bench, is_again=False, since=()):
    """Copies into a new file each time, or again into one that has all."""
    count, file = bench.size(50_000), f"{bench.folder}/copy.db"
    server = posted(bench, count)
    words = [bench.program("stix_mirror"), "127.0.0.1", str(server.port), "/api/", COLLECTION, file, "1"]
    def remove():
        for name in glob.glob(f"{file}*"):
            os.remove(name)
    if not is_again:
        return client(bench, count, words, remove)
    bench.accept(run_once(words), 0)
    return client(bench, count, [*words, *since])


def reply_of(front, entry, back):
    """A reply of at most 67,108,864 bytes: as many of the entry as it holds."""
    count = (MAX_REPLY - len(front) - len(back) + 1) // (len(entry) + 1)
    return front + b",".join([entry] * count) + back


def peer(make, status):
    """Processor seconds of `stix_pull` for one reply of a peer."""
    def talk(bench):
        body = make()
        reply = b"HTTP/1.1 200 OK\r\nContent-Length: %d\r\n\r\n" % len(body) + body
        door = socket.create_server(("127.0.0.1", 0))
        threading.Thread(target=give, args=(door, reply), daemon=True).start()
        words = [bench.program("stix_pull"), "127.0.0.1", str(door.getsockname()[1]), "/api/", COLLECTION]
        runs = [run_once(words) for _ in range(min(3, bench.repetitions))]
        door.close()
        for run in runs:
            bench.accept(run, status)
        return [run.processor for run in runs], max(run.memory for run in runs)
    return talk


def give(door, reply):
    """Gives each connection the reply."""
    while True:
        try:
            link, _ = door.accept()
            with link:
                link.recv(65536)
                link.sendall(reply)
        except OSError:
            if door.fileno() < 0:
                return


def names_descending():
    return b'{"objects":[{' + b",".join(b'"%d":1' % it for it in range(4_000_000, 0, -1)) + b"}]}"


def one_text():
    front, back = b'{"objects":[{"a":"', b'"}]}'
    return front + b"x" * (MAX_REPLY - len(front) - len(back)) + back
