"""The peer of a client under test: a server that gives one reply to one connection after the other, and keeps the requests."""

import socket
import threading

from belkasim.http import PATIENCE, TAXII, Connection, message, reply
from belkasim.objects import OBJECTS, envelope


def page(entries, following=None):
    """The reply of a page of these texts, with what follows it."""
    body = envelope(entries)
    return reply(f'{body[:-1]},"more":true,"next":"{following}"}}' if following else body)


def head(*lines):
    """A reply without a body."""
    return message(lines)


def page_request(port, limit, following="", host="127.0.0.1"):
    """The request of a page as it is wanted."""
    return message([
        f"GET {OBJECTS}?limit={limit}&match%5Bversion%5D=all{following} HTTP/1.1", f"Host: {host}:{port}", f"Accept: {TAXII}", "Connection: close",
    ]).decode()


class Peer:
    """Takes a connection for each of its replies."""

    def __init__(self, replies, byte_by_byte=False):
        self.replies, self.byte_by_byte, self.requests = replies, byte_by_byte, []
        self.listener = socket.create_server(("127.0.0.1", 0))
        self.listener.settimeout(PATIENCE)
        self.port = self.listener.getsockname()[1]
        self.thread = threading.Thread(target=self.serve, daemon=True)
        self.thread.start()

    def serve(self):
        for it in self.replies:
            try:
                link, _ = self.listener.accept()
            except OSError:
                break
            with link:
                try:
                    self.answer(Connection(link=link), it)
                except OSError:
                    pass
        self.listener.close()

    def answer(self, connection, data):
        lines = connection.head()
        self.requests.append(message(lines, connection.pending).decode())
        step = 1 if self.byte_by_byte else len(data) or 1
        for at in range(0, len(data), step):
            connection.send(data[at:at + step])

    def end(self):
        """Takes no further connection: a thread that waits for one wakes."""
        try:
            self.listener.shutdown(socket.SHUT_RDWR)
        except OSError:
            pass
        self.listener.close()
        self.thread.join(PATIENCE)

    def __enter__(self):
        return self

    def __exit__(self, *_):
        self.end()
