"""HTTP/1.1 messages: written as bytes, and read from a connection one after the other."""

import socket
from dataclasses import dataclass

from belkasim.runner import Differs

TAXII = "application/taxii+json;version=2.1"
PATIENCE = 60


@dataclass
class Message:
    """A request or an answer that was read: its start line and fields, and its body."""

    lines: list
    body: bytes

    @property
    def status(self):
        return int(self.lines[0].split(" ")[1])


def message(lines, body=b""):
    return "\r\n".join([*lines, "", ""]).encode("latin-1") + body


def request(method, path, fields=(), body=None):
    """A request with the fields that its body needs, and those that are given."""
    data = (body or "").encode()
    given = ["Host: h", *fields]
    if body is not None and not any(it.startswith("Content-Type") for it in given):
        given.append(f"Content-Type: {TAXII}")
    if body is not None:
        given.append(f"Content-Length: {len(data)}")
    return message([f"{method} {path} HTTP/1.1", *given], data)


def reply(body, fields=(), status="200 OK"):
    """An answer that holds this body."""
    data = body.encode()
    return message([f"HTTP/1.1 {status}", f"Content-Type: {TAXII}", *fields, f"Content-Length: {len(data)}"], data)


class Connection:
    """A connection to a port of this machine, or one that was taken, and what came over it and wasn't read yet."""

    def __init__(self, port=None, link=None):
        self.link = link or socket.create_connection(("127.0.0.1", port), PATIENCE)
        self.link.settimeout(PATIENCE)
        self.link.setsockopt(socket.IPPROTO_TCP, socket.TCP_NODELAY, 1)
        self.pending = b""

    def send(self, data):
        self.link.sendall(data)

    def more(self):
        """Waits for bytes, and gives those that came: none at the end, which a reset is too."""
        try:
            piece = self.link.recv(1 << 16)
        except ConnectionResetError:
            piece = b""
        except TimeoutError:
            raise Differs("nothing comes") from None
        self.pending += piece
        return piece

    def head(self):
        """The lines of the next message's head."""
        while b"\r\n\r\n" not in self.pending:
            if not self.more():
                raise ConnectionError(f"the connection ended, after {self.pending!r}")
        head, self.pending = self.pending.split(b"\r\n\r\n", 1)
        return head.decode().split("\r\n")

    def read(self):
        """The next message, whole."""
        lines = self.head()
        length = next((int(it[16:]) for it in lines if it.startswith("Content-Length: ")), 0)
        pieces, held = [self.pending], len(self.pending)
        while held < length:
            self.pending = b""
            if not self.more():
                raise ConnectionError("the connection ended within a body")
            pieces.append(self.pending)
            held += len(self.pending)
        data = b"".join(pieces)
        self.pending = data[length:]
        return Message(lines, data[:length])

    def close(self):
        self.link.close()
