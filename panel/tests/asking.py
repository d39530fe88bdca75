"""Requests as bytes, and what the server answers: straight into its handler, over a pair of sockets, with no browser between."""

import socket
import threading
from typing import Dict, NamedTuple

import places
import server

HOST = f"{server.LOOPBACK}:{server.PORT}"
BOUNDARY = "----between-the-parts"


class Answered(NamedTuple):
    status: int
    headers: Dict[str, str]
    body: bytes


def request(method="GET", path="/", body=b"", head=None):
    """A request; `head` adds fields to its head, replaces them, or with None takes them out."""
    fields = {"Host": HOST, **({"Content-Length": len(body)} if body else {}), **(head or {})}
    lines = [f"{method} {path} HTTP/1.1", *(f"{name}: {value}" for name, value in fields.items() if value is not None)]
    return "\r\n".join(lines).encode("latin-1") + b"\r\n\r\n" + body


def form_body(*parts):
    """What a form of these parts sends, each a name and bytes."""
    return b"".join(b'--%s\r\nContent-Disposition: form-data; name="%s"; filename="x"\r\nContent-Type: application/octet-stream\r\n\r\n%s\r\n'
                    % (BOUNDARY.encode(), name.encode(), content) for name, content in parts) + b"--%s--\r\n" % BOUNDARY.encode()


def upload(file, radius="own", head=None):
    """The request of a tray that is handed over by the form."""
    body = form_body(("tray", file), ("radius", radius.encode()))
    return request("POST", "/tray", body, {"Content-Type": f"multipart/form-data; boundary={BOUNDARY}", **(head or {})})


def parse(sent):
    """What was answered, taken apart; an answer that has no head as it should is an AssertionError."""
    head, blank, body = sent.partition(b"\r\n\r\n")
    first, *fields = head.decode("latin-1").split("\r\n")
    assert blank and first.startswith("HTTP/1.0 "), sent[:100]
    headers = dict(field.split(": ", 1) for field in fields)
    assert len(headers) == len(fields), fields
    return Answered(int(first.split(" ")[1]), headers, body)


class Stopped:
    """In the place of a server: a handler asks it for nothing."""


def ask(data, ends=True):
    """Hands bytes to a handler as one connection's, ended after them unless `ends` is False, and gives what it sent. A fault of the handler is raised."""
    near, far = socket.socketpair()
    sent, faults = [], []

    def write():
        try:
            near.sendall(data)
            if ends:
                near.shutdown(socket.SHUT_WR)
        except OSError:  # the handler has ended before it was all sent, as it may
            pass

    def read():
        try:
            while taken := near.recv(1 << 16):
                sent.append(taken)
        except ConnectionResetError:  # what it sent comes first
            pass

    def handle():
        try:
            server.Handler(far, (server.LOOPBACK, 1), Stopped)
        except Exception as fault:
            faults.append(fault)
        finally:
            far.close()

    with near, far:
        threads = [threading.Thread(target=work) for work in (write, read, handle)]
        for thread in threads:
            thread.start()
        for thread in threads:
            thread.join()
    if faults:
        raise faults[0]
    return b"".join(sent)


def answer(data, **more):
    return parse(ask(data, **more))
