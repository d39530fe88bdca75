"""The panel's server: who may ask, what may be asked, and how much may be sent. It keeps nothing: each page is made from its own request.

    python panel/server.py [PORT [ADDRESS]]

8063 and the loopback address, unless they are given. panel/run starts it, with the library built first."""

import http.server
import io
import ipaddress
import pathlib
import re
import socket
import sys
import threading
import time
import traceback

sys.dont_write_bytecode = True
import form
import page
import tray_file
from form import Unfit
from reading import rows

HERE = pathlib.Path(__file__).resolve().parent
PORT, LOOPBACK = 8063, "127.0.0.1"
# seconds for a request to come, and again for its answer to go; how many are served at once; how much of a refused one is still taken in
SECONDS, AT_ONCE, DRAINED = 10, 16, 1 << 20

SAMPLES = {name: tray_file.tray_of((HERE.parent / "samples" / f"{name}.tray").read_bytes()) for name in page.SAMPLES}
METHODS = ("GET", "HEAD", "POST")
HTML = "text/html; charset=utf-8"
# the pages that are always the same
FIXED = {"/": (HTML, page.home().encode("ascii")), "/panel.css": ("text/css; charset=utf-8", (HERE / "panel.css").read_bytes())}
TOO_LONG = f"A tray has at most {tray_file.LONGEST:,} bytes."

HEADERS = {
    # script in no form; nothing is loaded but the style; nobody frames the page
    "Content-Security-Policy": "default-src 'none'; script-src 'none'; style-src 'self'; form-action 'self'; base-uri 'none'; frame-ancestors 'none'",
    "X-Content-Type-Options": "nosniff",
    "X-Frame-Options": "DENY",
    "Referrer-Policy": "same-origin",
    "Cross-Origin-Opener-Policy": "same-origin",
    "Cross-Origin-Resource-Policy": "same-origin",
    "Cache-Control": "no-store",
}

# what http.server refuses by itself, in words of ours: its own would repeat the request
REFUSED = {
    400: "The request is no request of HTTP.",
    405: "The panel takes GET, HEAD and POST.",
    408: "The request did not come in time.",
    414: "The address is too long.",
    431: "The head of the request is too long.",
}
REFUSED_AS = {501: 405, 505: 400}


def shown(title, tray, word, sample=None):
    """The page of a tray, read with the radius that a form asks for."""
    if word not in (page.OWN, *map(str, page.RADII)):
        raise Unfit(400, f"The radius is {page.OWN}, or a number from {page.RADII[0]} to {page.RADII[-1]}.")
    radius = tray.radius if word == page.OWN else int(word)
    return page.result(title, page.forms(sample, word), tray, radius, rows(tray, radius)).encode("ascii")


def sampled(words):
    """The page of a sample, by the words of the address."""
    name, radius = form.named(form.query(words), "name", "radius")
    if name not in SAMPLES:
        raise Unfit(404, "There is no sample of this name.")
    return shown(page.SAMPLES[name], SAMPLES[name], radius, name)


def uploaded(body, boundary):
    """The page of a tray that was handed over."""
    file, radius = form.named(form.parts(body, boundary), "tray", "radius")
    if len(file) > tray_file.LONGEST:
        raise Unfit(413, TOO_LONG)
    try:
        tray = tray_file.tray_of(file)
    except tray_file.NoTray as why:
        raise Unfit(422, f"This is no tray file. {why}") from None
    return shown("The tray that was handed over", tray, radius.decode("ascii", "replace"))


def is_our_name(host):
    """Whether a Host names this machine by an address, or as localhost: another site's name may be led here, but not an address."""
    name = re.sub(r":[0-9]{0,5}$", "", host).strip("[]")
    try:
        return name == "localhost" or bool(ipaddress.ip_address(name))
    except ValueError:
        return False


class InTime(io.RawIOBase):
    """What is read from a connection, within so many seconds in all."""

    def __init__(self, connection, seconds):
        self.connection, self.end = connection, time.monotonic() + seconds

    def readable(self):
        return True

    def readinto(self, room):
        left = self.end - time.monotonic()
        if left <= 0:
            raise TimeoutError
        self.connection.settimeout(left)
        return self.connection.recv_into(room)


class Handler(http.server.BaseHTTPRequestHandler):
    """One request, in HTTP/1.0: the connection ends with the answer."""

    def setup(self):
        super().setup()
        self.rfile = io.BufferedReader(InTime(self.connection, SECONDS))

    # ---- what may be asked

    def get(self):
        if self.path in FIXED:
            return FIXED[self.path]
        path, _, words = self.path.partition("?")
        if path == "/sample":
            return HTML, sampled(words)
        if path == "/tray":
            raise Unfit(405, "A tray is sent by POST.", "POST")
        raise Unfit(404, "There is no such page.")

    def post(self):
        if self.path in FIXED:
            raise Unfit(405, "This page is asked for by GET.", "GET, HEAD")
        if self.path != "/tray":
            raise Unfit(404, "A tray is sent to /tray.")
        origin = self.headers.get("Origin")
        if origin is not None and origin != f"http://{self.headers['Host']}":
            raise Unfit(403, "A tray is taken from the panel's own form, and not from another site's.")
        boundary = form.boundary_of(self.headers.get("Content-Type"))
        return HTML, uploaded(self.body(), boundary)

    def body(self):
        """What was sent, if it is no longer than a form with a tray can be."""
        lengths = self.headers.get_all("Content-Length", [])
        if self.headers.get("Transfer-Encoding") or not lengths:
            raise Unfit(411, "The request has to say how long it is (Content-Length).")
        if len(lengths) > 1 or not re.fullmatch("[0-9]+", lengths[0], re.ASCII):
            raise Unfit(400, "The request does not say in one number how long it is.")
        if len(lengths[0]) > 9 or int(lengths[0]) > tray_file.LONGEST + form.FRAME:
            raise Unfit(413, TOO_LONG)
        try:
            sent = self.rfile.read(int(lengths[0]))
        except TimeoutError:
            raise Unfit(408, REFUSED[408]) from None
        if len(sent) < int(lengths[0]):
            raise Unfit(400, "The request stops early.")
        return sent

    # ---- how it is answered

    def respond(self, made):
        """Answers with what is made, or with the page of what is not met."""
        try:
            if self.request_version == "HTTP/0.9":
                raise Unfit(400, REFUSED[400])
            hosts = self.headers.get_all("Host", [])
            if len(hosts) != 1 or not is_our_name(hosts[0]):
                raise Unfit(421, "The panel is asked for by its address, or as localhost.")
            kind, content = made()
        except Unfit as unfit:
            self.refuse(unfit.status, unfit.words, unfit.allow)
        except Exception:  # a fault of ours: it is told, and nothing of it is shown
            traceback.print_exc()
            self.refuse(500, "The panel has failed at this. Nothing was shown or kept.")
        else:
            self.answer(200, kind, content)

    def do_GET(self):
        self.respond(self.get)

    def do_HEAD(self):
        self.respond(self.get)

    def do_POST(self):
        self.respond(self.post)

    def send_error(self, code, message=None, explain=None):
        """What http.server refuses by itself."""
        status = REFUSED_AS.get(code, code)
        self.refuse(status, REFUSED.get(status, REFUSED[400]), ", ".join(METHODS) if status == 405 else "")

    def refuse(self, status, words, allow=""):
        self.answer(status, HTML, page.unfit(status, words).encode("ascii"), allow)
        self.drain()

    def answer(self, status, kind, content, allow=""):
        self.request_version = "HTTP/1.0"  # or http.server would leave the head out for one that names no version
        self.close_connection = True
        self.connection.settimeout(SECONDS)
        self.send_response(status)
        for name, value in {**HEADERS, "Content-Type": kind, "Content-Length": str(len(content)), "Allow": allow}.items():
            if value:
                self.send_header(name, value)
        self.end_headers()
        if self.command != "HEAD":
            self.wfile.write(content)

    def drain(self):
        """Takes in what a refused request still sends, up to a bound: else the connection breaks, and the refusal is not seen."""
        try:
            self.connection.shutdown(socket.SHUT_WR)
            left = DRAINED
            while left > 0 and (taken := len(self.rfile.read1(1 << 16))):
                left -= taken
        except OSError:
            pass

    def version_string(self):
        return "film-panel"

    def log_request(self, code="-", size="-"):
        """The method where it is one of ours, and the status: nothing that was sent is written down."""
        sys.stderr.write(f"{self.log_date_time_string()} {self.command if self.command in METHODS else '-'} {int(code)}\n")

    def log_message(self, format, *args):
        pass


class Server(http.server.ThreadingHTTPServer):
    """The server: so many requests at once, the others wait."""

    def __init__(self, address, port):
        self.address_family = socket.AF_INET6 if ":" in address else socket.AF_INET
        self.free = threading.BoundedSemaphore(AT_ONCE)
        super().__init__((address, port), Handler)

    def process_request(self, request, client_address):
        self.free.acquire()
        super().process_request(request, client_address)

    def process_request_thread(self, request, client_address):
        try:
            super().process_request_thread(request, client_address)
        finally:
            self.free.release()

    def handle_error(self, request, client_address):
        """A connection that broke is no fault of ours; all else is told."""
        if not isinstance(sys.exc_info()[1], OSError):
            traceback.print_exc()

    def url(self):
        address, port = self.server_address[:2]
        return f"http://{f'[{address}]' if ':' in address else address}:{port}/"


def main(port=PORT, address=LOOPBACK):
    try:
        server = Server(address, int(port))
    except (OSError, OverflowError) as why:
        sys.exit(f"The panel cannot be at port {port} of {address}: {why}")
    print(f"The panel is at {server.url()} until it is ended by Ctrl-C.", flush=True)
    try:
        server.serve_forever()
    except KeyboardInterrupt:
        server.server_close()


if __name__ == "__main__":
    main(*sys.argv[1:3])
