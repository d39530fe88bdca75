"""Hostile requests for the panel's server: whole ones changed at random, and forms with trays of every kind, each answer held to what it may be.

    python panel/tests/fuzz.py SECONDS [SEED]
    python panel/tests/fuzz.py faults

It stops at the first answer that may not be, says why, and leaves the request in target/panel-fuzz/found. `faults` tries the search itself: it puts known
faults into the panel, one at a time, and has to find each within MOST requests."""

import collections
import contextlib
import html
import io
import random
import sys
import time

import places
import asking
import expected
import form
import page
import reading
import server
import tray_file
from parsed import Parsed
from places import ROOT, SAMPLES
from reading import film
from tray import show

MOST = 3000
# every status that is promised
STATUSES = {200, 400, 403, 404, 405, 408, 411, 413, 414, 415, 421, 422, 431}
# the head of every answer, and the longest tray, as they are before a fault is put in
HEADERS, LONGEST = dict(server.HEADERS), tray_file.LONGEST
# every tag that the pages have
TAGS = {"html", "head", "meta", "title", "link", "body", "header", "h1", "h2", "a", "main", "form", "label", "select", "option", "input", "button", "p", "table", "thead",
        "tbody", "tr", "th", "td", "samp", "strong", "figure", "figcaption", "br", "svg", "defs", "g", "circle", "path", "use", "text"}
PIECES = [b"\r\n", b"\r\n\r\n", b"\n", b"\0", b"<SCRIPT>", b"\"'><img src=x onerror=x>", b"--" + asking.BOUNDARY.encode(), b"--", b"?", b"&", b"=", b"%", b"%FF", b" ", b"//", b"[",
          b"http://[", b"/sample?name=full&radius=1", b"/tray", b"/panel.css", b"GET ", b"HEAD ", b"POST ", b"PUT ", b" HTTP/1.1", b" HTTP/0.9", b" HTTP/9.9", b"Host: x\r\n",
          b"Host: localhost\r\n", b"Origin: null\r\n", b"Content-Length: 5\r\n", b"Content-Length: 99999999999\r\n", b"Transfer-Encoding: chunked\r\n", b"Expect: 100-continue\r\n",
          b"Connection: keep-alive\r\n", b"X: " + b"x" * 70000 + b"\r\n", b'name="tray"', b'name="radius"', b"own", b"9", b"x" * 70000]


class Found(Exception):
    """An answer that may not be."""


def hold(fact, what):
    if not fact:
        raise Found(what)


# ---- what is asked


def word(source, way):
    """63 bytes: a line with a note of hostile letters, some of them wrong, turned or reversed; dark; or any bytes."""
    if way == 0:
        return bytes(63)
    if way == 1:
        return bytes(source.choices(range(source.choice((64, 66, 256))), k=63))
    letters = source.choice((range(64), [ord(c) - 32 for c in "&<>\"'#;"], [ord(c) - 32 for c in "<SCRIPT>=/! "]))
    text = [source.choice((0, 0, 0, 1, 63)), *source.choices(letters, k=49)]
    line = bytearray(film.encode_line(text, source.randrange(4096)))
    for _ in range(source.choice((0, 0, 1, 2, 5))):
        line[source.randrange(63)] ^= source.randrange(64)
    start = source.randrange(63)
    return bytes(line if way == 2 else [line[(i - start if way == 3 else start - i) % 63] for i in range(63)])


def tray(source):
    """A tray file: whole for the most part, and else cut, with bytes left over, or longer than any tray."""
    size = source.choice((1, 1, 2, 4))
    sections = [[word(source, source.choice((0, 1, 2, 2, 2, 3, 4))) for _ in range(source.randrange(size))] for _ in range(2)]
    blocks = [bytes([rows]) + source.randbytes(rows) for rows in source.choices((0, 1, 2, 8, 255), k=source.randrange(3))]
    file = bytes([source.choice((0, 1, 2, 3, 4, 5, 6, 255))]) + b"".join(bytes([len(items)]) + b"".join(items) for items in (*sections, blocks))
    change = source.randrange(12)
    if change == 0:
        return file[:source.randrange(len(file))]
    if change == 1:
        return file + source.randbytes(source.choice((1, 63)))
    if change == 2 and source.random() < 0.2:
        return file + bytes(LONGEST + source.choice((-1, 0, 1, form.FRAME)) - len(file))
    return file


def changed(source, data, other):
    """A request changed at random, up to four times."""
    for _ in range(source.randrange(1, 5)):
        at, end = sorted(source.randrange(len(data) + 1) for _ in range(2))
        head = data.find(b"\r\n\r\n") + 4
        if source.random() < 0.5:  # most of the code is about the head
            at, end = min(at, source.randrange(head + 1)), min(end, head)
        way = source.randrange(6)
        if way == 0:
            data = data[:at] + source.choice(PIECES) + data[at:]
        elif way == 1:
            data = data[:at] + bytes([source.randrange(256)]) + data[at + 1:]
        elif way == 2:
            data = data[:at] + data[max(at, end):]
        elif way == 3:
            data = data[:at] + data[at:end] * 2 + data[end:]
        elif way == 4:
            data = data[:at] + other[source.randrange(len(other) + 1):]
        else:
            data = data[:at]
    return data


# ---- what may be answered


def harmless(answered):
    """What holds of every answer."""
    hold(answered.status in STATUSES, f"status {answered.status}")
    hold({name: answered.headers.get(name) for name in HEADERS} == HEADERS, "the head is not whole")
    hold(answered.headers["Content-Length"] == str(len(answered.body)) or not answered.body, "another length than the head says")
    if not answered.body or answered.headers["Content-Type"] != server.HTML:
        return None
    read = Parsed(answered.body.decode("ascii"))
    hold(not read.others and not read.open and not read.harm(), f"no whole page: {read.others} {read.open} {read.harm()}")
    hold({tag.lstrip("/") for tag, _ in read.tags} <= TAGS, "a tag that the panel does not write")
    return read


def as_promised(answered, file, radius):
    """What holds of the answer to a form that was sent as it should be: the tool for tray files, which shares no code, says whether it is a tray."""
    read = harmless(answered)
    if len(file) > LONGEST:
        hold(answered.status == 413, f"a file of {len(file)} bytes has status {answered.status}")
    elif "# The file is whole, and nothing is left over." not in show(file):
        hold(answered.status == 422, f"what is no tray has status {answered.status}")
    else:
        hold(answered.status == 200, f"a tray has status {answered.status}")
        hold(read.notes == expected.notes(file, None if radius == page.OWN else int(radius)), "the notes are not the film's")


def requests(source):
    """Requests without end, each with what has to hold of its answer."""
    whole = [asking.request(), asking.request("HEAD"), asking.request(path="/panel.css"), *(asking.request(path=f"/sample?name={name}&radius=own") for name in ("notes", "old-harm")),
             *(asking.upload((SAMPLES / f"{name}.tray").read_bytes()) for name in ("notes", "paper", "old-harm"))]
    while True:
        if source.random() < 0.4:
            file, radius = tray(source), source.choice((page.OWN, *map(str, page.RADII)))
            yield asking.upload(file, radius), lambda answered, file=file, radius=radius: as_promised(answered, file, radius)
        else:
            yield changed(source, source.choice(whole), source.choice(whole)), harmless


def search(seconds, most, seed):
    """Asks until the time is over; gives how often each status was met, and the request that found something, with what it is."""
    source, met, end = random.Random(seed), collections.Counter(), time.monotonic() + seconds
    for data, check in requests(source):
        if time.monotonic() > end or met.total() >= most:
            return met, None, None
        log = io.StringIO()
        try:
            with contextlib.redirect_stderr(log):
                sent = asking.ask(data)
            # a connection that ends before its request does is given no answer
            answered = asking.parse(sent) if sent else None
            met[answered.status if answered else "none"] += 1
            if answered:
                check(answered)
            hold("Traceback" not in log.getvalue(), log.getvalue())
        except Exception as found:
            return met, data, f"{type(found).__name__}: {found}"


# ---- faults, to try the search itself


def as_it_is(row):
    return CELLS(row._replace(shown=html.unescape(row.shown)))


def first_start(item, ring, radius):
    row = RING_ROW(item, ring, radius)
    if not row.starts:
        return row
    start = row.starts[0]
    at_start = bytes(ring[(start + a if start < 63 else start - a) % 63] for a in range(63))
    return reading.line_row(item, at_start, radius)._replace(kind="Ring")


def echoed(self, status, words, allow=""):
    said = page.unfit(status, words).replace("</main>", f"{getattr(self, 'path', '')}</main>")
    self.answer(status, server.HTML, said.encode("ascii", "replace"), allow)
    self.drain()


def whole_or_more(file):
    tray = tray_file.begun(file)
    if tray.stops and "block" not in tray.stops:
        raise tray_file.NoTray(tray.stops)
    return tray._replace(blocks=[])


def without_version(self, status, kind, content, allow=""):
    if self.request_version == "HTTP/0.9":
        self.wfile.write(content)
    else:
        ANSWER(self, status, kind, content, allow)


CELLS, RING_ROW, ANSWER = page.cells, reading.ring_row, server.Handler.answer
FAULTS = [
    ("a note as it is in the page", page, "cells", as_it_is),
    ("the first start that fits", reading, "ring_row", first_start),
    ("a refusal that repeats the address", server.Handler, "refuse", echoed),
    ("bytes left over taken for none", tray_file, "tray_of", whole_or_more),
    ("a longer tray taken", tray_file, "LONGEST", LONGEST + 1),
    ("an answer without its head", server.Handler, "answer", without_version),
    ("a refusal without the policy", server, "HEADERS", {name: value for name, value in HEADERS.items() if name != "Content-Security-Policy"}),
    ("an address that the panel fails at", form, "query", lambda words: dict(pair.split("=") for pair in words.split("&"))),
]


def faults():
    """Tries each fault, and says after how many requests it was found."""
    missed = 0
    for name, owner, attribute, wrong in FAULTS:
        right = getattr(owner, attribute)
        setattr(owner, attribute, wrong)
        try:
            met, data, found = search(10 ** 6, MOST, 1)
        finally:
            setattr(owner, attribute, right)
        missed += data is None
        print(f"{name}: {'not found' if data is None else f'found at request {met.total()}: {found[:90]}'}", flush=True)
    return 1 if missed else 0


def main(seconds, seed="1"):
    began = time.monotonic()
    met, data, found = search(int(seconds), 10 ** 9, int(seed))
    print(f"{met.total()} requests in {time.monotonic() - began:.0f} s, seed {seed}: {', '.join(f'{status} {count}' for status, count in sorted(met.items(), key=str))}")
    if data is None:
        print("nothing found")
        return 0
    place = ROOT / "target" / "panel-fuzz" / "found"
    place.parent.mkdir(parents=True, exist_ok=True)
    place.write_bytes(data)
    print(f"found: {found}\nthe request is in {place}")
    return 1


if __name__ == "__main__":
    sys.exit(faults() if sys.argv[1:] == ["faults"] else main(*sys.argv[1:3]))
