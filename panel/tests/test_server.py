"""Tests of the panel's server, with no browser: what each row shows, the old harm, who is refused with which status, and that nothing is kept."""

import contextlib
import html
import io
import os
import socket
import tempfile
import threading
import unittest

import places
import asking
import expected
import form
import old_way
import page
import reading
import server
import tray_file
from asking import answer, form_body, request, upload
from parsed import Parsed
from places import SAMPLES
from reading import film
from tray import make

TYPE = {"Content-Type": f"multipart/form-data; boundary={asking.BOUNDARY}"}


def file_of(name):
    return (SAMPLES / f"{name}.tray").read_bytes()


def shown(data):
    """The page that a request is answered with."""
    answered = answer(data)
    assert answered.status == 200, answered
    return Parsed(answered.body.decode("ascii"))


class Quiet(unittest.TestCase):
    """Tests of a server whose log is caught, not shown."""

    def setUp(self):
        self.log = io.StringIO()
        caught = contextlib.redirect_stderr(self.log)
        caught.__enter__()
        self.addCleanup(caught.__exit__, None, None, None)


class Rows(Quiet):
    def test_every_note_is_shown_as_it_is(self):
        """Every sample, at its own radius and at every other: the notes are those of the film, and the page is well formed."""
        for name in page.SAMPLES:
            for radius in (page.OWN, *map(str, page.RADII)):
                read = shown(request(path=f"/sample?name={name}&radius={radius}"))
                notes = expected.notes(file_of(name), None if radius == page.OWN else int(radius))
                self.assertEqual((read.notes, read.others, read.open, read.harm()), (notes, [], [], []))

    def test_a_tray_that_is_handed_over(self):
        """It is shown as the sample of the same bytes, but for its title and the sample that is chosen."""
        for name in page.SAMPLES:
            one, other = (answer(data).body.partition(b"<p>")[2] for data in (request(path=f"/sample?name={name}&radius=2"), upload(file_of(name), "2")))
            self.assertEqual(one, other)

    def test_hostile_notes_add_no_markup(self):
        """The page of hostile notes has the tags and attributes of the same page with blank notes, one for one."""
        description = (SAMPLES / "hostile.txt").read_text()
        hostile, blank = (shown(upload(make(text))) for text in (description, expected.blank(description)))
        self.assertEqual(hostile.tags, blank.tags)
        self.assertEqual(set(blank.notes), {" " * 49})

    def test_the_hostile_sample_has_every_character_at_every_place(self):
        notes = expected.notes(file_of("hostile"))
        self.assertEqual([len({note[place] for note in notes}) for place in range(49)], [64] * 49)
        self.assertIn("<" * 49, notes)

    def test_a_row_for_each_item(self):
        """Every line and ring has its row, in order, with its answer's number; blocks have a sentence."""
        tray = tray_file.tray_of(file_of("full"))
        text = answer(upload(file_of("full"), "5")).body.decode()
        heads = [f"Line {i}" for i in range(len(tray.lines))] + [f"Ring {i}" for i in range(len(tray.rings))]
        self.assertEqual([part.split("</th>")[0] for part in text.split('<th scope="row">')[1:]], heads)
        self.assertIn(f"{len(tray.blocks)} blocks of the tray are not shown", text)

    def test_what_stands_beside_a_note(self):
        text = answer(upload(file_of("notes"))).body.decode()
        self.assertIn("<th scope=\"row\">Line 2</th><td><samp>ITEM 4712: PRINT, 18 X 24, TORN AT THE LEFT      </samp></td><td>3</td><td>1</td><td></td>", text)
        self.assertIn("<th scope=\"row\">Ring 1</th><td><samp>ITEM 4715: PLATE, WHOLE                          </samp></td><td>9</td><td>1</td><td>113</td>", text)

    def test_every_refusal_in_words(self):
        """Each refusal that a line or ring can meet is shown with its number, and in words that the page has for it."""
        line, ring = 'line text "!TEMPLATE" number 1', "ring dark"
        met = {2: "line text \" \" number 1 wrong 0:64", 6: "line text \" \" number 1 turned 1", 14: line, 15: "line text \"A\" number 1", 10: ring}
        for number, item in met.items():
            text = answer(upload(make(f"radius 3\n{item}"))).body.decode()
            self.assertIn(f"<strong>Refused ({number})</strong>: {html.escape(page.REFUSED[number])}.", text)
        self.assertIn(f"<strong>Refused (3)</strong>: {page.REFUSED[3]}.", answer(upload(make(f"radius 6\n{line}"))).body.decode())
        self.assertEqual({3, *met}, set(page.REFUSED))

    def test_a_refusal_without_words_of_its_own(self):
        """A number that this page has no words for is shown in those of the library."""
        row = reading.Row("Line", 0, 7)
        self.assertIn(f"Refused (7)</strong>: {film.REFUSALS[7]}.", page.cells(row))

    def test_a_drawing_of_every_start(self):
        """A ring that answers 10 has an arrow for each start of its list, with its number, and no other has a drawing."""
        for name, radius in (("old-harm", 4), ("old-harm", 5), ("full", 5), ("paper", 5), ("notes", 3)):
            rings = tray_file.tray_of(file_of(name)).rings
            lists = [film.list_ring(ring, radius) for ring in rings if max(ring) < 64]
            text = answer(upload(file_of(name), str(radius))).body.decode()
            drawn = [[int(part.split("<")[0]) for part in figure.split("</svg>")[0].split('">') if part[:1].isdigit()] for figure in text.split("<figure>")[1:]]
            self.assertEqual(drawn, [starts for starts in lists if len(starts) > 1])

    def test_the_longest_tray(self):
        """255 lines, 255 dark rings, whose drawings have 126 starts each, and 255 blocks of 255 rows: as long as a tray can be."""
        file = make("radius 3\n" + "line text \" <\" number 9\n" * 255 + "ring dark\n" * 255 + "block 0*255\n" * 255)
        self.assertEqual(len(file), tray_file.LONGEST)
        self.assertEqual(tray_file.LONGEST, 97414)
        text = answer(upload(file)).body.decode("ascii")
        self.assertEqual(text.count(f"<samp>&lt;{' ' * 48}</samp>"), 255)
        self.assertEqual(text.count("<use "), 255 * (1 + 126))


class OldHarm(Quiet):
    """A plain note that was shown as a template with script, replayed."""

    def setUp(self):
        super().setUp()
        self.ring, = tray_file.tray_of(file_of("old-harm")).rings
        self.note = " NOTE: >)1(611#&411#&101#&801#&79#&=DAOLNO GVS<!"

    def test_what_it_is(self):
        """A recording of a plain note, with no wrong character, read at its true start."""
        line = film.encode_line([ord(c) - 32 for c in self.note.ljust(50)], 7)
        self.assertEqual(old_way.word_at(self.ring, 110), line)
        self.assertEqual(film.read_ring(self.ring, 1).start, 110)

    def test_the_old_way_would_have_run_it(self):
        """The first start that fits reads the note from behind, as a template, and the page then has a handler that opens a dialog."""
        self.assertEqual(film.list_ring(self.ring, 4), [0, 3, 6, 49, 56, 59, 110])
        text = old_way.text_of(old_way.first_fit(self.ring, 4))
        self.assertEqual(text[0], chr(32 + 1))
        self.assertEqual(text[:48], self.note[::-1])
        self.assertIn(("svg", "onload", "alert(1)"), Parsed(old_way.page(self.ring, 4)).harm())

    def test_the_panel_does_not(self):
        """At radius 4 and 5 the panel shows a refusal and no text; from 3 down the true note, as text."""
        for radius in page.RADII:
            read = shown(request(path=f"/sample?name=old-harm&radius={radius}"))
            self.assertEqual(read.harm(), [])
            self.assertEqual(read.notes, [] if radius > 3 else [self.note[1:].ljust(49)])
            self.assertEqual("Refused (10)" in read.text, radius > 3)


class Refused(Quiet):
    def status(self, data, **more):
        """The status of a request that is not met: its page has words, the forms, and none of the request."""
        answered = answer(data, **more)
        self.check_head(answered)
        read = Parsed(answered.body.decode("ascii"))
        self.assertEqual((read.others, read.open, read.harm(), read.notes), ([], [], [], []))
        self.assertIn(f"<h2>{answered.status}</h2><p>", answered.body.decode())
        return answered.status

    def check_head(self, answered):
        self.assertIn("script-src 'none'", answered.headers["Content-Security-Policy"])
        self.assertEqual({name: answered.headers[name] for name in server.HEADERS}, server.HEADERS)
        self.assertEqual(int(answered.headers["Content-Length"]), len(answered.body))

    def test_the_head_of_every_answer(self):
        for data in (request(), request(path="/panel.css"), request(path="/sample?name=notes&radius=own"), upload(file_of("full"))):
            answered = answer(data)
            self.check_head(answered)
            self.assertEqual(answered.status, 200)

    def test_head_is_get_without_the_page(self):
        whole, head = answer(request()), answer(request("HEAD"))
        self.assertEqual((head.status, head.headers["Content-Length"], head.body), (200, str(len(whole.body)), b""))

    def test_what_may_be_asked(self):
        for path in ("/x", "/panel.css?x", "/?x=1", "/samples/full.tray", "/../refusals.txt", "/%2e%2e/refusals.txt", "http://[", "*", "/sample?name=x&radius=1"):
            self.assertEqual(self.status(request(path=path)), 404, path)
        for path in ("/sample", "/sample?name=full", "/sample?name=full&radius=6", "/sample?name=full&radius=", "/sample?name=full&radius=1&radius=1",
                     "/sample?name=full&radius=1&more=1", "/sample?name&radius", "/sample?%FF=1", "/sample?name=full&radius=%D9%A1"):
            self.assertEqual(self.status(request(path=path)), 400, path)
        self.assertEqual(self.status(request("POST", "/x", b"x", TYPE)), 404)

    def test_how_it_may_be_asked(self):
        """By GET or HEAD, and for a tray by POST; a refusal names the methods."""
        others = {method: ("/", "GET, HEAD, POST") for method in ("PUT", "DELETE", "OPTIONS", "TRACE", "get", "<SCRIPT>")}
        for method, (path, allow) in {**others, "GET": ("/tray", "POST"), "POST": ("/", "GET, HEAD")}.items():
            self.assertEqual(self.status(request(method, path)), 405)
            self.assertEqual(answer(request(method, path)).headers["Allow"], allow)

    def test_what_is_no_request(self):
        for data in (b"x\r\n\r\n", b"GET /\r\n\r\n", b"GET / HTTP/x\r\n\r\n", b"GET / HTTP/2.0\r\n\r\n", b"GET / <SCRIPT> HTTP/1.1\r\n\r\n", b"POST /\r\n\r\n",
                     b"\x16\x03\x01\x02\r\n"):
            self.assertEqual(self.status(data), 400, data)
        self.assertEqual(self.status(b"GET /" + b"x" * 70000 + b" HTTP/1.1\r\n\r\n"), 414)
        self.assertEqual(self.status(request(head={"X": "x" * 70000})), 431)
        self.assertEqual(self.status(request(head={f"X{i}": "x" for i in range(200)})), 431)
        for nothing in (b"", b"\r\n"):
            self.assertEqual(asking.ask(nothing), b"")

    def test_who_may_ask(self):
        """By an address or as localhost; a tray from the panel's own form."""
        for host in ("localhost", "localhost:8063", "127.0.0.1", "[::1]:8063", "192.0.2.7:80"):
            self.assertEqual(answer(request(head={"Host": host})).status, 200)
        for host in ("film.example", "film.example:8063", "127.0.0.1.film.example", "", "[::1", None):
            self.assertEqual(self.status(request(head={"Host": host})), 421, host)
        self.assertEqual(answer(upload(file_of("notes"), head={"Origin": f"http://{asking.HOST}"})).status, 200)
        for origin in ("null", "http://film.example", f"https://{asking.HOST}", "http://127.0.0.1:8064"):
            self.assertEqual(self.status(upload(file_of("notes"), head={"Origin": origin})), 403)

    def test_how_much_may_be_sent(self):
        """A tray's bytes and no more, with a length that is said once and truly."""
        for head, status in (({"Content-Length": None}, 411), ({"Transfer-Encoding": "chunked"}, 411), ({"Content-Length": "x"}, 400), ({"Content-Length": "-1"}, 400),
                             ({"Content-Length": "1e3"}, 400), ({"Content-Length": "9" * 5000}, 413), ({"Content-Length": "99415"}, 413), ({"Content-Length": "5000"}, 400),
                             ({"Content-Type": None}, 415), ({"Content-Type": "text/plain"}, 415), ({"Content-Type": "multipart/form-data"}, 415)):
            self.assertEqual(self.status(upload(file_of("notes"), head=head)), status, head)
        self.assertEqual(self.status(upload(file_of("notes")).replace(b"Content-Length", b"Content-Length: 1\r\nContent-Length")), 400)
        self.assertEqual(self.status(upload(bytes(tray_file.LONGEST + 1))), 413)
        self.assertEqual(self.status(upload(bytes(tray_file.LONGEST + form.FRAME))), 413)
        self.assertEqual(self.status(upload(bytes(1000000))), 413)

    def test_what_is_no_form(self):
        file, own = ("tray", file_of("notes")), ("radius", b"own")
        bodies = [b"", b"x", form_body(), form_body(file), form_body(own), form_body(file, own, own), form_body(file, own, ("more", b"")), form_body(file, ("radius", b"6")),
                  form_body(file, ("radius", b"\xff")), form_body(file, own)[:-4], form_body(file, own) + b"x", b"x" + form_body(file, own),
                  form_body(file, own).replace(b'"tray"', b'"TRAY"'), form_body(file, own).replace(b"\r\n\r\n", b"\r\n")]
        for body in bodies:
            self.assertEqual(self.status(request("POST", "/tray", body, {**TYPE, "Content-Length": len(body)})), 400, body)

    def test_what_is_no_tray(self):
        """A file that stops early, anywhere, and one with bytes left over; the page says where, in numbers alone."""
        whole = file_of("paper")
        for cut in range(len(whole)):
            self.assertEqual(self.status(upload(whole[:cut])), 422)
        self.assertIn(b"The file stops in line 0, after 8 of 63 bytes.", answer(upload(whole[:10])).body)
        self.assertEqual(self.status(upload(whole + b"<")), 422)
        self.assertIn(b"and the file has 1 more.", answer(upload(whole + b"<")).body)

    def test_a_request_that_does_not_come(self):
        """A form that is begun and not ended is refused in time."""
        seconds, server.SECONDS = server.SECONDS, 2
        try:
            self.assertEqual(self.status(upload(file_of("notes"))[:-1], ends=False), 408)
        finally:
            server.SECONDS = seconds

    def test_a_fault_of_ours(self):
        """Where the panel itself fails, the page says so and shows nothing of it; the log has it."""
        rows, server.rows = server.rows, None
        try:
            self.assertEqual(self.status(upload(file_of("notes"))), 500)
        finally:
            server.rows = rows
        self.assertIn("TypeError", self.log.getvalue())

    def test_nothing_of_a_request_is_shown_or_written_down(self):
        for data in (request(path="/SPOT"), request(path="/sample?name=SPOT&radius=SPOT"), request("SPOT"), b"SPOT\r\n\r\n", request(head={"Host": "SPOT", "User-Agent": "SPOT"}),
                     upload(b"SPOT"), request("POST", "/tray", b"SPOT", TYPE), upload(file_of("notes"), "SPOT")):
            self.assertNotIn(b"SPOT", asking.ask(data))
        self.assertNotIn("SPOT", self.log.getvalue())
        self.assertEqual(len(self.log.getvalue().splitlines()), 8)


class Serving(Quiet):
    """The server as a whole, over the network."""

    def setUp(self):
        super().setUp()
        self.server = server.Server(server.LOOPBACK, 0)
        self.addCleanup(self.server.server_close)
        thread = threading.Thread(target=self.server.serve_forever, kwargs={"poll_interval": 0.05})
        thread.start()
        self.addCleanup(thread.join)
        self.addCleanup(self.server.shutdown)

    def ask(self, data):
        with socket.create_connection(self.server.server_address) as connection:
            connection.sendall(data)
            sent = b""
            while taken := connection.recv(1 << 16):
                sent += taken
        return asking.parse(sent)

    def test_it_is_on_the_loopback_address(self):
        self.assertEqual(server.main.__defaults__, (server.PORT, "127.0.0.1"))
        self.assertEqual(self.server.server_address[0], "127.0.0.1")
        self.assertEqual(self.ask(request()).status, 200)

    def test_a_refusal_is_seen_by_who_still_sends(self):
        """A million bytes are refused by their count, and the answer still comes."""
        self.assertEqual(self.ask(upload(bytes(1000000))).status, 413)

    def test_nothing_is_kept(self):
        """After trays, good and bad, no file is new, and every page is as it was."""
        with tempfile.TemporaryDirectory() as room:
            before, (here, temporary) = self.ask(request()).body, (os.getcwd(), tempfile.tempdir)
            try:
                os.chdir(room)
                tempfile.tempdir = room
                tree = sorted(places.ROOT.glob("panel/**/*"))
                for data in (upload(file_of("hostile")), upload(b"x"), upload(bytes(100000))):
                    self.ask(data)
                self.assertEqual((os.listdir(room), sorted(places.ROOT.glob("panel/**/*"))), ([], tree))
            finally:
                os.chdir(here)
                tempfile.tempdir = temporary
            self.assertEqual(self.ask(request()).body, before)

    def test_who_sends_nothing(self):
        """As many as are served at once send nothing: who comes then is answered all the same, once their time is over."""
        seconds, server.SECONDS = server.SECONDS, 2
        try:
            with contextlib.ExitStack() as stack:
                for _ in range(server.AT_ONCE):
                    stack.enter_context(socket.create_connection(self.server.server_address))
                self.assertEqual(self.ask(request()).status, 200)
        finally:
            server.SECONDS = seconds


if __name__ == "__main__":
    unittest.main()
