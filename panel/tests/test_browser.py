"""Tests of the panel in a real browser: hostile notes are text and nothing else, and the old harm, which runs when it is shown the old way, does not.

With the word `screenshots` it writes the handbook's pictures instead, docs/panel-notes.png and docs/panel-old-harm.png."""

import contextlib
import http.server
import io
import pathlib
import sys
import tempfile
import threading
import unittest

import places
import expected
import old_way
import page
import server
import tray_file
from browser import Browser
from places import ROOT, SAMPLES
from tray import make

# all that a document is made of but its text, its notes as they are seen, and what of it could act
FOUND = """(() => {
    const all = [...document.querySelectorAll('*')];
    return {
        elements: all.map(e => [e.localName, ...[...e.attributes].map(a => a.name + '=' + a.value)].join(' ')),
        notes: [...document.querySelectorAll('samp')].map(e => e.innerText),
        parts: [...document.querySelectorAll('samp')].map(e => [...e.childNodes].map(c => c.nodeType).join()),
        widths: [...new Set([...document.querySelectorAll('samp')].map(e => Math.round(e.getBoundingClientRect().width)))],
        scripts: document.scripts.length, images: document.images.length, frames: window.length,
        handlers: all.flatMap(e => [...e.attributes]).filter(a => a.name.startsWith('on')).length,
        comments: document.createTreeWalker(document, NodeFilter.SHOW_COMMENT).nextNode() !== null,
        seen: document.body.innerText,
    };
})()"""
TEXT_NODE = "3"


class Raw(http.server.BaseHTTPRequestHandler):
    """Serves one page as it is, in the place of a panel: `content`, with the fields of `head`."""

    content, head = "", {}

    def do_GET(self):
        self.send_response(200)
        for name, value in {"Content-Type": "text/html; charset=utf-8", **self.head}.items():
            self.send_header(name, value)
        self.end_headers()
        self.wfile.write(self.content.encode())

    def log_message(self, *_):
        pass


@contextlib.contextmanager
def served(one):
    """A server at work, and its address."""
    thread = threading.Thread(target=one.serve_forever, kwargs={"poll_interval": 0.05})
    thread.start()
    try:
        yield "http://%s:%d" % one.server_address[:2]
    finally:
        one.shutdown()
        thread.join()
        one.server_close()


def raw(content, head=None):
    return served(http.server.ThreadingHTTPServer((server.LOOPBACK, 0), type("Page", (Raw,), {"content": content, "head": head or {}})))


class Tests(unittest.TestCase):
    @classmethod
    def setUpClass(cls):
        cls.enterClassContext(contextlib.redirect_stderr(io.StringIO()))
        cls.panel = cls.enterClassContext(served(server.Server(server.LOOPBACK, 0)))
        cls.room = pathlib.Path(cls.enterClassContext(tempfile.TemporaryDirectory()))
        cls.browser = cls.enterClassContext(contextlib.closing(Browser()))

    def harmless(self, path):
        """What is found in the page that stands: nothing that could act, nothing asked for but the page and its style, no dialog, no warning."""
        found = self.browser.evaluate(FOUND)
        self.assertEqual([found[part] for part in ("scripts", "images", "frames", "handlers", "comments")], [0, 0, 0, 0, False])
        self.assertEqual(set(found["parts"]) - {TEXT_NODE}, set())
        self.assertEqual((self.browser.dialogs, self.browser.warnings), ([], []))
        self.assertEqual({address.partition("?")[0] for address in self.browser.requests}, {self.panel + path, self.panel + "/panel.css"})
        return found

    def shown(self, name, radius=page.OWN):
        """A sample's page, found harmless."""
        self.browser.load(f"{self.panel}/sample?name={name}&radius={radius}")
        return self.harmless("/sample")

    def handed_over(self, description, radius=page.OWN):
        """The page of a tray that is handed over by the form, found harmless."""
        file = self.room / "x.tray"
        file.write_bytes(make(description))
        self.browser.load(self.panel + "/")
        self.browser.hand_over(file, radius)
        return self.harmless("/tray")

    def test_hostile_notes_are_text(self):
        """Every character at every place, the five names, tags: what is seen is the film's text exactly, in cells of one width, and the document has the
        elements and attributes that it has when every note is blank, one for one."""
        description = (SAMPLES / "hostile.txt").read_text()
        hostile, blank = self.handed_over(description), self.handed_over(expected.blank(description))
        self.assertEqual(hostile["notes"], expected.notes(make(description)))
        self.assertEqual(hostile["elements"], blank["elements"])
        self.assertEqual(len(hostile["widths"]), 1)
        self.assertEqual((hostile["widths"], len(blank["notes"])), (blank["widths"], len(hostile["notes"])))

    def test_every_sample(self):
        for name in page.SAMPLES:
            found = self.shown(name)
            self.assertEqual(found["notes"], expected.notes((SAMPLES / f"{name}.tray").read_bytes()))

    def test_the_old_harm(self):
        """The old way opens its dialog in this browser. The panel shows a refusal with the seven starts drawn, and at radius 1 the true note."""
        ring, = tray_file.tray_of((SAMPLES / "old-harm.tray").read_bytes()).rings
        with raw(old_way.page(ring, 4)) as address:
            self.browser.load(address)
            self.assertEqual(self.browser.dialogs, ["1"])
            self.assertEqual(self.browser.evaluate(FOUND)["handlers"], 1)
        found = self.shown("old-harm")
        self.assertIn("Refused (10)", found["seen"])
        self.assertEqual((found["notes"], sum(element.startswith("text ") for element in found["elements"])), ([], 7))
        self.assertEqual(self.shown("old-harm", 1)["notes"], [" NOTE: >)1(611#&411#&101#&801#&79#&=DAOLNO GVS<!"[1:].ljust(49)])

    def test_the_head_alone_would_stop_it(self):
        """The old page under the panel's head: the browser does not let the handler run, and says so."""
        ring, = tray_file.tray_of((SAMPLES / "old-harm.tray").read_bytes()).rings
        with raw(old_way.page(ring, 4), server.HEADERS) as address:
            self.browser.load(address)
            self.assertEqual(self.browser.dialogs, [])
            self.assertTrue(any("Content Security Policy" in warning for warning in self.browser.warnings), self.browser.warnings)

    def test_the_checks_see_harm(self):
        """Hostile notes put into a page as they are: the document is another than with blank notes, and script, images and handlers are found in it."""
        notes = expected.notes((SAMPLES / "hostile.tray").read_bytes())
        seen = set()
        for note in notes:
            if "<" in note[:1]:
                with raw(f"<!DOCTYPE html><title>x</title><samp>{note}</samp>") as address:
                    self.browser.load(address)
                    found = self.browser.evaluate(FOUND)
                    seen |= {part for part in ("scripts", "images", "frames", "handlers", "comments") if found[part]}
        self.assertEqual(seen, {"scripts", "images", "frames", "handlers", "comments"})

    def test_a_refused_upload_is_told(self):
        """A file that is too long, and one that is no tray: the browser shows the refusal's page, and not that the connection broke."""
        file = self.room / "x.tray"
        for content, status in ((bytes(1000000), "413"), (bytes(tray_file.LONGEST + 1), "413"), (b"<SCRIPT SRC=//X>", "422")):
            file.write_bytes(content)
            self.browser.load(self.panel + "/")
            self.browser.hand_over(file, "own")
            found = self.browser.evaluate(FOUND)
            self.assertEqual((found["scripts"], self.browser.dialogs), (0, []))
            self.assertIn(f"\n{status}\n", found["seen"])


def screenshots():
    """The handbook's pictures."""
    with contextlib.redirect_stderr(io.StringIO()), served(server.Server(server.LOOPBACK, 0)) as panel, contextlib.closing(Browser()) as browser:
        for name in ("notes", "old-harm"):
            browser.load(f"{panel}/sample?name={name}&radius={page.OWN}")
            (ROOT / "docs" / f"panel-{name}.png").write_bytes(browser.screenshot(960))


if __name__ == "__main__":
    screenshots() if sys.argv[1:] == ["screenshots"] else unittest.main()
