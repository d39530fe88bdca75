"""Tests of panel text in a page: three parsers that are not ours read the text back, and see no tag and no attribute but the page's own."""

import html
import html.parser
import random
import unittest
import xml.etree.ElementTree

from words import film

LETTERS = "".join(chr(32 + v) for v in range(64))

# What would do harm in a page, or looks as if a name had been undone twice.
HOSTILE = [
    "<SCRIPT SRC=//X></SCRIPT>", "</P><IMG SRC=X ONERROR=[][0]>", "\"><SCRIPT SRC=//X>", "'><SCRIPT SRC=//X>", "\" ONCLICK=\"X", "' ONCLICK='X", "<!--", "-->",
    "]]>", "<![CDATA[", "<?X ?>", "</", "&", "&&", "&;", "&#39;", "&#60;SCRIPT&#62;", "&#X3C;", "&LT;B&GT;", "&LT", "&AMP;LT;", "&QUOT;", "<&>\"'<&>\"'",
    "&AMP", "&#",
]


def page(shown):
    """A page with a text in each place that the handbook names: between tags, and in an attribute between quotes of either kind."""
    return f"<p title=\"{shown}\" lang='{shown}'>{shown}</p>"


class Read(html.parser.HTMLParser):
    """What Python's parser of pages finds: tags with their attributes, text, and whatever is neither."""

    def __init__(self, text):
        super().__init__()
        self.tags, self.text, self.others = [], "", []
        self.feed(text)
        self.close()

    def handle_starttag(self, tag, attrs):
        self.tags.append((tag, attrs))

    def handle_endtag(self, tag):
        self.tags.append(("/" + tag, []))

    def handle_data(self, data):
        self.text += data

    def other(self, *found):
        self.others.append(found)

    handle_comment = handle_decl = handle_pi = unknown_decl = other


class Tests(unittest.TestCase):
    def read_back(self, note):
        """A plain note of up to 49 characters, filled up with spaces, is what each parser reads in the page."""
        note = note.ljust(49)
        shown = film.panel_text(bytes([0] + [ord(c) - 32 for c in note]))
        self.assertEqual(html.unescape(shown), note)
        read = Read(page(shown))
        self.assertEqual((read.tags, read.text, read.others), ([("p", [("title", note), ("lang", note)]), ("/p", [])], note, []))
        tree = xml.etree.ElementTree.fromstring(page(shown))
        self.assertEqual((len(tree), tree.text, tree.attrib), (0, note, {"title": note, "lang": note}))

    def test_every_character_at_every_place(self):
        for place in range(49):
            for letter in LETTERS:
                self.read_back("-" * place + letter)

    def test_hostile_texts(self):
        for note in HOSTILE:
            self.read_back(note)
            self.read_back(note.rjust(49))

    def test_random_texts(self):
        source = random.Random(1)
        for letters in (LETTERS, "&<>\"'", "&#39;LTGAMP<>X"):
            for _ in range(1000):
                self.read_back("".join(source.choices(letters, k=49)))

    def test_the_test_sees_tags(self):
        """The same notes put into the page as they are: the parser sees the tags, which these tests would then report."""
        seen = Read(page("<SCRIPT SRC=//X></SCRIPT>"))
        self.assertIn(("script", [("src", "//x")]), [(tag, [(name, value.lower()) for name, value in attrs]) for tag, attrs in seen.tags])
        self.assertNotEqual(Read(page("\" ONCLICK=\"X")).tags[0][1][0], ("title", "\" ONCLICK=\"X"))
        self.assertNotEqual(html.unescape("&LT;B"), "&LT;B")


if __name__ == "__main__":
    unittest.main()
