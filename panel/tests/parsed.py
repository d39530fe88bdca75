"""A page as Python's parser of pages finds it: its tags with their attributes, its notes, and whatever is neither tag nor text."""

import html.parser

# what has no end tag in a page
ALONE = ("meta", "link", "input", "br")


class Parsed(html.parser.HTMLParser):
    """`tags`: each tag with its attributes, in order. `notes`: the text within each samp. `others`: comments and declarations. `open`: what is not closed."""

    def __init__(self, text):
        super().__init__()
        self.tags, self.notes, self.others, self.open, self.text = [], [], [], [], ""
        self.feed(text)
        self.close()

    def handle_starttag(self, tag, attrs):
        self.tags.append((tag, attrs))
        if tag not in ALONE:
            self.open.append(tag)
        if tag == "samp":
            self.notes.append("")

    def handle_startendtag(self, tag, attrs):
        self.tags.append((tag, attrs))

    def handle_endtag(self, tag):
        self.tags.append(("/" + tag, []))
        if not self.open or self.open.pop() != tag:
            self.others.append(("end", tag))

    def handle_data(self, data):
        self.text += data
        if self.open[-1:] == ["samp"]:
            self.notes[-1] += data

    def other(self, *found):
        self.others.append(found)

    handle_comment = handle_pi = unknown_decl = other

    def handle_decl(self, decl):
        if (decl, self.tags) != ("DOCTYPE html", []):
            self.others.append((decl,))

    def harm(self):
        """Script, images, frames and handlers, of which the panel writes none."""
        return [(tag, name, value) for tag, attrs in self.tags for name, value in [*attrs, (None, None)]
                if tag in ("script", "img", "image", "iframe", "object", "embed", "base") or (name or "").startswith("on")]
