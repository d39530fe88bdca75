"""What a browser sends for the panel's forms, taken apart: multipart/form-data, and the words of an address."""

import re
import urllib.parse

# what a form may add to its file: names, lengths and the lines between
FRAME = 2000
_TYPE = re.compile(r'multipart/form-data; *boundary="?([0-9A-Za-z\'()+_,./:=?-]{1,70})"?', re.IGNORECASE)
_NAME = re.compile(rb'content-disposition: *form-data; *name="([a-z]{1,20})"', re.IGNORECASE)


class Unfit(Exception):
    """A request that is not met: its status, and why, in words of ours; where another method is wanted, `allow` names it."""

    def __init__(self, status, words, allow=""):
        super().__init__(words)
        self.status, self.words, self.allow = status, words, allow


def boundary_of(content_type):
    """What stands between the parts of a form."""
    found = _TYPE.fullmatch(content_type or "")
    if not found:
        raise Unfit(415, "A tray is sent by the form: multipart/form-data with a boundary.")
    return found[1].encode("ascii")


def parts(body, boundary):
    """The fields of a form by name. Each stands once, and nothing stands beside them."""
    before, *pieces = (b"\r\n" + body).split(b"\r\n--" + boundary)
    if before or not pieces or pieces.pop() not in (b"--", b"--\r\n"):
        raise Unfit(400, "The form does not begin and end as its boundary says.")
    fields = {}
    for piece in pieces:
        head, blank, content = piece.partition(b"\r\n\r\n")
        name = next(filter(None, map(_NAME.match, head.split(b"\r\n"))), None)
        if not blank or not name or name[1] in fields:
            raise Unfit(400, "A part of the form has no name of its own.")
        fields[name[1]] = content
    return {name.decode("ascii"): content for name, content in fields.items()}


def query(words):
    """The fields of an address by name, each once."""
    try:
        pairs = urllib.parse.parse_qsl(words, keep_blank_values=True, strict_parsing=True, errors="strict", max_num_fields=4) if words else []
    except ValueError:
        raise Unfit(400, "The words after the question mark are not name=value.") from None
    if len(dict(pairs)) < len(pairs):
        raise Unfit(400, "A name stands twice after the question mark.")
    return dict(pairs)


def named(fields, *names):
    """The fields of these names, where there are no others."""
    if set(fields) != set(names):
        raise Unfit(400, f"These fields are wanted, and no others: {', '.join(names)}.")
    return [fields[name] for name in names]
