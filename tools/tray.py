"""Makes a tray file from a description in plain text, and shows a tray file as such a description.

    python3 tools/tray.py make DESCRIPTION TRAY
    python3 tools/tray.py show TRAY

The name - stands for standard input or output. What `show` writes is itself a description: `make` turns it back into the same bytes.
samples/paper.txt and samples/full.txt are descriptions to begin with.

A description has one statement on a row, in the order of the file. Empty rows are free; # begins a comment. Numbers are decimal.

    radius 5              the radius byte; it comes first
    line WORD             63 bytes to be read as a line
    ring WORD             63 bytes to be read as a ring
    block 3 253           a block of these rows, 0 to 255 of them; 7*20 stands for twenty rows of 7
    block data 3 1        the proper block with these data rows, 1 to 63 of them, each at most 127
    lines 2               a section's count, before its items (also rings 2, blocks 2); it may be left out, and is worked out then
    cut 00 1F             the file stops here, after these bytes (or none) of what should come next; alone, it makes any file
    more 00 1F            bytes left over, after the blocks

All lines come before all rings, and these before all blocks. A WORD is one of

    text "HELLO" number 65      the line with this text and number: up to 50 characters from space to _ of ASCII, that is capital letters,
                                digits and punctuation, filled up with spaces; a quote is written twice; the number is at most 4095
    zero                        the line of zero text and number 0
    dark                        63 zeros
    hex 00 1F ..                63 bytes in hexadecimal, spaces free

and after it stand any of these changes, done from left to right:

    wrong 60:5 3:1        5 is exclusive-or'ed into the byte at 60, and 1 into that at 3
    turned 7              a ring whose start 7 reads the word: address a goes to place (7 + a) mod 63
    reversed 3            a ring whose start 66, which is 63 + 3, reads the word: address a goes to place (3 - a) mod 63

So `wrong` before `turned` names addresses of the line, and after it places of the ring. A block takes `wrong ROW:BITS` too.

In what `show` writes, a comment gives the plain form of each item. There a ~ stands for a byte over 63, which is no character.
"""

import functools
import re
import sys

KINDS = ("line", "ring", "block")


class Fault(Exception):
    """What is wrong with a description."""


# The code: a line from its text and number, a block from its data rows.

@functools.lru_cache(maxsize=None)
def product(u, v):
    """Of polynomials over bits, reduced by x^6 + x + 1."""
    result = 0
    while v:
        result ^= u if v & 1 else 0
        u = u << 1 if u < 32 else u << 1 ^ 0b1000011
        v >>= 1
    return result


def generator():
    """The product of (x + alpha^j), j from -5 to 5, highest degree first."""
    powers = [1]
    while len(powers) < 63:
        powers.append(product(powers[-1], 2))
    result = [1]
    for j in range(-5, 6):
        result = [high ^ product(powers[j % 63], low) for high, low in zip(result + [0], [0] + result)]
    return result


GENERATOR = generator()
MARKS = {52: 32, 55: 8, 62: 1}


def line(text, number):
    """The line with these 50 characters and this number: the checks are the remainder of a long division, with the marks added."""
    characters = [*text, number >> 6, number & 63]
    rest = characters + [0] * 11
    for i in range(52):
        rest[i:i + 12] = [r ^ product(rest[i], g) for r, g in zip(rest[i:i + 12], GENERATOR)]
    word = characters + rest[52:]
    for address, mark in MARKS.items():
        word[address] ^= mark
    return word


def block(data):
    """The proper block with these data rows: the highest bit makes each row even, and the last row makes each column odd."""
    rows = [row + 128 * (bin(row).count("1") % 2) for row in data]
    return rows + [functools.reduce(lambda u, v: u ^ v, rows, 255)]


# From a description to bytes. `words` holds what is not read yet of a row of the description; who reads a word takes it away.

def words_of(row):
    words = re.findall(r'"(?:[^"]|"")*"|"|#.*|[^\s"#]+', row)
    if '"' in words:
        raise Fault("a quote is not closed")
    return [word for word in words if not word.startswith("#")]


def take(words, what):
    if not words:
        raise Fault(f"{what} is missing")
    return words.pop(0)


def decimal(word, what, low, high):
    if not re.fullmatch("[0-9]{1,9}", word) or not low <= int(word) <= high:
        raise Fault(f"{what} is a number from {low} to {high}, not {word or 'nothing'}")
    return int(word)


def take_hex(words):
    """All words that follow, as long as they are hexadecimal."""
    digits = ""
    while words and re.fullmatch("[0-9A-Fa-f]+", words[0]):
        digits += words.pop(0)
    if len(digits) % 2 == 1:
        raise Fault(f"an odd number of hexadecimal digits: {len(digits)}")
    return list(bytes.fromhex(digits))


def take_text(words):
    word = take(words, "the text in quotes")
    if not word.startswith('"'):
        raise Fault(f"a text stands in quotes, not as {word}")
    text = word[1:-1].replace('""', '"')
    for character in text:
        if not " " <= character <= "_":
            raise Fault(f"{character} is no character of a line: these are the ASCII characters from space to _")
    if len(text) > 50:
        raise Fault(f"a text has up to 50 characters, not {len(text)}")
    return [ord(character) - 32 for character in text.ljust(50)]


def take_wrong(words, word):
    """PLACE:VALUE, once or more: each value is exclusive-or'ed into the word."""
    changes = [take(words, "what is wrong")]
    while words and ":" in words[0]:
        changes.append(words.pop(0))
    for change in changes:
        place, colon, value = change.partition(":")
        if not colon:
            raise Fault(f"after wrong stands PLACE:VALUE, not {change}")
        if not word:
            raise Fault("in a block of 0 rows nothing is wrong")
        word[decimal(place, "the place of what is wrong", 0, len(word) - 1)] ^= decimal(value, "the value of what is wrong", 1, 255)


def take_word(words):
    """The 63 bytes of a line or ring."""
    form = take(words, "text, zero, dark or hex")
    if form == "text":
        text = take_text(words)
        if take(words, "the number") != "number":
            raise Fault("after the text stands its number, as in number 65")
        word = line(text, decimal(take(words, "the number"), "the number", 0, 4095))
    elif form == "zero":
        word = line([0] * 50, 0)
    elif form == "dark":
        word = [0] * 63
    elif form == "hex":
        word = take_hex(words)
        if len(word) != 63:
            raise Fault(f"a line or ring has 63 bytes, not {len(word)}")
    else:
        raise Fault(f"a line or ring is text, zero, dark or hex, not {form}")
    while words:
        change = words.pop(0)
        if change == "wrong":
            take_wrong(words, word)
        elif change in ("turned", "reversed"):
            start = decimal(take(words, "the start"), "the start", 0, 62)
            word = [word[(place - start if change == "turned" else start - place) % 63] for place in range(63)]
        else:
            raise Fault(f"a change is wrong, turned or reversed, not {change}")
    return word


def take_block(words):
    """The row count and the rows of a block."""
    is_data = words[:1] == ["data"]
    del words[:is_data]
    rows = []
    while words and words[0] != "wrong":
        row, star, times = words.pop(0).partition("*")
        rows += [decimal(row, "a row", 0, 127 if is_data else 255)] * (decimal(times, "how often a row stands", 1, 255) if star else 1)
    if len(rows) > 255:
        raise Fault(f"a block has up to 255 rows, not {len(rows)}")
    if is_data:
        if not 1 <= len(rows) <= 63:
            raise Fault(f"a block has 1 to 63 data rows, not {len(rows)}")
        rows = block(rows)
    while words[:1] == ["wrong"]:
        words.pop(0)
        take_wrong(words, rows)
    return [len(rows), *rows]


class Draft:
    """The bytes so far, and the section they have come to: its place in KINDS, how many items it has, the count given for it, where that byte is."""

    def __init__(self):
        self.bytes, self.ending = bytearray(), None
        self.section, self.items, self.count, self.count_at = -1, 0, None, 0

    def go_to(self, kind):
        """Begins the sections up to this one, as far as they are not begun."""
        if not self.bytes:
            raise Fault("the radius comes first")
        if self.section > KINDS.index(kind):
            raise Fault(f"a {kind} stands after the {KINDS[self.section]}s: the order is lines, rings, blocks")
        while self.section < KINDS.index(kind):
            self.close()
            self.section, self.items, self.count, self.count_at = self.section + 1, 0, None, len(self.bytes)
            self.bytes.append(0)

    def close(self):
        if self.count not in (None, self.items):
            raise Fault(f"{self.items} of {self.count} {KINDS[self.section]}s stand before this; a file that stops early ends in cut")

    def add_count(self, count):
        if self.items or self.count is not None:
            raise Fault("a count stands once, before the items")
        self.count = self.bytes[self.count_at] = count

    def add_item(self, item):
        self.items += 1
        if self.items > (255 if self.count is None else self.count):
            raise Fault(f"this is one {KINDS[self.section]} too many")
        if self.count is None:
            self.bytes[self.count_at] = self.items
        self.bytes += bytes(item)

    def add(self, words):
        """Takes in one statement."""
        head = words.pop(0)
        if self.ending not in (None, head):
            raise Fault(f"{head} stands after {self.ending}, where the file ends")
        if head == "radius":
            if self.bytes:
                raise Fault("there is one radius, and it comes first")
            self.bytes.append(decimal(take(words, "the radius"), "the radius", 0, 255))
        elif head in KINDS:
            self.go_to(head)
            self.add_item(take_block(words) if head == "block" else take_word(words))
        elif head[-1] == "s" and head[:-1] in KINDS:
            self.go_to(head[:-1])
            self.add_count(decimal(take(words, "the count"), "the count", 0, 255))
        elif head in ("cut", "more"):
            if head == "more":
                self.finish()
            self.ending = head
            self.bytes += bytes(take_hex(words))
        else:
            raise Fault(f"a row begins with radius, line, ring, block, lines, rings, blocks, cut or more, not {head}")
        if words:
            raise Fault(f"{words[0]} is one word too many")

    def finish(self):
        if self.ending is None:
            self.go_to("block")
            self.close()


def make(description):
    """The bytes of a tray file, from its description."""
    draft, row_number = Draft(), 0
    try:
        for row_number, row in enumerate(description.split("\n"), 1):
            words = words_of(row)
            if words:
                draft.add(words)
        draft.finish()
    except Fault as fault:
        raise Fault(f"line {row_number} of the description: {fault}") from None
    return bytes(draft.bytes)


# From bytes to a description.

class Cut(Exception):
    """Where a tray file stops early."""


def plain(characters):
    return '"' + "".join(chr(32 + c) if c < 64 else "~" for c in characters).replace('"', '""') + '"'


def shown_line(word):
    text, number, checks = word[:50], word[50:52], word[52:]
    numbered = f"number {number[0] * 64 + number[1]}" if max(number) < 64 else "no number"
    is_line = max(word) < 64 and list(word) == line(text, number[0] * 64 + number[1])
    return (f"text {plain(text.rstrip(bytes(1)))} {numbered}; {'a line' if is_line else 'no line as it stands'}",
            f"line hex {text.hex()} {number.hex()} {checks.hex()}")


def shown_ring(word):
    return plain(word), f"ring hex {word.hex()}"


def shown_block(rows):
    if not 2 <= len(rows) <= 64:
        what = "not 2 to 64 rows"
    else:
        proper = bytes(block([row & 127 for row in rows[:-1]]))
        even = proper[:-1] + bytes([proper[-1] ^ 255])
        what = {proper: "proper", even: "not proper: every column is even"}.get(bytes(rows), "not proper as it stands")
    return f"hex {rows.hex(' ')}; {what}" if rows else what, " ".join(["block", *map(str, rows)])


def show(tray):
    """The description of a tray file, whatever its bytes: `make` gives them back."""
    result = [f"# A tray file. Its length in bytes: {len(tray)}."]
    at = described = 0  # how many bytes are taken, and of how many the statement is written

    def taken(count, what):
        nonlocal at
        there = len(tray) - at
        if there < count:
            raise Cut(f"in {what}, after {there} of {count} bytes" if there else f"before {what}")
        at += count
        return tray[at - count:at]

    def rest(head):
        return [f"{head} {tray[i:i + 32].hex(' ')}".rstrip() for i in range(described, len(tray), 32)] or [head]

    try:
        result += [f"radius {taken(1, 'the radius')[0]}"]
        described = at
        for kind in KINDS:
            count = taken(1, f"the count of {kind}s")[0]
            result += ["", f"{kind}s {count}"]
            described = at
            for i in range(count):
                if kind == "block":
                    row_count = taken(1, f"the row count of block {i}")[0]
                    comment, statement = shown_block(taken(row_count, f"the rows of block {i}"))
                else:
                    comment, statement = (shown_line if kind == "line" else shown_ring)(taken(63, f"{kind} {i}"))
                result += [f"# {kind} {i}: {comment}", statement]
                described = at
        if at < len(tray):
            result += ["", f"# Bytes left over: {len(tray) - at}.", *rest("more")]
        else:
            result += ["", "# The file is whole, and nothing is left over."]
    except Cut as cut:
        result += ["", f"# The file stops {cut}.", *rest("cut")]
    return "\n".join(result) + "\n"


def main(arguments):
    def opened(name, mode):
        return open((0 if mode == "rb" else 1) if name == "-" else name, mode)

    def read(name):
        with opened(name, "rb") as file:
            return file.read()

    try:
        if len(arguments) == 3 and arguments[0] == "make":
            tray = make(read(arguments[1]).decode(errors="replace"))
            with opened(arguments[2], "wb") as file:
                file.write(tray)
        elif len(arguments) == 2 and arguments[0] == "show":
            print(show(read(arguments[1])), end="")
        elif arguments in (["--help"], ["-h"]):
            print(__doc__, end="")
        else:
            print("usage: tray.py make DESCRIPTION TRAY | tray.py show TRAY | tray.py --help", file=sys.stderr)
            return 2
    except (Fault, OSError) as fault:
        print(f"tray.py: {fault}", file=sys.stderr)
        return 1
    return 0


if __name__ == "__main__":
    sys.exit(main(sys.argv[1:]))
