"""What the tests of the command share: running it as a user does, items by chance, and the row that each item has to have, worked out one by one."""

import json
import os
import subprocess
import sys
import unittest
from typing import NamedTuple

from words import BINDING, film

from film_command import words

ROOT = BINDING.parents[1]
FILM = [sys.executable, "-B", str(ROOT / "tools" / "film")]
SAMPLES = ROOT / "samples"
WORD = 63
# what a hung command is given before a test fails
SECONDS = 60


class Ended(NamedTuple):
    """How the command ended: its status, and what it wrote."""

    status: int
    out: bytes
    said: str

    @property
    def rows(self):
        return self.out.decode("ascii").splitlines()

    @property
    def objects(self):
        return [json.loads(row) for row in self.rows]


def film_command(*given, input=b"", **environment):
    """Runs the command."""
    ended = subprocess.run([*FILM, *map(str, given)], input=input, capture_output=True, timeout=SECONDS, env={**os.environ, **environment})
    return Ended(ended.returncode, ended.stdout, ended.stderr.decode())


class CommandCase(unittest.TestCase):
    maxDiff = None

    def assert_bad_use(self, *given, input=b"", **environment):
        """It ends with 2, writes nothing, and says why in one line, without a traceback; gives that line."""
        ended = film_command(*given, input=input, **environment)
        self.assertEqual((ended.status, ended.out), (2, b""), (given, ended))
        self.assertRegex(ended.said, r"\Afilm[^\n]*: [^\n]+\n\Z", given)
        return ended.said


# ---- items by chance


def damaged(chance, word, wrong):
    """The word with so many characters wrong."""
    word = bytearray(word)
    for at in chance.sample(range(WORD), wrong):
        word[at] ^= chance.randrange(1, 64)
    return bytes(word)


def line(chance):
    """A line of any kind, more often plain, with up to seven wrong characters, sometimes a byte that is none, or nothing but chance."""
    if chance.random() < 0.1:
        return bytes(chance.randrange(64) for _ in range(WORD))
    kind = chance.choice([0, 0, 0, 1, chance.randrange(64)])
    text = bytes(chance.randrange(64) for _ in range(chance.randrange(50))).ljust(49, b"\0")
    word = damaged(chance, film.encode_line(bytes([kind]) + text, chance.randrange(4096)), chance.choice([0, 0, 1, 2, 3, 4, 5, 6, 7]))
    return word if chance.random() < 0.9 else damaged(chance, word, 1).replace(word[40:41], bytes([chance.randrange(64, 256)]))


def ring(chance):
    """A line turned, or reversed; or dark film."""
    if chance.random() < 0.1:
        return bytes(WORD)
    word, start = line(chance), chance.randrange(WORD)
    turned = word[-start:] + word[:-start]
    return turned if chance.random() < 0.5 else turned[::-1]


def block(chance):
    """The rows of a block, proper but for up to two bits; or any rows."""
    if chance.random() < 0.2:
        return bytes(chance.randrange(256) for _ in range(chance.choice([0, 1, 2, 8, 64, 65, 255])))
    rows = bytearray(film.encode_block(bytes(chance.randrange(128) for _ in range(chance.randrange(1, 64)))))
    for _ in range(chance.randrange(3)):
        rows[chance.randrange(len(rows))] ^= 1 << chance.randrange(8)
    return bytes(rows)


# ---- the rows that they have to have


def refused(item, index, number, starts=()):
    """A refusal as an object, with the words that have to stand there at least."""
    said = f"the ring fits at {len(starts)} starts, and none is picked; film explain shows them" if starts else words.REFUSED[number]
    return {"item": item, "index": index, "answer": number, "refused": said, **({"starts": starts} if starts else {})}


def changed(read):
    return {"first": None, "last": None} if read.distance == 0 else {"first": read.first, "last": read.last}


def note(line, panel):
    """The text of a line, or its panel text, by the package."""
    if panel:
        return {"panel": film.panel_text(line[:50]).rstrip(" ")}
    return film.text_of(line)._asdict()


def line_object(index, word, radius, wanted=None, panel=False):
    try:
        read = film.read_line(word, radius, wanted)
        return {"item": "line", "index": index, "answer": 0, "number": read.number, "distance": read.distance, **changed(read), **note(read.line, panel)}
    except film.Refused as why:
        return refused("line", index, why.number)


def ring_object(index, word, radius, panel=False):
    try:
        read = film.read_ring(word, radius)
        return {"item": "ring", "index": index, "answer": 0, "start": read.start, "number": read.number, "distance": read.distance, **changed(read),
                **note(read.line, panel)}
    except film.Refused as why:
        return refused("ring", index, why.number, film.list_ring(word, radius) if why.number == words.MANY_STARTS else ())


def block_object(index, rows):
    try:
        read = film.read_block(rows)
        return {"item": "block", "index": index, "answer": 0, "distance": read.distance, "rows": list(read.rows)}
    except film.Refused as why:
        return refused("block", index, why.number)


def text_row(due):
    """The row of text that says the same as an object."""
    head = f"{due['item']} {due['index']}: "
    if due["answer"]:
        return f"{head}refused ({due['answer']}): {due['refused']}"
    if due["item"] == "block":
        return f"{head}distance {due['distance']}: {' '.join(map(str, due['rows']))}"
    start = f"start {due['start']}, " if due["item"] == "ring" else ""
    kind = {0: "", 1: ", template"}.get(due.get("kind", 0), f", kind {due.get('kind')}")
    return f"{head}{start}number {due['number']}, distance {due['distance']}{kind}: {due.get('text', due.get('panel'))}"


def lines_file(count, number=0):
    """So many lines with texts that differ, few of them made anew."""
    made = [film.encode_line(film.characters_of(f"LINE {i}"), (number + i) % 4096) for i in range(min(count, 4096))]
    return b"".join(made * (count // 4096 + 1))[:count * WORD]


def blocks_file(blocks):
    return b"".join(bytes([len(rows)]) + rows for rows in blocks)


def tray_file(radius, lines, rings, blocks):
    return bytes([radius, len(lines)]) + b"".join(lines) + bytes([len(rings)]) + b"".join(rings) + bytes([len(blocks)]) + blocks_file(blocks)
