"""Tests of `film encode`, of the words that the command takes and refuses, of its help and versions, and of the command where there is no library."""

import contextlib
import os
import pathlib
import pty
import random
import resource
import subprocess
import tempfile
import unittest

from commands import FILM, ROOT, SECONDS, CommandCase, film_command, lines_file
from words import film

# each subcommand, and the words that it takes
TAKEN = {
    "read": "FILE --as --radius --ring-radius --json --jobs --wanted",
    "panel": "FILE --as --radius --ring-radius --json --jobs",
    "encode": "TEXT --number --kind --output",
    "explain": "FILE --as --item --radius --svg --json",
}
VERSION = (ROOT / "version.txt").read_text().strip()


def limit_memory():
    resource.setrlimit(resource.RLIMIT_AS, (1 << 30, 1 << 30))


def note(text, number, kind=0):
    return film.encode_line(film.characters_of(text, kind), number)


class Encode(CommandCase):
    def test_there_and_back(self):
        """Texts by chance, from the command line and from standard input, are read back as they were."""
        chance = random.Random(3020)
        texts = ["A" + "".join(chr(32 + chance.randrange(64)) for _ in range(chance.randrange(49))) for _ in range(500)]
        due = b"".join(note(text, 7 + i) for i, text in enumerate(texts))
        self.assertEqual(film_command("encode", "--number", 7, "--", *texts), (0, due, ""))
        self.assertEqual(film_command("encode", "--number", 7, input="\n".join(texts).encode()), (0, due, ""))
        read = film_command("read", "--as", "lines", "--wanted", "7+", "--json", input=due)
        self.assertEqual([(row["text"], row["kind"], row["distance"]) for row in read.objects], [(text.rstrip(), 0, 0) for text in texts])

    def test_texts_of_standard_input(self):
        """Each line is a text, an empty one too; the last may have no newline; nothing at all is no text."""
        for given, texts in ((b"", []), (b"\n", [""]), (b"A", ["A"]), (b"A\n", ["A"]), (b"A\n\nB", ["A", "", "B"]), (b"\n\n", ["", ""]), (b" A \n", [" A "]),
                             (b"_" * 49, ["_" * 49])):
            self.assertEqual(film_command("encode", input=given), (0, b"".join(note(text, i) for i, text in enumerate(texts)), ""))

    def test_many_texts_of_standard_input(self):
        """More than come at once, and a text that is cut there."""
        texts = [f"TEXT {i}".ljust(49, "X") for i in range(4096)]
        self.assertEqual(film_command("encode", input="\n".join(texts).encode()), (0, b"".join(note(text, i) for i, text in enumerate(texts)), ""))

    def test_kinds(self):
        self.assertEqual(film_command("encode", "--kind", 1, "A").out, note("A", 0, 1))
        self.assertEqual(film_command("encode", "--kind", 63, input=b"A\nB\n").out, note("A", 0, 63) + note("B", 1, 63))

    def test_a_text_that_does_not_fit(self):
        """It is named with its place among the texts, and why; of the command line nothing is written then, and every one is named."""
        for text, why in (("Ab", "'b' at place 1 is no character of film"), ("A" * 50, "a text of 50 characters came, and a line has room for 49"),
                          ("A\u00e9", "'\u00e9' at place 1 is no character of film"), ("A\tB", r"'\t' at place 1 is no character of film")):
            ended = film_command("encode", "A", text, "B", text)
            self.assertEqual((ended.status, ended.out), (1, b""))
            self.assertEqual([said.split(why)[0] for said in ended.said.splitlines()], ["film: text 2 does not fit: ", "film: text 4 does not fit: "])
            ended = film_command("encode", input=f"A\n{text}\nB\n".encode())
            self.assertEqual((ended.status, ended.out), (1, note("A", 0)))
            self.assertTrue(ended.said.startswith(f"film: line 2 of the input does not fit: {why}"), ended)

    def test_input_that_is_no_text(self):
        for given, why in ((b"A\nB\xff\n", "byte 255 at place 1 is no UTF-8"), (b"A\n" + b"A" * 197, "it has more than 49 characters"),
                           (b"A\n" + b"\0" * 300000, "it has more than 49 characters"), (b"A\nB\r\n", r"'\r' at place 1")):
            ended = film_command("encode", input=given)
            self.assertEqual((ended.status, ended.out), (1, note("A", 0)))
            self.assertTrue(ended.said.startswith(f"film: line 2 of the input does not fit: {why}"), ended)
            self.assertEqual(ended.said.count("\n"), 1)

    def test_input_without_an_end(self):
        """A text that never ends is refused, and not kept."""
        with open("/dev/zero", "rb") as zeros:
            ended = subprocess.run([*FILM, "encode"], stdin=zeros, capture_output=True, timeout=SECONDS, preexec_fn=limit_memory)
        self.assertEqual((ended.returncode, ended.stdout), (1, b""))
        self.assertEqual(ended.stderr, b"film: line 1 of the input does not fit: it has more than 49 characters\n")

    def test_the_last_number(self):
        self.assertEqual(film_command("encode", "--number", 4094, "A", "B").out, note("A", 4094) + note("B", 4095))
        why = "does not fit: its number would be 4096, and 4095 is the last\n"
        self.assertEqual(film_command("encode", "--number", 4095, "A", "B"), (1, b"", f"film: text 2 {why}"))
        self.assertEqual(film_command("encode", "--number", 4095, input=b"A\nB\n"), (1, note("A", 4095), f"film: line 2 of the input {why}"))

    def test_the_output(self):
        """A file gets the lines; where a text of the command line does not fit, it is left alone."""
        with tempfile.TemporaryDirectory() as folder:
            file = pathlib.Path(folder) / "lines"
            self.assertEqual(film_command("encode", "--output", file, "A", "B"), (0, b"", ""))
            self.assertEqual(file.read_bytes(), note("A", 0) + note("B", 1))
            self.assertEqual(film_command("encode", "--output", file, "A", "b").status, 1)
            self.assertEqual(file.read_bytes(), note("A", 0) + note("B", 1))
            self.assertEqual(film_command("encode", "--output", file, input=b"C\n"), (0, b"", ""))
            self.assertEqual(file.read_bytes(), note("C", 0))
            self.assertIn("No such file or directory", self.assert_bad_use("encode", "--output", f"{folder}/none/lines", "A"))
        self.assertEqual(film_command("encode", "--output", "-", "A").out, note("A", 0))

    def test_no_lines_for_a_terminal(self):
        ours, theirs = pty.openpty()
        with contextlib.closing(os.fdopen(ours, "rb", buffering=0)):
            ended = subprocess.run([*FILM, "encode", "A"], stdout=theirs, stderr=subprocess.PIPE, timeout=SECONDS)
            os.close(theirs)
            with self.assertRaises(OSError):  # nothing was written, and nobody is left who could
                os.read(ours, 1)
        self.assertEqual(ended.returncode, 2)
        self.assertIn(b"not for a terminal: say --output FILE", ended.stderr)


class Words(CommandCase):
    def test_bad_use(self):
        refused = {
            "": ["", "nonsense", "--nonsense"],
            "read": ["--nonsense", "a b", "--as", "--as sheet", "--radius", "--radius 6", "--radius -1", "--radius x", "--radius \u0663", "--ring-radius 6",
                     "--wanted 4096", "--wanted +", "--wanted 1++", "--wanted -1", "--jobs 0", "--jobs 257", "--jobs x", "--jso", "--rad 3"],
            "panel": ["--nonsense", "--wanted 3"],
            "encode": ["--nonsense", "--number 4096 A", "--number x A", "--kind 64 A"],
            "explain": ["--nonsense", "--as lines", "--radius 6", "--item -1"],
        }
        for command, each in refused.items():
            for given in each:
                self.assertIn("--help says what is taken", self.assert_bad_use(*command.split(), *given.split(), input=lines_file(1)))
        self.assert_bad_use("read", "--radius", " 3", input=lines_file(1))

    def test_an_option_without_meaning(self):
        """What has no meaning for the records that are asked for is refused, and not left unused."""
        for given in ("--as rings --radius 3", "--as blocks --radius 3", "--as lines --ring-radius 3", "--as blocks --ring-radius 3", "--as rings --wanted 3",
                      "--as blocks --wanted 3+"):
            _, format, option, _ = given.split()
            self.assertIn(f"{option} has no meaning for {format}", self.assert_bad_use("read", *given.split(), input=lines_file(1)))

    def test_the_bounds(self):
        line = lines_file(1)
        for given in (["--radius", "0"], ["--radius", "5"], ["--wanted", "0"], ["--wanted", "0+"], ["--jobs", "1"], ["--jobs", "256"]):
            self.assertEqual(film_command("read", *given, input=line), (0, b"line 0: number 0, distance 0: LINE 0\n", ""))
        self.assertEqual(film_command("read", "--wanted", "4095", input=note("A", 4095)).status, 0)

    def test_help(self):
        """It begins with what the command does, and names every word that is taken."""
        for given in (["--help"], ["-h"]):
            ended = film_command(*given)
            self.assertEqual((ended.status, ended.said), (0, ""))
            self.assertEqual(ended.rows[0], (ROOT / "tools" / "film").read_text().splitlines()[1].strip('"'))
            for command in TAKEN:
                self.assertIn(f"    {command} ", ended.out.decode())
        for command, taken in TAKEN.items():
            ended = film_command(command, "--help")
            self.assertEqual((ended.status, ended.said), (0, ""))
            self.assertNotEqual(ended.rows[0][:6], "usage:")
            for word in taken.split():
                self.assertIn(f"  {word} ", ended.out.decode().replace("\n", " \n"))

    def test_the_version(self):
        self.assertEqual(film_command("--version"), (0, f"film {VERSION}, library {VERSION}\n".encode(), ""))


class NoLibrary(CommandCase):
    """The command where there is no library."""

    def setUp(self):
        folder = tempfile.TemporaryDirectory()
        self.addCleanup(folder.cleanup)
        self.folder = folder.name

    def test_what_needs_none(self):
        for given in (["--help"], ["read", "-h"], ["explain", "--help"]):
            self.assertEqual(film_command(*given, FILM_LIBRARY=self.folder), film_command(*given))
        self.assertEqual(film_command("--version", FILM_LIBRARY=self.folder), (0, f"film {VERSION}\n".encode(), ""))
        self.assert_bad_use("read", "--nonsense", FILM_LIBRARY=self.folder)

    def test_what_needs_one(self):
        for given in (["read"], ["panel"], ["encode", "A"], ["explain"]):
            self.assertIn("libfilm.so", self.assert_bad_use(*given, input=lines_file(1), FILM_LIBRARY=self.folder))


if __name__ == "__main__":
    unittest.main()
