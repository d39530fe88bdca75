"""Tests of what `film read` makes of a file: what it is, where it stops, and that several processes write the rows that one does."""

import os
import pathlib
import random
import subprocess
import sys
import tempfile
import unittest

from commands import FILM, SAMPLES, SECONDS, WORD, CommandCase, block, blocks_file, film_command, line, lines_file, ring, tray_file
from words import BINDING

from film_command.source import Source

LONGEST = 97414
# more records of each kind than one process reads alone
MANY = {"lines": 20000, "rings": 1300, "blocks": 4000}


def many(format, chance):
    """A long file, cut anyhow at its end."""
    if format == "blocks":
        return blocks_file([block(chance) for _ in range(MANY[format])]) + b"\x40\1\2"
    few = [line(chance) if format == "lines" else ring(chance) for _ in range(500)]
    return b"".join(chance.choice(few) for _ in range(MANY[format])) + b"\1\2\3"


class Sources(unittest.TestCase):
    """Bytes are looked at and read, as the command does it."""

    def test_what_was_looked_at_is_read_again(self):
        with tempfile.NamedTemporaryFile() as file:
            file.write(bytes(range(200)))
            file.flush()
            source = Source(file.name)
            self.assertEqual(source.size, 200)
            self.assertEqual((source.look(100), source.look(10), source.read(5)), (bytes(range(100)), bytes(range(10)), bytes(range(5))))
            self.assertEqual((source.look(150), source.read(200)), (bytes(range(5, 155)), bytes(range(5, 155))))
            self.assertEqual((source.look(100), source.rest(), source.read(1), source.look(1)), (bytes(range(155, 200)), 45, b"", b""))

    def test_the_size_from_here_on(self):
        """What a program before this one has read of standard input does not count."""
        size = "import sys; sys.path.insert(0, sys.argv[1]); from film_command.source import Source; print(Source('-').size)"
        with tempfile.TemporaryFile() as file:
            file.write(bytes(200))
            file.flush()
            for read, left in ((0, 200), (150, 50), (200, 0), (250, 0)):
                os.lseek(file.fileno(), read, os.SEEK_SET)
                told = subprocess.run([sys.executable, "-B", "-c", size, BINDING], stdin=file, capture_output=True, timeout=SECONDS)
                self.assertEqual(told.stdout, f"{left}\n".encode())


class Files(CommandCase):
    def setUp(self):
        folder = tempfile.TemporaryDirectory()
        self.addCleanup(folder.cleanup)
        self.folder = pathlib.Path(folder.name)

    def file(self, content, name="file"):
        (self.folder / name).write_bytes(content)
        return self.folder / name

    # ---- what a file is

    def test_a_tray_or_lines(self):
        """Without --as a whole tray is a tray, and a multiple of 63 that is none is lines, from a file and from standard input."""
        for content, item in ((tray_file(5, [bytes(WORD)], [], []), "line 0: number 0"), (SAMPLES.joinpath("paper.tray").read_bytes(), "line 0: number 0"),
                              (lines_file(1), "line 0: number 0"), (lines_file(3), "line 0: number 0"), (bytes(WORD), "line 0: number 0")):
            one, other, named = film_command("read", self.file(content)), film_command("read", input=content), film_command("read", "-", input=content)
            self.assertTrue(one.rows[0].startswith(item), one)
            self.assertEqual((one, other), (other, named))
        self.assertEqual(len(film_command("read", input=lines_file(3)).rows), 3)

    def test_both(self):
        """A tray whose length is a multiple of 63: with no lines and no rings, and a block that fills it up."""
        for content in (tray_file(5, [], [], [bytes(58)]), tray_file(5, [bytes(WORD)], [], [bytes(58)])):
            self.assertEqual(len(content) % WORD, 0)
            said = self.assert_bad_use("read", input=content)
            self.assertIn(f"a whole tray, and also {len(content) // WORD} record", said)
            self.assertIn("say --as tray or --as lines", said)
            self.assertTrue(film_command("read", "--as", "tray", input=content).rows[-1].startswith("block 0: "))
            self.assertTrue(film_command("read", "--as", "lines", input=content).rows[-1].startswith("line "))

    def test_neither(self):
        whole = tray_file(5, [lines_file(1)], [], [b"\0\xff"])
        for content, why in ((whole[:20], "the file stops in line 0, after 18 of 63 bytes"), (whole + b"\0", "1 byte is left over after the tray"),
                             (whole[:-1], "the rows of block 0"), (b"\5", "the file stops before the count of lines"),
                             (lines_file(2)[:-1], "its 125 bytes are no multiple of 63"), (b"", "empty")):
            self.assertIn(why, self.assert_bad_use("read", input=content))
            self.assertIn("say --as", self.assert_bad_use("panel", self.file(content)))

    def test_the_longest_tray(self):
        """The longest tray is one; with one byte more it is lines, and the bytes after the last whole one are told."""
        longest = tray_file(5, [lines_file(1)] * 255, [lines_file(1)] * 255, [bytes(255)] * 255)
        self.assertEqual(len(longest), LONGEST)
        self.assertEqual(len(film_command("read", self.file(longest)).rows), 765)
        for content in (longest + b"\0", longest + bytes(WORD - LONGEST % WORD)):
            ended = film_command("read", input=content)
            self.assertEqual(ended.rows[0][:7], "line 0:")
            self.assertEqual(len(ended.rows), len(content) // WORD)
            self.assertEqual("left over after the last whole line" in ended.said, len(content) % WORD > 0)
            self.assertEqual(ended, film_command("read", self.file(content)))

    # ---- where it stops

    def test_a_tray_that_stops_early(self):
        """Wherever a tray is cut, what is whole is read, and it is told where it stops."""
        lines, rings, blocks = [lines_file(1), lines_file(1, 9)], [lines_file(1)], [b"\0\xff", b"\1\2\3"]
        whole = tray_file(1, lines, rings, blocks)
        rows = film_command("read", input=whole).rows
        ends = [1 + 1 + WORD, 1 + 1 + 2 * WORD, 2 + 2 * WORD + 1 + WORD, 2 + 2 * WORD + 1 + WORD + 1 + 3, len(whole)]
        for cut in (0, 1, 2, 30, 64, 65, 66, 128, 129, 130, 191, 192, 193, 194, 195, 196, 197, len(whole) - 1):
            ended = film_command("read", "--as", "tray", input=whole[:cut])
            self.assertEqual((ended.status, ended.rows), (1, rows[:sum(end <= cut for end in ends)]))
            self.assertRegex(ended.said.splitlines()[0], r"\Afilm: the file stops (before|in) .+\Z")
        self.assertIn("the file stops in line 1, after 35 of 63 bytes", film_command("read", "--as", "tray", input=whole[:100]).said)
        self.assertIn("the file stops before the row count of block 1", film_command("read", "--as", "tray", input=whole[:-4]).said)

    def test_a_tray_with_bytes_left_over(self):
        whole = SAMPLES.joinpath("paper.tray").read_bytes()
        for more, said in ((1, "1 byte is left over after the tray"), (200000, "200,000 bytes are left over after the tray")):
            ended = film_command("read", "--as", "tray", self.file(whole + bytes(more)))
            self.assertEqual((ended.status, ended.out), (1, film_command("read", input=whole).out))
            self.assertIn(f"film: {said}\n", ended.said)
            self.assertEqual(ended, film_command("read", "--as", "tray", input=whole + bytes(more)))

    def test_records_with_bytes_left_over(self):
        for format, content, item in (("lines", lines_file(2), "line"), ("rings", lines_file(2), "ring"), ("blocks", b"\2\0\xff\2\0\xff", "block")):
            due = film_command("read", "--as", format, input=content)
            self.assertEqual((due.status, len(due.rows), due.said), (0, 2, ""))
            ended = film_command("read", "--as", format, input=content + b"\2")
            self.assertEqual(ended, (1, due.out, f"film: 1 byte is left over after the last whole {item}\n"))
            self.assertEqual(film_command("read", "--as", format, input=b""), (0, b"", ""))

    def test_no_such_file(self):
        for name, why in ((self.folder / "none", "No such file or directory"), (self.folder, "Is a directory")):
            self.assertEqual(self.assert_bad_use("read", name), f"film: {name}: {why}\n")

    def test_where_nothing_can_be_written(self):
        with open("/dev/full", "wb") as full:
            ended = subprocess.run([*FILM, "read", SAMPLES / "full.tray"], stdout=full, stderr=subprocess.PIPE, timeout=SECONDS)
        self.assertEqual((ended.returncode, ended.stderr), (2, b"film: No space left on device\n"))

    # ---- processes

    def test_processes_change_nothing(self):
        """With one process and with three the same bytes come out, from a file and from a pipe, and they are what each item has to have."""
        chance = random.Random(3010)
        for format in MANY:
            content = many(format, chance)
            for given in ([], ["--json"]):
                due = film_command("read", "--as", format, "--jobs", 1, *given, self.file(content))
                self.assertEqual((due.status, len(due.rows)), (1, MANY[format]))
                for jobs in (1, 2, 3):
                    self.assertEqual(film_command("read", "--as", format, "--jobs", jobs, *given, input=content), due)
                self.assertEqual(film_command("read", "--as", format, "--jobs", 3, *given, self.file(content)), due)
        content = many("lines", chance)
        self.assertEqual(*(film_command("panel", "--as", "lines", "--jobs", jobs, self.file(content)) for jobs in (1, 3)))
        self.assertEqual(*(film_command("read", "--as", "lines", "--wanted", "5+", "--jobs", jobs, self.file(content)) for jobs in (1, 3)))

    def test_the_last_rows_of_many(self):
        """Records are counted on from one task to the next, and so are wanted numbers."""
        ended = film_command("read", "--wanted", "0+", "--jobs", 2, self.file(lines_file(20000)))
        self.assertEqual((ended.status, ended.said, len(ended.rows)), (0, "", 20000))
        self.assertEqual(ended.rows[-1], f"line 19999: number {19999 % 4096}, distance 0: LINE {19999 % 4096}")

    def test_standard_input_that_was_begun(self):
        """Where a program before this one has read a part of the file, it is read from there on."""
        with open(self.file(lines_file(20000)), "rb") as file:
            os.lseek(file.fileno(), 19000 * WORD, os.SEEK_SET)
            ended = subprocess.run([*FILM, "read"], stdin=file, capture_output=True, timeout=SECONDS)
        self.assertEqual(len(ended.stdout.splitlines()), 1000)
        self.assertTrue(ended.stdout.startswith(f"line 0: number {19000 % 4096},".encode()))


if __name__ == "__main__":
    unittest.main()
