"""Tests of the command among other programs: rows as records come, a closed pipe, Ctrl-C, the processes that it starts, and the bar on a terminal."""

import contextlib
import os
import pathlib
import pty
import re
import select
import signal
import subprocess
import tempfile
import time
import unittest
import unittest.mock

from commands import FILM, SECONDS, WORD, CommandCase, film_command, lines_file, tray_file

from film_command import workers
from film_command.lines import Lines
from film_command.records import Reading
from film_command.rows import JSON, Rows
from film_command.source import Source


def hears_control_c():
    """In a process that is about to begin: Ctrl-C is not passed over, as it is where the tests run in the background of a shell."""
    signal.signal(signal.SIGINT, signal.SIG_DFL)


def children(process):
    return [int(child) for child in pathlib.Path(f"/proc/{process}/task/{process}/children").read_text().split()]


def still_there(processes):
    """Those that still run; one that has ended and is waited for by nobody does not."""
    found = []
    for process in processes:
        with contextlib.suppress(OSError):
            found += [process] if re.search(r"^State:\s+[^ZX]", pathlib.Path(f"/proc/{process}/status").read_text(), re.MULTILINE) else []
    return found


class Pipes(CommandCase):
    @contextlib.contextmanager
    def begun(self, *given, **named):
        """The command, begun: it is ended if the test does not."""
        process = subprocess.Popen([*FILM, *map(str, given)], stdin=subprocess.PIPE, stdout=subprocess.PIPE, stderr=subprocess.PIPE, bufsize=0, **named)
        try:
            yield process
        finally:
            process.kill()
            process.wait()
            for stream in (process.stdin, process.stdout, process.stderr):
                stream.close()

    def take(self, process, count):
        """So many rows, as soon as they are there."""
        taken = b""
        while taken.count(b"\n") < count:
            self.assertTrue(select.select([process.stdout], [], [], SECONDS)[0], "no row came")
            more = os.read(process.stdout.fileno(), 1 << 20)
            self.assertTrue(more, "the command has ended")
            taken += more
        return taken.decode().splitlines()

    def fed(self, process, count):
        """Hands over so many lines, and takes their rows meanwhile."""
        left, rows = memoryview(lines_file(count)), []
        while left:
            left = left[os.write(process.stdin.fileno(), left[:63 * 500]):]
            rows += self.take(process, (count * WORD - len(left)) // WORD - len(rows))
        return rows

    def test_rows_come_as_records_do(self):
        """A row is there as soon as its record is, and before the next one comes, with one process and with three that were started."""
        for jobs, before in ((1, 0), (3, 0), (3, 12000)):
            with self.begun("read", "--as", "lines", "--jobs", jobs) as process:
                self.assertEqual(len(self.fed(process, before)), before)
                self.assertEqual(len(children(process.pid)), 3 if before else 0)
                for i in range(before, before + 3):
                    word = lines_file(1, i)
                    process.stdin.write(word[:20])
                    self.assertFalse(select.select([process.stdout], [], [], 0.05)[0])
                    process.stdin.write(word[20:])
                    self.assertEqual(self.take(process, 1), [f"line {i}: number {i % 4096}, distance 0: LINE 0"])
                process.stdin.close()
                self.assertEqual(process.wait(SECONDS), 0)

    def test_a_closed_pipe(self):
        """Who has read enough closes the pipe: the command ends, and says nothing; so do the processes that it started."""
        for jobs in (1, 3):
            with tempfile.NamedTemporaryFile() as file:
                file.write(lines_file(100000))
                file.flush()
                with self.begun("read", "--jobs", jobs, file.name) as process:
                    self.assertEqual(self.take(process, 1)[0], "line 0: number 0, distance 0: LINE 0")
                    started = children(process.pid)
                    process.stdout.close()
                    self.assertEqual((process.wait(SECONDS), process.stderr.read()), (141, b""))
                    self.assertEqual(still_there(started), [])

    def test_control_c(self):
        """Ctrl-C, which goes to every process of the command, ends it with 130 and no word."""
        for jobs in (1, 3):
            with self.begun("read", "--as", "lines", "--jobs", jobs, start_new_session=True, preexec_fn=hears_control_c) as process:
                self.fed(process, 12000)
                started = children(process.pid)
                self.assertEqual(len(started), 0 if jobs == 1 else jobs)
                os.killpg(process.pid, signal.SIGINT)
                self.assertEqual((process.wait(SECONDS), process.stderr.read()), (130, b""))
                self.assertEqual(still_there(started), [])

    def test_a_process_that_is_gone(self):
        """Where one of the processes that read is ended from outside, the command says so, and leaves none behind."""
        with self.begun("read", "--as", "lines", "--jobs", 2) as process:
            self.fed(process, 12000)
            started = children(process.pid)
            os.kill(started[0], signal.SIGKILL)
            # they take turns: with one record more for each, the one that is gone has its turn
            for _ in started:
                with contextlib.suppress(BrokenPipeError):
                    process.stdin.write(lines_file(1))
                self.assertTrue(select.select([process.stdout], [], [], SECONDS)[0], "neither a row nor the end came")
                os.read(process.stdout.fileno(), 1 << 16)
            self.assertEqual(process.wait(SECONDS), 2)
            self.assertEqual(process.stderr.read(), b"film: a process that was started to read has ended early; --jobs 1 starts none\n")
            self.assertEqual(still_there(started), [])

    def test_killed(self):
        """Where the command itself is killed, the processes that it started end by themselves."""
        with self.begun("read", "--as", "lines", "--jobs", 2) as process:
            self.fed(process, 12000)
            started = children(process.pid)
            process.kill()
            process.wait(SECONDS)
            end = time.monotonic() + SECONDS
            while still_there(started) and time.monotonic() < end:
                time.sleep(0.01)
            self.assertEqual(still_there(started), [])


class Kept:
    """An output that keeps what is written, or fails at once."""

    def __init__(self, fails=False):
        self.rows, self.fails = b"", fails

    def write(self, made):
        if self.fails:
            raise BrokenPipeError
        self.rows += made.rows


class Processes(unittest.TestCase):
    """The processes that read, within this one."""

    def read(self, jobs, output):
        """Reads 40,000 lines, and sees to it that it ends, and leaves no process behind."""
        before = children(os.getpid())
        signal.alarm(SECONDS)
        try:
            with tempfile.NamedTemporaryFile() as file:
                file.write(lines_file(40000))
                file.flush()
                Reading(Source(file.name), Rows(Lines(5, None, False), JSON, False), jobs, output).to_the_end()
        finally:
            signal.alarm(0)
            self.assertEqual(children(os.getpid()), before)
        return output.rows

    def test_a_reading_that_fails(self):
        with self.assertRaises(BrokenPipeError):
            self.read(3, Kept(fails=True))

    def test_pipes_of_any_size(self):
        """A pipe that holds a page, as the system gives who has very many, makes no difference: no process waits for another that waits for it."""
        due = self.read(1, Kept())
        for size, room in ((1 << 12, 1), (1 << 16, 1), (1 << 20, 2)):
            with unittest.mock.patch.object(workers, "PIPE_SIZE", size):
                team = workers.Workers(Rows(Lines(5, None, False), JSON, False), 1)
                self.assertEqual(team.workers[0].room, room)
                team.end()
                self.assertEqual(self.read(3, Kept()), due)


class Terminal(CommandCase):
    """The command with a terminal as standard error, and as standard output."""

    def run_on_terminal(self, *given, input, also_output=False):
        """The status, what went to the terminal, and what went to standard output where that is none."""
        ours, theirs = pty.openpty()
        with tempfile.TemporaryFile() as file, tempfile.TemporaryFile() as output:
            file.write(input)
            file.seek(0)
            process = subprocess.Popen([*FILM, *given], stdin=file, stdout=theirs if also_output else output, stderr=theirs)
            os.close(theirs)
            shown = b""
            with contextlib.suppress(OSError):  # a terminal that everyone has left
                while more := os.read(ours, 1 << 16):
                    shown += more
            os.close(ours)
            status = process.wait(SECONDS)
            output.seek(0)
            return status, shown.decode(), output.read()

    def test_a_bar(self):
        """Over a thousand records there is one, with their count, share and rate; at the end it is cleared."""
        for given, count in (("read", 5000), ("read --json --jobs 1", 40000), ("panel", 3000), ("read --as rings", 1100)):
            status, shown, output = self.run_on_terminal(*given.split(), input=lines_file(count))
            self.assertEqual((status, len(output.splitlines())), (0, count))
            self.assertRegex(shown, r"\[#*\.*\] +[0-9]+%  [0-9,]+ records, [0-9,]+ a second")
            self.assertTrue(shown.endswith("\r\x1b[K"), shown[-200:])

    def test_no_bar(self):
        """None for a thousand records or fewer, none for a tray, and none where standard error is no terminal."""
        self.assertEqual(self.run_on_terminal("read", input=lines_file(1000))[:2], (0, ""))
        self.assertEqual(self.run_on_terminal("read", input=tray_file(5, [lines_file(1)] * 255, [], []))[:2], (0, ""))
        self.assertEqual(film_command("read", input=lines_file(5000)).said, "")

    def test_rows_on_the_same_terminal(self):
        """Rows and bar on one terminal: what is left to see is the rows, each whole on a line of its own."""
        content = lines_file(5000) + bytes([64] * WORD)
        status, shown, _ = self.run_on_terminal("read", input=content, also_output=True)
        self.assertEqual(status, 1)
        self.assertIn(" a second", shown)
        seen = ["".join(re.split(r"\r\x1b\[K", line)[-1:]) for line in shown.replace("\r\n", "\n").split("\n")]
        due = film_command("read", input=content)
        self.assertEqual(seen, [*due.rows, *due.said.splitlines(), ""])


if __name__ == "__main__":
    unittest.main()
