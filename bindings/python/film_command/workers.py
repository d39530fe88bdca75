"""Who makes rows: this process alone, or processes of their own. Each has one task, or two where its pipe has room; results come in the order of the tasks."""

import collections
import fcntl
import os
import signal
import struct
import traceback
from typing import Deque, Iterator, List, Tuple

from .rows import Made, Rows
from .status import BadUse

# before a task: the count of its first record, and how many bytes it has; before rows: how many bytes they have, and what they are of
TASK, ROWS = struct.Struct("QQ"), struct.Struct("QQQQ")
# a pipe is to hold a megabyte, where the system gives that much: fcntl has these two names from Python 3.10 on
SET_PIPE_SIZE, GET_PIPE_SIZE, PIPE_SIZE, PAGE = 1031, 1032, 1 << 20, 1 << 12


class Here:
    """This process: a task is done when its result is asked for."""

    def __init__(self, rows: Rows) -> None:
        self.rows = rows
        self.tasks: List[Tuple[bytes, int]] = []

    def is_free(self) -> bool:
        return not self.tasks

    def is_busy(self) -> bool:
        return bool(self.tasks)

    def hand(self, records: bytes, first: int) -> None:
        self.tasks.append((records, first))

    def result(self) -> Iterator[Made]:
        return self.rows.made(*self.tasks.pop())

    def end(self) -> None:
        pass


def read_whole(pipe: int, count: int) -> bytes:
    """So many bytes of a pipe; none where it has ended."""
    whole = b""
    while len(whole) < count:
        more = os.read(pipe, count - len(whole))
        if not more:
            return b""
        whole = whole + more if whole else more
    return whole


def write_whole(pipe: int, *parts: bytes) -> None:
    for part in parts:
        left = memoryview(part)
        while left:
            left = left[os.write(pipe, left):]


def pipe() -> Tuple[int, int]:
    """The two ends of a pipe, for reading and for writing."""
    ends = os.pipe()
    try:
        fcntl.fcntl(ends[1], SET_PIPE_SIZE, PIPE_SIZE)
    except OSError:
        pass
    return ends


def serve(rows: Rows, tasks: int, results: int) -> None:
    """What a worker does, until there are no tasks any more; it never returns."""
    status = 1
    try:
        while True:
            head = read_whole(tasks, TASK.size)
            if not head:
                break
            first, length = TASK.unpack(head)
            for made in rows.made(read_whole(tasks, length), first):
                write_whole(results, ROWS.pack(len(made.rows), *made[1:]), made.rows)
        status = 0
    except BrokenPipeError:
        pass
    except Exception:  # a fault of ours: it is told
        traceback.print_exc()
    finally:
        os._exit(status)


class Worker:
    """A process of its own, and the two pipes to it; `lengths` are those of its tasks."""

    def __init__(self, rows: Rows, others: "List[Worker]") -> None:
        (task_end, self.tasks), (self.results, result_end) = pipe(), pipe()
        self.lengths: Deque[int] = collections.deque()
        # a second task may wait only where the pipe holds it whole: else this process would wait for the worker, and the worker to be rid of its result
        self.room = 2 if fcntl.fcntl(self.tasks, GET_PIPE_SIZE) >= TASK.size + rows.reader.task + PAGE else 1
        # Ctrl-C is for the first process alone, which ends the others
        before = signal.pthread_sigmask(signal.SIG_BLOCK, [signal.SIGINT])
        self.process = os.fork()
        if not self.process:
            for worker in (self, *others):
                worker.close()
            serve(rows, task_end, result_end)
        signal.pthread_sigmask(signal.SIG_SETMASK, before)
        os.close(task_end)
        os.close(result_end)

    def close(self) -> None:
        os.close(self.tasks)
        os.close(self.results)

    def hand(self, records: bytes, first: int) -> None:
        self.lengths.append(len(records))
        try:
            write_whole(self.tasks, TASK.pack(first, len(records)), records)
        except BrokenPipeError:
            raise self.gone() from None

    def result(self) -> Iterator[Made]:
        left = self.lengths.popleft()
        while left:
            head = read_whole(self.results, ROWS.size)
            if not head:
                raise self.gone()
            length, *of = ROWS.unpack(head)
            made = Made(read_whole(self.results, length), *of)
            if len(made.rows) < length:
                raise self.gone()
            left -= made.bytes
            yield made

    @staticmethod
    def gone() -> BadUse:
        return BadUse("a process that was started to read has ended early; --jobs 1 starts none")

    def end(self) -> None:
        self.close()
        os.kill(self.process, signal.SIGKILL)
        os.waitpid(self.process, 0)


class Workers:
    """Processes of their own, as many as are asked for."""

    def __init__(self, rows: Rows, count: int) -> None:
        self.workers: List[Worker] = []
        for _ in range(count):
            self.workers.append(Worker(rows, self.workers))
        # in each a worker stands once for each task that it has room for, or has
        self.free: Deque[Worker] = collections.deque(self.workers * min(worker.room for worker in self.workers))
        self.busy: Deque[Worker] = collections.deque()

    def is_free(self) -> bool:
        return bool(self.free)

    def is_busy(self) -> bool:
        return bool(self.busy)

    def hand(self, records: bytes, first: int) -> None:
        self.busy.append(self.free.popleft())
        self.busy[-1].hand(records, first)

    def result(self) -> Iterator[Made]:
        """The rows of the task that was handed over first, as they come."""
        yield from self.busy[0].result()
        self.free.append(self.busy.popleft())

    def end(self) -> None:
        """Ends the workers, whatever they do; none is left behind."""
        for worker in self.workers:
            worker.end()
        self.workers.clear()
