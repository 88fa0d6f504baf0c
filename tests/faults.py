"""Tries faults of the system on the seven programs: reads and writes that fail, are interrupted, late or in pieces.

    python3 tests/faults.py [FOLDER]        FOLDER has the programs; without it, those that rt left below crates/

A program must never print an answer about other bytes than those that were handed in, and never lose output silently.
It can't set an exit status, so a failure shows as a line on standard error. Each trial that fails is a line on standard
error here. The last line says how many trials were made and how many failed, and the exit status is 1 if any did.
It needs Linux and a C compiler, cc.
"""
import errno
import fcntl
import itertools
import os
import select
import signal
import socket
import struct
import subprocess
import sys
import tempfile
import termios
import time
from collections.abc import Callable, Iterator, Sequence
from contextlib import ExitStack, contextmanager
from io import FileIO
from pathlib import Path
from typing import BinaryIO, NamedTuple

Stream = int | BinaryIO | FileIO | socket.socket

ROOT = Path(__file__).resolve().parent.parent
LIMIT = 20.0  # seconds that a program may take
PAUSE = 0.001  # seconds between the reads of a slow reader
PIPE_SIZE = 4096  # bytes, the least that the system gives: so a long output does not fit
STEP = 7  # bytes that a call moves at most where calls are interrupted
COPIES = 480  # segments of a long packet: its sheet still fits the 65,536 bytes that gmti_read lends
LINES = 3000  # of a long list
LINE_SIZE = 10_000  # bytes that a line of it has at most: those of full packets would make it some 25 MB long
LONGEST_PACKET = 65_536
LONGEST_LINE = 262_144  # of a list of packets, with its line feed
LONGEST_MODE = 4096  # of a list of modes, with its line feed

# Stands between a program and the system. The environment sets it. FAULTS_STEP: a call moves at most so many bytes, and
# every other call, from the first on, is interrupted. FAULTS_READ, FAULTS_WRITE: the call behind so many bytes fails,
# once. A failure that comes once and not again is the hardest to bear: a program that goes on behind it prints an
# answer, or a list with a gap. FAULTS_END: the input ends behind so many bytes, and goes on for a program that asks
# again. FAULTS_RECORD: a descriptor that gets a letter for each call, so that it is seen whether the library is called.
LIBRARY = r"""
#define _GNU_SOURCE
#include <errno.h>
#include <stdlib.h>
#include <sys/syscall.h>
#include <unistd.h>

struct stream {
    const char *setting;
    int error;
    long calls, moved;
    int has_failed, has_ended;
};

static struct stream input = {"FAULTS_READ", EIO, 0, 0, 0, 0};
static struct stream output = {"FAULTS_WRITE", ENOSPC, 0, 0, 0, 0};

static long setting(const char *name)
{
    const char *word = getenv(name);
    return word ? atol(word) : -1;
}

static long failing(int error)
{
    errno = error;
    return -1;
}

static void record(char letter)
{
    long descriptor = setting("FAULTS_RECORD");
    if (descriptor >= 0)
        syscall(SYS_write, descriptor, &letter, 1);
}

/* How many of n bytes this call may move, or -1. */
static long most(struct stream *s, long n)
{
    long step = setting("FAULTS_STEP"), end = setting(s->setting);
    s->calls++;
    if (step >= 0 && s->calls % 2 == 1)
        return failing(EINTR);
    if (step >= 0 && n > step)
        n = step;
    if (end < 0 || s->has_failed)
        return n;
    if (s->moved == end) {
        s->has_failed = 1;
        return failing(s->error);
    }
    return n < end - s->moved ? n : end - s->moved;
}

static long moving(struct stream *s, long call, int fd, void *bytes, long n, char letter)
{
    long k = most(s, n);
    int error = errno;
    record(k < 0 ? 'f' : letter);
    errno = error;
    if (k < 0)
        return -1;
    k = syscall(call, fd, bytes, k);
    if (k > 0)
        s->moved += k;
    return k;
}

/* Whether the input ends here. If it ends later, no more is read than up to there. */
static int ends(size_t *n)
{
    long end = setting("FAULTS_END");
    if (end < 0 || input.has_ended)
        return 0;
    if (*n > (size_t)(end - input.moved))
        *n = end - input.moved;
    return input.has_ended = input.moved == end;
}

ssize_t read(int fd, void *bytes, size_t n)
{
    if (fd != 0)
        return syscall(SYS_read, fd, bytes, n);
    return ends(&n) ? 0 : moving(&input, SYS_read, fd, bytes, n, 'r');
}

ssize_t write(int fd, const void *bytes, size_t n)
{
    return fd == 1 ? moving(&output, SYS_write, fd, (void *)bytes, n, 'w') : syscall(SYS_write, fd, bytes, n);
}
"""


class Program(NamedTuple):
    """A program and its arguments, and inputs with what it must print for each."""

    name: str
    arguments: list[str]
    given: bytes
    answer: bytes
    twice: bytes  # the answer to the given bytes, and then the same again
    nothing: bytes  # the answer to no bytes
    long_given: bytes
    long_answer: bytes  # longer than two small pipes hold
    by_lines: bool  # whether each line has an answer of its own

    def whole(self) -> bytes:
        """The packet or sheet, of a list all but its last line feed: only what follows tells that it isn't the end."""
        return self.given.removesuffix(b"\n")

    def half(self) -> bytes:
        """Half the packet or sheet, of a list half its last packet or mode: taken for the end, it has an answer."""
        if not self.by_lines:
            return self.given[: len(self.given) // 2]
        digits = len(self.whole().split()[-1])
        return self.whole()[: -2 * (digits // 4)]

    def lists_packets(self) -> bool:
        """Whether each line is a name and a packet or sheet in hex."""
        return self.name in ("gmti_trials", "gmti_editions")


class Outcome(NamedTuple):
    """How a program ended, and what it wrote."""

    status: int | None  # None: it was stopped at the time limit
    out: bytes
    err: bytes

    def shown(self, at: int) -> str:
        """On one line, a long output from a place on."""
        end = "stopped at the time limit" if self.status is None else f"status {self.status}"
        out = repr(self.out[at : at + 80])[1:]
        if len(self.out) > 80:
            out = f"of {len(self.out)} bytes, from byte {at} on {out}"
        return f"{end}, output {out}, error {repr(self.err[:200])[1:]}"


class Trial(NamedTuple):
    """A fault that was tried, and whether the program stood it."""

    fault: str
    expected: str
    came: str
    holds: bool
    is_stopped: bool = False  # whether the program was stopped at the time limit


class Bench(NamedTuple):
    """Where the programs are, a folder for the time of the trials, and the library that is put before a program."""

    programs: Path
    room: Path
    shim: Path


# ---- Running a program


class Run:
    """A program that was started. What it writes goes to files, so that no pipe fills up unless a trial wants it to."""

    def __init__(
        self,
        bench: Bench,
        program: Program,
        stdin: Stream,
        stdout: Stream | None = None,
        closed: int | None = None,
        ignores_sigpipe: bool = False,
        settings: dict[str, int] | None = None,
    ) -> None:
        self.out = tempfile.TemporaryFile()
        self.err = tempfile.TemporaryFile()
        environment = dict(os.environ)
        if settings is not None:
            environment["LD_PRELOAD"] = str(bench.shim)
            environment.update({f"FAULTS_{name.upper()}": str(value) for name, value in settings.items()})
        self.process = subprocess.Popen(
            [bench.programs / program.name, *program.arguments],
            stdin=stdin,
            stdout=self.out if stdout is None else stdout,
            stderr=self.err,
            env=environment,
            pass_fds=[settings["record"]] if settings and "record" in settings else [],
            preexec_fn=None if closed is None else lambda: os.close(closed),
            restore_signals=not ignores_sigpipe,  # this interpreter ignores SIGPIPE itself
        )

    def has_ended(self) -> bool:
        return self.process.poll() is not None

    def end(self) -> Outcome:
        """Waits for the program, up to the time limit."""
        try:
            status = self.process.wait(LIMIT)
        except subprocess.TimeoutExpired:
            self.process.kill()
            self.process.wait()
            status = None
        with self.out, self.err:
            self.out.seek(0)
            self.err.seek(0)
            return Outcome(status, self.out.read(), self.err.read())


@contextmanager
def file_of(content: bytes) -> Iterator[BinaryIO]:
    with tempfile.TemporaryFile() as file:
        file.write(content)
        file.seek(0)
        yield file


@contextmanager
def pipe() -> Iterator[tuple[FileIO, FileIO]]:
    """A pipe's two ends, as files, since a file can be closed before its time without harm."""
    reader, writer = os.pipe()
    with FileIO(reader, "r") as to_read, FileIO(writer, "w") as to_write:
        yield to_read, to_write


def run(bench: Bench, program: Program, given: bytes, **more) -> Outcome:
    """The program on a regular file, which gives all its bytes at once."""
    with file_of(given) as file:
        return Run(bench, program, file, **more).end()


def wait_until(is_so: Callable[[], bool]) -> bool:
    """Without a pause: what is waited for takes microseconds, and some trials wait at each byte."""
    end = time.monotonic() + LIMIT
    while not is_so():
        if time.monotonic() > end:
            return False
        os.sched_yield()
    return True


def unread(stream: FileIO | socket.socket) -> int:
    """How many bytes a pipe or a connection holds."""
    return struct.unpack("i", fcntl.ioctl(stream, termios.FIONREAD, bytes(4)))[0]


def fed(bench: Bench, program: Program, parts: Sequence[bytes]) -> Outcome:
    """The program at a pipe that gets a part once the part before it was read: so each takes a read of its own."""
    with pipe() as (reader, writer):
        started = Run(bench, program, reader)
        for part in parts:
            writer.write(part)
            if not wait_until(lambda: unread(reader) == 0 or started.has_ended()):
                break
        writer.close()
        return started.end()


def piped(bench: Bench, given: bytes, programs: Sequence[Program]) -> Outcome:
    """The last of the programs, each with a pipe to the next. All complaints count, and a status that is not 0."""
    with ExitStack() as stack:
        source: Stream = stack.enter_context(file_of(given))
        started = []
        for program in programs[:-1]:
            reader, writer = stack.enter_context(pipe())
            started.append(Run(bench, program, source, stdout=writer))
            source.close()  # so that only the programs have the pipes, and each sees when another ends
            writer.close()
            source = reader
        started.append(Run(bench, programs[-1], source))
        source.close()
        came = [run.end() for run in started]
    status = next((outcome.status for outcome in came if outcome.status != 0), 0)
    return Outcome(status, came[-1].out, b"".join(outcome.err for outcome in came))


# ---- What is expected


def held(fault: str, expected: Sequence[Outcome], came: Outcome) -> Trial:
    """Whether one of the outcomes came. They are told from where the output differs, or nearly: it may be long."""
    most = expected[-1]
    same = len(os.path.commonprefix([most.out, came.out]))
    at = max(0, min(same - 20, max(len(most.out), len(came.out)) - 80))
    others = "" if len(expected) == 1 else f" (or the answers to fewer of {len(expected) - 1} complete lines)"
    return Trial(fault, most.shown(at) + others, came.shown(at), came in expected, came.status is None)


def answered(fault: str, answer: bytes, came: Outcome) -> Trial:
    return held(fault, [Outcome(0, answer, b"")], came)


def unanswered(fault: str, program: Program, sent: bytes, error: int, came: Outcome) -> Trial:
    """A read failed behind the bytes that were sent: the program says so, and answers at most the complete lines."""
    line = f"{program.name}: standard input: {os.strerror(error)}\n".encode()
    answers = lines_of(program.answer)
    complete = sent.count(b"\n") if program.by_lines else 0
    return held(fault, [Outcome(0, b"".join(answers[:k]), line) for k in range(complete + 1)], came)


def is_cut(program: Program, error: int) -> bytes:
    return f"{program.name}: standard output is cut: {os.strerror(error)}\n".encode()


def cut(fault: str, program: Program, written: bytes, error: int, came: Outcome) -> Trial:
    """A write failed: the program says so, and what was written before is the front of the answer."""
    return held(fault, [Outcome(0, written, is_cut(program, error))], came)


def cut_somewhere(fault: str, program: Program, error: int, came: Outcome) -> Trial:
    """As `cut`, where the system decides how much of the long answer it takes."""
    front = program.long_answer[:-1][: len(came.out)]
    return cut(fault, program, front, error, came)


# ---- Faults of standard input


def no_input(bench: Bench, program: Program) -> Iterator[Trial]:
    """An input that can't be read is not an empty input, which has an answer."""
    yield answered("an empty input", program.nothing, run(bench, program, b""))
    came = Run(bench, program, subprocess.DEVNULL, closed=0).end()
    yield unanswered("standard input closed", program, b"", errno.EBADF, came)
    folder = os.open(bench.room, os.O_RDONLY)
    came = Run(bench, program, folder).end()
    os.close(folder)
    yield unanswered("a directory as standard input", program, b"", errno.EISDIR, came)


def late_input(bench: Bench, program: Program) -> Iterator[Trial]:
    """A read that would have to wait is not the end. The rest stays away for as long as the program runs."""
    for part, sent in ("half", program.half()), ("whole", program.whole()):
        with pipe() as (reader, writer):
            os.set_blocking(reader.fileno(), False)
            writer.write(sent)
            came = Run(bench, program, reader).end()
        yield unanswered(f"a non-blocking pipe, late behind the {part}", program, sent, errno.EAGAIN, came)


def paused_input(bench: Bench, program: Program) -> Iterator[Trial]:
    """A pipe that pauses is not at its end either, and here the rest does come."""
    given, half = program.given, program.half()
    yield answered("a pause in the middle", program.answer, fed(bench, program, [half, given.removeprefix(half)]))
    yield answered("the input twice, with a pause", program.twice, fed(bench, program, [given, given]))
    yield answered("a byte at a time", program.answer, fed(bench, program, [bytes([byte]) for byte in given]))


@contextmanager
def connection() -> Iterator[tuple[socket.socket, socket.socket]]:
    with socket.create_server(("127.0.0.1", 0)) as listener:
        with socket.create_connection(listener.getsockname()) as near:
            far, _ = listener.accept()
            with far:
                yield near, far


def reset(far: socket.socket, near: socket.socket) -> None:
    """Ends the connection as a crash does, and waits until the other side knows."""
    far.setsockopt(socket.SOL_SOCKET, socket.SO_LINGER, struct.pack("ii", 1, 0))
    far.close()
    events = select.poll()
    events.register(near, 0)
    events.poll(LIMIT * 1000)


def reset_input(bench: Bench, program: Program) -> Iterator[Trial]:
    """A connection that breaks is not at its end, whether the program has read what came before or not."""
    for part, sent in ("half", program.half()), ("whole", program.whole()):
        came = reset_before(bench, program, sent)
        yield unanswered(f"a connection reset behind the {part}, unread", program, sent, errno.ECONNRESET, came)
        came = reset_behind(bench, program, sent)
        yield unanswered(f"a connection reset behind the {part}, read", program, sent, errno.ECONNRESET, came)


def reset_before(bench: Bench, program: Program, sent: bytes) -> Outcome:
    """The bytes have come and the connection is broken when the program starts."""
    with connection() as (near, far):
        far.sendall(sent)
        wait_until(lambda: unread(near) == len(sent))
        reset(far, near)
        return Run(bench, program, near).end()


def reset_behind(bench: Bench, program: Program, sent: bytes) -> Outcome:
    """The program has read the bytes when the connection breaks."""
    with connection() as (near, far):
        far.sendall(sent)
        wait_until(lambda: unread(near) == len(sent))
        started = Run(bench, program, near)
        wait_until(lambda: unread(near) == 0 or started.has_ended())
        reset(far, near)
        return started.end()


# ---- Faults of standard output


def no_output(bench: Bench, program: Program) -> Iterator[Trial]:
    came = run(bench, program, program.given, closed=1)
    yield cut("standard output closed", program, b"", errno.EBADF, came)
    with open("/dev/full", "wb", buffering=0) as full:
        came = run(bench, program, program.given, stdout=full)
    yield cut("/dev/full as standard output", program, b"", errno.ENOSPC, came)


def small_pipe_fed(bench: Bench, program: Program, reading: Callable[[FileIO], bytes], **more) -> Outcome:
    """The program on its long input, with a pipe for its output that holds little; `reading` answers what it read."""
    with pipe() as (reader, writer), file_of(program.long_given) as file:
        fcntl.fcntl(writer, fcntl.F_SETPIPE_SZ, PIPE_SIZE)
        started = Run(bench, program, file, stdout=writer, **more)
        writer.close()
        read = reading(reader)
        return started.end()._replace(out=read)


def read_slowly(reader: FileIO, most: int) -> bytes:
    """All that comes, or a byte more than the most that should, in pieces smaller than the pipe and with pauses."""
    read = b""
    while len(read) <= most and select.select([reader], [], [], LIMIT)[0]:
        piece = reader.read(PIPE_SIZE * 3 // 4)
        if not piece:
            break
        read += piece
        time.sleep(PAUSE)
    return read


def read_little(reader: FileIO) -> bytes:
    """Reads a little, and goes away."""
    ready = select.select([reader], [], [], LIMIT)[0]
    read = reader.read(10) if ready else b""
    reader.close()
    return read


def slow_reader(bench: Bench, program: Program) -> Iterator[Trial]:
    came = small_pipe_fed(bench, program, lambda reader: read_slowly(reader, len(program.long_answer)))
    yield answered("a long output to a slow reader", program.long_answer, came)


def late_reader(bench: Bench, program: Program) -> Iterator[Trial]:
    """A write that would have to wait was not made. Nothing is read until the program has ended."""
    with pipe() as (reader, writer), file_of(program.long_given) as file:
        fcntl.fcntl(writer, fcntl.F_SETPIPE_SZ, PIPE_SIZE)
        os.set_blocking(writer.fileno(), False)
        came = Run(bench, program, file, stdout=writer).end()
        writer.close()
        came = came._replace(out=read_slowly(reader, PIPE_SIZE))
    yield cut_somewhere("a non-blocking pipe that fills up as standard output", program, errno.EAGAIN, came)


def lost_reader(bench: Bench, program: Program) -> Iterator[Trial]:
    """The program must say that output is lost. Rattle's programs ignore SIGPIPE, so that it is the same how the caller has it."""
    for ignores in False, True:
        kind = "ignored" if ignores else "at its default"
        with pipe() as (reader, writer):
            reader.close()
            came = run(bench, program, program.given, stdout=writer, ignores_sigpipe=ignores)
        yield cut(f"a reader that is gone, SIGPIPE {kind}", program, b"", errno.EPIPE, came)
        came = small_pipe_fed(bench, program, read_little, ignores_sigpipe=ignores)
        yield cut_somewhere(f"a reader that goes away in the middle, SIGPIPE {kind}", program, errno.EPIPE, came)


# ---- Faults that the library makes


def interrupted(bench: Bench, program: Program) -> Iterator[Trial]:
    """A call that a signal interrupts is made again, and one that moves few bytes is followed by others."""
    short, long = (program.given, program.answer), (program.long_given, program.long_answer)
    for kind, (given, answer) in ("short", short), ("long", long):
        with tempfile.TemporaryFile() as record:
            came = run(bench, program, given, settings={"step": STEP, "record": record.fileno()})
            record.seek(0)
            calls = record.read()
        yield answered(f"interrupted calls, {kind} input", answer, came)
        yield recorded(f"interrupted calls, {kind} input: what the library did", calls, len(given), len(answer))


def recorded(fault: str, calls: bytes, given: int, answer: int) -> Trial:
    """Without this a program that the library does not reach would stand every fault that the library makes."""
    reads, writes = -(-given // STEP), -(-answer // STEP)
    came = f"{calls.count(b'r')} reads, {calls.count(b'w')} writes, {calls.count(b'f')} interrupted"
    holds = calls.count(b"r") >= reads and calls.count(b"w") >= writes and calls.count(b"f") >= reads + writes
    return Trial(fault, f"{reads} reads and {writes} writes at least, and as many interrupted", came, holds)


def failing_read(bench: Bench, program: Program) -> Iterator[Trial]:
    """Wherever a read fails: before the first byte, within the input, and where only the end was still to be read."""
    for sent in dict.fromkeys([b"", program.given[:1], program.half(), program.whole(), program.given]):
        came = run(bench, program, program.given, settings={"read": len(sent)})
        yield unanswered(f"a read that fails behind {len(sent)} bytes", program, sent, errno.EIO, came)


def growing_input(bench: Bench, program: Program) -> Iterator[Trial]:
    """Behind its end an input may go on, as a file does that is still written. What is answered ends where it did."""
    for part, sent in ("the input", program.given), ("the input without its last line feed", program.whole()):
        came = run(bench, program, sent + program.given, settings={"end": len(sent)})
        yield answered(f"an end behind {part}, and more behind the end", program.answer, came)


def failing_write(bench: Bench, program: Program) -> Iterator[Trial]:
    """Wherever a write fails: before the first byte, within the answer, and before the last byte."""
    for size in 0, 1, len(program.answer) // 2, len(program.answer) - 1:
        came = run(bench, program, program.given, settings={"write": size})
        yield cut(f"a write that fails behind {size} bytes", program, program.answer[:size], errno.ENOSPC, came)


# ---- Lengths, and lines


def lengths(bench: Bench, program: Program) -> Iterator[Trial]:
    """The front of an input that is longer than any packet or sheet must not be taken for the input."""
    yield answered("a long input", program.long_answer, run(bench, program, program.long_given))
    if program.name in ("gmti_read", "gmti_sheet"):
        yield answered("65,536 zeros", b"no 3 0 0\n", run(bench, program, bytes(LONGEST_PACKET)))
        for size in LONGEST_PACKET + 1, 200_000:
            yield answered(f"{size:,} zeros", b"no 2 0 0\n", run(bench, program, bytes(size)))
            longer = program.given.ljust(size, b"\0")
            yield answered(f"a packet and zeros, {size:,} bytes", b"no 2 0 0\n", run(bench, program, longer))
    if program.name == "gmti_write":
        longest = bound(LONGEST_PACKET)
        yield answered(f"{longest:,} zeros", b"no 17 0 0\n", run(bench, program, bytes(longest)))
        line = b"gmti_write: standard input is longer than any sheet\n"
        for size in longest + 1, 1_000_000:
            yield held(f"{size:,} zeros", [Outcome(0, b"", line)], run(bench, program, bytes(size)))
            longer = program.given.ljust(size, b"\0")
            yield held(f"a sheet and zeros, {size:,} bytes", [Outcome(0, b"", line)], run(bench, program, longer))


# A line that is not in its program's form, and how it is answered. In gmti_trials two numbers stand before the packet.
FAULTY_LINES = [
    ("another letter than hex digits", b"bad: %(numbers)sFg80", b"bad: unread digit"),
    ("a packet with a wrong digit", b"bad: %(numbers)s%(front)sg", b"bad: unread digit"),
    ("a packet with a wrong and an odd digit", b"bad: %(numbers)s%(hex)sg", b"bad: unread digit"),
    ("a packet that lacks a digit", b"bad: %(numbers)s%(front)s", b"bad: unread half"),
    ("a packet and an odd digit", b"bad: %(numbers)s%(hex)s0", b"bad: unread half"),
    ("a space in a packet", b"bad: %(numbers)s33 %(hex)s", b"bad: unread digit"),
    ("a space behind a packet", b"bad: %(numbers)s%(hex)s ", b"bad: unread digit"),
    ("a carriage return behind a packet", b"bad: %(numbers)s%(hex)s\r", b"bad: unread digit"),
    ("a zero byte behind a packet", b"bad: %(numbers)s%(hex)s\0", b"bad: unread digit"),
    ("a byte above 127 in a packet", b"bad: %(numbers)s%(front)s\xb0", b"bad: unread digit"),
    ("the characters beside the digits", b"bad: %(numbers)s/:@G`g", b"bad: unread digit"),
    ("no colon", b"bad %(numbers)s%(hex)s", b"bad %(numbers)s%(hex)s: unread form"),
    ("no space behind the colon", b"bad:%(numbers)s%(hex)s", b"bad: unread form"),
    ("nothing behind the colon", b"bad:", b"bad: unread form"),
    ("an empty line", b"", b": unread form"),
    ("a carriage return alone", b"\r", b"\r: unread form"),
]
FAULTY_NUMBERS = [
    ("no number", b"bad: %(hex)s", b"bad: unread form"),
    ("one number", b"bad: 3 %(hex)s", b"bad: unread form"),
    ("no packet", b"bad: 3 166", b"bad: unread form"),
    ("an edition that is no number", b"bad: x 166 %(hex)s", b"bad: unread number"),
    ("an edition with a sign", b"bad: -1 166 %(hex)s", b"bad: unread number"),
    ("an edition above 32 bits", b"bad: 4294967299 166 %(hex)s", b"bad: unread number"),
    ("an edition above 64 bits", b"bad: 18446744073709551619 166 %(hex)s", b"bad: unread number"),
    ("more lent than there is", b"bad: 3 8193 %(hex)s", b"bad: unread number"),
    ("lent above 64 bits", b"bad: 3 18446744073709551782 %(hex)s", b"bad: unread number"),
    ("lent in hex", b"bad: 3 a6 %(hex)s", b"bad: unread number"),
    ("two spaces", b"bad: 3  166 %(hex)s", b"bad: unread number"),
    ("a capital W", b"bad: W 166 %(hex)s", b"bad: unread number"),
]


def faulty_lines(bench: Bench, program: Program) -> Iterator[Trial]:
    """A line that is not in its form has no verdict, and the lines before and behind it are answered as ever."""
    if not program.lists_packets():
        return
    is_trials = program.name == "gmti_trials"
    digits = program.whole().split()[-1]
    parts = {b"numbers": b"3 166 " if is_trials else b"", b"hex": digits, b"front": digits[:-1]}
    for fault, line, answer in FAULTY_LINES + (FAULTY_NUMBERS if is_trials else []):
        yield between(bench, program, fault, line % parts, answer % parts)


def between(bench: Bench, program: Program, fault: str, line: bytes, answer: bytes) -> Trial:
    given = program.given + line + b"\n" + program.given
    return answered(fault, program.answer + answer + b"\n" + program.answer, run(bench, program, given))


def long_lines(bench: Bench, program: Program) -> Iterator[Trial]:
    """A line that the program has no room for is not read, not even its front; a line that just fits is read."""
    if not program.lists_packets():
        return
    front = b"longs: 3 0 " if program.name == "gmti_trials" else b"longs: "
    refused = b"longs: no 2 0 0 " if program.name == "gmti_trials" else b"longs: no 2 0 0"
    line = front.ljust(LONGEST_LINE - 1, b"0")
    yield between(bench, program, "the longest line", line, refused)
    packet = program.whole().split(b"\n")[-1].partition(b": ")[2]
    hidden = b"longs: ".ljust(LONGEST_LINE, b"0") + b"hidden: " + packet
    for fault, line in (
        ("a line that is a byte too long", front.ljust(LONGEST_LINE, b"0")),
        ("a long line", front.ljust(LONGEST_LINE + 1, b"0")),
        ("a line three times too long", front.ljust(3 * LONGEST_LINE, b"0")),
        ("a long line that begins with a packet", (b"longs: " + packet).ljust(LONGEST_LINE + 1)),
        ("a long line that ends in a packet", hidden),
    ):
        yield between(bench, program, fault, line, b"longs: unread length")
    name = b"x" * LONGEST_LINE
    yield between(bench, program, "a long line without a colon", name + b"x", name + b": unread length")
    long = front.ljust(LONGEST_LINE + 1, b"0")
    twice = b"longs: unread length\nlongs: unread length"
    yield between(bench, program, "two long lines", long + b"\n" + long, twice)
    came = run(bench, program, program.given + long)
    yield answered("a long line at the end", program.answer + b"longs: unread length\n", came)


def spelling(bench: Bench, program: Program) -> Iterator[Trial]:
    """What does not change a line's meaning: capital hex digits, and no line feed behind the last line."""
    if not program.lists_packets():
        return
    lines, answers = listed(program.name)
    halves = [line.rpartition(b" ") for line in lines]
    capitals = b"".join(front + space + digits.upper() for front, space, digits in halves)
    yield answered("capital hex digits", b"".join(answers), run(bench, program, capitals))
    yield answered("no line feed at the end", program.answer, run(bench, program, program.whole()))


# ---- The numbers that gmti_modes reads


BAD_MODES = [
    ("an empty line", b""),
    ("a carriage return alone", b"\r"),
    ("a carriage return behind a mode", b"101\r"),
    ("a space in front", b" 101"),
    ("a space behind", b"101 "),
    ("a tab behind", b"101\t"),
    ("a plus sign", b"+101"),
    ("a minus sign", b"-101"),
    ("a minus sign before 0", b"-0"),
    ("one above the most", b"256"),
    ("one above the most, with a zero in front", b"0256"),
    ("256 above a mode", b"357"),
    ("65,536 above a mode", b"65637"),
    ("2 to the 32 above a mode", b"4294967397"),
    ("2 to the 64 above a mode", b"18446744073709551717"),
    ("20 digits", b"1" * 20),
    ("two modes on a line", b"101 102"),
    ("modes with a comma", b"101,102"),
    ("hex digits", b"0x65"),
    ("a letter behind a mode", b"101x"),
    ("a fraction", b"101.0"),
    ("a power", b"1e2"),
    ("a name", b"Lynx I/II"),
    ("an answer", b"101: Edition 1 Reserved (0), Edition 3 Lynx I/II (10), new"),
    ("the characters beside the digits", b"/:"),
    ("a byte above 127", b"101\xb2"),
    ("a byte that is a digit but for its highest bit", b"\xb5"),
    ("the highest byte", b"\xff"),
    ("a zero byte", b"\0"),
    ("a zero byte in front", b"\x00101"),
    ("a zero byte behind", b"101\0"),
    ("all bytes but the line feed", bytes(byte for byte in range(256) if byte != ord("\n"))),
]


def modes(bench: Bench, program: Program) -> Iterator[Trial]:
    """Digits alone, that spell 0 to 255, are a mode; every other line is said not to be, and the next is answered."""
    if program.name != "gmti_modes":
        return
    given, answer = ((ROOT / "crates" / program.name / side).read_bytes() for side in ("stdin", "stdout"))
    yield answered("the list", answer, run(bench, program, given))
    yield answered("the list, with a line feed at its end", answer, run(bench, program, given + b"\n"))
    yield answered("no line feed at the end", program.answer, run(bench, program, program.whole()))
    for fault, line in BAD_MODES:
        yield between(bench, program, fault, line, line + b": unread number")
    bad = BAD_MODES[-1][1]
    came = run(bench, program, program.given + bad)
    yield answered("a line that is no mode at the end", program.answer + bad + b": unread number\n", came)


def long_modes(bench: Bench, program: Program) -> Iterator[Trial]:
    """A line that the program has no room for is told by its front, whatever it spells; one that just fits is read."""
    if program.name != "gmti_modes":
        return
    answer = dict(zip(*listed(program.name)))[b"101\n"].removesuffix(b"\n")
    fits, long = b"101".rjust(LONGEST_MODE - 1, b"0"), b"101".rjust(LONGEST_MODE, b"0")
    yield between(bench, program, "the longest line", fits, fits.removesuffix(b"101") + answer)
    bad = b"x" * (LONGEST_MODE - 1)
    yield between(bench, program, "the longest line that is no mode", bad, bad + b": unread number")
    for fault, line in (
        ("a line that is a byte too long", long),
        ("a long line", b"0" + long),
        ("a line three times too long", b"101".rjust(3 * LONGEST_MODE, b"0")),
        ("a line of 100,000 bytes", b"101".rjust(100_000, b"0")),
        ("a long line that begins with a mode", b"101".ljust(LONGEST_MODE + 1)),
        ("a long line whose end is a mode", b"x" * LONGEST_MODE + b"101"),
        ("a long line of bytes above 127", b"\xff" * 5000),
    ):
        yield between(bench, program, fault, line, line[:LONGEST_MODE] + b": unread length")
    yield between(bench, program, "two long lines", long + b"\n" + long, b"\n".join([long + b": unread length"] * 2))
    came = run(bench, program, program.given + long)
    yield answered("a long line at the end", program.answer + long + b": unread length\n", came)


# ---- The number that gmti_longest reads


GOOD_NUMBERS = [1, 2, 3, 9, 10, 99, 100, 1453, 1454, 9999, 10_000, 16_361, 16_362]
BAD_NUMBERS = [
    ("a line feed alone", b"\n"),
    ("0", b"0"),
    ("0 and a line feed", b"0\n"),
    ("zeros", b"000"),
    ("a zero in front", b"05"),
    ("zeros in front, within five digits", b"00005\n"),
    ("a plus sign", b"+5"),
    ("a minus sign", b"-5"),
    ("a space in front", b" 5"),
    ("a space behind", b"5 "),
    ("a tab behind", b"5\t"),
    ("a carriage return and a line feed", b"5\r\n"),
    ("a line feed in front", b"\n5"),
    ("two line feeds", b"5\n\n"),
    ("two line feeds behind five digits", b"16362\n\n"),
    ("two numbers on a line", b"5 5"),
    ("two lines", b"5\n5"),
    ("two lines with line feeds", b"5\n5\n"),
    ("a line feed and a carriage return", b"5\n\r"),
    ("one above the most", b"16363"),
    ("one above the most, and a line feed", b"16363\n"),
    ("five digits", b"99999"),
    ("six digits", b"100000"),
    ("six digits and a line feed", b"163620\n"),
    ("65,536 above a good one", b"65541"),
    ("2 to the 32 above a good one", b"4294967301"),
    ("2 to the 64 above a good one", b"18446744073709551621"),
    ("a letter behind the most", b"16362x"),
    ("a letter behind the most, and a line feed", b"16362x\n"),
    ("a letter behind the most and a line feed", b"16362\nx"),
    ("a letter", b"x"),
    ("hex digits", b"0x5"),
    ("a fraction", b"5.0"),
    ("a power", b"1e3"),
    ("the characters beside the digits", b"/:"),
    ("a byte above 127", b"5\xb2"),
    ("a byte that is a digit but for its highest bit", b"\xb5"),
    ("20 digits", b"1" * 20),
    ("100,000 digits", b"1" * 100_000),
    ("100,000 zeros and a digit", b"0" * 100_000 + b"5"),
    ("a digit and 100,000 line feeds", b"5" + b"\n" * 100_000),
    ("a zero byte", b"\0"),
    ("a zero byte in front", b"\x005"),
    ("a zero byte behind", b"5\0"),
    ("a zero byte behind the line feed", b"5\n\0"),
    ("a zero byte for the line feed, behind five digits", b"16362\0"),
    ("100,000 zero bytes", bytes(100_000)),
]


def numbers(bench: Bench, program: Program) -> Iterator[Trial]:
    """A number in digits with no leading zero, and at most one line feed behind it; for all else nothing is written."""
    if program.name != "gmti_longest":
        return
    for k in GOOD_NUMBERS:
        for end in b"", b"\n":
            given = b"%d" % k + end
            yield answered(f"the number {given!r}", longest_packet(k), run(bench, program, given))
    sample = (ROOT / "samples" / "long_sheet.gmti").read_bytes()
    yield answered("the number of the sample", sample, run(bench, program, b"1453"))
    for fault, given in BAD_NUMBERS:
        yield answered(fault, b"", run(bench, program, given))


def pipelines(bench: Bench, program: Program) -> Iterator[Trial]:
    """What is written is a packet to the other programs. gmti_read lends 65,536 bytes, and 1,453 targets just fit."""
    if program.name != "gmti_longest":
        return
    reader, writer = program._replace(name="gmti_read"), program._replace(name="gmti_write")
    sheet = program._replace(name="gmti_sheet", arguments=["3"])
    fitting = [(k, b"ok 1 1 %d %d\n" % (k, 121 + 45 * k) + b"0 0\n" * k) for k in (1, 1453)]
    for k, printed in fitting + [(k, b"no 16 0 0\n") for k in (1454, 16_362)]:
        came = piped(bench, b"%d\n" % k, [program, reader])
        yield answered(f"{k} targets, piped into gmti_read", printed, came)
    for k in 1, 1453, 1454, 16_362:
        length = len(piped(bench, b"%d\n" % k, [program, sheet]).out)
        due = bound(88 + 4 * k) - 542
        yield Trial(f"{k} targets, piped into gmti_sheet", f"{due} bytes", f"{length} bytes", length == due)
        came = piped(bench, b"%d\n" % k, [program, sheet, writer])
        yield answered(f"{k} targets, piped into gmti_sheet and gmti_write", longest_packet(k), came)


# ---- The programs


def number(value: int, width: int) -> bytes:
    return value.to_bytes(width, "big")


def longest_packet(k: int) -> bytes:
    """One dwell with k targets by deltas: P1 30, text of spaces, and zero but for sizes, type, mask and D5."""
    texts = b"  " + bytes(1) + b"  " + bytes(3) + b" " * 10 + bytes(8)  # P3 to P10, of which P3, P5 and P8 are text
    fields = [*range(2, 12), *range(24, 28), 31 + 4, 31 + 5]  # D2 to D11, D24 to D27, D32.4 and D32.5
    mask = sum(1 << 65 - field for field in fields)
    body = number(mask, 8) + bytes(2 + 2 + 1) + number(k, 2) + bytes(4 * 6 + 4 + 4 + 2 + 2) + bytes(4) * k
    segment = number(2, 1) + number(5 + len(body), 4) + body
    return b"30" + number(32 + len(segment), 4) + texts + segment


def bound(n: int) -> int:
    """No packet of n bytes, 32 to LONGEST_PACKET, has a longer sheet."""
    return 33 + 45 * (n - 32) // 4


def lines_of(content: bytes) -> list[bytes]:
    """Ended by line feeds alone: a carriage return may stand anywhere. The last is given one where it has none."""
    return [line + b"\n" for line in content.removesuffix(b"\n").split(b"\n")] if content else []


def listed(name: str) -> tuple[list[bytes], list[bytes]]:
    """The lines of a program's list that are in its form, and their answers, by an independent implementation."""
    folder = ROOT / "crates" / name
    pairs = zip(lines_of((folder / "stdin").read_bytes()), lines_of((folder / "stdout").read_bytes()), strict=True)
    read = [(line, answer) for line, answer in pairs if b": unread " not in answer]
    return [line for line, _ in read], [answer for _, answer in read]


def named(lines: list[bytes], name: bytes) -> bytes:
    return {line.partition(b": ")[0]: line for line in lines}[name]


def last_word(line: bytes) -> bytes:
    return bytes.fromhex(line.split()[-1].decode())


def many_segments(content: bytes, at: int) -> bytes:
    """The packet or sheet with its one segment many times over. Its header, which has the length P2, ends at `at`."""
    length = (32 + 60 * COPIES).to_bytes(4, "big")
    header = content[: at - 30] + length + content[at - 26 : at]
    return header + content[at:] * COPIES


def packet_program(
    name: str, arguments: list[str], given: tuple[bytes, bytes], answer: tuple[bytes, bytes]
) -> Program:
    """Inputs and answers, short and long. Two packets are refused with 4, none with 2; two sheets or none with 17."""
    twice, nothing = (b"no 17 0 0\n", b"no 17 0 0\n") if name == "gmti_write" else (b"no 4 0 0\n", b"no 2 0 0\n")
    return Program(name, arguments, given[0], answer[0], twice, nothing, given[1], answer[1], False)


def longest_program() -> Program:
    """Half the number would have an answer too. Two numbers get none, nor does an empty input."""
    few, many = longest_packet(1453), longest_packet(16_362)
    return Program("gmti_longest", [], b"1453\n", few, b"", b"", b"16362\n", many, False)


def list_program(name: str, last: bytes) -> Program:
    """A short list whose last packet is accepted; a long one, over a megabyte, with a number before each name."""
    lines, answers = listed(name)
    short = lines[:3] + [named(lines, last)], answers[:3] + [named(answers, last)]
    usual = [pair for pair in zip(lines, answers) if len(pair[0]) <= LINE_SIZE]
    longest = sorted(usual, key=lambda pair: len(pair[0]))[len(usual) * 2 // 3 :]
    chosen = list(itertools.islice(itertools.cycle(longest), LINES))
    long = [b"".join(b"%d %s" % (k, pair[side]) for k, pair in enumerate(chosen)) for side in (0, 1)]
    given, answer = (b"".join(side) for side in short)
    return Program(name, [], given, answer, answer * 2, b"", long[0], long[1], True)


def modes_program() -> Program:
    """A short list whose last mode is 255 behind two zeros: half of its digits are another mode. A long one has all."""
    lines, answers = listed("gmti_modes")
    pairs = dict(zip(lines, answers))
    short = [b"0\n", b"91\n", b"101\n", b"00255\n"]
    long = list(itertools.islice(itertools.cycle(lines), LINES))
    given, long_given = b"".join(short), b"".join(long)
    answer, long_answer = (b"".join(pairs[line] for line in side) for side in (short, long))
    return Program("gmti_modes", [], given, answer, answer * 2, b"", long_given, long_answer, True)


def programs() -> list[Program]:
    """Those of packets get document 01's trial, one dwell with one target, or its sheet, which the reading decides."""
    trial = (ROOT / "samples" / "printed_trial.gmti").read_bytes()
    lines, answers = listed("gmti_trials")
    packet = last_word(named(lines, b"trial 92 bytes exact"))
    newer = last_word(named(answers, b"trial 92 bytes exact"))
    older = last_word(named(answers, b"trial 92 bytes old reading"))
    position = b"-351563 359648438\n"
    printed = b"ok 1 1 1 166\n" + position
    # All copies have the same D2 and D3, so they are counted as one dwell.
    many_printed = b"ok %d 1 %d %d\n" % (COPIES, COPIES, 33 + 133 * COPIES) + position * COPIES
    packets, newers = (packet, many_segments(packet, 32)), (newer, many_segments(newer, 33))
    return [
        packet_program("gmti_read", [], (trial, many_segments(trial, 32)), (printed, many_printed)),
        packet_program("gmti_sheet", ["3"], packets, newers),
        packet_program("gmti_sheet", ["1"], packets, (older, many_segments(older, 33))),
        packet_program("gmti_write", [], newers, packets),
        longest_program(),
        list_program("gmti_trials", b"trial 92 bytes exact"),
        list_program("gmti_editions", b"trial"),
        modes_program(),
    ]


FAULTS: list[Callable[[Bench, Program], Iterator[Trial]]] = [
    no_input,
    late_input,
    paused_input,
    reset_input,
    no_output,
    slow_reader,
    late_reader,
    lost_reader,
    interrupted,
    failing_read,
    growing_input,
    failing_write,
    lengths,
    faulty_lines,
    long_lines,
    spelling,
    modes,
    long_modes,
    numbers,
    pipelines,
]


def compiled(room: Path) -> Path:
    source, library = room / "faults.c", room / "faults.so"
    source.write_text(LIBRARY)
    subprocess.run(["cc", "-shared", "-fPIC", "-O1", "-Wall", "-o", library, source], check=True)
    return library


def gathered(folder: Path) -> Path:
    """The programs side by side: rt leaves each in a folder of its own crate."""
    folder.mkdir()
    for name in {program.name for program in programs()}:
        built = ROOT / "crates" / name / "out" / name
        if built.exists():
            (folder / name).symlink_to(built)
    return folder


def found(bench: Bench) -> list[Program]:
    for program in programs():
        if not (bench.programs / program.name).exists():
            sys.exit(f"faults: there is no {program.name} in {bench.programs}")
    return programs()


def main() -> int:
    if len(sys.argv) > 2:
        sys.exit(__doc__)
    tried, failed = 0, 0
    with tempfile.TemporaryDirectory() as name:
        folder = Path(sys.argv[1]) if len(sys.argv) == 2 else gathered(Path(name) / "programs")
        bench = Bench(folder.resolve(), Path(name), compiled(Path(name)))
        for program in found(bench):
            for trial in itertools.chain.from_iterable(fault(bench, program) for fault in FAULTS):
                tried += 1
                if not trial.holds:
                    failed += 1
                    words = " ".join([program.name, *program.arguments])
                    print(f"{words}: {trial.fault}: expected {trial.expected}; came {trial.came}", file=sys.stderr)
                if trial.is_stopped:
                    break  # a program that hangs once may hang in every trial
    print(f"faults: {tried} tried, {failed} failed")
    return 1 if failed else 0


if __name__ == "__main__":
    sys.exit(main())
