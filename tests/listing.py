#!/usr/bin/env python3
"""Scenario tests of the listing program, held to the independent model.

    python3 tests/listing.py PROGRAM
"""

import fcntl
import os
import signal
import socket
import struct
import subprocess
import sys
import tempfile
import termios
import threading
import time
from pathlib import Path

sys.dont_write_bytecode = True  # the repository stays as it was
sys.path.insert(0, str(Path(__file__).resolve().parent.parent / "reference"))
import cases
import model
from model import LIMIT
from scenario import Fault, run_all

PATIENCE = 60  # seconds in which a run must end by itself


# ---- running the program


class Run:
    """A started program. One that has not ended in time is killed, so that no wait here is endless."""

    def __init__(self, stdin, stdout=subprocess.PIPE, **more):
        self.process = subprocess.Popen(
            [PROGRAM], stdin=stdin, stdout=stdout, stderr=subprocess.PIPE, **more
        )
        self.late = False
        self.watch = threading.Timer(PATIENCE, self.stop)
        self.watch.daemon = True
        self.watch.start()

    def stop(self):
        self.late = True
        self.process.kill()

    def end(self, data=None):
        """Gives it the data, waits, and returns what it wrote to the pipes of its two outputs."""
        wrote, said = self.process.communicate(data)
        self.watch.cancel()
        if self.late:
            raise Fault(f"it did not end in {PATIENCE} s")
        return wrote, said


def stored(data):
    """The data in a file, at its start."""
    file = tempfile.TemporaryFile()
    file.write(data)
    file.seek(0)
    return file


def expect_listing(run, wrote, said, wanted):
    if wrote != wanted:
        theirs, ours = wrote.splitlines(), wanted.splitlines()
        at = next((i for i, (a, b) in enumerate(zip(theirs, ours)) if a != b), min(len(theirs), len(ours)))
        was, due = theirs[at : at + 1], ours[at : at + 1]
        raise Fault(f"line {at + 1} is {was}, not {due}; {len(theirs)} lines, not {len(ours)}")
    if run.process.returncode != 0:
        raise Fault(f"it ended with status {run.process.returncode}")
    if said:
        raise Fault(f"it wrote on standard error: {said[:80]!r}")


# ---- input


def from_file(data, wanted):
    with stored(data) as file:
        run = Run(file)
        expect_listing(run, *run.end(), wanted)


def from_pipe(data, wanted):
    run = Run(subprocess.PIPE)
    expect_listing(run, *run.end(data), wanted)


def unread(pipe):
    return struct.unpack("i", fcntl.ioctl(pipe, termios.FIONREAD, bytes(4)))[0]


def in_cuts(data, cuts, wanted, kept_open=False):
    """Gives the data in pieces of the lengths of cuts, in turn, and a piece only when the one before
    has been read, so that no read can join two of them. Input that is kept open does not end."""
    with tempfile.TemporaryFile() as output:
        run = Run(subprocess.PIPE, output)
        pipe = run.process.stdin.fileno()
        at = turn = 0
        try:
            while at < len(data):
                piece = data[at : at + cuts[turn % len(cuts)]]
                at, turn = at + os.write(pipe, piece), turn + 1
                while unread(pipe) > 0 and run.process.poll() is None:
                    os.sched_yield()
        except BrokenPipeError:
            pass  # it stopped reading: its output says whether it should have
        if kept_open:
            run.process.wait()
        _, said = run.end()
        output.seek(0)
        expect_listing(run, output.read(), said, wanted)


# ---- output


def read_slowly(data, piece, wanted):
    """Reads the output in small pieces. Between two of them the program is stopped and continued: a
    write that waits for room in the pipe then returns what it has written so far, a short write."""
    with stored(data) as file:
        run = Run(file)
    wrote = bytearray()
    while part := os.read(run.process.stdout.fileno(), piece):
        wrote += part
        time.sleep(0.0005)
        run.process.send_signal(signal.SIGSTOP)
        run.process.send_signal(signal.SIGCONT)
    _, said = run.end()
    expect_listing(run, bytes(wrote), said, wanted)


def failed_writes(output, data, **more):
    """Writing fails. The input stays open, so the program ends only if the failed write ends it; and
    it has to end before it has read half of what it may list."""
    run = Run(subprocess.PIPE, output, **more)
    os.close(output)
    pipe = run.process.stdin.fileno()
    os.set_blocking(pipe, False)
    sent = 0
    while run.process.poll() is None and sent < len(data):
        try:
            sent += os.write(pipe, data[sent : sent + 4096])
        except BlockingIOError:
            time.sleep(0.001)
        except BrokenPipeError:
            break
    run.process.wait()
    run.end()
    if sent > 2 * LIMIT:
        raise Fault(f"it read on, {sent} bytes, after a failed write")


def full_device():
    return os.open("/dev/full", os.O_WRONLY)


def closed_pipe():
    read, write = os.pipe()
    os.close(read)
    return write


def full_at_the_end():
    """Its last line is the first that it writes, and fails."""
    output = full_device()
    run = Run(subprocess.DEVNULL, output)
    os.close(output)
    run.end()


# ---- failed reads


def expect_failed_read(wrote, said, body):
    """It may have written lines of what was read before, and nothing that ends a listing."""
    if not body.startswith(wrote) or wrote[-1:] not in (b"", b"\n"):
        raise Fault(f"it wrote {wrote[-80:]!r}")
    if b"read" not in said.lower():
        raise Fault(f"it does not say that the read failed, but {said[:80]!r}")


def from_folder():
    with tempfile.TemporaryDirectory() as folder:
        stdin = os.open(folder, os.O_RDONLY)
        run = Run(stdin)
        os.close(stdin)
        expect_failed_read(*run.end(), b"")


def from_nothing():
    run = Run(subprocess.DEVNULL, preexec_fn=lambda: os.close(0))
    expect_failed_read(*run.end(), b"")


def from_broken_line(data, body):
    """A socket gives its bytes, then an error, and after that the end of input: the system does so
    where the far end is closed and had something left to read."""
    near, far = socket.socketpair()
    near.send(b"?")
    far.sendall(data)
    far.close()
    run = Run(near)
    near.close()
    expect_failed_read(*run.end(), body)


# ---- the scenarios


def mix(count, seed):
    return struct.pack(f"<{count}I", *cases.Source(seed).mix(count))


def scenarios():
    """Each scenario: its name, and the function that tries it, with its arguments."""
    some = mix(1000, seed=4)
    some_lines = model.listing(some)[: -len(b"TOTAL 1000\n")]
    # The long inputs are parts of one, so that the model has to list its words only once.
    long = mix(2_000_000, seed=5)
    full = long[: 4 * LIMIT]
    full_lines = model.listing(full)[: -len(b"TOTAL 1048576\n")]
    one_more = long[: 4 * LIMIT + 4]

    yield "document 01's example", from_file, *model.EXAMPLE
    yield "empty input", from_file, b"", b"TOTAL 0\n"
    yield "empty input, piped", from_pipe, b"", b"TOTAL 0\n"
    for tail in (b"\x00", b"\xd8\x01", b"\x00\xd8\x01"):
        last = b"TAIL %d\nTOTAL " % len(tail)
        name = f"a tail of {len(tail)}"
        yield f"{name} alone", from_file, tail, last + b"0\n"
        yield f"{name} after 1000 words", from_file, some + tail, some_lines + last + b"1000\n"
        wanted = full_lines + last + b"1048576\n"
        yield f"{name} after 1048576 words", from_file, full + tail, wanted
        yield f"{name} after 1048576 words, piped", from_pipe, full + tail, wanted

    million = long[:4_000_000]
    yield "a mix of 1000000 words", from_file, million, model.listing(million)
    for way in (from_file, from_pipe):
        by = way.__name__
        yield f"1048576 words, {by}", way, full, full_lines + b"TOTAL 1048576\n"
        yield f"one word more, {by}", way, one_more, full_lines + b"LIMIT\n"
        yield f"one word and a tail more, {by}", way, one_more + b"\0", full_lines + b"LIMIT\n"
        yield f"2000000 words, {by}", way, long, full_lines + b"LIMIT\n"

    for tail in (b"", b"\xd8", b"\xd8\x01", b"\x00\xd8\x01"):
        wanted = model.listing(some + tail)
        for cuts in ((1,), (3,), (5,), (7,), (2, 1, 5, 4, 3)):
            yield f"cuts of {cuts} bytes, a tail of {len(tail)}", in_cuts, some + tail, cuts, wanted
    cut = full[: 4 * 200_000] + b"\xd8\x01"
    wanted = model.listing(cut)
    for cuts in ((65_535,), (65_537,), (65_536, 1), (4095, 3, 65_535)):
        yield f"cuts of {cuts} bytes", in_cuts, cut, cuts, wanted
    yield "one word more, in odd cuts", in_cuts, one_more, (65_533,), full_lines + b"LIMIT\n"
    yield "one word more, no end", in_cuts, one_more, (65_536,), full_lines + b"LIMIT\n", True

    shown = full[: 4 * 50_000]
    for piece in (997, 5000):
        yield f"output read by {piece} bytes", read_slowly, shown, piece, model.listing(shown)

    yield "input that is a folder", from_folder
    yield "input that is not open", from_nothing
    for length in (0, 3, 4000, 80_001):
        yield f"input that fails after {length} bytes", from_broken_line, full[:length], full_lines

    yield "output that is full", failed_writes, full_device(), long
    yield "output that is full at the last line", full_at_the_end
    yield "output that nobody reads", failed_writes, closed_pipe(), long
    # Python ignores the signal of a pipe that nobody reads. Here the program is left to do the same.
    quiet = lambda: failed_writes(closed_pipe(), long, restore_signals=False)
    yield "output that nobody reads, without the signal", quiet


if __name__ == "__main__":
    if len(sys.argv) != 2:
        sys.exit("usage: python3 tests/listing.py PROGRAM")
    PROGRAM = os.path.abspath(sys.argv[1])
    sys.exit(run_all("listing", scenarios()))
