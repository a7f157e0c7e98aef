#!/usr/bin/env python3
"""Scenario tests of the program replay_files, held to the independent model: every kind of line, each refusal at its
edges, the name and the counts, traces that come in pieces, and input and output that fail.

    python3 tests/replay.py PROGRAM
"""

import os
import pty
import re
import select
import subprocess
import sys
import tempfile
import tty
from contextlib import contextmanager
from itertools import chain
from pathlib import Path

ROOT = Path(__file__).resolve().parent.parent
sys.dont_write_bytecode = True  # the repository stays as it was
sys.path.insert(0, str(ROOT / "reference"))
import replay
import streamed
import traces
import verdicts
from execution import LENGTHS
from replay import MOST_BYTES, MOST_CASES, changed, numbers
from scenario import Fault, run_all
from traces import CADD, OUTSIDE, RESERVED, SQRDMLAH, Case, places, record, seen

PATIENCE = 60  # seconds in which a run must end by itself
QUIET = 0.1  # seconds without a line that show that none is due
ALL_ONES = 2**32 - 1
NAME = b"a.trace"
DASH = b"-"  # the name of a trace that comes in pieces
UNREAD = b"kob replay: the input could not be read\n"


# ---- running the program

# It is handed the name on descriptor 3, and says its counts on 4 and its progress on 6.
HANDED = 'exec "$0" 3<"$1" 4>"$2" 6>"$3"'


@contextmanager
def handed(line):
    """The command that starts it, and what reads its counts and its progress."""
    with tempfile.TemporaryDirectory() as folder:
        name, *files = (Path(folder, part) for part in ("name", "counts", "progress"))
        name.write_bytes(line)
        yield ["sh", "-c", HANDED, PROGRAM, name, *files], lambda: tuple(file.read_bytes() for file in files)


def run(data=None, line=NAME + b"\n", stdin=None, stdout=subprocess.PIPE, **more):
    """What it wrote to the pipes of its two outputs, its counts and its progress."""
    source = {"stdin": stdin} if data is None else {"input": data}
    with handed(line) as (command, said):
        try:
            done = subprocess.run(command, **source, stdout=stdout, stderr=subprocess.PIPE, timeout=PATIENCE, **more)
        except subprocess.TimeoutExpired:
            raise Fault(f"it did not end in {PATIENCE} s")
        if done.returncode != 0:
            raise Fault(f"it ended with status {done.returncode}")
        return (done.stdout, done.stderr, *said())


def expect(got, *wanted):
    if got != wanted:
        raise Fault(f"it gave {[str(part)[:300] for part in got]}, not {[str(part)[:300] for part in wanted]}")


def modelled(trace, name):
    """What run gives, by the model of a trace that is checked whole or of one that comes in pieces."""
    progress = b""
    if name != DASH and len(trace) <= MOST_BYTES:
        lines, counts = verdicts.lines(name, trace), verdicts.counts(trace)
    else:
        lines, counts, progress = streamed.told(name, trace)
    return lines, b"", b"%d %d %d\n" % counts, progress


# ---- the kinds of scenario


def as_modelled(trace, line=NAME + b"\n", name=NAME):
    expect(run(trace, line), *modelled(trace, name))


def by_dash(trace):
    as_modelled(trace, DASH + b"\n", DASH)


def is_kind(trace, *kinds):
    """A trace that is as long as its contents say, and whose cases have these verdicts."""
    entries, end = replay.contents(trace)
    judged = [replay.verdict(entry.length, replay.body_of(trace, entry))[0] for entry in entries]
    if len(trace) != end or judged != list(kinds):
        raise Fault(f"the scenario itself is wrong: the model gives {judged}")
    as_modelled(trace)


def is_refused(trace, number, what):
    """The words are here too, so that the model's cannot change with the program's."""
    expect(run(trace), b"%s\trefused\t%d\t%s\n" % (NAME, number, what.encode()), b"", b"0 0 1\n", b"")
    as_modelled(trace)


def is_broken(trace, number, what, name=DASH):
    """A trace that comes in pieces, and whose last line is this."""
    got = run(trace, name + b"\n")
    last = b"%s\trefused\t%d\t%s\n" % (name, number, what.encode())
    if not got[0].endswith(last):
        raise Fault(f"it gave {got[0][-300:]} last, not {last}")
    expect(got, *modelled(trace, name))


def alone(trace):
    """With descriptors 3, 4 and 6 closed the name is empty, and the counts and the progress go nowhere."""
    done = subprocess.run([PROGRAM], input=trace, stdout=subprocess.PIPE, stderr=subprocess.PIPE, timeout=PATIENCE)
    expect((done.returncode, done.stdout, done.stderr), 0, *modelled(trace, b"")[:2])


def in_pieces(trace, size, name):
    """Through a pipe, a write for each piece."""
    reading, writing = os.pipe()
    child = os.fork()
    if child == 0:
        try:
            os.close(reading)
            for at in range(0, len(trace), size):
                os.write(writing, trace[at : at + size])
        finally:
            os._exit(0)
    os.close(writing)
    try:
        expect(run(stdin=reading, line=name + b"\n"), *modelled(trace, name))
    finally:
        os.close(reading)
        os.waitpid(child, 0)


@contextmanager
def started(name, stdin):
    """The program, whose input is still open, and what reads its counts and its progress."""
    with handed(name + b"\n") as (command, said):
        process = subprocess.Popen(command, stdin=stdin, stdout=subprocess.PIPE, stderr=subprocess.PIPE, bufsize=0)
        with process:
            try:
                yield process, said
            finally:
                process.kill()


def printed(process, wanted):
    """Waits for these bytes; where none are wanted, for a while that none come."""
    got = b""
    while select.select([process.stdout], [], [], QUIET if got == wanted else PATIENCE)[0]:
        some = os.read(process.stdout.fileno(), 65536)
        got += some
        if not some or len(got) >= len(wanted) > 0:
            break
    if got != wanted:
        raise Fault(f"it gave {got[:300]}, not {wanted[:300]}")


def ended(process, said, faults, *wanted):
    """It ends by itself, and has printed nothing more."""
    try:
        process.wait(PATIENCE)
    except subprocess.TimeoutExpired:
        raise Fault(f"it did not end in {PATIENCE} s")
    expect((process.stdout.read(), process.stderr.read(), *said()), b"", faults, *wanted)


def when_due(trace, cuts, over, name=DASH):
    """At each cut so many lines are printed, while the input stays open. After the last cut the program ends by itself
    if the trace is over, else where the input ends."""
    lines, _, *counts = modelled(trace, name)
    with started(name, subprocess.PIPE) as (process, said):
        at, shown = 0, 0
        for cut, due in cuts:
            process.stdin.write(trace[at:cut])
            at, upto = cut, len(b"".join(lines.splitlines(True)[:due]))
            printed(process, lines[shown:upto])
            shown = upto
        if not over:
            process.stdin.close()
        ended(process, said, b"", *counts)


def expect_unread(name, **way):
    expect(run(line=name + b"\n", **way), b"", UNREAD, b"0 0 0\n", b"")


def from_folder(name):
    with tempfile.TemporaryDirectory() as folder:
        stdin = os.open(folder, os.O_RDONLY)
        try:
            expect_unread(name, stdin=stdin)
        finally:
            os.close(stdin)


def from_nothing(name):
    expect_unread(name, stdin=subprocess.DEVNULL, preexec_fn=lambda: os.close(0))


def from_gone_device(trace, cut):
    """A terminal that is gone after some bytes: a read fails, and what was printed stands."""
    try:
        reading, writing = pty.openpty()
    except OSError:
        return print("replay: not run: a device that is gone, since there is no pseudo-terminal")
    tty.setraw(writing)
    lines, counts, _ = streamed.told(DASH, trace[:cut])
    with started(DASH, reading) as (process, said):
        os.close(reading)
        os.write(writing, trace[:cut])
        printed(process, b"".join(lines.splitlines(True)[:-1]))
        os.close(writing)
        ended(process, said, UNREAD, b"%d %d 0\n" % counts[:2], b"")


def to_full_device(trace, name):
    with open("/dev/full", "wb") as full:
        got = run(trace, name + b"\n", stdout=full)
    expect(got, None, b"kob replay: the output could not be written\n", b"", b"")


# ---- the cases


def altered(trace, at, *new):
    """With other bytes from a place on."""
    return trace[:at] + bytes(new) + trace[at + len(new) :]


def judged():
    for name, make, kinds in traces.EXAMPLES:
        yield name, is_kind, make(), *kinds
    for length in LENGTHS:
        case = seen(length, 0, 2, CADD, CADD)
        trace = record([case, case])
        at = places(trace, 1)
        yield f"agrees at {length}", is_kind, trace, replay.AGREES, replay.AGREES
        width = length // 8
        for place in (0, width - 1, width, 16 * width + 5, 4 * length - 1):
            flipped = altered(trace, at.file_after + place, trace[at.file_after + place] ^ 0xA5)
            yield f"byte {place} at {length}", is_kind, flipped, replay.AGREES, replay.FILE_DIFFERS
    for before in (0, 1):
        trace = record([seen(128, before, 2, CADD)])
        other = changed(trace, places(trace, 0).flag_after, 1 - before)
        yield f"the flag {1 - before} for {before}", is_kind, other, replay.FLAG_DIFFERS
    trace = record([seen(128, 0, 13, SQRDMLAH)])
    yield "a flag that is set", is_kind, trace, replay.AGREES
    yield "a flag that stays", is_kind, changed(trace, places(trace, 0).flag_after, 0), replay.FLAG_DIFFERS
    for word, kind in ((OUTSIDE, replay.OUTSIDE), (RESERVED, replay.RESERVED), (ALL_ONES, replay.OUTSIDE)):
        for before in (0, 1, 4095):
            stops = record([Case(128, 0, bytes(512), [CADD] * before + [word])])
            yield f"{word:08X} after {before}", is_kind, stops, kind
    for before, after in ((2, 0), (0, 2), (256, 1), (1, ALL_ONES), (ALL_ONES, ALL_ONES)):
        at = places(trace, 0)
        bad = changed(changed(trace, at.flag_before, before), at.flag_after, after)
        yield f"flags {before} and {after}", is_kind, bad, replay.BAD_FLAG
    yield "the most cases", is_kind, record([Case(128, 0, bytes(512), [])] * 62), *[replay.AGREES] * 62
    yield "the most words", is_kind, record([Case(128, 0, bytes(512), [CADD] * 4096)]), replay.AGREES


# ---- the refusals

ONE = record([Case(128, 0, bytes(512), [CADD])])  # 1,052 bytes
FULL = record([Case(2048, 0, bytes(8192), [OUTSIDE] * count) for count in (4096, 4085)])  # 65,536 bytes
LENGTH = "128, 256, 512, 1024 and 2048 are allowed"


def refused_contents():
    for size in range(4):
        yield f"{size} bytes", is_refused, ONE[:size], 15, f"the number of cases takes 4 bytes, the trace has {size}"
    for cases in (0, MOST_CASES + 1, 2**30, 2**31, ALL_ONES):
        for trace in (ONE, ONE[:4], FULL + bytes(70000)):
            yield f"{cases} cases", is_refused, changed(trace, 0, cases), 15, f"cases {cases}: 1 to 1024 are allowed"
    for cases, size in ((1, 4), (1, 15), (2, 16), (2, 27), (MOST_CASES, 16), (MOST_CASES, 12291)):
        what = f"cases {cases}: the contents take {4 + 12 * cases} bytes, the trace has {size}"
        yield f"{cases} cases in {size} bytes", is_refused, numbers(cases).ljust(size, b"\x80"), 15, what
    for length in (0, 1, 127, 129, 384, 1920, 2049, 2176, 4096, ALL_ONES):
        for k, at in ((0, 4), (1, 16)):
            yield f"length {length}", is_refused, changed(FULL, at, length), 15, f"case {k}: length {length}: {LENGTH}"
    for words in (4097, 2**16, ALL_ONES):
        for k, at in ((0, 8), (1, 20)):
            what = f"case {k}: words {words}: 0 to 4096 are allowed"
            yield f"{words} words", is_refused, changed(FULL, at, words), 15, what
    for start in (0, 27, 29, 2**16 + 28, ALL_ONES):
        what = f"case 0: start {start}: the contents end at 28"
        yield f"start {start}", is_refused, changed(FULL, 12, start), 15, what
    for start in (0, 28, 32803, 32805, ALL_ONES):
        what = f"case 1: start {start}: the body before it ends at 32804"
        yield f"second start {start}", is_refused, changed(FULL, 24, start), 15, what


def refused_first():
    """Several numbers that are not allowed: the first of them, in the order of the trace's bytes, is told."""
    wrong = changed(FULL, 4, 100, 5000, 1, 200, 6000, 2)
    yield "all are wrong", is_refused, wrong, 15, f"case 0: length 100: {LENGTH}"
    yield "all but a length", is_refused, changed(wrong, 4, 128), 15, "case 0: words 5000: 0 to 4096 are allowed"
    yield "all but two", is_refused, changed(wrong, 4, 128, 5), 15, "case 0: start 1: the contents end at 28"
    yield "all of case 1", is_refused, changed(wrong, 4, 128, 5, 28), 15, f"case 1: length 200: {LENGTH}"
    last = changed(wrong, 4, 128, 5, 28, 256, 6)
    yield "the last alone", is_refused, last, 15, "case 1: start 2: the body before it ends at 1080"
    yield "cut short, and a length", is_refused, wrong[:20], 15, "cases 2: the contents take 28 bytes, the trace has 20"
    most = numbers(MOST_CASES) + bytes(12 * MOST_CASES)
    yield "1024 cases", is_refused, most, 15, f"case 0: length 0: {LENGTH}"
    entries = [(128, 0, 12292 + 1032 * k) for k in range(MOST_CASES)]
    most = numbers(MOST_CASES, *(number for entry in entries for number in entry))
    yield "1024 entries", is_refused, most, 16, "the contents say 1069060 bytes, the trace has 12292"
    most = changed(most, len(most) - 8, 4097)
    yield "the last of 1024", is_refused, most, 15, "case 1023: words 4097: 0 to 4096 are allowed"


def refused_total():
    for size in (16, 1051, 1053, 2000):
        what = f"the contents say 1052 bytes, the trace has {size}"
        yield f"{size} bytes for 1052", is_refused, (ONE + bytes(2000))[:size], 16, what
    what = "the contents say 17432 bytes, the trace has 1052"
    yield "4096 words that are not there", is_refused, changed(ONE, 8, 4096), 16, what
    yield "65536 bytes", as_modelled, FULL
    yield "65535 bytes", is_refused, FULL[:-1], 16, "the contents say 65536 bytes, the trace has 65535"
    yield "65536 of 65540", is_refused, changed(FULL, 20, 4086), 16, "the contents say 65540 bytes, the trace has 65536"


def documented():
    """A trace for each refusal that docs/replay.md shows, in its order."""
    four = record([Case(128, 0, bytes(512), [OUTSIDE] * count) for count in (244, 0, 0, 0)])
    made = (
        (is_refused, ONE[:3]),
        (is_refused, numbers(0)),
        (is_refused, numbers(5).ljust(40, b"\0")),
        (is_refused, changed(four, 40, 384)),
        (is_refused, changed(four, 44, 5000)),
        (is_refused, changed(ONE, 12, 20)),
        (is_refused, changed(four, 48, 4120)),
        (is_refused, ONE[:1040]),
        (is_broken, four[: 4124 + 236]),
        (is_broken, four + b"\0"),
    )
    rows = re.findall(r"^\| (15|16) \| `(.*)` \|$", (ROOT / "docs/replay.md").read_text(), re.M)
    if len(rows) != len(made):
        sys.exit(f"replay: docs/replay.md shows {len(rows)} refusals, not {len(made)}")
    for (test, trace), (number, what) in zip(made, rows):
        yield f"the page's {what}", test, trace, int(number), what


# ---- traces that come in pieces

TWO = record([Case(128, 0, bytes(512), [CADD] * count) for count in (1, 2)])  # bodies from 28 and 1,064 on, to 2,104
LONG = record([Case(128, 0, bytes(512), [CADD] * count) for count in [3] * 61 + [19]])  # 65,540 bytes


def lengthened(trace, count):
    """A trace with so many cases more, which agree, before its own."""
    fill = record([Case(128, 0, bytes(512), [CADD])] * count)
    own, its = replay.contents(fill)[0], replay.contents(trace)[0]
    bodies = fill[own[0].start :] + trace[its[0].start :]
    start, contents = 4 + 12 * (count + len(its)), numbers(count + len(its))
    for length, words, _ in (*own, *its):
        contents += numbers(length, words, start)
        start += 8 + 8 * length + 4 * words
    return contents + bodies


def repeated(length, words, count):
    """A trace of equal cases."""
    body = record([Case(length, 0, bytes(4 * length), [OUTSIDE] * words)])[16:]
    starts = range(4 + 12 * count, 4 + 12 * count + count * len(body), len(body))
    return b"".join((numbers(count), *(numbers(length, words, start) for start in starts), body * count))


def by_standard_input():
    """What a trace that is checked whole prints, and what it does not: the lines before a refusal."""
    for name, _, trace, *_ in chain(judged(), refused_contents(), refused_first(), refused_total()):
        yield f"{name}, by -", by_dash, trace
    for size in (1, 3, 7, 1000, 4096):
        yield f"pieces of {size}, by -", in_pieces, traces.differ(), size, DASH
    for cut in (*range(34), 1063, 1065, 2103):
        yield f"{cut} bytes of two cases", by_dash, TWO[:cut]
    yield "the first case alone", is_broken, TWO[:1064], 16, "case 1: the body takes 1040 bytes, 0 of them came"
    yield "all but a byte", is_broken, TWO[:-1], 16, "case 1: the body takes 1040 bytes, 1039 of them came"
    yield "no byte", is_broken, b"", 15, "the number of cases takes 4 bytes, the trace has 0"
    yield "contents cut", is_broken, TWO[:27], 15, "cases 2: the contents take 28 bytes, the trace has 27"
    # What is cut short is told of a trace that is checked whole. Here the number comes before it.
    wrong = changed(TWO, 16, 384)
    yield "a length before the cut", is_broken, wrong[:20], 15, f"case 1: length 384: {LENGTH}"
    yield "a length that is cut", is_broken, wrong[:19], 15, "cases 2: the contents take 28 bytes, the trace has 19"
    more = "the contents say 2104 bytes, the trace has more"
    for count in (1, 1000, 1_000_000):
        yield f"{count} bytes too many", is_broken, TWO + bytes(count), 16, more
        yield f"{count} bytes after a length", is_broken, wrong[:20] + bytes(count), 15, f"case 1: length 384: {LENGTH}"


def due_in_time():
    """With the last byte, and not before it, while the input stays open."""
    ends = [places(TWO, k).end for k in range(2)]
    cuts = [(28, 0), (ends[0] - 1, 0), (ends[0], 1), (ends[1] - 1, 1), (ends[1], 2)]
    yield "lines when due", when_due, TWO, cuts, False
    yield "one byte more", when_due, TWO + bytes(2), [(ends[1], 2), (ends[1] + 1, 3)], True
    for at in (4, 8, 12, 16, 20, 24, 28):
        yield f"a wrong number before {at}", when_due, changed(TWO, at - 4, ALL_ONES), [(at - 1, 0), (at, 1)], True
    size = MOST_BYTES + 1
    whole = sum(places(LONG, k).end <= size for k in range(62))
    cuts = [(size - 1, 0), (size, whole), (len(LONG), 62)]
    yield "a file, from its byte 65,537 on", when_due, LONG, cuts, False, NAME


def long_files():
    """Files above 64 KiB, whose lines have the file's name."""
    yield "65540 bytes that agree", is_kind, LONG, *[replay.AGREES] * 62
    _, differ, kinds = traces.EXAMPLES[1]
    mixed = lengthened(differ(), 62)
    yield "each verdict behind 64 KiB", is_kind, mixed, *[replay.AGREES] * 62, *kinds
    yield "each verdict behind 64 KiB, by -", by_dash, mixed
    for size in (1021, 65536, 65537):
        yield f"long, pieces of {size}", in_pieces, mixed, size, NAME
    what = "the contents say 65536 bytes, the trace has more"
    yield "65537 bytes", is_broken, FULL + b"\0", 16, what, NAME
    yield "a million bytes", is_broken, FULL + bytes(1_000_000), 16, what, NAME
    what = "the contents say 1052 bytes, the trace has more"
    yield "one case in 70000 bytes", is_broken, ONE.ljust(70000, b"\0"), 16, what, NAME
    for cut in (65537, 65539):
        what = f"case 61: the body takes 1108 bytes, {cut - 64432} of them came"
        yield f"{cut} bytes of 65540", is_broken, LONG[:cut], 16, what, NAME
    body = len(mixed) - replay.contents(mixed)[0][-1].start
    what = f"case 66: the body takes {body} bytes, {body - 1} of them came"
    yield "each verdict, and a cut", is_broken, mixed[:-1], 16, what, NAME
    for count in (1004, 1005):  # the trace ends 396 bytes before 1 MiB, and 648 behind it
        yield f"{count} cases", as_modelled, repeated(128, 0, count)
    longest = repeated(2048, 4096, MOST_CASES)
    yield "the longest trace", as_modelled, longest
    what = "the contents say 33574916 bytes, the trace has more"
    yield "the longest trace, by -, and a byte", is_broken, longest + b"\0", 16, what


# ---- the name, the input and the output


def names():
    odd = b"a b.trace", b"a\tb", b"a\nb", b"\n", b"\r", b"a\x7f", b"\x1f\x20\x7e\x80\xff", bytes(range(256))
    for name in (b"", b"a", *odd):
        yield f"the name {name[:20]}", as_modelled, ONE, name + b"\n", name
    yield "a name with no line end", as_modelled, ONE, b"a.trace", b"a.trace"
    yield "- with no line end", as_modelled, TWO[:-1], DASH, DASH
    for name in (b"--", b"-a", b"./-", b"a", b"- ", b""):
        yield f"the name {name}, which is not -", as_modelled, TWO[:-1], name + b"\n", name
    for size in (4095, 4096):
        yield f"a name of {size} bytes", as_modelled, ONE, b"n" * size + b"\n"[: 4096 - size], b"n" * size
    yield "a name of 5000 bytes, cut", as_modelled, ONE, b"n" * 5000, b"n" * 4096
    yield "a long name and a refusal", as_modelled, changed(FULL, 24, ALL_ONES), b"n" * 4096, b"n" * 4096


def around():
    for trace in (ONE, traces.differ(), ONE[:3], repeated(128, 0, 1005)):
        yield f"no other descriptors, {len(trace)} bytes", alone, trace
    for size in (1, 7, 4096, 65535):
        yield f"pieces of {size}", in_pieces, traces.differ(), size, NAME
    yield "65536 bytes in pieces", in_pieces, FULL, 1021, NAME
    for name in (NAME, DASH):
        yield f"input that is a folder, {name}", from_folder, name
        yield f"input that is not open, {name}", from_nothing, name
        yield f"output that is full, {name}", to_full_device, ONE, name
        yield f"output that is full, a refusal, {name}", to_full_device, b"", name
    yield "output that is full, a long file", to_full_device, LONG, NAME
    yield "a device that is gone", from_gone_device, traces.differ(), 3000


PARTS = (
    judged, refused_contents, refused_first, refused_total, documented, by_standard_input, due_in_time, long_files,
    names, around,
)  # fmt: skip


if __name__ == "__main__":
    if len(sys.argv) != 2:
        sys.exit("usage: python3 tests/replay.py PROGRAM")
    PROGRAM = os.path.abspath(sys.argv[1])
    sys.exit(run_all("replay", chain.from_iterable(part() for part in PARTS)))
