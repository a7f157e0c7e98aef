#!/usr/bin/env python3
"""The independent model of a stream: a trace that comes in pieces, however they are cut.

Written from request A10 alone, over the model of replay. A stream holds all bytes that it has taken, and
each answer is decided from all of them anew. Run as a program it checks itself and says so.
"""

import struct
import sys
from bisect import bisect_right
from functools import lru_cache
from itertools import chain, cycle

sys.dont_write_bytecode = True  # the repository stays as it was
import replay
from execution import DONE, LENGTHS, MOST_WORDS, OUTSIDE, RESERVED
from replay import AGREES, BAD_CONTENTS, BAD_TOTAL, FILE_DIFFERS, MOST_CASES, NO_VERDICT, changed, numbers, worked


# ---- what falls due. What is cached is a function of the bytes that are asked for, and only saves time.


@lru_cache(maxsize=64)
def listed(contents):
    """A9's entries, and where each body ends; none where the contents are not whole or not allowed."""
    entries, _ = replay.contents(contents)
    return entries, [start + 8 + 8 * length + 4 * words for length, words, start in entries]


def contents_of(trace):
    """The bytes of the contents, as far as they are there."""
    cases = int.from_bytes(trace[:4], "little")
    return bytes(trace[: 4 + 12 * min(cases, MOST_CASES)])


def refused_end(trace):
    """Where the first number of the contents ends that A9 does not allow; None where all that are whole are."""
    contents = contents_of(trace)
    whole = len(contents) // 4
    if whole == 0:
        return None
    cases, *given = struct.unpack_from(f"<{whole}I", contents)
    if not 1 <= cases <= MOST_CASES:
        return 4
    start = 4 + 12 * cases
    for at in range(0, len(given), 3):
        entry = given[at : at + 3]  # the last may lack some of its numbers
        for k, (number, allowed) in enumerate(zip(entry, (LENGTHS, range(MOST_WORDS + 1), (start,)))):
            if number not in allowed:
                return 4 + 4 * (at + k + 1)
        start += 8 + 8 * entry[0] + 4 * sum(entry[1:2])
    return None


@lru_cache(maxsize=2048)
def verdict(length, words, body):
    """Of a body that stands alone."""
    return replay.verdict(length, replay.body_of(body, replay.Entry(length, words, 0)))


def due(trace, held):
    """What falls due first behind the bytes held: the bytes up to and with the one that brings it, then the
    number, the kind and the place. None where nothing does."""
    entries, ends = listed(contents_of(trace))
    if not entries:
        end = refused_end(trace)
        return end and (end, BAD_CONTENTS, NO_VERDICT, 0)
    if len(trace) > held >= ends[-1]:
        return ends[-1] + 1, BAD_TOTAL, NO_VERDICT, 0
    n = bisect_right(ends, held)  # the first body that ends behind them
    if n == len(ends) or len(trace) < ends[n]:
        return None
    length, words, start = entries[n]
    kind, place, _ = verdict(length, words, bytes(trace[start : ends[n]]))
    return ends[n], DONE, kind, place


# ---- the calls


class Stream:
    """All bytes taken, and the number of the refusal or the end; None while it is live."""

    def __init__(self):
        self.held = bytearray()
        self.over = None

    def feed(self, piece):
        """The bytes taken, the number, the kind and the place."""
        if self.over is not None:
            return 0, self.over, NO_VERDICT, 0
        held = len(self.held)
        self.held += piece
        end, number, *told = due(self.held, held) or (len(self.held), DONE, NO_VERDICT, 0)
        del self.held[end:]
        if number != DONE:
            self.over = number
        return (end - held, number, *told)

    def end(self):
        if self.over is None:
            entries, ends = listed(contents_of(self.held))  # a live stream has no number that is not allowed
            self.over = BAD_CONTENTS if not entries else DONE if len(self.held) == ends[-1] else BAD_TOTAL
        return self.over


def calls(stream, trace, sizes):
    """Hands the trace in, in pieces of these sizes as far as it goes; what a call does not take is handed in
    again. Each call's piece and answer, until all is taken or the stream is over."""
    at = 0
    for size in sizes:
        if stream.over is not None or at == len(trace):
            return
        piece = trace[at : at + size]
        answer = stream.feed(piece)
        at += answer[0]
        yield piece, answer


def sizes(first, step):
    """The first piece's, and those of the others without end, each behind an empty one."""
    return chain((0, first), cycle((0, step)))


# ---- the model's own checks


def told(trace, first, step):
    """What the calls tell: the bytes taken up to there, number, kind and place; then the end's number."""
    stream, taken, found = Stream(), 0, []
    for piece, (some, *answer) in calls(stream, trace, sizes(first, step)):
        taken += some
        if answer != [DONE, NO_VERDICT, 0]:
            found.append((taken, *answer))
        elif some != len(piece):
            found.append((taken, "not all taken"))
    return [*found, stream.end()]


def by_replay(trace):
    """The same from what A9 says of the whole trace, where it has at most 64 KiB and is taken."""
    _, ends = listed(contents_of(trace))
    return [*((end, *replay.judge(trace, n)[:3]) for n, end in enumerate(ends)), DONE]


def two_cases():
    """The second differs."""
    good = worked()
    return numbers(2, 128, 1, 28, 128, 1, len(good) + 12) + good[16:] + worked(lanes=(127, 127))[16:]


def refusal_faults(expect):
    """Either side of each number, with the last byte of which 15 comes, and the ends."""
    good, two = worked(), two_cases()
    size, first = len(good), (len(good), DONE, AGREES, 0)
    for what, trace, wanted in (
        ("no bytes", b"", [BAD_CONTENTS]),
        ("3 bytes", good[:3], [BAD_CONTENTS]),
        ("15 bytes", good[:15], [BAD_CONTENTS]),
        ("the contents alone", good[:16], [BAD_TOTAL]),
        ("one byte less", good[:-1], [BAD_TOTAL]),
        ("whole", good, [first, DONE]),
        ("one byte more", good + b"\0", [first, (size + 1, 16, 0, 0), BAD_TOTAL]),
        ("9 bytes more", good + bytes(9), [first, (size + 1, 16, 0, 0), BAD_TOTAL]),
        ("no case", changed(good, 0, 0), [(4, 15, 0, 0), BAD_CONTENTS]),
        ("1,024 cases", changed(good, 0, 1024), [(16, 15, 0, 0), BAD_CONTENTS]),
        ("1,024 cases, no more", numbers(1024), [BAD_CONTENTS]),
        ("1,025 cases", changed(good, 0, 1025), [(4, 15, 0, 0), BAD_CONTENTS]),
        ("384 bits", changed(good, 4, 384), [(8, 15, 0, 0), BAD_CONTENTS]),
        ("384 bits, a byte short", changed(good, 4, 384)[:7], [BAD_CONTENTS]),
        ("256 bits", changed(good, 4, 256), [BAD_TOTAL]),
        ("4,096 words", changed(good, 8, 4096), [BAD_TOTAL]),
        ("4,097 words", changed(good, 8, 4097), [(12, 15, 0, 0), BAD_CONTENTS]),
        ("a start one more", changed(good, 12, 17), [(16, 15, 0, 0), BAD_CONTENTS]),
        ("two faults", changed(good, 8, 4097, 17), [(12, 15, 0, 0), BAD_CONTENTS]),
        ("two cases", two, [(1064, 0, AGREES, 0), (2100, 0, FILE_DIFFERS, 1), DONE]),
        ("a second start one more", changed(two, 24, 1065), [(28, 15, 0, 0), BAD_CONTENTS]),
        ("a third length", numbers(3, 128, 1, 40, 256, 2, 1076, 384), [(32, 15, 0, 0), BAD_CONTENTS]),
        ("a third start", numbers(3, 128, 1, 40, 256, 2, 1076, 128, 0, 3141), [(40, 15, 0, 0), BAD_CONTENTS]),
        ("three cases, no body", numbers(3, 128, 1, 40, 256, 2, 1076, 128, 0, 3140), [BAD_TOTAL]),
        ("two cases, a body short", two[:1064], [(1064, 0, AGREES, 0), BAD_TOTAL]),
        ("outside", worked(words=(0,)), [(size, 0, OUTSIDE, 0), DONE]),
    ):
        for step in (1, 3, 4, 5, 512, 4096):
            expect(f"{what}, by {step}", told(trace, step, step), wanted)


def cut_faults(expect):
    """Every cut place, every end and, up to 64 KiB, what A9 says; above, what it says of each case alone."""
    reserved = worked(words=(replay.RESERVED_WORD, 0), after=7)
    for trace in (two_cases(), reserved, changed(two_cases(), 16, 256), two_cases() + b"\1\0"):
        size = len(trace)
        whole = told(trace, size, size)
        if replay.check(trace)[0] == DONE:
            expect("A9's verdicts", whole, by_replay(trace))
        for cut in range(size + 1):
            expect(f"cut at {cut}", told(trace, cut, size), whole)
            expect(f"ended at {cut}", told(trace[:cut], size, size)[-1], replay.check(trace[:cut])[0])
    cases = 80
    body = worked(words=(replay.RESERVED_WORD,))[16:]
    starts = range(4 + 12 * cases, 4 + 12 * cases + cases * len(body), len(body))
    long = numbers(cases) + b"".join(numbers(128, 1, start) for start in starts) + body * cases
    wanted = [(start + len(body), DONE, RESERVED, 0) for start in starts]
    expect("above 64 KiB", told(long, 1, 999), [*wanted, DONE])
    expect("above 64 KiB, cut short", told(long[:-1], 65536, 65536), [*wanted[:-1], BAD_TOTAL])


def over_faults(expect):
    """Behind a refusal and behind an end every call gives that answer, and takes nothing."""
    good = worked()
    for trace, number in ((good, DONE), (good[:20], 16), (good[:9], 15), (b"", 15), (good + b"\0", 16), (bytes(4), 15)):
        stream = Stream()
        for _ in calls(stream, trace, sizes(500, 500)):
            pass
        expect("the end", stream.end(), number)
        for piece in (b"", b"\0", good):
            expect("behind it", (stream.feed(piece), stream.end()), ((0, number, NO_VERDICT, 0), number))


def self_check():
    """The faults found, a line each."""
    faults = []

    def expect(what, found, wanted):
        if found != wanted:
            faults.append(f"{what}: {found}, not {wanted}")

    refusal_faults(expect)
    cut_faults(expect)
    over_faults(expect)
    return faults


if __name__ == "__main__":
    found = self_check()
    for fault in found:
        print(f"stream: {fault}")
    print(f"stream: {len(found)} faults")
    sys.exit(1 if found else 0)
