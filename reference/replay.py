#!/usr/bin/env python3
"""The independent model of replay: the check of a recorder's trace, and the judgement of a case.

Written from request A9 alone, over the model of execution. A trace is bytes, all in little-endian numbers
of 4 bytes: the number of cases; for each case its length in bits, its word count and its body's start;
then the bodies. Run as a program it checks itself and says so.
"""

import struct
import sys
from typing import NamedTuple

sys.dont_write_bytecode = True  # the repository stays as it was
import execution
from execution import DONE, LENGTHS, MOST_WORDS, OUTSIDE, RESERVED

MOST_BYTES = 65536
MOST_CASES = 1024

# A9's numbers. 17 is a verdict, and so are 4 and 5; the kinds of the others are the C call's.
BAD_CONTENTS, BAD_TOTAL, BAD_FLAG, NO_CASE = 15, 16, 17, 22
NO_VERDICT, AGREES, FILE_DIFFERS, FLAG_DIFFERS = range(4)


class Entry(NamedTuple):
    """What the contents say of a case."""

    length: int
    words: int
    start: int


class Body(NamedTuple):
    flag_before: int
    file_before: bytes
    words: tuple
    flag_after: int
    file_after: bytes


def numbers(*values):
    """As a trace holds them."""
    return struct.pack(f"<{len(values)}I", *values)


# ---- the contents


def contents(trace):
    """An entry for each case, and where the last body ends; no entry where the contents are refused."""
    refused = [], 0
    if len(trace) < 4:
        return refused
    (cases,) = struct.unpack_from("<I", trace)
    end = 4 + 12 * cases
    if not 1 <= cases <= MOST_CASES or len(trace) < end:
        return refused
    entries = [Entry(*numbers) for numbers in struct.iter_unpack("<3I", trace[4:end])]
    for length, words, start in entries:
        if length not in LENGTHS or words > MOST_WORDS or start != end:
            return refused
        end += 8 + 8 * length + 4 * words
    return entries, end


def check(trace):
    """0 with the number of cases; or 15 or 16, the first that applies, with none."""
    entries, end = contents(trace)
    if not entries:
        return BAD_CONTENTS, 0
    if len(trace) > MOST_BYTES or len(trace) != end:
        return BAD_TOTAL, 0
    return DONE, len(entries)


# ---- a case


def body_of(trace, entry):
    """QC before, file before, words, QC after, file after, with no gap."""
    file = f"{4 * entry.length}s"
    parts = struct.unpack_from(f"<I{file}{entry.words}II{file}", trace, entry.start)
    return Body(parts[0], parts[1], parts[2:-2], parts[-2], parts[-1])


def verdict(length, body):
    """The kind; the byte of the file or the word that it names, else 0; and what the run leaves at that
    byte, else 0."""
    if body.flag_before > 1 or body.flag_after > 1:
        return BAD_FLAG, 0, 0
    ran = execution.run(length, body.file_before, body.flag_before == 1, body.words)
    if ran.number in (OUTSIDE, RESERVED):
        return ran.number, ran.done, 0
    for place, (left, recorded) in enumerate(zip(ran.file, body.file_after)):
        if left != recorded:
            return FILE_DIFFERS, place, left
    return (AGREES if ran.flag == (body.flag_after == 1) else FLAG_DIFFERS), 0, 0


def judge(trace, n):
    """The number, which is 0, or 15, 16 or 22 with no verdict; then the verdict of case n."""
    number, cases = check(trace)
    if number == DONE and n >= cases:
        number = NO_CASE
    if number != DONE:
        return number, NO_VERDICT, 0, 0
    entry = contents(trace)[0][n]
    return (DONE, *verdict(entry.length, body_of(trace, entry)))


# ---- the model's own checks

FILE = 512  # the bytes of a file at 128 bits
SQCADD, RESERVED_WORD = 0x4501D820, 0x2F00F000  # SQCADD Z0.B, Z0.B, Z1.B, 90; and a word of P7


def worked(words=(SQCADD,), lanes=(127, 128), before=0, after=0):
    """One case at 128 bits. P8: Z0 = (0, 0) and Z1 = (-128, -128), and SQCADD leaves (127, -128) in Z0."""
    file_before = bytes(16) + bytes([128, 128]) + bytes(FILE - 18)
    file_after = bytes(lanes) + file_before[2:]
    trace = numbers(1, 128, len(words), 16, before) + file_before + numbers(*words)
    return trace + numbers(after) + file_after


def changed(trace, at, *new):
    """With other numbers from a place on."""
    return trace[:at] + numbers(*new) + trace[at + 4 * len(new) :]


def verdict_faults(expect):
    """Each verdict, and what comes ahead of it."""
    for what, trace, wanted in (
        ("agrees", worked(), (AGREES, 0, 0)),
        ("QC stays set", worked(before=1, after=1), (AGREES, 0, 0)),
        ("the first byte", worked(lanes=(126, 128)), (FILE_DIFFERS, 0, 127)),
        ("the second byte", worked(lanes=(127, 127)), (FILE_DIFFERS, 1, 128)),
        ("both bytes", worked(lanes=(0, 0)), (FILE_DIFFERS, 0, 127)),
        ("the last byte", worked()[:-1] + b"\1", (FILE_DIFFERS, FILE - 1, 0)),
        ("QC after", worked(after=1), (FLAG_DIFFERS, 0, 0)),
        ("QC before", worked(before=1), (FLAG_DIFFERS, 0, 0)),
        ("QC and a byte", worked(after=1, lanes=(127, 127)), (FILE_DIFFERS, 1, 128)),
        ("outside", worked(words=(SQCADD, 0), after=1), (OUTSIDE, 1, 0)),
        ("reserved", worked(words=(RESERVED_WORD, 0), lanes=(1, 2)), (RESERVED, 0, 0)),
        ("no words", worked(words=(), lanes=(0, 0)), (AGREES, 0, 0)),
        ("flag 2 before", worked(before=2, lanes=(1, 2)), (BAD_FLAG, 0, 0)),
        ("flag 256 after", worked(after=256, words=(0,)), (BAD_FLAG, 0, 0)),
    ):
        expect(what, (check(trace), judge(trace, 0)), ((DONE, 1), (DONE, *wanted)))
        expect(f"{what}, case 1", judge(trace, 1), (NO_CASE, NO_VERDICT, 0, 0))


def refusal_faults(expect):
    """Either side of each edge. Where two refusals apply, 15 comes first."""
    good = worked()
    two = numbers(2, 128, 1, 28, 128, 1, len(good) + 12) + good[16:] * 2
    full = numbers(2, 2048, 4096, 28, 2048, 4085, 32804) + bytes(65508)
    for what, trace, wanted in (
        ("no bytes", b"", BAD_CONTENTS),
        ("3 bytes", good[:3], BAD_CONTENTS),
        ("15 bytes", good[:15], BAD_CONTENTS),
        ("the contents alone", good[:16], BAD_TOTAL),
        ("one byte less", good[:-1], BAD_TOTAL),
        ("one byte more", good + b"\0", BAD_TOTAL),
        ("no case", changed(good, 0, 0), BAD_CONTENTS),
        ("two cases, and the contents of one", changed(good, 0, 2), BAD_CONTENTS),
        ("1,025 cases", numbers(1025) + bytes(65532), BAD_CONTENTS),
        ("384 bits", changed(good, 4, 384), BAD_CONTENTS),
        ("256 bits", changed(good, 4, 256), BAD_TOTAL),
        ("4,096 words", changed(good, 8, 4096), BAD_TOTAL),
        ("4,097 words", changed(good, 8, 4097), BAD_CONTENTS),
        ("a start one less", changed(good, 12, 15), BAD_CONTENTS),
        ("a gap", changed(good, 12, 17)[:16] + b"\0" + good[16:], BAD_CONTENTS),
        ("two cases", two, DONE),
        ("the bodies the other way round", changed(two, 12, len(good) + 12, 128, 1, 28), BAD_CONTENTS),
        ("65,536 bytes", full, DONE),
        ("65,537 bytes", full + b"\0", BAD_TOTAL),
        ("65,540 bytes, as its contents say", changed(full, 20, 4086) + bytes(4), BAD_TOTAL),
        ("65,537 bytes, and no case", changed(full, 0, 0) + b"\0", BAD_CONTENTS),
    ):
        expect(what, check(trace), (wanted, 0 if wanted else 2))
        if wanted:
            expect(f"{what}, judged", judge(trace, 2**32 - 1), (wanted, NO_VERDICT, 0, 0))
    expect("case 1 of two", judge(two, 1), (DONE, AGREES, 0, 0))


def self_check():
    """The faults found, a line each."""
    faults = []

    def expect(what, found, wanted):
        if found != wanted:
            faults.append(f"{what}: {found}, not {wanted}")

    verdict_faults(expect)
    refusal_faults(expect)
    return faults


if __name__ == "__main__":
    found = self_check()
    for fault in found:
        print(f"replay: {fault}")
    print(f"replay: {len(found)} faults")
    sys.exit(1 if found else 0)
