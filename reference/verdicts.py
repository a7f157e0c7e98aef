#!/usr/bin/env python3
"""The independent model of the program replay_files: the lines that it prints of a trace, and its counts.

Written from docs/replay.md alone, over the model of replay.

    verdicts.py NAME < TRACE
"""

import os
import struct
import sys

sys.dont_write_bytecode = True  # the repository stays as it was
import replay
from execution import LENGTHS, MOST_WORDS, OUTSIDE, RESERVED
from replay import AGREES, BAD_CONTENTS, BAD_FLAG, BAD_TOTAL, FILE_DIFFERS, FLAG_DIFFERS, MOST_BYTES, MOST_CASES


# ---- a case


def columns(trace, entry, kind, place, left):
    """The verdict and its details."""
    body = replay.body_of(trace, entry)
    if kind == AGREES:
        return ["agrees"]
    if kind == FILE_DIFFERS:
        register, byte = divmod(place, entry.length // 8)
        both = f"expected {left:02X}", f"found {body.file_after[place]:02X}"
        return ["file differs", f"byte {place}", f"z{register} byte {byte}", *both]
    if kind == FLAG_DIFFERS:
        return ["flag differs", f"expected {1 - body.flag_after}", f"found {body.flag_after}"]
    if kind == BAD_FLAG:
        return ["bad flag", f"before {body.flag_before}", f"after {body.flag_after}"]
    name = {OUTSIDE: "OUTSIDE", RESERVED: "RESERVED"}[kind]
    return ["stopped", f"word {place}", f"{body.words[place]:08X} {name}"]


# ---- a refusal


def entry_fault(k, length, words, start, due):
    """What is wrong with the entry of case k, whose body has to start at due; nothing where it is right."""
    if length not in LENGTHS:
        *most, last = LENGTHS
        return f"case {k}: length {length}: {', '.join(map(str, most))} and {last} are allowed"
    if words > MOST_WORDS:
        return f"case {k}: words {words}: 0 to {MOST_WORDS} are allowed"
    if start != due:
        return f"case {k}: start {start}: the {'body before it ends' if k else 'contents end'} at {due}"


def contents_fault(trace):
    """The first fault of contents that are refused."""
    if len(trace) < 4:
        return f"the number of cases takes 4 bytes, the trace has {len(trace)}"
    (cases,) = struct.unpack_from("<I", trace)
    due = 4 + 12 * cases
    if not 1 <= cases <= MOST_CASES:
        return f"cases {cases}: 1 to {MOST_CASES} are allowed"
    if len(trace) < due:
        return f"cases {cases}: the contents take {due} bytes, the trace has {len(trace)}"
    for k, entry in enumerate(struct.iter_unpack("<3I", trace[4:due])):
        fault = entry_fault(k, *entry, due)
        if fault:
            return fault
        due += 8 + 8 * entry[0] + 4 * entry[1]


def total_fault(trace):
    if len(trace) > MOST_BYTES:
        return f"the trace has more than {MOST_BYTES} bytes"
    return f"the contents say {replay.contents(trace)[1]} bytes, the trace has {len(trace)}"


# ---- a trace


def shown(name):
    """The name as bytes. A control character, as a tab, would break the columns."""
    return bytes(byte if byte >= 32 and byte != 127 else ord("?") for byte in os.fsencode(name))


def rows(trace):
    """The columns after the name, for each line."""
    number, cases = replay.check(trace)
    if number:
        yield ["refused", number, {BAD_CONTENTS: contents_fault, BAD_TOTAL: total_fault}[number](trace)]
    for n in range(cases):
        entry = replay.contents(trace)[0][n]
        yield [n, entry.length, entry.words, *columns(trace, entry, *replay.judge(trace, n)[1:])]


def lines(name, trace):
    """What the program prints for the trace of this name."""
    return b"".join(b"%s\t%s\n" % (shown(name), "\t".join(map(str, row)).encode("ascii")) for row in rows(trace))


def counts(trace):
    """The cases judged, those that agree, and 1 for a trace that is refused."""
    number, cases = replay.check(trace)
    agree = sum(replay.judge(trace, n)[1] == AGREES for n in range(cases))
    return cases, agree, int(number != 0)


if __name__ == "__main__":
    sys.stdout.buffer.write(lines(sys.argv[1], sys.stdin.buffer.read()))
