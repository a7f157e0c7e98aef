#!/usr/bin/env python3
"""Makes traces as a recorder writes them, and writes the example traces.

    traces.py [FOLDER]            write them into FOLDER (default: examples/traces of the repository)
    traces.py --check [FOLDER]    fail if what is stored is not what would be written

In agree.trace all cases agree. In differ.trace each case has another verdict: the file differs, the flag
differs, a word outside the set, a reserved word, a bad flag.
"""

import sys
from itertools import accumulate
from pathlib import Path
from typing import NamedTuple

sys.dont_write_bytecode = True  # the repository stays as it was
import execution
import model
import replay
import run_cases
import store
from model import FOUR, SCALAR, VECTOR_128, B, D, H, Operation, S
from replay import AGREES, BAD_FLAG, FILE_DIFFERS, FLAG_DIFFERS, numbers

FOLDER = Path(__file__).resolve().parent.parent / "examples/traces"


class Case(NamedTuple):
    """What a recorder sees before the words run."""

    length: int
    flag: int
    file: bytes
    words: list


class Places(NamedTuple):
    """Where each part of a body starts, and where the last ends."""

    flag_before: int
    file_before: int
    words: int
    flag_after: int
    file_after: int
    end: int


def record(cases):
    """The trace of a core that leaves what the model does."""
    contents, bodies = numbers(len(cases)), b""
    for length, flag, file, words in cases:
        ran = execution.run(length, file, bool(flag), words)
        contents += numbers(length, len(words), 4 + 12 * len(cases) + len(bodies))
        bodies += numbers(flag) + file + numbers(*words) + numbers(ran.flag) + ran.file
    return contents + bodies


def places(trace, k):
    length, words, start = replay.contents(trace)[0][k]
    return Places(*accumulate((start, 4, 4 * length, 4 * words, 4, 4 * length)))


# ---- the examples

# A word of each family. SQDMULH has its second source in its group.
CADD, SQCADD, CMLA, CMLA_I, SQRDCMLAH, SQRDCMLAH_I, SQRDMLAH, SQRDMLSH, SQDMULH = WORDS = [
    model.encode(op)[1]
    for op in (
        Operation(model.CADD, B, 0, 1, 0, 0, 1, 0),
        Operation(model.SQCADD, H, 0, 3, 2, 0, 3, 0),
        Operation(model.CMLA, S, 0, 2, 4, 5, 6, 0),
        Operation(model.CMLA_I, H, 0, 1, 7, 8, 2, 3),
        Operation(model.SQRDCMLAH, D, 0, 0, 9, 10, 11, 0),
        Operation(model.SQRDCMLAH_I, S, 0, 3, 12, 13, 14, 1),
        Operation(model.SQRDMLAH, H, VECTOR_128, 0, 15, 16, 1, 7),
        Operation(model.SQRDMLSH, S, SCALAR, 0, 17, 18, 19, 3),
        Operation(model.SQDMULH, H, FOUR, 0, 12, 0, 13, 0),
    )
]
OUTSIDE, RESERVED = 0x00000000, 0x2F00F000  # of P7


def seen(length, flag, seed, *words):
    """A case on a file of random numbers and edges."""
    return Case(length, flag, run_cases.bytes_from(seed)[: 4 * length], list(words))


def agree():
    cases = [
        seen(128, 1, 1),
        seen(128, 0, 4, CADD, SQCADD),
        seen(256, 0, 2, CMLA, CMLA_I, SQRDCMLAH, SQRDCMLAH_I),
        seen(512, 0, 5, SQRDMLAH, SQRDMLSH),
        seen(1024, 1, 3, *WORDS),
    ]
    return record(cases)


def differ():
    cases = [
        seen(256, 0, 1, SQCADD, SQRDMLAH),
        seen(128, 0, 13, SQRDMLAH, SQRDMLSH),
        seen(128, 1, 2, CMLA, OUTSIDE, CADD),
        seen(128, 0, 3, CADD, SQCADD, RESERVED),
        seen(128, 0, 4, *WORDS),
    ]
    trace = bytearray(record(cases))
    trace[places(trace, 0).file_after + 2 * 32] ^= 1  # the lowest bit of Z2, which SQCADD wrote
    trace[places(trace, 1).flag_after] = 0  # QC was set, and the core did not say so
    trace[places(trace, 4).flag_before] = 2
    return bytes(trace)


# Each example's name, how it is made, and the kinds of its cases' verdicts.
EXAMPLES = (
    ("agree.trace", agree, [AGREES] * 5),
    ("differ.trace", differ, [FILE_DIFFERS, FLAG_DIFFERS, execution.OUTSIDE, execution.RESERVED, BAD_FLAG]),
)


def files():
    """Each example's name and bytes."""
    for name, make, kinds in EXAMPLES:
        trace = make()
        if [replay.judge(trace, n)[:2] for n in range(len(kinds))] != [(0, kind) for kind in kinds]:
            sys.exit(f"traces: {name} has other verdicts than its name says")
        yield name, trace


if __name__ == "__main__":
    sys.exit(store.main("traces", files(), FOLDER, sys.argv[1:]))
