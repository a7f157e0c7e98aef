#!/usr/bin/env python3
"""Writes the stored cases of the programs cases, codec_cases, kernel_cases, line_cases, replay_cases, list,
assemble, disassemble, execute and replay_files, and what they must print.

    cases.py [ROOT]            write them below ROOT (default: the repository that has this file)
    cases.py --check [ROOT]    fail if what is stored is not what would be written

A record of codec_cases is little-endian numbers of 4 bytes: the kind (1 decode, 2 encode), and then
the word, or the eight fields of an operation in the model's order.
"""

import struct
import sys
from itertools import combinations, product
from pathlib import Path
from random import Random

sys.dont_write_bytecode = True  # the repository stays as it was
import asm_cases
import kernel_cases
import line_cases
import model
import replay_cases
import report
import run_cases
import store
import traces
import verdicts
from model import ELEMENT, GROUPS, INDEXED, TABLE, H, Operation, S

ROOT = Path(__file__).resolve().parent.parent
REGISTERS = {"Zdn", "Zda", "Zn", "Zm", "Rd", "Rn", "Rm", "Zdn/2", "Zdn/4"}


class Source:
    """Seeded numbers. Python promises to keep only random() the same from version to version."""

    def __init__(self, seed):
        self.random = Random(seed).random

    def below(self, n):
        return int(self.random() * n)

    def choose(self, items):
        return items[self.below(len(items))]

    def of_row(self, row):
        """A word of the row with any fields."""
        return row.base | self.below(2**32) & row.free

    def within(self, kind):
        """An operation of the kind with every register and the index within its limit."""
        op = Operation(*kind, 0, 0, 0, 0)._replace(**{name: self.below(limit + 1) for name, limit in model.used(kind)})
        return op._replace(destination=op.destination - op.destination % model.step_of(op.family, op.form))

    def mix(self, count):
        """Words of which three in four belong to a row, each row as often as the others."""
        random, rows = self.random, TABLE
        for _ in range(count):
            word = int(random() * 2**32)
            at = int(random() * len(rows) * 4 / 3)
            yield rows[at].base | word & rows[at].free if at < len(rows) else word


# ---- words to decode


def words():
    source = Source(1)
    yield from (0, 0xFFFFFFFF)
    yield from (word for word, _ in model.WORDS)
    yield from (2**bit for bit in range(32))
    for row in TABLE:
        # Every value of the small fields (size, rot, Q, L, M, H, index) with each register field at
        # its edges. The element rows have all their reserved words' shapes here.
        small = [name for name in row.fields if name not in REGISTERS]
        registers = [name for name in row.fields if name in REGISTERS]
        choices = [range(2 ** row.fields[name][1]) for name in small]
        for chosen in product(*choices):
            for register in registers:
                for value in model.edges(2 ** row.fields[register][1] - 1):
                    fields = row.read(source.of_row(row))
                    fields.update(zip(small, chosen))
                    fields[register] = value
                    yield row.write(fields)
        # Near misses: one fixed bit changed, with the fields empty, full and arbitrary; two changed.
        fixed = [2**bit for bit in range(32) if row.fixed >> bit & 1]
        full = row.base | row.free
        for bit in fixed:
            for word in (row.base, full, source.of_row(row), source.of_row(row)):
                yield word ^ bit
        for one, other in combinations(fixed, 2):
            yield source.of_row(row) ^ one ^ other
        for word in (row.base, full):
            yield from (word + step for step in (-2, -1, 0, 1, 2))
        yield from (source.of_row(row) for _ in range(150))
    yield from (source.below(2**32) for _ in range(500))


# ---- operations to write


def operations():
    source = Source(2)
    kinds, within, used = list(model.kinds()), source.within, model.used

    for kind in kinds:
        for name, limit in used(kind):
            for value in (limit - 1, limit, limit + 1, 255):
                yield within(kind)._replace(**{name: value})
        # Several fields above their limits at once, and with a size or rotation that the family
        # lacks: the number of the first check that fails is the answer.
        for count in range(len(used(kind)) + 1):
            for over in combinations(used(kind), count):
                yield within(kind)._replace(**{name: limit + 1 for name, limit in over})
        yield from (within(kind) for _ in range(10))

    # The bounds that differ by size: H and S, each on either side of the other's limits.
    for family, size in product(INDEXED + ELEMENT, (H, S)):
        for index, second in product(range(10), (0, 7, 8, 15, 16, 31, 32)):
            kind = source.choose([kind for kind in kinds if kind[:2] == (family, size)])
            yield within(kind)._replace(second=second, index=index)

    # Every first register of a group, and those above the limit, with the second source on either side of its own.
    for kind in (kind for kind in kinds if kind[0] in GROUPS):
        for destination, second in product(range(36), (0, 15, 16)):
            yield within(kind)._replace(destination=destination, second=second)

    for _ in range(1200):
        kind = source.choose(kinds)
        yield within(kind)._replace(**{name: source.below(256) for name, _ in used(kind)})
    for _ in range(500):
        kind = source.choose(kinds)
        name, _ = source.choose(used(kind))
        yield within(kind)._replace(**{name: source.below(256)})

    # Above 255: numbers of which some bits, looked at alone, are within the limit. One field at a
    # time, and two, of which the first check that fails tells.
    def large(limit):
        return 256, 256 + source.below(limit + 1), 65536, 2**31, 2**32 - 1

    for kind in kinds:
        for name, limit in used(kind):
            for value in large(limit):
                yield within(kind)._replace(**{name: value})
        for both in combinations(used(kind), 2):
            yield within(kind)._replace(**{name: source.choose(large(limit)) for name, limit in both})


# ---- the stored files


def decode_case(word):
    answer = model.decode(word)
    number = {model.OUTSIDE: "4", model.RESERVED: "5"}.get(answer)
    text = number or " ".join(map(str, (0, *answer)))
    return struct.pack("<2I", 1, word), f"D {word:08x} {text}\n"


def encode_case(op):
    number, word = model.encode(op)
    return struct.pack("<9I", 2, *op), f"E {' '.join(map(str, op))} {number} {word:08x}\n"


def stored(program, cases):
    """The input and the output of a program, from its records and lines."""
    yield f"crates/{program}/stdin", b"".join(record for record, _ in cases)
    yield f"crates/{program}/stdout", "".join(line for _, line in cases).encode("ascii")


def files():
    """Each stored file's path below the root, and its bytes."""
    # dict.fromkeys: each case once, in the order in which it first came.
    cases = [decode_case(word) for word in dict.fromkeys(words())]
    cases += [encode_case(op) for op in dict.fromkeys(operations())]
    yield from stored("codec_cases", cases)
    yield from stored("kernel_cases", list(dict.fromkeys(kernel_cases.cases(Source(4)))))
    yield from stored("line_cases", list(dict.fromkeys(line_cases.cases(Source(8)))))
    yield from stored("cases", list(dict.fromkeys(run_cases.cases(Source(5)))))
    yield from stored("replay_cases", list(replay_cases.cases(Source(6), Source(7))))  # a put may come twice

    source = Source(3)
    listed = [word for word, _ in model.WORDS] + list(source.mix(2000))
    data = struct.pack(f"<{len(listed)}I", *listed) + b"\x00\xd8\x01"
    yield "crates/list/stdin", data
    yield "crates/list/stdout", model.listing(data)

    yield from asm_cases.files(Source(9))

    text = (ROOT / "crates/execute/stdin").read_bytes()  # written by hand
    yield "crates/execute/stdin", text
    yield "crates/execute/stdout", report.report(text)

    trace = traces.differ()
    yield "crates/replay_files/stdin", trace
    yield "crates/replay_files/stdout", verdicts.lines("", trace)  # the gate hands it no name


if __name__ == "__main__":
    sys.exit(store.main("cases", files(), ROOT, sys.argv[1:]))
