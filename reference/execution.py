#!/usr/bin/env python3
"""The independent model of the register file, the step and the run, for any legal length.

Written from document 01 and the requests A2, A3 and A5 alone, over the models of words and lanes. A file is
bytes and is never changed in place. Run as a program it checks itself, demand 3 on random programs included.
"""

import sys
from random import Random
from typing import NamedTuple

sys.dont_write_bytecode = True  # the repository stays as it was
import lanes
import model
from model import ELEMENT, GROUPS, SQDMULH, SQRDCMLAH_I, H, Operation

MULTIPLES = range(128, 2049, 128)
LENGTHS = tuple(length for length in MULTIPLES if length & length - 1 == 0)  # the powers of two
MOST_WORDS = 4096

# Document 01's numbers, and A5's.
DONE, BAD_LENGTH, BAD_SIZE, TOO_LONG, OUTSIDE, RESERVED, NO_REGISTER = range(7)
NOT_POWER_OF_TWO = 11


class Ran(NamedTuple):
    number: int
    done: int
    flag: bool
    file: bytes


# ---- the register file


def refusal_of(length, size):
    """1, 11 or 2, or 0 for a legal length with a file of the right size."""
    if length not in MULTIPLES:
        return BAD_LENGTH
    if length not in LENGTHS:
        return NOT_POWER_OF_TWO
    return DONE if size == 4 * length else BAD_SIZE


def register(length, file, n):
    """The number, and the bytes of the register; none with a number but 0."""
    number = refusal_of(length, len(file))
    if number == DONE and n > 31:
        number = NO_REGISTER
    width = length // 8
    return number, file[n * width : (n + 1) * width] if number == DONE else b""


def registers(length, file):
    return [register(length, file, n)[1] for n in range(32)]


# ---- the step


def step(op, length, file, flag):
    """The file and the flag that the operation leaves."""
    held = registers(length, file)
    c, n, m = held[op.destination], held[op.first], held[op.second]
    if op.family in ELEMENT:
        low, clamped = lanes.by_element(op, c[:16], n[:16], m[:16])
        held[op.destination] = low.ljust(len(c), b"\0")  # V is written, and the rest of Z becomes zero
        flag = flag or clamped
    elif op.family in GROUPS:
        group = slice(op.destination, op.destination + op.form)
        held[group] = [lanes.by_single(op, one, m) for one in held[group]]  # m as it was, also where it is one of them
    else:
        held[op.destination] = lanes.vector(op, c, n, m)
    return b"".join(held), flag


# ---- the run


def run(length, file, flag, words):
    number = refusal_of(length, len(file))
    if number == DONE and len(words) > MOST_WORDS:
        number = TOO_LONG
    if number != DONE:
        return Ran(number, 0, flag, file)
    for done, word in enumerate(words):
        answer = model.decode(word)
        if answer == model.OUTSIDE:
            return Ran(OUTSIDE, done, flag, file)
        if answer == model.RESERVED:
            return Ran(RESERVED, done, flag, file)
        file, flag = step(answer, length, file, flag)
    return Ran(DONE, len(words), flag, file)


# ---- what demand 3 speaks of


def agree(length, file, other_length, other):
    """Whether each register's bytes are the same up to the shorter length."""
    shorter = min(length, other_length) // 8
    both = zip(registers(length, file), registers(other_length, other))
    return all(one[:shorter] == two[:shorter] for one, two in both)


def segment(length, file, k):
    """The file of 512 bytes in which segment k is run alone."""
    return b"".join(held[16 * k : 16 * k + 16] for held in registers(length, file))


def has_element_word(words):
    answers = map(model.decode, words)
    return any(isinstance(op, Operation) and op.family in ELEMENT for op in answers)


# ---- the model's own checks


def random_program(random, count, rows):
    """Words of the rows, now and then any word."""
    words = []
    for _ in range(count):
        row = rows[int(random() * len(rows))]
        word = int(random() * 2**32)
        words.append(row.base | word & row.free if random() < 0.98 else word)
    return words


def self_check():
    """The faults found, a line each."""
    faults = []

    def expect(what, found, wanted):
        if found != wanted:
            faults.append(f"{what}: {found}, not {wanted}")

    # Either side of each edge. CADD and SQCADD work on zeros, which they leave.
    cadd, outside = 0x4500D800, 0x00000000

    def answer(length, size, words):
        ran = run(length, bytes(size), False, words)
        expect("the flag and the file", ran[2:], (False, bytes(size)))
        return ran[:2]

    passing = (128, 256, 512, 1024, 2048)
    refused = (384, 640, 768, 896, 1152, 1280, 1408, 1536, 1664, 1792, 1920)
    expect("the lengths", (LENGTHS, sorted(passing + refused)), (passing, list(MULTIPLES)))
    wrong = (0, 1, 2, 64, 127, 129, 192, 2047, 2049, 2176, 4096)
    for lengths, wanted in ((passing, DONE), (refused, NOT_POWER_OF_TWO), (wrong, BAD_LENGTH)):
        for length in lengths:
            expect(f"L = {length}", answer(length, 4 * length, []), (wanted, 0))
    for size, count in ((1536, 0), (512, 1), (1535, 0), (1536, 4097), (0, 4097)):
        expect(f"L = 384, {size} bytes", answer(384, size, [outside] * count), (NOT_POWER_OF_TWO, 0))
    expect("register 40 at 384", register(384, bytes(1536), 40), (NOT_POWER_OF_TWO, b""))
    for size, wanted in ((511, 2), (512, 0), (513, 2)):
        expect(f"L = 128 with {size} bytes", answer(128, size, []), (wanted, 0))
    expect("4,096 words", answer(128, 512, [cadd] * 4096), (DONE, 4096))
    expect("4,097 words", answer(128, 512, [cadd] * 4097), (TOO_LONG, 0))
    expect("4,097 words, an outside one first", answer(128, 512, [outside] * 4097), (TOO_LONG, 0))
    expect("L = 0 and an empty file", answer(0, 0, []), (BAD_LENGTH, 0))
    expect("a bad length, size and program", answer(0, 1, [outside] * 4097), (BAD_LENGTH, 0))
    expect("a bad size and program", answer(128, 1, [outside] * 4097), (BAD_SIZE, 0))
    expect("an outside word in the middle", answer(128, 512, [cadd, outside, cadd]), (OUTSIDE, 1))
    expect("a reserved word", answer(128, 512, [cadd, cadd, 0x2F00F000]), (RESERVED, 2))
    for length in LENGTHS:
        file = bytes(n for n in range(32) for _ in range(length // 8))
        expect(f"register 31 at {length}", register(length, file, 31), (DONE, bytes([31]) * (length // 8)))
        expect(f"register 32 at {length}", register(length, file, 32), (NO_REGISTER, b""))

    # At L = 256, index 3 for H uses pair 3 for pairs 0 to 3 and pair 7 for pairs 4 to 7.
    ones = lanes.data_of([2**14, 0] * 8, 16)  # a half, by which each pair of m comes in halved
    pairs = lanes.data_of([x for p in range(8) for x in (2 * p, 200 * p)], 16)
    file = bytes(32) + ones + pairs + bytes(29 * 32)
    word = model.encode(Operation(SQRDCMLAH_I, H, 0, 0, 0, 1, 2, 3))[1]
    wanted = lanes.data_of([3, 300] * 4 + [7, 700] * 4, 16)
    expect("index 3 at L = 256", register(256, run(256, file, False, [word]).file, 0), (DONE, wanted))

    # A3: the second source in each place of the group, before it and behind it, is read as it was; no other
    # register changes, and QC stays though lanes clamp.
    for length in LENGTHS:
        held = [lanes.data_of([-32768, 256 * n, -1, 1] * (length // 64), 16) for n in range(32)]
        for count, second in [(2, m) for m in range(3, 7)] + [(4, m) for m in range(3, 9)]:
            word = model.encode(Operation(SQDMULH, H, count, 0, 4, 0, second, 0))[1]
            left = held[:]
            for n in range(4, 4 + count):
                left[n] = lanes.data_of([32767, 2 * n * second, 0, 0] * (length // 64), 16)
            for flag in (False, True):
                found = run(length, b"".join(held), flag, [word])
                expect(f"{count} from 4 on by {second} at {length}", found, (DONE, 1, flag, b"".join(left)))

    # Demand 3.
    random = Random(1).random

    def random_bytes(count):
        return bytes(int(random() * 256) if random() < 0.5 else 128 for _ in range(count))

    sve2 = [row for row in model.TABLE if row.family not in ELEMENT]
    for _ in range(60):
        one, two = sorted(LENGTHS[int(random() * len(LENGTHS))] for _ in range(2))
        words = random_program(random, 12, model.TABLE)
        flag = random() < 0.5
        long = random_bytes(4 * two)
        short = b"".join(held[: one // 8] for held in registers(two, long))
        at_one, at_two = run(one, short, flag, words), run(two, long, flag, words)
        expect(f"{one} and {two}", at_one[:3], at_two[:3])
        expect(f"{one} and {two} agree", agree(one, at_one.file, two, at_two.file), True)

        words = random_program(random, 12, sve2)
        whole = run(two, long, flag, words)
        expect("an Advanced SIMD word", has_element_word(words[: whole.done]), False)
        for k in range(two // 128):
            alone = run(128, segment(two, long, k), flag, words)
            expect(f"segment {k} of {two}", alone, whole._replace(file=segment(two, whole.file, k)))
    return faults


if __name__ == "__main__":
    found = self_check()
    for fault in found:
        print(f"execution: {fault}")
    print(f"execution: {len(found)} faults")
    sys.exit(1 if found else 0)
