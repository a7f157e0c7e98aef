#!/usr/bin/env python3
"""The independent model of lines: the line of an operation, and the operation of a line.

Written from the requests A1 and A3 and Arm's pages alone. Nothing here takes a text apart: every line is written down
once, and to read a text is to look it up among them. The longest beginning that some line has is shared
with one of the text's two neighbours in their sorted order. Run as a program it checks itself and says so.
"""

import sys
from bisect import bisect
from functools import cache
from itertools import chain, product
from math import prod
from os.path import commonprefix

sys.dont_write_bytecode = True  # the repository stays as it was
import model
from model import ADDS, CADD, CMLA, CMLA_I, DESTRUCTIVE, DONE, ELEMENT, FOUR, GROUPS, GROUP_START, INDEXED, INDEX_ABOVE
from model import NAMES, NO_ROTATION, NO_SIZE, REGISTER_ABOVE, SCALAR, SQCADD, SQDMULH, SQRDCMLAH, SQRDCMLAH_I, SQRDMLAH
from model import SQRDMLSH, TABLE, TWO, VECTOR_64, VECTOR_128, B, D, H, Operation, S

NOT_A_LINE, NO_LINE_ROOM = 12, 13
LONGEST = 47


# ---- the line of an operation


def operands_of(family, size, form):
    """In the order of Arm's pages, a %d for each register and for the index."""
    letter = "BHSD"[size]
    if family in ELEMENT:
        lanes = {VECTOR_64: 64, VECTOR_128: 128}.get(form, 0) // (8 << size)
        register = f"V%d.{lanes}{letter}" if lanes else f"{letter}%d"
        return [register, register, f"V%d.{letter}[%d]"]
    if family in GROUPS:
        group = f"{{ Z%d.{letter}-Z%d.{letter} }}"
        return [group, group, f"Z%d.{letter}"]
    element = "[%d]" if family in INDEXED else ""
    return [f"Z%d.{letter}", f"Z%d.{letter}", f"Z%d.{letter}{element}"]


@cache
def pattern_of(family, size, form, turns):
    operands = operands_of(family, size, form)
    if model.has_turns(family):
        operands.append(f"#{90 * turns}")
    return f"{NAMES[family].removesuffix('-I')} {', '.join(operands)}".encode("ascii")


def named(family, form, destination, first, second, index):
    """The numbers of a line. What is the first source too is named twice, and of a group the first and the last."""
    if family in GROUPS:
        return *(destination, destination + form - 1) * 2, second
    return destination, destination if family in ADDS else first, second, index


def line(op):
    """Of an operation that can be written."""
    pattern = pattern_of(*op[:4])
    return pattern % named(op.family, op.form, *op[4:])[: pattern.count(b"%d")]


# ---- every line

# By document 01's table and A3's: registers and indices, times the sizes, rotations and forms, times the families.
ADD_LINES = 2 * 4 * 2 * 32**2
VECTOR_LINES = 2 * 4 * 4 * 32**3
INDEXED_LINES = 2 * 4 * 32**2 * (8 * 4 + 16 * 2)
ELEMENT_LINES = 2 * 3 * 32**2 * (16 * 8 + 32 * 4)
GROUP_LINES = 4 * 16 * (32 // 2 + 32 // 4)
LINES = ADD_LINES + VECTOR_LINES + INDEXED_LINES + ELEMENT_LINES + GROUP_LINES


@cache
def blocks():
    """Family, size, form and turns, in the order of the fields, each with the values of the registers and the
    index."""
    made = []
    for family, size in product(range(len(NAMES)), (B, H, S, D)):
        if size in model.sizes_of(family):
            last, *rest = (limit or 0 for limit in model.limits_of(family, size))
            for form, turns in product(model.forms_of(family), model.turns_of(family)):
                starts = range(0, last + 1, model.step_of(family, form))
                made.append(((family, size, form, turns), [starts, *(range(limit + 1) for limit in rest)]))
    return made


def block(kind, values):
    """The lines of a block, as line(op) has each, in the order of the fields."""
    pattern = pattern_of(*kind)
    count = pattern.count(b"%d")
    family, _, form, _ = kind
    if family in DESTRUCTIVE:
        numbers = (named(family, form, *fields)[:count] for fields in product(*values))
    else:  # the same, for most lines are here
        numbers = product(*values[:count])
    return map(pattern.__mod__, numbers)


@cache
def places():
    """Every line, in the order of the fields of its operation, with its place in that order."""
    every = chain.from_iterable(block(*one) for one in blocks())
    return {text: place for place, text in enumerate(every)}


def operation_at(place):
    """The operation of a place in that order."""
    for kind, values in blocks():
        lines = prod(map(len, values))
        if place < lines:
            fields = []
            for some in reversed(values):
                place, at = divmod(place, len(some))
                fields.insert(0, some[at])
            return Operation(*kind, *fields)
        place -= lines
    return None


@cache
def ordered():
    return sorted(places())


# ---- the calls


def write(op, room):
    """The number, the line's length and its bytes; the length is 0, with no bytes, with every number but 0."""
    number = model.refusal_of(op)
    if number != DONE:
        return number, 0, b""
    text = line(op)
    if room < len(text):
        return NO_LINE_ROOM, 0, b""
    return DONE, len(text), text


def read(text):
    """0 and the operation whose line this is; or 12 and the length of the longest beginning that some line has."""
    place = places().get(text)
    if place is not None:
        return DONE, operation_at(place)
    at = bisect(ordered(), text)
    beside = ordered()[max(at - 1, 0) : at + 1]
    return NOT_A_LINE, max(len(commonprefix([text, one])) for one in beside)


# ---- the model's own checks

# Written by hand: A1's three, A3's, and one for each form of the pages.
BY_HAND = [
    (b"SQRDCMLAH Z0.H, Z1.H, Z2.H[3], #90", Operation(SQRDCMLAH_I, H, 0, 1, 0, 1, 2, 3)),
    (b"SQRDMLSH V0.4H, V1.4H, V2.H[7]", Operation(SQRDMLSH, H, VECTOR_64, 0, 0, 1, 2, 7)),
    (b"SQRDMLSH H0, H1, V2.H[7]", Operation(SQRDMLSH, H, SCALAR, 0, 0, 1, 2, 7)),
    (b"CADD Z7.S, Z7.S, Z31.S, #270", Operation(CADD, S, 0, 3, 7, 0, 31, 0)),
    (b"SQCADD Z3.H, Z3.H, Z5.H, #270", Operation(SQCADD, H, 0, 3, 3, 0, 5, 0)),
    (b"SQCADD Z0.B, Z0.B, Z0.B, #90", Operation(SQCADD, B, 0, 1, 0, 0, 0, 0)),
    (b"CMLA Z10.B, Z9.B, Z31.B, #0", Operation(CMLA, B, 0, 0, 10, 9, 31, 0)),
    (b"SQRDCMLAH Z0.D, Z1.D, Z2.D, #180", Operation(SQRDCMLAH, D, 0, 2, 0, 1, 2, 0)),
    (b"CMLA Z20.H, Z19.H, Z7.H[0], #180", Operation(CMLA_I, H, 0, 2, 20, 19, 7, 0)),
    (b"SQRDCMLAH Z31.S, Z30.S, Z15.S[1], #270", Operation(SQRDCMLAH_I, S, 0, 3, 31, 30, 15, 1)),
    (b"SQRDMLAH S31, S0, V31.S[3]", Operation(SQRDMLAH, S, SCALAR, 0, 31, 0, 31, 3)),
    (b"SQRDMLAH V4.8H, V5.8H, V15.H[6]", Operation(SQRDMLAH, H, VECTOR_128, 0, 4, 5, 15, 6)),
    (b"SQRDMLAH V1.2S, V2.2S, V16.S[0]", Operation(SQRDMLAH, S, VECTOR_64, 0, 1, 2, 16, 0)),
    (b"SQRDMLSH V1.4S, V2.4S, V3.S[2]", Operation(SQRDMLSH, S, VECTOR_128, 0, 1, 2, 3, 2)),
    (b"SQDMULH { Z0.H-Z1.H }, { Z0.H-Z1.H }, Z2.H", Operation(SQDMULH, H, TWO, 0, 0, 0, 2, 0)),
    (b"SQDMULH { Z8.B-Z9.B }, { Z8.B-Z9.B }, Z9.B", Operation(SQDMULH, B, TWO, 0, 8, 0, 9, 0)),
    (b"SQDMULH { Z0.H-Z3.H }, { Z0.H-Z3.H }, Z2.H", Operation(SQDMULH, H, FOUR, 0, 0, 0, 2, 0)),
    (b"SQDMULH { Z8.S-Z11.S }, { Z8.S-Z11.S }, Z0.S", Operation(SQDMULH, S, FOUR, 0, 8, 0, 0, 0)),
    (b"SQDMULH { Z28.D-Z31.D }, { Z28.D-Z31.D }, Z15.D", Operation(SQDMULH, D, FOUR, 0, 28, 0, 15, 0)),
]

# The beginning that some line has, and what no line has behind it.
NO_LINES = [
    (b"", b""),
    (b"", b"cadd Z0.B, Z0.B, Z0.B, #90"),
    (b"", b"FCMLA Z0.H, Z1.H, Z2.H[3], #90"),
    (b"", b"\0"),
    (b"", b" CADD"),
    (b"CADD", b""),
    (b"CADD ", b" Z0.B, Z0.B, Z0.B, #90"),
    (b"CADD Z0", b"0.B, Z0.B, Z0.B, #90"),
    (b"CADD Z3", b"2.B, Z32.B, Z0.B, #90"),
    (b"CADD Z1.B,", b"Z1.B, Z0.B, #90"),
    (b"CADD Z1.B, Z", b"2.B, Z0.B, #90"),
    (b"CADD Z1.B, Z1", b"0.B, Z0.B, #90"),
    (b"CADD Z1.B, Z1.", b"H, Z0.H, #90"),
    (b"CADD Z0.B, Z0.B, Z0.B, #", b"180"),
    (b"CADD Z0.B, Z0.B, Z0.B, #9", b""),
    (b"CADD Z0.B, Z0.B, Z0.B, #90", b"\n"),
    (b"CMLA Z0.B, Z0.B, Z0.B", b"[0], #0"),
    (b"CMLA Z0.H, Z0.H, Z8.H", b"[0], #0"),
    (b"CMLA Z0.S, Z0.S, Z15.S[", b"2], #0"),
    (b"CMLA Z0.S, Z0.S, Z0.S, #", b"360"),
    (b"CMLA Z0.S, Z0.S, Z0.S, #0", b"90"),
    (b"SQRDCMLAH Z0.H, Z1.H, Z2.H[3]", b" #90"),
    (b"SQRDMLSH ", b"Z0.H, Z1.H, Z2.H[3]"),
    (b"SQRDMLSH V0.2", b"H, V1.2H, V2.H[7]"),
    (b"SQRDMLSH V0.4H, V1.", b"8H, V2.H[7]"),
    (b"SQRDMLSH H0, H1, V1", b"6.H[7]"),
    (b"SQRDMLSH H0, ", b"S1, V2.H[7]"),
    (b"SQRDMLSH S0, S1, V16.S[", b"4]"),
    (b"SQRDMLSH S0, S1, V16.S[3]", b", #90"),
    (b"SQDMULH ", b"Z0.H, Z0.H, Z2.H"),
    (b"SQDMULH {", b"Z0.H-Z1.H }, {Z0.H-Z1.H }, Z2.H"),
    (b"SQDMULH { Z1", b".H-Z2.H }, { Z1.H-Z2.H }, Z2.H"),
    (b"SQDMULH { Z0.H", b", Z1.H }, { Z0.H, Z1.H }, Z2.H"),
    (b"SQDMULH { Z0.H", b" - Z3.H }, { Z0.H - Z3.H }, Z2.H"),
    (b"SQDMULH { Z0.H-Z", b"2.H }, { Z0.H-Z2.H }, Z2.H"),
    (b"SQDMULH { Z2.H-Z", b"5.H }, { Z2.H-Z5.H }, Z2.H"),
    (b"SQDMULH { Z4.H-Z", b"4.H }, { Z4.H-Z4.H }, Z2.H"),
    (b"SQDMULH { Z0.H-Z1.", b"S }, { Z0.H-Z1.S }, Z2.H"),
    (b"SQDMULH { Z0.H-Z1.H", b"}, { Z0.H-Z1.H }, Z2.H"),
    (b"SQDMULH { Z0.H-Z1.H }, ", b"Z2.H"),
    (b"SQDMULH { Z0.H-Z1.H }, { Z", b"2.H-Z3.H }, Z2.H"),
    (b"SQDMULH { Z0.H-Z1.H }, { Z0.H-Z", b"3.H }, Z2.H"),
    (b"SQDMULH { Z0.H-Z3.H }, { Z0.H-Z", b"1.H }, Z2.H"),
    (b"SQDMULH { Z28.H-Z3", b"2.H }, { Z28.H-Z32.H }, Z2.H"),
    (b"SQDMULH { Z3", b"1.H-Z0.H }, { Z31.H-Z0.H }, Z2.H"),
    (b"SQDMULH { Z0.H-Z1.H }, { Z0.H-Z1.H }, Z1", b"6.H"),
    (b"SQDMULH { Z0.H-Z1.H }, { Z0.H-Z1.H }, ", b"{ Z2.H-Z3.H }"),
    (b"SQDMULH { Z0.H-Z1.H }, { Z0.H-Z1.H }, Z2.H", b"[0]"),
    (b"SQDMULH { Z0.H-Z1.H }, { Z0.H-Z1.H }, Z2.H", b", #0"),
    (b"SQDM", b"LAH Z0.H, Z0.H, Z2.H"),
]

REFUSED = [
    (Operation(SQRDMLAH, B, SCALAR, 0, 32, 0, 0, 9), 0, NO_SIZE),
    (Operation(CADD, B, 0, 0, 32, 0, 0, 0), 0, NO_ROTATION),
    (Operation(CMLA_I, H, 0, 0, 0, 0, 8, 4), 0, REGISTER_ABOVE),
    (Operation(CMLA_I, S, 0, 0, 0, 0, 15, 2), 0, INDEX_ABOVE),
    (Operation(CMLA_I, S, 0, 0, 0, 0, 15, 1), 28, NO_LINE_ROOM),
    (Operation(SQDMULH, B, TWO, 0, 1, 0, 16, 0), 0, REGISTER_ABOVE),
    (Operation(SQDMULH, B, FOUR, 0, 30, 0, 15, 0), 0, GROUP_START),
    (Operation(SQDMULH, B, FOUR, 0, 28, 0, 15, 0), 46, NO_LINE_ROOM),
]


def self_check():
    """The faults found, a line each."""
    faults = []

    def expect(what, found, wanted):
        if found != wanted:
            faults.append(f"{what}: {found}, not {wanted}")

    for text, op in BY_HAND:
        expect(f"read {text}", read(text), (DONE, op))
        expect(f"write {op}", write(op, len(text)), (DONE, len(text), text))
        expect(f"write {op} into less", write(op, len(text) - 1), (NO_LINE_ROOM, 0, b""))
        for length in range(len(text)):
            expect(f"read {text[:length]}", read(text[:length]), (NOT_A_LINE, length))
            expect(f"read {text[:length]} and more", read(text[:length] + b"?"), (NOT_A_LINE, length))
    for beginning, rest in NO_LINES:
        expect(f"read {beginning + rest}", read(beginning + rest), (NOT_A_LINE, len(beginning)))
    for op, room, number in REFUSED:
        expect(f"write {op} into {room}", write(op, room), (number, 0, b""))

    # As many as there are words that are not reserved; of the by-element rows every other size is.
    words = sum(2 ** bin(row.free).count("1") // (2 if row.family in ELEMENT else 1) for row in TABLE)
    expect("lines by the table of words", words, LINES)
    expect("lines", len(places()), LINES)
    expect("the longest", max(map(len, places())), LONGEST)
    expect("their bytes", bytes(sorted(set().union(*places()))), b" #,-.0123456789ABCDHLMQRSUVZ[]{}")

    # Every so many lines, and the last of each block, are the lines of their operations.
    for place, text in enumerate(places()):
        if place % 97 == 0 or place % 1024 == 1023:
            op = operation_at(place)
            expect(f"line {place}", line(op), text)
            expect(f"encode {op}", model.encode(op)[0], DONE)
    return faults


if __name__ == "__main__":
    found = self_check()
    for fault in found:
        print(f"lines: {fault}")
    print(f"lines: {len(found)} faults")
    sys.exit(1 if found else 0)
