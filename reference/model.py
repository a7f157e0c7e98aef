#!/usr/bin/env python3
"""The independent model of Kobbeskuim's words: decode, encode and the listing.

Written from document 01 and request A3 alone, with unbounded integers. It shares nothing with the Rattle code,
so a mistake has to be made twice to go unseen. Run as a program it checks itself and says so.
"""

import struct
import sys
from itertools import product
from random import Random
from typing import NamedTuple

# The families, in the order in which document 01 lists their names, and A3's behind them.
NAMES = ["CADD", "SQCADD", "CMLA", "CMLA-I", "SQRDCMLAH", "SQRDCMLAH-I", "SQRDMLAH", "SQRDMLSH", "SQDMULH"]
CADD, SQCADD, CMLA, CMLA_I, SQRDCMLAH, SQRDCMLAH_I, SQRDMLAH, SQRDMLSH, SQDMULH = range(9)
ADDS = (CADD, SQCADD)
INDEXED = (CMLA_I, SQRDCMLAH_I)
ELEMENT = (SQRDMLAH, SQRDMLSH)
GROUPS = (SQDMULH,)
DESTRUCTIVE = ADDS + GROUPS  # the destination is the first source

B, H, S, D = range(4)
SCALAR, VECTOR_64, VECTOR_128 = range(3)
TWO, FOUR = 2, 4

RESERVED, OUTSIDE = "reserved", "outside"

DONE, NO_SIZE, NO_ROTATION, REGISTER_ABOVE, INDEX_ABOVE, GROUP_START = 0, 7, 8, 9, 10, 14

LIMIT = 1_048_576  # words that the listing program lists


class Operation(NamedTuple):
    """A field that the family does not use is 0."""

    family: int
    size: int  # B, H, S, D
    form: int  # of the by-element families: scalar, 64 bits, 128 bits; of SQDMULH: the registers of its group
    turns: int  # the rotation in quarter turns
    destination: int  # Zdn, Zda or Rd, of a group the first; for CADD, SQCADD and SQDMULH also the first source
    first: int  # Zn or Rn
    second: int  # Zm or Rm
    index: int


# ---- document 01's table of words, and A3's two rows

ADD_FIELDS = "size 23-22, rot 10, Zm 9-5, Zdn 4-0"
VECTOR_FIELDS = "size 23-22, Zm 20-16, rot 11-10, Zn 9-5, Zda 4-0"
INDEXED_H_FIELDS = "i2 20-19, Zm 18-16, rot 11-10, Zn 9-5, Zda 4-0"
INDEXED_S_FIELDS = "i1 20, Zm 19-16, rot 11-10, Zn 9-5, Zda 4-0"
SCALAR_FIELDS = "size 23-22, L 21, M 20, Rm 19-16, H 11, Rn 9-5, Rd 4-0"
ELEMENT_FIELDS = SCALAR_FIELDS + ", Q 30"
TWO_FIELDS = "size 23-22, Zm 19-16, Zdn/2 4-1"
FOUR_FIELDS = "size 23-22, Zm 19-16, Zdn/4 4-2"


class Row:
    """A row of the table: a base, and the fields that fill the other bits."""

    def __init__(self, family, base, fields):
        self.family, self.base = family, base
        self.fields = {}  # name: (lowest bit, width)
        free = 0
        for field in fields.split(", "):
            name, bits = field.split(" ")
            high, _, low = bits.partition("-")
            low = int(low or high)
            width = int(high) - low + 1
            self.fields[name] = (low, width)
            free |= (2**width - 1) << low
        self.free = free  # the bits that belong to a field
        self.fixed = 0xFFFFFFFF - free  # the bits that must be the base's

    def takes(self, word):
        return word & self.fixed == self.base

    def read(self, word):
        return {name: word >> low & 2**width - 1 for name, (low, width) in self.fields.items()}

    def write(self, values):
        return self.base + sum(values[name] * 2**low for name, (low, _) in self.fields.items())


TABLE = [
    Row(CADD, 0x4500D800, ADD_FIELDS),
    Row(SQCADD, 0x4501D800, ADD_FIELDS),
    Row(CMLA, 0x44002000, VECTOR_FIELDS),
    Row(SQRDCMLAH, 0x44003000, VECTOR_FIELDS),
    Row(CMLA_I, 0x44A06000, INDEXED_H_FIELDS),
    Row(CMLA_I, 0x44E06000, INDEXED_S_FIELDS),
    Row(SQRDCMLAH_I, 0x44A07000, INDEXED_H_FIELDS),
    Row(SQRDCMLAH_I, 0x44E07000, INDEXED_S_FIELDS),
    Row(SQRDMLAH, 0x2F00D000, ELEMENT_FIELDS),
    Row(SQRDMLAH, 0x7F00D000, SCALAR_FIELDS),
    Row(SQRDMLSH, 0x2F00F000, ELEMENT_FIELDS),
    Row(SQRDMLSH, 0x7F00F000, SCALAR_FIELDS),
    Row(SQDMULH, 0xC120A400, TWO_FIELDS),
    Row(SQDMULH, 0xC120AC00, FOUR_FIELDS),
]


# ---- decoding


def row_of(word):
    """The row whose fixed bits the word has. No two rows take one word: self_check sees to it."""
    for row in TABLE:
        if row.takes(word):
            return row
    return None


def decode(word):
    """An Operation, RESERVED or OUTSIDE."""
    row = row_of(word)
    if row is None:
        return OUTSIDE
    f = row.read(word)
    if row.family in ADDS:
        return Operation(row.family, f["size"], 0, (1, 3)[f["rot"]], f["Zdn"], 0, f["Zm"], 0)
    if row.family in INDEXED:
        size, index = (H, f["i2"]) if "i2" in f else (S, f["i1"])
        return Operation(row.family, size, 0, f["rot"], f["Zda"], f["Zn"], f["Zm"], index)
    if row.family in ELEMENT:
        form = (VECTOR_64, VECTOR_128)[f["Q"]] if "Q" in f else SCALAR
        if f["size"] == H:
            second, index = f["Rm"], 4 * f["H"] + 2 * f["L"] + f["M"]
        elif f["size"] == S:
            second, index = 16 * f["M"] + f["Rm"], 2 * f["H"] + f["L"]
        else:
            return RESERVED
        return Operation(row.family, f["size"], form, 0, f["Rd"], f["Rn"], second, index)
    if row.family in GROUPS:
        form, start = (TWO, f["Zdn/2"]) if "Zdn/2" in f else (FOUR, f["Zdn/4"])
        return Operation(row.family, f["size"], form, 0, form * start, 0, f["Zm"], 0)
    return Operation(row.family, f["size"], 0, f["rot"], f["Zda"], f["Zn"], f["Zm"], 0)


# ---- encoding


def sizes_of(family):
    return (H, S) if family in INDEXED + ELEMENT else (B, H, S, D)


def turns_of(family):
    """The rotations of a family, in quarter turns; 0 alone where it has none to choose."""
    if family in ADDS:
        return (1, 3)
    return (0,) if family in ELEMENT + GROUPS else (0, 1, 2, 3)


def has_turns(family):
    return len(turns_of(family)) > 1


def forms_of(family):
    if family in GROUPS:
        return (TWO, FOUR)
    return (SCALAR, VECTOR_64, VECTOR_128) if family in ELEMENT else (0,)


def step_of(family, form):
    """The destination is a multiple of this: of a group's two or four registers, and else any."""
    return form if family in GROUPS else 1


def limits_of(family, size):
    """The highest destination, first source, second source and index; None for a field not used."""
    if family in ADDS:
        return 31, None, 31, None
    if family in INDEXED:
        return (31, 31, 7, 3) if size == H else (31, 31, 15, 1)
    if family in ELEMENT:
        return (31, 31, 15, 7) if size == H else (31, 31, 31, 3)
    if family in GROUPS:
        return 31, None, 15, None
    return 31, 31, 31, None


def used(kind):
    """The register and index fields of a kind, with their limits."""
    limits = zip(Operation._fields[4:], limits_of(*kind[:2]))
    return [(name, limit) for name, limit in limits if limit is not None]


def refusal_of(op):
    """The number for writing the operation, the first of 7, 8, 9, 14 and 10, or 0."""
    if op.size not in sizes_of(op.family):
        return NO_SIZE
    if op.turns not in turns_of(op.family):
        return NO_ROTATION
    # A field that is not used holds 0, which is above no limit.
    destination, first, second, index = (limit or 0 for limit in limits_of(op.family, op.size))
    if op.destination > destination or op.first > first or op.second > second:
        return REGISTER_ABOVE
    if op.destination % step_of(op.family, op.form):
        return GROUP_START
    if op.index > index:
        return INDEX_ABOVE
    return DONE


def encode(op):
    """(number, word): the word is 0 with every number but 0."""
    number = refusal_of(op)
    if number != DONE:
        return number, 0
    values = {"size": op.size, "rot": op.turns}
    values["Zdn"] = values["Zda"] = values["Rd"] = op.destination
    values["Zdn/2"], values["Zdn/4"] = op.destination // 2, op.destination // 4
    values["Zn"] = values["Rn"] = op.first
    values["Zm"] = values["Rm"] = op.second
    values["i1"] = values["i2"] = op.index
    rows = [row for row in TABLE if row.family == op.family]
    row = rows[0]
    if op.family in ADDS:
        values["rot"] = turns_of(op.family).index(op.turns)
    elif op.family in INDEXED:
        row = rows[0] if op.size == H else rows[1]
    elif op.family in ELEMENT:
        row = rows[1] if op.form == SCALAR else rows[0]
        values["Q"] = op.form - VECTOR_64  # the scalar row has no Q, and does not look
        if op.size == H:
            values["H"], values["L"], values["M"] = op.index // 4, op.index // 2 % 2, op.index % 2
        else:
            values["H"], values["L"] = divmod(op.index, 2)
            values["M"], values["Rm"] = divmod(op.second, 16)
    elif op.family in GROUPS:
        row = rows[0] if op.form == TWO else rows[1]
    return DONE, row.write(values)


# ---- the listing


def name_of(word):
    answer = decode(word)
    return answer.upper() if isinstance(answer, str) else NAMES[answer.family]


def listing(data):
    """All that the listing program writes for these bytes of standard input."""
    whole, tail = divmod(len(data), 4)
    listed = data[: 4 * min(whole, LIMIT)]
    lines = [f"{word:08X} {name_of(word)}" for (word,) in struct.iter_unpack("<I", listed)]
    if whole > LIMIT:
        lines.append("LIMIT")
    else:
        if tail:
            lines.append(f"TAIL {tail}")
        lines.append(f"TOTAL {whole}")
    return "".join(line + "\n" for line in lines).encode("ascii")


# ---- the model's own checks


def kinds():
    """Every family, size, form and rotation that an operation can hold, lacked ones included."""
    for family in range(len(NAMES)):
        for size in (B, H, S, D):
            for form in forms_of(family):
                for turns in range(4) if has_turns(family) else (0,):
                    yield family, size, form, turns


def edges(limit):
    """0, 1, one under the limit and the limit, each once."""
    return sorted({0, min(1, limit), max(0, limit - 1), limit})


# What document 01 says of particular words.
P1_TO_P7 = [
    (0x4501D800, Operation(SQCADD, B, 0, 1, 0, 0, 0, 0)),
    (0x4541DCA3, Operation(SQCADD, H, 0, 3, 3, 0, 5, 0)),
    (0x44BA7420, Operation(SQRDCMLAH_I, H, 0, 1, 0, 1, 2, 3)),
    (0x44FF7FDF, Operation(SQRDCMLAH_I, S, 0, 3, 31, 30, 15, 1)),
    (0x44C23820, Operation(SQRDCMLAH, D, 0, 2, 0, 1, 2, 0)),
    (0x2F72F820, Operation(SQRDMLSH, H, VECTOR_64, 0, 0, 1, 2, 7)),
    (0x2F00F000, RESERVED),
    (0x2FC0F000, RESERVED),
    (0x2F00F400, OUTSIDE),
    (0x44207000, OUTSIDE),
    (0x00000000, OUTSIDE),
]

# What request A3 and its page say of particular words: the bases, a first register over 2 and over 4, and bit 5.
A3_WORDS = [
    (0xC120A400, Operation(SQDMULH, B, TWO, 0, 0, 0, 0, 0)),
    (0xC120AC00, Operation(SQDMULH, B, FOUR, 0, 0, 0, 0, 0)),
    (0xC162A400, Operation(SQDMULH, H, TWO, 0, 0, 0, 2, 0)),
    (0xC1AFA41E, Operation(SQDMULH, S, TWO, 0, 30, 0, 15, 0)),
    (0xC1E7A402, Operation(SQDMULH, D, TWO, 0, 2, 0, 7, 0)),
    (0xC1EFAC1C, Operation(SQDMULH, D, FOUR, 0, 28, 0, 15, 0)),
    (0xC1A4AC04, Operation(SQDMULH, S, FOUR, 0, 4, 0, 4, 0)),
    (0xC120A420, OUTSIDE),
    (0xC120AC20, OUTSIDE),
    (0xC120A401, OUTSIDE),
    (0xC120AC02, OUTSIDE),
    (0xC130A400, OUTSIDE),
]

WORDS = P1_TO_P7 + A3_WORDS

# Operations that A3 refuses to write: the first check that fails tells.
A3_REFUSED = [
    (Operation(SQDMULH, B, TWO, 0, 0, 0, 16, 0), REGISTER_ABOVE),
    (Operation(SQDMULH, B, TWO, 0, 32, 0, 0, 0), REGISTER_ABOVE),
    (Operation(SQDMULH, D, FOUR, 0, 33, 0, 0, 0), REGISTER_ABOVE),
    (Operation(SQDMULH, D, FOUR, 0, 1, 0, 16, 0), REGISTER_ABOVE),
    (Operation(SQDMULH, H, TWO, 0, 31, 0, 15, 0), GROUP_START),
    (Operation(SQDMULH, H, TWO, 0, 1, 0, 0, 0), GROUP_START),
    (Operation(SQDMULH, S, FOUR, 0, 2, 0, 0, 0), GROUP_START),
    (Operation(SQDMULH, S, FOUR, 0, 30, 0, 15, 0), GROUP_START),
]

EXAMPLE = (
    bytes.fromhex("00D80145 00F0002F 00000000"),
    b"4501D800 SQCADD\n2F00F000 RESERVED\n00000000 OUTSIDE\nTOTAL 3\n",
)


def self_check():
    """The faults found, a line each."""
    faults = []

    def expect(what, found, wanted):
        if found != wanted:
            faults.append(f"{what}: {found}, not {wanted}")

    for word, answer in WORDS:
        expect(f"decode {word:08X}", decode(word), answer)
        if isinstance(answer, Operation):
            expect(f"encode {answer}", encode(answer), (DONE, word))
    for op, number in A3_REFUSED:
        expect(f"encode {op}", encode(op), (number, 0))
    data, text = EXAMPLE
    expect("document 01's listing", listing(data), text)

    for row in TABLE:
        widths = sum(width for _, width in row.fields.values())
        expect(f"{row.base:08X}: bits of a base in a field", row.base & row.free, 0)
        expect(f"{row.base:08X}: bits in two fields", widths - bin(row.free).count("1"), 0)
        for other in TABLE:
            shared = row.fixed & other.fixed
            if other is not row and (row.base ^ other.base) & shared == 0:
                faults.append(f"{row.base:08X} and {other.base:08X} take one word")

    # Operations that can be written, the registers at their edges, read back as themselves, and no
    # two give one word.
    written = {}
    for family, size, form, turns in kinds():
        if size not in sizes_of(family) or turns not in turns_of(family):
            continue
        limits = [limit or 0 for limit in limits_of(family, size)]
        step = step_of(family, form)
        starts = [step * start for start in edges(limits[0] // step)]
        for fields in product(starts, *map(edges, limits[1:3]), range(limits[3] + 1)):
            op = Operation(family, size, form, turns, *fields)
            number, word = encode(op)
            expect(f"encode {op}", number, DONE)
            expect(f"decode {word:08X}", decode(word), op)
            expect(f"{word:08X} is the word of", written.setdefault(word, op), op)

    # Words of every row, with any fields, are written again as they were read.
    random = Random(1).random
    for row in TABLE:
        for _ in range(1000):
            word = row.base | int(random() * 2**32) & row.free
            answer = decode(word)
            if row.family in ELEMENT and row.read(word)["size"] in (B, D):
                expect(f"decode {word:08X}", answer, RESERVED)
            else:
                expect(f"encode {answer}", encode(answer), (DONE, word))
    return faults


if __name__ == "__main__":
    found = self_check()
    for fault in found:
        print(f"model: {fault}")
    print(f"model: {len(found)} faults")
    sys.exit(1 if found else 0)
