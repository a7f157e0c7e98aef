#!/usr/bin/env python3
"""The independent model of what a lane becomes, in unbounded integers, lane by lane.

Written from document 01, 'What a lane becomes', and from request A3 alone. A register is bytes; its elements
are signed numbers, and a complex number is an even (real) and odd (imaginary) pair of them. Run as a program
it checks itself and says so.
"""

import sys
from typing import NamedTuple

sys.dont_write_bytecode = True  # the repository stays as it was
import model
from model import ADDS, CADD, INDEXED, SCALAR, SQRDMLSH, VECTOR_64, B, H, Operation


class Pair(NamedTuple):
    r: int
    i: int


# ---- numbers of N bits


def lowest(bits):
    return -(2 ** (bits - 1))


def highest(bits):
    return 2 ** (bits - 1) - 1


def wrap(x, bits):
    """The signed number of N bits that is x modulo 2^N."""
    return (x - lowest(bits)) % 2**bits + lowest(bits)


def clamp(x, bits):
    return max(lowest(bits), min(highest(bits), x))


def rounded(c, product, bits):
    """c x 2^N plus twice the product, plus 2^(N-1), divided by 2^N rounding down: as // does."""
    return (c * 2**bits + 2 * product + 2 ** (bits - 1)) // 2**bits


def doubled_high(product, bits):
    """Twice the product, divided by 2^N rounding down. Nothing is added before."""
    return 2 * product // 2**bits


# ---- document 01's rules for a complex number, by quarter turns


def sum_of(turns, a, b):
    """The exact real and imaginary part of CADD and SQCADD."""
    if turns == 1:
        return Pair(a.r - b.i, a.i + b.r)
    return Pair(a.r + b.i, a.i - b.r)


def product_of(turns, n, m):
    """What comes to the addend's real and imaginary part, exactly."""
    if turns == 0:
        return Pair(n.r * m.r, n.r * m.i)
    if turns == 1:
        return Pair(-(n.i * m.i), n.i * m.r)
    if turns == 2:
        return Pair(-(n.r * m.r), -(n.r * m.i))
    return Pair(n.i * m.i, -(n.i * m.r))


def pair_of(op, c, n, m):
    """What a complex number of the destination becomes in an SVE2 family."""
    bits = bits_of(op)
    if op.family in ADDS:
        exact = sum_of(op.turns, c, m)
        keep = wrap if op.family == CADD else clamp
        return Pair(keep(exact.r, bits), keep(exact.i, bits))
    product = product_of(op.turns, n, m)
    if op.family in (model.CMLA, model.CMLA_I):
        return Pair(wrap(c.r + product.r, bits), wrap(c.i + product.i, bits))
    return Pair(
        clamp(rounded(c.r, product.r, bits), bits), clamp(rounded(c.i, product.i, bits), bits)
    )


# ---- registers


def bits_of(op):
    return 8 << op.size


def elements(data, bits):
    step = bits // 8
    places = range(0, len(data), step)
    return [int.from_bytes(data[at : at + step], "little", signed=True) for at in places]


def data_of(numbers, bits):
    return b"".join(x.to_bytes(bits // 8, "little", signed=True) for x in numbers)


def pairs(data, bits):
    numbers = elements(data, bits)
    return list(map(Pair, numbers[::2], numbers[1::2]))


def vector(op, c, n, m):
    """An SVE2 family: the destination's new bytes, from all bytes of the addend and the sources."""
    bits = bits_of(op)
    c, n, m = pairs(c, bits), pairs(n, bits), pairs(m, bits)
    if op.family in INDEXED:
        segment = 64 // bits  # pairs in 128 bits
        m = [m[p - p % segment + op.index] for p in range(len(m))]
    worked = [pair_of(op, *numbers) for numbers in zip(c, n, m)]
    return data_of([part for pair in worked for part in pair], bits)


def by_single(op, c, m):
    """SQDMULH: the new bytes of a register of the group, from its own and those of the second source."""
    bits = bits_of(op)
    factors = zip(elements(c, bits), elements(m, bits))
    return data_of([clamp(doubled_high(x * y, bits), bits) for x, y in factors], bits)


def by_element(op, c, n, m):
    """An Advanced SIMD family, from 16 bytes each: the new 16 bytes, and whether a lane clamped."""
    bits = bits_of(op)
    c, n, m = elements(c, bits), elements(n, bits), elements(m, bits)
    count = 1 if op.form == SCALAR else (64 if op.form == VECTOR_64 else 128) // bits
    sign = -1 if op.family == SQRDMLSH else 1
    exact = [rounded(c[e], sign * (n[e] * m[op.index]), bits) for e in range(count)]
    worked = [clamp(x, bits) for x in exact]
    return data_of(worked, bits).ljust(16, b"\0"), worked != exact


# ---- the model's own checks


def self_check():
    """The faults found, a line each: document 01's P8 to P12, A3's lane, and the clamp at its two ends."""
    faults = []

    def expect(what, found, wanted):
        if found != wanted:
            faults.append(f"{what}: {found}, not {wanted}")

    def add(family, a, b):
        return pair_of(Operation(family, B, 0, 1, 0, 0, 0, 0), Pair(*a), None, Pair(*b))

    expect("P8, SQCADD", add(model.SQCADD, (0, 0), (-128, -128)), (127, -128))
    expect("P8, CADD", add(CADD, (0, 0), (-128, -128)), (-128, -128))
    expect("P12", add(model.SQCADD, (1, 2), (1, 2)), (-1, 3))

    def lane(bits, c, product):
        """The lane, and whether it clamped."""
        exact = rounded(c, product, bits)
        return clamp(exact, bits), clamp(exact, bits) != exact

    expect("P9, c = -1", lane(16, -1, 2**30), (32767, False))
    expect("P9, c = 0", lane(16, 0, 2**30), (32767, True))
    expect("P10, plus", lane(16, 5, 128 * 128), (6, False))
    expect("P10, minus", lane(16, 5, -(128 * 128)), (5, False))
    expect("P11, c = 0", lane(64, 0, -(2**126)), (-(2**63), False))
    expect("P11, c = -1", lane(64, -1, -(2**126)), (-(2**63), True))

    # P9 and P10 again by way of bytes, at every lane of each form and with the flag.
    def element(family, form, c, n, m):
        op = Operation(family, H, form, 0, 0, 0, 0, 7)
        return by_element(op, *(data_of([x] * 8, 16) for x in (c, n, m)))

    for form, count in enumerate((1, 4, 8)):
        for family, c, factor, wanted, clamps in (
            (model.SQRDMLAH, -1, -32768, 32767, False),
            (model.SQRDMLAH, 0, -32768, 32767, True),
            (model.SQRDMLAH, 5, 128, 6, False),
            (model.SQRDMLSH, 5, 128, 5, False),
        ):
            lanes = [wanted] * count + [0] * (8 - count)
            expect(
                f"form {form}, c = {c}",
                element(family, form, c, factor, factor),
                (data_of(lanes, 16), clamps),
            )

    # A3: at both ends of the range, and rounding down at negative values. Only the first clamps.
    for size, bits in enumerate((8, 16, 32, 64)):
        op = Operation(model.SQDMULH, size, 2, 0, 0, 0, 0, 0)
        low, high = lowest(bits), highest(bits)
        for x, y, wanted, exact in (
            (low, low, high, high + 1),
            (low, low + 1, high, high),
            (low, high, low + 1, low + 1),
            (high, high, high - 1, high - 1),
            (low, 1, -1, -1),
            (low, -1, 1, 1),
            (-1, 1, -1, -1),
            (-1, -1, 0, 0),
            (high, 1, 0, 0),
            (high, -1, -1, -1),
            (low // 2, low // 2, -low // 4, -low // 4),
            (low, 0, 0, 0),
        ):
            count = 128 // bits
            for one, other in ((x, y), (y, x)):
                made = by_single(op, data_of([one] * count, bits), data_of([other] * count, bits))
                expect(f"{one} by {other} in {bits} bits", elements(made, bits), [wanted] * count)
            expect(f"{x} by {y} in {bits} bits, exactly", doubled_high(x * y, bits), exact)

    for bits in (8, 16, 32, 64):
        for x in (lowest(bits), -1, 0, 1, highest(bits)):
            expect(f"{x} in {bits} bits", (wrap(x, bits), clamp(x, bits)), (x, x))
            expect(f"{x} as bytes", elements(data_of([x], bits), bits), [x])
        low, high = lowest(bits), highest(bits)
        expect("one under", (wrap(low - 1, bits), clamp(low - 1, bits)), (high, low))
        expect("one over", (wrap(high + 1, bits), clamp(high + 1, bits)), (low, high))
    return faults


if __name__ == "__main__":
    found = self_check()
    for fault in found:
        print(f"lanes: {fault}")
    print(f"lanes: {len(found)} faults")
    sys.exit(1 if found else 0)
