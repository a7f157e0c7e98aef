"""The stored cases of the program kernel_cases: what every kernel makes of 16 bytes.

A record is 52 bytes: family, size, quarter turns (by element: form) and index, then 16 bytes each of
the addend c, the first source n and the second source m. For CADD, SQCADD and SQDMULH the first source is
c, and n is zeros. A line of the answer has the 16 bytes in memory order; by element, also whether a
lane clamped. SQDMULH does the same to each register of a group: here that is one.
"""

from itertools import product

import lanes
import model
from lanes import Pair
from model import ADDS, DESTRUCTIVE, ELEMENT, GROUPS, INDEXED, H, Operation


def operations():
    """Every family, size, rotation, form and index."""
    for family, size, form, turns in model.kinds():
        if size in model.sizes_of(family) and turns in model.turns_of(family):
            limit = model.limits_of(family, size)[3] or 0
            for index in range(limit + 1):
                yield Operation(family, size, form, turns, 0, 0, 0, index)


def edges(bits):
    low, high = lanes.lowest(bits), lanes.highest(bits)
    return [low, low + 1, -1, 0, 1, high - 1, high]


class Maker:
    """Makes the lanes of c, n and m for one operation."""

    def __init__(self, source, op):
        self.source, self.op, self.bits = source, op, lanes.bits_of(op)
        self.count = 128 // self.bits
        self.edges = edges(self.bits)
        # Where a product's quotient goes over to the next number: halfway where it is rounded.
        self.turn = self.bits - (1 if op.family in GROUPS else 2)

    # -- one number

    def edge(self):
        return self.source.choose(self.edges)

    def random(self):
        """Any number of N bits, or, as often, one of fewer."""
        x = 0
        for _ in range(self.bits // 8):
            x = 256 * x + self.source.below(256)
        if self.source.below(2):
            x >>= self.source.below(self.bits)
        return lanes.wrap(x, self.bits)

    def odd(self, bits):
        """An odd number of so many bits, 2 or more."""
        return lanes.wrap(self.random() | 1, bits)

    # -- all lanes of c, n and m

    def all(self, number):
        return [[number() for _ in range(self.count)] for _ in "cnm"]

    def mixed(self):
        return self.all(lambda: self.edge() if self.source.below(2) else self.random())

    def factors(self, c, n, m):
        """SQDMULH's first factor stands in c."""
        return (n, c, m) if self.op.family in GROUPS else (c, n, m)

    def ties(self):
        """Twice a product is half of 2^N over a multiple of it (SQDMULH: a multiple), or the product is one
        under or over."""
        c, n, m = self.mixed()
        one_for_all = self.op.family in INDEXED + ELEMENT
        for p in range(0, self.count, 2):
            if p == 0 or not one_for_all:
                zeros = 0 if self.source.below(3) else 1 + self.source.below(self.bits - 2)
                b = self.odd(self.bits - zeros) << zeros
            for e in (p, p + 1):
                m[e] = b if self.source.below(2) or b == self.edges[0] else -b
                n[e] = self.cofactor(b, zeros)
        return self.factors(c, n, m)

    def cofactor(self, b, zeros):
        """A number whose product with b, which ends in so many zeros, is a tie, or beside one."""
        whole = 2 ** (self.bits - 1)
        if zeros:
            return self.odd(zeros + self.bits - self.turn) << (self.turn - zeros)
        beside = self.source.choose((-1, 0, 1))
        return (2**self.turn + beside) * pow(b, -1, whole) % whole - self.source.choose((0, whole))

    def bounds(self):
        """The addend brings the sum to an end of the range, or one or two to either side of it; of SQDMULH,
        which has none, both factors are there."""
        if self.op.family in GROUPS:
            ends = self.edges[0], self.edges[-1]
            return self.all(lambda: lanes.clamp(self.source.choose(ends) + self.source.below(5) - 2, self.bits))
        _, n, m = self.all(self.edge if self.source.below(2) else self.random)
        comes = self.comes(n, m)
        c = [self.source.choose((self.edges[0], self.edges[-1])) - x for x in comes]
        return [lanes.clamp(x + self.source.below(5) - 2, self.bits) for x in c], n, m

    def comes(self, n, m):
        """What comes to the addend at each lane, before any clamp."""
        op, bits = self.op, self.bits
        if op.family in ELEMENT:
            sign = -1 if op.family == model.SQRDMLSH else 1
            return [lanes.rounded(0, sign * x * m[op.index], bits) for x in n]
        together = []
        for p in range(0, self.count, 2):
            at = 2 * op.index if op.family in INDEXED else p
            second = Pair(*m[at : at + 2])
            if op.family in ADDS:
                together += lanes.sum_of(op.turns, Pair(0, 0), second)
            else:
                exact = lanes.product_of(op.turns, Pair(*n[p : p + 2]), second)
                together += (lanes.rounded(0, x, bits) for x in exact)
        return together

    def least(self):
        """Most factors are the least number, whose square leaves the range by one when rounded."""
        c, _, _ = self.mixed()
        _, n, m = self.all(lambda: self.edges[0] if self.source.below(4) else self.edge())
        return self.factors(c, n, m)

    def coinciding(self):
        """c and n one register, c and m, n and m, and all three."""
        for places in ("xxy", "xyx", "yxx", "xxx"):
            x, y, _ = self.mixed()
            yield [x if place == "x" else y for place in places]

    def walk(self):
        """Every three edges meet in a lane."""
        squares = list(product(self.edges, self.edges))
        if self.op.family in ELEMENT:
            for factor in self.edges:
                for at in range(0, len(squares), self.count):
                    c, n, m = self.all(self.edge)
                    for e, (x, y) in enumerate(squares[at : at + self.count]):
                        c[e], n[e] = x, y
                    m[self.op.index] = factor
                    yield c, n, m
            return
        crossed = self.op.turns % 2
        for factor in [0] if self.op.family in DESTRUCTIVE else self.edges:
            for at in range(0, len(squares), self.count):
                c, n, m = self.all(self.edge)
                for e, (x, y) in enumerate(squares[at : at + self.count]):
                    c[e], m[e ^ crossed] = x, y
                    n[e - e % 2 + crossed] = factor
                yield c, n, m

    def cases(self):
        family = self.op.family
        whole = family in ELEMENT and self.op.form == 2 and self.op.index == self.count - 1
        if whole or family not in INDEXED + ELEMENT:
            yield from self.walk()
        yield from (self.all(self.edge) for _ in range(3))
        if family not in ADDS:
            yield from (self.ties() for _ in range(2 + self.bits // 8))  # few lanes: more cases
            yield from (self.least() for _ in range(2))
        yield from (self.bounds() for _ in range(4))
        yield from self.coinciding()
        yield self.mixed()
        yield from (self.all(self.random) for _ in range(2))


def case(op, c, n, m):
    """The record and the line."""
    chosen = op.form if op.family in ELEMENT else op.turns
    record = bytes((op.family, op.size, chosen, op.index)) + c + n + m
    if op.family in ELEMENT:
        made, clamped = lanes.by_element(op, c, n, m)
        return record, f"{made.hex()} {int(clamped)}\n"
    if op.family in GROUPS:
        return record, f"{lanes.by_single(op, c, m).hex()}\n"
    return record, f"{lanes.vector(op, c, n, m).hex()}\n"


def cases(source):
    for op in operations():
        for c, n, m in Maker(source, op).cases():
            if op.family in DESTRUCTIVE:
                n = [0] * len(n)
            yield case(op, *(lanes.data_of(x, lanes.bits_of(op)) for x in (c, n, m)))
