"""The stored cases of the program cases: runs of programs, single words and registers asked for,
refused ones among them.

A record begins with six little-endian numbers of 4 bytes: the kind, the vector length, the bytes of
the file, the flag, a number, and a seed. Then come the file's bytes where the seed is 0 (any other
seed makes them, as below). The number is that of a run's words, which come last; the word to execute;
or the register. A line of the answer has the number answered, the words done, the flag and a
digest of the file that is left; for a register the number answered, the length and a digest of the
part to read, the length of the part to fill, and a digest of the file with that part's bytes
complemented.
"""

import struct
from functools import lru_cache
from itertools import product

import execution
import kernel_cases
import lanes
import model
from execution import LENGTHS, MOST_WORDS, MULTIPLES
from model import ADDS, ELEMENT, GROUPS, TABLE

MOST_BYTES = 4 * 2176  # of a file: that of the first multiple of 128 that is too long
START = 0x9E3779B97F4A7C15
SEEDS = range(1, 97)
RUN, EXECUTE, REGISTER = 1, 2, 3  # the kinds


# ---- what the program does too: bytes from a seed, and the digest


def following(x):
    """Marsaglia's xorshift of 64 bits: it goes through all numbers but 0."""
    x ^= x << 13 & 2**64 - 1
    x ^= x >> 7
    return x ^ (x << 17 & 2**64 - 1)


@lru_cache(maxsize=None)
def bytes_from(seed):
    """A file's bytes. Of its lanes, 1, 2, 4 or 8 bytes wide by the seed, half are edges."""
    width = 1 << seed % 4
    made = bytearray()
    x = START ^ seed
    for at in range(MOST_BYTES):
        x = following(x)
        top = at % width == width - 1
        if at % width == 0:
            kind = x >> 32 & 7
        if kind == 0:
            made.append(0)
        elif kind == 1:
            made.append(0x7F if top else 0xFF)  # the highest number
        elif kind == 2:
            made.append(0x80 if top else 0)  # the lowest
        elif kind == 3:
            made.append(0xFF)
        else:
            made.append(x & 0xFF)
    return bytes(made)


def digest(file):
    """Each byte is mixed in and the whole moved on, so that its place counts."""
    x, all_bits = START, 2**64 - 1
    for byte in file:  # following, written out: much of the time goes here
        x ^= byte
        x ^= x << 13 & all_bits
        x ^= x >> 7
        x ^= x << 17 & all_bits
    return x


# ---- the cases

NOT_POWERS = tuple(length for length in MULTIPLES if length not in LENGTHS)
WRONG_LENGTHS = (0, 127, 192, 2176, 4096, 2**32 - 1) + NOT_POWERS


def wrong_sizes(length):
    """Of files for a legal length: none, one byte short, one long."""
    return 0, 4 * length - 1, 4 * length + 1


def any_sizes(length):
    """Of files for a length that is not legal: none, one of another length, its own."""
    return sorted({0, 512, min(4 * length, MOST_BYTES)})


def ran_line(ran):
    return f"{ran.number} {ran.done} {int(ran.flag)} {digest(ran.file):016x}\n"


def case(length, size, flag, words, seed=0, file=None):
    """The record and the line of a run."""
    head = struct.pack("<6I", RUN, length, size, flag, len(words), seed)
    if seed:
        file = bytes_from(seed)[:size]
    ran = execution.run(length, file, bool(flag), words)
    return head + (b"" if seed else file) + struct.pack(f"<{len(words)}I", *words), ran_line(ran)


def word_case(length, size, flag, word, seed):
    """The same of one word by itself, which does what a run of it does."""
    ran = execution.run(length, bytes_from(seed)[:size], bool(flag), [word])
    return struct.pack("<6I", EXECUTE, length, size, flag, word, seed), ran_line(ran)


def register_case(length, size, n, seed):
    """The same of a register asked for. On a refusal the file stays as it is."""
    file = bytes_from(seed)[:size]
    number, part = execution.register(length, file, n)
    filled = file
    if number == execution.DONE:
        held = execution.registers(length, file)
        held[n] = bytes(255 - byte for byte in part)
        filled = b"".join(held)
    record = struct.pack("<6I", REGISTER, length, size, 0, n, seed)
    return record, f"{number} {len(part)} {digest(part):016x} {len(part)} {digest(filled):016x}\n"


class Maker:
    def __init__(self, source, families=range(len(model.NAMES))):
        self.source = source
        self.operations = [op for op in kernel_cases.operations() if op.family in families]
        self.families = [[op for op in self.operations if op.family == family] for family in families]

    def seeded(self, length, words, flag=None, size=None):
        if flag is None:
            flag = self.source.below(2)
        size = 4 * length if size is None else size
        return case(length, size, flag, words, self.source.choose(SEEDS))

    def length(self):
        """Any legal length, the shorter more often."""
        return LENGTHS[self.source.below(1 + self.source.below(len(LENGTHS)))]

    def registers(self, op):
        """The operation with any registers within its limits, at their edges as often as not."""
        chosen = []
        for limit in model.limits_of(op.family, op.size)[:3]:
            limit = limit or 0
            choices = model.edges(limit) if self.source.below(2) else range(limit + 1)
            chosen.append(self.source.choose(choices))
        chosen[0] -= chosen[0] % model.step_of(op.family, op.form)
        return op._replace(destination=chosen[0], first=chosen[1], second=chosen[2])

    def word(self, op):
        return model.encode(op)[1]

    def outside(self):
        """A word that is near a row, and belongs to none."""
        while True:
            row = self.source.choose(TABLE)
            fixed = [2**bit for bit in range(32) if row.fixed >> bit & 1]
            word = self.source.of_row(row) ^ self.source.choose(fixed)
            if model.decode(word) == model.OUTSIDE:
                return word

    def reserved(self):
        row = self.source.choose([row for row in TABLE if row.family in ELEMENT])
        return self.source.of_row(row) & ~(3 << 22) | self.source.choose((0, 3)) << 22

    def good(self):
        """A word of any family, each as often as the others."""
        return self.word(self.registers(self.source.choose(self.source.choose(self.families))))

    # -- groups of cases

    def single(self):
        """Every operation at every length."""
        for (at, op), (k, length) in product(enumerate(self.operations), enumerate(LENGTHS)):
            yield self.seeded(length, [self.word(self.registers(op))], (at + k) % 2)

    def coinciding(self):
        """Every operation with its registers one, in each way; but see placed."""
        for op in (op for op in self.operations if op.family not in GROUPS):
            most = model.limits_of(op.family, op.size)[2]
            for same in ("dm",) if op.family in ADDS else ("dn", "dm", "nm", "dnm"):
                one = self.source.below(most + 1)
                other = (one + 1 + self.source.below(most)) % (most + 1)
                d, n, m = (one if place in same else other for place in "dnm")
                if op.family in ADDS:
                    n = 0
                word = self.word(op._replace(destination=d, first=n, second=m))
                yield self.seeded(self.length(), [word])

    def aimed(self):
        """Ties, bounds and edges in a stored file: m, c and n in registers 0, 8 and 16 on."""
        for op in (op for op in self.operations if op.family not in GROUPS):
            made = self.lanes(op)
            held = [m for _, _, m in made] + [c for c, _, _ in made] + [n for _, n, _ in made]
            rest = bytes(self.source.below(256) for _ in range(8 * 16))
            first = 0 if op.family in ADDS else 16
            words = [
                self.word(op._replace(destination=8 + k, first=first and first + k, second=k))
                for k in range(8)
            ]
            yield case(128, 512, self.source.below(2), words, file=b"".join(held) + rest)

    def lanes(self, op):
        """Eight times 16 bytes of c, n and m, which the operation takes to ties, bounds and edges."""
        maker = kernel_cases.Maker(self.source, op)
        makers = [maker.bounds] * 4 + [maker.least] + [lambda: maker.all(maker.edge)]
        makers += [maker.ties] * 2 if op.family not in ADDS else [maker.mixed] * 2
        return [[lanes.data_of(x, maker.bits) for x in make()] for make in makers]

    def groups(self):
        """The same of groups: m in registers 0 on, c in a place of each group from register 8 on, the places in
        turn."""
        for op in (op for op in self.operations if op.family in GROUPS):
            held = [bytes(self.source.below(256) for _ in range(16)) for _ in range(32)]
            words = []
            for k, (c, _, m) in zip(range(24 // op.form), self.lanes(op)):
                start = 8 + op.form * k
                held[k], held[start + k % op.form] = m, c
                words.append(self.word(op._replace(destination=start, second=k)))
            yield case(128, 512, self.source.below(2), words, file=b"".join(held))

    def placed(self):
        """Groups with the second source in each place, before the first and behind the last, at every length."""
        for op in (op for op in self.operations if op.family in GROUPS):
            for length, place in product(LENGTHS, range(-1, op.form + 1)):
                start = op.form * (1 + self.source.below(12 // op.form - 1))
                word = self.word(op._replace(destination=start, second=start + place))
                yield self.seeded(length, [word], place % 2)

    def programs(self):
        """Several words, each working on what the one before left; some end in the middle."""
        for length in LENGTHS:
            for k in range(144):
                words = [self.good() for _ in range(2 + self.source.below(9))]
                if k % 3:
                    stop = self.outside() if k % 3 == 1 else self.reserved()
                    words.insert(self.source.below(len(words) + 1), stop)
                    if k % 4 == 0:  # a second, which is not looked at
                        words.append(self.reserved() if k % 3 == 1 else self.outside())
                yield self.seeded(length, words)
        for _ in range(240):
            words = list(self.source.mix(1 + self.source.below(16)))
            yield self.seeded(self.length(), words)

    def refusals(self):
        """Lengths, sizes and programs on either side of their limits, one or several at a time."""
        programs = [[], [self.good()], [self.outside()], [self.reserved()]]
        wrong = (0, 1, 64, 120, 127, 129, 136, 192, 320, 2040, 2047, 2049, 2056, 2112, 2175, 2176)
        for length in wrong + (2304, 4096, 2**31, 2**32 - 128, 2**32 - 1) + NOT_POWERS:
            for size in sorted({0, 511, 512, min(4 * length, MOST_BYTES)}):
                yield self.seeded(length, self.source.choose(programs[:2]), 0, size)
                yield self.seeded(length, self.source.choose(programs[2:]), 1, size)
        for length in LENGTHS:
            whole = 4 * length
            for size in (0, 1, whole // 2, whole - 128, whole - 1, whole + 1, whole + 128):
                yield self.seeded(length, self.source.choose(programs), None, size)
            yield self.seeded(length, [], 0)
            yield self.seeded(length, [], 1)

    def long(self):
        """Programs of about 4,096 words."""
        many = [self.good() for _ in range(MOST_WORDS)]
        outside = [self.outside()]
        yield self.seeded(128, many)
        yield self.seeded(256, many[1:] + outside)
        yield self.seeded(128, many + many[:1])
        yield self.seeded(2048, outside + many)
        yield self.seeded(192, many + outside)
        yield self.seeded(384, many + outside)
        yield self.seeded(384, many + outside, None, 511)
        yield self.seeded(128, many + outside, None, 511)

    def executed(self):
        """Every operation by itself; words that are none; lengths and files that are refused."""

        def one(length, word, size=None):
            size = 4 * length if size is None else size
            return word_case(length, size, self.source.below(2), word, self.source.choose(SEEDS))

        for at, op in enumerate(self.operations):
            for length in (LENGTHS[at % len(LENGTHS)], self.length()):
                yield one(length, self.word(self.registers(op)))
        for length in LENGTHS:
            for make in (self.good, self.outside, self.reserved):
                yield one(length, make())
                yield from (one(length, make(), size) for size in wrong_sizes(length))
        for length in WRONG_LENGTHS:
            for make in (self.good, self.outside, self.reserved):
                yield from (one(length, make(), size) for size in any_sizes(length))

    def asked(self):
        """Registers on either side of the limit; 1 or 11 before 2 before 6 where several are due."""

        def one(length, size, n):
            return register_case(length, size, n, self.source.choose(SEEDS))

        for length in LENGTHS:
            for n in (0, 1, 15, 16, 30, 31, 32, 33, 2**32 - 1):
                yield one(length, 4 * length, n)
            for size, n in product(wrong_sizes(length), (0, 31, 32, 2**32 - 1)):
                yield one(length, size, n)
        for length in WRONG_LENGTHS:
            for size, n in product(any_sizes(length), (0, 31, 32, 40, 2**32 - 1)):
                yield one(length, size, n)

    def cleared(self):
        """Forms by element at every length, each into the first and the last register and into its sources."""
        ops = [op for op in self.operations if op.family in ELEMENT and op.index == 0]
        for length, op, k in product(LENGTHS, ops, range(6)):
            most = model.limits_of(op.family, op.size)
            index = self.source.below(most[3] + 1)
            n, m = 16 + self.source.below(15), self.source.below(most[2]) + 1
            d, n, m = ((0, n, m), (31, n, m), (n, n, m), (m, n, m), (m, m, m), (31, 30, 0))[k]
            word = self.word(op._replace(destination=d, first=n, second=m, index=index))
            yield self.seeded(length, [word])

    def cases(self):
        yield from self.single()
        yield from self.coinciding()
        yield from self.aimed()
        yield from self.programs()
        yield from self.refusals()
        yield from self.long()
        yield from self.executed()
        yield from self.asked()
        yield from self.cleared()
        yield from self.groups()
        yield from self.placed()


def cases(source):
    yield from Maker(source).cases()
