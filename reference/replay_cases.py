"""The stored cases of the program replay_cases: traces that are checked, cases of them that are judged, and
the same traces in pieces.

A record begins with three little-endian numbers of 4 bytes: the kind, a and b. Kind 1 puts the b bytes
that follow into a buffer, from place a on; it has 65,600 bytes, zero at first, and lasts from record to
record. Kind 2 asks: its first a bytes are a trace, of which case b is judged. The line of an ask has the
check's number and number of cases, and the judgement's number, kind, place and the byte that the run
leaves there. A put has no line. Kind 3 hands the first a bytes to a stream: a piece of b % 65,536 bytes, then
of b / 65,536 bytes, each behind an empty one. Its line has the answers that tell something, each the bytes
taken, the number, the kind and the place; the number of an end; and behind that the four numbers of a byte
handed in, and the number of an end.
"""

import struct
from itertools import product

import replay
import run_cases
from execution import LENGTHS, MOST_WORDS
from model import CADD, SQRDMLAH, VECTOR_128, B, H, Operation
from replay import MOST_BYTES, MOST_CASES, numbers
from run_cases import SEEDS, bytes_from
from stream import Stream, calls, sizes
from traces import Case, places, record

ROOM = 65600
PUT, ASK, HAND = 1, 2, 3  # the kinds
ALL_ONES = 2**32 - 1
WRONG_LENGTHS = (0, 1, 127, 129, 384, 1920, 2049, 2176, 4096, 2**16 + 128, 2**29 + 128, 2**31, ALL_ONES)
WRONG_FLAGS = (2, 3, 255, 256, 257, 2**16, 2**24, 2**31, ALL_ONES)
WRONG_COUNTS = (2**30, 2**31, 2**32 // 12, 2**32 // 12 + 1, ALL_ONES)  # 12 x N, cut to 32 bits, is mostly small
NO_CASES = (2**16, 2**31, ALL_ONES)  # beside the number of cases itself


def byte_of(x):
    return bytes([x % 256])


class Maker(run_cases.Maker):
    """Makes the records, over the words that the stored cases of runs are made of, and has the buffer too."""

    def __init__(self, source):
        super().__init__(source)
        self.buffer = bytearray(ROOM)

    # -- records

    def put(self, at, data):
        self.buffer[at : at + len(data)] = data
        return numbers(PUT, at, len(data)) + data, ""

    def ask(self, size, n):
        trace = bytes(self.buffer[:size])
        answer = *replay.check(trace), *replay.judge(trace, n)
        return numbers(ASK, size, n), " ".join(map(str, answer)) + "\n"

    def hand(self, size, first, step=2**16 - 1):
        """All but the first piece at once, where no step is told."""
        model, trace = Stream(), bytes(self.buffer[:size])
        every = calls(model, trace, sizes(first, step))
        told = [number for piece, answer in every if answer != (len(piece), 0, 0, 0) for number in answer]
        told += [model.end(), *model.feed(b"\1"), model.end()]
        return numbers(HAND, size, first | step << 16), " ".join(map(str, told)) + "\n"

    def handed(self, records, cuts):
        """Each trace that is asked for once more, in pieces."""
        known = set()
        for one, line in records:
            yield one, line
            kind, size, _ = struct.unpack_from("<3I", one)
            trace = bytes(self.buffer[:size])
            if kind == ASK and trace not in known:
                known.add(trace)
                first = cuts.below(cuts.choose((1, 8, 50, min(size, 2**16 - 1) + 1)))
                yield self.hand(size, first, 1 + size // 12 + cuts.below(cuts.choose((1, 4, 16, 600, 20000))))

    def changed(self, changes, asks):
        """Asks with other bytes at some places, which then get back their own."""
        held = [(at, bytes(self.buffer[at : at + len(data)])) for at, data in changes]
        yield from (self.put(at, data) for at, data in changes)
        yield from (self.ask(*one) for one in asks)
        yield from (self.put(at, data) for at, data in held)

    def number(self, at):
        return struct.unpack_from("<I", self.buffer, at)[0]

    # -- traces

    def seen(self, length, words, flag=None):
        """A case on a file of random numbers and edges."""
        if flag is None:
            flag = self.source.below(2)
        return Case(length, flag, bytes_from(self.source.choose(SEEDS))[: 4 * length], words)

    def words(self, count):
        return [self.good() for _ in range(count)]

    def trace_of(self, shapes):
        """A trace that agrees, with a case for each length and number of words."""
        return record([self.seen(length, self.words(count)) for length, count in shapes])

    # -- the contents

    def many(self):
        """1,024 and 1,025 cases, more than any trace has room for, and one: right contents, and cut short."""
        for cases in (MOST_CASES, MOST_CASES + 1, 1):
            end = 4 + 12 * cases
            starts = range(end, end + 1032 * cases, 1032)
            yield self.put(0, numbers(cases) + b"".join(numbers(128, 0, start) for start in starts))
            sizes = (0, 3, 4, 5, end - 12, end - 1, end, end + 1, end + 1031, end + 1032, MOST_BYTES, ROOM)
            yield from (self.ask(size, n) for size, n in product(sizes, (0, ALL_ONES)))
            for at, size in product((12, end - 4), (end, MOST_BYTES + 1)):
                yield from self.changed([(at, numbers(self.number(at) + 1))], [(size, 0)])
        for cases in (0, 2, MOST_CASES - 1, MOST_CASES, MOST_CASES + 1, *WRONG_COUNTS):
            yield from self.changed([(0, numbers(cases))], [(4, 0), (16, 0), (MOST_BYTES, 0)])

    def entries(self):
        """Each number of the contents of the first, a middle and the last case, one off or not allowed."""
        trace = self.trace_of([(128, 2), (256, 1), (128, 3)])
        size = len(trace)
        yield self.put(0, trace)
        for n in (0, 1, 2, 3, 4, *NO_CASES):
            yield self.ask(size, n)
        for cases in (0, 1, 2, 4, MOST_CASES, MOST_CASES + 1, *WRONG_COUNTS):
            yield from self.changed([(0, numbers(cases))], [(size, 0), (size, 3)])
        for k in range(3):
            length, words, start = struct.unpack_from("<3I", trace, 4 + 12 * k)
            near = (-4, -1, 1, 4, 2**16, 2**30, 2**31)
            for at, values in (
                (0, (length - 1, length + 1, *WRONG_LENGTHS, *LENGTHS)),
                (4, (*(words + step for step in near[1:]), 0, MOST_WORDS, MOST_WORDS + 1, ALL_ONES)),
                (8, (*(start + step for step in near), 0, size, ALL_ONES)),
            ):
                for value in values:
                    asks = [(size, k), (size - 4, k), (size + 4, k)] if at == 4 else [(size, k)]
                    yield from self.changed([(4 + 12 * k + at, numbers(value))], asks)

    def gaps(self):
        """Bodies that overlap, leave a gap or change places, with the length that they then have."""
        trace = self.trace_of([(128, 1), (128, 1), (128, 1)])
        size = len(trace)
        yield self.put(0, trace)
        starts = [self.number(12 + 12 * k) for k in range(3)]
        for first, step in product(range(3), (-40, -4, -1, 1, 4, 1036)):
            later = [(12 + 12 * k, numbers(starts[k] + step)) for k in range(first, 3)]
            yield from self.changed(later, [(size, 0), (size + step, 0)])
        for one, other in ((0, 1), (0, 2), (1, 2)):
            turned = [(12 + 12 * one, numbers(starts[other])), (12 + 12 * other, numbers(starts[one]))]
            yield from self.changed(turned, [(size, one)])
            yield from self.changed([(12 + 12 * other, numbers(starts[one]))], [(size, other)])

    def cuts(self):
        """Cut at every byte of the contents, and around every part of every body."""
        trace = self.trace_of([(128, 2), (256, 3), (128, 0)])
        yield self.put(0, trace)
        yield from (self.ask(size, size % 4) for size in range(4 + 12 * 3 + 2))
        around = {at + step for k in range(3) for at in places(trace, k) for step in (-1, 0, 1)}
        for size in sorted(around):
            yield self.ask(size, 0)
            yield self.ask(size, ALL_ONES)

    def totals(self):
        """65,536 bytes, every length among them, and one more."""
        lengths = [*LENGTHS, *reversed(LENGTHS), 128]
        counts = [17] * len(lengths)
        whole = 4 + sum(20 + 8 * length for length in lengths)
        counts[-1] = (MOST_BYTES - whole) // 4 - 17 * (len(lengths) - 1)
        trace = self.trace_of(list(zip(lengths, counts)))
        yield self.put(0, trace)
        yield from (self.ask(MOST_BYTES, n) for n in range(len(lengths) + 1))
        last = 4 + 12 * (len(lengths) - 1)
        longer = [(last + 4, numbers(counts[-1] + 1))]
        shorter = [(last + 4, numbers(counts[-1] - 1))]
        wrong = [(last + 8, numbers(self.number(last + 8) + 1))]
        sizes = (MOST_BYTES - 4, MOST_BYTES - 1, MOST_BYTES, MOST_BYTES + 1, MOST_BYTES + 4, ROOM)
        for changes in ([], longer, shorter, wrong, [(0, numbers(0))]):
            yield from self.changed(changes, [(size, 0) for size in sizes] + [(MOST_BYTES + 1, ALL_ONES)])

    # -- the verdicts

    def flags(self):
        """Flags that are none, alone and beside each other verdict. The other cases keep theirs."""
        trace = self.trace_of([(128, 1), (128, 3), (128, 0)])
        size, (before, _, word, after, left, _) = len(trace), places(trace, 1)
        yield self.put(0, trace)
        everyone = [(size, n) for n in range(3)]
        for flag, value in product((before, after), (0, 1, *WRONG_FLAGS)):
            yield from self.changed([(flag, numbers(value))], everyone)
        other = (after, numbers(1 - self.number(after)))
        byte = (left + 100, byte_of(trace[left + 100] + 1))
        outside, reserved = (word + 4, numbers(self.outside())), (word + 8, numbers(self.reserved()))
        for beside in ([], [other], [byte], [other, byte], [outside], [reserved], [outside, reserved, byte]):
            yield from self.changed(beside, [(size, 1)])
            for bad in ({before: 2}, {after: ALL_ONES}, {before: 9, after: 9}):
                changes = [(flag, numbers(value)) for flag, value in bad.items()]
                yield from self.changed(beside + changes, [(size, 1)])

    def files(self):
        """At every length, bytes that differ: the first and the last, around each 512th, some at a time."""
        trace = self.trace_of([(length, 6) for length in LENGTHS])
        size = len(trace)
        yield self.put(0, trace)
        for n, length in enumerate(LENGTHS):
            *_, flag, left, end = places(trace, n)
            some = {0, 1, 15, 16, length // 8, 510, 511, 512, 513, 1023, 1024, 4095, 4096, 4 * length - 2}
            some |= {self.source.below(4 * length) for _ in range(6)} | {4 * length - 1}
            some = [left + place for place in sorted(some) if place < 4 * length]
            sets = [[at] for at in some] + [[at, at + 1] for at in some[:-1]]
            sets += [[left, end - 1], [left + 511, end - 1], some, some[2:]]
            for differing in sets:
                changes = [(at, byte_of(trace[at] ^ 1 << self.source.below(8))) for at in differing]
                yield from self.changed(changes, [(size, n)])
            other = (flag, numbers(1 - self.number(flag)))
            yield from self.changed([other], [(size, n), (size, (n + 1) % 5)])
            yield from self.changed([other, (end - 1, byte_of(trace[end - 1] + 128))], [(size, n)])
            yield from self.changed([(flag - 4, numbers(self.outside()))], [(size, n)])  # the last word

    def stops(self):
        """Stops at each place that matters to one who takes the words some at a time, sixteen or other."""
        trace = self.trace_of([(128, 40), (256, 48), (128, 16), (128, 1)])
        size = len(trace)
        yield self.put(0, trace)
        for n, count in enumerate((40, 48, 16, 1)):
            _, _, words, flag, left, _ = places(trace, n)
            yield self.ask(size, n)
            near = {at + step for at in (0, 8, 16, 32, count) for step in (-1, 0, 1)}
            for at in sorted(at for at in near if 0 <= at < count):
                other = (flag, numbers(1 - self.number(flag)))
                byte = (left, byte_of(trace[left] + 1))
                for stop in (self.outside(), self.reserved()):
                    here = (words + 4 * at, numbers(stop))
                    yield from self.changed([here], [(size, n)])
                    yield from self.changed([here, other, byte], [(size, n)])
                    later = words + 4 * (at + 1 + self.source.below(count - at))
                    if later < flag:
                        yield from self.changed([here, (later, numbers(self.outside()))], [(size, n)])

    def counts(self):
        """Programs of every number of words about a multiple of sixteen, and their last word."""
        counts = (0, 1, 2, 15, 16, 17, 31, 32, 33, 47, 48, 49, 255, 256, 257)
        trace = self.trace_of([(128, count) for count in counts])
        size = len(trace)
        yield self.put(0, trace)
        yield from (self.ask(size, n) for n in range(len(counts) + 1))
        for n in range(1, len(counts)):
            last = places(trace, n).flag_after - 4
            for stop in (self.outside(), self.reserved(), self.good()):
                yield from self.changed([(last, numbers(stop))], [(size, n)])

    def saturating(self):
        """QC set by one word among 40, and kept to the end."""
        idle = self.word(Operation(CADD, B, 0, 1, 2, 0, 1, 0))
        setting = self.word(Operation(SQRDMLAH, H, VECTOR_128, 0, 5, 3, 4, 0))  # P9's factors, in Z3 and Z4
        file = bytes(3 * 16) + b"\0\x80" * 16 + bytes(27 * 16)
        for at in (0, 15, 16, 31, 32, 39):
            words = [setting if k == at else idle for k in range(40)]
            trace = record([Case(128, flag, file, words) for flag in (0, 1)])
            size = len(trace)
            yield self.put(0, trace)
            yield from (self.ask(size, n) for n in (0, 1))
            for n in (0, 1):
                yield from self.changed([(places(trace, n).flag_after, numbers(0))], [(size, n)])
            yield from self.changed([(places(trace, 0).words + 4 * at, numbers(idle))], [(size, 0)])

    def long(self):
        """4,096 words, and 4,097."""
        trace = self.trace_of([(128, MOST_WORDS)])
        size, at = len(trace), places(trace, 0)
        yield self.put(0, trace)
        yield from (self.ask(size, n) for n in (0, 1))
        for k in (0, MOST_WORDS - 2, MOST_WORDS - 1):
            for stop in (self.outside(), self.reserved()):
                yield from self.changed([(at.words + 4 * k, numbers(stop))], [(size, 0)])
        for count, step in ((MOST_WORDS - 1, -4), (MOST_WORDS + 1, 4)):
            yield from self.changed([(8, numbers(count))], [(size, 0), (size + step, 0)])
        yield from self.changed([(at.file_after, byte_of(trace[at.file_after] + 1))], [(size, 0)])

    # -- random

    def place(self, trace, cases):
        """A byte to damage: of the contents, of a flag or a word, or any."""
        kind = self.source.below(3)
        if kind == 0:
            return self.source.below(4 + 12 * cases)
        if kind == 1:
            at = places(trace, self.source.below(cases))
            return self.source.choose((*range(at.flag_before, at.file_before), *range(at.words, at.file_after)))
        return self.source.below(len(trace))

    def damaged(self):
        """Small random traces, with one byte of each damaged at a time."""
        for _ in range(60):
            cases = []
            for _ in range(1 + self.source.below(3)):
                words = self.words(self.source.below(20))
                if words and self.source.below(4) == 0:
                    words[self.source.below(len(words))] = self.source.choose((self.outside, self.reserved))()
                cases.append(self.seen(self.source.choose((128, 128, 128, 256)), words))
            trace, count = record(cases), len(cases)
            yield self.put(0, trace)
            yield from (self.ask(len(trace), n) for n in range(count))
            for _ in range(24):
                at = self.place(trace, count)
                size = len(trace) if self.source.below(8) else max(0, len(trace) + self.source.below(9) - 4)
                new = trace[at] ^ 1 << self.source.below(8) if self.source.below(2) else self.source.below(256)
                asks = [(size, self.source.below(count)), (size, self.source.below(count + 1))]
                yield from self.changed([(at, byte_of(new))], asks)

    # -- traces in pieces

    def every_cut(self):
        """A short trace cut at every byte, and its first bytes up to every byte, with an end behind them."""
        trace = self.trace_of([(128, 1)])
        yield self.put(0, trace)
        for cut in range(len(trace) + 1):
            yield self.hand(len(trace), cut)
            yield self.hand(cut, cut // 2)

    def asked(self):
        yield from self.many()
        yield from self.entries()
        yield from self.gaps()
        yield from self.cuts()
        yield from self.totals()
        yield from self.flags()
        yield from self.files()
        yield from self.stops()
        yield from self.counts()
        yield from self.saturating()
        yield from self.long()
        yield from self.damaged()

    def cases(self, cuts):
        yield from self.handed(self.asked(), cuts)
        yield from self.every_cut()


def cases(source, cuts):
    """The cuts have a source of their own."""
    yield from Maker(source).cases(cuts)
