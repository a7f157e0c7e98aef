#!/usr/bin/env python3
"""Tests of the Python module, bindings/python/kobbeskuim.py, held to the independent model; its doctests, and the
session of docs/python.md.

    python3 tests/python.py

The shared library is target/sharedlib/libkobbeskuim.so unless KOBBESKUIM_LIBRARY names another. All cases are seeded.
"""

import _ctypes
import ctypes
import doctest
import os
import pickle
import re
import shutil
import struct
import subprocess
import sys
import tempfile
import unittest
from array import array
from itertools import chain, product
from pathlib import Path

ROOT = Path(__file__).resolve().parent.parent
MODULE = ROOT / "bindings/python/kobbeskuim.py"
LIBRARY = Path(os.environ.setdefault("KOBBESKUIM_LIBRARY", str(ROOT / "target/sharedlib/libkobbeskuim.so"))).resolve()
if not LIBRARY.is_file():
    sys.exit(f"python: there is no {LIBRARY}: ./kob staticlib builds the tree's")
sys.dont_write_bytecode = True  # the repository stays as it was
sys.path[:0] = [str(MODULE.parent), str(ROOT / "reference")]
import cases
import execution
import harness
import kernel_cases
import kobbeskuim
import line_cases
import lines
import model
import replay
import report
import run_cases
import traces
from execution import LENGTHS, MULTIPLES
from kobbeskuim import Family, Form, Group, Kind, NotALine, Number, Operation, Refused, Size, Stopped, Stream
from kobbeskuim import StreamRefused, Verdict

SONAME = f"libkobbeskuim.so.{kobbeskuim.VERSION.split('.')[0]}"
CADD, OUTSIDE, RESERVED = 0x4500D800, 0x00000000, 0x2F00F000
SQCADD_Z0_Z1 = 0x4501D820  # SQCADD Z0.B, Z0.B, Z1.B, 90


def answered(call, *arguments):
    """The number, and what the call returned."""
    try:
        return 0, call(*arguments)
    except Refused as refused:
        return refused.number, None


def ran(length, file, flag, words):
    """A run by the module, as the model tells it."""
    lent = bytearray(file)
    try:
        number, (done, qc) = 0, kobbeskuim.run(length, lent, words, flag)
    except Stopped as stopped:
        number, done, qc = stopped.number, stopped.done, stopped.qc
        if stopped.word != words[done]:
            raise AssertionError(f"stopped at {stopped.word:08X}, which is not word {done}") from stopped
    except Refused as refused:
        number, done, qc = refused.number, 0, flag
    return execution.Ran(number, done, qc, bytes(lent))


class Runs(unittest.TestCase):
    @classmethod
    def setUpClass(cls):
        cls.maker = harness.Maker(cases.Source(7))

    def agree(self, length, size, words):
        given = length, self.maker.file(size), self.maker.flag(), words
        found, wanted = ran(*given), execution.run(*given)
        self.assertEqual(found[:3], wanted[:3], (length, size, words[:9]))
        self.assertTrue(found.file == wanted.file, (length, size, words[:9]))
        return found.number

    def test_every_operation_at_every_length(self):
        for op, length in product(self.maker.operations, LENGTHS):
            self.agree(length, 4 * length, [self.maker.word(self.maker.registers(op))])

    def test_programs_that_end_and_that_stop(self):
        ended = set()
        for k, length in product(range(60), LENGTHS):
            words = [self.maker.good() for _ in range(k % 10)]
            if k % 3:
                stop = self.maker.outside() if k % 3 == 1 else self.maker.reserved()
                words.insert(self.maker.source.below(len(words) + 1), stop)
            ended.add(self.agree(length, 4 * length, words))
        self.assertEqual(ended, {Number.DONE, Number.OUTSIDE, Number.RESERVED})

    def test_every_length_to_past_the_last(self):
        numbers = [self.agree(length, min(4 * length, 8192), [CADD]) for length in range(2200)]
        passed = {length for length, number in enumerate(numbers) if number == Number.DONE}
        self.assertEqual(passed, {128, 256, 512, 1024, 2048})
        self.assertEqual(numbers.count(Number.NOT_POWER_OF_TWO), 11)
        for length in (4096, 2**32, 2**32 + 128, 2**63, 2**64 - 128, 2**64 - 1):
            self.assertEqual(self.agree(length, 512, [CADD]), Number.BAD_LENGTH)

    def test_sizes_of_files(self):
        for length in LENGTHS:
            whole = 4 * length
            for size, number in ((0, 2), (whole - 1, 2), (whole, 0), (whole + 1, 2)):
                self.assertEqual(self.agree(length, size, []), number)

    def test_numbers_of_words(self):
        for words, number in (([CADD] * 4096, 0), ([CADD] * 4097, 3), ([OUTSIDE] * 4097, 3), ([], 0)):
            self.assertEqual(self.agree(128, 512, words), number)

    def test_the_first_check_that_applies(self):
        many = [OUTSIDE] * 4097
        for length, size, words, number in (
            (0, 0, many, 1), (192, 511, many, 1), (384, 511, many, 11), (384, 1536, many, 11), (128, 511, many, 2),
            (128, 512, [CADD, OUTSIDE, RESERVED], 4), (128, 512, [CADD, RESERVED, OUTSIDE], 5),
        ):  # fmt: skip
            self.assertEqual(self.agree(length, size, words), number)


class Registers(unittest.TestCase):
    def test_either_side_of_each_edge(self):
        for length in (0, 127, 192, 2176, 4096, *MULTIPLES):
            sizes = {0, 4 * length - 1, 4 * length, 4 * length + 1} - {-1}
            for size, n in product(sizes, (0, 1, 30, 31, 32, 40, 2**32, 2**64 - 1)):
                file = run_cases.bytes_from(1).ljust(16385, b"\0")[:size]
                number, part = answered(kobbeskuim.register, length, file, n)
                wanted = execution.register(length, file, n)
                self.assertEqual((number, bytes(part or b"")), wanted, (length, size, n))

    def test_the_part_is_of_the_own_file(self):
        for length in LENGTHS:
            file, width = bytearray(4 * length), length // 8
            for n in range(32):
                kobbeskuim.register(length, file, n)[:] = bytes([n]) * width
            self.assertEqual(file, bytes(n for n in range(32) for _ in range(width)))

    def test_a_file_to_read_gives_a_part_to_read(self):
        self.assertTrue(kobbeskuim.register(128, bytes(512), 0).readonly)


class Words(unittest.TestCase):
    def test_decode(self):
        number = {model.OUTSIDE: Number.OUTSIDE, model.RESERVED: Number.RESERVED}
        for word in (*cases.words(), *cases.Source(8).mix(5000)):
            wanted = model.decode(word)
            found = answered(kobbeskuim.decode, word)
            self.assertEqual(found, (number[wanted], None) if wanted in number else (0, wanted), hex(word))

    def test_decoded_fields_have_their_types(self):
        for word, wanted in model.P1_TO_P7[:6] + model.A3_WORDS[:7]:
            found, form = kobbeskuim.decode(word), Group if wanted.family == model.SQDMULH else Form
            self.assertEqual([type(field) for field in found], [Family, Size, form, int, int, int, int, int])
            self.assertEqual(found.family.name, model.NAMES[wanted.family].replace("-", "_"))

    def encodes(self, fields):
        number, word = struct.unpack("<2I", harness.encode_case(fields)[1])  # the model's, and 32 and 33
        found = answered(kobbeskuim.encode, fields)
        self.assertEqual(found, (number, None) if number else (0, word), fields)
        return number

    def test_encode(self):
        found = {self.encodes(op) for op in cases.operations()}
        for op in kernel_cases.operations():
            for place, value in product(range(8), harness.NUMBERS):
                found.add(self.encodes([*op[:place], value, *op[place + 1 :]]))
            found.update(self.encodes(fields) for fields in ([], op[:7], op, [*op, 0]))
        self.assertEqual(found, {0, 7, 8, 9, 10, 14, 32, 33})

    def test_forms(self):
        """Of each family, the forms that it has and the others up to 8."""
        for family, form in product(range(len(model.NAMES)), range(9)):
            named = form in model.forms_of(family)
            turns = model.turns_of(family)[0]
            number = self.encodes([family, model.H, form, turns, 0, 0, 0, 0])
            self.assertEqual(number, 0 if named else Number.NO_OPERATION, (family, form))

    def test_groups(self):
        """9 comes before 14, and 14 before nothing: the family has no index."""
        for group, first, second in product(Group, range(36), (0, 15, 16, 31)):
            number = self.encodes([Family.SQDMULH, Size.S, group, 0, first, 0, second, 0])
            above, start = first > 31 or second > 15, first % group == 0
            self.assertEqual(number, Number.REGISTER_LIMIT if above else 0 if start else Number.GROUP_START)

    def test_listing(self):
        data, text = model.EXAMPLE
        self.assertEqual(kobbeskuim.listing(data), text.decode())
        source = cases.Source(9)
        for count, tail in product((0, 1, 2, 500), range(4)):
            data = struct.pack(f"<{count}I", *source.mix(count)) + bytes(tail)
            for given in (data, bytearray(data), memoryview(data)):
                self.assertEqual(kobbeskuim.listing(given), model.listing(data).decode())

    def test_the_longest_listing(self):
        line, most = "4500D800 CADD\n", 1048576
        data = struct.pack("<I", CADD) * (most + 2)
        for end, last in ((4 * most, "TOTAL 1048576\n"), (4 * most + 3, "TAIL 3\nTOTAL 1048576\n"),
                          (4 * most + 4, "LIMIT\n"), (4 * most + 7, "LIMIT\n"), (4 * most + 8, "LIMIT\n")):  # fmt: skip
            self.assertTrue(kobbeskuim.listing(data[:end]) == line * most + last, end)


class Lines(unittest.TestCase):
    def reads(self, text):
        """As the model: 0 and the operation, or 12 and the reach."""
        try:
            found = 0, kobbeskuim.read_line(text)
        except NotALine as refused:
            found = refused.number, refused.reach
        self.assertEqual(found, lines.read(text), text)
        return found

    def writes(self, fields):
        """Each operation that has a word has a line, by the model's too; the others are refused alike."""
        number, word = answered(kobbeskuim.encode, fields)
        found = answered(kobbeskuim.line, fields)
        text = None if number else lines.write(fields, kobbeskuim.LINE_MAX)[2].decode()
        self.assertEqual(found, (number, text), fields)
        if not number:
            self.assertEqual(kobbeskuim.read_line(text), fields)
        return number

    def test_lines_and_their_beginnings(self):
        for text, op in lines.BY_HAND:
            self.assertEqual((kobbeskuim.line(op), self.reads(text)), (text.decode(), (0, op)))
            for reach in range(len(text)):
                self.assertEqual(self.reads(text[:reach]), (Number.NOT_A_LINE, reach))
            for more in line_cases.BEHIND:
                self.reads(text + more)
        for beginning, rest in lines.NO_LINES:
            self.assertEqual(self.reads(beginning + rest), (Number.NOT_A_LINE, len(beginning)))
        self.assertEqual(lines.LONGEST, kobbeskuim.LINE_MAX)

    def test_operations(self):
        found = {self.writes(op) for op in cases.operations()}
        for op in kernel_cases.operations():
            for place, value in product(range(8), harness.NUMBERS):
                found.add(self.writes(model.Operation(*op[:place], value, *op[place + 1 :])))
        for fields in ([], [0] * 7, [0] * 9):
            self.assertEqual(answered(kobbeskuim.line, fields), (Number.BAD_FIELDS, None))
        self.assertEqual(found, {0, 7, 8, 9, 10, 14, 33})

    def test_texts(self):
        maker = line_cases.Maker(cases.Source(13))
        parts = maker.edges, maker.turns, maker.destinations, maker.groups, maker.numbers, maker.names
        for text in chain.from_iterable(part() for part in parts):
            self.reads(text)
            self.reads(maker.changed(text))

    def test_texts_of_every_kind(self):
        text, op = lines.BY_HAND[0]
        for given in (text.decode(), bytearray(text), memoryview(text), array("B", text)):
            self.assertEqual(kobbeskuim.read_line(given), op)
        found = kobbeskuim.read_line(text)
        self.assertEqual([type(field) for field in found], [Family, Size, Form, int, int, int, int, int])
        ended = text.decode() + "\n", len(text)
        for wrong, reach in (("", 0), ("CADD\u00e9", 4), ("CADD Z\ud800", 6), ("\0", 0), ended):
            with self.assertRaises(NotALine) as caught:
                kobbeskuim.read_line(wrong)
            for refused in (caught.exception, pickle.loads(pickle.dumps(caught.exception))):
                self.assertEqual((refused.number, refused.reach), (Number.NOT_A_LINE, reach))
        for wrong in (None, 4, [1, 2]):
            self.assertRaises(TypeError, kobbeskuim.read_line, wrong)
        self.assertRaisesRegex(ValueError, "^field 7 is", kobbeskuim.line, Operation(*op)._replace(index=2**32))


def judged(trace, n):
    """The model's answer, as `answered` tells the module's."""
    number, kind, place, _ = replay.judge(trace, n)
    return number, None if number else (kind, place)


def seen(maker, length):
    """A case of some words, which now and then stop."""
    words = [maker.good() for _ in range(maker.source.below(6))]
    if maker.source.below(4) == 0:
        words.append(maker.source.choose((maker.outside, maker.reserved))())
    return traces.Case(length, maker.flag(), maker.file(4 * length), words)


class Traces(unittest.TestCase):
    def agree(self, trace, n):
        found = answered(kobbeskuim.replay, trace, n)
        self.assertEqual(found, judged(trace, n), (n, len(trace), trace[:40].hex()))
        return found

    def agree_all(self, trace):
        """The kinds of a good trace's verdicts."""
        number, cases = replay.check(trace)
        self.assertEqual(number, 0)
        verdicts = [self.agree(trace, n)[1] for n in range(cases)]
        self.assertEqual(kobbeskuim.replay_all(trace), verdicts)
        for n in (cases, cases + 1, 1024, 2**32, 2**64 - 1):
            self.assertEqual(self.agree(trace, n)[0], Number.NO_CASE)
        return [kind for kind, _ in verdicts]

    def refused(self, number, trace):
        """By this number, also ahead of 22."""
        for n in (0, 1, 2**64 - 1):
            self.assertEqual(self.agree(trace, n)[0], number)
        self.assertEqual(answered(kobbeskuim.replay_all, trace)[0], number)

    def test_the_examples(self):
        for name, _, kinds in traces.EXAMPLES:
            self.assertEqual(self.agree_all((traces.FOLDER / name).read_bytes()), kinds)

    def test_traces_with_damaged_bodies(self):
        maker, kinds = harness.Maker(cases.Source(10)), set()
        below = maker.source.below
        for _, length in product(range(20), LENGTHS):
            trace = bytearray(traces.record([seen(maker, length), seen(maker, 128)]))
            at = traces.places(trace, 0)
            for damages in range(8):  # each alone, and together
                damaged = trace[:]
                if damages & 1:
                    damaged[at.file_after + below(4 * length)] ^= 1 << below(8)
                if damages & 2:
                    damaged[maker.source.choose((at.flag_before, at.flag_after))] ^= 1
                if damages & 4:
                    damaged[maker.source.choose((at.flag_before, at.flag_after)) + below(4)] ^= 1 << 1 + below(7)
                kinds.update(self.agree_all(damaged))
        self.assertEqual(kinds, set(Kind) - {Kind.NO_VERDICT})

    def test_every_byte_of_a_file(self):
        for length in LENGTHS:
            trace = bytearray(traces.record([traces.seen(length, 0, 1)]))
            start = traces.places(trace, 0).file_after
            for place in range(4 * length):
                trace[start + place] ^= 1
                self.assertEqual(kobbeskuim.replay(trace, 0), (Kind.FILE_DIFFERS, place))
                trace[start + place] ^= 1
            self.assertEqual(kobbeskuim.replay(trace, 0), (Kind.AGREES, 0))

    def test_places_of_words(self):
        for last, wanted in ((CADD, (Kind.AGREES, 0)), (RESERVED, (Kind.RESERVED, 4095))):
            trace = traces.record([traces.seen(128, 0, 1, *[CADD] * 4095, last)])
            self.assertEqual(self.agree(trace, 0)[1], wanted)
        for place in range(20):
            trace = traces.record([traces.seen(128, 1, 1, *[CADD] * place, OUTSIDE, RESERVED)])
            self.assertEqual(self.agree(trace, 0)[1], (Kind.OUTSIDE, place))

    def test_numbers_of_the_contents(self):
        two = traces.record([traces.seen(128, 0, 1, CADD), traces.seen(256, 1, 2)])
        edges = {0, 1, 127, 128, 192, 256, 384, 1024, 1025, 2048, 2049, 2176, 4096, 4097, 2**31, 2**32 - 1}
        for at in range(0, 28, 4):
            (number,) = struct.unpack_from("<I", two, at)
            near = {number - 1, number + 1, number + 4, number + 2**16, number + 2**24}
            for other in (edges | near) - {number, -1}:
                trace = replay.changed(two, at, other)
                self.refused(replay.check(trace)[0], trace)
        for length in range(2200):
            trace = replay.changed(two, 4, length)
            self.assertIn(self.agree(trace, 0)[0], {Number.BAD_CONTENTS, Number.BAD_TOTAL} if length != 128 else {0})

    def test_traces_of_every_size_near_the_right_one(self):
        good = traces.record([traces.seen(128, 0, 1, CADD)])
        for size in (*range(20), *range(len(good) - 5, len(good))):
            self.refused(Number.BAD_CONTENTS if size < 16 else Number.BAD_TOTAL, good[:size])
        for more in (1, 4, 65536 - len(good), 65537 - len(good), 2**20):
            self.refused(Number.BAD_TOTAL, good + bytes(more))

    def test_the_longest_trace(self):
        # Its programs stop at once, for the model is slow.
        full = traces.record([traces.seen(2048, 0, 1, *[OUTSIDE] * 4096), traces.seen(2048, 0, 2, *[RESERVED] * 4085)])
        self.assertEqual(len(full), 65536)
        self.assertEqual(self.agree_all(full), [Kind.OUTSIDE, Kind.RESERVED])
        self.refused(Number.BAD_TOTAL, full + b"\0")
        self.refused(Number.BAD_TOTAL, replay.changed(full, 20, 4086) + bytes(4))  # as long as its contents say
        for at, wrong in ((0, 0), (0, 1025), (4, 384), (8, 4097), (24, 0)):
            self.refused(Number.BAD_CONTENTS, replay.changed(full, at, wrong) + b"\0")  # 15 comes first

    def test_the_most_cases(self):
        most = traces.record([traces.seen(128, k % 2, k, CADD) for k in range(62)])
        self.assertEqual(self.agree_all(most), [Kind.AGREES] * 62)
        for count, number in ((63, 16), (1024, 16), (1025, 15)):
            self.refused(number, traces.record([traces.seen(128, 0, 1)] * count))

    def test_a_verdict_has_its_types(self):
        verdict = kobbeskuim.replay(traces.differ(), 0)
        self.assertEqual([type(part) for part in (verdict, *verdict)], [Verdict, Kind, int])


def first_wrong(numbers):
    """Which of these numbers is the first of the contents that is not allowed, else None."""
    count, end = numbers[0], 4 + 12 * numbers[0]
    if not 1 <= count <= replay.MOST_CASES:
        return 0
    for i, number in enumerate(numbers[1 : 1 + 3 * count], 1):
        if not (number == end, number in LENGTHS, number <= 4096)[i % 3]:  # start, length, words
            return i
        if i % 3 == 0:
            end += 8 + 8 * numbers[i - 2] + 4 * numbers[i - 1]
    return None


def due(trace):
    """By the model of replay: each verdict, and at most one refusal, with the place behind the byte that brings it; and
    the number of the end."""
    whole = struct.unpack(f"<{len(trace) // 4}I", trace[: len(trace) & ~3])
    wrong = first_wrong(whole) if whole else None
    if wrong is not None:
        return [(4 * wrong + 4, Number.BAD_CONTENTS)], Number.BAD_CONTENTS
    entries, end = replay.contents(trace)
    told = []
    for entry, stop in zip(entries, (*(entry.start for entry in entries[1:]), end)):
        if stop <= len(trace):
            told.append((stop, replay.verdict(entry.length, replay.body_of(trace, entry))[:2]))
    if entries and len(trace) > end:
        told.append((end + 1, Number.BAD_TOTAL))
    if not entries:
        return told, Number.BAD_CONTENTS
    return told, 0 if len(trace) == end else Number.BAD_TOTAL


def fed(stream, pieces):
    """What the stream tells, as `due` has it, up to a refusal."""
    told, place = [], 0
    for piece in pieces:
        verdict = True
        while piece or verdict:  # an empty piece too, and what is left behind a verdict, also where that is nothing
            try:
                taken, verdict = stream.feed(piece)
            except StreamRefused as refused:
                return [*told, (place + refused.taken, refused.number)]
            place, piece = place + taken, piece[taken:]
            if verdict:
                told.append((place, verdict))
            elif piece:
                raise AssertionError(f"{len(piece)} bytes are left, and nothing was told")
    return told


def in_pieces(trace, size):
    return [trace[at : at + size] for at in range(0, len(trace), size)]


class Streams(unittest.TestCase):
    def stays(self, stream, number):
        """Every later call takes nothing and gives the same answer."""
        for piece in (b"", b"\1", bytes(100_000)):
            if number:
                with self.assertRaises(StreamRefused) as caught:
                    stream.feed(piece)
                self.assertEqual((caught.exception.number, caught.exception.taken), (number, 0))
            else:
                self.assertEqual(stream.feed(piece), (0, None))
            self.assertEqual(answered(list, stream.verdicts(piece)), (number, None if number else []))
            self.assertEqual(answered(stream.end), (number, None))

    def agree(self, trace, *cuts):
        """However it is cut. What is told, and the end."""
        wanted, end = due(trace)
        for pieces in (*cuts, [trace]):
            stream = Stream()
            self.assertEqual(fed(stream, pieces), wanted, ([len(piece) for piece in pieces[:40]], trace[:40].hex()))
            self.assertEqual(answered(stream.end), (end, None))
            self.stays(stream, end)
        return [what for _, what in wanted], end

    def test_the_examples_in_pieces_of_each_size(self):
        for name, _, kinds in traces.EXAMPLES:
            trace = (traces.FOLDER / name).read_bytes()
            verdicts, end = self.agree(trace, *(in_pieces(trace, size) for size in (*range(1, 20), 64, 1000, 4096)))
            self.assertEqual(([kind for kind, _ in verdicts], end), (kinds, 0))
            self.assertEqual(verdicts, kobbeskuim.replay_all(trace))
            self.assertEqual(list(Stream().verdicts(trace)), verdicts)

    def cut(self, source, trace):
        """Somewhere, and at times twice at the same place."""
        places = sorted(source.below(len(trace) + 1) for _ in range(source.below(40)))
        return [trace[start:end] for start, end in zip((0, *places), (*places, len(trace)))]

    def test_cuts_and_sizes_at_random(self):
        maker, ends = harness.Maker(cases.Source(11)), set()
        source = maker.source
        for _, length in product(range(20), LENGTHS):
            trace = bytearray(traces.record([seen(maker, length), seen(maker, 128), seen(maker, 128)]))
            for _ in range(source.below(4)):
                trace[source.below(len(trace))] ^= 1 << source.below(8)
            size = source.choose((len(trace), len(trace) + 1, len(trace) + 70000, source.below(len(trace))))
            trace = bytes(trace.ljust(size, b"\0")[:size])
            ends.add(self.agree(trace, *(self.cut(source, trace) for _ in range(5)))[1])
        self.assertEqual(ends, {0, Number.BAD_CONTENTS, Number.BAD_TOTAL})

    def test_numbers_of_the_contents(self):
        two = traces.record([traces.seen(128, 0, 1, CADD), traces.seen(256, 1, 2)])
        edges = {0, 1, 127, 128, 192, 256, 384, 1024, 1025, 2048, 2049, 2176, 4096, 4097, 2**31, 2**32 - 1}
        for at in range(0, 28, 4):
            (number,) = struct.unpack_from("<I", two, at)
            for other in (edges | {number - 1, number + 1, number + 4, number + 2**16, number + 2**24}) - {-1}:
                trace = replay.changed(two, at, other)
                self.agree(trace, in_pieces(trace[:32], 1) + [trace[32:]])

    def test_every_size_near_the_right_one(self):
        two = traces.record([traces.seen(128, 0, 1, CADD), traces.seen(128, 1, 2)]) + b"\0\0"
        for size in (*range(32), *range(1060, 1068), *range(len(two) - 4, len(two) + 1)):
            self.agree(two[:size], in_pieces(two[:size], 5))

    def test_the_most_bytes_of_one_call(self):
        entries, end = [(2048, 4096)] + [(128, 0)] * 1023, 12292
        contents = replay.numbers(1024)
        for length, words in entries:
            contents += replay.numbers(length, words, end)
            end += 8 + 8 * length + 4 * words
        self.assertEqual(Stream().feed(contents + bytes(50_000)), (45068, Verdict(Kind.OUTSIDE, 0)))

    def test_no_upper_size(self):
        trace = traces.record([traces.seen(128, k % 2, k) for k in range(1024)])
        self.assertEqual(self.agree(trace, in_pieces(trace, 4001)), ([(Kind.AGREES, 0)] * 1024, 0))
        self.assertEqual(list(Stream().verdicts(trace)), [(Kind.AGREES, 0)] * 1024)

    def test_verdicts_stand_where_the_line_breaks(self):
        trace = traces.agree()
        stream = Stream()
        self.assertEqual([verdict.kind for verdict in stream.verdicts(trace[:10_000])], [Kind.AGREES] * 4)
        self.assertEqual(answered(stream.end), (Number.BAD_TOTAL, None))
        given = Stream().verdicts(trace + b"\0")
        self.assertEqual([next(given).kind for _ in range(5)], [Kind.AGREES] * 5)
        with self.assertRaises(StreamRefused) as caught:
            next(given)
        for refused in (caught.exception, pickle.loads(pickle.dumps(caught.exception))):
            self.assertEqual((refused.number, refused.taken), (Number.BAD_TOTAL, len(trace) + 1))

    def test_verdicts_hand_in_no_more_than_is_asked_for(self):
        stream, trace = Stream(), traces.differ()
        first = next(stream.verdicts(trace))
        self.assertEqual([first, *stream.verdicts(trace[traces.places(trace, 0).end :])], kobbeskuim.replay_all(trace))
        stream.end()

    def test_each_stream_has_its_own_state(self):
        streams = [(Stream(), trace, []) for trace in (traces.agree(), traces.differ())]
        for at in range(0, 16552, 331):
            for stream, trace, told in streams:
                told.extend(stream.verdicts(trace[at : at + 331]))
        for stream, trace, told in streams:
            self.assertEqual(told, kobbeskuim.replay_all(trace))
            stream.end()

    def test_pieces_of_every_kind(self):
        trace = traces.differ()
        wanted = kobbeskuim.replay_all(trace)
        lent = bytearray(b"\0" + trace + b"\0")
        for given in (bytearray(trace), memoryview(trace), array("I", trace), memoryview(lent)[1:-1]):
            self.assertEqual(list(Stream().verdicts(given)), wanted)
            self.assertEqual(Stream().feed(given), (traces.places(trace, 0).end, wanted[0]))
            self.assertEqual(bytes(given), trace)  # it is not written to
        for wrong in ("text", 4, None, [1, 2]):
            self.assertRaises(TypeError, Stream().feed, wrong)
            self.assertRaises(TypeError, list, Stream().verdicts(wrong))

    def test_what_is_told_has_its_types(self):
        told = Stream().feed(traces.differ())
        found = [type(part) for part in (told, *told, *told.verdict)]
        self.assertEqual(found, [kobbeskuim.Fed, int, Verdict, Kind, int])


class Arguments(unittest.TestCase):
    """What C cannot take is refused before the call, and the file stays as it was."""

    def test_numbers_of_too_many_bits(self):
        file, op = bytearray(512), Operation(Family.CADD, Size.B, turns=1)
        for wrong in (-1, -(2**64), 2**64, 2**64 + 128):
            for call in (kobbeskuim.run, kobbeskuim.register):
                self.assertRaisesRegex(ValueError, f"^length is {wrong},.*2.64", call, wrong, file, 0)
            self.assertRaisesRegex(ValueError, "^register is", kobbeskuim.register, 128, file, wrong)
            self.assertRaisesRegex(ValueError, f"^case is {wrong},.*2.64", kobbeskuim.replay, file, wrong)
        for wrong in (-1, 2**32, 2**32 + CADD, 2**64 + CADD):
            self.assertRaisesRegex(ValueError, f"^word 1 is {wrong},.*2.32", kobbeskuim.run, 128, file, [CADD, wrong])
            self.assertRaisesRegex(ValueError, "^word is", kobbeskuim.decode, wrong)
            self.assertRaisesRegex(ValueError, "^field 7 is", kobbeskuim.encode, op._replace(index=wrong))
        self.assertEqual(file, bytes(512))

    def test_types(self):
        file = bytearray(512)
        for call, *arguments in (
            (kobbeskuim.run, 128.0, file, []), (kobbeskuim.run, "128", file, []), (kobbeskuim.run, 128, file, [1.0]),
            (kobbeskuim.run, 128, file, "word"), (kobbeskuim.run, 128, file, None), (kobbeskuim.run, 128, file, 0),
            (kobbeskuim.run, 128, 512, []), (kobbeskuim.run, 128, "file", []), (kobbeskuim.run, 128, None, []),
            (kobbeskuim.register, 128, memoryview(bytearray(1024))[::2], 0), (kobbeskuim.register, 128, 512, 0),
            (kobbeskuim.register, 128, file, 1.0), (kobbeskuim.decode, 1.0), (kobbeskuim.decode, None),
            (kobbeskuim.encode, None), (kobbeskuim.encode, [1.0]),
            (kobbeskuim.listing, "text"), (kobbeskuim.listing, 4), (kobbeskuim.replay, "trace", 0),
            (kobbeskuim.replay, 4, 0), (kobbeskuim.replay, file, 1.0), (kobbeskuim.replay_all, None),
        ):  # fmt: skip
            self.assertRaises(TypeError, call, *arguments)
        for wrong in (bytes(512), b"", memoryview(file).toreadonly(), memoryview(bytearray(1024))[::2]):
            self.assertRaisesRegex(TypeError, "^file .*: lend a bytearray", kobbeskuim.run, 128, wrong, [])

    def test_buffers_of_every_kind(self):
        words = iter([SQCADD_Z0_Z1] * 9), (SQCADD_Z0_Z1,) * 9, array("I", [SQCADD_Z0_Z1] * 9)
        whole = memoryview(bytearray(b"\1" * 514))
        for file, program in zip((array("h", [257] * 256), whole[1:513], bytearray(b"\1" * 512)), words):
            self.assertEqual(kobbeskuim.run(128, file, program, True), (9, True))
            wanted = execution.run(128, b"\1" * 512, True, [SQCADD_Z0_Z1] * 9).file
            self.assertEqual(bytes(file), wanted)
            self.assertEqual(bytes(kobbeskuim.register(128, file, 0)), wanted[:16])
        self.assertEqual((whole[0], whole[513]), (1, 1))

    def test_traces_of_every_kind(self):
        trace = traces.differ()
        wanted = kobbeskuim.replay_all(trace)
        lent = bytearray(b"\0" + trace + b"\0")
        for given in (bytearray(trace), memoryview(trace), array("I", trace), memoryview(lent)[1:-1]):
            self.assertEqual(kobbeskuim.replay_all(given), wanted)
            self.assertEqual([kobbeskuim.replay(given, n) for n in range(len(wanted))], wanted)
            self.assertEqual(bytes(given), trace)  # it is not written to

    def test_nothing_at_all(self):
        for empty in (bytearray(), array("I"), memoryview(bytearray(4))[4:]):
            self.assertEqual(answered(kobbeskuim.run, 0, empty, [])[0], Number.BAD_LENGTH)
            self.assertEqual(answered(kobbeskuim.run, 128, empty, [])[0], Number.BAD_SIZE)
            self.assertEqual(answered(kobbeskuim.register, 128, empty, 0)[0], Number.BAD_SIZE)
            self.assertEqual(kobbeskuim.listing(empty), "TOTAL 0\n")
            self.assertEqual(answered(kobbeskuim.replay, empty, 0)[0], Number.BAD_CONTENTS)
            self.assertEqual(answered(kobbeskuim.replay_all, empty)[0], Number.BAD_CONTENTS)

    def test_the_file_is_free_where_a_refusal_is_caught(self):
        for call in (kobbeskuim.run, kobbeskuim.register):
            file = bytearray(511)
            try:
                call(128, file, [0] if call is kobbeskuim.run else 0)
            except Refused:
                file.append(0)  # BufferError while any part of it is held
            self.assertEqual(len(file), 512)

    def test_exceptions(self):
        with self.assertRaises(Stopped) as caught:
            kobbeskuim.run(128, bytearray(512), [CADD, RESERVED], True)
        for stopped in (caught.exception, pickle.loads(pickle.dumps(caught.exception))):
            self.assertEqual(str(stopped), "5, reserved word: at word 1, 2F00F000")
            self.assertIs(stopped.number, Number.RESERVED)
            self.assertEqual((stopped.done, stopped.qc, stopped.word), (1, True, RESERVED))


class Header(unittest.TestCase):
    """The module has what include/kobbeskuim.h has: all of it, and nothing else."""

    text = (ROOT / "include/kobbeskuim.h").read_text()

    def test_constants(self):
        defined = {name: int(value) for name, value in re.findall(r"^#define KOB_(\w+) (\d+)\b", self.text, re.M)}
        # Pairs, since three kinds of verdict are numbers too.
        found = {(name, value) for name, value in vars(kobbeskuim).items() if name.isupper() and type(value) is int}
        found.update((member.name, member.value) for names in (Number, Kind, Family, Form) for member in names)
        found.update((f"SIZE_{size.name}", size.value) for size in Size)
        found.update((field.upper(), place) for place, field in enumerate(Operation._fields))
        found.add(("FIELDS", len(Operation._fields)))
        version = (f"VERSION_{part}" for part in ("MAJOR", "MINOR", "PATCH"))
        found.update(zip(version, map(int, kobbeskuim.VERSION.split("."))))
        self.assertEqual(found, set(defined.items()))
        self.assertEqual([kobbeskuim.VERSION], re.findall(r'^#define KOB_VERSION "(.*)"', self.text, re.M))

    def test_texts(self):
        texts = dict(re.findall(r'case KOB_(\w+):\s*return "([^"]*)"', self.text))
        self.assertEqual({number.name: number.text for number in Number}, texts)
        # Those of a run are what 'kob run' prints.
        self.assertEqual(report.MEANING, {n: Number(n).text for n in report.MEANING})

    def test_calls(self):
        types = {"size_t": ctypes.c_size_t, "bool": ctypes.c_bool}
        types.update((f"uint{n}_t", getattr(ctypes, f"c_uint{n}")) for n in (8, 32, 64))

        def type_of(argument):
            name = argument.replace("const ", "").split()[0]
            return ctypes.POINTER(types[name]) if "*" in argument else types[name]

        declared = re.findall(r"^(\w+) (kob_\w+)\(([^)]*)\);", self.text, re.M)
        found = {name: (types[answer], *map(type_of, rest.split(","))) for answer, name, rest in declared}
        self.assertEqual(kobbeskuim._CALLS, found)


class Loading(unittest.TestCase):
    """Where the library is found, in a folder with a space in its name."""

    def setUp(self):
        folder = tempfile.TemporaryDirectory()
        self.addCleanup(folder.cleanup)
        self.prefix = Path(folder.name).resolve() / "a prefix"

    def put(self, module, library=None, content=None):
        """The module in its folder, and the library, or a file with this content, in its own."""
        self.module = self.prefix / module
        self.module.mkdir(parents=True)
        shutil.copy(MODULE, self.module)
        if library:
            library = self.prefix / library
            library.parent.mkdir(parents=True)
            library.symlink_to(LIBRARY) if content is None else library.write_text(content)
        return library

    def loaded(self, **environment):
        """What the import says: the library, or the last line of its fault."""
        given = {**os.environ, "KOBBESKUIM_LIBRARY": "", "PYTHONPATH": str(self.module), **environment}
        command = [sys.executable, "-B", "-c", "import kobbeskuim; print(kobbeskuim._library._name)"]
        done = subprocess.run(command, env=given, stdout=subprocess.PIPE, stderr=subprocess.PIPE, cwd=self.prefix)
        return (done.stdout or done.stderr).decode().splitlines()[-1]

    def test_in_a_tree(self):
        library = self.put("bindings/python", f"target/sharedlib/{SONAME}")
        self.assertEqual(self.loaded(), str(library))

    def test_installed(self):
        library = self.put("share/kobbeskuim/python", f"lib/{SONAME}")
        self.assertEqual(self.loaded(), str(library))

    def test_by_the_loader(self):
        library = self.put("elsewhere", f"somewhere/{SONAME}")
        self.assertEqual(self.loaded(LD_LIBRARY_PATH=str(library.parent)), SONAME)

    def test_by_the_variable(self):
        library = self.put("bindings/python", f"target/sharedlib/{SONAME}", "no library")
        self.assertEqual(self.loaded(KOBBESKUIM_LIBRARY=str(LIBRARY)), str(LIBRARY))
        (self.prefix / "named.so").symlink_to(LIBRARY)
        self.assertEqual(self.loaded(KOBBESKUIM_LIBRARY="named.so"), str(self.prefix / "named.so"))
        self.refused(str(library), self.loaded())  # a broken one is told, and no other taken in its place

    def refused(self, name, line):
        self.assertTrue(line.startswith("ImportError: kobbeskuim: the shared library cannot be loaded: "), line)
        for part in (name, "./kob staticlib", "./kob install PREFIX", "KOBBESKUIM_LIBRARY"):
            self.assertIn(part, line)

    def test_not_there(self):
        library = self.put("elsewhere", f"somewhere/{SONAME}", "no library")
        self.refused(SONAME, self.loaded(LD_LIBRARY_PATH=str(library.parent)))
        self.refused("missing.so", self.loaded(KOBBESKUIM_LIBRARY="missing.so"))

    def test_another_library(self):
        self.put("elsewhere")
        self.refused("undefined symbol: kob_run", self.loaded(KOBBESKUIM_LIBRARY=_ctypes.__file__))


def load_tests(_loader, tests, _pattern):
    tests.addTests(doctest.DocTestSuite(kobbeskuim))
    tests.addTests(doctest.DocFileSuite(str(ROOT / "docs/python.md"), module_relative=False))
    return tests


if __name__ == "__main__":
    unittest.main()
