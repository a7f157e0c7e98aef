#!/usr/bin/env python3
"""The differential harness: the static library against two programs that share nothing with it.

    tests/harness.py [--seconds S] [--seed N] [--words] [--archive FILE] [--include FOLDER]

For S seconds (default 60), side by side: tests/harness.c holds the archive against bench/plain.c at
full speed, and demand 3, the states of streams and lines against the archive itself; this script asks the
archive for answers and holds them against the independent model. All cases are seeded, valid and
damaged. Behind them every line that there is, written, read back and held against the model's. --words
also decodes every one of the 2^32 words, which takes a minute or so more.

The archive is target/staticlib/libkobbeskuim.a unless told otherwise. The last line is
'harness: N cases, M differences'; the exit status is 0 only if M is 0.
"""

import argparse
import struct
import subprocess
import sys
import tempfile
import time
from pathlib import Path

ROOT = Path(__file__).resolve().parent.parent
sys.dont_write_bytecode = True  # the repository stays as it was
sys.path.insert(0, str(ROOT / "reference"))
import execution
import kernel_cases
import lanes
import line_cases
import lines
import model
import replay
import run_cases
import stream
import traces
from cases import Source
from execution import MOST_WORDS, MULTIPLES
from model import ADDS, DESTRUCTIVE, Operation
from replay import MOST_CASES

TOLD = 10  # differences told in full
BATCH = 100  # cases for one start of the driver
NUMBERS = (0, 1, 2, 3, 4, 5, 7, 8, 15, 16, 31, 32, 255, 256, 2**31, 2**32 - 1)  # either side of each limit
PATTERN = 0xA5  # what a lent buffer holds before the call
END = 2**32 - 1  # among the sizes of a stream's pieces
KEPT = b"\1"  # nothing outside of the lent parts was written

# Numbers of the C interface that document 01 has none for.
BAD_PART, NO_OPERATION, NO_ROOM = 32, 33, 2**64 - 1


# ---- what each call must answer: the call as bytes for the driver, and the driver's answer


def call(kind, *numbers, data=b""):
    return kind + struct.pack("<4Q", *(*numbers, 0, 0, 0)[:4]) + data


def packed(*words):
    return struct.pack(f"<{len(words)}I", *words)


def run_case(length, file, flag, words):
    ran = execution.run(length, file, flag, words)
    answer = ran.number | ran.flag << 8 | ran.done << 16
    asked = call(b"x", length, flag, len(file), len(words), data=file + packed(*words))
    return asked, struct.pack("<Q", answer) + ran.file


def replay_case(trace, n):
    number, kind, place, _ = replay.judge(trace, n)
    asked = call(b"t", len(trace), n, data=trace)
    return asked, struct.pack("<Q", number | kind << 8 | place << 16)


def stream_case(trace, sizes, behind):
    """Pieces of these sizes until all of the trace is taken or the stream is over, then those behind, the last
    first. What a call does not take is handed in again."""
    line, at, calls, wanted = stream.Stream(), 0, [], b""
    while behind:
        live = line.over is None and at < len(trace)
        size = next(sizes) if live else behind.pop()
        piece = trace[at : at + size]
        taken, number, kind, place = (0, line.end(), 0, 0) if size == END else line.feed(piece)
        at += taken
        calls.append(size)
        wanted += struct.pack("<Q", number | kind << 8 | place << 16 | taken << 32)
    return call(b"s", len(trace), len(calls), data=trace + packed(*calls)), wanted


def decode_case(word, count):
    answer = model.decode(word)
    left = bytes([PATTERN] * 4 * count)
    if count != 8:
        number = BAD_PART
    elif isinstance(answer, Operation):
        number, left = 0, packed(*answer)
    else:
        number = execution.RESERVED if answer == model.RESERVED else execution.OUTSIDE
    return call(b"d", word, count), struct.pack("<Q", number) + left


def names_operation(fields):
    """Whether family, size, form and turns are there, and what the family does not use is 0."""
    op = Operation(*fields)
    if op.family >= len(model.NAMES) or op.size > 3 or op.form not in model.forms_of(op.family):
        return False
    if op.turns > (3 if model.has_turns(op.family) else 0):
        return False
    limits = model.limits_of(op.family, op.size)
    return not any(value for value, limit in zip(op[4:], limits) if limit is None)


def encode_case(fields):
    if len(fields) != 8:
        number, word = BAD_PART, 0
    elif not names_operation(fields):
        number, word = NO_OPERATION, 0
    else:
        number, word = model.encode(Operation(*fields))
    return call(b"e", len(fields), data=packed(*fields)), packed(number, word)


def line_write_case(fields, room):
    length, text = 0, b""
    if len(fields) != 8:
        number = BAD_PART
    elif not names_operation(fields):
        number = NO_OPERATION
    else:
        number, length, text = lines.write(Operation(*fields), room)
    left = text + bytes([PATTERN] * (room - length))
    asked = call(b"w", len(fields), room, data=packed(*fields))
    return asked, struct.pack("<Q", number | length << 32) + left + packed(*fields) + KEPT


def line_read_case(text, count):
    number, shared, left = BAD_PART, 0, bytes([PATTERN] * 4 * count)
    if count == 8:
        number, answer = lines.read(text)
        if number == 0:
            left = packed(*answer)
        else:
            shared = answer
    asked = call(b"i", len(text), count, data=text)
    return asked, struct.pack("<Q", number | shared << 32) + left + text + KEPT


def register_case(length, size, n):
    number, answer = execution.refusal_of(length, size), 0
    if number == 0 and n > 31:
        number = execution.NO_REGISTER
    if number == 0:
        answer = n * (length // 8) << 16 | length // 8 << 40
    return call(b"r", length, size, n), struct.pack("<Q", number | answer)


def list_case(data, room):
    text, answer = model.listing(data), NO_ROOM
    left = bytes([PATTERN] * room)
    if room >= 21 * (len(data) // 4) + 32:
        answer, left = len(text), text + left[len(text) :]
    return call(b"l", len(data), room, data=data), struct.pack("<Q", answer) + left


# ---- cases


class Maker(run_cases.Maker):
    """Endless cases, over the words that the stored cases are made of."""

    def __init__(self, source, *families):
        super().__init__(source, *families)
        self.lines = line_cases.Maker(source)
        # Bytes to cut files from, for each width of an element.
        self.pools = [self.pool(bits) for bits in (8, 16, 32, 64)]

    def pool(self, bits):
        edges = kernel_cases.edges(bits) + [2**k for k in range(bits - 1)]
        made = [
            self.source.choose(edges) if self.source.below(2) else self.random(bits)
            for _ in range(2**18 // bits)
        ]
        return lanes.data_of(made, bits)

    def random(self, bits):
        return lanes.wrap(self.source.below(2**32) << 32 | self.source.below(2**32), bits)

    def file(self, size):
        pool = self.source.choose(self.pools)
        start = self.source.below((len(pool) - size) // 8 + 1) * 8
        return pool[start : start + size]

    def flag(self):
        return bool(self.source.below(2))

    # -- one case of a kind

    def words(self, count):
        """Some words; every third program ends in the middle."""
        words = [self.good() for _ in range(count)]
        if self.source.below(3) == 0:
            stop = self.outside() if self.source.below(2) else self.reserved()
            words.insert(self.source.below(count + 1), stop)
        return words

    def program(self):
        """A program, a few of them long."""
        source = self.source
        length, count = self.length(), source.below(10)
        if source.below(400) == 0:
            length, count = 128, MOST_WORDS - source.below(3)
        return run_case(length, self.file(4 * length), self.flag(), self.words(count))

    def recorded(self, cases):
        """The trace of cases of these lengths and words."""
        made = (traces.Case(length, self.flag(), self.file(4 * length), words) for length, words in cases)
        return traces.record(list(made))

    def trace(self):
        """As the model records it, then damaged: a byte, a number, or its end. And its number of cases."""
        source = self.source
        cases = 1 + source.below(3)
        trace = bytearray(self.recorded([(self.length(), self.words(source.below(20))) for _ in range(cases)]))
        at = traces.places(trace, source.below(cases))
        start = source.choose((*range(0, 4 + 12 * cases, 4), at.flag_before, at.flag_after))
        kind = source.below(7)
        if kind == 0:
            trace[source.below(len(trace))] ^= 1 << source.below(8)
        elif kind == 1:
            trace[start : start + 4] = packed(source.choose(NUMBERS))
        elif kind == 2:
            trace[start] = (trace[start] + source.choose((-4, -1, 1, 4))) % 256
        elif kind == 3:
            trace[source.choose(range(at.file_after, at.end))] ^= 1 << source.below(8)
        elif kind == 4:
            trace = (trace + b"\1")[: source.choose((start, at.end - 1, len(trace) - 4, len(trace) + 1))]
        elif kind == 5:
            trace[at.flag_after] ^= 1
        return bytes(trace), cases

    def replaying(self):
        trace, cases = self.trace()
        n = self.source.below(cases) if self.source.below(6) else self.source.choose((cases, 2**32, 2**64 - 1))
        return replay_case(trace, n)

    def sizes(self, *most):
        """Of pieces, without end, each below one of these numbers."""
        while True:
            yield self.source.below(self.source.choose(most))

    def behind(self):
        """The calls when all is taken or refused, the last first: pieces and ends, mostly behind an end."""
        return [self.source.choose((END, 0, 1, 9)) for _ in range(3)] + [self.source.choose((END, END, END, 0))]

    def streaming(self):
        """A trace in pieces."""
        return stream_case(self.trace()[0], self.sizes(1, 2, 4, 16, 600, 4096), self.behind())

    def long(self):
        """The longest case, and as many cases as the contents may name; whole, and a byte longer or shorter."""
        longest = self.recorded([(128, self.words(3)), (2048, [self.good() for _ in range(MOST_WORDS)])])
        many = self.recorded([(128, self.words(1)) for _ in range(MOST_CASES)])
        for trace in (longest, many):
            for changed in (trace, self.source.choose((trace[:-1], trace + b"\0"))):
                yield "long", *stream_case(changed, self.sizes(1, 16, 2000, 2000, 65536, 65536), self.behind())

    def coinciding_word(self):
        """Any operation, its registers one in some way."""
        op = self.source.choose(self.operations)
        one, other = self.source.below(8), self.source.below(8)
        first = 0 if op.family in DESTRUCTIVE else self.source.choose((one, other))
        start = one - one % model.step_of(op.family, op.form)
        word = self.word(op._replace(destination=start, first=first, second=self.source.choose((one, other))))
        length = self.length()
        return run_case(length, self.file(4 * length), self.flag(), [word])

    def aimed_word(self):
        """One word, its lanes at ties and bounds in every segment."""
        op, length = self.source.choose(self.operations), self.length()
        maker = kernel_cases.Maker(self.source, op)
        makers = [maker.bounds, maker.bounds, maker.mixed, maker.mixed if op.family in ADDS else maker.ties]
        c, n, m = b"", b"", b""
        for _ in range(length // 128):
            made = [lanes.data_of(x, maker.bits) for x in self.source.choose(makers)()]
            c, n, m = c + made[0], n + made[1], m + made[2]
        rest = self.file(29 * (length // 8))
        start = 2 - 2 % model.step_of(op.family, op.form)
        word = self.word(op._replace(destination=start, first=0 if op.family in DESTRUCTIVE else 1))
        return run_case(length, m + n + c + rest, self.flag(), [word])

    def damaged(self):
        """A length, a size or a program out of bounds, or several."""
        source = self.source
        length = self.length()
        if source.below(2):
            wrong = (0, 1, 127, 129, 192, 2047, 2049, 2176, 4096, 2**32, 2**63, 2**64 - 128)
            length = source.choose(wrong + run_cases.NOT_POWERS)
        size = 4 * length
        if source.below(2) or size > run_cases.MOST_BYTES:
            size = max(0, min(size, 8192) + source.choose((-512, -16, -1, 0, 1, 16, 128)))
        words = [source.choose((self.good, self.outside, self.reserved))() for _ in range(source.below(3))]
        if source.below(20) == 0:
            words = (words or [self.good()]) * (MOST_WORDS + 1)
        return run_case(length, self.file(size), self.flag(), words)

    def decoding(self):
        (word,) = self.source.mix(1)
        count = 8 if self.source.below(8) else self.source.below(12)
        return decode_case(self.outside() if self.source.below(4) == 0 else word, count)

    def fields(self):
        """Of an operation; some at an edge, and now and then too few or too many."""
        source = self.source
        fields = [*source.within(source.choose(self.operations)[:4])]
        for _ in range(source.below(3)):
            fields[source.below(8)] = source.choose(NUMBERS)
        if source.below(20) == 0:
            fields = fields[: source.below(8)] if source.below(2) else fields + [0]
        return fields

    def encoding(self):
        return encode_case(self.fields())

    def line_writing(self):
        """Rooms about the length that the line has, if there is one."""
        fields, room = self.fields(), self.source.below(lines.LONGEST + 2)
        if self.source.below(4) and len(fields) == 8 and names_operation(fields):
            _, length, _ = lines.write(Operation(*fields), lines.LONGEST)
            room = max(0, length + self.source.choose((-1, 0, 0, 1, 64)))
        return line_write_case(fields, room)

    def line_reading(self):
        """A line, as it is or with some bytes changed, and more of them behind it or cut off."""
        source, text = self.source, self.lines.random()
        for _ in range(source.choose((0, 1, 1, 2))):
            text = self.lines.changed(text)
        if source.below(4) == 0:
            text = source.choose((text[: source.below(len(text) + 1)], text + text, text + b"\n", bytes(1000) + text))
        return line_read_case(text, 8 if source.below(10) else source.below(12))

    def asking(self):
        source = self.source
        length = source.choose((0, 127, 192, 2176, 4096, 2**64 - 128) + tuple(MULTIPLES))
        size = 4 * length + source.choose((-1, 0, 0, 0, 0, 1))
        n = source.choose((0, 1, 30, 31, 32, 2**32, 2**64 - 1))
        return register_case(length, max(0, size) % 2**64, n)

    def text(self):
        source = self.source
        words = list(source.mix(source.below(12)))
        data = packed(*words) + self.file(source.below(4))
        return list_case(data, 21 * len(words) + 32 + source.choose((-32, -1, 0, 0, 1, 64)))

    def batch(self):
        """Every kind of case; those of the run more often, aimed ones most."""
        kinds = [self.program] * 5 + [self.coinciding_word] * 3 + [self.aimed_word] * 8 + [self.damaged]
        kinds += [self.replaying, self.streaming, self.line_writing, self.line_reading] * 2
        kinds += [self.decoding, self.encoding, self.asking, self.text]
        for _ in range(BATCH):
            kind = self.source.choose(kinds)
            yield kind.__name__, *kind()


# ---- the comparisons


def against_model(program, seed, end):
    """The cases and differences until the time is over."""
    maker, cases, differences = Maker(Source(seed)), 0, 0
    while cases == 0 or time.monotonic() < end:
        batch = list(maker.batch() if cases else maker.long())
        asked = b"".join(asked for _, asked, _ in batch)
        done = subprocess.run([program, "answer"], input=asked, stdout=subprocess.PIPE)
        found = done.stdout
        if done.returncode:
            print(f"harness: the driver ended with status {done.returncode}")
            differences += 1
        for name, asked, wanted in batch:
            got, found = found[: len(wanted)], found[len(wanted) :]
            cases += 1
            if got != wanted:
                differences += 1
                if differences <= TOLD:
                    differing = places(got, wanted)
                    at = differing[0] // 8 * 8  # of a stream, that of the first call that differs
                    print(f"harness: {name}, case {cases}: {told(asked)}")
                    print(f"    from byte {at} on {got[at : at + 8].hex()}, not {wanted[at : at + 8].hex()}; ", end="")
                    print(f"bytes {differing[:8]} differ")
    return cases, differences


def against_lines(program):
    """Every line as the archive writes it against the model's; the archive has read each back."""
    process, differences = subprocess.Popen([program, "lines"], stdout=subprocess.PIPE), 0
    for place, wanted in enumerate(lines.places()):
        got = process.stdout.readline()
        if got != wanted + b"\n":
            differences += 1
            if differences <= TOLD:
                print(f"harness: line {place}: {got}, not {wanted}")
    cases, found = ended(process)
    if cases != lines.LINES:
        print(f"harness: {cases} lines, not {lines.LINES}")
        differences += 1
    return cases, differences + found


def told(asked):
    """A call: its kind and its numbers, of a run the first words, and of a line its text or the fields."""
    numbers = struct.unpack_from("<4Q", asked, 1)
    words = ""
    if asked[:1] == b"x":
        words = "".join(f" {word:08X}" for (word,) in struct.iter_unpack("<I", asked[33 + numbers[2] :][:32]))
    elif asked[:1] == b"i":
        words = f" {asked[33:]}"
    elif asked[:1] == b"w":
        words = f" {struct.unpack(f'<{numbers[0]}I', asked[33:])}"
    return f"{asked[:1].decode()} {numbers}{words}"


def places(got, wanted):
    return [at for at in range(len(wanted)) if got[at : at + 1] != wanted[at : at + 1]]


def ended(process):
    """The cases and differences that the C half tells of; one that does not reach its end differs."""
    lines = process.communicate()[0].splitlines()
    parts = lines[-1].split() if lines else []
    if process.returncode not in (0, 1) or len(parts) != 4:
        print(f"harness: the C half ended with status {process.returncode}")
        return 0, 1
    return int(parts[0]), int(parts[2])


def main():
    raw = argparse.RawDescriptionHelpFormatter
    parser = argparse.ArgumentParser(description=__doc__, usage=argparse.SUPPRESS, formatter_class=raw)
    parser.add_argument("--seconds", type=float, default=60)
    parser.add_argument("--seed", type=int, default=1)
    parser.add_argument("--words", action="store_true")
    parser.add_argument("--archive", type=Path, default=ROOT / "target/staticlib/libkobbeskuim.a")
    parser.add_argument("--include", type=Path, default=ROOT / "include")
    given = parser.parse_args()
    if not given.archive.exists():
        sys.exit(f"harness: there is no {given.archive}: ./kob staticlib builds it")
    with tempfile.TemporaryDirectory() as folder:
        program = Path(folder) / "harness"
        sources = [ROOT / "tests/harness.c", ROOT / "bench/plain.c", given.archive]
        flags = ["-std=gnu11", "-O3", "-Wall", "-Wextra", f"-I{given.include}", f"-I{ROOT / 'bench'}"]
        subprocess.run(["gcc", *flags, *sources, "-o", program], check=True)

        lines.ordered()  # before the time begins
        end = time.monotonic() + given.seconds
        command = [program, "fuzz", str(given.seed), str(given.seconds)]
        beside = subprocess.Popen(command, stdout=subprocess.PIPE, text=True)
        cases, differences = against_model(program, given.seed, end)
        print(f"harness: {cases} calls against the model", flush=True)
        parts = [(cases, differences), ended(beside), against_lines(program)]
        print(f"harness: {parts[-1][0]} lines, written and read back", flush=True)
        if given.words:
            parts.append(ended(subprocess.Popen([program, "words"], stdout=subprocess.PIPE, text=True)))
    cases, differences = map(sum, zip(*parts))
    print(f"harness: {cases} cases, {differences} differences")
    sys.exit(1 if differences else 0)


if __name__ == "__main__":
    main()
