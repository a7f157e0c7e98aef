"""The stored cases of the program line_cases: texts that are read, and operations that are written.

A record begins with little-endian numbers of 4 bytes: the kind, and then a text's length, with its bytes
behind it (kind 1); or the room and the eight fields of an operation in the model's order (kind 2). The line
of a text has its length, the number, and the fields of the operation or the length of the longest
beginning. That of an operation has the room, the number, the length and all of a buffer of 64 bytes, whose
first ones are the room. Before the call each holds a tilde, which no line has.
"""

import re
import struct
from itertools import combinations, product

import lines
import model
from lines import BY_HAND, LONGEST, NO_LINES
from model import ADDS, FOUR, GROUPS, TWO

READ, WRITE = 1, 2  # the kinds
MOST_TEXT, BUFFER, UNTOUCHED = 1024, 64, b"~"
NUMBERS = (0, 7, 8, 9, 10, 15, 16, 31)
MNEMONICS = tuple(dict.fromkeys(name.removesuffix("-I").encode("ascii") for name in model.NAMES))
OTHER_NAMES = (b"FCMLA", b"CMLA-I", b"SQRDCMLAH-I", b"SQRDMULH", b"SQDMULL", b"ADD", b"cadd", b"")
WRONG_NUMBERS = (b"", b"00", b"32", b"99", b"256", b"4294967296", b"-1", b"1 ")
DEGREES = (b"", b"0", b"00", b"1", b"45", b"9", b"90", b"090", b"180", b"270", b"271", b"360", b"450", b"-90")
BEHIND = (b" ", b"\n", b"\r\n", b"\0", b"]", b",", b", #90", b"0", b"[0]", b"//", b"\xff")
EXAMPLES = [text for text, _ in BY_HAND]


def read_case(text):
    number, answer = lines.read(text)
    told = " ".join(map(str, answer)) if number == model.DONE else answer
    return struct.pack("<2I", READ, len(text)) + text, f"R {len(text)} {number} {told}\n"


def write_case(op, room):
    number, length, text = lines.write(op, room)
    left = (text + UNTOUCHED * (BUFFER - length)).decode("ascii")
    return struct.pack("<10I", WRITE, room, *op), f"W {room} {number} {length} {left}\n"


def replaced(text, start, end, new):
    return text[:start] + new + text[end:]


class Maker:
    def __init__(self, source):
        self.source = source
        self.alphabet = bytes(sorted(set(b"".join(EXAMPLES))))
        # Each family, size and form with one of its rotations, and each with every one.
        self.kinds = [kind for kind, _ in lines.blocks()]
        self.shapes = [kind for kind in self.kinds if kind[3] == model.turns_of(kind[0])[0]]

    def turned(self, kind):
        return *kind[:3], self.source.choose(model.turns_of(kind[0]))

    # -- texts

    def edges(self):
        """Each register and the index at its edges, and past its limit."""
        for shape in self.shapes:
            for name, limit in model.used(shape):
                for value in sorted({*NUMBERS, limit, limit + 1, 10 * limit}):
                    yield lines.line(self.source.within(self.turned(shape))._replace(**{name: value}))

    def turns(self):
        """Every kind, with the rotations of no family too."""
        for kind in self.kinds:
            yield lines.line(self.source.within(kind))
        for shape in self.shapes:
            text = lines.line(self.source.within(shape))
            if b"#" in text:
                yield from (text[: text.index(b"#") + 1] + one for one in DEGREES)

    def destinations(self):
        """A destination that is named twice, and otherwise the second time."""
        some = (0, 1, 2, 3, 9, 10, 11, 19, 20, 29, 30, 31, 32)
        for one, other in product(some, some):
            pattern = lines.pattern_of(*self.turned((self.source.choose(ADDS), self.source.below(4), 0, 0)))
            yield pattern % (one, other, self.source.below(32))

    def groups(self):
        """A group that starts anywhere and ends anywhere behind, and is another the second time."""
        for start, more in product((0, 1, 2, 3, 4, 8, 9, 10, 12, 27, 28, 29, 30, 31), range(5)):
            kind = self.source.choose(GROUPS), self.source.below(4), self.source.choose((TWO, FOUR)), 0
            others = (start, start + more), (start, start + 1), (start, start + 3), (start + 2, start + 2 + more)
            for again in others:
                yield lines.pattern_of(*kind) % (start, start + more, *again, self.source.below(17))

    def numbers(self):
        """Each number of the examples with a zero in front, and others in its place."""
        for text in EXAMPLES:
            for found in re.finditer(rb"\d+", text):
                for new in (b"0" + found[0], *WRONG_NUMBERS):
                    yield replaced(text, *found.span(), new)

    def letters(self):
        """Each letter of a register, a size or an arrangement changed alone."""
        for text in EXAMPLES:
            start = text.index(b" ")
            for found in re.finditer(rb"[A-Z]", text[start:]):
                for new in b"BHSDZVQ":
                    yield replaced(text, start + found.start(), start + found.end(), bytes([new]))

    def names(self):
        """The operands of one family behind the name of another."""
        for text, name in product(EXAMPLES, MNEMONICS + OTHER_NAMES):
            yield replaced(text, 0, text.index(b" "), name)

    def other(self, byte):
        """Another byte: near it, of the alphabet, or any."""
        near = self.source.choose((byte ^ 32, byte + 1, byte - 1, byte | 128, 0))
        any_byte = self.source.below(256)
        return bytes([self.source.choose((near, self.source.choose(self.alphabet), any_byte)) % 256])

    def changed(self, text):
        """One byte changed or put in."""
        at = self.source.below(len(text))
        return replaced(text, at, at + self.source.below(2), self.other(text[at]))

    def random(self):
        return lines.line(self.source.within(self.source.choose(self.kinds)))

    def bytes(self):
        """One byte changed, put in, doubled or left out, and all beginnings."""
        yield from (bytes([byte]) for byte in range(256))
        for text in EXAMPLES:
            for at in range(len(text)):
                yield from (replaced(text, at, at + 1, self.other(text[at])) for _ in range(2))
                yield replaced(text, at, at, self.source.choose((text[at : at + 1], self.other(text[at]))))
                yield replaced(text, at, at + 1, b"")
                yield text[:at]
        text = min(EXAMPLES, key=len)
        for at, new in product(range(len(text)), self.alphabet):
            yield replaced(text, at, at + 1, bytes([new]))

    def ends(self):
        """Bytes in front and behind, other spaces, and small letters."""
        for text in EXAMPLES:
            yield from (text + some for some in BEHIND)
            yield from (some + text for some in (b" ", b"\n", b"\0", b"\xef\xbb\xbf"))
            yield from (text.replace(b" ", some) for some in (b"", b"  ", b"\t", b"\xa0"))
            yield from (text.replace(b", ", some) for some in (b",", b" ", b" , ", b",  ", b";"))
            yield text.lower()
            yield text + b" " + text

    def long(self):
        """Texts that are longer than any line."""
        longest = max(EXAMPLES, key=len)
        for size in (LONGEST + 1, LONGEST + 2, BUFFER, 255, 256, 257, MOST_TEXT):
            yield from ((text * size)[:size] for text in (longest, b"S", b"\0"))
            yield longest + bytes(size - LONGEST)

    def damaged(self):
        """Random lines, and each with some bytes changed."""
        for _ in range(200):
            text = self.random()
            yield text
            for _ in range(1 + self.source.below(3)):
                text = self.changed(text)
            yield text

    def texts(self):
        yield from EXAMPLES
        yield from (beginning + rest for beginning, rest in NO_LINES)
        yield from self.edges()
        yield from self.turns()
        yield from self.destinations()
        yield from self.groups()
        yield from self.numbers()
        yield from self.letters()
        yield from self.names()
        yield from self.bytes()
        yield from self.ends()
        yield from self.long()
        yield from self.damaged()

    # -- operations and rooms

    def around(self, op):
        """Rooms either side of the line's length, and the least and the most."""
        length = len(lines.line(op))
        return 0, length - 1, length, length + 1, BUFFER

    def rooms(self):
        for kind in self.kinds:
            op = self.source.within(kind)
            yield from ((op, room) for room in self.around(op))
        for op in (lines.read(min(EXAMPLES, key=len))[1], lines.read(max(EXAMPLES, key=len))[1]):
            yield from ((op, room) for room in range(BUFFER + 1))

    def limits(self):
        """Each field at its edges and past its limit; and several, of which the first check that fails tells."""
        for shape in self.shapes:
            for name, limit in model.used(shape):
                past = (limit, limit + 1, self.source.choose((255, 256, 256 + limit, 2**31, 2**32 - 1)))
                for value in past:
                    op = self.source.within(self.turned(shape))._replace(**{name: value})
                    yield op, self.source.choose((0, BUFFER))
            for both in combinations(model.used(shape), 2):
                op = self.source.within(shape)._replace(**{name: limit + 1 for name, limit in both})
                yield op, self.source.choose((0, BUFFER))

    def lacked(self):
        """Sizes and rotations that the family lacks, with fields within and past their limits."""
        for kind in model.kinds():
            if kind not in self.kinds:
                op = self.source.within(kind)
                name, limit = self.source.choose(model.used(kind))
                yield op, BUFFER
                yield op._replace(**{name: limit + 1}), 0

    def edge_numbers(self):
        """One and two digits in each place."""
        for shape in self.shapes:
            for name, limit in model.used(shape):
                for value in (9, 10, 19, 20, 29, 30):
                    if value <= limit:
                        yield self.source.within(self.turned(shape))._replace(**{name: value}), BUFFER

    def written(self):
        yield from self.rooms()
        yield from self.limits()
        yield from self.lacked()
        yield from self.edge_numbers()


def cases(source):
    maker = Maker(source)
    yield from (read_case(text) for text in maker.texts())
    yield from (write_case(*one) for one in maker.written())
