"""Kobbeskuim from Python: AArch64's saturating complex vector instructions, executed, decoded, written and listed, as
words and as lines of text, and a recorder's trace of them replayed, whole or in pieces.

One file over the shared library, by ctypes. SQCADD at 128 bits: Z0 = (0, 0), Z1 = (-128, -128), 90 degrees.

>>> file = bytearray(4 * 128)
>>> register(128, file, 1)[:2] = b"\\x80\\x80"
>>> word = encode(Operation(Family.SQCADD, Size.B, turns=1, destination=0, second=1))
>>> run(128, file, [word])
Ran(done=1, qc=False)
>>> register(128, file, 0).cast("b")[:2].tolist()
[127, -128]

What the library refuses is a Refused, which has its number. A number that C cannot take (negative, or of too many
bits) is a ValueError, and what is no number or no fitting buffer a TypeError. No call keeps state but in its Stream, so
threads may call at the same time, each with a file or a stream of its own. include/kobbeskuim.h says more of each call.
"""

from __future__ import annotations

import ctypes
import os
from array import array
from enum import IntEnum
from operator import index as as_int
from pathlib import Path
from typing import TYPE_CHECKING, Iterable, Iterator, NamedTuple, SupportsIndex

if TYPE_CHECKING:
    from _typeshed import ReadableBuffer, WriteableBuffer

VERSION = "0.6.0"
_SONAME = f"libkobbeskuim.so.{VERSION.split('.')[0]}"

# ---- limits

LENGTH_MIN = 128  # of the vector length in bits: 128, 256, 512, 1,024 or 2,048
LENGTH_MAX = 2048
REGISTERS = 32
FILE_SIZE_MAX = 8192  # bytes; a register file has 4 x L
WORDS_MAX = 4096  # of a program
LIST_WORDS_MAX = 1048576  # of a listing; one more gives its LIMIT line
TRACE_MAX = 65536  # bytes, but where a trace comes as a stream
CASES_MAX = 1024  # that the contents of a trace may name
LINE_MAX = 47  # bytes of the longest line
STREAM_SIZE = 20544  # bytes of a stream's state

# ---- numbers answered, and the exceptions that carry them


class Number(IntEnum):
    """What a call answers; `text` says it in words."""

    text: str

    def __new__(cls, value: int, text: str = "") -> Number:  # the default lets type checkers pass Number(4)
        number = int.__new__(cls, value)
        number._value_ = value
        number.text = text
        return number

    DONE = 0, "done"
    BAD_LENGTH = 1, "length not a multiple of 128 from 128 to 2,048"
    BAD_SIZE = 2, "file not 4 x L bytes"
    TOO_LONG = 3, "more than 4,096 words"
    OUTSIDE = 4, "word outside the set"
    RESERVED = 5, "reserved word"
    NO_REGISTER = 6, "register above 31"
    NO_SIZE = 7, "size that the family lacks"
    NO_ROTATION = 8, "rotation that the family lacks"
    REGISTER_LIMIT = 9, "register field above its limit"
    INDEX_LIMIT = 10, "index above its limit"
    NOT_POWER_OF_TWO = 11, "length not a power of two"
    NOT_A_LINE = 12, "not a line"
    NO_LINE_ROOM = 13, "room shorter than the line"
    GROUP_START = 14, "first register not a multiple of its group's two or four"
    BAD_CONTENTS = 15, "contents cut short or not allowed"
    BAD_TOTAL = 16, "trace above 64 KiB or not as long as its contents say"
    BAD_FLAG = 17, "flag neither 0 nor 1"  # the kind of a verdict, not a refusal
    NO_CASE = 22, "case not below the number of cases"
    BAD_FIELDS = 32, "fields not 8 numbers, or state not 20,544 bytes"
    NO_OPERATION = 33, "fields that name no operation"


class Refused(Exception):
    """The library refused a call, by this number. Nothing is changed, unless it is a Stopped."""

    def __init__(self, number: Number, *more: object) -> None:
        super().__init__(number, *more)  # all arguments, so that it can be pickled
        self.number = number

    def __str__(self) -> str:
        return f"{self.number:d}, {self.number.text}"


class Stopped(Refused):
    """A run ended at `word`, which is outside the set or reserved. The words before it are done: `done` is their count,
    and so its place from 0; the file is as they left it, and `qc` is the flag that they left."""

    def __init__(self, number: Number, done: int, qc: bool, word: int) -> None:
        super().__init__(number, done, qc, word)
        self.done, self.qc, self.word = done, qc, word

    def __str__(self) -> str:
        return f"{super().__str__()}: at word {self.done}, {self.word:08X}"


class NotALine(Refused):
    """A text is no line. `reach` is the length of the longest beginning that some line has: where it is the text's own,
    a line was cut off; else what stands there, counted from 0, is the first that no line has at that place."""

    def __init__(self, number: Number, reach: int) -> None:
        super().__init__(number, reach)
        self.reach = reach

    def __str__(self) -> str:
        return f"{super().__str__()}: from byte {self.reach} on"


class StreamRefused(Refused):
    """A stream is over by a refusal. `taken` is how many bytes the call took, up to and with the one that brought it;
    on every later call it is 0."""

    def __init__(self, number: Number, taken: int) -> None:
        super().__init__(number, taken)
        self.taken = taken


# ---- operations


class Family(IntEnum):
    """CMLA_I and SQRDCMLAH_I are the indexed ones."""

    CADD, SQCADD, CMLA, CMLA_I, SQRDCMLAH, SQRDCMLAH_I, SQRDMLAH, SQRDMLSH, SQDMULH = range(9)


class Size(IntEnum):
    """Of an element: 8, 16, 32 or 64 bits."""

    B, H, S, D = range(4)


class Form(IntEnum):
    """One lane, or 64 or 128 bits of lanes."""

    SCALAR, VECTOR_64, VECTOR_128 = range(3)


class Group(IntEnum):
    """The registers of a group, one after the other."""

    TWO, FOUR = 2, 4


class Operation(NamedTuple):
    """An instruction's fields. What its family does not use is 0; of the form, that is SCALAR. `index` is the field,
    and not tuple's method."""

    family: Family
    size: Size
    form: Form | Group = Form.SCALAR  # SQRDMLAH and SQRDMLSH; SQDMULH has a group here
    turns: int = 0  # the rotation in quarter turns; all but SQRDMLAH, SQRDMLSH and SQDMULH
    destination: int = 0  # Zdn, Zda or Rd; of a group the first
    first: int = 0  # Zn or Rn; CADD, SQCADD and SQDMULH have none, for Zdn is their first source
    second: int = 0  # Zm or Rm
    index: int = 0  # type: ignore[assignment]  # CMLA-I, SQRDCMLAH-I, SQRDMLAH and SQRDMLSH only


class Ran(NamedTuple):
    """A run that did all its words: their count, and the flag that it left."""

    done: int
    qc: bool


# ---- verdicts on the cases of a trace


class Kind(IntEnum):
    """What is said of a case. NO_VERDICT is C's, where there is no case to say something of."""

    NO_VERDICT = 0
    AGREES = 1
    FILE_DIFFERS = 2
    FLAG_DIFFERS = 3  # and the file agrees
    OUTSIDE = 4  # the run stopped at such a word, and nothing was compared
    RESERVED = 5
    BAD_FLAG = 17  # QC before or after is neither 0 nor 1


class Verdict(NamedTuple):
    """Of a case. The place, from 0: of FILE_DIFFERS the first byte of the file that differs, which is in register
    place // (L // 8); of OUTSIDE and RESERVED the word; else 0."""

    kind: Kind
    place: int = 0


class Fed(NamedTuple):
    """How many bytes a stream took, up to and with the one that brought a verdict, else all; and that verdict."""

    taken: int
    verdict: Verdict | None


# ---- the shared library

_SIZE, _WORD, _ANSWER = ctypes.c_size_t, ctypes.c_uint32, ctypes.c_uint64
_BYTES, _WORDS = ctypes.POINTER(ctypes.c_uint8), ctypes.POINTER(ctypes.c_uint32)

# The header's calls: the answer's type, then the arguments'.
_CALLS = {
    "kob_run": (_ANSWER, _SIZE, _BYTES, _SIZE, ctypes.c_bool, _WORDS, _SIZE),
    "kob_register": (_ANSWER, _SIZE, _SIZE, _SIZE),
    "kob_decode": (_WORD, _WORD, _WORDS, _SIZE),
    "kob_encode": (_ANSWER, _WORDS, _SIZE),
    "kob_line_write": (_ANSWER, _WORDS, _SIZE, _BYTES, _SIZE),
    "kob_line_read": (_ANSWER, _BYTES, _SIZE, _WORDS, _SIZE),
    "kob_list": (_ANSWER, _BYTES, _SIZE, _BYTES, _SIZE),
    "kob_replay": (_ANSWER, _BYTES, _SIZE, _SIZE),
    "kob_stream_feed": (_ANSWER, _BYTES, _SIZE, _BYTES, _SIZE),
    "kob_stream_end": (_WORD, _BYTES, _SIZE),
}

# Of any buffer, an empty one too, from_buffer of these is a pointer to its start.
_Bytes, _Words = ctypes.c_uint8 * 0, ctypes.c_uint32 * 0


def _load() -> ctypes.CDLL:
    """The file that KOBBESKUIM_LIBRARY names; else that of the tree or the installation that has this module; else
    the one that the loader finds."""
    here = Path(__file__).resolve().parent
    beside = (here / "../../target/sharedlib" / _SONAME, here / "../../../lib" / _SONAME)
    name = next((os.path.normpath(file) for file in beside if file.is_file()), _SONAME)
    if os.environ.get("KOBBESKUIM_LIBRARY"):
        name = os.path.abspath(os.environ["KOBBESKUIM_LIBRARY"])
    try:
        library = ctypes.CDLL(name)
        for call, (answer, *arguments) in _CALLS.items():
            getattr(library, call).restype = answer
            getattr(library, call).argtypes = arguments
    except (OSError, AttributeError) as error:
        right = "'./kob staticlib' builds it, './kob install PREFIX' installs it, KOBBESKUIM_LIBRARY names its file"
        raise ImportError(f"kobbeskuim: the shared library cannot be loaded: {error}; {right}") from error
    return library


_library = _load()


# ---- what goes to C: ctypes takes the low bits of a number that is too large, and says nothing


def _number(what: str, value: SupportsIndex, bits: int) -> int:
    number = as_int(value)
    if not 0 <= number < 1 << bits:
        raise ValueError(f"{what} is {number}, which is not from 0 to 2^{bits} - 1")
    return number


def _numbers(what: str, values: Iterable[SupportsIndex]) -> array[int]:
    """The numbers as a part of 32-bit ones, which is a copy: it overlaps no other part of the call."""
    numbers = [as_int(value) for value in values]
    try:
        return array("I", numbers)
    except OverflowError:
        for place, number in enumerate(numbers):
            _number(f"{what} {place}", number, 32)
        raise


def _done(number: int) -> None:
    if number:
        raise Refused(Number(number))


# ---- calls


def run(length: SupportsIndex, file: WriteableBuffer, words: Iterable[SupportsIndex], qc: bool = False) -> Ran:
    """Runs the words in order on the file, which is a bytearray or another writable buffer of 4 x L bytes.

    Refused by 1, 11, 2 or 3, the first that applies; Stopped by 4 or 5.

    >>> run(128, bytearray(512), [0x4501D800, 0x4501D800, 0])
    Traceback (most recent call last):
    kobbeskuim.Stopped: 4, word outside the set: at word 2, 00000000
    """
    bits, program = _number("length", length, 64), _numbers("word", words)
    with memoryview(file) as view:  # given back at once, so that whoever catches a refusal may resize the file
        if view.readonly or not view.c_contiguous:
            raise TypeError("file is read-only or not contiguous: lend a bytearray or another writable buffer")
        answer = _library.kob_run(
            bits, _Bytes.from_buffer(view), view.nbytes, qc, _Words.from_buffer(program), len(program)
        )
    number, flag, done = answer & 0xFF, bool(answer >> 8 & 1), answer >> 16
    if not number:
        return Ran(done, flag)
    if number in (Number.OUTSIDE, Number.RESERVED):
        raise Stopped(Number(number), done, flag, program[done])
    raise Refused(Number(number))


def register(length: SupportsIndex, file: ReadableBuffer, n: SupportsIndex) -> memoryview:
    """Register n's part of the caller's own file: L/8 bytes, to read and, where the file can be written, to write.

    `cast` makes lanes of it: "b", "h", "i" and "q" for B, H, S and D. A bytearray cannot be resized while a part of
    it is held. Refused by 1, 11, 2 or 6, the first that applies.

    >>> register(256, bytearray(range(32)) * 32, 31).tobytes() == bytes(range(32))
    True
    """
    with memoryview(file) as view:
        size = view.nbytes
    answer = _library.kob_register(_number("length", length, 64), size, _number("register", n, 64))
    _done(answer & 0xFF)
    start = answer >> 16 & 0xFFFFFF
    return memoryview(file).cast("B")[start : start + (answer >> 40)]


def _operation(fields: array[int]) -> Operation:
    family, size, form, *others = fields
    held = Group(form) if family == Family.SQDMULH else Form(form)
    return Operation(Family(family), Size(size), held, *others)


def decode(word: SupportsIndex) -> Operation:
    """The operation of a word. Refused by 4 or 5.

    >>> decode(0x44BA7420) == Operation(Family.SQRDCMLAH_I, Size.H, turns=1, destination=0, first=1, second=2, index=3)
    True
    >>> decode(0x2F00F000)
    Traceback (most recent call last):
    kobbeskuim.Refused: 5, reserved word
    """
    fields = array("I", [0] * len(Operation._fields))
    _done(_library.kob_decode(_number("word", word, 32), _Words.from_buffer(fields), len(fields)))
    return _operation(fields)


def encode(operation: Operation) -> int:
    """The word of an operation. Refused by 32, 33, 7, 8, 9, 14 or 10, the first that applies.

    >>> hex(encode(Operation(Family.SQRDMLSH, Size.H, Form.VECTOR_64, destination=0, first=1, second=2, index=7)))
    '0x2f72f820'
    >>> hex(encode(Operation(Family.SQDMULH, Size.D, Group.FOUR, destination=28, second=15)))
    '0xc1efac1c'
    """
    fields = _numbers("field", operation)
    answer: int = _library.kob_encode(_Words.from_buffer(fields), len(fields))
    _done(answer & 0xFFFFFFFF)
    return answer >> 32


def line(operation: Operation) -> str:
    """The line of an operation: its assembler text, with no line end. Refused as by `encode`, so each operation that
    has a word has a line.

    >>> line(decode(0x44BA7420))
    'SQRDCMLAH Z0.H, Z1.H, Z2.H[3], #90'
    """
    fields, out = _numbers("field", operation), bytearray(LINE_MAX)
    answer = _library.kob_line_write(_Words.from_buffer(fields), len(fields), _Bytes.from_buffer(out), len(out))
    _done(answer & 0xFFFFFFFF)
    return out[: answer >> 32].decode("ascii")


def read_line(text: str | ReadableBuffer) -> Operation:
    """The operation whose line the whole text is. NotALine where there is none: no byte above 127, zero byte or line
    end belongs to a line.

    >>> hex(encode(read_line("SQRDMLSH V0.4H, V1.4H, V2.H[7]")))
    '0x2f72f820'
    >>> read_line("SQCADD Z3.H, Z4.H, Z5.H, #270")
    Traceback (most recent call last):
    kobbeskuim.NotALine: 12, not a line: from byte 14 on
    """
    given = bytearray(text, "utf-8", "replace") if isinstance(text, str) else bytearray(memoryview(text))
    fields = array("I", [0] * len(Operation._fields))
    answer = _library.kob_line_read(_Bytes.from_buffer(given), len(given), _Words.from_buffer(fields), len(fields))
    if answer & 0xFFFFFFFF:
        raise NotALine(Number(answer & 0xFFFFFFFF), answer >> 32)
    return _operation(fields)


def listing(data: ReadableBuffer) -> str:
    """The lines of all little-endian 4-byte words of the bytes, as `kob list` prints them.

    >>> print(listing(bytes.fromhex("00D80145 00F0002F 00000000 09")), end="")
    4501D800 SQCADD
    2F00F000 RESERVED
    00000000 OUTSIDE
    TAIL 1
    TOTAL 3
    """
    given = bytearray(memoryview(data))
    del given[4 * (LIST_WORDS_MAX + 1) :]  # past the word that gives LIMIT nothing is listed
    out = bytearray(21 * (len(given) // 4) + 32)  # KOB_LIST_ROOM, so there is always room
    length = _library.kob_list(_Bytes.from_buffer(given), len(given), _Bytes.from_buffer(out), len(out))
    return out[:length].decode("ascii")


def _told(answer: int) -> Verdict:
    """The verdict in an answer of kob_replay or kob_stream_feed."""
    return Verdict(Kind(answer >> 8 & 0xFF), answer >> 16 & 0xFFFF)


def _verdict(trace: bytearray, n: int) -> Verdict:
    answer = _library.kob_replay(_Bytes.from_buffer(trace), len(trace), n)
    _done(answer & 0xFF)
    return _told(answer)


def replay(trace: ReadableBuffer, n: SupportsIndex) -> Verdict:
    """The verdict on case n, from 0, of a recorder's trace. Refused by 15, 16 or 22, the first that applies.

    >>> contents = array("I", [1, 128, 1, 16]).tobytes()  # one case, at 128 bits, of one word, its body at byte 16
    >>> word, qc, file = b"\\x20\\xd8\\x01\\x45", bytes(4), bytes(512)
    >>> replay(contents + qc + file + word + qc + file, 0)
    Verdict(kind=<Kind.AGREES: 1>, place=0)
    >>> replay(contents + qc + file + word + qc + bytes(511), 0)
    Traceback (most recent call last):
    kobbeskuim.Refused: 16, trace above 64 KiB or not as long as its contents say
    """
    return _verdict(bytearray(memoryview(trace)), _number("case", n, 64))


def replay_all(trace: ReadableBuffer) -> list[Verdict]:
    """The verdicts on all cases of a trace, in order. Refused by 15 or 16."""
    given = bytearray(memoryview(trace))
    first = _verdict(given, 0)  # raises where the trace is refused, so that its number of cases is good
    return [first, *(_verdict(given, n) for n in range(1, int.from_bytes(given[:4], "little")))]


class Stream:
    """A recorder's trace that comes in pieces, of any size. However it is cut, the verdicts and the end are those of
    one whole piece, and each verdict is the one that `replay` gives the case.

    >>> contents = array("I", [1, 128, 0, 16]).tobytes()  # one case, at 128 bits, of no words, its body at byte 16
    >>> stream = Stream()
    >>> stream.feed(contents + bytes(1000))
    Fed(taken=1016, verdict=None)
    >>> stream.feed(bytes(32))
    Fed(taken=32, verdict=Verdict(kind=<Kind.AGREES: 1>, place=0))
    >>> stream.end()
    """

    def __init__(self) -> None:
        self._state = bytearray(STREAM_SIZE)

    def _feed(self, piece: bytearray | memoryview) -> Fed:
        state = _Bytes.from_buffer(self._state)
        answer = _library.kob_stream_feed(state, STREAM_SIZE, _Bytes.from_buffer(piece), len(piece))
        number, verdict, taken = answer & 0xFF, _told(answer), answer >> 32
        if number:
            raise StreamRefused(Number(number), taken)
        return Fed(taken, verdict if verdict.kind else None)

    def feed(self, data: ReadableBuffer) -> Fed:
        """Hands in the next bytes, of which there may be none. A verdict falls due with the last byte of its case's
        body; what is not taken then is to be handed in again.

        StreamRefused, now and on every later call: by 15 with the last byte of the first number of the contents that is
        not allowed, by 16 with the first byte past the last body. After an end that was not refused nothing is taken.
        """
        return self._feed(bytearray(memoryview(data)))

    def verdicts(self, data: ReadableBuffer) -> Iterator[Verdict]:
        """Hands in these bytes, and gives each verdict as it falls due: bytes behind a verdict are handed in when the
        next one is asked for, so all of them only where it is iterated to its end. StreamRefused as by `feed`, with
        the bytes of `data` that were taken."""
        whole = rest = memoryview(bytearray(memoryview(data)))
        taken = 1
        while taken:  # it is 0 with no bytes left, and after the end
            try:
                taken, verdict = self._feed(rest)
            except StreamRefused as refused:
                raise StreamRefused(refused.number, len(whole) - len(rest) + refused.taken) from None
            rest = rest[taken:]
            if verdict:
                yield verdict

    def end(self) -> None:
        """Says that no byte follows. StreamRefused by 15 where the contents are not whole, by 16 where a body is missing
        or not whole; after a refusal or an end, by the same number or not at all."""
        number = _library.kob_stream_end(_Bytes.from_buffer(self._state), STREAM_SIZE)
        if number:
            raise StreamRefused(Number(number), 0)
