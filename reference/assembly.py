#!/usr/bin/env python3
"""The independent model of assembly texts: the words of a text, what is wrong with it, and the text of words.

Written from docs/asm.md alone, over the model of lines. Run as a program it checks itself and says so.
"""

import re
import struct
import sys
from bisect import bisect_left

sys.dont_write_bytecode = True  # the repository stays as it was
import lines
import model
from model import DONE, OUTSIDE, RESERVED

MOST_LINE = 4096
DIRECTIVE = b".inst 0x"
DIGITS = b"0123456789ABCDEFabcdef"
PRINTABLE = bytes(range(0x20, 0x7F))
BLANK = b" \t\r"


# ---- one instruction


def word_of(text):
    """The word of an instruction, or None."""
    if re.fullmatch(rb"\.inst 0x[0-9A-Fa-f]{1,8}", text):
        return int(text[len(DIRECTIVE) :], 16)
    number, op = lines.read(text)
    return model.encode(op)[1] if number == DONE else None


def begins(text):
    """Whether some instruction begins so."""
    if re.fullmatch(rb"\.inst 0x[0-9A-Fa-f]{0,8}", text) or DIRECTIVE.startswith(text):
        return True
    at = bisect_left(lines.ordered(), text)
    return at < len(lines.ordered()) and lines.ordered()[at].startswith(text)


def beginning_of(text):
    """The longest beginning that some instruction has."""
    return next(text[:n] for n in range(len(text), -1, -1) if begins(text[:n]))


# ---- what is wrong


def quoted(text):
    return "'" + text.decode("ascii") + "'"


def due(beginning):
    """What may follow a beginning."""
    followers = bytes(b for b in PRINTABLE if begins(beginning + bytes([b])))
    told = [("one of " if len(followers) > 1 else "") + quoted(followers)] if followers else []
    if word_of(beginning) is not None:
        told.append("the line's end or a // comment")
    return ", ".join(told)


def found(byte):
    return "a tab" if byte == 9 else quoted(bytes([byte])) if byte in PRINTABLE else f"the byte 0x{byte:02X}"


def fault(line, start, text):
    """What is said of a wrong instruction that starts at a place of its line: the column, and why."""
    beginning = beginning_of(text)
    place = len(beginning)
    if word_of(beginning) is not None:
        place += len(text[place:]) - len(text[place:].lstrip(BLANK))
    why = f"after {quoted(beginning)} comes {due(beginning)}" if beginning else f"an instruction begins with {due(b'')}"
    if place == len(text):
        return f", column {start + place + 1}: the line is cut off: {why}"
    return f", column {start + place + 1}: {why}, not {found(text[place])}"


# ---- texts


def read_line(line, behind=0):
    """Of a line of the text, or of what stands in it behind a place: the word, None for no instruction, or
    what is wrong as a text."""
    code = line.split(b"//")[0][behind:]
    start = behind + len(code) - len(code.lstrip(BLANK))
    text = code.strip(BLANK)
    if not text:
        return None
    word = word_of(text)
    return fault(line, start, text) if word is None else word


def assemble(text):
    """The words and no message, or no words and the message on the first line that is wrong."""
    words = []
    for number, line in enumerate(text.split(b"\n"), 1):
        if len(line) > MOST_LINE:
            return [], f"kob asm: line {number}: longer than {MOST_LINE} bytes\n"
        answer = read_line(line)
        if isinstance(answer, str):
            return [], f"kob asm: line {number}{answer}\n"
        words += [] if answer is None else [answer]
    return words, ""


def as_bytes(words):
    return struct.pack(f"<{len(words)}I", *words)


def as_hex(words):
    return b"".join(b"%08X\n" % word for word in words)


def line_of(word):
    answer = model.decode(word)
    if answer in (OUTSIDE, RESERVED):
        return b".inst 0x%08X // %s\n" % (word, b"OUTSIDE" if answer == OUTSIDE else b"RESERVED")
    return lines.line(answer) + b"\n"


def disassemble(data):
    """The text, and the message."""
    count, left = divmod(len(data), 4)
    text = b"".join(line_of(word) for word in struct.unpack(f"<{count}I", data[: 4 * count]))
    return text, f"kob disasm: bytes left over behind the last whole word: {left}\n" if left else ""


# ---- the model's own checks

# Written by hand.
WRONG = [
    (b"cadd z0.b, z0.b, z1.b, #90", ", column 1: an instruction begins with one of '.CS', not 'c'"),
    (b"  CADD\tZ0.B", ", column 7: after 'CADD' comes ' ', not a tab"),
    (b"CADD Z0.B, Z1.B, Z2.B, #90", ", column 13: after 'CADD Z0.B, Z' comes '0', not '1'"),
    (b"CADD Z0.B, Z0.B, Z1.B, #", ", column 25: the line is cut off: after 'CADD Z0.B, Z0.B, Z1.B, #' comes one of '29'"),
    (
        b"CADD Z0.B, Z0.B, Z1.B, #90 ; x",
        ", column 28: after 'CADD Z0.B, Z0.B, Z1.B, #90' comes the line's end or a // comment, not ';'",
    ),
    (b"\xff", ", column 1: an instruction begins with one of '.CS', not the byte 0xFF"),
    (b".inst 4501D820", ", column 7: after '.inst ' comes '0', not '4'"),
    (b".inst 0x", ", column 9: the line is cut off: after '.inst 0x' comes one of '0123456789ABCDEFabcdef'"),
    (
        b".inst 0x123456789",
        ", column 17: after '.inst 0x12345678' comes the line's end or a // comment, not '9'",
    ),
    (
        b".inst 0x1g",
        ", column 10: after '.inst 0x1' comes one of '0123456789ABCDEFabcdef', the line's end or a // comment, not 'g'",
    ),
]
RIGHT = [
    (b"", None),
    (b" \t // CADD", None),
    (b"\r", None),
    (b"\tSQCADD Z0.B, Z0.B, Z1.B, #90\t// x\r", 0x4501D820),
    (b".inst 0x4501d820//x", 0x4501D820),
    (b".inst 0x0", 0),
]


def self_check():
    """The faults found, a line each."""
    tried = [(read_line(line), answer) for line, answer in WRONG + RIGHT]
    return [f"{was!r}, not {wanted!r}" for was, wanted in tried if was != wanted]


if __name__ == "__main__":
    found_faults = self_check()
    for one in found_faults:
        print(f"assembly: {one}")
    print(f"assembly: {len(found_faults)} faults")
    sys.exit(1 if found_faults else 0)
