#!/usr/bin/env python3
"""Scenario tests of the program execute: what it takes, and what it says of bad input.

    python3 tests/execute.py PROGRAM
    python3 tests/execute.py PROGRAM --shown    also runs that change registers, held to the independent model
"""

import os
import subprocess
import sys
import tempfile
from itertools import chain
from pathlib import Path

ROOT = Path(__file__).resolve().parent.parent
sys.dont_write_bytecode = True  # the repository stays as it was
sys.path.insert(0, str(ROOT / "reference"))
import assembly
import lines
import report
from scenario import Fault, run_all

PATIENCE = 60  # seconds in which a run must end by itself


def run(stdin=None, stdout=subprocess.PIPE, data=None, **more):
    """Runs the program, on the data if there is any, and returns what it wrote to the pipes of its two outputs."""
    source = {"stdin": stdin} if data is None else {"input": data}
    try:
        done = subprocess.run(
            [PROGRAM], **source, stdout=stdout, stderr=subprocess.PIPE, timeout=PATIENCE, **more
        )
    except subprocess.TimeoutExpired:
        raise Fault(f"it did not end in {PATIENCE} s")
    if done.returncode != 0:
        raise Fault(f"it ended with status {done.returncode}")
    return done.stdout, done.stderr


def expect(got, wanted_out, wanted_err):
    if got != (wanted_out, wanted_err):
        raise Fault(f"it wrote {got[0][:300]!r} and said {got[1][:120]!r}")


# ---- the kinds of scenario


def says(text, line, what):
    """Bad input: one line on standard error, and nothing else."""
    expect(run(data=text), b"", b"kob run: line %d: %s\n" % (line, what))


def prints(text, *lines):
    expect(run(data=text), b"".join(line + b"\n" for line in lines), b"")


def says_of(line, behind):
    """A wrong instruction: as the model of assembly texts has it, where the statement's name ends at a place."""
    wanted = b"kob run: line 3%s\n" % assembly.read_line(line, behind).encode("ascii")
    expect(run(data=b"length 128\n# a\n" + line + b"\nunknown\n"), b"", wanted)


def empty_run(text, qc=0):
    """A text with no word at a legal length: all of it is taken, and nothing changes."""
    prints(text, b"answer 0 done", b"words done 0", b"qc %d" % qc)


def illegal(text, qc=0):
    """A text with a length that gives 1: all of it is taken, and nothing is run."""
    prints(text, b"answer 1 length not a multiple of 128 from 128 to 2,048", b"words done 0", b"qc %d" % qc)


def no_power(text, qc=0):
    """The same with a multiple of 128 that is not a power of two."""
    prints(text, b"answer 11 length not a power of two", b"words done 0", b"qc %d" % qc)


def as_modelled(text):
    expect(run(data=text), report.report(text), b"")


def documented(text, printed):
    """The document's own example."""
    if printed != report.report(text):
        raise Fault("the document has another output than the model")
    as_modelled(text)


def says_longer(data):
    expect(run(data=data), b"", b"kob run: the input is longer than 65536 bytes\n")


def expect_unread(**way):
    expect(run(**way), b"", b"kob run: the input could not be read\n")


def from_folder():
    with tempfile.TemporaryDirectory() as folder:
        stdin = os.open(folder, os.O_RDONLY)
        try:
            expect_unread(stdin=stdin)
        finally:
            os.close(stdin)


def from_nothing():
    expect_unread(stdin=subprocess.DEVNULL, preexec_fn=lambda: os.close(0))


def to_full_device():
    with open("/dev/full", "wb") as full:
        _, said = run(stdout=full, data=b"length 128\n")
    if said != b"kob run: the output could not be written\n":
        raise Fault(f"it said {said[:120]!r}")


# ---- the scenarios


def accepted():
    yield "a length alone", empty_run, b"length 128\n"
    yield "no last line feed", empty_run, b"length 2048"
    yield "comments, blank lines, spaces and tabs", empty_run, b"# a\n\n \t\n  length\t 128  # b\n qc 1#c\n#", 1
    yield "line ends of two bytes", empty_run, b"length 128\r\nqc 1\r\nshow h\r\nz 0 00\r\n\r\n", 1
    yield "the last qc holds", empty_run, b"length 128\nqc 1\nqc 0\n"
    for size in (b"b", b"h", b"s", b"d"):
        yield f"show {size.decode()}", empty_run, b"length 128\nshow " + size
    for given in (b"", b" 00 ", b" 0aF0 0B\tc1  D2"):
        yield f"register bytes {given}", empty_run, b"length 128\nz 31" + given
    for length in (128, 256, 2048):
        for register in (0, 31):
            full = b"length %d\nz %d %s\n" % (length, register, b"5a" * (length // 8))
            yield f"a full register {register} at {length}", empty_run, full
            yield f"a byte more at {length}", says, full[:-1] + b" 00\n", 2, b"more bytes than a register has"
    yield "65536 bytes", empty_run, b"length 128\n".ljust(65536, b"#")
    yield "65536 bytes of lines", empty_run, b"length 128\n".ljust(65536, b"\n")


def refused():
    no_powers = (384, 640, 768, 896, 1152, 1280, 1408, 1536, 1664, 1792, 1920)
    for length in (0, 1, 64, 127, 129, 192, 2047, 2049, 2176, 4096) + no_powers:
        text = b"length %d\nz 31 %s\nword 0\n" % (length, b"ff" * (length // 8))
        yield f"length {length}", no_power if length in no_powers else illegal, text
        more = text.replace(b"\nword", b" 00\nword")
        yield f"a byte more at {length}", says, more, 2, b"more bytes than a register has"
    for word in (b"0", b"0x0", b"4501D820", b"4501d820", b"0xFFFFFFFF", b"00000001"):
        yield f"word {word}", illegal, b"length 127\nqc 1\nword " + word, 1
    words = b"length 128\nqc 1\n" + b"word 0\n" * 4097
    answer = (b"answer 3 more than 4,096 words", b"words done 0", b"qc 1")
    yield "4097 words", prints, words, *answer
    yield "4098 words, the last a line", says, words + b"line .inst 0x0", 4100, b"more than 4097 words"
    yield "4098 words", says, words + b"word 0", 4100, b"more than 4097 words"
    yield "4097 words at an illegal length", illegal, words.replace(b"128", b"100"), 1
    yield "4097 words at 384", no_power, words.replace(b"128", b"384"), 1


def wrong():
    missing = b"the text ends with no length"
    yield "an empty text", says, b"", 1, missing
    yield "comments alone", says, b"# a\n\n# b\n", 3, missing
    for line in (b"word 0", b"line .inst 0x0", b"qc 1", b"show b", b"z 0 00"):
        yield f"{line} before the length", says, b"\n" + line, 2, b"the length must come first"
    for line in (b"word", b"z 1 0g", b"nonsense"):
        wanted = b"unknown statement" if line == b"nonsense" else b"the length must come first"
        yield f"{line} at first", says, line, 1, wanted
    after = {
        b"unknown statement": (
            b"lengths 1", b"lines CADD", b"line//", b"wor 0", b"words 0", b"z0 00", b"Z 0 00", b"128", b"\0", b"\xff",
        ),  # fmt: skip
        b"a second length": (b"length 128", b"length x"),
        b"a number is missing": (b"qc", b"z", b"z # 1", b"show z", b"show z # 1"),
        b"not a decimal number": (b"qc x", b"qc -1", b"z a", b"z 1x", b"z 0x1", b"show zero"),
        b"qc is 0 or 1": (b"qc 2", b"qc 10", b"qc 18446744073709551616"),
        b"show takes b, h, s, d or a register, z0 to z31": (b"show", b"show q", b"show bb", b"show B", b"show Z3"),
        b"a word is missing": (b"word", b"word 0x", b"word # 0"),
        b"a word of more than 8 digits": (b"word 123456789", b"word 0x000000000"),
        b"a digit that is not hexadecimal": (b"word 12g4", b"word -1", b"word 0y1", b"z 1 0g", b"z 1 g0", b"z 1 00 0x"),
        b"a register above 31": (b"z 32", b"z 99999999999999999999 00", b"show z32"),
        b"a byte of one digit": (b"z 1 0", b"z 1 00 1 00", b"z 1 001#"),
        b"an instruction is missing": (b"line", b"line \t\r", b"line // CADD"),
        b"more than the statement takes": (b"qc 1 1", b"show b b", b"show z1 z2", b"word 0 0"),
    }
    for what, given in after.items():
        for line in given:
            yield f"{line}", says, b"length 128\n# a\n" + line + b"\nunknown\n", 3, what
    for text, _ in assembly.WRONG:
        for before in (b"line ", b" \t line\t  "):
            yield f"{before + text}", says_of, before + text, len(before)
            yield f"{before + text} and more", says_of, before + text + b" // x\r", len(before)
    for text in (b"line#", b"line # CADD", b"line" + b"\t" * 5000 + b"CADD"):
        yield f"{text[:12]}", says_of, text, 4
    for line, what in (
        (b"length", b"a number is missing"),
        (b"length 128 1", b"more than the statement takes"),
        (b"length 4097", b"a length above 4096"),
        (b"length 18446744073709551744", b"a length above 4096"),
        (b"length 0x80", b"not a decimal number"),
        (b"length -128", b"not a decimal number"),
    ):
        yield f"{line}", says, line, 1, what


def outside_the_text():
    yield "65537 bytes", says_longer, b"length 128\n".ljust(65537, b"#")
    yield "65537 bytes, the last a line feed", says_longer, b"length 128\n".ljust(65536, b"#") + b"\n"
    yield "a million bytes", says_longer, bytes(1_000_000)
    yield "input that is a folder", from_folder
    yield "input that is not open", from_nothing
    yield "output that is full", to_full_device


def shown():
    blocks = (ROOT / "docs/execute.md").read_bytes().split(b"```")[1::2]
    if len(blocks) % 2:
        sys.exit("execute: docs/execute.md has a text without what it prints")
    for text, printed in zip(blocks[::2], blocks[1::2]):
        yield "an example of the document", documented, text.lstrip(b"\n"), printed.lstrip(b"\n")
    # Case P8 of document 01 in 2 segments, and with a word outside the set and a reserved one after it.
    two = b"length 256\nz 1 8080 0000000000000000000000000000 8080\nword 4501D820\n"
    yield "two groups of bytes", as_modelled, two
    for word in (b"7", b"2F00F000"):
        yield f"word {word} at last", as_modelled, two + b"word %s\nword 4501D820\n" % word
    for number, (size, width) in enumerate(((b"b", 1), (b"h", 2), (b"s", 4), (b"d", 8))):
        word = 0x4500D865 | number << 22  # CADD z5, z5, z3, 90
        text = b"length 128\nshow %s\nz 5 %s\nz 3 %s 01\nword %08x\n" % (size, b"ff" * width, b"00" * width, word)
        yield f"lanes {size}", as_modelled, text
        least = b"length 128\nshow %s\nz 3 %s80\nword %08x\n" % (size, b"00" * (width - 1), word)
        yield f"the least lane {size}", as_modelled, least
    # Instructions: each form of the pages, with what may stand around it.
    wide = b"length 256\nshow h\n" + b"".join(b"z %d %s\n" % (n, b"8081" * (n + 1)) for n in range(8))
    for line, _ in lines.BY_HAND:
        for before, after in ((b"line ", b""), (b"\tline \t ", b" \t// #90"), (b"line ", b"//\r"), (b"line\t", b"\r")):
            yield f"{before + line + after}", as_modelled, wide + before + line + after + b"\n"
    yield "a word of each kind", as_modelled, wide + b"line .inst 0x4501d820 // a\nword 4501D820 # b\nline .inst 0x2F00F000"
    # Registers asked for: unchanged, changed, at a length that is refused, with lanes that do not fill it.
    for length in (128, 2048, 0, 8, 24, 192, 384):
        given = b"length %d\nz 7 %s\n" % (length, b"01FF02"[: length // 4])
        asked = given + b"show z7\nshow z 0\nshow z31\nshow z7\n"
        yield f"registers asked for at {length}", as_modelled, asked
        yield f"the same by lanes at {length}", as_modelled, asked + b"show h\n"
    yield "a register asked for that changes", as_modelled, two + b"show z1\nshow z0\n"
    every = b"".join(b"show z%d\nz %d %s\n" % (n, n, b"80" * 512) for n in range(32))
    yield "the longest report of all", as_modelled, b"length 4096\nshow b\n" + every
    # CADD zN, zN, z31, 90 of -128 in every lane: 0 - -128 and 0 + -128 are -128.
    words = b"".join(b"word %08x\n" % (0x4500DBE0 | n) for n in range(32))
    yield "the longest report", as_modelled, b"length 2048\nshow b\nz 31 %s\n%s" % (b"80" * 256, words)


if __name__ == "__main__":
    if len(sys.argv) < 2 or sys.argv[2:] not in ([], ["--shown"]):
        sys.exit("usage: python3 tests/execute.py PROGRAM [--shown]")
    PROGRAM = os.path.abspath(sys.argv[1])
    parts = [accepted, refused, wrong, outside_the_text] + ([shown] if sys.argv[2:] else [])
    sys.exit(run_all("execute", chain.from_iterable(part() for part in parts)))
