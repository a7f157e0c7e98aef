#!/usr/bin/env python3
"""Scenario tests of the programs assemble and disassemble, held to the independent model.

    python3 tests/lines.py ASSEMBLE

The program disassemble stands beside it.
"""

import fcntl
import math
import os
import re
import socket
import struct
import subprocess
import sys
import tempfile
import termios
import threading
from itertools import chain
from pathlib import Path

ROOT = Path(__file__).resolve().parent.parent
sys.dont_write_bytecode = True  # the repository stays as it was
sys.path.insert(0, str(ROOT / "reference"))
import assembly
import cases
import lines
import model
from scenario import Fault, run_all

PATIENCE = 60  # seconds in which a run must end by itself
LINE = b"SQCADD Z0.B, Z0.B, Z1.B, #90"
WORD = bytes.fromhex("20D80145")
LONGEST = b"SQDMULH { Z28.D-Z31.D }, { Z28.D-Z31.D }, Z15.D"


# ---- running a program


def run(program, data=None, given=b"", stdin=subprocess.PIPE, stdout=subprocess.PIPE, feeder=None):
    """What it wrote to its two outputs. On descriptor 3 it has the option, as kob hands it over."""
    reading, writing = os.pipe()
    os.write(writing, given + b"\n")
    os.close(writing)
    shell = ["sh", "-c", f'exec "$0" 3<&{reading}', program]
    process = subprocess.Popen(shell, stdin=stdin, stdout=stdout, stderr=subprocess.PIPE, pass_fds=[reading])
    os.close(reading)
    if feeder:
        feeder.start()
    try:
        wrote, said = process.communicate(data, timeout=PATIENCE)
    except subprocess.TimeoutExpired:
        process.kill()
        process.communicate()
        raise Fault(f"it did not end in {PATIENCE} s")
    if process.returncode != 0:
        raise Fault(f"it ended with status {process.returncode}")
    return wrote, said


def feed(pipe, data, cuts, ended):
    """Pieces of the lengths of cuts, in turn, each when the one before has been read, so that no read can join two."""
    at = turn = 0
    try:
        while at < len(data):
            at, turn = at + os.write(pipe, data[at : at + cuts[turn % len(cuts)]]), turn + 1
            while struct.unpack("i", fcntl.ioctl(pipe, termios.FIONREAD, bytes(4)))[0] and not ended.is_set():
                os.sched_yield()
    except BrokenPipeError:
        pass  # it stopped reading: what it wrote says whether it should have
    finally:
        os.close(pipe)


def in_cuts(program, data, cuts):
    reading, writing = os.pipe()
    ended = threading.Event()
    feeder = threading.Thread(target=feed, args=(writing, data, cuts, ended))
    try:
        return run(program, stdin=reading, feeder=feeder)
    finally:
        ended.set()
        os.close(reading)
        feeder.join()


def expect(got, wrote, said):
    if got == (wrote, said.encode()):
        return
    if got[0] == wrote:
        raise Fault(f"it said {got[1][:200]!r}, not {said!r}")
    at = next((n for n, (a, b) in enumerate(zip(got[0], wrote)) if a != b), min(len(got[0]), len(wrote)))
    theirs = got[0][at : at + 60]
    raise Fault(f"it wrote {len(got[0])} bytes, not {len(wrote)}; from {at} on {theirs!r}, and said {got[1][:200]!r}")


# ---- the kinds of scenario


def assembles(text, *wanted):
    """As the model has it, and as is given by hand; as bytes and as lines of digits."""
    words, said = assembly.assemble(text)
    if wanted and list(wanted) != words:
        raise Fault(f"the model has {words}")
    if said:
        raise Fault(f"the model says {said}")
    expect(run(ASSEMBLE, text), assembly.as_bytes(words), "")
    expect(run(ASSEMBLE, text, b"--hex"), assembly.as_hex(words), "")


def refuses(text, wanted=None):
    """One message, and no word of a text this short, whatever stands before the line."""
    _, said = assembly.assemble(text)
    if wanted is not None and said != wanted:
        raise Fault(f"the model says {said!r}")
    if not said:
        raise Fault("the model takes it")
    expect(run(ASSEMBLE, text), b"", said)
    expect(run(ASSEMBLE, text, b"--hex"), b"", said)


def refuses_late(text):
    """The same of a long text: the words of pieces before the line may have been written."""
    _, said = assembly.assemble(text)
    got = run(ASSEMBLE, text)
    if got[1] != said.encode() or not said:
        raise Fault(f"it said {got[1][:200]!r}, not {said!r}")


def cut_alike(text, cuts):
    words, said = assembly.assemble(text)
    expect(in_cuts(ASSEMBLE, text, cuts), assembly.as_bytes(words), said)


def disassembles(data):
    expect(run(DISASSEMBLE, data), *assembly.disassemble(data))


def disassembles_in_cuts(data, cuts):
    expect(in_cuts(DISASSEMBLE, data, cuts), *assembly.disassemble(data))


def comes_back(data):
    """Words, as a text, are the same words."""
    text, said = run(DISASSEMBLE, data)
    if said or text.count(b"\n") != len(data) // 4:
        raise Fault(f"it wrote {text.count(10)} lines and said {said[:80]!r}")
    expect(run(ASSEMBLE, text), data, "")


def unread(program, name, before=(b"", b"")):
    """A folder, no input, and a socket that breaks after some bytes."""
    said = f"kob {name}: the input could not be read\n"
    with tempfile.TemporaryDirectory() as folder:
        stdin = os.open(folder, os.O_RDONLY)
        expect(run(program, stdin=stdin), b"", said)
        os.close(stdin)
    near, far = socket.socketpair()
    near.send(b"?")
    far.sendall(before[0])
    far.close()
    expect(run(program, stdin=near), before[1], said)
    near.close()


def unwritten(program, name, data):
    with open("/dev/full", "wb") as full:
        expect(run(program, data, stdout=full), None, f"kob {name}: the output could not be written\n")


# ---- the scenarios


def taken():
    yield "an empty text", assembles, b""
    for text in (b"\n", b"\r\n", b" \t\r\n\n", b"//", b"// CADD\n", b" //\r\n//", b"/////"):
        yield f"no instruction: {text}", assembles, text
    yield "a line with its end", assembles, LINE + b"\n", 0x4501D820
    yield "a line without it", assembles, LINE, 0x4501D820
    yield "A1's lines", assembles, b"\n".join(line for line, _ in lines.BY_HAND)
    around = (b"", b" ", b"\t", b" \t \t", b"  ")
    for before, after in zip(around, around[::-1]):
        for end in (b"", b"\r", b"// a", b" // a // b", b"//\r", b"\t//\xff\x00\x80\r", b" /// ", b"\r\r"):
            text = before + LINE + after + end + b"\n" + LINE
            yield f"around it: {before}, {after + end}", assembles, text, 0x4501D820, 0x4501D820
    for digits in (b"0", b"7", b"4501D820", b"4501d820", b"00000001", b"FFFFFFFF", b"aBcDeF", b"2F00F000"):
        yield f".inst of {digits}", assembles, b".inst 0x" + digits + b" // x\n", int(digits, 16)
    for end in (b"\n", b"\r\n"):
        many = end.join([LINE, b"", b"// a", b" .inst 0x7", b"", LINE])
        yield f"line ends {end}", assembles, many, 0x4501D820, 7, 0x4501D820
        yield f"line ends {end}, the last too", assembles, many + end, 0x4501D820, 7, 0x4501D820


def wrong():
    for line, why in assembly.WRONG:
        yield f"{line}", refuses, line, f"kob asm: line 1{why}\n"
        yield f"{line} later", refuses, LINE + b"\n\n" + line + b"\r\nnonsense\n", f"kob asm: line 3{why}\n"
    # Each beginning of a line, with nothing and with something wrong behind it.
    some = b"SQRDCMLAH Z31.S, Z30.S, Z15.S[1], #270", b"SQRDMLSH V0.4H, V1.4H, V2.H[7]", LONGEST
    for line in (LINE, *some, b".inst 0x4501D820"):
        for length in range(1, len(line)):
            if assembly.word_of(line[:length]) is None:
                yield f"{line[:length]}", refuses, line[:length]
            yield f"{line[:length]}?", refuses, b" \t" + line[:length] + b"?" + line[length:]
        for more in (b"x", b" x", b"\t;", b"\r x", b"/", b" / /", b"#", b"\x00", b"\x80", b" " + line, b"'"):
            yield f"{line} and {more}", refuses, line + more
    for line in (b"CADD Z0.B,Z0.B, Z1.B, #90", b"CADD Z00.B", b"CADD Z32.B", b"CADD  Z0.B", b"CADD Z0.B, Z0.H", b"MOV"):
        yield f"{line}", refuses, line
    for line in (b".inst", b".inst 0", b".inst  0x1", b".inst 0X1", b".inst 1", b".INST 0x1", b".inst 0x1 2", b".word 0x1"):
        yield f"{line}", refuses, line
    unseen = b"\xe2\x80\x8b" + LINE, b"\xef\xbb\xbf" + LINE, b"\x0b" + LINE, LINE.replace(b" ", b"\xc2\xa0")
    for line in (*unseen, b"\x00", b"\x7f", b"/ " + LINE, b"# a", b"; a", b"l:", b"\r" + LINE + b"x"):
        yield f"{line}", refuses, line


def long_lines():
    for end in (b"\n", b""):
        padded = (LINE + b" //").ljust(4096, b"x")
        yield f"4096 bytes{end}", assembles, padded + end, 0x4501D820
        yield f"4096 bytes at last{end}", assembles, b"\n" + padded + end, 0x4501D820
        said = "kob asm: line 2: longer than 4096 bytes\n"
        yield f"4097 bytes{end}", refuses, b"\n" + padded + b"x" + end + LINE * 100_000, said
        yield f"4096 bytes and a carriage return{end}", refuses, b"\n" + padded + b"\r" + end, said
    yield "4097 blanks", refuses, b" " * 4097
    yield "a million bytes of one line", refuses, b"x" * 1_000_000, "kob asm: line 1: longer than 4096 bytes\n"
    yield "a wrong line before a long one", refuses, b"x\n" + b"x" * 5000
    yield "a long line before a wrong one", refuses, b"//" + b"x" * 5000 + b"\nx"


def long_texts():
    source = cases.Source(21)
    words = list(source.mix(100_000))
    data = struct.pack(f"<{len(words)}I", *words)
    yield "100000 words", comes_back, data
    for cuts in ((1, 2, 3), (7,), (4096,), (65_535,), (65_536, 1), (65_537,), (61_440, 5)):
        some = data[: 40_000 if cuts[0] > 99 else 2000]
        text, _ = assembly.disassemble(some)
        crlf = b"\r\n".join(line + b" // " + b"-" * source.below(99) for line in text.split(b"\n"))
        yield f"cuts of {cuts}", cut_alike, text, cuts
        yield f"cuts of {cuts}, line ends of two bytes", cut_alike, crlf, cuts
        yield f"words in cuts of {cuts}", disassembles_in_cuts, some, cuts
        yield f"words and 3 bytes in cuts of {cuts}", disassembles_in_cuts, some + b"\0\1\2", cuts
    # A line, its end, or its carriage return at the end of what is held.
    for length in (65_535, 65_536, 65_537, 131_071, 131_072, 131_073):
        for back in (0, 1, 2, 10, len(LINE), len(LINE) + 1, len(LINE) + 2):
            filled = (b" " * 64 + b"\n") * (length // 65 + 1)
            body = filled[: length - back - 1] + b"\n" + LINE + b"\r\n"
            yield f"a line {back} bytes before {length}", assembles, body + LINE
            yield f"the last line {back} bytes before {length}", assembles, body[:-2]
    # The densest text: a word of every 10 bytes.
    yield "the shortest lines", assembles, b".inst 0x0\n" * 30_000
    yield "a wrong line at last", refuses_late, text * 3 + b"CADD"
    yield "a wrong line in the middle", refuses_late, text * 2 + b"CADD\n" + text
    yield "a long line late", refuses_late, text * 2 + b"/" * 4097 + b"\n" + text


def words():
    yield "no word", disassembles, b""
    for left in range(1, 4):
        yield f"{left} bytes", disassembles, bytes(left)
        yield f"{left} bytes behind a word", disassembles, WORD + bytes(left)
    given = b"".join(struct.pack("<I", word) for word, _ in model.WORDS)
    yield "the cases of document 01 and of A3", disassembles, given
    every = list(dict.fromkeys(cases.words()))
    yield "the stored words", disassembles, struct.pack(f"<{len(every)}I", *every)
    for count in (8191, 8192, 8193, 16_384, 20_000):
        some = list(cases.Source(count).mix(count))
        yield f"{count} words", disassembles, struct.pack(f"<{count}I", *some)
        yield f"{count} words and a byte", disassembles, struct.pack(f"<{count}I", *some) + b"\7"
    # The longest line of the grammar in every place of a piece.
    longest = struct.pack("<I", assembly.assemble(LONGEST)[0][0])
    yield "the longest lines", disassembles, longest * 20_000


# ---- the page of the grammar

LETTERS = dict.fromkeys("dnm", range(32)) | {"h": range(16), "l": range(8), "i": range(8), "j": range(4), "k": range(2)}
LETTERS |= {"t": "BHSD", "p": (2, 4), "q": (4, 8), "r": (0, 90, 180, 270), "s": (90, 270)}
LETTERS |= {"a": range(0, 32, 2), "b": range(1, 32, 2), "e": range(0, 32, 4), "f": range(3, 32, 4)}
TOGETHER = {"b": "a", "f": "e"}  # the last register of a group goes with the first
PAGE = (ROOT / "docs/lines.md").read_text()


def templates_are_all():
    """Each line of a template is a line, as many as there are; a letter stands for the same wherever it stands, and
    so do two that go together."""
    count, source = 0, cases.Source(22)
    for template in re.findall(r"^\| `((?:SQ|C)[^`]*[a-z][^`]*)` \|", PAGE.split("## Reading")[0], re.M):
        letters = sorted(set(re.findall("[a-z]", template)))
        chosen = [letter for letter in letters if letter not in TOGETHER]
        count += math.prod(len(LETTERS[letter]) for letter in chosen)
        for _ in range(200):
            places = {letter: source.below(len(LETTERS[letter])) for letter in chosen}
            values = {letter: str(LETTERS[letter][places[TOGETHER.get(letter, letter)]]) for letter in letters}
            text = re.sub("[a-z]", lambda found: values[found[0]], template).encode()
            if lines.read(text)[0] != model.DONE:
                raise Fault(f"'{text.decode()}' is no line")
    if count != lines.LINES or f"{lines.LINES:,} lines" not in PAGE:
        raise Fault(f"{count} lines of the templates, not {lines.LINES}")


def answers_as_shown():
    """The table of texts and what reading answers."""
    shown = re.findall(r"^\| (?:`([^`]*)`|the empty text) \| (?:12, (\d+)|[A-Z]+)", PAGE.split("## Reading")[1], re.M)
    if len(shown) < 8:
        raise Fault("no table of texts")
    for text, reach in shown:
        number, beside = lines.read(text.encode())
        if number != (lines.NOT_A_LINE if reach else model.DONE) or (reach and beside != int(reach)):
            raise Fault(f"'{text}': {number}, {beside}")


def page():
    yield "the templates of docs/lines.md", templates_are_all
    yield "the texts of docs/lines.md", answers_as_shown


def outside():
    yield "a text that cannot be read", unread, ASSEMBLE, "asm", (LINE, b"")
    yield "words that cannot be read", unread, DISASSEMBLE, "disasm", (WORD + b"\0", LINE + b"\n")
    yield "words that cannot be written", unwritten, ASSEMBLE, "asm", LINE
    yield "a text that cannot be written", unwritten, DISASSEMBLE, "disasm", WORD


if __name__ == "__main__":
    if len(sys.argv) != 2:
        sys.exit("usage: python3 tests/lines.py ASSEMBLE")
    ASSEMBLE = os.path.abspath(sys.argv[1])
    DISASSEMBLE = os.path.join(os.path.dirname(ASSEMBLE), "disassemble")
    parts = taken, wrong, long_lines, long_texts, words, page, outside
    sys.exit(run_all("lines", chain.from_iterable(part() for part in parts)))
