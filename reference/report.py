#!/usr/bin/env python3
"""The independent model of the program execute, for texts with nothing wrong in them.

Written from docs/execute.md alone, over the model of execution.

    report.py < FILE
"""

import sys

sys.dont_write_bytecode = True  # the repository stays as it was
import assembly
import execution
from execution import OUTSIDE, RESERVED

MEANING = {
    0: "done",
    1: "length not a multiple of 128 from 128 to 2,048",
    11: "length not a power of two",
    2: "file not 4 x L bytes",
    3: "more than 4,096 words",
    4: "word outside the set",
    5: "reserved word",
}
WIDTH = {"b": 1, "h": 2, "s": 4, "d": 8}


def statements(text):
    """The words of each line that has any; an instruction is one of them."""
    for line in text.decode("ascii").split("\n"):
        words = line.split("#")[0].split()
        if words[:1] == ["line"]:
            words[1:] = [line.split("line", 1)[1]]
        if words:
            yield words


def parts(data, width):
    return [data[at : at + width] for at in range(0, len(data), width)]


def lanes(data, width):
    """The whole lanes; only at a length that is refused is anything left over."""
    return [int.from_bytes(part, "little", signed=True) for part in parts(data, width) if len(part) == width]


def contents(register, size):
    if size is None:
        return [part.hex().upper() for part in parts(register, 16)]
    return map(str, lanes(register, WIDTH[size]))


def lines(text):
    length, flag, size, words, given, shown = 0, False, None, [], {}, set()
    for name, *rest in statements(text):
        if name == "length":
            length = int(rest[0])
        elif name == "qc":
            flag = rest[0] == "1"
        elif name == "show" and rest[0].startswith("z"):
            shown.add(int("".join(rest)[1:]))
        elif name == "show":
            size = rest[0]
        elif name == "word":
            words.append(int(rest[0], 16))
        elif name == "line":
            words.append(assembly.read_line(rest[0].encode("ascii")))
        else:
            given[int(rest[0])] = bytes.fromhex("".join(rest[1:]))
    width = length // 8
    registers = b"".join(given.get(n, b"").ljust(width, b"\0") for n in range(32))
    file = registers.ljust(4 * length, b"\0")
    ran = execution.run(length, file, flag, words)

    yield f"answer {ran.number} {MEANING[ran.number]}"
    yield f"words done {ran.done}"
    yield f"qc {ran.flag:d}"
    if ran.number in (OUTSIDE, RESERVED):
        yield f"at word {ran.done} {words[ran.done]:08X}"
    for n in range(32):
        place = slice(n * width, (n + 1) * width)
        if n in shown or ran.file[place] != file[place]:
            yield " ".join([f"z{n}", *contents(ran.file[place], size)])


def report(text):
    """What the program prints for the text."""
    return "".join(line + "\n" for line in lines(text)).encode("ascii")


if __name__ == "__main__":
    sys.stdout.buffer.write(report(sys.stdin.buffer.read()))
