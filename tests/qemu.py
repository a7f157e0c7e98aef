#!/usr/bin/env python3
"""The archive against another implementation of the architecture: QEMU's, which shares nothing with it.

    python3 tests/qemu.py [--cases N] [--seed S] [--archive PATH]

A case (default: 20,000, seeded) is words that the independent model wrote, run on a register file and a flag:
by kob_run of the archive, and by 'qemu-aarch64 -cpu max' at the same vector length (tests/qemu.c is both
sides). Of four cases three are single words, every operation at every length in turn, with lanes at its
bounds and ties; one is a program. Files, flags and words done must be the same, and a reserved word, which
ends kob_run with 5, must be UNDEFINED there.

It asks for Debian's qemu-user, gcc-aarch64-linux-gnu and libc6-dev-arm64-cross. Where one is missing it says
so and ends with status 0. Else the last line is 'qemu: N cases, M differences', and the status 0 only if M is 0.
"""

import argparse
import re
import shutil
import subprocess
import sys
import tempfile
from itertools import accumulate, cycle, islice, product
from pathlib import Path

sys.dont_write_bytecode = True  # the repository stays as it was
import harness  # it puts reference/ on the path
import kernel_cases
import lanes
import model
from cases import Source
from execution import LENGTHS
from harness import ROOT, call, packed
from model import ADDS, DESTRUCTIVE, GROUPS

TOLD = 10  # differences told in full
BATCH = 2000  # cases for one start of either side
CROSS = "aarch64-linux-gnu-gcc"
QEMU = ["qemu-aarch64", "-cpu", "max"]  # max has SVE2 and all five lengths
FAMILIES = [family for family in range(len(model.NAMES)) if family not in GROUPS]  # SQDMULH is SME2's


class Maker(harness.Maker):
    """Endless cases: a length, a file, a flag and words."""

    def __init__(self, source):
        super().__init__(source, FAMILIES)
        self.aimed = [(op, self.segments(op)) for op in self.operations]

    def segments(self, op):
        """Some 16 bytes of c, n and m each, with the operation's bounds, ties and edges."""
        maker = kernel_cases.Maker(self.source, op)
        makers = [maker.bounds, maker.mixed] + ([] if op.family in ADDS else [maker.ties, maker.least])
        return [[lanes.data_of(x, maker.bits) for x in make()] for make in makers * 4]

    def registers(self, op):
        """Any registers within the limits; as often two neighbours alone, so that they coincide."""
        op = super().registers(op)
        if self.source.below(2):
            return op
        low = self.source.below(7)
        first = 0 if op.family in DESTRUCTIVE else low + op.first % 2
        return op._replace(destination=low + op.destination % 2, first=first, second=low + op.second % 2)

    def one_word(self, op, segments, length):
        op, width = self.registers(op), length // 8
        c, n, m = map(b"".join, zip(*(self.source.choose(segments) for _ in range(length // 128))))
        file = bytearray(self.file(4 * length))
        for register, data in ((op.first, n), (op.second, m), (op.destination, c)):
            file[register * width : (register + 1) * width] = data
        return length, bytes(file), self.flag(), [self.word(op)]

    def several_words(self):
        """Up to 11 words, and in every third program a reserved one."""
        words = [self.good() for _ in range(self.source.below(12))]
        if self.source.below(3) == 0:
            words.insert(self.source.below(len(words) + 1), self.reserved())
        length = self.source.choose(LENGTHS)
        return length, self.file(4 * length), self.flag(), words

    def cases(self):
        for at, ((op, segments), length) in enumerate(cycle(product(self.aimed, LENGTHS))):
            yield self.one_word(op, segments, length)
            if at % 3 == 2:
                yield self.several_words()


def missing():
    """What is not installed, or nothing."""
    for tool, package in ((QEMU[0], "qemu-user"), (CROSS, "gcc-aarch64-linux-gnu")):
        if not shutil.which(tool):
            return f"there is no {tool} (Debian's {package})"
    version = subprocess.run([QEMU[0], "--version"], stdout=subprocess.PIPE, text=True).stdout
    if int(re.search(r"version (\d+)", version)[1]) < 7:
        return "QEMU is older than 7"
    # A file that the compiler does not find is printed by its name alone.
    found = subprocess.run([CROSS, "-print-file-name=libc.a"], stdout=subprocess.PIPE, text=True).stdout
    return "" if "/" in found else f"{CROSS} has no libc.a (Debian's libc6-dev-arm64-cross)"


def build(compiler, program, *rest):
    flags = ["-std=gnu11", "-O2", "-Wall", "-Wextra", f"-I{ROOT / 'include'}"]
    subprocess.run([compiler, *flags, ROOT / "tests/qemu.c", *rest, "-o", program], check=True)
    return program


def answers(command, batch):
    """The answer to each case, as bytes: what kob_run returns, and the file."""
    asked = b"".join(
        call(b"x", length, flag, len(file), len(words), data=file + packed(*words))
        for length, file, flag, words in batch
    )
    done = subprocess.run(command, input=asked, stdout=subprocess.PIPE)
    if done.returncode:
        sys.exit(f"qemu: {' '.join(map(str, command))} ended with status {done.returncode}")
    ends = list(accumulate((8 + len(file) for _, file, _, _ in batch), initial=0))
    return [done.stdout[start:end] for start, end in zip(ends, ends[1:])]


def tell(number, case, ours, theirs):
    """The case, what each side made of it, and what the model makes of it."""
    length, _, flag, words = case
    print(f"qemu: case {number}: L = {length}, flag {flag:d}")
    for word in words:
        print(f"    {word:08X} {model.name_of(word)}: {model.decode(word)}")
    differ = [at for at in range(8, len(ours)) if ours[at] != theirs[at]][:1]
    for name, got in (("archive", ours), ("QEMU", theirs), ("model", harness.run_case(*case)[1])):
        line = f"    {name:7} answer {got[0]}, flag {got[1]}, words done {int.from_bytes(got[2:4], 'little')}"
        for at in differ:
            register, byte = divmod(at - 8, length // 8)
            line += f"; z{register} from byte {byte}: {got[at : at + 8].hex(' ')}"
        print(line)


def compare(sides, cases, count):
    """The differences among so many cases."""
    differences = 0
    for start in range(0, count, BATCH):
        batch = list(islice(cases, min(BATCH, count - start)))
        for at, (case, ours, theirs) in enumerate(zip(batch, *(answers(side, batch) for side in sides))):
            differences += ours != theirs
            if ours != theirs and differences <= TOLD:
                tell(start + at, case, ours, theirs)
    return differences


def main():
    raw = argparse.RawDescriptionHelpFormatter
    parser = argparse.ArgumentParser(description=__doc__, usage=argparse.SUPPRESS, formatter_class=raw)
    parser.add_argument("--cases", type=int, default=20000)
    parser.add_argument("--seed", type=int, default=1)
    parser.add_argument("--archive", type=Path, default=ROOT / "target/staticlib/libkobbeskuim.a")
    given = parser.parse_args()
    if why := missing():
        print(f"qemu: not run: {why}")
        return 0
    if not given.archive.exists():
        sys.exit(f"qemu: there is no {given.archive}: ./kob staticlib builds it")
    with tempfile.TemporaryDirectory() as folder:
        ours = build("gcc", Path(folder) / "archive", given.archive)
        theirs = build(CROSS, Path(folder) / "aarch64", "-static")
        differences = compare([[ours], [*QEMU, theirs]], Maker(Source(given.seed)).cases(), given.cases)
    print(f"qemu: {given.cases} cases, {differences} differences")
    return 1 if differences else 0


if __name__ == "__main__":
    sys.exit(main())
