#!/usr/bin/env python3
"""Every line beside LLVM's assembler, where an llvm-mc is installed (Debian: llvm-19). Not part of the gate.

    tests/llvm.py

The model enumerates the operations; 'kob disasm' prints the lines of their words. llvm-mc prints the same words:
the texts have to be the same but for case, for the tab behind the mnemonic, and for what parts the first and the last
register of a group. llvm-mc also assembles the printed lines: its encodings have to be the words. The last line is
'llvm: N lines, M differences'.
"""

import re
import shutil
import struct
import subprocess
import sys
from pathlib import Path

ROOT = Path(__file__).resolve().parent.parent
sys.dont_write_bytecode = True  # the repository stays as it was
sys.path.insert(0, str(ROOT / "reference"))
import lines
import model

OPTIONS = ["-triple=aarch64", "-mattr=+sve2,+rdm,+sme2"]
ENCODING = re.compile(rb"encoding: \[0x(..),0x(..),0x(..),0x(..)\]")
GROUP = re.compile(rb"\{ (Z\d+\.[BHSD])(?:, | - )(Z\d+\.[BHSD]) \}")  # of two, or of four
BATCH = 200_000  # words for one start of llvm-mc
TOLD = 10  # differences told


def output(command, data):
    return subprocess.run(command, input=data, stdout=subprocess.PIPE, check=True).stdout


def printed(llvm, words):
    """Its lines in our layout: upper case, one space behind the mnemonic, a group as first and last."""
    octets = b"\n".join(b" ".join(b"0x%02x" % byte for byte in word.to_bytes(4, "little")) for word in words)
    said = output([llvm, *OPTIONS, "-disassemble"], octets).splitlines()
    shown = (b" ".join(line.split(None, 1)).rstrip().upper() for line in said if line.strip() != b".text")
    return [GROUP.sub(rb"{ \1-\2 }", line) for line in shown]


def assembled(llvm, text):
    said = output([llvm, *OPTIONS, "-show-encoding"], text)
    return [int(b"".join(reversed(found)), 16) for found in ENCODING.findall(said)]


def compare(llvm, words):
    """The differences among these words."""
    text = output([ROOT / "kob", "disasm"], struct.pack(f"<{len(words)}I", *words))
    ours, theirs, again = text.splitlines(), printed(llvm, words), assembled(llvm, text)
    if not len(words) == len(ours) == len(theirs) == len(again):
        sys.exit(f"llvm: {len(words)} words, {len(ours)} lines, {len(theirs)} of LLVM's, {len(again)} encodings")
    for word, mine, other, back in zip(words, ours, theirs, again):
        if mine != other:
            yield f"{word:08X}: '{mine.decode()}', LLVM prints '{other.decode()}'"
        if back != word:
            yield f"{word:08X}: '{mine.decode()}', LLVM assembles {back:08X}"


def main():
    llvm = next(filter(None, map(shutil.which, ("llvm-mc-19", "llvm-mc"))), None)
    if not llvm:
        print("llvm: not run: there is no llvm-mc; apt-get install llvm-19")
        return 0
    differences = 0
    for first in range(0, lines.LINES, BATCH):
        places = range(first, min(first + BATCH, lines.LINES))
        words = [model.encode(lines.operation_at(place))[1] for place in places]
        for difference in compare(llvm, words):
            differences += 1
            if differences <= TOLD:
                print(f"llvm: {difference}")
    print(f"llvm: {lines.LINES} lines, {differences} differences")
    return 1 if differences else 0


if __name__ == "__main__":
    sys.exit(main())
