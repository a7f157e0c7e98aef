#!/usr/bin/env python3
"""Checks of the independent model alone: its parts' own, document 01's P8 to P12 as whole runs, and what is cleared.

    python3 tests/execution.py
"""

import sys
from pathlib import Path

sys.dont_write_bytecode = True  # the repository stays as it was
sys.path.insert(0, str(Path(__file__).resolve().parent.parent / "reference"))
import execution
import lanes
import model
from model import CADD, SCALAR, SQCADD, SQRDCMLAH, SQRDMLAH, SQRDMLSH, B, D, H, Operation

LEAST = -(2**63)

# The operation; the numbers that registers 0, 1 and 2 repeat; those that 0 then has; whether QC is set.
RUNS = [
    ("P8", Operation(SQCADD, B, 0, 1, 0, 0, 2, 0), [0, 0], [0], [-128, -128], [127, -128], False),
    ("P8", Operation(CADD, B, 0, 1, 0, 0, 2, 0), [0, 0], [0], [-128, -128], [-128, -128], False),
    ("P9", Operation(SQRDMLAH, H, 2, 0, 0, 1, 2, 0), [-1], [-32768], [-32768], [32767], False),
    ("P9", Operation(SQRDMLAH, H, 2, 0, 0, 1, 2, 7), [0], [-32768], [-32768], [32767], True),
    ("P9, SVE2", Operation(SQRDCMLAH, H, 0, 0, 0, 1, 2, 0), [-1], [-32768], [-32768], [32767], False),
    ("P9, SVE2", Operation(SQRDCMLAH, H, 0, 0, 0, 1, 2, 0), [0], [-32768], [-32768], [32767], False),
    ("P10", Operation(SQRDMLAH, H, 2, 0, 0, 1, 2, 3), [5], [128], [128], [6], False),
    ("P10", Operation(SQRDMLSH, H, 2, 0, 0, 1, 2, 3), [5], [128], [128], [5], False),
    ("P10, SVE2", Operation(SQRDCMLAH, H, 0, 2, 0, 1, 2, 0), [5], [128], [128], [5], False),
    ("P11", Operation(SQRDCMLAH, D, 0, 2, 0, 1, 2, 0), [0], [LEAST], [LEAST], [LEAST], False),
    ("P11", Operation(SQRDCMLAH, D, 0, 2, 0, 1, 2, 0), [-1], [LEAST], [LEAST], [LEAST], False),
    ("P12", Operation(SQCADD, B, 0, 1, 0, 0, 0, 0), [1, 2], [0], [0], [-1, 3], False),
]


def filled(numbers, bits, width):
    return lanes.data_of(numbers * (width * 8 // bits // len(numbers)), bits)


def runs():
    """The faults found when each is run at every length, with either flag to start."""
    for name, op, c, n, m, wanted, sets in RUNS:
        bits = lanes.bits_of(op)
        _, word = model.encode(op)
        for length in execution.LENGTHS:
            width = length // 8
            rest = bytes(range(29)) * width
            c_bytes, n_bytes, m_bytes = (filled(x, bits, width) for x in (c, n, m))
            left = filled(wanted, bits, width)
            if op.family in model.ELEMENT:
                left = left[:16] + bytes(width - 16)  # the bytes above 16 are cleared
            for flag in (False, True):
                ran = execution.run(length, c_bytes + n_bytes + m_bytes + rest, flag, [word])
                due = execution.Ran(0, 1, flag or sets, left + n_bytes + m_bytes + rest)
                if ran != due:
                    yield f"{name} at {length}: {ran[:3]}, {ran.file[:width].hex()}"


def scalar():
    """The scalar form writes one lane, and makes the rest of the register zero."""
    op = Operation(SQRDMLAH, H, SCALAR, 0, 0, 1, 2, 0)
    file = bytes([255]) * 32 + lanes.data_of([128] * 32, 16) + bytes(29 * 32)
    wanted = bytes(32)  # -1 + 0.5, rounded, is 0
    if execution.run(256, file, False, [model.encode(op)[1]]).file[:32] != wanted:
        yield "the scalar form's lanes"


def cleared():
    """The destination may be the register that the element comes from: it is read first. Its neighbours stay."""
    op = Operation(SQRDMLSH, H, 2, 0, 1, 0, 1, 7)
    one, two, three = ([x] * 8 for x in (128, 256, 3))
    for length in execution.LENGTHS:
        rest = bytes([255]) * (length // 8 - 16)
        parts = [lanes.data_of(x, 16) for x in (one, two, three)]
        file = b"".join(part + rest for part in parts) + bytes([255]) * (29 * length // 8)
        made = lanes.data_of([255] * 8, 16)  # 256 - 128 x 256 / 32768
        wanted = file[: length // 8] + made + bytes(length // 8 - 16) + file[length // 4 :]
        if execution.run(length, file, False, [model.encode(op)[1]]).file != wanted:
            yield f"into the register of the element at {length}"


def main():
    faults = model.self_check() + lanes.self_check() + execution.self_check()
    faults += [*runs(), *scalar(), *cleared()]
    for fault in faults:
        print(f"execution: {fault}")
    print(f"execution: {len(faults)} faults")
    return 1 if faults else 0


if __name__ == "__main__":
    sys.exit(main())
