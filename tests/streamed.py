"""What the program replay_files prints of a trace that comes in pieces: its lines, its counts and its progress.

Written from docs/replay.md alone, over the models of replay and of the lines on a trace that is checked whole.
"""

import struct

import replay
import verdicts
from replay import BAD_CONTENTS, BAD_TOTAL, MOST_CASES

MEBIBYTE = 2**20


def number_fault(trace):
    """What is wrong with the first number of the contents that is not allowed; None where all that came are."""
    if len(trace) < 4:
        return None
    (cases,) = struct.unpack_from("<I", trace)
    if not 1 <= cases <= MOST_CASES:
        return verdicts.contents_fault(trace[:4])
    due = 4 + 12 * cases
    whole = (min(len(trace), due) - 4) // 4
    given = struct.unpack_from(f"<{whole}I", trace, 4)
    for k in range(cases):
        entry = given[3 * k : 3 * k + 3]
        length, words, start = entry + (128, 0, due)[len(entry) :]  # what is not there is no fault
        fault = verdicts.entry_fault(k, length, words, start, due)
        if fault:
            return fault
        due += 8 + 8 * length + 4 * words
    return None


def refused(trace, entries, end, judged):
    """The number and what is wrong; None where the trace is taken."""
    if not entries:
        return BAD_CONTENTS, number_fault(trace) or verdicts.contents_fault(trace)
    if judged < len(entries):
        length, words, start = entries[judged]
        takes = 8 + 8 * length + 4 * words
        return BAD_TOTAL, f"case {judged}: the body takes {takes} bytes, {len(trace) - start} of them came"
    if len(trace) > end:
        return BAD_TOTAL, f"the contents say {end} bytes, the trace has more"
    return None


def told(name, trace):
    """The lines; the cases judged, those that agree, and 1 for a trace that is refused; and the progress."""
    entries, end = replay.contents(trace)
    rows, passed, agree = [], [], 0
    for n, entry in enumerate(entries):
        last = entry.start + 8 + 8 * entry.length + 4 * entry.words
        if len(trace) < last:
            break
        verdict = replay.verdict(entry.length, replay.body_of(trace, entry))
        rows.append([n, entry.length, entry.words, *verdicts.columns(trace, entry, *verdict)])
        agree += verdict[0] == replay.AGREES
        if entry.start // MEBIBYTE < last // MEBIBYTE:
            passed.append([f"{n + 1} of {len(entries)} cases, {last} bytes"])
    judged = len(rows)
    fault = refused(trace, entries, end, judged)
    if fault:
        rows.append(["refused", *fault])
    return put(name, rows), (judged, agree, int(fault is not None)), put(name, passed)


def put(name, rows):
    return b"".join(b"%s\t%s\n" % (verdicts.shown(name), "\t".join(map(str, row)).encode("ascii")) for row in rows)
