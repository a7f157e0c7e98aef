#!/usr/bin/env python3
"""Respells this repository's definitions and lemmas in snake case: fileOf becomes file_of, cmla-at-H becomes cmla-at-h.

    python3 tools/snake_case.py            the names that change, and any that would fall together
    python3 tools/snake_case.py --write    writes it: .antt files, clauses of .rt files, must-fail edits, pages

Ran once, after the kit's own script, when the repository came to the Rattle of docs/PORT.md. Types, modules and constructors keep
their capitals, and functions of src/, exported C names, strings, inputs and outputs are not touched.
"""
import collections
import glob
import re
import sys

WORD = r"[A-Za-z_][\w'-]*"
# Names that Rattle or its library makes, which keep their spelling.
KEPT = {'shr_slice_Lawful', 'shr_slice_Tells', 'uint_Makes', 'uint_Tells', 'entry_IsPlace', 'walk_Meets'}
TOKEN = re.compile(r"(?<![\w'.-])" + WORD)
TAIL = re.compile(r"(?<![\w'-])" + WORD)


# Constructors and fields of specs/ with a dash: in today's spelling they are words.
DASHED = [
    'bad-contents', 'bad-flag', 'bad-length', 'bad-size', 'bad-total', 'file-differs', 'flag-differs', 'group-start', 'has-not', 'index-limit', 'lane-size',
    'length-fits', 'no-case', 'no-rotation', 'not-power-of-two', 'register-limit', 'second-start',
]
# Names that the kit's own script had turned in specs/ and proofs/, and not in pages and edits.
TURNED = [
    'bodyOf', 'bySize', 'byteAt', 'caseOf', 'casesOf', 'endOf', 'fieldsOf', 'groupOf', 'itemOf', 'lengthAt', 'lineOf', 'nameOf', 'namedOf', 'partAt',
    'partOf', 'partsOf', 'readOf', 'sizeBits', 'sizeOf', 'startAt', 'valuesOf', 'wholeOf', 'wordLine', 'wordOf', 'wordsOf',
]
# Other names under which clauses import definitions.
ALIASES = ['definedRun', 'definedFlags']
# Names that would fall together in one file: (file, old, new), before all else.
APART = [
    ('crates/fields/proofs/Back.antt', 'in_order', 'in_order-numbers_at'),
    ('crates/grammar/proofs/Packed.antt', 'same_text', 'same_text-equal'),
    ('crates/grammar/proofs/Written.antt', 'same_text', 'same_text-equal'),
    ('crates/isa/proofs/Progress.antt', 'in_group', 'in_group-step'),
    ('crates/stream/proofs/Judged.antt', 'allowed_at', 'allowed_at-leb'),
    ('crates/stream/proofs/bodies/is_allowed/Proof.antt', 'allowed_at', 'allowed_at-leb'),
]


def snake(name):
    """fileOf-length: file_of-length; outside-C1: outside-c1; groupH: group_h."""
    name = re.sub(r"([a-z0-9'])([A-Z])", r'\1_\2', name)
    return name.lower()


def antt_files():
    return sorted(glob.glob('crates/*/specs/**/*.antt', recursive=True) + glob.glob('crates/*/proofs/**/*.antt', recursive=True))


def text(path):
    with open(path, encoding='utf-8') as f:
        return f.read()


def code(line):
    """The line without its comment."""
    return line.split('--', 1)[0] if line.lstrip().startswith('--') or ' -- ' in line else line


def camel(name):
    return name[0].islower() and name != name.lower() and name not in KEPT


def main():
    words = collections.Counter()
    where = collections.defaultdict(set)
    for path in antt_files():
        for line in text(path).splitlines():
            for word in TAIL.findall(code(line)):
                words[word] += 1
                where[word].add(path)
    changed = {w: snake(w) for w in words if camel(w)} | {w: w.replace('-', '_') for w in DASHED} | {w: snake(w) for w in ALIASES + TURNED}
    # Names that fall together: the new name is one already, in any file of the repository's specs/ or proofs/.
    taken = {}
    for old, new in sorted(changed.items()):
        if new in words:
            print('together:', old, 'and', new, 'in', sorted(where[old] & where[new])[:3] or 'different files')
        if new in taken:
            print('together:', old, 'and', taken[new])
        taken[new] = old
    rust = ''.join(text(p) for p in glob.glob('crates/*/src/**/*.rt', recursive=True))
    for old, new in sorted(changed.items()):
        if re.search(r'\bfn %s\b' % re.escape(new), rust):
            print('a function of src/ has the name:', old, new)
    print(len(changed), 'names change')
    if '--write' not in sys.argv:
        for old, new in sorted(changed.items()):
            print(old, new)
        return
    pattern = re.compile(r"(?<![\w'-])(%s)(?![\w'-])" % '|'.join(re.escape(w) for w in sorted(changed, key=len, reverse=True)))
    if not any(camel(w) for w in words):
        sys.exit('it ran already')
    for path, old, new in APART:
        before = text(path)
        with open(path, 'w', encoding='utf-8') as f:
            f.write(re.sub(r"(?<![\w'-])%s(?![\w'-])" % re.escape(old), new, before))
    paths = antt_files() + glob.glob('crates/*/must-fail/*.edit') + glob.glob('docs/*.md') + ['README.md']
    for path in sorted(paths + glob.glob('crates/*/src/**/*.rt', recursive=True)):
        before = text(path)
        after = respell(before, path, pattern, changed)
        if after != before:
            with open(path, 'w', encoding='utf-8') as f:
                f.write(after)


def respell(before, path, pattern, changed):
    """Strings and code fences of pages stay."""
    put = lambda m: changed[m.group(1)]
    if path.endswith('.rt'):
        return ''.join(part if i % 2 else pattern.sub(put, part) for i, part in enumerate(re.split(r'("(?:[^"\\\n]|\\.)*")', before)))
    if path.endswith('.md'):
        return ''.join(part if i % 2 else pattern.sub(put, part) for i, part in enumerate(re.split(r'(```.*?```)', before, flags=re.S)))
    return pattern.sub(put, before)


main()
