#!/usr/bin/env python3
"""Turns the proof files of an older Rattle (Proof.antt with its Tie) into Invariants.antt and Answers.antt.

    rt check --generated NAMES --old-names      in the crate, with NAMES a folder: it writes NAMES/names.json
    python3 tools/answers.py CRATE NAMES        at the top of the checkout

Answers that are only `search rules` go: the check finds them. What the script cannot turn it leaves in the text, and the check says so.
"""
import glob
import json
import os
import re
import sys

NAME = r"[^\W\d][\w'-]*"


def canon(name):
    name = name.replace('type_size', 'size-of').replace('_', '-').lower().replace('isplace', 'place')
    return re.sub(r'([a-z])-(\d+)$', r'\1\2', name)


def labels():
    """For each function by path, the labels of its requires and ensures, where there are several."""
    found = {}
    for path in glob.glob('crates/*/src/**/*.rt', recursive=True):
        crate = path.split('/')[1]
        module = [m for m in path.split('/src/')[1][:-3].split('/') if m not in ('lib', 'main')]
        with open(path, encoding='utf-8') as f:
            text = f.read()
        spots = [(m.start(), m.group(1)) for m in re.finditer(r'^\s*(?:pub(?:\([a-z]+\))? )?(?:const )?fn (\w+)', text, re.M)]
        for (at, name), (end, _) in zip(spots, spots[1:] + [(len(text), '')]):
            head = re.split(r'\n\s*\{\n', text[at:end])[0]
            muts = re.findall(r'(\w+): &(?:\'\w+ )?mut|(&mut self)', re.split(r'\n?\s*(?:requires|ensures)', head)[0])
            kinds = {k: re.findall(r'^\s*%s\s+(?:(\w+)\s+)?\{' % k, head, re.M) for k in ('requires', 'ensures')}
            kinds['muts'] = [m[0] or 'self' for m in muts]
            owner = None
            for m in re.finditer(r'^impl(?:<[^>]*>)? (\w+)', text[:at], re.M):
                owner = m.group(1)
            for mid in ([], [owner] if owner else []):
                found['::'.join([crate] + module + mid + [name])] = kinds
    return found


def split_items(text):
    """Top-level items: (comment lines, name, signature, body lines)."""
    items, lines, i = [], text.split('\n'), 0
    chunk = []
    for line in lines:
        starts = line and not line[0].isspace()
        if starts:
            chunk.append([line])
        elif chunk:
            chunk[-1].append(line)
        else:
            chunk.append([line])
    return [''.join(l + '\n' for l in c).rstrip('\n') for c in chunk]


class Function:
    def __init__(self, names, params, all_labels):
        self.names = names
        self.places = names['places']
        self.index = {canon(p[0]): i for i, p in enumerate(self.places)}
        self.new_place = dict((canon(p[0]), q) for p, q in zip(self.places, names['places_by_name']))
        self.fields, self.callee = {}, {}
        for place, parent, (old, new), callee, more in self.places:
            self.fields[canon(old)] = new
            if callee:
                self.callee[canon(old)] = callee
        self.needs = [(canon(a), b) for a, b in names['needs']]
        self.goals, self.at = {}, {}
        for (a, b), (old, new) in zip(self.needs, names['asked_at']):
            self.goals.setdefault(a, b)
            self.at.setdefault(b, canon(old))
        self.settled = {canon(x) for x in names['settled']}
        self.loops = {canon(l[0][0]): l[0][1] for l in names['loops']}
        self.labels = all_labels
        self.params = {canon(p): p for p in params}
        for a, b in names['args']:
            if a.startswith('.args'):
                self.params[canon(a.split('.')[-1].strip())] = b.split('.')[-1].strip()
        self.pre = (names.get('pre') or {}).get('fields') or []

    def goal(self, name):
        for n in (name, re.sub(r'^overflow-', '', name)):
            if canon(n) in self.goals:
                return self.goals[canon(n)]
        for n in (name, re.sub(r'^overflow-', '', name)):
            if canon(n) in self.settled or canon(name) in self.settled:
                return ''
        return None

    def step(self, place, old, rest):
        """The new name of a step's field, seen from a place, and what is left of the path."""
        at = place
        while at is not None:
            p = self.places[at]
            if canon(p[2][0]) == canon(old) and p[2][0]:
                break
            at = self.index.get(canon(p[1])) if p[1] else None
        # Arms have names of their own.
        around = [i for i in ([place] if place is not None else []) if i is not None]
        chain, k = [], place
        while k is not None:
            chain.append(k)
            k = self.index.get(canon(self.places[k][1])) if self.places[k][1] else None
        for k in chain:
            arm = self.names['arms'][k]
            if not arm:
                continue
            hits = [(new, len(sub)) for new, step, sub in arm[2] if canon(step) == canon(old) and [canon(x) for x in sub] == [canon(x) for x in rest[:len(sub)]]]
            if hits and (at is None or k == at or canon(self.places[at][2][0]) == canon(old)):
                new, n = max(hits, key=lambda h: h[1])
                if new.endswith('-own'):
                    return arm[0] + '.' + new, rest[n:], None
                return arm[0] + '.' + new, rest[n:], None
        if at is not None:
            return self.places[at][2][1], rest, self.places[at][3]
        if canon(old) in self.fields:
            return self.fields[canon(old)], rest, self.callee.get(canon(old))
        return old, rest, None

    def path(self, place, parts):
        """Today's path for what follows the record's name."""
        while parts and parts[0] == 'before':
            parent = self.places[place][1] if place is not None else None
            place = self.index.get(canon(parent)) if parent else place
            parts = parts[1:]
        if not parts:
            return []
        head, rest = parts[0], parts[1:]
        if head in ('args', 'ranges'):
            return [head] + ([self.params.get(canon(rest[0]), rest[0])] + rest[1:] if rest else [])
        if head == 'requires':
            return [head] + nested(self.pre, rest)
        if canon(head) in ('auto', 'type-inv', 'well-formed'):
            return [head.replace('-', '_')] + rest
        new, rest, callee = self.step(place, head, rest)
        rest = ['type_inv' if x in ('type-inv', 'type_inv') else x for x in rest]
        if callee and len(rest) > 1 and rest[0] == 'ensures' and rest[1].isdigit():
            kinds = self.labels.get(callee, {}).get('ensures', [])
            rest = ['ensures'] + nested(kinds if len(kinds) > 1 else [], rest[1:])
        if callee and len(rest) > 1 and rest[0] == 'auto' and rest[1].isdigit():
            muts = self.labels.get(callee, {}).get('muts', [])
            if len(muts) == 1:
                while len(rest) > 1 and rest[1].isdigit():
                    del rest[1]
                rest.insert(1, muts[0])
            else:
                rest = ['auto'] + nested(muts, rest[1:])
        if callee and len(rest) > 1 and rest[0] == 'new' and rest[1].isdigit():
            muts = self.labels.get(callee, {}).get('muts', [])
            if muts:
                rest = ['new', muts[int(rest[1])]] + rest[2:]
        if len(rest) > 1 and rest[0] in ('loop',):
            pass
        return [new] + rest

    def as_record(self, goal, body):
        """What a call requires under several labels is a record of them, where it was a tuple."""
        m = re.match(r'(\w+)(?:-[\w-]+?)?-requires', goal)
        callee = [c for c in self.names['params'] if m and c.split('::')[-1] == m.group(1)]
        labels = self.labels.get(callee[0], {}).get('requires', []) if callee else []
        if len(labels) < 2 or not all(labels):
            return body
        text = body.rstrip()
        if not text.endswith(')'):
            return body
        depth = 0
        for i in range(len(text) - 1, -1, -1):
            depth += (text[i] == ')') - (text[i] == '(')
            if not depth:
                break
        if i and not re.search(r'(^|\bin\s*|=\s*|^\s*)$', text[:i].rstrip(' \n')) and text[:i].strip() and not text[:i].rstrip().endswith(' in'):
            return body
        parts, rest = [], text[i:]
        for k in range(len(labels) - 1):
            items = commas(rest.strip()[1:-1])
            if len(items) != 2 and not (len(items) == len(labels) and k == 0):
                return body
            if len(items) == len(labels) and k == 0 and len(labels) > 2:
                parts = items
                break
            parts.append(items[0])
            rest = items[1]
        if len(parts) < len(labels):
            parts.append(rest.strip())
        return text[:i] + 'record { %s }' % '; '.join('%s = %s' % (l, p.strip()) for l, p in zip(labels, parts))

    def up(self, place, befores):
        for _ in range(befores):
            parent = self.places[place][1] if place is not None else None
            place = self.index.get(canon(parent)) if parent else place
        return place

    def body(self, text, start, lets=None):
        """The text with the paths of the records in `start`, a name for each with its place, respelled. Other names for these records go,
        and what lemmas say of a record becomes a `let` in front."""
        own = lets is None
        lets = {} if own else lets
        known = dict(start)
        root = {n: 'c' for n in known}
        arguments_of = set()
        out, i = '', 0
        let = re.compile(r"let (%s) = (%s)((?:\.before)*) in\s*" % (NAME, NAME))
        args = re.compile(r"let (%s) = (%s)((?:\.before)*)\.args in" % (NAME, NAME))
        path = re.compile(r"(%s)((?:\.[\w'-]+)+)" % NAME)
        word = re.compile(NAME)
        use = re.compile(r"(%s) (%s)((?:\.before)*)(?![\w'.-])" % (NAME, NAME))
        depth, hidden = 0, []
        lam = re.compile(r"λ ([^.()]*)\.(?=\s)")
        while i < len(text):
            if i and re.match(r"[\w.'-]", text[i - 1]) and re.match(r"[\w']", text[i]):
                out += text[i]
                i += 1
                continue
            # A λ's own variables hide records of the same name up to the end of its parentheses.
            m = lam.match(text, i)
            if m:
                for name in m.group(1).split():
                    if name in known:
                        hidden.append((depth, name, known.pop(name), root.pop(name)))
                out += m.group(0)
                i = m.end()
                continue
            if text[i] in '([{':
                depth += 1
            elif text[i] in ')]}':
                depth -= 1
                while hidden and hidden[-1][0] > depth:
                    _, name, place, r = hidden.pop()
                    known[name], root[name] = place, r
            m = let.match(text, i)
            if m and m.group(2) in known:
                known[m.group(1)] = self.up(known[m.group(2)], m.group(3).count('.before'))
                root[m.group(1)] = 'c'
                i = m.end()
                continue
            m = args.match(text, i)
            if m and m.group(2) in known:
                arguments_of.add(m.group(1))
                out += 'let %s = c.args in' % m.group(1)
                i = m.end()
                continue
            m = use.match(text, i)
            if m and m.group(1) in self.lemmas and m.group(2) in known:
                place = self.up(known[m.group(2)], m.group(3).count('.before'))
                out += self.lemma(m.group(1), place, lets)
                i = m.end()
                continue
            if m and m.group(1) in self.answers and m.group(2) in known:
                goal = self.answers[m.group(1)]
                place = dict((b, new) for (a, b), (old, new) in zip(self.needs, self.names['asked_at']))
                if place[goal] == place[self.current]:
                    out += goal + ' c'
                else:
                    self.places_used.add(place[goal])
                    out += '%s (goal.at.%s c).%s' % (goal, self.current, place[goal])
                i = m.end()
                if text[i:i + 3] == ' tt':
                    i += 3
                continue
            m = path.match(text, i)
            if m:
                parts = m.group(2)[1:].split('.')
                if m.group(1) in known:
                    new = self.path(known[m.group(1)], parts)
                    whole = '.'.join(['c'] + new)
                    if re.search(r'-own\.keys\d+$', whole):
                        whole = '(opened %s)' % whole
                    whole = re.sub(r'(\.(?:wrapping|overflowing|checked|saturating)_\w+(?:-[\w-]+)?\.ensures)$', r'\1.value', whole)
                    out += whole
                elif m.group(1) in arguments_of:
                    out += '.'.join([m.group(1), self.params.get(canon(parts[0]), parts[0])] + parts[1:])
                else:
                    out += m.group(0)
                i = m.end()
                continue
            m = word.match(text, i)
            if m:
                field = re.match(r'\s*=(?!=)', text[m.end():]) and not re.search(r'let $', out)
                out += m.group(0) if field else root.get(m.group(0), m.group(0))
                i = m.end()
                continue
            out += text[i]
            i += 1
        out = re.sub(r"not-(?:true|false) ((?:%s)(?:\.[\w'-]+)*) ((?:%s)\.if-not-[\w'-]+\.(?:true|false))" % (NAME, NAME), r'\2', out)
        if own and lets:
            out = ''.join('\n    let %s : %s = %s in' % v for v in lets.values()) + ('' if out.startswith('\n') else '\n    ') + out
        return out

    def lemma(self, name, place, lets):
        if (name, place) not in lets:
            var, extra, kind, params, eq, unf = self.lemmas[name]
            self.opened |= set(unf)
            kind = self.body(kind, {var: place}, lets)
            eq = self.body(eq, {params[0]: place}, lets)
            if extra:
                kind = extra + ' → ' + kind
            if len(params) > 1:
                eq = 'λ %s. %s' % (' '.join(params[1:]), eq.strip())
            count = sum(1 for k in lets if k[0] == name)
            lets[(name, place)] = (name if not count else '%s-%d' % (name, count + 1), kind.strip(), eq.strip())
        return lets[(name, place)][0]


def nested(labels, rest):
    """Several clauses were pairs in pairs, (first, (second, third)); today they have names."""
    at, rest = 0, list(rest)
    while labels and rest and rest[0].isdigit():
        if rest[0] == '0':
            return [labels[at]] + rest[1:]
        at, rest = at + 1, rest[1:]
        if at == len(labels) - 1:
            return [labels[at]] + rest
    return rest


def read_lemma(name, parts):
    """A lemma over one of the records: its variable, further binders, its type, the equation's names, its right side, what it opens."""
    if len([p for p in parts if re.match(re.escape(name) + r"[\s]", p) and not re.match(re.escape(name) + r"\s*:", p)]) != 1:
        return None
    m = re.match(r"(?:abbrev )?%s\s*:\s*\((%s) : tie\.[\w'-]+(?: (?:invariant|decreases)-[\w'-]+)*\)((?: \([^()]*\)| \{[^{}]*\})*) →\s*(.*)" % (re.escape(name), NAME), parts[0], re.S)
    eq = re.match(r"%s((?:\s+[^\s=]+)*)\s*=(.*)" % re.escape(name), parts[-1], re.S)
    if not m or not eq:
        return None
    unf = [w for p in parts[1:-1] for w in p.split()[1:]]
    return m.group(1), m.group(2).strip(), m.group(3), eq.group(1).split(), eq.group(2), unf


def convert(folder, names, crate, all_labels):
    path = os.path.join(folder, 'Proof.antt')
    with open(path, encoding='utf-8') as f:
        text = f.read()
    if ' as tie' not in text:
        return 'by hand'
    rel = folder.split('/proofs/')[1].split('/')
    f = Function(names, f_args.get('.'.join(rel), []), all_labels)
    module = 'Rattle.%s.proofs.%s' % (crate, '.'.join(rel))
    uses, comments, invariants, answers = [], [], [], []
    spec = None
    for item in split_items(text):
        if item.startswith('use '):
            if not re.search(r'\.(Statement|Tie)(\.| as )', item):
                uses.append(item)
        elif item.startswith('--'):
            comments.append(item)
        elif re.match(r'pub [\w-]+[-_]spec :', item):
            pass
        elif re.match(r'[\w-]+[-_]spec =', item):
            spec = item
        else:
            answers.append(item)
    # Items come as signature, `unfolding`, equations: join those of one name.
    joined, order = {}, []
    for item in answers:
        m = re.match(r"(?:abbrev |pub |unfoldable |record |data |module )*(%s)" % NAME, item)
        if item.startswith('unfolding'):
            joined[order[-1]].append(item)
            continue
        name = m.group(1) if m else item[:20]
        if item.startswith(('module', 'record', 'data', 'pub record', 'pub data')):
            name = item[:60]
        if name not in joined:
            joined[name] = []
            order.append(name)
        joined[name].append(item)
    out, inv = [], []
    f.lemmas, f.opened, f.answers, f.places_used = {}, set(), {}, set()
    for name in order:
        m = re.match(r"(?:pub )?%s\s*:\s*tie\.Need-([\w'-]+)" % re.escape(name), joined[name][0])
        if m and f.goal(m.group(1)):
            f.answers[name] = f.goal(m.group(1))
    referenced = {n for n in f.answers if any(re.search(r"(?<![\w.'-])%s(?= [a-zA-Z])(?! :)(?! c\b[^.]*=)" % re.escape(n), '\n'.join(joined[o][1:])) for o in order if o != n)}
    for name in order:
        if 'tie.Need' not in joined[name][0] and re.search(r': tie\.', joined[name][0]) and not joined[name][0].startswith('abbrev'):
            found = read_lemma(name, joined[name])
            if found:
                f.lemmas[name] = found
            else:
                print('  %s: the lemma %s is by hand' % ('.'.join(rel), name))
    named = {}
    for name in order:
        parts = joined[name]
        head = parts[0]
        m = re.match(r"(?:pub )?%s\s*:\s*tie\.Need-([\w'-]+)" % re.escape(name), head)
        n = re.match(r"abbrev (?:pub )?%s\s*:\s*tie\.(invariant|decreases)-([\w'-]+)" % re.escape(name), head)
        if n:
            loop = f.loops.get(canon(n.group(2)), n.group(2))
            goal = '%s-%s' % (n.group(1), loop)
            eq = parts[-1]
            k = re.match(r"%s\s+(.*?)\s*=\s*(.*)" % re.escape(name), eq, re.S)
            params, body = k.group(1).split(), k.group(2)
            bound = {w for m in re.findall(r'λ ([^.]*)\.', body) for w in m.split()}
            plain = {p for p in params if not p.endswith('₀')} - bound
            start = {p for p in params if p.endswith('₀')}

            def var(mm):
                w = mm.group(0)
                if re.match(r'\s=\s', mm.string[mm.end():]):
                    return w
                if w in start:
                    return ('l.fn.%s' if w[:-1] in arg_names else 'l.initial.%s') % w[:-1]
                if w in plain:
                    return 'l.%s' % w
                return w
            arg_names = set(f_args.get('.'.join(rel), []))
            pattern = r"(?<![\w.'-])[^\W\d][\w'₀-]*"
            for p in f_signed.get('.'.join(rel), []):
                body = re.sub(r"to_z w\d+ %s(?![\w'])" % re.escape(p), p, body)
            body = re.sub(pattern, var, body)
            body = re.sub(r'\((l\.[\w.]+)\)', r'\1', body)
            unf = [p for p in parts[1:-1]]
            inv.append('\n'.join(['abbrev pub %s : goal.%s' % (goal, goal)] + unf + ['%s l = %s' % (goal, body)]))
        elif m:
            goal = f.goal(m.group(1))
            named[name] = goal
            eq = parts[-1]
            k = re.match(r"%s((?:\s+[^\s=]+)*)\s*=\s*(.*)" % re.escape(name), eq, re.S)
            args, body = k.group(1).split(), k.group(2)
            unf = [p for p in parts[1:-1]]
            if body.strip() == 'search rules' and not unf and name not in referenced:
                continue
            if goal == '':
                continue
            if goal is None:
                out.append('-- LEFT: no goal for %s\n-- %s' % (m.group(1), body.replace('\n', '\n-- ')))
                continue
            args = [a for a in args if a not in ('κs', 'κ')]
            f.opened = set()
            f.current = goal
            body = f.body(body, {args[0]: f.index.get(f.at[goal])})
            body = f.as_record(goal, body)
            args[0] = 'c'
            missing = sorted(f.opened - {w for u in unf for w in u.split()[1:]})
            if missing:
                unf = ['unfolding ' + ' '.join([w for u in unf for w in u.split()[1:]] + missing)]
            out.append('\n'.join(['pub %s : goal.%s' % (goal, goal)] + unf + ['%s %s = %s' % (goal, ' '.join(args), body.strip('\n'))]) if not body.startswith('\n') else
                       '\n'.join(['pub %s : goal.%s' % (goal, goal)] + unf + ['%s %s =%s' % (goal, ' '.join(args), body)]))
        elif name in f.lemmas:
            continue
        else:
            t = '\n'.join(parts)
            start = {v: f.index.get(canon(p)) for v, p in re.findall(r"\((%s) : tie\.([\w'-]+)" % NAME, t)}
            for eq in parts[1:]:
                heads = re.match(r"%s((?:\s+[^\s=]+)*)\s*=" % re.escape(name), eq)
                if heads and len(start) == 1:
                    first = heads.group(1).split()
                    if first and first[0] not in start:
                        start[first[0]] = list(start.values())[0]
            t = re.sub(r"tie\.([\w'-]+)((?: (?:invariant|decreases)-[\w'-]+)*)", lambda mm: 'goal.' + f.new_place.get(canon(mm.group(1)), mm.group(1)), t)
            t = re.sub(r"\{M : Type 1\} → ", '', t)
            out.append(f.body(t, start))
    # Answers written in the call itself.
    if spec:
        call = re.search(r'tie\.spec\s*(.*)\)\s*$', spec, re.S)
        if call:
            args = arguments(call.group(1))
            args = [a for a in args if not re.match(r'(invariant|decreases)-', a)]
            if len(args) == len(f.needs):
                for a, (_, goal) in zip(args, f.needs):
                    k = re.match(r'\(λ c((?: κs)?)\.\s*(.*)\)$', a, re.S)
                    f.current = goal
                    if k and k.group(2).strip() != 'search rules':
                        out.append('pub %s : goal.%s\n%s c = %s' % (goal, goal, goal, f.body(k.group(2), {'c': f.index.get(f.at[goal])})))
            else:
                print('  %s: %d answers for %d goals' % ('.'.join(rel), len(args), len(f.needs)))
                settled = names['settled']
                if any(re.match(r'\(λ', a) and 'search rules' not in a for a in args):
                    print('    some are written in the call')
    body = '\n'.join(out)
    if '(opened c.' in body:
        uses.insert(0, 'use borrow.Enum.Refused.{opened}')

    def wanted(lines, t):
        kept = []
        for u in lines:
            m = re.match(r'use ([\w.·]+)\.\{(.*)\}$', u)
            if not m:
                kept.append(u)
                continue
            items = [x.strip() for x in m.group(2).split(',')]
            keep = []
            for x in items:
                n = x.split(' as ')[-1].strip()
                if n.startswith('◌') or n.endswith('◌') or '◌' in n:
                    core = [p for p in n.split('◌') if p]
                    ok = all(c in t for c in core) if core else True
                else:
                    ok = re.search(r"(?<![\w'-])%s(?![\w'-])" % re.escape(n), t) is not None
                if ok:
                    keep.append(x)
            if keep:
                kept.append('use %s.{%s}' % (m.group(1), ', '.join(keep)))
        return kept
    head = '\n'.join(c for c in comments if not re.match(r'-- Assumes nothing', c))
    comment = head.split('\n')[0] if head else ''
    os.remove(path)
    if inv:
        t = '\n'.join(inv)
        with open(os.path.join(folder, 'Invariants.antt'), 'w', encoding='utf-8') as g:
            g.write('\n'.join(([comment] if comment else []) + wanted(uses, t) + ['use %s.Given as goal' % module, '', '\n\n'.join(inv)]) + '\n')
    if out:
        with open(os.path.join(folder, 'Answers.antt'), 'w', encoding='utf-8') as g:
            g.write('\n'.join(([comment] if comment and not inv else []) + wanted(uses, body) + ['use %s.Goals as goal' % module] + (['use %s.Goals.{%s}' % (module, ', '.join(sorted(f.places_used)))] if f.places_used else []) + ['', '\n\n'.join(out)]) + '\n')
    if not inv and not out:
        os.rmdir(folder)
    return 'turned'


def commas(text):
    out, depth, word = [], 0, ''
    for ch in text:
        depth += (ch in '([{') - (ch in ')]}')
        if ch == ',' and not depth:
            out.append(word)
            word = ''
        else:
            word += ch
    return out + ([word] if word.strip() else [])


def arguments(text):
    out, depth, word = [], 0, ''
    for ch in text:
        if ch in '([{':
            depth += 1
        if ch in ')]}':
            depth -= 1
        if ch.isspace() and not depth:
            if word:
                out.append(word)
            word = ''
        else:
            word += ch
    if word:
        out.append(word)
    return out


f_args = {}
f_signed = {}


def read_args(crate):
    """The parameters of each function, by its folder."""
    for path in glob.glob('crates/%s/src/**/*.rt' % crate, recursive=True):
        module = [m for m in path.split('/src/')[1][:-3].split('/') if m not in ('lib', 'main')]
        with open(path, encoding='utf-8') as f:
            text = f.read()
        for m in re.finditer(r'fn (\w+)(?:<[^>]*>)?\(([^)]*)\)', text):
            params = [p.split(':')[0].replace('mut ', '').replace('&', '').strip() for p in m.group(2).split(',') if p.strip()]
            for mid in ([],) + tuple([[o.group(1)]] for o in [])[0:0]:
                f_args['.'.join(module + mid + [m.group(1)])] = params
            owner = None
            for o in re.finditer(r'^impl(?:<[^>]*>)? (\w+)', text[:m.start()], re.M):
                owner = o.group(1)
            f_signed['.'.join(module + ([owner] if owner else []) + [m.group(1)])] = re.findall(r'(\w+): i(?:8|16|32|64)\b', m.group(2))
            f_signed['.'.join(module + [m.group(1)])] = re.findall(r'(\w+): i(?:8|16|32|64)\b', m.group(2))
            if owner:
                f_args['.'.join(module + [owner, m.group(1)])] = params


def main():
    crate, folder = sys.argv[1:3]
    with open(os.path.join(folder, 'names.json'), encoding='utf-8') as f:
        names = json.load(f)
    read_args(crate)
    all_labels = labels()
    for path in sorted(glob.glob('crates/%s/proofs/**/Proof.antt' % crate, recursive=True)):
        where = os.path.dirname(path)
        key = 'Rattle-%s-proofs.%s.Lts' % (crate, '.'.join(where.split('/proofs/')[1].split('/')))
        if key not in names:
            print('  no names for', where)
            continue
        said = convert(where, names[key], crate, all_labels)
        if said != 'turned':
            print('  %s: %s' % (where, said))


main()
