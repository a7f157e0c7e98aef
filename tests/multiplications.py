#!/usr/bin/env python3
"""Holds the crates to one multiplication: of two numbers of 16 bits into 32, in common::multiply::multiply.

    python3 tests/multiplications.py [--lowered]

It reads the sources of all crates, the programs' too. A `*` behind an operand is a multiplication, and so are `*=` and a
method of the library that multiplies; one in a comment, a contract, a `ghost use` or a literal is none, and one with no
operand before it is a dereference. Behind a closing brace it counts as a multiplication: whether the block is an operand
is not looked into. It then tries itself on trees with a second multiplication, and on trees with what only looks like one.

--lowered reads the MIR of what the archive is made of, once ./kob staticlib has built it, and holds that to the same: it
is what is proved and compiled. That of a library stands in its rlib, of this checkout or of the kit; a crate for C has
none, so it is built as a library, in a folder of its own. What counts is what the calls for C reach. An index of the
language's own is a multiplication there, by the size of an element, a power of two (in a generic function of the kit by a
size that it does not name); every other product counts.
"""

import functools
import json
import re
import subprocess
import sys
import tempfile
from concurrent.futures import ThreadPoolExecutor
from pathlib import Path

sys.dont_write_bytecode = True  # the repository stays as it was
from scenario import Fault, run_all

ROOT = Path(__file__).resolve().parent.parent
PLACE = "crates/common/src/multiply.rt", "multiply"
FUNCTION = "pub fn multiply ( a : u16 , b : u16 ) - > u32 { ( a as u32 ) * ( b as u32 ) }"
LOWERED = "common::multiply::multiply"

TOKEN = re.compile(
    r"""(?P<none>\s+|//[^\n]*|/\*.*?\*/)
    |(?P<literal>b?"(?:\\.|[^"\\])*"|b'(?:\\.|[^'\\])+')
    |(?P<word>\w+)
    |(?P<mark>'\w+|\*=|.)""",
    re.DOTALL | re.VERBOSE,
)
CLAUSE = re.compile(r"(?:requires|ensures|ghost)\b\*?\s*(?:\w+\s*:?\s*)?\{")
GHOST_USE = re.compile(r"ghost\s+use\b[^;]*;")
# Methods and functions of the library that multiply, such as `wrapping_mul` and `pow`.
MULTIPLIES = re.compile(r"(?:\w+_)?(?:mul|pow)(?:_\w+)?")
# Words behind which an operand is still to come.
OPENING = {"else", "if", "in", "let", "match", "mut", "return", "while"}


# ---- the sources


def behind_clause(text, at):
    """The place behind a contract's text, whose braces begin before the place given."""
    depth = 1
    while depth:
        if at == len(text):
            raise Fault("a contract with no end")
        depth += {"{": 1, "}": -1}.get(text[at], 0)
        at += 1
    return at


def tokens(text):
    """(line, kind, token) of each token of the code: no comments, no contracts."""
    at = 0
    while at < len(text):
        ghost = GHOST_USE.match(text, at)
        clause = CLAUSE.match(text, at)
        if ghost or clause:
            at = ghost.end() if ghost else behind_clause(text, clause.end())
            continue
        token = TOKEN.match(text, at)
        if token.lastgroup != "none":
            yield text.count("\n", 0, at) + 1, token.lastgroup, token[0]
        at = token.end()


@functools.cache
def multiplications(text):
    """(line, function) of each multiplication."""
    found, function, before = [], "", ""
    operand = False  # whether the last token ends one
    for line, kind, token in tokens(text):
        if before == "fn":
            function = token
        if token == "*=" or token == "*" and operand or before in (".", ":") and MULTIPLIES.fullmatch(token):
            found.append((line, function))
        operand = kind == "literal" or token in (")", "]", "}") or kind == "word" and token not in OPENING
        before = token
    return found


def check(sources):
    """Holds the sources, {path: text}, to the one multiplication."""
    found = [(path, line, function) for path, text in sorted(sources.items()) for line, function in multiplications(text)]
    others = [f"{path}:{line}" for path, line, function in found if (path, function) != PLACE]
    if others:
        raise Fault(f"a multiplication at {', '.join(others)}: products come from {'::'.join(PLACE)}, the rest is shifts and sums")
    words = " ".join(token for _, _, token in tokens(sources.get(PLACE[0], "")))
    if len(found) != 1 or FUNCTION not in words:
        raise Fault(f"{PLACE[0]}: its one multiplication is not `{FUNCTION}`")


# ---- trials: a tree with a second multiplication is refused, one with what only looks like it passes

SECOND = {
    "in the place of a product": ("crates/kernel/src/lane16.rt", "product(a, b), minus) >> 15", "(a as i32) * (b as i32), minus) >> 15"),
    "of halves, with no spaces": ("crates/kernel/src/product64.rt", "half_product(u1, v1)", "u1*v1"),
    "of a place": ("crates/capi_stream/src/marks.rt", "i << 2", "i * 4"),
    "beside the one": (PLACE[0], "(a as u32) * (b as u32)", "(a as u32) * (b as u32) * 1"),
    "wider than the one": (PLACE[0], "(a: u16, b: u16) -> u32", "(a: u32, b: u32) -> u32"),
    "none": (PLACE[0], "(a as u32) * (b as u32)", "(a as u32) + (b as u32)"),
    "the one under another name": (PLACE[0], "pub fn multiply", "pub fn times"),
}
MORE = {
    "that stores": "fn f(x: &mut u64) { *x *= 3; }",
    "over three lines": "fn f(a: u64, b: u64) -> u64 {\n    a // of\n        * b\n}",
    "of an element": "fn f(s: [u8; 2]) -> u8 { s[0] * 2 }",
    "of what is referred to": "fn f(a: &u8, b: &u8) -> u8 { *a * *b }",
    "of a literal": "fn f(a: u8) -> u8 { b'a' * a }",
    "of a block": "fn f(a: bool) -> u8 { let n = if a { 1 } else { 2 } * 3; n }",
    "in a constant": "const SIZE: usize = 4 * 2048;",
    "in an array's length": "fn f() -> [u8; 2 * 8] { [0; 16] }",
    "behind a contract": "fn f(a: u8) -> u8\n    requires { a * 2 < 4 }\n    ensures small { g {n = 2} a ≡ result }\n{ a * 2 }",
    "by a method": "fn f(a: u32) -> u32 { a.wrapping_mul(3) }",
    "by a function of the library": "fn f(a: u32) -> u32 { u32::pow(a, 2) }",
    "behind a text": 'fn f(a: u8) -> u8 { put(b"\\" // \\\\"); a * 2 }',
    "behind a quotation mark": "fn f(a: u8) -> u8 { put(b'\"'); put(b'\\''); a * 2 }",
    "behind a lifetime": "fn f<'a>(a: &'a u8) -> u8 { 2 * *a }",
}
NONE = {
    "a comment": "// a * b\nfn f() -> u8 { 2 /* a * b */ }",
    "a contract": "fn f(a: u8) -> u8\n    requires { a * 2 < 4 }\n    ensures small { g {n = 2} (a * 2) ≡ result }\n    ensures* { a * 2 }\n{ a }",
    "a ghost field": "struct S {\n    n: u8,\n    ghost twice: { n * 2 };\n}",
    "an import": "ghost use Rattle.std.specs.Prelude.{◌*◌, ◌+◌};",
    "a text": 'const STAR: [u8; 5] = *b"a * b";',
    "a byte": "fn f(a: u8) -> bool { a == b'*' }",
    "dereferences": "fn f<'a>(x: &'a mut u8, y: &u8) -> u8 { *x = *y; if *y < 3 { return *y; } 1 + *x }",
}


def with_text(sources, path, old, new):
    if sources.get(path, "").count(old) != 1:
        raise Fault(f"{path} has no place, or several, for this trial: {old}")
    return {**sources, path: sources[path].replace(old, new)}


def with_file(sources, text):
    return {**sources, "crates/list/src/planted.rt": text}


def expect_refused(test, planted):
    try:
        test(planted)
    except Fault:
        return
    raise Fault("it was not found")


def trials(sources):
    for name, edit in SECOND.items():
        yield f"a multiplication {name}", lambda *edit: expect_refused(check, with_text(sources, *edit)), *edit
    for name, text in MORE.items():
        yield f"a multiplication {name}", expect_refused, check, with_file(sources, text)
    for name, text in NONE.items():
        yield f"{name}, which is none", check, with_file(sources, text)


# ---- the MIR


def walk(node):
    """Each part of a function's MIR."""
    yield node
    if isinstance(node, (dict, list)):
        for part in node.values() if isinstance(node, dict) else node:
            yield from walk(part)


def is_size(operand):
    """Whether it is a power of two, or the size of a type."""
    if "SizeOf" in operand:
        return True
    number = operand["Int"]["value"] if "Int" in operand else 0
    return number != 0 and number & (number - 1) == 0


def products(function):
    """The products of a function's MIR but for those of an index."""
    for node in walk(function):
        if isinstance(node, dict) and "Op2" in node:
            op, _, second = node["Op2"]
            name = op if isinstance(op, str) else next(iter(op))
            if "Mul" in name and not (name == "Mul" and is_size(second)):
                yield node


class Libraries:
    """The functions of libraries, by the name of each: those of the crates for C as they are given, the others as found."""

    def __init__(self, given, find):
        self.given, self.of, self.find = [*given], given, find

    def __getitem__(self, crate):
        if crate not in self.of:
            self.of[crate] = self.find(crate)
        return self.of[crate]

    def named(self, text):
        """The functions that a text of the MIR can stand for: the one of that name, or the methods of the impl."""
        if "::" in text and re.match(r"\w+::", text):
            functions = self[text.split("::")[0]]
            if text in functions:
                yield text
            yield from (name for name in functions if name.startswith(text + "::"))

    def reached(self):
        """The functions that those of the crates for C reach, these too."""
        left = [name for crate in self.given for name in self.of[crate]]
        found = set(left)
        while left:
            name = left.pop()
            for node in walk(self[name.split("::")[0]][name]):
                more = [it for it in self.named(node) if it not in found] if isinstance(node, str) else ()
                found.update(more)
                left += more
        return found


def check_lowered(libraries):
    """Holds the functions that the crates for C reach to the one multiplication."""
    found = [name for name in sorted(libraries.reached()) for _ in products(libraries[name.split("::")[0]][name])]
    if found != [LOWERED]:
        raise Fault(f"these functions multiply: {', '.join(found) or 'none'}; due: {LOWERED}, once")


def read_mir(rlib):
    try:
        functions = json.loads((rlib / "toolchain/mir.json").read_text())
    except OSError as error:
        raise Fault(f"there is no MIR: {error}; ./kob staticlib builds the libraries")
    return dict(functions)


def uses():
    """The libraries that each crate lists."""
    lines = re.findall(r"^(\w+)(?: staticlib)?:(.*)", (ROOT / "crates.txt").read_text(), re.MULTILINE)
    return {name: listed.split() for name, listed in lines}


def below(crate, listed):
    """The libraries of this checkout that a crate reaches."""
    found = dict.fromkeys(it for it in listed[crate] if it in listed)
    return dict.fromkeys(more for it in found for more in (it, *below(it, listed)))


def rlib_of(crate):
    return ROOT / f"crates/{crate}/out/rlib/{crate}.rlib"


def built_as_library(crate, listed, kit):
    """The MIR of a crate for C, built, and so proved, as a library."""
    words = ["--crate-name", crate, "src/lib.rt", "--links", f"{crate}=", "--jobs", "1"]
    for name in ("std", *listed[crate]):
        words += ["--extern", f"{name}={rlib_of(name) if name in listed else kit / f'rlibs/{name}.rlib'}"]
    for folder in (kit / "rlibs", *(rlib_of(name).parent for name in below(crate, listed))):
        words += ["-L", f"dependency={folder}"]
    words += ["--antt-project", kit / "rattle/logic/antt-project.json", "--logic-built", kit / "logic_built"]
    with tempfile.TemporaryDirectory() as folder:
        rlib = Path(folder) / f"{crate}.rlib"
        command = [kit / "bin/rattle", "build", *words, "-o", rlib]
        ran = subprocess.run(command, cwd=ROOT / f"crates/{crate}", stdout=subprocess.PIPE, stderr=subprocess.STDOUT, text=True)
        if ran.returncode:
            raise Fault(f"rattle build of {crate}: {ran.stdout[-300:]}")
        return read_mir(rlib)


def archive():
    kit = Path(subprocess.run(["rt", "doc"], stdout=subprocess.PIPE, text=True, check=True).stdout.strip()).parent
    listed = uses()
    parts = [crate for crate in listed if re.fullmatch(r"capi\w*", crate)]
    with ThreadPoolExecutor(4) as pool:
        functions = list(pool.map(lambda crate: built_as_library(crate, listed, kit), parts))
    return Libraries(
        dict(zip(parts, functions)), lambda name: read_mir(rlib_of(name) if name in listed else kit / f"rlibs/{name}.rlib")
    )


def check_archive():
    check_lowered(archive())


# ---- trials on a crate for C that calls one function of a library

ONE = {"Op2": [{"Mul": "Unsigned"}, {"Copy": {"local": 3, "steps": []}}, {"Copy": {"local": 4, "steps": []}}]}
INDEX = {"Op2": [{"Mul": "Unsigned"}, {"Copy": {"local": 3, "steps": []}}, {"Int": {"width": 64, "value": 8}}]}
TWELVE = {"Op2": [{"Mul": "Unsigned"}, {"Copy": {"local": 3, "steps": []}}, {"Int": {"width": 64, "value": 12}}]}
WRAPPED = {"Op2": ["WrapMul", {"Copy": {"local": 3, "steps": []}}, {"Int": {"width": 64, "value": 8}}]}


def planted(*assigned):
    """A crate for C whose one function calls the one that multiplies and another, which does this and has an uncalled one beside it."""

    def body(*parts):
        return {"params": 2, "body": ["Seq", *({"Assign": [{"local": 0, "steps": []}, part]} for part in parts), "Return"]}

    def called(name):
        return {"Call": [{"Fn": [name, {"types": [], "dicts": []}]}, [], {"local": 1, "steps": []}]}

    libraries = {
        "common": {LOWERED: body(ONE)},
        "planted": {"planted::f": body(*assigned), "planted::uncalled": body(TWELVE)},
    }
    return Libraries({"capi": {"capi::call": body(called(LOWERED), called("planted::f"))}}, lambda name: libraries.get(name, {}))


def lowered_trials():
    for name, second in {"of two values": ONE, "by twelve": TWELVE, "that wraps": WRAPPED}.items():
        yield f"a multiplication {name}", expect_refused, check_lowered, planted(second)
    yield "no multiplication", expect_refused, check_lowered, Libraries({"capi": {}}, lambda name: {})
    yield "an index, which is none, and one that is not reached", check_lowered, planted(INDEX)


def main():
    if sys.argv[1:] == ["--lowered"]:
        return run_all("multiplications, lowered", [("the archive", check_archive), *lowered_trials()])
    if sys.argv[1:]:
        sys.exit(__doc__)
    sources = {str(path.relative_to(ROOT)): path.read_text() for path in ROOT.glob("crates/*/src/**/*.rt")}
    return run_all("multiplications", [("the tree", check, sources), *trials(sources)])


if __name__ == "__main__":
    sys.exit(main())
