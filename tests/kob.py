#!/usr/bin/env python3
"""Scenario tests of the command kob: statuses, building, links, installing.

    python3 tests/kob.py

It tries a copy of the checkout, in a folder with a space in its name, with a stand-in for rt that is as slow as told and hands
out what kob has built in this checkout (target/bin, target/staticlib); and, with the kit's rt, the tar that 'kob dist' makes.
"""

import itertools
import os
import pty
import re
import resource
import select
import shutil
import signal
import stat
import subprocess
import sys
import tarfile
import tempfile
import time
import tty
from pathlib import Path

ROOT = Path(__file__).resolve().parent.parent
sys.dont_write_bytecode = True  # the repository stays as it was
sys.path.insert(0, str(ROOT / "reference"))
import streamed
import traces
import verdicts

BUILT = ROOT / "target"
PATIENCE = 60  # seconds in which a command must end by itself
BUILDING = 1800  # seconds in which the kit must have built what the gate has not
NOBODY = 65534
SIGNALS = signal.SIGINT, signal.SIGTERM, signal.SIGHUP, signal.SIGQUIT

WORDS = bytes.fromhex("00D8014500F0002F00000000")
LISTING = b"4501D800 SQCADD\n2F00F000 RESERVED\n00000000 OUTSIDE\nTOTAL 3\n"
FIRST = b"number 0, done 1, lane 0 is 127\n"
UNREAD = b"kob list: the input could not be read\n"
PROGRAMS = "list", "execute", "assemble", "disassemble", "replay_files"

# As rt does, it works in the background, where an interrupt of the keyboard does not reach, in the folder of a crate, and
# tells of proofs on standard output, but under 'run' on standard error. It tells of every crate at once.
RT = """#!/bin/sh
crate=${PWD##*/}
echo "$1 $crate" >>"$RT_LOG"
[ "$1" = version ] && echo 'a stand-in' && exit
[ -z "${RT_DEAF-}" ] || trap '' INT TERM HUP QUIT
sleep "${RT_SECONDS-0}" &
echo $! >"$RT_LOG.sleeper"
wait $!
[ -z "${RT_FAILS-}" ] || exit 1
mkdir -p out
for file in "bin/$crate" "staticlib/lib$crate.a"; do [ ! -f "$RT_BUILT/$file" ] || cp "$RT_BUILT/$file" out; done
[ "$1" = run ] && echo 'what the program prints' && exec >&2
for crate in $(sed -n 's/^\\([a-z0-9_]*\\).*:.*/\\1/p' ../../crates.txt); do
    printf 'crate %s: modules loaded=0 checked=1\\nlogic=proved functions=7 sum=0\\n' "$crate"
done
"""


class Fault(Exception):
    """What a scenario found to be wrong."""


def check(holds, *what):
    if not holds:
        raise Fault(" ".join(str(part) for part in what))


class Tree:
    """A copy of the checkout with nothing built, and a stand-in for rt on its PATH."""

    def __init__(self, work):
        self.work = work
        self.root = work / "a tree"
        self.log = work / "log"
        self.kob = self.root / "kob"
        self.elsewhere = work / "elsewhere"
        self.elsewhere.mkdir()
        (work / "bin").mkdir()
        (work / "bin/rt").write_text(RT)
        (work / "bin/rt").chmod(0o755)
        listed = subprocess.run(["git", "ls-files", "-co", "--exclude-standard"], cwd=ROOT, stdout=subprocess.PIPE, check=True)
        for name in listed.stdout.decode().splitlines():
            if (ROOT / name).exists() and not re.search(r"^crates/.*/(proofs|must-fail)/", name):
                (self.root / name).parent.mkdir(parents=True, exist_ok=True)
                shutil.copy(ROOT / name, self.root / name)
        for path in (work, *work.rglob("*")):  # for nobody to read
            path.chmod(path.stat().st_mode | (0o755 if path.is_dir() else 0o644))

    def environment(self, more):
        path = f"{self.work / 'bin'}:{os.environ['PATH']}"
        return {**os.environ, "PATH": path, "RT_LOG": str(self.log), "RT_BUILT": str(BUILT), **more}

    def start(self, *words, kob=None, stdin=subprocess.DEVNULL, stdout=subprocess.PIPE, rt={}, **more):
        return subprocess.Popen(
            [kob or self.kob, *words], stdin=stdin, stdout=stdout, stderr=subprocess.PIPE, cwd=self.elsewhere,
            env=self.environment(rt), start_new_session=True, **more
        )  # fmt: skip

    def run(self, *words, data=None, **more):
        """The status, and what was written to the two outputs."""
        process = self.start(*words, **({"stdin": subprocess.PIPE} if data is not None else {}), **more)
        wrote, said = process.communicate(data, timeout=PATIENCE)
        return process.returncode, wrote, said

    def calls(self):
        """What rt was called with since this was last asked."""
        calls = self.log.read_text().splitlines() if self.log.exists() else []
        self.log.unlink(missing_ok=True)
        return [call for call in calls if not call.startswith("version ")]

    def lists(self, **more):
        status, wrote, said = self.run("list", data=WORDS, **more)
        check((status, wrote) == (0, LISTING), "it listed", wrote, "with status", status, said)
        return said

    def fresh(self):
        for folder in (self.root / "target", *self.root.glob("crates/*/out")):
            shutil.rmtree(folder, ignore_errors=True)
        Path(f"{self.log}.sleeper").unlink(missing_ok=True)
        self.calls()


def expect(got, status, wrote, said):
    check(got == (status, wrote, said), "it ended with", got)


# ---- statuses


def status_of_a_listing(tree):
    tree.lists()
    expect(tree.run("list", data=WORDS), 0, LISTING, b"")
    folder = os.open(tree.elsewhere, os.O_RDONLY)
    expect(tree.run("list", stdin=folder), 1, b"", UNREAD)
    os.close(folder)
    with open("/dev/full", "wb") as full:
        expect(tree.run("list", data=WORDS, stdout=full), 1, None, b"kob list: the output could not be written\n")
    for descriptor, what in ((0, b"kob: the input is not open\n"), (1, b"kob: the output is not open\n")):
        got = tree.run("list", preexec_fn=lambda: os.close(descriptor))
        expect(got, 1, b"", what)


def status_of_a_closed_pipe(tree):
    tree.lists()
    has_traces(tree)
    tree.run("asm")
    tree.run("disasm")
    for words in (("list",), ("replay", "agree.trace"), ("replay", "-"), ("asm",), ("disasm",)):
        reading, writing = os.pipe()
        os.close(reading)
        process = tree.start(*words, stdin=subprocess.PIPE, stdout=writing)
        os.close(writing)
        said = process.communicate(TEXT if words == ("asm",) else WORDS, timeout=PATIENCE)[1]
        check(process.returncode == 128 + signal.SIGPIPE and said == b"", words, process.returncode, said)


def status_of_what_cannot_start(tree):
    tree.lists()
    tree.run("asm")
    for name, word in (("list", "list"), ("assemble", "asm")):
        (tree.root / "target/bin" / name).chmod(0o644)
        status, wrote, said = tree.run(word, data=WORDS)
        check((status, wrote) == (1, b"") and b"kob: cannot start" in said, word, status, wrote, said)


def status_of_a_run(tree):
    texts = {
        b"length 128\n": (0, b"answer 0 done\nwords done 0\nqc 0\n", b""),
        b"length 384\n": (0, b"answer 11 length not a power of two\nwords done 0\nqc 0\n", b""),
        b"length 128\nword 7\n": (0, b"answer 4 word outside the set\nwords done 0\nqc 0\nat word 0 00000007\n", b""),
        b"length 128\nword\n": (1, b"", b"kob run: line 2: a word is missing\n"),
        b"length 128\nline CADD\n": (1, b"", b"kob run: line 2, column 10: the line is cut off: after 'CADD' comes ' '\n"),
    }
    tree.run("run", data=b"length 128")
    for text, wanted in texts.items():
        expect(tree.run("run", data=text), *wanted)


TEXT = b"SQCADD Z0.B, Z0.B, Z0.B, #90\n.inst 0x2F00F000 // RESERVED\n.inst 0x00000000 // OUTSIDE\n"
WRONG = b"kob asm: line 4, column 5: the line is cut off: after 'CADD' comes ' '\n"


def status_of_assembling(tree):
    said = tree.run("asm")[2]
    check(b"building 'kob asm'" in said and tree.calls() == ["run assemble"], "it was built otherwise:", said)
    held = tree.work / "a folder"
    held.mkdir()
    more = {"rt": {"TMPDIR": str(held)}}
    many = TEXT * 40_000
    for shell in ("sh", "bash"):
        for text, words in ((b"", b""), (TEXT, WORDS), (many, WORDS * 40_000)):
            expect(tree.run(tree.kob, "asm", kob=shell, data=text, **more), 0, words, b"")
        expect(tree.run(tree.kob, "asm", "--hex", kob=shell, data=TEXT, **more), 0, b"4501D800\n2F00F000\n00000000\n", b"")
        expect(tree.run(tree.kob, "asm", kob=shell, data=TEXT + b"CADD", **more), 1, b"", WRONG)
        late = tree.run(tree.kob, "asm", "--hex", kob=shell, data=many + b"CADD\n" + TEXT, **more)
        expect(late, 1, b"", WRONG.replace(b"line 4", b"line 120001"))
    folder = os.open(tree.elsewhere, os.O_RDONLY)
    expect(tree.run("asm", stdin=folder, **more), 1, b"", b"kob asm: the input could not be read\n")
    os.close(folder)
    with open("/dev/full", "wb") as full:
        expect(tree.run("asm", data=TEXT, stdout=full, **more), 1, None, b"kob: the output could not be written\n")
    for descriptor, what in ((0, b"kob: the input is not open\n"), (1, b"kob: the output is not open\n")):
        expect(tree.run("asm", preexec_fn=lambda: os.close(descriptor), **more), 1, b"", what)
    away = str(tree.work / "nothing")
    expect(tree.run("asm", data=TEXT, rt={"TMPDIR": away}), 1, b"", f"kob: cannot hold the words in {away}\n".encode())
    process = tree.start("asm", stdin=subprocess.PIPE, **more)
    process.stdin.write(many)
    process.stdin.flush()
    check(not list(held.iterdir()), "it holds the words in a file with a name")
    process.kill()
    process.communicate(timeout=PATIENCE)
    check(not list(held.iterdir()), "it left", list(held.iterdir()))


def holds_what_is_full(tree):
    """The words do not fit where they are held: a limit on the size of a file, which is told as a full device is."""
    tree.run("asm")

    def small():
        signal.signal(signal.SIGXFSZ, signal.SIG_IGN)
        resource.setrlimit(resource.RLIMIT_FSIZE, (4096, 4096))

    got = tree.run("asm", data=TEXT * 40_000, preexec_fn=small, restore_signals=False, rt={"TMPDIR": str(tree.work)})
    expect(got, 1, b"", f"kob: cannot hold the words in {tree.work}\n".encode())


def status_of_disassembling(tree):
    said = tree.run("disasm")[2]
    check(b"building 'kob disasm'" in said and tree.calls() == ["run disassemble"], "it was built otherwise:", said)
    expect(tree.run("disasm", data=WORDS), 0, TEXT, b"")
    left = b"kob disasm: bytes left over behind the last whole word: 2\n"
    expect(tree.run("disasm", data=WORDS + b"\0\0"), 1, TEXT, left)
    with open("/dev/full", "wb") as full:
        expect(tree.run("disasm", data=WORDS, stdout=full), 1, None, b"kob disasm: the output could not be written\n")


# Names that a shell, or a table of columns, could take for something else.
NAMES = (
    b"a b", b"a\tb", b"a\nb", b"-n", b"--", b"END", b"$(false) `false` $HOME", b"\"'\\", b"*", b"%s", b"\xc3\x81\x82\x88\xff\x7f",
    b"n" * 255,
)  # fmt: skip


def has_traces(tree):
    """Makes three traces and a folder, and builds the program; returns what kob said then."""
    for name, trace in (("agree.trace", traces.agree()), ("differ.trace", traces.differ()), ("cut.trace", traces.agree()[:63])):
        (tree.elsewhere / name).write_bytes(trace)
    (tree.elsewhere / "folder.trace").mkdir()
    return tree.run("replay", "agree.trace")[2]


def told_of(name, trace):
    """The lines, the counts and the progress, by the model of a trace that is checked whole or of one that comes in pieces."""
    if name == b"-" or len(trace) > 65536:
        return streamed.told(name, trace)
    return verdicts.lines(name, trace), verdicts.counts(trace), b""


def judgement(folder, *names, data=b""):
    """What kob is to say of these files, and of the data for -: their lines by the model, the rest by docs/replay.md."""
    wrote = said = b""
    sums, unread = [0, 0, 0, 0], 0
    for name in map(os.fsencode, names):
        try:
            trace = data if name == b"-" else Path(os.fsdecode(os.path.join(bytes(folder), name))).read_bytes()
        except OSError:
            said += b"kob: cannot read %s\n" % name
            unread += 1
        else:
            lines, counts, progress = told_of(name, trace)
            wrote, said = wrote + lines, said + progress
            sums = [sum(pair) for pair in zip(sums, (1, *counts))]
    wrote += b"total\t%d traces\t%d cases\t%d agree\t%d refused\n" % tuple(sums)
    judged, cases, agree, refused = sums
    if refused:
        said += b"kob: refused: %d of %d traces\n" % (refused, judged)
    if agree < cases:
        said += b"kob: not agreeing: %d of %d cases\n" % (cases - agree, cases)
    return 1 if unread or refused or agree < cases else 0, wrote, said


def status_of_a_replay(tree):
    said = has_traces(tree)
    check(b"building 'kob replay'" in said and tree.calls() == ["run replay_files"], "it was built otherwise:", said)
    for names in (
        ("agree.trace",),
        ("differ.trace",),
        ("agree.trace", "differ.trace"),
        ("cut.trace",),
        ("cut.trace", "agree.trace"),
        ("nothing.trace",),
        ("",),
        ("folder.trace", "agree.trace"),
        ("differ.trace", "nothing.trace", "cut.trace", "folder.trace", "agree.trace", "agree.trace"),
    ):
        expect(tree.run("replay", *names), *judgement(tree.elsewhere, *names))
    status, wrote, said = tree.run("replay", "agree.trace", stdin=None, preexec_fn=lambda: os.close(0))
    check((status, said) == (0, b""), "with no input it ended with", status, said)
    got = tree.run("replay", "agree.trace", preexec_fn=lambda: os.close(1))
    expect(got, 1, b"", b"kob: the output is not open\n")
    with open("/dev/full", "wb") as full:
        got = tree.run("replay", "differ.trace", "agree.trace", stdout=full)
        expect(got, 1, None, b"kob replay: the output could not be written\n")
        got = tree.run("replay", "nothing.trace", stdout=full)
        expect(got, 1, None, b"kob: cannot read nothing.trace\nkob: the output could not be written\n")


def long_trace():
    """Of 1,069,060 bytes, so that there is progress."""
    return traces.record([traces.Case(128, 0, bytes(512), [])] * 1024)


def replay_of_standard_input(tree):
    has_traces(tree)
    differ, long = traces.differ(), long_trace()
    (tree.elsewhere / "long.trace").write_bytes(long)
    for data in (traces.agree(), differ, differ[:63], differ[:3000], differ + b"\0", b"", long, long[:-1]):
        wanted = judgement(tree.elsewhere, "-", data=data)
        for words in (("replay",), ("replay", "-")):
            expect(tree.run(*words, data=data), *wanted)
    for names in (("agree.trace", "-"), ("-", "nothing.trace", "long.trace"), ("cut.trace", "-", "long.trace", "long.trace")):
        expect(tree.run("replay", *names, data=differ), *judgement(tree.elsewhere, *names, data=differ))
    (tree.elsewhere / "-").write_bytes(traces.agree())
    expect(tree.run("replay", "./-", data=differ), *judgement(tree.elsewhere, "./-"))


def replay_of_no_input(tree):
    """In each shell: input that cannot be read, that is not open, and no standard error for the progress."""
    has_traces(tree)
    _, wrote, _ = judgement(tree.elsewhere, "agree.trace")
    unread = 1, wrote, b"kob: cannot read -\n"
    long = long_trace()
    status, lines, _ = judgement(tree.elsewhere, "-", data=long)
    folder = os.open(tree.elsewhere, os.O_RDONLY)
    for shell in ("sh", "bash"):
        words = tree.kob, "replay", "-", "agree.trace"
        expect(tree.run(*words, kob=shell, stdin=folder), *unread)
        expect(tree.run(*words, kob=shell, stdin=None, preexec_fn=lambda: os.close(0)), *unread)
        expect(tree.run(tree.kob, "replay", kob=shell, data=long, preexec_fn=lambda: os.close(2)), status, lines, b"")
    os.close(folder)


def next_line(process):
    """While nothing more is sent than brings it."""
    check(select.select([process.stdout], [], [], PATIENCE)[0], "no line came")
    return process.stdout.readline()


def ends_so(process, *wanted):
    """Its status, and what it wrote to the two outputs since."""
    wrote, said = process.communicate(timeout=PATIENCE)
    expect((process.returncode, wrote, said), *wanted)


def replay_while_it_comes(tree):
    """Each line is there before the next body is sent."""
    has_traces(tree)
    trace = traces.differ()
    status, wrote, said = judgement(tree.elsewhere, "-", data=trace)
    *lines, total = wrote.splitlines(True)
    process = tree.start("replay", stdin=subprocess.PIPE)
    at = 0
    for n, line in enumerate(lines):
        end = traces.places(trace, n).end
        process.stdin.write(trace[at:end])
        process.stdin.flush()
        at, got = end, next_line(process)
        check(got == line, "it printed", got, "and not", line)
    ends_so(process, status, total, said)


def replay_of_a_gone_device(tree):
    """A terminal that is gone after some bytes. What was printed is counted."""
    has_traces(tree)
    try:
        reading, writing = pty.openpty()
    except OSError:
        return print("kob: not run: a device that is gone, since there is no pseudo-terminal")
    tty.setraw(writing)
    process = tree.start("replay", stdin=reading)
    os.close(reading)
    os.write(writing, traces.differ()[:3000])
    line = next_line(process)
    os.close(writing)
    check(line == verdicts.lines("-", traces.differ()).splitlines(True)[0], "it printed", line)
    total = b"total\t0 traces\t1 cases\t0 agree\t0 refused\n"
    ends_so(process, 1, total, b"kob: cannot read -\nkob: not agreeing: 1 of 1 cases\n")


def names_of_traces(tree):
    has_traces(tree)
    for name in NAMES:
        shutil.copy(tree.elsewhere / "differ.trace", os.path.join(bytes(tree.elsewhere), name))
    for shell in ("sh", "bash"):
        got = tree.run(tree.kob, "replay", *NAMES, kob=shell)
        expect(got, *judgement(tree.elsewhere, *NAMES))
    whole = str(tree.elsewhere / "agree.trace")
    expect(tree.run("replay", whole), *judgement(tree.elsewhere, whole))
    # A pipe gives its bytes once, so it must not be opened twice.
    pipe = tree.elsewhere / "pipe.trace"
    os.mkfifo(pipe)
    with subprocess.Popen(["sh", "-c", 'exec cat agree.trace > "$0"', pipe], cwd=tree.elsewhere) as writer:
        try:
            got = tree.run("replay", pipe.name)
        finally:
            writer.kill()
    wanted = verdicts.lines(pipe.name, traces.agree()) + b"total\t1 traces\t5 cases\t5 agree\t0 refused\n"
    expect(got, 0, wanted, b"")


def status_of_usage(tree):
    alone = "list", "run", "asm", "disasm", "install", "staticlib", "dist", "test", "version", "help"
    one_too_many = [(word, "a", "b") for word in alone]
    wrong = ((), ("",), ("lists",), ("list", "words.bin"), ("install",), ("install", ""), ("install", "-x"))
    options = (("asm", "a.s"), ("asm", "--hex", "a.s"), ("asm", ""), ("asm", "-hex"), ("disasm", "a.bin"), ("disasm", "--hex"))
    dashes = (("replay", "-", "-"), ("replay", "-", "agree.trace", "-"))
    for words in (*wrong, *options, *dashes, *one_too_many):
        status, wrote, said = tree.run(*words)
        check((status, wrote) == (2, b"") and b"kob help" in said, words, status, wrote, said)
    for word in ("help", "--help", "-h"):
        status, wrote, said = tree.run(word)
        check((status, said) == (0, b"") and wrote.startswith(b"usage: kob list"), word, status, said)
    (tree.root / "include/kobbeskuim.h").unlink()
    status, wrote, said = tree.run("version")
    check((status, wrote) == (1, b"") and b"cannot read the version" in said, status, wrote, said)
    check(not tree.calls(), "it called rt")


def statuses_by_make(tree):
    """By the rule of docs/list.md."""
    tree.lists()
    rules = re.search(r"^```\n(\.DELETE.*?)^```$", (ROOT / "docs/list.md").read_text(), re.M | re.S)[1]
    (tree.elsewhere / "Makefile").write_text(rules.replace("./kob", f"'{tree.kob}'"))
    (tree.elsewhere / "good.bin").write_bytes(WORDS)
    (tree.elsewhere / "bad.bin").mkdir()
    for name, status in (("good", 0), ("bad", 2)):
        made = subprocess.run(["make", f"{name}.txt"], cwd=tree.elsewhere, stdout=subprocess.PIPE, stderr=subprocess.PIPE)
        check(made.returncode == status, "make", name, "ended with", made.returncode, made.stderr)
        check((tree.elsewhere / f"{name}.txt").exists() == (status == 0), "the target of", name)


def fastest(command, *arguments):
    """Of 30 times, in ms."""
    times = []
    for _ in range(30):
        began = time.perf_counter()
        command(*arguments)
        times.append(1000 * (time.perf_counter() - began))
    return min(times)


def in_5_ms(what, *arguments):
    """Or, where the machine is slow, in four times what a shell takes that does nothing. A busy spell only adds to a time
    and can last for a whole batch, so the best of several batches counts."""
    took = shell = float("inf")
    for _ in range(10):
        took, shell = min(took, fastest(what, *arguments)), min(shell, fastest(command, "sh", "-c", ":"))
        if took < max(5, 4 * shell):
            return
        time.sleep(1)
    check(False, f"it took {took:.1f} ms, and an empty shell {shell:.1f}")


def starts_in_5_ms(tree):
    tree.lists()
    in_5_ms(tree.lists)


def replays_in_5_ms(tree):
    """As many cases as a trace can have, and words up to 64 KiB."""
    has_traces(tree)
    full = traces.record([traces.Case(128, 0, bytes(512), traces.WORDS[:count]) for count in [3] * 47 + [4] * 15])
    check(len(full) == 65536, "the trace has", len(full), "bytes")
    (tree.elsewhere / "full.trace").write_bytes(full)
    wanted = judgement(tree.elsewhere, "full.trace")
    in_5_ms(lambda: expect(tree.run("replay", "full.trace"), *wanted))


# ---- building


def builds_once(tree):
    check(b"proving and building" in tree.lists(), "the first listing does not say that it builds")
    check(tree.calls() == ["run list"], "the first listing did not build")
    tree.lists()
    check(not tree.calls(), "the second listing built again")
    archive = tree.root / "target/staticlib/libkobbeskuim.a"
    parts = "capi_run", "capi", "capi_replay", "capi_stream", "capi_lines"
    library = [f"lib {part}" for part in parts]
    for built in (library, []):
        status, wrote, said = tree.run("staticlib")
        check((status, wrote) == (0, b"%s\n" % bytes(archive)), status, wrote, said)
        check(tree.calls() == built, "staticlib called rt otherwise than", built)
    archive.unlink()
    tree.run("staticlib")
    check(archive.exists() and tree.calls() == library, "an archive that was removed was not built again")
    later = time.time() + 2
    os.utime(tree.root / "crates/codec/src/lib.rt", (later, later))
    tree.run("staticlib")
    check(tree.calls() == library, "a change of the code did not build again")
    os.utime(tree.root / "crates/codec/src/lib.rt", (0, 0))
    os.utime(tree.root / "crates/exec/src/lib.rt", (later, later))
    tree.lists()
    check(not tree.calls(), "a change of a crate that the listing does not stand on built it again")


def fails_to_build(tree):
    expected = b"kob: rt run list failed, so there is no 'kob list'\n"
    status, wrote, said = tree.run("list", data=WORDS, rt={"RT_FAILS": "1"})
    check((status, wrote) == (1, b"") and said.endswith(expected), status, wrote, said)
    tree.lists()
    tree.fresh()
    bare = tree.work / "bare"
    bare.mkdir()
    for tool in ("sh", "flock", "setsid"):
        (bare / tool).symlink_to(shutil.which(tool))
    expect(tree.run("list", rt={"PATH": str(bare)}), 1, b"", b"kob: cannot build: there is no rt on the PATH\n")


def working(tree, process):
    """Waits until rt is at work, and returns the number of its child."""
    sleeper = Path(f"{tree.log}.sleeper")
    until = time.monotonic() + PATIENCE
    while not (sleeper.exists() and sleeper.read_text()):
        check(process.poll() is None and time.monotonic() < until, "it did not call rt")
        time.sleep(0.01)
    return int(sleeper.read_text())


def two_at_once(tree):
    both = [tree.start("list", stdin=subprocess.PIPE, rt={"RT_SECONDS": "2"})]
    working(tree, both[0])
    both.append(tree.start("list", stdin=subprocess.PIPE))
    ended = [process.communicate(WORDS, timeout=PATIENCE) for process in both]
    check([process.returncode for process in both] == [0, 0], "statuses", [process.returncode for process in both])
    check([wrote for wrote, _ in ended] == [LISTING, LISTING], "the listings", ended)
    check(sum(b"waiting for it" in said for _, said in ended) == 1, "who waits has to say so", ended)
    check(tree.calls() == ["run list"], "both built")


def alive(number):
    try:
        return "\nState:\tZ" not in Path(f"/proc/{number}/status").read_text()
    except FileNotFoundError:
        return False


def interrupted(tree):
    """Also where rt misses the signal, as a child can that is just being started."""
    hits = [(os.killpg, signal.SIGINT), *((os.kill, number) for number in SIGNALS)]
    for (hit, number), deaf in itertools.product(hits, ("", "1")):
        tree.fresh()
        process = tree.start("list", rt={"RT_SECONDS": "600", "RT_DEAF": deaf})
        child = working(tree, process)
        hit(process.pid, number)
        _, said = process.communicate(timeout=PATIENCE)
        check(process.returncode == -number, "it ended with", process.returncode, said)
        check(not alive(child), "a child goes on after", number)
        check(b"waiting" not in tree.lists(), "a retry has to wait")


def waiting(tree):
    waiter = tree.start("list", stdin=subprocess.PIPE)
    while b"waiting" not in waiter.stderr.readline():
        check(waiter.poll() is None, "it does not wait")
    return waiter


def interrupted_while_another_waits(tree):
    builder = tree.start("list", rt={"RT_SECONDS": "600"})
    working(tree, builder)
    given_up = waiting(tree)
    given_up.terminate()
    check(given_up.wait(PATIENCE) == -signal.SIGTERM and builder.poll() is None, "who waits ends by itself")
    waiter = waiting(tree)
    began = time.monotonic()
    builder.terminate()
    builder.communicate(timeout=PATIENCE)
    check(time.monotonic() - began < 2, "it took long to end")
    check(waiter.communicate(WORDS, timeout=PATIENCE)[0] == LISTING and waiter.returncode == 0, "who waited goes on")


def read_only_tree(tree):
    def as_nobody():
        if os.getuid() == 0:
            os.setgroups([])
            os.setgid(NOBODY)
            os.setuid(NOBODY)

    tree.root.chmod(0o555)
    status, wrote, said = tree.run("list", data=WORDS, preexec_fn=as_nobody)
    wanted = b"kob: cannot make %s/target\n" % bytes(tree.root)
    check((status, wrote) == (1, b"") and said.endswith(wanted), status, wrote, said)
    tree.root.chmod(0o755)
    tree.lists()
    tree.root.chmod(0o555)
    check(tree.lists(preexec_fn=as_nobody) == b"", "it said something")
    tree.root.chmod(0o755)


# ---- the pages, links, installing


def shown(page):
    """The commands of a page, with what it says they print."""
    for block in re.findall(r"^```\n(\$ .*?)^```$", page.read_text(), re.M | re.S):
        for part in block.split("$ ")[1:]:
            line, _, printed = part.partition("\n")
            yield line, printed.encode()


def pages(tree):
    tree.run("staticlib")
    tree.run("list")
    tree.run("run", data=b"length 128")
    tree.run("asm")
    tree.run("disasm")
    tree.run("replay", "nothing.trace")
    names = "README.md", "docs/list.md", "docs/asm.md", "docs/replay.md", "docs/c.md"
    examples = [example for name in names for example in shown(tree.root / name)]
    check(len(examples) > 8, "there are only", examples)
    first = (tree.root / "examples/c/first.c").read_text()
    check(first in (tree.root / "README.md").read_text(), "README has another first.c")
    for line, printed in examples:
        wrote = command("sh", "-c", line, cwd=tree.root)
        check(wrote == printed, line, "printed", wrote)


def links(tree):
    (tree.elsewhere / "one").symlink_to("../a tree/kob")
    (tree.elsewhere / "two").symlink_to(tree.elsewhere / "one")
    for name in ("one", "two"):
        tree.lists(kob=tree.elsewhere / name)
    # A relative link in a folder that is itself a link: its .. is not the one that the path spells.
    (tree.work / "deep/er/bin").mkdir(parents=True)
    (tree.work / "deep/er/bin/kob").symlink_to("../../../a tree/kob")
    (tree.elsewhere / "bin").symlink_to(tree.work / "deep/er/bin")
    status, wrote, said = tree.run("staticlib", kob=tree.elsewhere / "bin/kob")
    check((status, wrote) == (0, b"%s/target/staticlib/libkobbeskuim.a\n" % bytes(tree.root)), status, wrote, said)
    shutil.copy(tree.kob, tree.elsewhere / "copy")
    status, wrote, said = tree.run("list", kob=tree.elsewhere / "copy")
    check((status, wrote) == (1, b"") and b"a link to kob works" in said, status, said)
    made = sorted(path.name for path in tree.elsewhere.iterdir())
    check(made == ["bin", "copy", "one", "two"], "beside the link there are", made)


def command(*words, timeout=PATIENCE, **more):
    done = subprocess.run(words, stdout=subprocess.PIPE, stderr=subprocess.PIPE, timeout=timeout, **more)
    check(done.returncode == 0, words, "ended with", done.returncode, done.stderr)
    return done.stdout


def links_by_pkg_config(prefix, version):
    if not shutil.which("pkg-config"):
        return print("kob: not run: linking by pkg-config, which is not there")
    program = prefix / "first"
    flags = 'eval "gcc \\"\\$1\\" $(pkg-config --cflags --libs kobbeskuim) -o \\"\\$2\\""'
    environment = {**os.environ, "PKG_CONFIG_PATH": str(prefix / "lib/pkgconfig")}
    command("sh", "-c", flags, "sh", ROOT / "examples/c/first.c", program, env=environment)
    check(b"libkobbeskuim.so." in command("readelf", "-d", program), "it is not linked with the shared object")
    check(command(program, env={**os.environ, "LD_LIBRARY_PATH": str(prefix / "lib")}) == FIRST, "first.c")
    asked = command("pkg-config", "--modversion", "kobbeskuim", env=environment).decode().strip()
    check(asked == version, "the .pc says", asked)


def installed(tree, prefix, version):
    """What stands in a prefix works with no checkout and no kit."""
    kob = prefix / "bin/kob"
    expect(tree.run("list", data=WORDS, kob=kob), 0, LISTING, b"")
    expect(tree.run("disasm", data=WORDS, kob=kob), 0, TEXT, b"")
    expect(tree.run("asm", data=TEXT, kob=kob), 0, WORDS, b"")
    expect(tree.run("version", kob=kob), 0, b"kobbeskuim %s\n" % version.encode(), b"")
    trace = str(prefix / "share/doc/kobbeskuim/examples/traces/differ.trace")
    expect(tree.run("replay", trace, kob=kob), *judgement(prefix, trace))
    status, _, said = tree.run("staticlib", kob=kob)
    check(status == 1 and b"for a checkout" in said, "staticlib of an installed kob", status, said)
    bindings = prefix / "share/kobbeskuim"
    pages = prefix / "share/doc/kobbeskuim/docs"
    for path in (prefix / "lib/libkobbeskuim.a", bindings / "rust/Cargo.toml", bindings / "systemverilog/kobbeskuim.sv", pages / "execute.md"):
        check(path.is_file(), "there is no", path)
    code = "import kobbeskuim; print(kobbeskuim._library._name)"
    library = command(sys.executable, "-B", "-c", code, env={"PYTHONPATH": str(bindings / "python")}).decode().strip()
    check(Path(library).resolve() == prefix / f"lib/libkobbeskuim.so.{version}", "Python loads", library)
    links_by_pkg_config(prefix, version)


def header_version():
    return re.search(r'KOB_VERSION "(.*)"', (ROOT / "include/kobbeskuim.h").read_text())[1]


def installs(tree):
    version = header_version()
    prefix = tree.work / "a prefix"
    (tree.root / "docs/list.md").chmod(0o600)
    status, _, said = tree.run("install", str(prefix), preexec_fn=lambda: os.umask(0o077))
    check(status == 0, "install ended with", status, said)
    shut = [path for path in (prefix, *prefix.rglob("*")) if path.stat().st_mode & 0o444 != 0o444]
    check(not shut, "not for all to read:", shut)
    theirs = prefix / "share/kobbeskuim/target"  # a folder that is not ours
    theirs.mkdir()
    status, _, said = tree.run("install", str(prefix))
    check(status == 0 and theirs.is_dir(), "a second install ended with", status, said)
    pc = (prefix / "lib/pkgconfig/kobbeskuim.pc").read_text()
    check("prefix=" + str(prefix).replace(" ", "\\ ") in pc, "the .pc has", pc)
    (tree.work / "link").symlink_to(tree.root)
    unnamed = [(name, b"no .pc can name") for name in ("blank ", *(f"a{sign}prefix" for sign in "\\$#\"'`()\t\n"))]
    for name, why in (*unnamed, *((name, b"in the checkout itself") for name in ("../a tree", "../link"))):
        status, wrote, said = tree.run("install", name)
        check((status, wrote) == (1, b"") and why in said, "install in", name, "ended with", status, said)
    check(not list(tree.elsewhere.iterdir()), "a refused folder was made")
    tree.root.rename(tree.work / "away")
    installed(tree, prefix, version)
    (tree.work / "away").rename(tree.root)


def installs_under_one_lock(tree):
    installing = tree.start("install", str(tree.work / "prefix"), rt={"RT_SECONDS": "0.2"})
    working(tree, installing)
    waiter = waiting(tree)
    check(waiter.communicate(WORDS, timeout=PATIENCE)[0] == LISTING, "who waited does not list")
    check(installing.wait(0.5) == 0, "install ended with", installing.returncode)
    installing.communicate()


def makes_a_tar(tree):
    """The checkout itself, by the kit's rt."""
    version = header_version()
    made = Path(command(ROOT / "kob", "dist", cwd=tree.elsewhere, timeout=BUILDING).decode().rstrip("\n"))
    with tarfile.open(made) as tar:
        tar.extractall(tree.work / "unpacked")
    prefix = tree.work / "unpacked" / made.name[: -len(".tar.gz")]
    note = (prefix / "share/doc/kobbeskuim/PROVED.txt").read_text()
    commit = command("git", "-C", ROOT, "rev-parse", "HEAD").decode().strip()
    for part in (f"Kobbeskuim {version},", f"commit: {commit}", f"kit: {command('rt', 'version').decode().strip()}"):
        check(part in note, "the note has no", part, note)
    crates = re.findall(r"^([a-z]\w*).*:", (ROOT / "crates.txt").read_text(), re.M)
    for crate in crates:
        assumed = ", assuming libc::read, libc::write, os::c::rattle_errno" if crate in PROGRAMS else ""
        counted = re.search(rf"^{crate} \d+{assumed}$", note, re.M)
        check(bool(counted) != crate.endswith("cases"), "the note counts", crate, "wrongly")
    installed(tree, prefix, version)


SCENARIOS = (
    status_of_a_listing, status_of_a_closed_pipe, status_of_what_cannot_start, status_of_a_run, status_of_assembling,
    holds_what_is_full, status_of_disassembling, status_of_a_replay,
    replay_of_standard_input, replay_of_no_input, replay_while_it_comes, replay_of_a_gone_device, names_of_traces,
    status_of_usage, statuses_by_make, starts_in_5_ms, replays_in_5_ms, builds_once, fails_to_build, two_at_once,
    interrupted, interrupted_while_another_waits, read_only_tree, pages, links, installs, installs_under_one_lock,
    makes_a_tar,
)  # fmt: skip


def main():
    for number in SIGNALS:  # who is started in the background ignores some, and so would kob
        signal.signal(number, signal.SIG_DFL)
    failed = 0
    with tempfile.TemporaryDirectory() as work:
        for scenario in SCENARIOS:
            own = Path(work).resolve() / scenario.__name__
            own.mkdir()
            os.chmod(work, 0o755)
            try:
                scenario(Tree(own))
            except (Fault, OSError, subprocess.TimeoutExpired) as fault:
                failed += 1
                print(f"kob: {scenario.__name__}: {fault}", flush=True)
    print(f"kob: {len(SCENARIOS)} scenarios, {failed} failed")
    return 1 if failed else 0


if __name__ == "__main__":
    sys.exit(main())
