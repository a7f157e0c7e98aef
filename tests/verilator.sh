#!/bin/bash
# The SystemVerilog package by Verilator: its constants, texts and calls (tests/systemverilog.sv), the programs of
# docs/systemverilog.md, and the bench of examples/verilator; these are to print what that page shows.
set -o pipefail
cd "$(dirname "$0")/.." || exit 1
# --binary came with 5.
major=$(verilator --version 2>/dev/null | sed -n 's/^Verilator \([0-9]*\)\..*/\1/p')
if [ "${major:-0}" -lt 5 ]; then
    echo "verilator: not run: there is no Verilator 5 on the PATH (Debian's package verilator)"
    exit 0
fi
archive=$PWD/target/staticlib/libkobbeskuim.a
[ -f "$archive" ] || ./kob staticlib >/dev/null || exit 1
work=$(mktemp -d) || exit 1
trap 'rm -rf "$work"' EXIT
suite=verilator
. tests/prints.sh

# built NAME WORDS..: what $work/NAME.sv prints, built with these words for Verilator. It runs for no time, so g++
# is not to optimise.
built() (
    cd "$work" || exit 1
    if ! verilator --binary -j 0 -MAKEFLAGS OPT_FAST=-O0 -MAKEFLAGS OPT_GLOBAL=-O0 --top-module "$@" \
        kobbeskuim.sv "$1.sv" ../libkobbeskuim.a >log 2>&1; then
        cat log >&2
        exit 1
    fi
    timeout 60 "obj_dir/V$1"
)

# Without what Verilator says of its own.
own() { grep -v '^- '; }
printed() { built "$@" | own; }

# of_page NAME WORDS..: the page's module of that name, built with these words
of_page() {
    awk -v first="module $1;" '/^```/ { on = 0 } $0 == first { on = 1 } on { print }' docs/systemverilog.md >"$work/$1.sv"
    prints "$1" "$(shown docs/systemverilog.md "obj_dir/V$1" | own)" printed "$@"
}

ln -s "$archive" "$PWD"/{bindings/systemverilog/kobbeskuim.sv,tests/systemverilog.sv,examples} "$work" || exit 1
of_page first -DKOB_LENGTH=128 -DKOB_WORDS=1
of_page replay -Wall -DKOB_TRACE=65536
# With -Wall Verilator 5.006 takes a state that calls alone read and write for one that is not used.
of_page stream -Wall -Wno-UNUSEDSIGNAL -DKOB_PIECE=100

# The constants of the header, but for its version and the fields, which are a structure's members here.
other='^KOB_(VERSION.*|FAMILY|SIZE|FORM|TURNS|DESTINATION|FIRST|SECOND|INDEX)$'
awk -v other="$other" '$1 == "#define" && $3 ~ /^[0-9]+$/ && $2 !~ other {
    printf "check(\"%s is %s\", %s == %s);\n", $2, $3, $2, $3
}' include/kobbeskuim.h >"$work/constants.svh"
texts='int main(void) { for (unsigned n = 0; n < 64; n++) printf("%u %s\n", n, kob_text(n)); }'
printf '#include <kobbeskuim.h>\n#include <stdio.h>\n%s\n' "$texts" | gcc -Iinclude -xc - -o "$work/texts" || exit 1
prints package "$("$work/texts")" printed systemverilog -Wall -Wno-UNUSEDSIGNAL

prints designs "$(shown docs/systemverilog.md examples/verilator/run)" examples/verilator/run

echo "verilator: 3 designs and 4 programs, $failed failed"
[ "$failed" = 0 ]
