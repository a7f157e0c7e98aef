#!/bin/bash
# Builds each example against the archive, runs it, and compares what it prints; tests the calls that take a
# trace in pieces (tests/stream.c); tests the Rust crate, and uses it as installed in a new project; and looks at
# what the archive asks for. It is built by './kob staticlib' where it is not there. Progress goes to standard
# error.
cd "$(dirname "$0")/.." || exit 1
archive=target/staticlib/libkobbeskuim.a
[ -f "$archive" ] || ./kob staticlib >/dev/null || exit 1
work=$(mktemp -d) || exit 1
trap 'rm -rf "$work"' EXIT
count=0
suite=capi
. tests/prints.sh

# Of the programs that are run; their input comes by a pipe.
arguments=()
input=/dev/null

built() { # NAME COMMAND..
    local program=$work/$1
    shift
    "$@" -o "$program" >&2 && "$program" "${arguments[@]}" < <(cat "$input")
}

# example NAME EXPECTED COMMAND..: the command builds $work/NAME, which is then run
example() {
    count=$((count + 1))
    prints "$1" "$2" built "$1" "${@:3}"
}

# ---- C and C++

strict='-Wall -Wextra -Wpedantic -Wconversion -Wsign-conversion -Werror'
shared=(-Ltarget/sharedlib -lkobbeskuim -Wl,-rpath,"$PWD/target/sharedlib")

# thrice NAME EXPECTED: examples/c/NAME.c with the archive, with the shared object, and as C++
thrice() {
    local source=examples/c/$1.c
    example "$1-c" "$2" gcc -std=c99 $strict -Iinclude "$source" "$archive"
    example "$1-shared" "$2" gcc -std=c99 $strict -Iinclude "$source" "${shared[@]}"
    example "$1-c++" "$2" g++ -std=c++11 $strict -Iinclude -x c++ "$source" -x none "$archive"
}

first='number 0, done 1, lane 0 is 127'
thrice first "$first"
if command -v pkg-config >/dev/null; then
    example first-pkg-config "$first" gcc -std=c99 $strict examples/c/first.c \
        $(PKG_CONFIG_PATH=. pkg-config --cflags --libs kobbeskuim)
else
    echo 'capi: not run: first.c by pkg-config, which is not there' >&2
fi

empty='run, no words: 0 done
run, no file: 2 file not 4 x L bytes
run, neither: 1 length not a multiple of 128 from 128 to 2,048
decode, no fields: 32 fields not 8 numbers, or state not 20,544 bytes
encode, no fields: 32 fields not 8 numbers, or state not 20,544 bytes
write, no fields: 32 fields not 8 numbers, or state not 20,544 bytes
write, no room: 13 room shorter than the line
read, no text: 12 not a line
read, no fields: 32 fields not 8 numbers, or state not 20,544 bytes
list, no bytes: TOTAL 0
list, no room: refused
replay, no trace: 15 contents cut short or not allowed
feed, no state: 32 fields not 8 numbers, or state not 20,544 bytes
feed, no bytes: 0 done
end, no state: 32 fields not 8 numbers, or state not 20,544 bytes
end, after no bytes: 15 contents cut short or not allowed'
vectors="run: 0 done
lane 0 is 127
$empty
$empty"
stricter="$strict -Wold-style-cast -Wuseless-cast -Wzero-as-null-pointer-constant"
everything='-Weverything -Wno-c++98-compat -Wno-c++98-compat-pedantic -Werror'
command -v clang++ >/dev/null || echo 'capi: not run: vectors.cc by clang++, which is not there' >&2
for standard in c++11 c++20; do
    from="-std=$standard -Iinclude examples/c++/vectors.cc $archive"
    example "vectors-g++-$standard" "$vectors" g++ $stricter $from
    command -v clang++ >/dev/null && example "vectors-clang++-$standard" "$vectors" clang++ $everything $from
done

input=examples/lines.txt
thrice lines "$(shown docs/c.md "./lines < $input")"
input=/dev/null

arguments=(examples/traces/differ.trace)
thrice replay "$(shown docs/c.md "./replay ${arguments[*]}")"
for trace in examples/traces/*; do
    arguments=("$trace")
    example "stream-calls ${trace##*/}" '' gcc -std=c99 $strict -O1 -Iinclude tests/stream.c "$archive"
done
arguments=()

input=examples/traces/differ.trace
thrice stream "$(shown docs/c.md "cat $input | ./stream")"

# The first body of that trace ends at byte 2128. Its verdict is told while the line is still open.
falls_due() {
    local told
    mkfifo "$work/line" "$work/told" || return
    "$work/stream-c" <"$work/line" >"$work/told" &
    exec 3>"$work/line" 4<"$work/told"
    head -c 2128 "$input" >&3
    IFS= read -r -t 60 told <&4 && printf '%s\n' "$told" || return
    exec 3>&-
    cat <&4
}
count=$((count + 1))
cut='case 0: file differs at byte 64
end: 16 trace above 64 KiB or not as long as its contents say'
prints stream-line "$cut" falls_due
input=/dev/null

# ---- Rust

# Its target folder is outside of the tree, and --locked keeps its Cargo.lock.
crate_tests() {
    cargo test --quiet --offline --locked --manifest-path bindings/rust/Cargo.toml >&2
}

# The crate as in a prefix, in which cargo is to write nothing.
install_crate() { # PREFIX
    mkdir -p "$1/lib" "$1/share/kobbeskuim/rust" && cp "$archive" "$1/lib" &&
        cp -r bindings/rust/{Cargo.toml,Cargo.lock,build.rs,src} "$1/share/kobbeskuim/rust"
}

new_project() {
    local prefix="$work/the prefix" project="$work/the project" before
    install_crate "$prefix" && before=$(ls -lR "$prefix") && cargo new --quiet --vcs none --edition 2024 --name bench "$project" >&2 || return
    echo "kobbeskuim = { path = '$prefix/share/kobbeskuim/rust' }" >>"$project/Cargo.toml"
    cp bindings/rust/examples/first.rs "$project/src/main.rs"
    cargo doc --quiet --offline -p kobbeskuim --manifest-path "$project/Cargo.toml" >&2 &&
        cargo run --quiet --offline --manifest-path "$project/Cargo.toml" && [ "$before" = "$(ls -lR "$prefix")" ]
}

# The commands of docs/rust.md, 'Without cargo', in a folder of links, where they may leave what they make.
without_cargo() {
    local lines
    lines=$(sed -n '/^## Without cargo/,$s/^\$ //p' docs/rust.md) && mkdir "$work/plain" &&
        ln -s "$PWD/bindings" "$PWD/target" "$work/plain" && (cd "$work/plain" && sh -ec "$lines")
}

minor=$(cargo --version 2>/dev/null | sed -n 's/^cargo 1\.\([0-9]*\)\..*/\1/p')
if [ "${minor:-0}" -ge 85 ]; then
    export CARGO_TARGET_DIR=$work/cargo RUSTFLAGS='-D warnings' RUSTDOCFLAGS='-D warnings'
    count=$((count + 3))
    ran='word 4501D820, done 1, lane 0 is 127'
    prints rust-crate '' crate_tests
    prints rust-project "$ran" new_project
    prints rust-without-cargo "$ran" without_cargo
else
    echo 'capi: not run: the Rust crate: its edition, 2024, needs cargo 1.85 or later' >&2
fi

# ---- what the archive asks for beside what it has

asked=$(nm "$archive" | awk '$1 == "U" { asked[$2] } NF == 3 { has[$3] } END { for (s in asked) if (!(s in has)) print s }' | sort)
if [ "$asked" != $'memcpy\nmemset' ]; then
    printf 'capi: the archive asks for\n%s\nand not for memcpy and memset alone\n' "$asked" >&2
    failed=$((failed + 1))
fi

# ---- what the shared object gives: the header's calls, and nothing else

given=$(nm -D --defined-only target/sharedlib/libkobbeskuim.so | awk '{ print $3 }' | sort)
if [ "$given" != "$(sed -n 's/^uint[0-9]*_t \(kob_[a-z_]*\)(.*/\1/p' include/kobbeskuim.h | sort)" ]; then
    printf 'capi: the shared object gives\n%s\nand not the calls of the header\n' "$given" >&2
    failed=$((failed + 1))
fi

echo "capi: $count examples, $failed failed"
[ "$failed" = 0 ]
