# For the tests in shell: what a command prints, what a page shows of it, and a count of those that failed. $suite
# names the test.
failed=0

# prints NAME EXPECTED COMMAND..: the command succeeds and prints that
prints() {
    local name=$1 expected=$2 printed
    shift 2
    if ! printed=$("$@"); then
        printf '%s: %s failed\n%s\n' "$suite" "$name" "$printed" >&2
    elif [ "$printed" != "$expected" ]; then
        printf '%s: %s printed\n%s\nand not\n%s\n' "$suite" "$name" "$printed" "$expected" >&2
    else
        return
    fi
    failed=$((failed + 1))
}

# shown PAGE COMMAND: what the page shows below the command, up to the next one
shown() {
    awk -v command="\$ $2" '/^```/ || /^\$ / { on = 0 } on { print } $0 == command { on = 1 }' "$1"
}
