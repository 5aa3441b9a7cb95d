# Sourced by scripts of tests/. A line `ok`, `FAIL` or `skip` tells of each check. The script sets `out`, a folder for what it writes,
# and ends with `exit "$failed"`.
failed=0

# check NAME COMMAND...: the command has to succeed; its output is shown where it does not.
check() {
    local name=$1
    shift
    if "$@" > "$out/log" 2>&1; then
        echo "ok   $name"
    else
        echo "FAIL $name"
        head -n 40 "$out/log"
        failed=1
    fi
}

# skip NAME REASON
skip() {
    echo "skip $1: $2"
}

# gives STATUS COMMAND...: the command ends with that status. Its standard output is then in $out/stdout, its standard error in
# $out/stderr.
gives() {
    local wanted=$1 status
    shift
    "$@" > "$out/stdout" 2> "$out/stderr"
    status=$?
    if [ "$status" -ne "$wanted" ]; then
        echo "exit status $status in place of $wanted: $*"
        cat "$out/stdout" "$out/stderr"
        return 1
    fi
}

# says FILE WORDS: the words stand in the file.
says() {
    if ! grep -qF -- "$2" "$1"; then
        echo "not said: $2"
        cat "$1"
        return 1
    fi
}

# nothing_in FILE
nothing_in() {
    if [ -s "$1" ]; then
        echo "$1 is not empty:"
        cat "$1"
        return 1
    fi
}
