# Sourced by the tests: what is tried is counted here, and `total` has the last line and the exit status.
# shellcheck shell=bash
passed=0
failed=0

# ok NAME, fail NAME: one check, with its line.
ok() {
    passed=$((passed + 1))
    echo "ok: $1"
}

fail() {
    failed=$((failed + 1))
    echo "FAILED: $1"
}

# count PASSED FAILED: checks that were counted elsewhere.
count() {
    passed=$((passed + $1))
    failed=$((failed + $2))
}

# try NAME COMMAND..: a check that passes where the command's exit status is 0.
try() {
    local name=$1
    shift
    if "$@"; then ok "$name"; else fail "$name"; fi
}

# quiet COMMAND..: runs a command; the last lines that it prints are shown only where its exit status is not 0.
quiet() {
    local log status
    log=$(mktemp) || return 2
    "$@" >"$log" 2>&1
    status=$?
    [ "$status" -eq 0 ] || tail -n 40 "$log" | cut -c1-300
    rm -f "$log"
    return "$status"
}

# total: the last line, 'N passed, M failed'. Its exit status is 0 only if something passed and nothing failed.
total() {
    echo "$passed passed, $failed failed"
    [ "$failed" -eq 0 ] && [ "$passed" -gt 0 ]
}
