# Sourced by the tests of reference/, after tests/lib.sh: runs its tests by cargo and counts them.
# shellcheck shell=bash

# cargo_tests WORDS..: `cargo test` of the packages that the words name, in reference/. Prints a line for each test.
cargo_tests() {
    local log status tests_passed tests_failed
    log=$(mktemp) || return 2
    cargo test --offline --release --no-fail-fast "$@" -- --nocapture >"$log" 2>&1
    status=$?
    grep -E '^(test |test result|error|warning|seed |thread |COMPARE_)|FAILED|panicked' "$log" | grep -v ' 0 passed; 0 failed' | cut -c1-300
    # a line for each set of tests: test result: ok. N passed; M failed; ..
    tests_passed=$(awk '/^test result: / { n += $4 } END { print n + 0 }' "$log")
    tests_failed=$(awk '/^test result: / { n += $6 } END { print n + 0 }' "$log")
    count "$tests_passed" "$tests_failed"
    if [ "$status" -ne 0 ]; then
        tail -n 40 "$log" | cut -c1-300
        [ "$tests_failed" -gt 0 ] || fail "cargo test: exit status $status"
    elif [ "$tests_passed" -eq 0 ]; then
        fail "cargo test ran no test"
    fi
    rm -f "$log"
}
