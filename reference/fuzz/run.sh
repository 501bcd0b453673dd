#!/usr/bin/env bash
# run.sh SECONDS: fuzzes the player's call with AFL++ (Debian's package afl++) from a corpus of generated loads. Findings, if there are
# any, stay in target/fuzz/out.
set -eu
cd "$(dirname "$0")/../.."
seconds=${1:-600}
tools/build.sh listing
(cd reference && cargo build --offline --release -p fuzz -p reference)
rm -rf target/fuzz && mkdir -p target/fuzz/in
reference/target/release/generate 1 400 target/fuzz/in >/dev/null 2>&1
find target/fuzz/in -type f -size +8k -delete
printf '\001' >target/fuzz/in/edition
afl-clang-fast -O2 -Iinclude -o target/fuzz/harness reference/fuzz/harness.c target/staticlib/liblisting.a \
    reference/target/release/libreference_c.a -lpthread -ldl -lm
AFL_NO_UI=1 AFL_SKIP_CPUFREQ=1 AFL_I_DONT_CARE_ABOUT_MISSING_CRASHES=1 AFL_NO_AFFINITY=1 \
    afl-fuzz -i target/fuzz/in -o target/fuzz/out -V "$seconds" -- target/fuzz/harness >target/fuzz/log 2>&1
grep -E '^(execs_done|execs_per_sec|corpus_count|saved_crashes|saved_hangs|edges_found|run_time)' target/fuzz/out/default/fuzzer_stats
