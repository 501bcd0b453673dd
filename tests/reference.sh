#!/usr/bin/env bash
# The layout and lints of all that stands in reference/, and the reference's own tests. Nothing of it needs what is proved. The last line is
# 'N passed, M failed'.
set -u -o pipefail
cd "$(dirname "$0")/.." || exit 2
. tests/lib.sh || exit 2
. tests/cargo.sh || exit 2

cd reference || exit 2
try "cargo fmt" quiet cargo fmt --all --check
try "cargo clippy" quiet cargo clippy --offline --release --workspace --all-targets -- -D warnings
cargo_tests --package reference
total
