#!/usr/bin/env bash
# The comparison of the reference with the proved libraries and with the programs (built by `tools/build.sh`). The last line is
# 'N passed, M failed'.
set -u -o pipefail
cd "$(dirname "$0")/.." || exit 2
. tests/lib.sh || exit 2
. tests/cargo.sh || exit 2

try "the library listing is built" quiet tools/build.sh listing
try "the library frame_listing is built" quiet tools/build.sh frame_listing
try "the library generator is built" quiet tools/build.sh generator
cd reference || exit 2
cargo_tests --workspace --exclude reference
total
