#!/usr/bin/env bash
# build.sh [--built] [NAME..]: proves and builds programs into target/bin, and libraries for C into target/staticlib; with no name, all of them.
# Prints what was proved only where that fails. With --built a program that stands built in its folder is taken as it is, as after `rt ci`,
# which builds every program from its proof.
set -u -o pipefail
cd "$(dirname "$0")/.." || exit 2
programs="cue ask load_write load_show workload beat try_scenarios try_answers try_loads claim_bench"
libraries="belgwyth listing frame_listing generator"
log=$(mktemp) || exit 2
trap 'rm -f "$log"' EXIT

# program NAME: `rt run` builds it and runs it, on an empty input.
program() {
    local made=crates/$1/out/$1
    if [ -z "$built" ] || [ ! -x "$made" ]; then
        (cd "crates/$1" && rt run </dev/null >/dev/null 2>"$log") || return 1
    fi
    mkdir -p target/bin && cp "$made" "target/bin/.$1" && mv "target/bin/.$1" "target/bin/$1"
}

# library NAME: the archive of the crate NAME_c, which has the exports, under the library's own name.
library() {
    (cd "crates/${1}_c" && rt lib </dev/null >"$log" 2>&1) || return 1
    mkdir -p target/staticlib && cp "crates/${1}_c/out/lib${1}_c.a" "target/staticlib/.$1" && mv "target/staticlib/.$1" "target/staticlib/lib$1.a"
}

# build NAME: a program or a library.
build() {
    case " $programs " in *" $1 "*)
        program "$1"
        return
        ;;
    esac
    case " $libraries " in *" $1 "*)
        library "$1"
        return
        ;;
    esac
    echo "there is no such program or library" >"$log"
    return 1
}

built=""
if [ "${1:-}" = --built ]; then
    built=yes
    shift
fi
# shellcheck disable=SC2086
[ $# -gt 0 ] || set -- $programs $libraries
for name; do
    build "$name" || {
        tail -n 40 "$log" | cut -c1-300 >&2
        echo "build.sh: $name was not built" >&2
        exit 1
    }
done
