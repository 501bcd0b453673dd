#!/usr/bin/env bash
# Builds the example player with warnings as errors, in C and with the header in C++, and compares what it prints with the program's
# listing; calls the listing of dance shows and the workloads from C; and holds what the header says of the libraries and of numbers. The
# last line is 'N passed, M failed'.
set -u -o pipefail
cd "$(dirname "$0")/.." || exit 2
. tests/lib.sh || exit 2
work=$(mktemp -d) || exit 2
trap 'rm -rf "$work"' EXIT

# lists LOAD: what the player says of a load, in the file player.out. What it says on standard error is shown where its exit status is not 0.
lists() {
    "$work/player" "$1" >"$work/player.out" 2>"$work/player.err" || { tail -n 5 "$work/player.err"; return 1; }
}

# agree LOAD: the player and the program say the same of a load.
agree() {
    lists "$1" && target/bin/cue <"$1" >"$work/cue.out" && cmp "$work/player.out" "$work/cue.out"
}

# lists_as LOAD LISTING: the player says of a load what a file has.
lists_as() {
    lists "$1" && cmp "$work/player.out" "$2"
}

library=target/staticlib/liblisting.a
try "the library listing is built" quiet tools/build.sh listing
try "player.c builds with warnings as errors" gcc -std=c99 -O2 -Wall -Wextra -Wpedantic -Werror -Iinclude -o "$work/player" examples/player.c "$library"
printf '#include "belgwyth.h"\nint main() { uint8_t l[1] = {1}, o[64]; return belgwyth_listing(l, 1, o, sizeof o) == 24 ? 0 : 1; }\n' >"$work/header.cpp"
try "the header serves C++" g++ -Wall -Wextra -Werror -Iinclude -o "$work/header" "$work/header.cpp" "$library"
try "the C++ call lists an edition byte" "$work/header"

# The player and the program say the same of the sample show, of the worked loads, and of a load that is too long.
cp crates/cue/stdin "$work/sample.load"
: >"$work/empty.load"
printf '\001' >"$work/edition.load"
printf '\002' >"$work/edition_2.load"
printf '\003' >"$work/edition_3.load"
printf '\377' >"$work/unknown.load"
printf '\001\000' >"$work/short.load"
printf '\001\000\000' >"$work/misfit.load"
head -c 65537 /dev/zero | tr '\000' '\001' >"$work/long.load"
cp examples/overture.load examples/spots.load examples/desks.load examples/overdue.load examples/workshop.load "$work"
for name in sample empty edition edition_2 edition_3 unknown short misfit long overture spots desks overdue workshop; do
    try "player and program agree on $name" agree "$work/$name.load"
done
try "the sample of the paper" lists_as "$work/sample.load" crates/cue/stdout
try "the sample show's listing" lists_as examples/overture.load examples/overture.listing
try "the listing of the show with followspots" lists_as examples/spots.load examples/spots.listing
try "the listing of the show with two desks" lists_as examples/desks.load examples/desks.listing
try "the listing of the show that runs over" lists_as examples/overdue.load examples/overdue.listing
try "the listing of the sample workload" lists_as examples/workshop.load examples/workshop.listing

# A dance show from C: its listing, a wrong line, a buffer that is too small, and one whose later bytes stay.
cat >"$work/dance.c" <<'EOF'
#include <stdio.h>
#include <string.h>

#include "belgwyth.h"

int main(void)
{
    static uint8_t text[65536], out[65536];
    size_t length = fread(text, 1, sizeof text, stdin), written;

    memset(out, 'x', sizeof out);
    if (belgwyth_beat((const uint8_t *)"rig F\nclam", 10, out, sizeof out) != BELGWYTH_WRONG_LINE || out[0] != 'x')
        return 2;
    if (belgwyth_beat((const uint8_t *)"rig F\n", 6, out, 42) != BELGWYTH_NO_SPACE || out[0] != 'x')
        return 3;
    if (belgwyth_beat((const uint8_t *)"rig F\n", 6, out, 43) != 43 || out[43] != 'x')
        return 4;
    written = belgwyth_beat(text, length, out, sizeof out);
    fwrite(out, 1, written, stdout);
    return 0;
}
EOF
# dances_as SHOW LISTING: the caller in C says of a dance show what a file has.
dances_as() {
    "$work/dance" <"$1" >"$work/dance.out" && cmp "$work/dance.out" "$2"
}
try "the library frame_listing is built" quiet tools/build.sh frame_listing
try "a caller in C builds with both libraries" gcc -std=c99 -O2 -Wall -Wextra -Wpedantic -Werror -Iinclude -o "$work/dance" "$work/dance.c" "$library" target/staticlib/libframe_listing.a
try "the sample dance show from C" dances_as examples/duet.show examples/duet.listing

# A workload from C: a wrong count, a buffer that is a byte too small, and one whose later bytes stay.
cat >"$work/workload.c" <<'EOF'
#include <stdio.h>
#include <string.h>

#include "belgwyth.h"

int main(void)
{
    static uint8_t out[BELGWYTH_WORKLOAD_MAX + 1];
    size_t length;

    memset(out, 'x', sizeof out);
    if (belgwyth_workload(1, 0, out, sizeof out) != BELGWYTH_COUNT || out[0] != 'x')
        return 2;
    if (belgwyth_workload(1, BELGWYTH_WORKLOAD_MAX_COUNT + 1, out, 0) != BELGWYTH_COUNT)
        return 3;
    if (belgwyth_workload(1, 1, out, 34) != BELGWYTH_NO_SPACE || out[0] != 'x')
        return 4;
    if (belgwyth_workload(1, 1, out, 35) != 35 || out[35] != 'x')
        return 5;
    if (belgwyth_workload(UINT32_MAX, BELGWYTH_WORKLOAD_MAX_COUNT, out, sizeof out) > BELGWYTH_WORKLOAD_MAX)
        return 6;
    length = belgwyth_workload(1, 20, out, sizeof out);
    fwrite(out, 1, length, stdout);
    return 0;
}
EOF
# works: the caller in C and the program write the sample workload.
works() {
    "$work/workload" >"$work/c.load" && cmp "$work/c.load" examples/workshop.load && target/bin/workload 1 20 >"$work/program.load" && cmp "$work/program.load" examples/workshop.load
}
try "the library generator is built" quiet tools/build.sh generator
try "a caller in C builds with all libraries" gcc -std=c99 -O2 -Wall -Wextra -Wpedantic -Werror -Iinclude -o "$work/workload" "$work/workload.c" "$library" target/staticlib/libframe_listing.a target/staticlib/libgenerator.a
try "the sample workload from C and from the program" works

# The one library for all calls: the player and both callers with it, what it wants of the C library, and what its calls need of stack.
one=target/staticlib/libbelgwyth.a
warned="-std=c99 -O2 -Wall -Wextra -Wpedantic -Werror -Iinclude"
# wants LIBRARY: the symbols that a library wants of the C library, memcpy at least, are among those that the header names.
wants() {
    nm -u "$1" | sed -n 's/^ *U //p' | sort -u >"$work/wanted" && grep -qx memcpy "$work/wanted" && ! grep -qvxE 'memcpy|memmove|memset' "$work/wanted"
}
# unwritten LIBRARY: a library has no data that could be written.
unwritten() {
    [ "$(size "$1" | awk 'NR > 1 { code += $1; data += $2 + $3 } END { print (code > 0) + 0, data + 0 }')" = "1 0" ]
}
try "the library belgwyth is built" quiet tools/build.sh belgwyth
# shellcheck disable=SC2086
for name in dance workload; do
    try "$name.c builds with the one library" gcc $warned -o "$work/$name" "$work/$name.c" "$one"
done
# shellcheck disable=SC2086
try "player.c builds with the one library" gcc $warned -o "$work/player" examples/player.c "$one"
try "the sample show's listing, with the one library" lists_as examples/overture.load examples/overture.listing
try "the sample dance show from C, with the one library" dances_as examples/duet.show examples/duet.listing
try "the sample workload from C, with the one library" works
for name in belgwyth listing frame_listing generator; do
    try "lib$name.a wants memcpy, memmove and memset alone" wants "target/staticlib/lib$name.a"
    try "lib$name.a has no data that is written" unwritten "target/staticlib/lib$name.a"
done
target/bin/workload 1 1000 >"$work/heavy.load"
# stacks LIBRARY..: the calls of these libraries need no more stack than the header says.
stacks() {
    gcc -std=c11 -O2 -Wall -Wextra -Werror -Iinclude -o "$work/stack" tests/stack.c "$@" && "$work/stack" examples/*.load "$work"/*.load -- examples/duet.show
}
try "stack of the calls in the one library" stacks "$one"
try "stack of the calls in three libraries" stacks "$library" target/staticlib/libframe_listing.a target/staticlib/libgenerator.a

# A player that cannot read or write says so and has exit status 1.
# fails TEXT COMMAND..: a command's exit status is 1, and it says the text on standard error.
fails() {
    local text=$1
    shift
    "$@" 2>"$work/err" >"$work/out"
    [ $? -eq 1 ] && grep -qxF "$text" "$work/err"
}
try "player of a directory" fails "$work: Is a directory" "$work/player" "$work"
try "player of a closed input" fails "standard input: Bad file descriptor" sh -c '"$1" <&-' _ "$work/player"
try "player on a full disk" fails "standard output: No space left on device" sh -c '"$1" examples/overture.load >/dev/full' _ "$work/player"

# The header's numbers are those of docs/FORMAT.md, word by word.
numbered() {
    local rows row number name
    rows=$(sed -n '/^## The numbers/,/^## /p' docs/FORMAT.md | sed -nE 's/^\| ([0-9]+) \| ([a-z -]+) \|.*/\1 \2/p')
    [ "$(wc -l <<<"$rows")" -eq 21 ] || return 1
    while read -r number row; do
        name=$(tr 'a-z -' 'A-Z__' <<<"$row")
        grep -qE "^ +BELGWYTH_$name = $number[, ]" include/belgwyth.h || { echo "no BELGWYTH_$name = $number"; return 1; }
    done <<<"$rows"
}
try "the header's numbers are those of FORMAT" numbered

total
