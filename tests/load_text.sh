#!/usr/bin/env bash
# Runs load_write and load_show (built by `tools/build.sh load_write load_show`) on small cases: a line for each. The last line is 'N passed,
# M failed'.
set -u -o pipefail
cd "$(dirname "$0")/.." || exit 2
. tests/lib.sh || exit 2
bin=target/bin
tmp=$(mktemp -d) || exit 2
trap 'rm -rf "$tmp"' EXIT
: >"$tmp/err"

# unhex: the bytes that a text of hex digits stands for.
unhex() {
    perl -ne 'print pack "H*", $_'
}

# run PROGRAM: what a program makes of standard input, in the file `out`. What it says on standard error is put behind `err`, and so is an
# exit status other than 0, with which no verdict is good.
run() {
    "$bin/$1" >"$tmp/out" 2>>"$tmp/err" || echo "$1: exit status $?" >>"$tmp/err"
}

# verdict NAME [MESSAGE]: `out` is to be as `want`, and since the last verdict standard error had the message, or nothing.
verdict() {
    if [ "$#" -gt 1 ]; then printf '%s\n' "$2" >"$tmp/wanterr"; else : >"$tmp/wanterr"; fi
    if cmp -s "$tmp/out" "$tmp/want" && cmp -s "$tmp/err" "$tmp/wanterr"; then
        ok "$1"
    else
        fail "$1"
        diff <(od -A d -t x1 "$tmp/want") <(od -A d -t x1 "$tmp/out") | head -n 6
        diff "$tmp/wanterr" "$tmp/err" | head -n 6
    fi
    : >"$tmp/err"
}

# good NAME TEXT HEX: the text (with printf's escapes) is written as the load of these bytes.
good() {
    printf '%b' "$2" | run load_write
    printf '%s' "$3" | unhex >"$tmp/want" || fail "$1: the bytes that are wanted"
    verdict "$1"
}

# bad NAME TEXT MESSAGE: the text is reported with this message, and nothing is written.
bad() {
    printf '%b' "$2" | run load_write
    : >"$tmp/want"
    verdict "$1" "$3"
}

# shown NAME HEX TEXT: the load of these bytes is shown as this text.
shown() {
    printf '%s' "$2" | unhex | run load_show || fail "$1: the bytes that are given"
    printf '%b' "$3" >"$tmp/want"
    verdict "$1"
}

rig=000901000000000000000f
rig2=000b01000000000000000f0003 # of editions 2 and 3: a pool of 3
desk=000406020a40 # desk 2, guarantee 10, limit 64
grace=0005080000ea60 # 60,000 ticks
header='# edition 1\n'

# the sample, there and back
run load_write <crates/load_write/stdin
cp crates/load_write/stdout "$tmp/want"
verdict "sample: text to load"
run load_show <crates/load_write/stdout
cp crates/load_show/stdout "$tmp/want"
verdict "sample: load to text"
run load_write <crates/load_show/stdout
cp crates/load_show/stdin "$tmp/want"
verdict "sample: shown text to the same load"
run load_write <crates/load_write/stdin
mv "$tmp/out" "$tmp/load"
run load_show <"$tmp/load"
cp crates/load_show/stdout "$tmp/want"
verdict "sample: text to load to text"

# scenario 15's loads
shown "empty load" "" '# stop 12 0\n'
shown "edition byte alone" 01 "$header"
shown "unknown edition" ff '# stop 11 0\n'
shown "half a length" 0100 "$header# stop 12 1\n"
shown "record of no bytes" 010000 "$header# stop 13 1\n"

# edition 2
shown "edition 2 alone" 02 'edition 2\n'
shown "edition 2 with all of its calls" \
    "02${rig2}0017020000000000000007000000000000000c0000000affff000b0300000000000000080001000b040000000000000009000200090500000000000000ff" \
    'edition 2\nrig F 3\nclaim 7 C 10 65535\nrelease 8 1\nwithdraw 9 2\nclock 255\n'
shown "edition 2 with a rig of edition 1" "02$rig" 'edition 2\n# stop 13 1\n'
shown "edition 2 with a claim of edition 1" "02${rig2}001502000000000000000700000000000000080000000a" 'edition 2\nrig F 3\n# stop 13 2\n'
shown "edition 1 with a rig of edition 2" "01$rig2" "$header# stop 13 1\n"

# edition 3
shown "edition 3 alone" 03 'edition 3\n'
shown "edition 4" 04 '# stop 11 0\n'
shown "edition 3 with all of its calls" \
    "03${rig2}${grace}${desk}0018020000000000000007000000000000000c0000000affff02000b0300000000000000080001000b040000000000000009000200090500000000000000ff" \
    'edition 3\nrig F 3\ngrace 60000\ndesk 2 10 64\nclaim 7 C 10 65535 2\nrelease 8 1\nwithdraw 9 2\nclock 255\n'
shown "edition 3 with a rig of edition 1" "03$rig" 'edition 3\n# stop 13 1\n'
shown "edition 3 with a claim of edition 2" "03${rig2}001702000000000000000700000000000000080000000a0002" 'edition 3\nrig F 3\n# stop 13 2\n'
shown "edition 2 with a claim of edition 3" "02${rig2}001802000000000000000700000000000000080000000a000202" 'edition 2\nrig F 3\n# stop 13 2\n'
shown "edition 2 with a desk" "02$rig2$desk" 'edition 2\nrig F 3\n# stop 13 2\n'
shown "edition 1 with a desk" "01$rig$desk" "${header}rig F\n# stop 13 2\n"
shown "a desk before the rig" "03$desk" 'edition 3\n# stop 13 1\n'
shown "a desk without its limit" "03${rig2}000306020a" 'edition 3\nrig F 3\n# stop 13 2\n'
shown "largest and least grace shown" "03${rig2}000508ffffffff00050800000000" 'edition 3\nrig F 3\ngrace 4294967295\ngrace 0\n'
shown "edition 2 with a grace" "02$rig2$grace" 'edition 2\nrig F 3\n# stop 13 2\n'
shown "edition 1 with a grace" "01$rig$grace" "${header}rig F\n# stop 13 2\n"
shown "a grace before the rig" "03$grace" 'edition 3\n# stop 13 1\n'
shown "a grace in three bytes" "03${rig2}00040800ea60" 'edition 3\nrig F 3\n# stop 13 2\n'
shown "a grace that is cut off" "03${rig2}0005080000ea" 'edition 3\nrig F 3\n# stop 12 2\n'
shown "kind 7 in edition 3" "03${rig2}0005070000ea60" 'edition 3\nrig F 3\n# stop 13 2\n'
shown "kind 9 in edition 3" "03${rig2}0005090000ea60" 'edition 3\nrig F 3\n# stop 13 2\n'

# other refusals of load_show
shown "second rig" "01$rig$rig" "${header}rig F\n# stop 13 2\n"
shown "cut in the third record" "01${rig}0009050000000000000007000b03" "${header}rig F\nclock 7\n# stop 12 3\n"
head -c 65537 /dev/zero | run load_show
printf '# stop 14 0\n' >"$tmp/want"
verdict "load of 65,537 bytes"

# lines
good "no text" "" 01
good "comments and blank lines" '# a show\n\n \t \nrig F# all\n   # end' "01$rig"
good "tabs, spaces, and no line feed at the end" '\t rig \t F \t' "01$rig"
good "carriage returns" 'rig F\r\n\r\n# x\r\nclock 7\r\n' "01${rig}0009050000000000000007"
good "hex in either case" 'rig aBcDeF0123456789\n' 01000901abcdef0123456789
good "zeros in front of hex" 'rig 0000000000000000F\n' "01$rig"
good "list of groups" 'rig 0,3,5-7\n' 0100090100000000000000e9
good "a single group as a list" 'rig 5,\nclaim 0 5-5 1\n' 0100090100000000000000200015020000000000000000000000000000002000000001
good "all groups" 'rig 0-63\n' 01000901ffffffffffffffff
good "largest numbers" 'rig F\nclaim 18446744073709551615 FFFFFFFFFFFFFFFF 4294967295\nrelease 0 65535\nwithdraw 007 0\n' \
    "01${rig}001502ffffffffffffffffffffffffffffffffffffffff000b030000000000000000ffff000b0400000000000000070000"

bad "unknown call" 'rig F\n\nclam 0 F 1\n' 'line 3: unknown call'
bad "upper case call" 'RIG F\n' 'line 1: unknown call'
bad "missing number" '# x\nrig F\nclock 0\nclaim 0 F\n' 'line 4: a number is missing: claim CLOCK GROUPS LENGTH'
bad "missing everything" 'rig # F\n' 'line 1: a number is missing: rig GROUPS'
bad "too many words" 'rig F\nclock 5 6\n' 'line 2: too many words: clock CLOCK'
bad "clock is no number" 'rig F\nclock 5x\n' 'line 2: clock is not a number'
bad "ticket is no number" 'rig F\nrelease 5 A\n' 'line 2: ticket is not a number'
bad "length is no number" 'rig F\nclaim 5 A -1\n' 'line 2: length is not a number'
bad "groups are no hex" 'rig 0xF\n' 'line 1: groups are not hex or a list'
bad "list with a hole" 'rig 1,,2\n' 'line 1: groups are not hex or a list'
bad "list with a hex digit" 'rig 1,A\n' 'line 1: groups are not hex or a list'
bad "range without an end" 'rig 1-\n' 'line 1: groups are not hex or a list'
bad "range of three" 'rig 1-2-3\n' 'line 1: groups are not hex or a list'
bad "range backward" 'rig 7-5\n' 'line 1: range runs backward'
bad "group over 63" 'rig F\nclaim 0 60-64 1\n' 'line 2: group over 63'
bad "clock of 2^64" 'rig F\nclock 18446744073709551616\n' 'line 2: number too large'
bad "groups of 2^64" 'rig 10000000000000000\n' 'line 1: number too large'
bad "length of 2^32" 'rig F\nclaim 0 F 4294967296\n' 'line 2: number too large'
bad "ticket of 65,536" 'rig F\nwithdraw 0 65536\n' 'line 2: number too large'
bad "a long word that is no number" 'rig F\nclock 99999999999999999999999x\n' 'line 2: clock is not a number'
bad "rig not first" 'clock 0\nrig F\n' 'line 1: rig must be first'
bad "second rig in a text" 'rig F\nclock 0\nrig F\n' 'line 3: rig must be first'
bad "a bad line at the end writes nothing" 'rig F\nclaim 0 1 1\nclaim 0 1 1\nnonsense\n' 'line 4: unknown call'

# forms NUMBER FORM ..: in an edition, a line of the first word of each form alone, and one of that word and nine others, is reported with the
# form.
forms() {
    local edition=$1 head='# a show\n\n' form word
    [ "$edition" = 1 ] || head="$head edition $edition\t# x\r\n"
    shift
    for form; do
        word=${form%% *}
        bad "edition $edition: $word alone" "${head}rig F$([ "$edition" = 1 ] || echo ' 3')\n\n\t$word \r\nfoo\n" \
            "line $([ "$edition" = 1 ] && echo 5 || echo 6): a number is missing: $form"
        bad "edition $edition: $word and nine words" "$head$word 1 2 3 4 5 6 7 8 9" "line $([ "$edition" = 1 ] && echo 3 || echo 4): too many words: $form"
    done
}
forms 1 'rig GROUPS' 'claim CLOCK GROUPS LENGTH' 'release CLOCK TICKET' 'withdraw CLOCK TICKET' 'clock CLOCK'
forms 2 'rig GROUPS POOL' 'claim CLOCK GROUPS LENGTH UNITS' 'release CLOCK TICKET' 'withdraw CLOCK TICKET' 'clock CLOCK'
forms 3 'rig GROUPS POOL' 'claim CLOCK GROUPS LENGTH UNITS DESK' 'release CLOCK TICKET' 'withdraw CLOCK TICKET' 'clock CLOCK' \
    'desk DESK GUARANTEE LIMIT' 'grace TICKS'
bad "an edition's line of one word" '# x\n\n\tedition' 'line 3: a number is missing: edition NUMBER'
bad "an edition's line of three words" 'edition 3 3\nrig F 3\n' 'line 1: too many words: edition NUMBER'
bad "a second edition's line of one word" 'edition 2\nedition\n' 'line 2: unknown call'

# editions
good "edition 1 alone" 'edition 1\n' 01
good "edition 1 behind comments and blank lines" '# x\n\n \t edition 001 # y\r\nrig F\n' "01$rig"
good "edition 2 alone" 'edition 2\n' 02
good "edition 2" '# x\nedition 2\nrig F 3 # spots\nclaim 7 8 10 2\nrelease 8 1\n' "02${rig2}001702000000000000000700000000000000080000000a0002000b0300000000000000080001"
good "largest and least pool and units" 'edition 2\nrig 0-63 65535\nclaim 0 0 1 065535\nclaim 0 1 1 0\n' \
    02000b01ffffffffffffffffffff0017020000000000000000000000000000000000000001ffff00170200000000000000000000000000000001000000010000
good "edition 3 alone" 'edition 3\n' 03
good "edition 3" 'edition 3\nrig F 3\ndesk 2 10 64 # lights\nclaim 7 8 10 2 2\nrelease 8 1\n' \
    "03${rig2}${desk}001802000000000000000700000000000000080000000a000202000b0300000000000000080001"
good "largest and least desk, guarantee and limit" 'edition 3\nrig F 3\ndesk 255 255 0255\ndesk 0 0 0\nclaim 0 1 1 0 255\nclaim 0 1 1 0 0\n' \
    "03${rig2}000406ffffff00040600000000180200000000000000000000000000000001000000010000ff0018020000000000000000000000000000000100000001000000"
good "a grace" 'edition 3\nrig F 3\ngrace 60000 # ticks\ndesk 2 10 64\n' "03$rig2$grace$desk"
good "largest and least grace" 'edition 3\nrig F 3\ngrace 4294967295\ngrace 0\ngrace 000000000000060000\n' \
    "03${rig2}000508ffffffff00050800000000${grace}"
bad "edition 4" '# x\nedition 4\nrig F\n' 'line 2: unknown edition'
bad "edition 3 behind a call" 'rig F\nedition 3\n' 'line 2: unknown call'
bad "a desk in edition 2" 'edition 2\nrig F 3\ndesk 1 64 64\n' 'line 3: unknown call'
bad "a desk in edition 1" 'rig F\ndesk 1 64 64\n' 'line 2: unknown call'
bad "edition 2 with a claim's desk" 'edition 2\nrig F 3\nclaim 0 F 1 2 1\n' 'line 3: too many words: claim CLOCK GROUPS LENGTH UNITS'
bad "edition 3 without a claim's desk" 'edition 3\nrig F 3\nclaim 0 F 1 2\n' 'line 3: a number is missing: claim CLOCK GROUPS LENGTH UNITS DESK'
bad "edition 3 without a pool" 'edition 3\nrig F\n' 'line 2: a number is missing: rig GROUPS POOL'
bad "a desk without a limit" 'edition 3\nrig F 3\ndesk 1 64\n' 'line 3: a number is missing: desk DESK GUARANTEE LIMIT'
bad "a desk with a word more" 'edition 3\nrig F 3\ndesk 1 64 64 64\n' 'line 3: too many words: desk DESK GUARANTEE LIMIT'
bad "desk is no number" 'edition 3\nrig F 3\ndesk A 64 64\n' 'line 3: desk is not a number'
bad "guarantee is no number" 'edition 3\nrig F 3\ndesk 1 -1 64\n' 'line 3: guarantee is not a number'
bad "limit is no number" 'edition 3\nrig F 3\ndesk 1 64 x\n' 'line 3: limit is not a number'
bad "a claim's desk is no number" 'edition 3\nrig F 3\nclaim 0 F 1 2 A\n' 'line 3: desk is not a number'
bad "desk 256" 'edition 3\nrig F 3\ndesk 256 64 64\n' 'line 3: number too large'
bad "guarantee of 256" 'edition 3\nrig F 3\ndesk 1 256 64\n' 'line 3: number too large'
bad "limit of 256" 'edition 3\nrig F 3\ndesk 1 64 256\n' 'line 3: number too large'
bad "a claim's desk 256" 'edition 3\nrig F 3\nclaim 0 F 1 2 256\n' 'line 3: number too large'
bad "a desk's line before the rig" 'edition 3\ndesk 1 64 64\nrig F 3\n' 'line 2: rig must be first'
bad "a grace in edition 2" 'edition 2\nrig F 3\ngrace 60000\n' 'line 3: unknown call'
bad "a grace in edition 1" 'rig F\ngrace 60000\n' 'line 2: unknown call'
bad "a grace without its ticks" 'edition 3\nrig F 3\ngrace # 60000\n' 'line 3: a number is missing: grace TICKS'
bad "a grace with a word more" 'edition 3\nrig F 3\ngrace 60000 1\n' 'line 3: too many words: grace TICKS'
bad "grace is no number" 'edition 3\nrig F 3\ngrace 60,000\n' 'line 3: grace is not a number'
bad "grace in hex" 'edition 3\nrig F 3\ngrace EA60\n' 'line 3: grace is not a number'
bad "grace of 2^32" 'edition 3\nrig F 3\ngrace 4294967296\n' 'line 3: number too large'
bad "a grace's line before the rig" 'edition 3\ngrace 60000\nrig F 3\n' 'line 2: rig must be first'
bad "edition 2 behind a call" 'rig F\nedition 2\n' 'line 2: unknown call'
bad "edition 1 with a pool" 'rig F 3\n' 'line 1: too many words: rig GROUPS'
bad "edition 1 with units" 'edition 1\nrig F\nclaim 0 F 1 2\n' 'line 3: too many words: claim CLOCK GROUPS LENGTH'
bad "edition 2 without a pool" 'edition 2\nrig F\n' 'line 2: a number is missing: rig GROUPS POOL'
bad "edition 2 without units" 'edition 2\nrig F 3\nclaim 0 F 1\n' 'line 3: a number is missing: claim CLOCK GROUPS LENGTH UNITS'
bad "edition 2 with a word more" 'edition 2\nrig F 3\nclaim 0 F 1 2 3\n' 'line 3: too many words: claim CLOCK GROUPS LENGTH UNITS'
bad "pool is no number" 'edition 2\nrig F A\n' 'line 2: pool is not a number'
bad "units are no number" 'edition 2\nrig F 3\nclaim 0 F 1 -1\n' 'line 3: units are not a number'
bad "pool of 65,536" 'edition 2\nrig F 65536\n' 'line 2: number too large'
bad "units of 65,536" 'edition 2\nrig F 3\nclaim 0 F 1 65536\n' 'line 3: number too large'
bad "the groups go before the pool" 'edition 2\nrig G x\n' 'line 2: groups are not hex or a list'
bad "the length goes before the units" 'edition 2\nrig F 3\nclaim 0 F x y\n' 'line 3: length is not a number'
bad "second rig in edition 2" 'edition 2\nrig F 3\nrig F 3\n' 'line 3: rig must be first'
bad "edition 0" 'edition 0\n' 'line 1: unknown edition'
bad "edition 257" 'edition 257\n' 'line 1: unknown edition'
bad "edition that is no number" 'edition one\n' 'line 1: unknown edition'
bad "edition without its number" 'edition # 1\nrig F\n' 'line 1: a number is missing: edition NUMBER'
bad "edition with a word more" 'edition 1 rig\n' 'line 1: too many words: edition NUMBER'
bad "edition upper case" 'Edition 1\n' 'line 1: unknown call'
bad "second edition" 'edition 1\nedition 1\n' 'line 2: unknown call'
bad "edition behind a call" 'rig F\nedition 1\n' 'line 2: unknown call'
bad "a wrong line behind the edition" '# x\nedition 1\nrig F\n\nclock\n' 'line 5: a number is missing: clock CLOCK'
bad "a call before the rig behind the edition" 'edition 1\nclock 0\n' 'line 2: rig must be first'
bad "the count of words goes before their values" 'rig F\nclaim x y\n' 'line 2: a number is missing: claim CLOCK GROUPS LENGTH'
bad "the first wrong word decides" 'rig F\nclaim 0 64, x\n' 'line 2: group over 63'

# edition 2, there and back: a load whose lines are of the greatest length
{
    echo "edition 2"
    echo "rig FFFFFFFFFFFFFFFF 65535"
    yes "claim 18446744073709551615 FFFFFFFFFFFFFFFF 4294967295 65535" | head -n 2620
} >"$tmp/full"
run load_write <"$tmp/full"
mv "$tmp/out" "$tmp/load"
run load_show <"$tmp/load"
cp "$tmp/full" "$tmp/want"
verdict "a full load of edition 2 there and back"
{ cat "$tmp/full"; echo "claim 0 F 1 0"; } | run load_write
: >"$tmp/want"
verdict "one claim over a full load of edition 2" "line 2623: load over 65,536 bytes"

# edition 3, there and back: as many records as a load has, and claims whose lines are of the greatest length
{
    echo "edition 3"
    echo "rig FFFFFFFFFFFFFFFF 65535"
    yes "desk 255 255 255" | head -n 10920
} >"$tmp/full"
run load_write <"$tmp/full"
mv "$tmp/out" "$tmp/load"
run load_show <"$tmp/load"
cp "$tmp/full" "$tmp/want"
verdict "a full load of desks there and back"
{ cat "$tmp/full"; echo "desk 1 1 1"; } | run load_write
: >"$tmp/want"
verdict "one desk over a full load" "line 10923: load over 65,536 bytes"
{
    echo "edition 3"
    echo "rig FFFFFFFFFFFFFFFF 65535"
    yes "grace 4294967295" | head -n 9360
} >"$tmp/full"
run load_write <"$tmp/full"
mv "$tmp/out" "$tmp/load"
run load_show <"$tmp/load"
cp "$tmp/full" "$tmp/want"
verdict "a full load of graces there and back"
{
    echo "edition 3"
    echo "rig FFFFFFFFFFFFFFFF 65535"
    yes "claim 18446744073709551615 FFFFFFFFFFFFFFFF 4294967295 65535 255" | head -n 2520
} >"$tmp/full"
run load_write <"$tmp/full"
mv "$tmp/out" "$tmp/load"
run load_show <"$tmp/load"
cp "$tmp/full" "$tmp/want"
verdict "a full load of edition 3 there and back"

# sizes: the edition byte, the rig and 5,956 clocks are 65,528 bytes
{ echo "rig F"; yes "clock 1" | head -n 5956; } >"$tmp/full"
run load_write <"$tmp/full"
mv "$tmp/out" "$tmp/load"
run load_show <"$tmp/load"
{ printf '%b' "$header"; cat "$tmp/full"; } >"$tmp/want"
verdict "a full load there and back"
{ cat "$tmp/full"; echo "clock 1"; } >"$tmp/over"
run load_write <"$tmp/over"
: >"$tmp/want"
verdict "one record over a full load" "line 5958: load over 65,536 bytes"
{ echo "rig F"; head -c 1048570 /dev/zero | tr '\0' '\n'; } | run load_write
printf '01%s' "$rig" | unhex >"$tmp/want"
verdict "text of 1,048,576 bytes"
{ echo "rig F"; head -c 1048571 /dev/zero | tr '\0' '\n'; } | run load_write
: >"$tmp/want"
verdict "text of 1,048,577 bytes" "text over 1,048,576 bytes"

# The line of a record, by the command that docs/FORMAT.md gives, taken from there: `record_line TEXT N` prints what it prints.
finder=$(sed -n 's/^    \(grep .*\) examples\/overdue\.show | sed -n 14p$/\1 "$1" | sed -n "${2}p"/p' docs/FORMAT.md)
record_line() {
    eval "$finder"
}

# records NAME TEXT: for every record of a text that makes a load the command prints a line that stands in the text where its number says
# and that says, alone, what load_show prints of the record; and none behind the last.
records() {
    local text=$2 calls line wrong="" n=0
    run load_write <"$text"
    mv "$tmp/out" "$tmp/load"
    run load_show <"$tmp/load"
    mv "$tmp/out" "$tmp/text"
    calls=$(($(wc -l <"$tmp/text") - 1))
    while [ "$n" -lt "$calls" ]; do
        n=$((n + 1))
        record_line "$text" "$n" >"$tmp/found"
        line=$(sed -nE '1s/^([0-9]+):.*/\1/p' "$tmp/found")
        sed -E '1s/^[0-9]+://' "$tmp/found" >"$tmp/line"
        sed -n "${line:-1}p" "$text" | grep -a '' | cmp -s - "$tmp/line" || wrong="$wrong $n"
        # behind the edition, and the rig if it is not that
        { head -n $((n > 1 ? 2 : 1)) "$tmp/text"; cat "$tmp/line"; } | run load_write
        mv "$tmp/out" "$tmp/load"
        run load_show <"$tmp/load"
        sed -n "$((n + 1))p" "$tmp/text" | cmp -s - <(tail -n 1 "$tmp/out") || wrong="$wrong $n"
    done
    record_line "$text" $((n + 1)) >"$tmp/out"
    : >"$tmp/want"
    if [ "$n" -eq 0 ] || [ -n "$wrong" ]; then echo "of $n records wrong:$wrong" >>"$tmp/err"; fi
    verdict "$1"
}

for show in examples/*.show; do
    # examples/duet.show is a dance show, which makes no load
    [ "$show" = examples/duet.show ] || records "the records of $show" "$show"
done
printf '%b' '# edition\r\n\t\n \t edition 003#x\r\n\r\n\trig 0-3\t3#edition\n#\n  # \0377\0000 \n\tgrace 5 # 1\n\n\tdesk 1 64 64\r\n # clock 4\nclaim 0 3, 10 0 1#\n' >"$tmp/odd"
printf '\t# release 3 1\r\n \t clock 00007#8\r\n\r\nrelease 8 1' >>"$tmp/odd"
records "the records of a text with odd lines" "$tmp/odd"
record_line examples/overdue.show 14 | sed 's/^/    /' >"$tmp/out"
grep -A 4 ' examples/overdue.show | sed -n 14p$' docs/FORMAT.md | tail -n 1 >"$tmp/want"
verdict "the line that docs/FORMAT.md shows"
record_line examples/duet.show 13 | sed 's/^[0-9]*://' >"$tmp/out"
tail -n 1 examples/duet.show >"$tmp/want"
verdict "the last call of a dance show"
record_line examples/duet.show 14 >"$tmp/out"
: >"$tmp/want"
verdict "no call behind the last of a dance show"

total
