#!/usr/bin/env bash
# Runs beat (built by `tools/build.sh beat`) on small dance shows: a line for each. The last line is 'N passed, M failed'.
set -u -o pipefail
cd "$(dirname "$0")/.." || exit 2
. tests/lib.sh || exit 2
bin=target/bin
tmp=$(mktemp -d) || exit 2
trap 'rm -rf "$tmp"' EXIT
header='rec answer ticket row contention\n'

# verdict NAME: with the file `in` on standard input and a stack of 3 MB the program prints what `want` has and says what `wanterr` has on
# standard error.
verdict() {
    if (ulimit -s 3072 && exec "$bin/beat") <"$tmp/in" >"$tmp/out" 2>"$tmp/err" && cmp -s "$tmp/out" "$tmp/want" && cmp -s "$tmp/err" "$tmp/wanterr"; then
        ok "$1"
    else
        fail "$1"
        diff "$tmp/want" "$tmp/out" | head -n 6
        diff "$tmp/wanterr" "$tmp/err" | head -n 6
    fi
}

# good NAME TEXT LINES: the show is listed as the header and these lines (both with printf's escapes).
good() {
    printf '%b' "$2" >"$tmp/in"
    printf '%b' "$header$3" >"$tmp/want"
    : >"$tmp/wanterr"
    verdict "$1"
}

# bad NAME TEXT MESSAGE: the show is reported with this message, and nothing is printed.
bad() {
    printf '%b' "$2" >"$tmp/in"
    : >"$tmp/want"
    printf '%s\n' "$3" >"$tmp/wanterr"
    verdict "$1"
}

# the sample show
try "the sample show is there" cp examples/duet.show "$tmp/in"
try "the sample show's listing is there" cp examples/duet.listing "$tmp/want"
: >"$tmp/wanterr"
verdict "the sample show"

# rows
rig='rig F\n'
one='1 0 0 0 0\n2 0 1 0 0\non 1\n'
good "the first claim is on in the head row" "${rig}claim 8\n" "$one"
good "a claim of other groups waits behind the head" "${rig}claim 8\nclaim 1\n" "${one}3 0 2 1 0\n"
good "three rows" "${rig}claim 8\nclaim C\nclaim 6\nclaim 3\nclaim 1\n" "${one}3 0 2 1 1\n4 0 3 2 1\n5 0 4 1 1\n6 0 5 2 1\n"
good "a head change: all of the next row, ascending" "${rig}claim 8\nclaim C\nclaim 6\nclaim 3\nrelease 1\nrelease 4\nrelease 2\n" \
    "${one}3 0 2 1 1\n4 0 3 2 1\n5 0 4 1 1\n6 0 1 0 0\non 2\non 4\n7 0 4 0 0\n8 0 2 0 0\non 3\n"
good "row 1 with contention 2" "${rig}claim 8\nclaim 1\nclaim 2\nrelease 1\nclaim 3\n" \
    "${one}3 0 2 1 0\n4 0 3 1 0\n5 0 1 0 0\non 2\non 3\n6 0 4 1 2\n"
good "emptied, the table begins with its head row again" "${rig}claim 8\nrelease 1\nclaim 8\n" "${one}3 0 1 0 0\n4 0 2 0 0\non 2\n"

# refusals
good "a claim: dark, off-rig" "${rig}claim 0\nclaim 10\nclaim 8\n" '1 0 0 0 0\n2 1 0 0 0\n3 2 0 0 0\n4 0 1 0 0\non 1\n'
good "a release: never issued, 0, the greatest, waiting, gone" \
    "${rig}claim 8\nclaim 8\nrelease 3\nrelease 0\nrelease 65535\nrelease 2\nrelease 1\nrelease 1\n" \
    "${one}3 0 2 1 1\n4 8 0 0 0\n5 8 0 0 0\n6 8 0 0 0\n7 9 0 0 0\n8 0 1 0 0\non 2\n9 8 0 0 0\n"
{ echo "rig F"; yes "claim 8" | head -n 64; printf 'claim 1\nclaim 10\nclaim 0\nrelease 1\nclaim 1\nclaim 1\n'; } >"$tmp/in"
{
    printf '%b' "$header$one"
    for n in $(seq 2 64); do echo "$((n + 1)) 0 $n $((n - 1)) $((n - 1))"; done
    printf '66 6 0 0 0\n67 2 0 0 0\n68 1 0 0 0\n69 0 1 0 0\non 2\n70 0 65 1 0\n71 6 0 0 0\n'
} >"$tmp/want"
: >"$tmp/wanterr"
verdict "64 pending"
good "a dark rig ends the listing" 'rig 0\nclaim 1\nrelease 1\n' 'stop 1 1\n'
good "a dark rig alone" '# x\nrig 0000' 'stop 1 1\n'

# lines
good "no text" '' ''
good "no calls" '# a show\n\n \t \r\n#rig F' ''
good "comments, blank lines, tabs and no line feed at the end" '# x\n\n\t rig \t F# all\n   # y\nclaim 8\t' "$one"
good "carriage returns" 'rig F\r\n\r\n# x\r\nclaim 8#\r\n' "$one"
good "zeros in front, hex in either case" 'rig 00000000000000000f\nclaim 0008\nrelease 00000000000000000000001\n' "${one}3 0 1 0 0\n"
good "lists of groups" 'rig 0,1-3\nclaim 3,\nclaim 3-3\n' "${one}3 0 2 1 1\n"
good "all groups" 'rig 0-63\nclaim FFFFFFFFFFFFFFFF\n' "$one"

# what is wrong with a line
bad "unknown call" "${rig}\nclam 1\n" 'line 3: unknown call'
bad "upper case call" 'RIG F\n' 'line 1: unknown call'
bad "an edition" "edition 1\n$rig" 'line 1: unknown call'
bad "a withdrawal" "${rig}claim 8\nwithdraw 1\n" 'line 3: unknown call'
bad "a clock" "${rig}clock 1\n" 'line 2: unknown call'
bad "missing groups" '# x\nrig # F\n' 'line 2: a number is missing: rig GROUPS'
bad "missing ticket" "${rig}release\n" 'line 2: a number is missing: release TICKET'
bad "a timed claim" "${rig}claim 0 F 10\n" 'line 2: too many words: claim GROUPS'
bad "a timed release" "${rig}release 4 1\n" 'line 2: too many words: release TICKET'
bad "a second rig without groups" "${rig}\n# x\n\trig\r\nclaim 8 9\n" 'line 4: a number is missing: rig GROUPS'
bad "a rig with a pool" 'rig F 3' 'line 1: too many words: rig GROUPS'
bad "a claim without groups, with no line feed at the end" "${rig}claim 8\nclaim" 'line 3: a number is missing: claim GROUPS'
bad "ticket is no number" "${rig}release A\n" 'line 2: ticket is not a number'
bad "ticket as a list" "${rig}release 1,\n" 'line 2: ticket is not a number'
bad "groups are no hex" 'rig 0xF\n' 'line 1: groups are not hex or a list'
bad "list with a hole" "${rig}claim 1,,2\n" 'line 2: groups are not hex or a list'
bad "range of three" "${rig}claim 1-2-3\n" 'line 2: groups are not hex or a list'
bad "ticket of 65,536" "${rig}release 65536\n" 'line 2: number too large'
bad "groups of 2^64" 'rig 10000000000000000\n' 'line 1: number too large'
bad "group over 63" "${rig}claim 60-64\n" 'line 2: group over 63'
bad "range backward" "${rig}claim 7-5\n" 'line 2: range runs backward'
bad "rig not first" "claim 8\n$rig" 'line 1: rig must be first'
bad "release first" 'release 1\n' 'line 1: rig must be first'
bad "second rig" "${rig}claim 8\n$rig" 'line 3: rig must be first'
bad "a word goes before the place of the call" 'claim x\n' 'line 1: groups are not hex or a list'
bad "the count of words goes before their values" "${rig}claim x y\n" 'line 2: too many words: claim GROUPS'
bad "the first wrong line decides" "${rig}claim x\nfoo\n" 'line 2: groups are not hex or a list'
bad "a wrong line behind a dark rig" 'rig 0\nclaim 1\nclaim\n' 'line 3: a number is missing: claim GROUPS'
bad "a wrong line at the end prints nothing" "${rig}claim 8\nclaim 1\nnonsense" 'line 4: unknown call'

# sizes
{ echo "rig F"; head -c 1048570 /dev/zero | tr '\0' '\n'; } >"$tmp/in"
printf '%b' "${header}1 0 0 0 0\n" >"$tmp/want"
: >"$tmp/wanterr"
verdict "text of 1,048,576 bytes"
echo >>"$tmp/in"
: >"$tmp/want"
echo "text over 1,048,576 bytes" >"$tmp/wanterr"
verdict "text of 1,048,577 bytes"
try "a text of 1,048,576 bytes with a listing of many parts is made" awk -v show="$tmp/in" -v want="$tmp/want" 'BEGIN {
    print "rig F" >show
    print "rec answer ticket row contention\n1 0 0 0 0" >want
    for (size = 6; size + length(pair = "claim 8\nrelease " ++k) < 1048576; size += length(pair) + 1) {
        print pair >show
        print 2 * k " 0 " k " 0 0\non " k "\n" 2 * k + 1 " 0 " k " 0 0" >want
    }
    while (size++ < 1048576) printf "#" >show
}'
try "it has 1,048,576 bytes" test "$(wc -c <"$tmp/in")" = 1048576
: >"$tmp/wanterr"
verdict "text of 1,048,576 bytes with a listing of many parts"

total
