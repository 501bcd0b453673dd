#!/usr/bin/env bash
# Runs ask (built by `tools/build.sh ask load_write`) on small loads: a line for each question. The last line is 'N passed, M failed'.
set -u -o pipefail
cd "$(dirname "$0")/.." || exit 2
. tests/lib.sh || exit 2
bin=target/bin
tmp=$(mktemp -d) || exit 2
trap 'rm -rf "$tmp"' EXIT

# load NAME TEXT: the load of a text (with printf's escapes), in a file of that name.
load() {
    printf '%b' "$2" | "$bin/load_write" >"$tmp/$1" || fail "the load $1"
}

# says OUT ERR NAME LOAD WORD..: asked with these words about a load, the program prints OUT and says ERR on standard error (both with
# printf's escapes).
says() {
    local out=$1 err=$2 name=$3 load=$4
    shift 4
    printf '%b' "$out" >"$tmp/wantout"
    printf '%b' "$err" >"$tmp/wanterr"
    if "$bin/ask" "$@" <"$tmp/$load" >"$tmp/out" 2>"$tmp/err" && cmp -s "$tmp/out" "$tmp/wantout" && cmp -s "$tmp/err" "$tmp/wanterr"; then
        ok "$name"
    else
        fail "$name"
        diff "$tmp/wantout" "$tmp/out" | head -n 6
        diff "$tmp/wanterr" "$tmp/err" | head -n 6
    fi
}

# answers OUT NAME LOAD WORD..: the same, and nothing on standard error.
answers() {
    local out=$1
    shift
    says "$out" '' "$@"
}

# wrong NAME WORD..: these words ask no question.
wrong() {
    local name=$1
    shift
    says '' 'usage: ask lookup TICKET < LOAD\n       ask common TICKET TICKET < LOAD\n       ask free < LOAD\n       ask why TICKET < LOAD\n' "$name" plot "$@"
}

plot='rig F\nclaim 0 8 10\nclaim 0 C 10\nclaim 0 6 11\n'
load plot "$plot"
load released "${plot}release 4 1\n"
load dark 'rig 0\nclaim 0 8 10\n'
load refused "${plot}claim 0 10 5\nrelease 1 3\n"
load low 'rig F\nclaim 0 1 5\nclaim 0 3 5\n'
load bare ''
load pooled 'edition 2\nrig F 3\nclaim 0 1 10 2\nclaim 0 0 5 1\nclaim 0 2 5 3\n'
load drawn 'edition 2\nrig F 3\nclaim 0 1 10 2\nclaim 0 0 5 1\nclaim 0 2 5 3\nrelease 4 2\n'
load overrun 'edition 2\nrig F 3\nclaim 0 1 10 3\nclaim 0 2 5 1\nclock 12\n'
load dark_pool 'edition 2\nrig 0 3\n'
load desks 'edition 3\nrig F 9\ndesk 2 1 5\ndesk 9 0 0\nclaim 0 1 10 7 2\nclaim 0 1 10 0 1\ndesk 3 0 5\nclaim 0 2 10 0 2\n'
load overdue 'edition 3\nrig F 0\ngrace 5\ndesk 1 64 64\nclaim 0 8 10 0 1\nclaim 0 C 10 0 1\nclaim 0 6 11 0 1\nclock 12\ngrace 9\n'
load ties 'rig F\nclaim 0 1 10\nclaim 0 2 10\nclaim 0 3 5\n'
load shared 'edition 2\nrig F 3\nclaim 0 1 10 1\nclaim 0 2 10 2\nclaim 0 2 5 1\n'
load apart 'edition 2\nrig F 3\nclaim 0 1 10 0\nclaim 0 2 10 2\nclaim 0 4 5 2\n'
load late 'edition 3\nrig F 0\ndesk 1 64 64\nclaim 0 8 10 0 1\nclaim 0 C 10 0 1\nclaim 0 6 11 0 1\nclock 12\n'
load end 'edition 3\nrig F 0\ngrace 5\ndesk 1 64 64\nclaim 0 8 10 0 1\nclaim 0 C 10 0 1\nclock 10\n'
{ echo 'rig F' && for _ in {1..64}; do echo 'claim 1000000000000 1 3600000'; done; } | "$bin/load_write" >"$tmp/full" || fail "the load full"
: >"$tmp/empty"
printf '\377' >"$tmp/edition"
head -c 65537 /dev/zero >"$tmp/overlong"
head -c -1 "$tmp/plot" >"$tmp/cut"
{ cat "$tmp/plot" && tail -c +2 "$tmp/plot"; } >"$tmp/twice"

# lookup
answers 'ticket 3 waits, start 20\n' "a waiting ticket" plot lookup 3
answers 'ticket 2 waits, start 10\n' "a ticket before its grant" plot lookup 2
answers 'ticket 1 is on, promised end 10\n' "a ticket granted at once" plot lookup 1
answers 'ticket 2 is on, promised end 14\n' "a ticket granted by a release" released lookup 2
answers 'ticket 3 waits, start 14\n' "a start that a release moved" released lookup 3
answers 'ticket 1 is not pending\n' "a ticket that was released" released lookup 1
answers 'ticket 4 is not pending\n' "a ticket that was not issued" plot lookup 4
answers 'ticket 0 is not pending\n' "ticket 0" plot lookup 0
answers 'ticket 65535 is not pending\n' "the greatest ticket" plot lookup 65535
answers 'ticket 3 waits, start 20\n' "zeros in front" plot lookup 0003
answers 'ticket 3 waits, start 20\n' "a question in one argument" plot ' lookup  3 '
answers 'ticket 3 waits, start 20\n' "an empty argument" plot '' lookup '' 3

# common
answers 'tickets 2 and 3 share group 2\n' "a common group" plot common 2 3
answers 'tickets 3 and 2 share group 2\n' "the other way round" plot common 3 2
answers 'tickets 1 and 3 share no group\n' "no common group" plot common 1 3
answers 'tickets 1 and 2 share group 0\n' "group 0" low common 1 2
answers 'tickets 2 and 2 share group 2\n' "a ticket with itself" plot common 2 2
answers 'ticket 9 is not pending\n' "the second is not pending" plot common 3 9
answers 'ticket 9 is not pending\n' "the first is not pending" plot common 9 3
answers 'ticket 9 is not pending\n' "neither is pending" plot common 9 8

# free
answers '0 of 3 units free\n' "no units free" pooled free
answers '1 of 3 units free\n' "units of a released claim" drawn free
answers '0 of 3 units free\n' "units of a claim that overruns" overrun free
answers 'ticket 2 waits, start 12\n' "and who waits for them" overrun lookup 2
answers '0 of 0 units free\n' "a rig without a pool" plot free
answers 'stop 1 1\n0 of 0 units free\n' "a dark rig with a pool" dark_pool free

# why
answers 'ticket 3 waits for 2 until 20, 2 waits for 1 until 10, 1 is on until 10\n' "a chain of three" plot why 3
answers 'ticket 2 waits for 1 until 10, 1 is on until 10\n' "a chain of two" plot why 2
answers 'ticket 3 waits for 2 until 14, 2 is on until 14\n' "a chain that a release cut short" released why 3
answers 'ticket 1 is on\n' "why a ticket waits that is on" plot why 1
answers 'ticket 2 is on\n' "one that was granted by a release" released why 2
answers 'ticket 1 is not pending\n' "one that was released" released why 1
answers 'ticket 9 is not pending\n' "one that was not issued" plot why 9
answers 'ticket 0 is not pending\n' "why ticket 0 waits" plot why 0
answers 'ticket 65535 is not pending\n' "why the greatest ticket waits" plot why 65535
answers 'ticket 2 waits for 1 until 10, 1 is on until 10\n' "why, with zeros in front" plot why 0002
answers 'ticket 2 waits for 1 until 10, 1 is on until 10\n' "why, in one argument" plot ' why  2 '
answers 'ticket 3 waits for 1 until 10, 1 is on until 10\n' "a link through the pool" pooled why 3
answers 'ticket 3 waits for 1 until 10, 1 is on until 10\n' "the lower of two that end together" ties why 3
answers 'ticket 3 waits for 1 until 10, 1 is on until 10\n' "the lower, though the higher alone bars it" shared why 3
answers 'ticket 3 waits for 2 until 10, 2 is on until 10\n' "not the lower, which shares neither group nor pool" apart why 3
answers 'ticket 2 waits for 1 until 12, 1 is on until 12\n' "units of a claim that overruns, without a grace" overrun why 2
answers 'ticket 3 waits for 2 until 22, 2 waits for 1 until 12, 1 is on until 12\n' "behind an overrun without a grace" late why 3
answers 'ticket 3 waits for 2 until 27, 2 waits for 1 until 17, 1 is on until 17\n' "behind an overrun with a grace" overdue why 3
answers 'ticket 2 waits for 1 until 10, 1 is on until 10\n' "at the promised end a grace does not count" end why 2
answers 'stop 12 4\nticket 2 waits for 1 until 10, 1 is on until 10\n' "why, of a load that is cut off" cut why 2
answers 'stop 13 5\nticket 1 is on\n' "why, before a second rig" twice why 1
answers 'stop 12 0\nticket 1 is not pending\n' "why, of an empty load" empty why 1
chain='ticket '
for ((k = 64; k > 1; k--)); do
    chain+="$k waits for $((k - 1)) until $((1000000000000 + 3600000 * (k - 1))), "
done
answers "${chain}1 is on until 1000003600000\n" "a chain of 64" full why 64

# loads that end early, and one that does not
answers 'stop 12 0\nticket 1 is not pending\n' "an empty load" empty lookup 1
answers 'stop 11 0\nticket 1 is not pending\n' "an unknown edition" edition lookup 1
answers 'stop 14 0\nticket 1 is not pending\n' "a load of 65,537 bytes" overlong lookup 1
answers 'stop 1 1\nticket 1 is not pending\n' "a dark rig" dark lookup 1
answers 'stop 12 4\nticket 2 waits, start 10\n' "a load that is cut off" cut lookup 2
answers 'stop 12 4\nticket 3 is not pending\n' "a record that is cut off" cut lookup 3
answers 'stop 13 5\ntickets 2 and 3 share group 2\n' "a second rig" twice common 2 3
answers 'ticket 3 waits, start 20\n' "refused calls" refused lookup 3
answers 'ticket 1 is not pending\n' "an edition byte alone" bare lookup 1

# wrong questions
wrong "no question"
wrong "an empty question" ''
wrong "another name" look 3
wrong "a name in upper case" LOOKUP 3
wrong "no ticket" lookup
wrong "a ticket too many" lookup 3 2
wrong "a ticket that is no number" lookup three
wrong "a negative ticket" lookup -3
wrong "a ticket in hex" lookup 0x3
wrong "a ticket of 65,536" lookup 65536
wrong "one ticket of two" common 2
wrong "three tickets of two" common 1 2 3
wrong "four tickets of two" common 1 2 3 4
wrong "the second ticket is too large" common 2 65536
wrong "units of a ticket" free 3
wrong "why, of no ticket" why
wrong "why, of two tickets" why 3 2
wrong "why, of a ticket that is no number" why three
wrong "why, of a ticket of 65,536" why 65536
wrong "why in upper case" WHY 3
wrong "a line of over 4,096 bytes" lookup "$(printf '%04097d' 3)"
{ "$bin/ask" look 3 2>"$tmp/err"; cat; } <"$tmp/plot" >"$tmp/out"
try "a wrong question leaves the load unread" cmp "$tmp/out" "$tmp/plot"

# edition 3: a desk's claim, a stranger's, and a declaration that comes late
answers 'stop 13 6\n2 of 9 units free\n' "units free before a late declaration" desks free
answers 'stop 13 6\nticket 1 is on, promised end 10\n' "a desk's claim before a late declaration" desks lookup 1
answers 'stop 13 6\nticket 2 is not pending\n' "nothing behind a late declaration" desks lookup 2
answers 'ticket 1 is on, promised end 10\n' "a holder past its promised end" overdue lookup 1
answers 'ticket 2 waits, start 17\n' "a claim behind it, a grace after the clock" overdue lookup 2
answers 'ticket 3 waits, start 27\n' "the next one" overdue lookup 3

total
