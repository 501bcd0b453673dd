#!/usr/bin/env bash
# What the programs (built by `tools/build.sh`) say where reading or writing fails, of arguments they do not take, and that a stack of 3 MB
# is enough for the longest input. The last line is 'N passed, M failed'.
set -u -o pipefail
cd "$(dirname "$0")/.." || exit 2
. tests/lib.sh || exit 2
bin=$PWD/target/bin
tmp=$(mktemp -d) || exit 2
trap 'rm -rf "$tmp"' EXIT

# says OUT ERR NAME: what a program wrote to the files out and err is OUT and ERR (with printf's escapes).
says() {
    if [ "$(cat "$tmp/out"; echo .)" = "$(printf '%b.' "$1")" ] && [ "$(cat "$tmp/err"; echo .)" = "$(printf '%b.' "$2")" ]; then
        ok "$3"
    else
        fail "$3"
        head -n 3 "$tmp/out" "$tmp/err" | cut -c1-200
    fi
}

# broken COMMAND..: runs a command on an input whose first bytes are read and which fails behind them: a connection that its other side resets.
broken() {
    perl -e '
        use Socket;
        my ($server, $client);
        socket($server, PF_INET, SOCK_STREAM, 0) && bind($server, sockaddr_in(0, INADDR_LOOPBACK)) && listen($server, 1) or die "listen: $!";
        socket($client, PF_INET, SOCK_STREAM, 0) && connect($client, getsockname($server)) or die "connect: $!";
        accept(my $in, $server) or die "accept: $!";
        syswrite($client, "\x01\x00\x09\x01") == 4 or die "write: $!";
        setsockopt($client, SOL_SOCKET, SO_LINGER, pack("ii", 1, 0)) && close($client) or die "reset: $!";
        open(STDIN, "<&", $in) or die "input: $!";
        exec(@ARGV) or die "exec: $!";' "$@"
}

# reads USAGE INPUT PROGRAM WORD..: a program that reads standard input, with the arguments it takes; its usage, and an input that it
# takes.
reads() {
    local usage=$1 input=$2 program=$3 wrong
    shift 3
    "$bin/$program" "$@" <"$tmp" >"$tmp/out" 2>"$tmp/err"
    says '' "$program: standard input: Is a directory\n" "$program: a directory"
    "$bin/$program" "$@" <&- >"$tmp/out" 2>"$tmp/err"
    says '' "$program: standard input: Bad file descriptor\n" "$program: a closed input"
    broken "$bin/$program" "$@" >"$tmp/out" 2>"$tmp/err"
    says '' "$program: standard input: Connection reset by peer\n" "$program: an error in the middle"
    # What follows the arguments stays on standard input.
    for wrong in --help -h "$input" "" "a b c d"; do
        printf 'unread' | { "$bin/$program" "$wrong" 2>"$tmp/err"; cat; } >"$tmp/out"
        says unread "usage: $usage\n" "$program: the argument '$wrong'"
    done
    writes "$input" "$program" "$@"
}

# closed_pipe COMMAND..: runs a command whose standard output is a pipe that nobody reads.
closed_pipe() {
    perl -e 'pipe(my $r, my $w); close($r); open(STDOUT, ">&", $w) or die; exec(@ARGV)' "$@"
}

# writes INPUT PROGRAM WORD..: a program with the arguments it takes, and an input that it takes.
writes() {
    local input=$1 program=$2
    shift 2
    : >"$tmp/out"
    "$bin/$program" "$@" <"$input" >/dev/full 2>"$tmp/err"
    says '' "$program: standard output: No space left on device\n" "$program: a full disk"
    "$bin/$program" "$@" <"$input" 2>"$tmp/err" >&-
    says '' "$program: standard output: Bad file descriptor\n" "$program: a closed output"
    # Its signal ends no program, whether it was ignored before or not.
    (trap '' PIPE && closed_pipe "$bin/$program" "$@") <"$input" 2>"$tmp/err"
    says '' "$program: standard output: Broken pipe\n" "$program: a closed pipe"
    closed_pipe "$bin/$program" "$@" <"$input" 2>"$tmp/err"
    says '' "$program: standard output: Broken pipe\n" "$program: a closed pipe that gives a signal"
    "$bin/$program" "$@" <"$input" >"$tmp/out" 2>"$tmp/err"
    if [ -s "$tmp/out" ] && [ ! -s "$tmp/err" ]; then ok "$program: nothing said where nothing is wrong"; else fail "$program: nothing said where nothing is wrong"; fi
}

# on_stack INPUT PROGRAM WORD..: with a stack of 3 MB a program writes what it writes without that limit.
on_stack() {
    local input=$1 program=$2
    shift 2
    "$bin/$program" "$@" <"$input" >"$tmp/out" 2>"$tmp/err" || return 1
    (ulimit -s 3072 && "$bin/$program" "$@") <"$input" >"$tmp/out2" 2>"$tmp/err2" || return 1
    [ -s "$tmp/out" ] && cmp "$tmp/out" "$tmp/out2" && cmp "$tmp/err" "$tmp/err2"
}

reads 'cue < LOAD' examples/overture.load cue
reads 'ask lookup TICKET < LOAD\n       ask common TICKET TICKET < LOAD\n       ask free < LOAD\n       ask why TICKET < LOAD' examples/overture.load ask free
reads 'load_write < SHOW > LOAD' examples/overture.show load_write
reads 'load_show < LOAD' examples/overture.load load_show
reads 'beat < SHOW' examples/duet.show beat
writes /dev/null workload 1 20
for wrong in --help "" "1 20" 7; do
    "$bin/workload" "$wrong" </dev/null >"$tmp/out" 2>"$tmp/err"
    says '' 'usage: workload SEED COUNT > LOAD\n' "workload: the argument '$wrong'"
done

# The longest inputs: a load of 65,536 bytes that is nearly all of it records with grants, and texts of 1,048,576 bytes.
perl -e '
    binmode STDOUT;
    my $load = "\x01" . pack("nC", 9, 1) . "\xff" x 8;
    my $ticket = 1;
    while (length($load) + 36 <= 65536) {
        $load .= pack("nCQ>Q>N", 21, 2, 0, 1, 5) . pack("nCQ>n", 11, 3, 0, $ticket++);
    }
    print $load;' >"$tmp/long.load"
# A comment fills a text up to that length.
perl -e 'my $text = "rig F\n" . "claim 0 1 5\nrelease 0 1\n" x 1000; print $text, "#" x (1048576 - length($text));' >"$tmp/long.show"
perl -e '
    my $text = "rig F\n";
    my $ticket = 1;
    while (length($text) + 8 + 14 <= 1048576) {
        $text .= "claim 1\nrelease $ticket\n";
        $ticket++;
    }
    print $text;' >"$tmp/long.dance"
try "cue: 3 MB of stack" on_stack "$tmp/long.load" cue
try "ask: 3 MB of stack" on_stack "$tmp/long.load" ask free
try "load_show: 3 MB of stack" on_stack "$tmp/long.load" load_show
try "load_write: 3 MB of stack" on_stack "$tmp/long.show" load_write
try "beat: 3 MB of stack" on_stack "$tmp/long.dance" beat
try "workload: 3 MB of stack" on_stack /dev/null workload 1 1000

total
