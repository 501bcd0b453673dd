#!/usr/bin/env bash
# Holds the documents against the tree and the programs (built by `tools/build.sh`): links, README's length, its show and its listing, the
# samples of docs/SHOWS.md with their answers, the duet of docs/FORMAT.md, statements by name. The last line is 'N passed, M failed'.
set -u -o pipefail
cd "$(dirname "$0")/.." || exit 2
. tests/lib.sh || exit 2
bin=target/bin
tmp=$(mktemp -d) || exit 2
trap 'rm -rf "$tmp"' EXIT

# links FILE: every link of a document that is no address leads to a file, and to a heading of it.
links() {
    perl -e '
        use File::Basename;
        sub anchors {
            open(my $f, "<:utf8", $_[0]) or return {};
            my (%a, $code);
            local $_;
            while (<$f>) {
                $code = !$code if /^```/;
                next if $code || !/^#+ +(.*?)\s*$/;
                my $h = lc $1;
                $h =~ s/\[([^\]]*)\]\([^)]*\)/$1/g;
                $h =~ s/[^\w\- ]//g;
                $h =~ s/ /-/g;
                $a{$h} = 1;
            }
            return \%a;
        }
        my ($file) = @ARGV;
        my $wrong = 0;
        open(my $in, "<:utf8", $file) or die "$file: $!";
        while (<$in>) {
            my $n = $.;
            next if /^    /;
            while (/\]\(([^)\s]+)\)/g) {
                my $link = $1;
                next if $link =~ m{^[a-z]+://};
                my ($path, $anchor) = split /#/, $link, 2;
                my $to = $path eq "" ? $file : dirname($file) . "/$path";
                if (!-e $to) { print "$file:$n: no file $link\n"; $wrong = 1; next; }
                if (defined $anchor && !anchors($to)->{$anchor}) { print "$file:$n: no heading $link\n"; $wrong = 1; }
            }
        }
        exit $wrong;' "$1"
}

# README's first screen: the left column is the start of the sample show, the right one the start of its listing.
first_screen() {
    sed -n '/^    rig 0-3/,/^    \.\./p' README.md | sed '$d' >"$tmp/block"
    cut -c5-68 "$tmp/block" | "$bin/load_write" | "$bin/cue" | tail -n +2 >"$tmp/listing"
    cut -c70- "$tmp/block" | sed 's/  .*//' >"$tmp/right"
    [ -s "$tmp/right" ] && cmp "$tmp/listing" "$tmp/right" && tail -n +2 examples/overture.listing | head -n "$(wc -l <"$tmp/right")" | cmp - "$tmp/right"
}

# The duet of docs/FORMAT.md: the left column is the show, the middle one its listing.
duet() {
    sed -n '/^ *rec answer ticket row contention$/,/^$/p' docs/FORMAT.md | grep -v '^$' | sed 's/^    //; s/ *#.*//' >"$tmp/block"
    cut -c1-12 "$tmp/block" | sed 's/ *$//' | grep -v '^$' >"$tmp/left"
    cut -c14- "$tmp/block" | sed 's/ *$//' >"$tmp/right"
    sed 's/ *#.*//' examples/duet.show | grep -v '^$' | cmp - "$tmp/left" && cmp "$tmp/right" examples/duet.listing
}

# The commands of README and docs/SHOWS.md, each as it is written there; where a comment says what is printed, that is what is printed.
commands() {
    local line command said n=0
    while IFS= read -r line; do
        command=${line%%#*}
        (cd "$tmp/root" && eval "$command") >"$tmp/out" 2>"$tmp/err" </dev/null || { echo "$line"; return 1; }
        [ ! -s "$tmp/err" ] || { echo "$line: $(head -n 1 "$tmp/err")"; return 1; }
        case $line in
        *bin/ask*'# '*)
            said=${line##*# }
            [ "${said##*: }" = "$(cat "$tmp/out")" ] || { echo "$line, not: $(cat "$tmp/out")"; return 1; }
            ;;
        esac
        n=$((n + 1))
    done < <(sed -nE 's/^    ((head .*\| )?target\/bin\/.*)/\1/p' README.md docs/SHOWS.md | grep -v 'x\.show')
    [ "$n" -gt 8 ]
}

# The statements of README's table are where it says.
statements() {
    local name n=0
    for name in $(sed -n '/^## What is proved/,/^Not proved/p' README.md | grep -oE '`[A-Z][A-Za-z0-9]+`' | tr -d '`'); do
        grep -qrE "^(abbrev|unfoldable|pub record|pub abbrev)( pub)? $name( |:)|^pub record $name " crates/*/specs || { echo "no $name"; return 1; }
        n=$((n + 1))
    done
    for name in $(sed -n '/^## What is proved/,/^Not proved/p' README.md | grep -oE 'crates/[a-z_]+/specs/[A-Za-z]+\.antt'); do
        [ -e "$name" ] || { echo "no $name"; return 1; }
    done
    [ "$n" -gt 15 ]
}

for file in README.md docs/*.md docs/requests/*.md; do
    try "links of $file" links "$file"
done
try "README has at most 120 lines" test "$(wc -l <README.md)" -le 120
try "README's show and its listing" first_screen
mkdir -p "$tmp/root/target" && ln -s "$PWD/examples" "$tmp/root/examples" && ln -s "$PWD/$bin" "$tmp/root/target/bin"
try "the commands of README and SHOWS" commands
try "the duet of FORMAT" duet
try "README's statements" statements

total
