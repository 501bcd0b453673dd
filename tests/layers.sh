#!/usr/bin/env bash
# What a crate cites of the crates below it. tests/layers.txt lists, for each pair, the files of specs/ and proofs/ that it may cite; any
# other is an error. Types may be cited by all, and of a function what it states, not how that is proved. The last line is
# 'N passed, M failed'.
set -u -o pipefail
cd "$(dirname "$0")/.." || exit 2
. tests/lib.sh || exit 2
work=$(mktemp -d) || exit 2
trap 'rm -rf "$work"' EXIT

# cites: a line `FILE LOWER PART/MODULE` for each module of a lower crate that a file names, in a `use` or in place; what stands after `.{`
# is not looked at, and the line then ends in `.{`.
cites() {
    find crates \( -name '*.antt' -o -name '*.rt' \) -not -path '*/out/*' | sort | while read -r file; do
        crate=${file#crates/}
        crate=${crate%%/*}
        sed -E 's/(--|\/\/).*//' "$file" | { grep -oE 'Rattle\.[a-z0-9_]+\.(specs|proofs)(\.[A-Za-z0-9_+-]+)*(\.\{)?' || true; } \
            | sed -E 's/^Rattle\.([a-z0-9_]+)\.(specs|proofs)\.?/\1 \2\//' | sort -u | while read -r lower cited; do
            # std may be cited by all
            [ "$lower" = "$crate" ] || [ "$lower" = std ] || echo "$file $lower $cited"
        done
    done
}

# judge: a line `ok` for each of the lines of cites that tests/layers.txt allows, and what is wrong for each other, or where nothing cites
# what a line of layers.txt allows.
judge() {
    awk '
    # A line of layers.txt: `CRATE LOWER: PART/MODULE ..`, or a file of a crate in place of the crate.
    FILENAME != "-" {
        sub(/#.*/, "")
        if (NF < 3) next
        lower = $2
        sub(/:$/, "", lower)
        for (i = 3; i <= NF; i++) may[$1 " " lower " " $i] = 1
        next
    }
    {
        crate = $1
        sub(/^crates\//, "", crate)
        file = crate
        sub(/\/.*/, "", crate)
        cited = $3
        # what the checker makes of the contract of a method
        if (cited ~ /^proofs\/([a-z0-9_]+\.)*[A-Z][A-Za-z]*\.[a-z0-9_]+\.(Statement|Symbol|Met|Reads)(\.\{)?$/) next
        # of a function, its module and what the checker makes of its contract; not `Proof` or `Tie`, and not what stands after its `.{`
        if (cited ~ /^proofs\/[a-z+]/) {
            sub(/\.(Statement|Symbol|Met|Reads)(\.\{)?$/, "", cited)
            if (cited ~ /^[a-z0-9_+\/.]+$/) next
            sub(/\.\{$/, "", cited)
        } else {
            sub(/\..*/, "", cited)
        }
        # types
        if (cited == "specs/declared" || cited == "proofs/Item") next
        if ((crate " " $2 " " cited) in may) { used[crate " " $2 " " cited] = 1; print "ok"; next }
        if ((file " " $2 " " cited) in may) { used[file " " $2 " " cited] = 1; print "ok"; next }
        print $1 ": cites " cited " of " $2 ", which tests/layers.txt does not list"
    }
    END {
        for (k in may) if (!(k in used)) print "tests/layers.txt: nothing cites " k
    }' tests/layers.txt -
}

cites >"$work/cites" || fail "the sources are searched"
judge <"$work/cites" >"$work/verdicts" || fail "what they cite is judged"
while read -r verdict; do
    if [ "$verdict" = ok ]; then count 1 0; else fail "$verdict"; fi
done <"$work/verdicts"
total
