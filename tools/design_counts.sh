#!/usr/bin/env bash
# Counts the places of each point of docs/DESIGN-PASS.md in the crates' src/, a line for each: point, what, how many. By lines that a pattern finds.
set -u
cd "$(dirname "$0")/.." || exit 2

# count POINT WHAT PATTERN: the lines of src/ that an extended pattern finds.
count() {
    printf '%s\t%s\t%s\n' "$1" "$(grep -rhoE --include=*.rt -- "$3" crates/*/src | wc -l)" "$2"
}

count 1 "own enums with a case for none or for a refusal" 'pub(\(crate\))? enum (Maybe[A-Z][a-z]+|Item|Written|Made|Parsed|Head|Printed|Asked|Question|Numbers|Field|Line|Name|Listed|Standing|Common) '
count 1 "fields that hold a flag or a refusal's number beside values" 'pub (declared|failed): bool|pub (number|stop): u8'
count 1 "functions that answer 0 or a number" 'fn [a-z_]*(number|ending)[a-z_]*\(.*\) -> u8'
count 1 "constants for refusals, reasons, kinds and fields" 'pub const [A-Z0-9_]+: u8 = [0-9]+;'
count 3 "while" '^ *(.[a-z]+: )?while [^l]'
count 3 "loop" '(^ +|= |: )loop \{'
count 4 "equality, order, copying and widening by hand" 'fn (same|equal|later|wide|is_on|start_or_grant|waiting_from|on_since|is_question|is_call|has_call|in_eight)\('
count 4 "fields that are given their own name" '^ +([a-z_]+): \1,$'
count 5 "clauses that say Valid of a table" 'Valid [(a-z]'
count 5 "functions over a buffer and a place in it" 'out: &mut \[u8\], (at|from): usize'
count 6 "arrays that hold a list, a table by number or a padded text" '\[(0(u8|u16|u64)?|false|vacant|u8|u16|u64|usize|bool|Share|Claim); ?(64|20|19|COUNT|fields::COUNT)\]|\[\[u8; [0-9]+\]; |\*b"'
count 7 "a step chosen by a value that is passed" '(mark: Mark|blank: bool|releasing: bool|q: Question, other: Question)'
