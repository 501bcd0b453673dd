#!/usr/bin/env python3
"""Brings this repository's own definitions, labels and lemmas to the spelling of the Rattle that it is proved with.

usage: respell.py [--check]        at the top of the repository, once, after the kit's own port script

Words are in snake case, types and facts in upper camel case, labels of records in snake case; a lemma's name keeps the dashes between its
parts. It goes by whole names: a name that is declared in crates/*/specs or crates/*/proofs and is not spelled so is written anew wherever it
stands in a .antt or .rt file, an edit, a page or a script. Names of functions, of exported C names, strings, inputs and outputs stay.
--check writes nothing. It stops before it writes anything where two names would fall together.
"""
import os
import re
import sys

# What a name of antt's cannot have in it.
APART = "\\s(){}.;,@\"«»\\[\\]\\\\"
TOKEN = re.compile(f"[^{APART}]+")
DECLARED = re.compile(r"^\s*(?:(?:abbrev|unfoldable|pub) )*(?:record |data |pattern )?([^\s(){}.,;\[\]]+)(?: \([^()]*\))* : ")
LABEL = re.compile(r"^\s+(?:pub )?([a-z][^\s(){}.,;\[\]]*) : ")
RECORD = re.compile(r"^\s*(?:pub )?record \S+")
# Facts that were spelled as words, and names that a tactic or another name has.
GIVEN = {
    "setsNoGrace": "CallSetsNoGrace",
    "drawsNone": "CallDrawsNone",
    "declaresNone": "CallDeclaresNone",
    "first_of": "first_number",
    "turnsDown": "turns_all_down",
    "fixedStart": "one_fixed_start",
    "noRig": "rigless",
    "oneDrawer": "lone_drawer",
    "itemIn": "item_of_word",
    "noDigit": "is_no_digit",
    "toldOf": "told_of_pair",
    "inPlace": "is_in_place",
    "lengthPart": "part_of_length",
    "numberBy": "number_counted",
    "packed-at": "packed_there",
}
# Names that a function of src/, or a name within one proof, has too: neither stands where the other is meant.
SHARED = set(
    "alone_in and_number and_value append_number at_clock bad_grace bad_length bars_by call_named claim_by first_part first_said full_for groups_for"
    " grow_number has_call has_kind if_named is_on is_question kind_named least_length line_number load_number lowest_missing lowest_on next_part"
    " no_client nothing_asked of_two off_rig open_number part_behind pending_each phase_number position_after question_of record_at release_of"
    " reserved_in_all row_number set_grace share_number start_after time_in time_number units_held units_in wants_form with_value word_says words_say"
    " claim_set edition_of has_members is_mate leaves_with length_in member_number member_of member_part members_at most_members pairs_with"
    " turn_number union_of value_in with_members wrong_member".split()
)


def snake(name):
    # Of a lemma each part between dashes is a name by itself.
    return "-".join(part if part[:1].isupper() else re.sub(r"(?<=[a-z0-9'])([A-Z])", lambda m: "_" + m[1].lower(), part) for part in name.split("-"))


def files(top):
    for folder, dirs, names in os.walk(top):
        dirs[:] = sorted(d for d in dirs if d not in ("out", ".git", "target"))
        for name in sorted(names):
            yield os.path.join(folder, name)


def read(path):
    with open(path, encoding="utf-8", newline="") as f:
        return f.read()


def labels(text):
    """The labels of the records that a file declares, and the names that it declares besides."""
    found, others, inside = set(), set(), None
    for line in text.split("\n"):
        if line.lstrip().startswith("--"):
            continue
        indent = len(line) - len(line.lstrip(" "))
        if RECORD.match(line):
            inside = indent
            head = DECLARED.match(line)
            if head:
                others.add(head[1])
            continue
        if inside is not None and line.strip() and indent <= inside:
            inside = None
        label = LABEL.match(line)
        if inside is not None and label and indent == inside + 2:
            found.add(label[1])
        else:
            head = DECLARED.match(line)
            if head and "↦" not in line:
                others.add(head[1])
    return found, others


def main(argv):
    sources = [p for p in files("crates") if p.endswith(".antt")]
    mine, used = {}, set()
    for path in sources:
        text = read(path)
        used.update(TOKEN.findall(text))
        own, others = labels(text)
        for name in own | others:
            if name in GIVEN:
                mine[name] = GIVEN[name]
            elif name[0].islower() or name[0] in "μ":
                new = snake(name)
                if name in own:
                    new = new.replace("-", "_")
                if new != name:
                    mine[name] = new
    for path in files("crates"):
        if path.endswith(".rt"):
            used.update(TOKEN.findall(read(path)))
    clash = sorted(f"{a} -> {b}" for a, b in mine.items() if b in used and b not in SHARED)
    twice = {}
    for a, b in mine.items():
        twice.setdefault(b, set()).add(a)
    clash += sorted(f"{' and '.join(sorted(a))} -> {b}" for b, a in twice.items() if len(a) > 1)
    for line in clash:
        print("falls together:", line)
    print(f"{len(mine)} names")
    if "--check" in argv:
        for a in sorted(mine):
            print(a, mine[a])
        return 1 if clash else 0
    if clash:
        return 1
    turned = re.compile(f"(?<![^{APART}`|])(?:" + "|".join(map(re.escape, sorted(mine, key=len, reverse=True))) + f")(?![^{APART}`|:?!])")
    for path in files("."):
        if path.startswith("./tools/") or not path.endswith((".antt", ".rt", ".edit", ".md", ".sh", ".txt")):
            continue
        text = read(path)
        new = turned.sub(lambda m: mine[m[0]], text)
        if new != text:
            with open(path, "w", encoding="utf-8", newline="") as f:
                f.write(new)
    return 0


if __name__ == "__main__":
    sys.exit(main(sys.argv[1:]))
