#!/usr/bin/env python3
"""Brings the repository's own antt names to today's spelling: definitions, lemmas, constructors and fields in snake case.

usage: python3 tools/own_names.py [--list]     at the top of the repository, once, after port.py

A name is the repository's own where a line of an .antt file gives it a signature. The goals of a Proof.antt keep theirs.
Names that would fall together, and names that would hide another, have a spelling of their own in SPELLED.
"""
import os
import re
import sys

WORD = re.compile(r"[A-Za-z_][A-Za-z0-9_'\u2032\u2080-\u2089-]*")
SIGNATURE = re.compile(r"^\s*(?:(?:pub|abbrev|unfoldable|data|record|ruleset)\s+)*([a-z][A-Za-z0-9_'\u2032\u2080-\u2089-]*)\s*(?:\([^)]*\)\s*|\{[^}]*\}\s*)*:(?=\s|$)(.*)")
SPELLED = {
    "all-places": "all_places_law",
    "at-end": "at_end_law",
    "every_byte": "every_byte_law",
    "from-template": "from_template_law",
    "match-steps": "match_steps_law",
    "most-steps": "most_steps_law",
    "of-kind": "of_kind_law",
    "oneMore": "one_member_turn",
    "onePiece": "one_piece_turn",
    "optional-passes": "optional_passes_law",
    "own-groups": "own_groups_law",
    "own-places": "own_places_law",
    "pass-fork": "pass_fork_law",
    "pass-or-go-on": "pass_or_go_on_law",
    "search-bound": "search_bound_law",
    "search-steps": "search_steps_law",
    "set-right": "set_right_law",
    "set-row-untouched": "set_row_untouched_at",
}


def files(endings):
    for folder, dirs, names in os.walk("crates"):
        dirs[:] = sorted(d for d in dirs if d != "out")
        for name in sorted(names):
            if name.endswith(endings):
                yield os.path.join(folder, name)


def snake(name):
    if name in SPELLED:
        return SPELLED[name]
    name = re.sub(r"([a-z0-9])([A-Z])", lambda m: m[1] + "_" + m[2].lower(), name)
    return re.sub(r"([A-Za-z0-9])-([A-Za-z0-9])", lambda m: m[1] + "_" + m[2].lower(), name.replace("-to-", "_to_"))


# names of constructors that share a line, of parameters and of local values
OTHERS = ["groupsBefore", "repeatKind", "fromLine", "groupKind", "nonEmpty", "fromTemplate", "bytesKind", "sequenceKind", "nothingKind", "emptyKind", "alternationKind", "holderEnd", "goOn", "mostRead", "modeRead", "leastRead"]

# the library's names too: they are turned only in the files that don't take them from it
LIBRARYS = {"and-false": "mathlib.Core.Bool", "and-true": "mathlib.Core.Bool"}


def name_of_proof(name):
    return name.endswith("-spec")


def own():
    found = {}
    for path in files((".antt",)):
        with open(path, encoding="utf-8") as f:
            for line in f:
                m = SIGNATURE.match(line)
                if m and (name_of_proof(m[1]) if path.endswith("Proof.antt") else True):
                    found.setdefault(m[1], []).append(path)
    return found


def main(argv):
    declared = own() | {n: ["-"] for n in OTHERS}
    new = {n: snake(n) for n in declared if snake(n) != n}
    if "--list" in argv:
        for n in sorted(new):
            print(n, new[n], len(declared[n]), declared[n][0])
        return 0
    for path in files((".antt", ".rt", ".edit")):
        with open(path, encoding="utf-8") as f:
            text = f.read()
        made = path.endswith("Proof.antt")

        taken = {n for n, module in LIBRARYS.items() if re.search("use " + re.escape(module) + r"\.\{[^}]*\b" + n + r"\b", text)}

        def spelled(m):
            if m[0] in taken:
                return m[0]
            # behind a dot in a Proof.antt stands a step that the check names after a function
            if made and m[0] in SPELLED and text[m.start() - 1] == ".":
                return m[0].replace("-", "_")
            return new.get(m[0], m[0])

        turned = WORD.sub(spelled, text)
        if turned != text:
            with open(path, "w", encoding="utf-8") as f:
                f.write(turned)
    print(len(new), "names")
    return 0


if __name__ == "__main__":
    sys.exit(main(sys.argv[1:]))
