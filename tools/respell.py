#!/usr/bin/env python3
"""Brings the definitions and lemmas of this repository to the spelling of Rattle's own library.

usage: python3 tools/respell.py [--list]    at the top of the repository

Words are in snake case, types and modules in camel case. A name that is declared in crates/*/specs or in a file of lemmas of crates/*/proofs
and has hyphens, or humps and no capital at its front, is written in snake case wherever it stands as a whole word: in .antt files, in the
clauses and imports of .rt files, in must-fail edits, and between backticks in comments and pages. Functions of src/ keep their names, and so
do names that are imported from a library. With --list it prints the names and changes nothing.
"""

import os
import re
import sys

WORD = r"[^\s(){}\[\];,.«»\"`|]+"
SIGNATURE = re.compile(r"^\s*(?:(?:unfoldable|abbrev|pub|private)\s+)*(" + WORD + r")\s+:\s")
# names whose snake case is a tactic's, or would fall together with another name
SPECIAL = {
    "answer-after": "answer_afterwards",
    "bit-and": "bit_of_and",
    "bit-or": "bit_of_or",
    "child-at": "child_at_generator",
    "child-elements": "child_elements_generators",
    "child-node": "child_node_is",
    "child-of": "child_of_generator",
    "child-row": "child_row_is",
    "child-table": "child_table_is",
    "child-word": "child_word_is",
    "count-below": "count_below_genus",
    "editor-after": "editor_afterwards",
    "first-line": "first_line_header",
    "first-row-ones": "first_row_ones_count",
    "first_of": "first_word_of",
    "gaps-down": "gaps_down_gaps",
    "gaps-leaving": "gaps_leaving_residue",
    "generator-of": "generator_of_element",
    "genus-asked": "genus_asked_answers",
    "grandchildren-at": "grandchildren_at_is",
    "header-lines": "header_lines_are",
    "job-length": "job_length_is",
    "known-lists": "known_lists_are",
    "largest-gap": "largest_gap_is",
    "least-gap-sum": "least_gap_sum_is",
    "line-feed": "line_feed_refused",
    "look-given": "look_given_report",
    "moved-row-of-child": "moved_row_of_child_is",
    "next-offset": "next_offset_is",
    "number-at": "number_at_place",
    "on-from": "on_from_split",
    "oneMore": "one_more_at",
    "page-written": "page_written_is",
    "put-all": "put_all_is",
    "state-after": "state_afterwards",
    "state-from": "state_from_state",
    "struck-bits": "struck_bits_are",
    "sum-with": "sum_with_means",
    "table-given": "table_given_is",
    "walk-of": "walk_of_moved",
}


def antt_files(root):
    for folder, dirs, files in os.walk(os.path.join(root, "crates")):
        dirs[:] = sorted(d for d in dirs if d != "out")
        for f in sorted(files):
            if f.endswith(".antt"):
                yield os.path.join(folder, f)


def snake(name):
    name = name.replace("′", "'").replace("-", "_")
    name = re.sub(r"(?<=[a-z0-9])([A-Z])", r"_\1", name)
    name = re.sub(r"(?<=[A-Z])([A-Z][a-z])", r"_\1", name)
    return name.lower()


def code_of(line):
    """The line without its comment."""
    at = line.find("-- ")
    return line if at < 0 else line[:at]


def declared(root, crates):
    names, foreign = set(), set()
    for path in antt_files(root):
        own = not path.endswith("Proof.antt")
        with open(path, encoding="utf-8") as f:
            for line in f:
                code = code_of(line)
                use = re.match(r"\s*(?:pub\s+)?use\s+([^{\s]+)\.\{(.*)\}", code)
                if use:
                    parts = use.group(1).split(".")
                    if not (parts[0] == "Rattle" and len(parts) > 1 and parts[1] in crates):
                        for n in use.group(2).split(","):
                            foreign.add(n.split(" as ")[0].strip())
                    continue
                m = SIGNATURE.match(code)
                if m and own:
                    names.add(m.group(1))
                m = re.match(r"^\s*\|\s*(" + WORD + r")\s+:\s", code)
                if m and own:
                    names.add(m.group(1))
    return names, foreign


def to_turn(names, foreign):
    turn = {}
    for n in sorted(names):
        if n in foreign or not re.match(r"^[a-z]", n):
            continue
        if n in SPECIAL:
            turn[n] = SPECIAL[n]
        elif snake(n) != n:
            turn[n] = snake(n)
    return turn


def main(argv):
    root = os.getcwd()
    crates = set(os.listdir(os.path.join(root, "crates")))
    names, foreign = declared(root, crates)
    turn = to_turn(names, foreign)
    token = re.compile(r"(?<![^\s(){}\[\];,.«»\"`|])(" + WORD + r")(?![^\s(){}\[\];,.«»\"`|])")

    def words(text):
        return token.sub(lambda m: turn.get(m.group(1), m.group(1)), text)

    def quoted(text):
        return re.sub(r"`([^`]*)`", lambda m: "`" + words(m.group(1)) + "`", text)

    if "--list" in argv:
        taken = {}
        for n in names | foreign:
            taken.setdefault(turn.get(n, n), []).append(n)
        for n, t in sorted(turn.items()):
            others = [o for o in taken[t] if o != n]
            print(n, t, "FALLS TOGETHER WITH " + " ".join(others) if others else "")
        return 0

    changed = 0
    for folder, dirs, files in os.walk(root):
        dirs[:] = sorted(d for d in dirs if d not in ("out", ".git", "target"))
        for f in sorted(files):
            path = os.path.join(folder, f)
            if f.endswith((".antt", ".rt")):
                mark = "-- " if f.endswith(".antt") else "// "
            elif f.endswith(".edit"):
                mark = None
            elif f.endswith(".md"):
                mark = "page"
            else:
                continue
            with open(path, encoding="utf-8") as it:
                old = it.read()
            out = []
            for line in old.split("\n"):
                if mark == "page":
                    out.append(quoted(line))
                elif mark is None:
                    out.append(words(line) if line.startswith(("old:", "new:")) else line)
                else:
                    at = line.find(mark)
                    code, comment = (line, "") if at < 0 else (line[:at], line[at:])
                    out.append(words(code) + quoted(comment))
            new = "\n".join(out)
            if new != old:
                with open(path, "w", encoding="utf-8") as it:
                    it.write(new)
                changed += 1
    print(f"{len(turn)} names, {changed} files")
    return 0


if __name__ == "__main__":
    sys.exit(main(sys.argv[1:]))
