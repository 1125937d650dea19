#!/usr/bin/env python3
"""Makes the tables of docs/code/PROVED.md from the lines `// proved: WORDS` that stand above the clauses of contracts.

    proved.py            checks that the tables are those of the sources, and that each clause and each edit is there;
                         the last line is 'N passed, M failed', of table rows
    proved.py --write    writes the tables

A line says what holds by the clause below it, or by the clauses that it names: `// proved ok, err: WORDS`. Behind ` | `
it names the must-fail edits that show it, those of another crate as CRATE/EDIT. The document has the order of the rows:
a new one comes behind the last of its call, else of its crate. A crate without a row needs a first one by hand.
"""

import glob
import os
import re
import sys

from shared import HERE, Count, text_of

DOCUMENT = "docs/code/PROVED.md"
HEAD = re.compile(r"\s*(?:pub(?:\([a-z]+\))? )?fn (\w+)")
MARK = re.compile(r"\s+// proved(?: ([\w, -]+))?: (.*)")
CLAUSE = re.compile(r"\s+ensures(?: (\w+))? ?\{")
NO_NAME = "-"


def owner_of(line):
    """The type that an impl block is for."""
    name = re.match(r"impl(?:<.*?>)? (?:.* for )?&?(\w+)", line)
    return name[1] if name else ""


class Call:
    """A public function: its path, its clauses' names (`-` for none), and its marks: words, clauses, edits."""

    def __init__(self, path):
        self.path, self.clauses, self.marks = path, set(), []


def calls_in(file, crate):
    """The public functions of a file."""
    owner, call, waiting, calls = "", None, [], []
    for line in file:
        if line.startswith("impl"):
            owner = owner_of(line)
        elif line.startswith("}"):
            owner = ""
        head = HEAD.match(line)
        if head:
            public = line.lstrip().startswith(("pub fn", "pub(crate) fn"))
            call, waiting = Call("::".join(part for part in (crate, owner, head[1]) if part)) if public else None, []
            calls += [call] if call else []
        mark, clause = MARK.match(line), CLAUSE.match(line)
        if mark and call:
            words, _, edits = mark[2].partition(" | ")
            named = [name.strip() for name in (mark[1] or "").split(",") if name.strip()]
            call.marks.append((words.strip(), named, [edit.strip() for edit in edits.split(",") if edit.strip()]))
            waiting.append(named)
        if clause and call:
            call.clauses.add(clause[1] or NO_NAME)
            for named in waiting:
                named.extend([] if named else [clause[1] or NO_NAME])
            waiting = []
        if re.match(r"\s*\{\s*$", line):
            call = None
    return calls


def rows_of_sources():
    """The rows of all crates, by call and words, and what is wrong in them."""
    rows, faults = {}, {}
    for path in sorted(glob.glob(os.path.join(HERE, "crates", "*", "src", "**", "*.rt"), recursive=True)):
        crate = os.path.relpath(path, os.path.join(HERE, "crates")).split(os.sep)[0]
        with open(path, encoding="utf-8") as file:
            for call in calls_in(file, crate):
                for words, clauses, edits in call.marks:
                    named = [", ".join(f"`{one}`" for one in cell) for cell in ([call.path], clauses, edits)]
                    rows[call.path, words] = f"| {' | '.join([words, *named]).rstrip()} |"
                    faults[call.path, words] = faults_of(call, crate, clauses, edits)
    return rows, faults


def faults_of(call, crate, clauses, edits):
    faults = [f"{call.path} has no clause {clause}" for clause in clauses if clause not in call.clauses]
    for edit in edits:
        folder, _, name = edit.rpartition("/")
        if not os.path.exists(os.path.join(HERE, "crates", folder or crate, "must-fail", f"{name}.edit")):
            faults.append(f"{call.path}: crate {folder or crate} has no edit {name}")
    return faults


def key_of(line):
    """The call and the words of a table's row, or None for any other line."""
    cells = [cell.strip() for cell in line.strip().strip("|").split("|")]
    return (cells[1].strip("`"), cells[0]) if line.startswith("|") and len(cells) == 4 and "::" in cells[1] else None


def place_of(key, keys):
    """Where a new row comes among the document's lines, whose keys are given: behind the last of its call or crate."""
    crate = key[0].split("::")[0]
    for fits in (lambda other: other[0] == key[0], lambda other: other[0].split("::")[0] == crate):
        places = [place for place, other in enumerate(keys) if other and fits(other)]
        if places:
            return places[-1] + 1
    sys.exit(f"proved: {DOCUMENT} has no row of the crate {crate}: put one there by hand")


def written(document, rows):
    """The document with the rows of the sources."""
    lines = [line for line in document.split("\n") if not key_of(line) or key_of(line) in rows]
    lines = [rows.get(key_of(line), line) for line in lines]
    for key, row in rows.items():
        if key not in map(key_of, lines):
            lines.insert(place_of(key, [key_of(line) for line in lines]), row)
    return "\n".join(lines)


def main():
    rows, faults = rows_of_sources()
    document = text_of(DOCUMENT)
    if sys.argv[1:] == ["--write"]:
        with open(os.path.join(HERE, DOCUMENT), "w", encoding="utf-8") as file:
            file.write(written(document, rows))
        return
    count, there = Count(), set(document.split("\n"))
    for key, row in rows.items():
        missing = [] if row in there else [f"{key[0]}: the table lacks '{key[1]}': tools/proved.py --write"]
        count.case(f"proved: {fault}" for fault in missing + faults[key])
    for line in there:
        if key_of(line) and key_of(line) not in rows:
            count.case([f"proved: no contract says '{key_of(line)[1]}' of {key_of(line)[0]}"])
    count.end()


main()
