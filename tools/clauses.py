#!/usr/bin/env python3
"""Lists the clauses of the functions that other files can call, or how they differ from those of another commit. A
function is named by its crate, its type or trait and its own name. Its clauses are what comes after `requires` and
`ensures`, with a blank for each row of blanks and ends of lines. The clauses of the crates of tests aren't listed.

usage: tools/clauses.py              prints each clause on a line
       tools/clauses.py COMMIT       prints how the clauses of this folder differ from those of COMMIT: the lines that
                                     were removed ('-') and added ('+')
       tools/clauses.py COMMIT OTHER prints how the clauses of the commit OTHER differ from those of COMMIT
"""
import os
import re
import subprocess
import sys
import tempfile

from shared import HERE

OPENERS, CLOSERS = "([{", ")]}"
HEAD = re.compile(
    r"(?P<owner>\b(?:impl|(?:pub(?:\([a-z]+\))? )?trait)\b[^;{]*\{)"
    r"|(?P<function>\b(?P<public>pub(?:\(crate\))? )?fn (?P<name>\w+))"
)
CLAUSE = re.compile(r"\s*(requires|ensures)\b\s*([A-Za-z_][\w-]*)?\s*(?=\{)")


def bare(text):
    """Returns a text in which each comment and each literal is replaced by as many blanks."""
    blank = lambda it: re.sub(r"[^\n]", " ", it[0])
    return re.sub(r'//[^\n]*|"(?:\\.|[^"\\])*"|b?\'(?:\\.|[^\'\\])\'', blank, text, flags=re.S)


def end_of(text, at):
    """Returns the place after the bracket that closes the one at the place `at`."""
    depth = 0
    for place in range(at, len(text)):
        if text[place] in OPENERS:
            depth += 1
        elif text[place] in CLOSERS:
            depth -= 1
            if depth == 0:
                return place + 1
    return len(text)


def clauses_behind(text, at):
    """Returns the clauses of the function whose name ends at the place `at`."""
    depth, place = 0, at
    while place < len(text):
        if depth == 0 and (text[place] in "{;" or re.match(r"\s(requires|ensures)\b", text[place : place + 10])):
            break
        depth += (text[place] in OPENERS) - (text[place] in CLOSERS)
        place += 1
    found = []
    while it := CLAUSE.match(text, place):
        place = end_of(text, it.end())
        found.append((it[1], it[2] or "", " ".join(text[it.end() : place].split())))
    return found


def owner_of(head):
    """Returns the name of the type or trait of a block, and whether other files can call its functions without the word
    `pub`."""
    words = " ".join(head[:-1].split())
    if "trait " in words:
        return re.search(r"trait (\w+)", words)[1], words.startswith("pub trait")
    return re.sub(r"^impl(<[^>]*>)? ?", "", words), " for " in words


def clauses_of(path, crate):
    """Yields each clause of a file's functions that other files can call as one line."""
    with open(path, encoding="utf-8") as file:
        text = bare(file.read())
    owners = []
    for it in HEAD.finditer(text):
        if it["owner"]:
            owners.append((*owner_of(it[0]), end_of(text, it.end() - 1)))
            continue
        around = ((name, public) for name, public, end in reversed(owners) if it.start() < end)
        owner, is_public = next(around, ("", False))
        if it["public"] or is_public:
            name = "::".join(filter(None, (crate, owner, it["name"])))
            for kind, label, clause in clauses_behind(text, it.end()):
                yield f"{name}: {kind} {label} {clause}".replace("  ", " ")


def listed(root):
    """Returns all clauses below a folder, sorted."""
    lines = []
    with open(f"{root}/crates.txt", encoding="utf-8") as file:
        crates = [line.split()[0].rstrip(":") for line in file if ":" in line and not line.startswith("#")]
    for crate in crates:
        if crate == "acceptance":
            continue
        for at, _, names in os.walk(f"{root}/crates/{crate}/src"):
            for name in names:
                if name.endswith(".rt") and name != "tests.rt":
                    lines += clauses_of(f"{at}/{name}", crate)
    return sorted(lines)


def listed_at(commit):
    """Returns all clauses of a commit."""
    with tempfile.TemporaryDirectory() as room:
        pack = ["git", "archive", commit, "crates", "crates.txt"]
        packed = subprocess.run(pack, cwd=HERE, stdout=subprocess.PIPE, check=True)
        subprocess.run(["tar", "-x", "-C", room], input=packed.stdout, check=True)
        return listed(room)


def main():
    commits = sys.argv[1:]
    if len(commits) > 2 or any(it.startswith("-") for it in commits):
        sys.exit(__doc__)
    now = listed_at(commits[1]) if len(commits) == 2 else listed(HERE)
    if not commits:
        print("\n".join(now))
        return 0
    before = listed_at(commits[0])
    gone, come = [it for it in before if it not in set(now)], [it for it in now if it not in set(before)]
    print("\n".join([f"- {it}" for it in gone] + [f"+ {it}" for it in come]))
    print(f"{len(before)} clauses before, {len(now)} now; {len(gone)} went, {len(come)} came")
    return 0


if __name__ == "__main__":
    sys.exit(main())
