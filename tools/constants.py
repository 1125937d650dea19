#!/usr/bin/env python3
"""Checks that each constant which a clause names has a number that a definition writes out. A clause that names a
constant stays true if the constant gets another number. So for each one that a clause, a ghost of a type or a
definition names, `PINS` says where its number stands, in words that the code contradicts if the constant is another.

    constants.py     the last line is 'N passed, M failed', of constants
"""

import glob
import re

from clauses import HEAD, bare, clauses_behind
from shared import HERE, Count, text_of

CONST = re.compile(r"^\s*(?:pub(?:\([a-z]+\))? )?const (\w+): [^=]* = ([^;]*)", re.MULTILINE)
GHOST = re.compile(r"\bghost (?!use)\w+[^{;]*(\{[^}]*\})")
# Two tables that are the definition, two bounds that only private functions require, and a mark above all counts.
UNPINNED = [
    "bpf_asm SYMBOLS", "bpf_asm WORDS", "bpf_model PROGRAM_BYTES", "site_lock FULL_MARK", "till_request SHORT",
]
# A constant, the file below crates/, and the words in it.
PINS = {
    "bpf_model COUNTERS": ("bpf_model/specs/Runs.antt", "pub many : length counters ≡ 32"),
    "bpf_model POINTS": ("site_core/specs/Limits.antt", "pub points : length c.points ≤ 32"),
    "bpf_model STACK_BYTES": ("bpf_model/specs/Runs.antt", "stack = replicate 512 Empty"),
    "bpf_model UNITS": ("bpf_asm/specs/Program.antt", "nat_le 1 n && nat_le n 512"),
    "decision_journal BLOCK_BYTES": ("decision_journal/specs/Journal.antt", "block_bytes = 4096"),
    "decision_journal LINE_ROOM": ("decision_journal/specs/Room.antt", "nat_le (length text + length piece) 8401"),
    "fuelling_point GREATEST": ("fuelling_point/specs/Table.antt", "nat_le amount 999999999"),
    "line_session READS": ("line_session/specs/Answering.antt", "session_reads = 67108864"),
    "site_config MOST_BYTES": ("site_config/specs/Head.antt", "nat_le (length (before_end bytes)) 65536"),
    "site_config MOST_COUNTER": ("site_config/specs/Ranges.antt", "0 9223372036854775807 p.0"),
    "site_config MOST_PRICE": ("site_config/specs/Ranges.antt", "key.Prices place) 0 9999999 z"),
    "site_core ENTRIES": ("site_core/specs/Limits.antt", "most_entries = 1048576"),
    "site_core GREATEST_PRICE": ("site_core/specs/Decide.antt", "is_within 1 q.asked 9999999"),
    "site_core PRODUCTS": ("site_core/specs/Decide.antt", "is_within 1 q.product 8"),
    "page_port MAX_BATCHES": ("page_port/specs/Shown.antt", "count ≡ 32"),
    "file_jobs MOST_OPENING": ("file_jobs/src/opening.rt", "MOST_OPENING ≡ 262144"),
    "till_request LINE_BYTES": ("till_request/specs/Line.antt", "HasNoLf bytes × (length bytes ≤ 8400)"),
}


def sources(kind, ending):
    paths = glob.glob(f"crates/*/{kind}/**/*.{ending}", root_dir=HERE, recursive=True)
    return [(path.split("/")[1], text_of(path)) for path in paths]


def constants():
    """Returns the crate and the number of each constant, by its name: a name has one entry for each crate."""
    found = {}
    for crate, text in sources("src", "rt"):
        for name, number in CONST.findall(bare(text)):
            found.setdefault(name, {})[crate] = number.replace("_", "")
    return found


def named(consts):
    """Yields each constant that a clause, a ghost of a type or a definition names, and the crate that it belongs to."""
    for crate, code in sources("src", "rt"):
        text = bare(code)
        functions = (it.end() for it in HEAD.finditer(text) if it["function"])
        clauses = [clause for at in functions for *_, clause in clauses_behind(text, at)]
        said = " ".join([*clauses, *GHOST.findall(text)])
        for name in set(re.findall(r"(?<![\w.])[A-Z][A-Z_]+\b", said)) & consts.keys():
            brought = re.findall(rf"\buse (?:Rattle\.)?(\w+)[^;]*\b{name}\b", text)
            yield name, next((it for it in [*brought, crate] if it in consts[name]), crate)
    for _, text in sources("specs", "antt"):
        for owner, names in re.findall(r"use Rattle\.(\w+)\.specs\.declared\.[\w.]*TheConstants\.\{([^}]*)\}", text):
            yield from ((name.strip(), owner) for name in names.split(","))


def fault_of(name, number):
    if name in UNPINNED:
        return []
    if name not in PINS:
        return [f"constants: no definition is named that writes out the number of {name}"]
    path, words = PINS[name]
    if not re.search(rf"\b{number}\b", words):
        return [f"constants: {name} is {number}, unlike '{words}'"]
    return [] if words in text_of(f"crates/{path}") else [f"constants: {path} has no words '{words}'"]


def main():
    consts, count = constants(), Count()
    found = {f"{crate} {name}": consts[name].get(crate, "") for name, crate in named(consts)}
    for name, number in sorted(found.items()):
        count.case(fault_of(name, number))
    count.case(f"constants: no clause names {name}" for name in [*UNPINNED, *PINS] if name not in found)
    count.end()


main()
