#!/usr/bin/env python3
"""Compares the table of the context's fields in the documents, and the header for rules in C, with the definition of
contexts: each field's offset, size and layouts, and the word for what it holds.

    fields.py     the last line is 'N passed, M failed', of fields and of the layouts' lengths
"""

import re

from shared import Count, text_of

DOCUMENT = "docs/use/writing-rules.md"
FIELDS = "crates/site_core/specs/Context.antt"
LENGTHS = "crates/bpf_model/specs/Layouts.antt"
HEADER = "examples/c/forecourt.h"
HEAD = "| offset | bytes | layouts | field |"
SIZES = {"Four": 4, "Eight": 8}
# The terms of the definition, and for each the word that the table has for it.
WORDS = {
    "till": "till",
    "q.point": "point",
    "(kind_number q.kind)": "kind",
    "(field_of_question_point s q (λ p. state_number p.state))": "state",
    "(field_of_question_point s q (λ p. p.nozzle))": "nozzle",
    "(product_of s q)": "product",
    "q.asked": "amount",
    "moment": "moment",
    "(price_of s (product_of s q))": "price",
    "(busy_points s)": "busy",
    "(field_of_question_point s q (λ p. length p.unpaid))": "unpaid",
    "q.slot": "slot",
    "s.cleared": "cents",
    "s.clears": "transactions",
    "(open_points s)": "open",
    "0": "zero",
}
# The fields of the C structs whose names differ from the table's words, and for each the table's word.
MEMBERS = {
    "asked": "amount",
    "busy_points": "busy",
    "cleared": "cents",
    "clears": "transactions",
    "open_points": "open",
}
STRUCTS = {"1": "request", "2": "request2"}
C_SIZES = {"uint32_t": 4, "uint64_t": 8}


def one(pattern, text, what):
    found = re.search(pattern, text, re.MULTILINE | re.DOTALL)
    if not found:
        raise SystemExit(f"{what} isn't where it was")
    return found[1]


def listed(name, text):
    """A list of fields of the definition: how many bytes each has, and its word."""
    body = one(rf"^{name} [^=\n]*=(.*?)∷ \[\]$", text, f"{FIELDS}: {name}")
    for part in body.split("∷"):
        size, term = part.split(None, 1)
        yield SIZES[size], WORDS.get(term.strip(), term.strip())


def defined():
    """Each field's place, bytes, layouts and word."""
    text = text_of(FIELDS)
    shared = "shared_fields s till moment q"
    one(rf"^fields layouts\.One s till moment q = ({shared})$", text, f"{FIELDS}: layout 1")
    one(rf"^fields layouts\.Two s till moment q = ({shared} \+\+ further_fields s)$", text, f"{FIELDS}: layout 2")
    place = 0
    for name, layouts in (("shared_fields", "1, 2"), ("further_fields", "2")):
        for size, word in listed(name, text):
            yield place, size, layouts, word
            place += size


def documented():
    rows = one(rf"^{re.escape(HEAD)}\n[-|]+\n(.*?)\n\n", text_of(DOCUMENT), f"{DOCUMENT}: the table")
    for row in rows.splitlines():
        at, size, layouts, told = (cell.strip() for cell in row.strip("|").split("|"))
        yield int(at), int(size), layouts, re.match(r"\w+", told)[0]


def members(struct):
    """Each field of a struct of the header: its place, bytes and word, as its declaration has them."""
    body = one(rf"^struct {struct} {{\n(.*?)^}};", text_of(HEADER), f"{HEADER}: struct {struct}")
    place = 0
    for kind, name in re.findall(r"^\t(\w+) (\w+);$", body, re.MULTILINE):
        yield place, C_SIZES[kind], MEMBERS.get(name, name)
        place += C_SIZES[kind]


def asserted(struct):
    """Each field of a struct of the header: its place, bytes and word, as its static assertion has them."""
    assertion = rf"^FORECOURT_AT\((\d+), (\d+), {struct}, (\w+)\);$"
    for place, size, name in re.findall(assertion, text_of(HEADER), re.MULTILINE):
        yield int(place), int(size), MEMBERS.get(name, name)


def compare(count, fields, rows, where):
    """Counts the fields: a field passed if its row has what the definition has."""
    for at in range(max(len(fields), len(rows))):
        field, row = (list_of[at] if at < len(list_of) else None for list_of in (fields, rows))
        fault = f"field {at + 1}: {FIELDS} has {field}, {where} has {row}"
        count.case([fault] if field != row else [])


def main():
    count, fields = Count(), list(defined())
    compare(count, fields, list(documented()), DOCUMENT)
    for number, struct in STRUCTS.items():
        laid = [(place, size, word) for place, size, layouts, word in fields if number in layouts.split(", ")]
        for found, where in ((members, "its declaration"), (asserted, "its assertion")):
            compare(count, laid, list(found(struct)), f"{HEADER}: struct {struct}, {where},")
    lengths = text_of(LENGTHS)
    for name, number in (("One", "1"), ("Two", "2")):
        length = int(one(rf"^context_len layout\.{name} = (\d+)$", lengths, f"{LENGTHS}: layout {number}"))
        laid = sum(size for _, size, layouts, _ in fields if number in layouts.split(", "))
        fault = f"layout {number}: {LENGTHS} says {length} bytes, its fields have {laid}"
        count.case([fault] if length != laid else [])
    count.end()


main()
