#!/usr/bin/env python3
"""Compares docs/use/messages.md with the program's sources, both ways: each message of the sources has its first words
in the table, or stands in a row behind a value, and each row has a message of the sources. The numbers of faults in the
table are those that the sources name.

    messages.py     the last line is 'N passed, M failed', of messages and numbers
"""

import glob
import os
import re

from shared import HERE, Count, text_of

DOCUMENT = "docs/use/messages.md"
# Crates whose texts are pages, rows, explanations, tests, or answers, which the reference has.
OTHERS = "acceptance day_export explaining till_request what_if".split()
# Texts of the live page but for its health, of HTTP's head, of --help, and the keys that differ.
PAGES = re.compile(r"pages/src/(?!station)|page_port/src/page_answer|file_jobs/src/(subcommands|other_config)")
# Texts that stand within a message alone, what the reader of TOML says that fc says otherwise, texts of openings that no
# text can be read as, and the end of a day, which is no failure.
PARTS = """a number|a constant counter|a place of the stack for 16 bytes|a till|a dispenser|the owner|till ..|, page
a whole number|a whole number or "unlimited"|a string|an array|a table|standard input|past its end|duplicate key
the day ends|..fc: .. lines read|..fc: .. lines read, the last of them|out of memory (S31)|the opening hasn't 16 slots
a slot of the opening has a version that was never loaded|two slots of the opening have one version
a price of the opening is over 9,999,999
the opening has another number of points than the configuration|day 1 takes: all|day .. takes: all|a day is of another rule"""
FIELDS = r"the (till|point|kind|state|nozzle|product|amount|moment|price|slot|(busy|open) points|(unpaid|cleared) \w+)"
NUMBER = re.compile(r"\b([ACFHJKLNOSV])(\d+)(?: to \1(\d+))?\b")  # also in a comment: S20 to S34


def files():
    return sorted(glob.glob(os.path.join(HERE, "crates", "*", "src", "**", "*.rt"), recursive=True))


def numbers_in(text):
    """The numbers of faults that a text names."""
    for letter, low, high in NUMBER.findall(text):
        yield from (f"{letter}{number}" for number in range(int(low), int(high or low) + 1))


def literals():
    """The texts of the sources, with `..` for each value that is put in."""
    for path in files():
        if os.path.relpath(path, HERE).split(os.sep)[1] in OTHERS or PAGES.search(path):
            continue
        code = re.sub(r"^\s*(//.*|ghost [^;]*;|#\[.*)$", "", text_of(path), flags=re.M)
        for text in re.findall(r'(?<!codes )"((?:[^"\\\n]|\\.)+)"', code):
            text = re.sub(r"\{[^}]*\}", "..", re.sub(r"^fc: |\\n$", "", text).replace('\\"', '"'))
            yield re.sub(r"(\.\.)+", "..", text), os.path.relpath(path, HERE)


def is_message(text):
    """Whether a text has words of its own, and isn't only a part of a message, a line of an opening or a proof's."""
    words, is_part = re.findall(r"[a-z][a-z']+", text), text.strip() in re.split(r"[|\n]", PARTS)
    is_other = re.search(r"[\\∷]|codes", text) or re.fullmatch(FIELDS, text)
    return len(words) > 1 and " " in text.strip() and not is_part and not is_other


def told():
    """The messages and the numbers of the table."""
    cells = [line.split(" | ")[0] for line in text_of(DOCUMENT).splitlines() if line.startswith("| `")]
    spans = [span for cell in cells for span in re.findall(r"`([^`]+)`", cell)]
    numbers = [span for span in spans if NUMBER.match(span)]
    return [span for span in spans if span not in numbers], set(numbers_in("\n".join(numbers)))


def fits(source, message):
    """Whether a text of the sources begins with the message's words up to what differs, or stands in the message."""
    source, first = source.strip(". :"), re.sub(r"( ?\.\.)+$", "", message)
    return re.search(rf"(?<!\w){re.escape(source)}(?!\w)", message) or source.startswith(first.strip(". :"))


def main():
    count, (messages, numbers) = Count(), told()
    sources = dict(literals())
    for text, path in sources.items():
        if is_message(text):
            fault = f"{path}: {text!r} isn't in {DOCUMENT}"
            count.case([] if any(fits(text, message) for message in messages) else [fault])
    known = {number for path in files() for number in numbers_in(text_of(path))}
    for number in sorted(known | numbers):
        count.case([f"{DOCUMENT}, sources: {number} is in one alone"] if number not in known & numbers else [])
    for message in messages:
        fault = f"{DOCUMENT}: no source has {message!r}"
        is_there = any(text == message or is_message(text) and fits(text, message) for text in sources)
        count.case([] if is_there else [fault])
    count.end()


main()
