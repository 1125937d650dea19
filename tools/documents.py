#!/usr/bin/env python3
"""Checks the documents' text: no line has more than 120 characters, but rows of PROVED.md; each file of the repository
exists that a document names (`crates/..`, `docs/..`, a page beside it, a file of a crate as `site_core/src/site.rt`),
and each link leads to a file, and to a heading of it.

    documents.py     the last line is 'N passed, M failed', of documents
"""

import glob
import os
import re

from shared import HERE, Count, text_of

MOST = 120
FROM_THE_TOP = r"(?:bench|cases|crates|docs|examples|tools)/[\w./-]*\w/?"
OF_A_CRATE = r"\w+/(?:src|specs|proofs|must-fail)/[\w./-]*\w"
PATH = re.compile(rf"{FROM_THE_TOP}|{OF_A_CRATE}|[\w-]+\.md")
LINK = re.compile(r"\]\((?!https?:)([^)#]*)(?:#([^)]*))?\)")


def documents():
    found = ["README.md", "CHANGELOG.md", "CONTRIBUTING.md", "bench/README.md"]
    for pattern in ("docs/*.md", "docs/*/*.md"):
        found += sorted(os.path.relpath(path, HERE) for path in glob.glob(f"{HERE}/{pattern}"))
    return [path for path in found if not os.path.islink(os.path.join(HERE, path))]


def is_there(name, document):
    places = ("", "crates", os.path.dirname(document))
    return any(os.path.exists(os.path.join(HERE, place, name)) for place in places)


def anchors_of(path):
    """The anchors of a page's headings, as the hosts of repositories make them."""
    text = re.sub(r"^```.*?^```$", "", text_of(path), flags=re.M | re.S)
    return {re.sub(r"[^\w -]", "", head.lower()).replace(" ", "-") for head in re.findall(r"^#+ (.*)$", text, re.M)}


def broken_links(document, line):
    for page, anchor in LINK.findall(line):
        path = os.path.normpath(os.path.join(os.path.dirname(document), page)) if page else document
        if not os.path.exists(os.path.join(HERE, path)) or anchor and anchor not in anchors_of(path):
            yield f"{page}#{anchor}"


def faults_of(document):
    for number, line in enumerate(text_of(document).splitlines(), 1):
        # A row that is made of the sources can't be wrapped.
        if len(line) > MOST and not (document == "docs/code/PROVED.md" and line.startswith("| ")):
            yield f"{document}:{number}: {len(line)} characters"
        for code in re.findall(r"`([^`\s]+)`", line):
            is_pattern = re.search(r"/[A-Z]+(/|\.edit|$)", code)  # as crates/CRATE/src
            if PATH.fullmatch(code) and not is_pattern and not is_there(code, document):
                yield f"{document}:{number}: there is no {code}"
        for link in broken_links(document, line):
            yield f"{document}:{number}: there is no {link}"


def main():
    count = Count()
    for document in documents():
        count.case(faults_of(document))
    count.end()


main()
