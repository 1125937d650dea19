#!/usr/bin/env python3
"""Sends lines to a site, one after another, and prints the answer to each. The status is 1 where one was refused (its
answer has a number of S, L or V), or where no answer came.

    ask.py PORT|PATH LINE..     a port of 127.0.0.1, or the path of a local socket
"""

import re
import sys

sys.dont_write_bytecode = True
from controller import connected

REFUSED = re.compile(r"(\d+ )?[SLV]\d+( |$)")


def main():
    if len(sys.argv) < 3:
        raise SystemExit(__doc__)
    try:
        site = connected(sys.argv[1])
    except OSError as error:
        raise SystemExit(f"no connection to {sys.argv[1]}: {error}")
    answers = site.makefile("r", encoding="ascii", newline="\n")
    refused = False
    for line in sys.argv[2:]:
        try:
            site.sendall(f"{line}\n".encode("ascii"))
            answer = answers.readline()
        except OSError:
            answer = ""
        if not answer.endswith("\n"):
            raise SystemExit(f"no answer to '{line}'")
        print(answer, end="", flush=True)
        refused = refused or REFUSED.match(answer) is not None
    sys.exit(refused)


main()
