"""What the tools here share: where the repository is, a rule that has a name, the lines of a play, and a count."""

import os
import re
import subprocess
import sys

HERE = os.path.dirname(os.path.dirname(os.path.realpath(__file__)))
# The program of a rule that grants what is asked.
AS_ASKED = "79101800000000009500000000000000"
# What the program says where memory runs out.
OUT_OF_MEMORY = re.compile(rb"out of memory|\bS31\b")


def text_of(path):
    """Returns the text of a file; its path is from the repository's top."""
    with open(os.path.join(HERE, path), encoding="utf-8") as file:
        return file.read()


def played(program, site, script):
    """Returns the lines that a play of a script prints."""
    how = {"capture_output": True, "text": True, "timeout": 120, "check": True}
    return subprocess.run([program, "play", site, "-"], input=script, **how).stdout.splitlines()


class Count:
    """How many cases passed, and how many failed."""

    def __init__(self, passed=0, failed=0):
        self.passed, self.failed = passed, failed

    def case(self, faults):
        """Counts a case. It failed if it has faults, and these are printed."""
        faults = list(faults)
        for fault in faults:
            print(fault)
        self.passed, self.failed = self.passed + (not faults), self.failed + bool(faults)

    def end(self):
        """Prints the count as the last line, and ends: with status 0 if something passed and nothing failed, else 1."""
        print(f"{self.passed} passed, {self.failed} failed")
        sys.exit(0 if self.passed and not self.failed else 1)
