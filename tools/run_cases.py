#!/usr/bin/env python3
"""Runs the program's own cases, some at the same time: the folders below cases/ that have a file `stdout`. In such a
folder the program is run with each line of the file `args` as an argument, and with the file `stdin` as its input, if
these files exist. It must print `stdout` and end with the status in `status`, or with 0 if there is no such file. If
there is a file `stderr`, it must print that on standard error. It must not say there that memory ran out, unless
`stdout` says so. If there is an executable `run`, that is run instead, with the program's path as its first argument.

A folder without `stdout` fails, unless it is a part of a case, has cases or tables below it, or is named by a table.
Prints each case that differs, and then 'N passed, M failed'. The exit status is 0 only if nothing failed.
usage: tools/run_cases.py PROGRAM [WORD]    WORD: only the cases whose path has it
"""
import difflib
import os
import signal
import subprocess
import sys
import time
from concurrent.futures import ThreadPoolExecutor

from shared import HERE, OUT_OF_MEMORY, Count

PATIENCE = 120  # seconds that a case may take
AT_ONCE = 2 * (os.cpu_count() or 1)  # most cases wait more than they compute
PARTS = ("args", "stdin", "run", "status", "stderr")  # the files of a case beside stdout
SHOWN = 20  # lines of what differs
SAID = 5  # last lines of standard error


class Folder:
    """A folder below cases/: its path from the repository's top, and the names of its files and of what is below it."""

    def __init__(self, path, names):
        self.path, self.names = path, names

    def bytes_of(self, name, otherwise=b""):
        """Returns what a file of the folder holds, or `otherwise` if there is none."""
        if name not in self.names:
            return otherwise
        with open(os.path.join(self.path, name), "rb") as file:
            return file.read()

    def is_long(self):
        """Whether a script runs, which may take long: such a case begins first."""
        return "run" in self.names

    def words(self, program):
        """Returns the command of the case."""
        args = self.bytes_of("args").decode().splitlines()
        is_script = os.access(os.path.join(self.path, "run"), os.X_OK)
        return ["./run", program, *args] if is_script else [program, *args]

    def run(self, program):
        """Runs the case. Returns its status, and what it printed and said. Processes that it leaves are killed."""
        ran = subprocess.Popen(
            self.words(program), cwd=self.path, stdin=subprocess.PIPE, stdout=subprocess.PIPE, stderr=subprocess.PIPE,
            start_new_session=True,
        )
        try:
            printed, said = ran.communicate(self.bytes_of("stdin"), timeout=PATIENCE)
            status = ran.returncode
            kill_all(ran.pid)
        except subprocess.TimeoutExpired:
            kill_all(ran.pid)  # or what the case began would keep its output open
            printed, said = ran.communicate()
            status = f"none within {PATIENCE} seconds"
        return status, printed, said

    def faults(self, program):
        """Runs the case, and returns what is wrong with it, as lines."""
        begun = time.monotonic()
        status, printed, said = self.run(program)
        took = time.monotonic() - begun
        wanted = int(self.bytes_of("status", b"0"))
        differs = [*differing("stdout", printed, self.bytes_of("stdout"))]
        if "stderr" in self.names:
            differs += differing("stderr", said, self.bytes_of("stderr"))
        if OUT_OF_MEMORY.search(said) and not OUT_OF_MEMORY.search(self.bytes_of("stdout")):
            differs.append("it says that memory ran out")
        if status == wanted and not differs:
            return []
        lines = said.decode(errors="replace").splitlines()
        return [f"{self.path}: status {status}, wanted {wanted}, {took:.0f} s", *differs, *lines[-SAID:]]


def kill_all(session):
    """Kills the processes of a session, if there are any."""
    try:
        os.killpg(session, signal.SIGKILL)
    except ProcessLookupError:
        pass


def differing(name, printed, wanted):
    """Returns the lines in which two texts differ, of which the second one is wanted."""
    if printed == wanted:
        return []
    texts = [text.decode(errors="replace").splitlines() for text in (wanted, printed)]
    lines = list(difflib.unified_diff(*texts, f"{name} that is wanted", f"{name} that was printed", lineterm=""))
    return lines[:SHOWN] or [f"{name} differs at a line's end"]


def tables_below(path):
    """Returns the texts of the tables below a folder."""
    tables = []
    for folder, _, names in os.walk(path):
        for name in names:
            if name.endswith(".table"):
                with open(os.path.join(folder, name), encoding="utf-8") as file:
                    tables.append(file.read())
    return tables


def may_lack_stdout(folder, folders, tables):
    """Whether a folder may be without `stdout`: it lies in a case's folder, or it has no other file of a case, and there
    are cases or tables below it, or a table names a file in it."""
    above = folders.get(os.path.dirname(folder.path))
    if above and "stdout" in above.names:
        return True
    if any(name in folder.names for name in PARTS):
        return False
    below = folder.path + os.sep
    if tables_below(folder.path) or any(one.path.startswith(below) and "stdout" in one.names for one in folders.values()):
        return True
    name = os.path.basename(folder.path)
    return any(f"/{name}/" in table or f" {name}/" in table for table in tables)


def main():
    program, word = os.path.realpath(sys.argv[1]), "".join(sys.argv[2:3])
    os.chdir(HERE)
    folders = {path: Folder(path, below + names) for path, below, names in os.walk("cases")}
    tables = tables_below("cases")
    asked = [folder for path, folder in sorted(folders.items()) if word in path + os.sep]
    cases = sorted((one for one in asked if "stdout" in one.names), key=lambda one: not one.is_long())
    count = Count()
    for one in asked:
        if "stdout" not in one.names and not may_lack_stdout(one, folders, tables):
            count.case([f"{one.path}: there is no stdout, which says what is wanted"])
    with ThreadPoolExecutor(AT_ONCE) as pool:
        for faults in pool.map(lambda one: one.faults(program), cases):
            count.case(faults)
    count.end()


main()
