#!/usr/bin/env python3
"""Runs the program's tables of cases: the files below cases/ whose names end in .table. Such a file begins with a
comment (lines that begin with '#'). A line then says what is done with the rows, and each further line is a row. Its
columns are separated by ' | '. Empty lines, and lines that begin with '#', aren't rows. In a column \\n is a new line,
\\t a tab, \\\\ a backslash, \\xHH a byte, ~N*TEXT~ is TEXT, N times, and ~AS_ASKED~ is the program of a rule that
grants what is asked.

    run: COMMAND    the shell runs COMMAND for each row, in the table's folder, with `fc` on the path. $1, $2, .. are
                    all columns of the row except the last. The last column is what COMMAND must print, without the new
                    line at the end
    play: CONFIG    the rows up to an empty line are one play of the site in the file CONFIG. Each row is a line of its
                    script, and the answer to it. A row that begins with '<' is a further line of the answer of the row
                    above it. A play that is cut off, or ends with another status than 0, has a last row 'status | N'
    audit: CONFIG JOURNAL
                    a row is an audit of the file JOURNAL with one change, for the site in the file CONFIG. Its columns
                    are a name, the change, what is printed and, in some rows, what standard error says. A change is
                    LINEs/OLD/NEW/, and OLD must be in that line exactly once; an empty column changes nothing. The
                    status must be 0 if 'legal' is printed, and else 1

A line 'needs: COMMAND..' before 'run', 'play' or 'audit' names commands. If the machine doesn't have one of them, the
table is skipped, and that is printed. If LLVM is set (LLVM=-19), it is appended to each of these names.

Each row is a case of its own; in a table of plays, each play is one. Standard error must not say that memory ran out,
unless that is what is to be printed. Prints each case that differs, and then 'N passed, M failed'.
usage: tools/run_tables.py PROGRAM [WORD]    WORD: only the tables whose path has it
"""
import os
import re
import shutil
import subprocess
import sys
import tempfile
from concurrent.futures import ThreadPoolExecutor

from shared import AS_ASKED, HERE, OUT_OF_MEMORY, Count

LINE = re.compile(r"\\(n|t|\\|x[0-9a-f]{2})")
TIMES = re.compile(r"~(\d+)\*(.*?)~")
CHANGE = re.compile(rb"([1-9]\d*)s/([^/]+)/([^/]*)/")


def plain(column):
    """Returns what a column says, as bytes."""
    column = TIMES.sub(lambda it: it[2] * int(it[1]), column.replace("~AS_ASKED~", AS_ASKED))
    whole, at = b"", 0
    for it in LINE.finditer(column):
        whole += column[at : it.start()].encode()
        whole += {"n": b"\n", "t": b"\t", "\\": b"\\"}.get(it[1]) or bytes.fromhex(it[1][1:])
        at = it.end()
    return whole + column[at:].encode()


def wanting(commands):
    """Returns the first of some commands that this machine is without."""
    names = [name + os.environ.get("LLVM", "") for name in commands.split()]
    return next((name for name in names if not shutil.which(name)), None)


def rows_of(path):
    """Returns the kind of a table (run, play or audit), what comes after the colon, and its rows. A row is the number
    of its line, and its columns; None is an empty line."""
    kind, what, rows = None, None, []
    with open(path, encoding="utf-8") as file:
        for number, line in enumerate(file, 1):
            line = line.rstrip("\n")
            if line.startswith("#"):
                continue
            if kind is None and line.startswith("needs: "):
                name = wanting(line.removeprefix("needs: "))
                if name:
                    print(f"{os.path.relpath(path, HERE)} is skipped: there is no {name} here")
                    return "run", "true", []
            elif kind is None and line:
                kind, _, what = line.partition(": ")
                if kind not in ("run", "play", "audit") or not what:
                    sys.exit(f"{path}:{number}: 'run: ..', 'play: ..' or 'audit: ..' is wanted here")
            elif line:
                rows.append((number, line.split(" | ")))
            else:
                rows.append(None)
    return kind, what, rows


def run(command, folder, program, row):
    """Returns what the command prints for a row, what it should print, and what standard error says."""
    *given, wanted = row
    with tempfile.TemporaryDirectory() as room:
        os.symlink(program, f"{room}/fc")
        how = {"cwd": folder, "stdin": subprocess.DEVNULL, "stdout": subprocess.PIPE, "stderr": subprocess.PIPE}
        how["env"] = {**os.environ, "PATH": f"{room}:{os.environ['PATH']}", "ROOM": room}
        ran = subprocess.run([b"sh", b"-c", command.encode(), b"", *map(plain, given)], timeout=60, **how)
    return ran.stdout.removesuffix(b"\n"), plain(wanted), ran.stderr


def play(config, folder, program, rows):
    """Returns what a play of the rows prints, what it should print, and what standard error says."""
    script, wanted, status = b"", b"", b"0"
    for row in rows:
        first, last = plain(row[0]), plain(row[-1])
        if first == b"status":
            status = last
        else:
            if first != b"<":
                script += first + b"\n"
            wanted += last + b"\n" if len(row) > 1 else b""
    ran = subprocess.run([program, "play", config, "-"], cwd=folder, input=script, capture_output=True, timeout=60)
    return ran.stdout + b"status %d\n" % ran.returncode, wanted + b"status " + status + b"\n", ran.stderr


def changed(journal, change):
    """Returns a journal with a change, or None if the change can't be made."""
    if not change:
        return journal
    it, lines = CHANGE.fullmatch(change), journal.splitlines(keepends=True)
    at = int(it[1]) - 1 if it else len(lines)
    if at >= len(lines) or lines[at].count(it[2]) != 1:
        return None
    lines[at] = lines[at].replace(it[2], it[3])
    return b"".join(lines)


def audit(what, folder, program, row):
    """Returns what an audit of a changed journal prints, what it should print, and what standard error says."""
    config, base = what.split()
    _, change, verdict, *words = map(plain, row)
    with open(f"{folder}/{base}", "rb") as file:
        journal = changed(file.read(), change)
    if journal is None:
        return b"no change: " + change, verdict, b"its text doesn't stand in that line once"
    with tempfile.TemporaryDirectory() as room:
        with open(f"{room}/journal", "wb") as file:
            file.write(journal)
        how = {"cwd": room, "stdin": subprocess.DEVNULL, "capture_output": True, "timeout": 60}
        ran = subprocess.run([program, "audit", f"{folder}/{config}", "journal"], **how)
    said, status = ran.stderr if words else b"", 0 if verdict.startswith(b"legal") else 1
    printed = b"%sstatus %d\n%s" % (ran.stdout, ran.returncode, said)
    return printed, b"%s\nstatus %d\n" % (verdict, status) + b"".join(it + b"\n" for it in words), ran.stderr


def cases_of(path, program):
    """Returns the cases of a table: the place of each, and a call that gives what is printed, what is wanted, and what
    standard error says."""
    kind, what, rows = rows_of(path)
    folder, short = os.path.dirname(path), os.path.relpath(path, HERE)
    if kind != "play":
        case = run if kind == "run" else audit
        return [(f"{short}:{it[0]}", lambda row=it[1]: case(what, folder, program, row)) for it in rows if it]
    plays, open_play = [], []
    for it in [*rows, None]:
        if it:
            open_play.append(it)
        elif open_play:
            plays.append(open_play)
            open_play = []
    return [(f"{short}:{it[0][0]}", lambda it=it: play(what, folder, program, [row for _, row in it])) for it in plays]


def tried(case):
    """Returns the results of a case. If the case doesn't end, they say so."""
    try:
        return case()
    except subprocess.TimeoutExpired as late:
        return b"no end within %d seconds" % late.timeout, b"an end", late.stderr or b""


def main():
    if len(sys.argv) not in (2, 3):
        sys.exit(__doc__)
    program, word = os.path.realpath(sys.argv[1]), sys.argv[2] if len(sys.argv) > 2 else ""
    found = sorted(f"{at}/{name}" for at, _, names in os.walk(f"{HERE}/cases") for name in names)
    cases = [it for path in found if path.endswith(".table") and word in path for it in cases_of(path, program)]
    with ThreadPoolExecutor(os.cpu_count()) as pool:
        results = list(pool.map(lambda it: tried(it[1]), cases))
    count = Count()
    for (place, _), (printed, wanted, said) in zip(cases, results):
        faults = []
        if printed != wanted or (OUT_OF_MEMORY.search(said) and not OUT_OF_MEMORY.search(wanted)):
            texts = [it.decode(errors="replace")[:600].replace("\n", "\n  ") for it in (printed, wanted, said)]
            faults = [f"{place}: printed, wanted, and what standard error says:", *(f"  {it}" for it in texts)]
        count.case(faults)
    count.end()


if __name__ == "__main__":
    main()
