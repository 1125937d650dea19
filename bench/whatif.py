#!/usr/bin/env python3
"""How long it takes to say what another rule would have answered on all days of a folder, beside an audit of the same
days. Each day has 50,000 decisions by a rule that grants what is asked; the other rule grants by a counter, which it
carries. Prints a table in Markdown, of the medians of three turns.

    bench/whatif.py PROGRAM [DAYS]        30 days where it isn't said
"""

import os
import statistics
import subprocess
import sys
import tempfile
import time

sys.dont_write_bytecode = True
HERE = os.path.dirname(os.path.abspath(__file__))
sys.path.insert(0, os.path.join(HERE, "..", "tools"))
from shared import AS_ASKED

TURNS = 3
DECISIONS = 50_000
SITE = """tills = 8
price_slot = 2
prices = [1799, 1849, 0, 0, 0, 0, 0, 0]
point = [{release = 0, preset = 1}, {release = 0, preset = 1}, {release = 0, preset = 1}, {release = 0, preset = 1}]
counter = [{value = 0, bound = 40000}]
"""
RULE = """r6 = *(u64 *)(r1 + 24)
r1 = 0
r2 = 1
call 2
if r0 == 0 goto done
r0 = 5000
if r6 > 6000 goto done
r0 = r6
done:
exit
"""


def fc(program, *words, given=b""):
    return subprocess.run([program, *words], input=given, stdout=subprocess.PIPE, check=True).stdout


def script(day):
    """Returns a day's script: its presets come from all tills, at all points, over a day of 86,400 seconds."""
    lines = [f"load 1 0 {AS_ASKED}", *(f"till 1 open {point}" for point in (1, 2, 3, 4))] if day == 1 else []
    for n in range(DECISIONS):
        if n % 100 == 0:
            lines.append(f"moment {1790000000 + 86400 * day + n * 86400 // DECISIONS}")
        lines.append(f"till {n % 8 + 1} preset {n % 4 + 1} {1000 + n % 9000}")
    return "\n".join([*lines, "journal", ""]).encode()


def make_days(program, folder, site, days):
    """Writes the opening and the journal of each day."""
    for day in range(1, days + 1):
        name = os.path.join(folder, f"{day:06}")
        opening = []
        if day > 1:
            before = [] if day == 2 else ["--opening", os.path.join(folder, f"{day - 1:06}.opening")]
            text = fc(program, "carry", *before, site, os.path.join(folder, f"{day - 1:06}.journal"))
            with open(f"{name}.opening", "wb") as file:
                file.write(text)
            opening = ["--opening", f"{name}.opening"]
        answers = fc(program, "play", *opening, site, "-", given=script(day))
        with open(f"{name}.journal", "wb") as file:
            file.writelines(line for line in answers.splitlines(keepends=True) if b" = " in line)


def took(program, words):
    begun = time.perf_counter()
    subprocess.run([program, *words], stdout=subprocess.DEVNULL, check=True)
    return time.perf_counter() - begun


def main():
    program, days = os.path.abspath(sys.argv[1]), int(sys.argv[2]) if len(sys.argv) > 2 else 30
    with tempfile.TemporaryDirectory() as room:
        site, rule, folder = (os.path.join(room, name) for name in ("site.toml", "rule.hex", "days"))
        os.mkdir(folder)
        with open(site, "w", encoding="utf-8") as file:
            file.write(SITE)
        with open(rule, "wb") as file:
            file.write(fc(program, "asm", "-", given=RULE.encode()))
        make_days(program, folder, site, days)
        compare = ["whatif", "--slot", "1", "--counters", "1", "--carry", "--days", folder]
        steps = {
            "audit --days": ["audit", "--days", folder, site],
            "whatif --days": [*compare, site, rule],
            "whatif --days --json": [*compare, "--json", site, rule],
            "whatif --days --summary": [*compare, "--summary", site, rule],
        }
        turns = {step: [] for step in steps}
        for _ in range(TURNS):
            for step, words in steps.items():
                turns[step].append(took(program, words))
        first = statistics.median(turns["audit --days"])
        print(f"{days} days of {DECISIONS:,} decisions, medians of {TURNS} turns:\n")
        print("| step | s | of the audit |\n|---|---|---|")
        for step, seconds in turns.items():
            median = statistics.median(seconds)
            print(f"| {step} | {median:.2f} | {median / first:.2f} |")


if __name__ == "__main__":
    main()
