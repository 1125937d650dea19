#!/usr/bin/env python3
"""Compares the table of states in docs/use/protocol.md with what the program answers, cell by cell.

Each state is reached in every way that makes a difference to some cell (SITUATIONS, and BEFORE for unpaid
transactions). In each of these situations each line of the table is sent to a point. The table's cell must then have
the line's answer, the state after it, the order that is pending then and the number of unpaid transactions. If no
situation meets the condition of an alternative in a cell, that is a fault of the table.

    states.py FC [DOCUMENT]     the last line is 'N passed, M failed', of cells
"""

import os
import re
import sys
import tempfile

from shared import AS_ASKED, HERE, Count, played, text_of

LIMIT = 8000
POINTS = 32
SITE = "tills = 2\nprice_slot = 2\nprices = [1799, 1849, 0, 0, 0, 0, 0, 0]\n"
SITE += POINTS * "[[point]]\nrelease = 0\npreset = 1\n"

OPEN, CLOSE, RELEASE = "till 1 open P", "till 1 close P", f"till 1 release P {LIMIT}"
SUSPEND, RESUME, STOP = "till 1 suspend P", "till 1 resume P", "till 1 stop P"
UP, DOWN, ORDER, STARTED, FAULT = "disp P up 1", "disp P down", "disp P order", "disp P started", "disp P fault"
STARTED_FILLING = [OPEN, UP, RELEASE, ORDER, STARTED]


def flow(amount):
    return f"disp P flow {amount} {amount // 2}"


# From a closed point with its nozzle hung up: the state that is reached, the lines that lead there, whether a nozzle is
# up then, which order is pending, whether an authorise order was taken, and the amount of the delivery.
SITUATIONS = [
    (1, [FAULT], False, None, False, 0),
    (1, [UP, FAULT], True, None, False, 0),
    (2, [], False, None, False, 0),
    (2, [UP], True, None, False, 0),
    (2, [OPEN, RELEASE, STOP, CLOSE], False, "stop", False, 0),
    (3, [OPEN], False, None, False, 0),
    (3, [OPEN, RELEASE, STOP], False, "stop", False, 0),
    (4, [OPEN, UP], True, None, False, 0),
    (4, [OPEN, UP, RELEASE, STOP], True, "stop", False, 0),
    (5, [OPEN, RELEASE], False, "authorise", False, 0),
    (5, [OPEN, UP, RELEASE], True, "authorise", False, 0),
    (5, [OPEN, RELEASE, ORDER], False, None, True, 0),
    (5, [OPEN, UP, RELEASE, ORDER], True, None, True, 0),
    (6, STARTED_FILLING, True, None, True, 0),
    (6, STARTED_FILLING + [SUSPEND, RESUME], True, "resume", True, 0),
    (7, STARTED_FILLING + [SUSPEND], True, "suspend", True, 0),
    (7, STARTED_FILLING + [SUSPEND, ORDER], True, None, True, 0),
    (8, STARTED_FILLING + [flow(0)], True, None, True, 0),
    (8, STARTED_FILLING + [flow(1000)], True, None, True, 1000),
    (8, STARTED_FILLING + [flow(1000), SUSPEND, RESUME], True, "resume", True, 1000),
    (9, STARTED_FILLING + [flow(0), SUSPEND], True, "suspend", True, 0),
    (9, STARTED_FILLING + [flow(1000), SUSPEND], True, "suspend", True, 1000),
    (9, STARTED_FILLING + [flow(1000), SUSPEND, ORDER], True, None, True, 1000),
    (9, STARTED_FILLING + [flow(LIMIT), SUSPEND], True, "suspend", True, LIMIT),
    (9, STARTED_FILLING + [flow(LIMIT + 1000)], True, "stop", True, LIMIT + 1000),
]

# The unpaid transactions that a point may have from before: the till that holds each (0: nobody), and the lines that
# lead there.
DELIVERY = STARTED_FILLING + [flow(100), DOWN]
BEFORE = [
    ([], []),
    ([0], DELIVERY + [CLOSE]),
    ([1], DELIVERY + ["till 1 lock P 1", CLOSE]),
    ([2], DELIVERY + ["till 2 lock P 1", CLOSE]),
    ([0, 0], DELIVERY + [CLOSE] + DELIVERY + [CLOSE]),
]

# The lines of the table, by the name that its first column has.
LINES = {
    "up": ["disp P up 1"],
    "down": ["disp P down"],
    "started": ["disp P started"],
    "flow": [flow(LIMIT), flow(LIMIT + 1), flow(LIMIT + 1500)],
    "fault": ["disp P fault"],
    "repaired": ["disp P repaired"],
    "order": ["disp P order"],
    "open": ["till 1 open P"],
    "close": ["till 1 close P"],
    "release": [f"till 1 release P {LIMIT}"],
    "preset": ["till 1 preset P 3000"],
    "suspend": ["till 1 suspend P"],
    "resume": ["till 1 resume P"],
    "stop": ["till 1 stop P"],
    "lock": ["till 1 lock P 1"],
    "unlock": ["till 1 unlock P 1"],
    "clear": ["till 1 clear P 1"],
}


# The text that a cell of one letter stands for. The state stays the same in these cells.
SHORT = {"L": "{} n, S27 t, S28", "M": "{} m, S27 t, S28"}


def table_of(document):
    """By line and state, the alternatives of the cell."""
    cells = {}
    for row in document.splitlines():
        parts = [part.strip() for part in row.strip().strip("|").split("|")]
        name = re.fullmatch(r"`(?:till T|disp P) (\w+)[ A-Z]*`", parts[0])
        if name and len(parts) == 10:
            for state, cell in enumerate(parts[1:], 1):
                said = SHORT.get(cell, cell).format(state)
                cells[name[1], state] = [alternative.split() for alternative in said.split(",")]
    return cells


class Situation:
    def __init__(self, state, lines, up, pending, taken, amount, holders):
        self.state, self.lines, self.up, self.pending, self.taken = state, lines, up, pending, taken
        self.amount, self.holders = amount, holders

    def meets(self, condition, line):
        """Whether a condition of the table holds when the line comes."""
        return {
            "u": self.up,
            "d": not self.up,
            "s": self.up and self.taken,
            "f": len(self.holders) < 2,
            "o": int(line.split()[-2]) > LIMIT if " flow " in line else False,
            "b": self.amount < LIMIT,
            "p": self.pending is not None,
            "n": bool(self.holders) and self.holders[0] in (0, 1),
            "m": bool(self.holders) and self.holders[0] == 1,
            "t": bool(self.holders),
        }[condition]

    def told(self, name, line, cell):
        """Which alternative of a cell is for this situation, and what it says of the line: its answer, and the state,
        the pending order and the number of unpaid transactions after it."""
        for place, words in enumerate(cell):
            outcome, *rest = words
            conditions = [word for word in rest if re.fullmatch("[a-z]", word)]
            if all(self.meets(condition, line) for condition in conditions):
                break
        else:
            raise SystemExit(f"{name} in state {self.state}: no alternative for a situation")
        if outcome.startswith("S"):
            answer = f"S22 {self.state}" if outcome == "S22" else outcome
            return place, (answer, self.state, self.pending, len(self.holders))
        orders = [word for word in rest if len(word) > 1]
        pending = orders[0] if orders else None if name in ("down", "fault", "order") else self.pending
        answer = "done"
        if name == "order":
            answer = f"order {self.pending}" + (f" {LIMIT}" if self.pending == "authorise" else "")
        elif name in ("release", "preset"):
            answer = f"granted {line.split()[-1]} by {'1' if name == 'release' else '2'}"
        unpaid = len(self.holders) + ("T" in rest and self.amount > 0) - (name == "clear")
        return place, (answer, int(outcome), pending, unpaid)


def situations():
    for state, lines, up, pending, taken, amount in SITUATIONS:
        for holders, before in BEFORE:
            if len(holders) < 2 or RELEASE not in lines:
                yield Situation(state, before + lines, up, pending, taken, amount, holders)


def answered(fc, config, trials):
    """The program's answers to each trial. A trial is a situation and a line, at a point of its own."""
    script = [f"load 0 0 {AS_ASKED}", f"load 1 0 {AS_ASKED}"]
    for point, (situation, line) in enumerate(trials, 1):
        lines = situation.lines + ["till 2 show P", line, "till 2 show P", "disp P order"]
        script += [re.sub(r"\bP\b", str(point), one) for one in lines]
    answers = [answer.split(" ", 1)[1] for answer in played(fc, config, "\n".join(script) + "\n")]
    if len(answers) != len(script):
        raise SystemExit("a line of the play has no answer")
    at = 2
    for situation, _ in trials:
        at += len(situation.lines)
        yield answers[at : at + 4]
        at += 4


def seen(situation, answers):
    """What happened: the answer, the state, the pending order and the number of unpaid transactions after the line."""
    before, answer, after, order = answers
    if before.split()[:2] != ["point", str(situation.state)]:
        raise SystemExit(f"the lines {situation.lines} lead to {before!r} and not to state {situation.state}")
    if answer.startswith("S") and after != before:
        raise SystemExit(f"after {situation.lines}: a refused line changed {before!r} to {after!r}")
    pending = order.split()[1] if order.startswith("order") else None
    return answer, int(after.split()[1]), pending, int(after.split()[-1])


def main():
    fc = os.path.abspath(sys.argv[1])
    path = sys.argv[2] if len(sys.argv) > 2 else f"{HERE}/docs/use/protocol.md"
    cells = table_of(text_of(os.path.abspath(path)))
    wanted = {(name, state) for name in LINES for state in range(1, 10)}
    if set(cells) != wanted:
        raise SystemExit(f"{path}: the table has {len(cells)} cells of {len(wanted)}")
    trials = [(one, name, line) for one in situations() for name in LINES for line in LINES[name]]
    trials = [trial for trial in trials if " flow " not in trial[2] or int(trial[2].split()[-2]) >= trial[0].amount]
    used, bad = set(), set()
    with tempfile.NamedTemporaryFile("w", suffix=".toml") as config:
        config.write(SITE)
        config.flush()
        for begin in range(0, len(trials), POINTS):
            part = trials[begin : begin + POINTS]
            told_to_each = answered(fc, config.name, [(one, line) for one, _, line in part])
            for (one, name, line), answers in zip(part, told_to_each):
                place, told = one.told(name, line, cells[name, one.state])
                used.add((name, one.state, place))
                said = seen(one, answers)
                if said != told:
                    bad.add((name, one.state))
                    print(f"{name} in state {one.state} after {one.lines}: the table says {told}, fc {said}")
    for name, state in sorted(wanted):
        for place, words in enumerate(cells[name, state]):
            if (name, state, place) not in used:
                bad.add((name, state))
                print(f"{name} in state {state}: nothing comes to '{' '.join(words)}'")
    Count(len(wanted) - len(bad), len(bad)).end()


main()
