"""A site that keeps its journal is killed so many times, each time as long after the first answer as a seed chooses,
under eight tills, two dispensers and an owner who replaces the rule, and started again on the same file each time. In
the end each answered line stands in the journal at the number that it was answered with, in the order of its
connection, and the audit is legal."""

import os
import random
import signal
import tempfile
import threading
import time

from serving import AS_ASKED, AT_MOST_5000, COUNTED, Peer, Site

SITE = """tills = 8
price_slot = 2
prices = [1799, 1849, 0, 0, 0, 0, 0, 0]
point = [{release = 0, preset = 1}, {release = 0, preset = 1}, {release = 0, preset = 1}, {release = 0, preset = 1}]
counter = [{value = 0, bound = 1000000}]
"""
RULES = [AS_ASKED, AT_MOST_5000, COUNTED]


def until_killed(peer, lines):
    """Asks these lines over and over; ends where the site does."""
    try:
        while True:
            for line in lines:
                peer.ask(line)
    except (OSError, SystemExit):
        pass


def till_lines(number):
    point = (number - 1) % 4 + 1
    return [
        f"till {number} open {point}",
        f"till {number} preset {point} 1000",
        f"till {number} release {point} 8000",
        f"till {number} show {point}",
        f"till {number} lock {point} 1",
        f"till {number} clear {point} 1",
    ]


def dispenser_lines(number):
    events = ("up 1", "order", "started", "flow 100 50", "down")
    return [f"disp {point} {event}" for point in (2 * number - 1, 2 * number) for event in events]


def owner_lines():
    return [f"load {slot} {1 if rule is RULES[2] else 0} {rule}" for rule in RULES for slot in (0, 1, 2)]


def serve_and_kill(fc, kept, synced, wait):
    """The connections' answers up to the kill, and whether a line that was cut off had to be taken away at the start."""
    site = Site(fc, SITE, till_workers=8, dispenser_workers=2, connections=1, kept=kept, synced=synced)
    work = [(Peer(site.till), till_lines(number)) for number in range(1, 9)]
    work += [(Peer(site.dispenser), dispenser_lines(number)) for number in (1, 2)]
    work += [(Peer(site.owner), owner_lines())]
    threads = [threading.Thread(target=until_killed, args=one, daemon=True) for one in work]
    for thread in threads:
        thread.start()
    while not any(peer.heard for peer, _ in work):
        time.sleep(0.001)
    time.sleep(wait)
    site.program.send_signal(signal.SIGKILL)
    site.program.wait()
    for thread in threads:
        thread.join()
    if any("cut off" not in line for line in site.told):
        raise SystemExit(f"the site said {site.told}")
    return [(peer.said, peer.heard) for peer, _ in work]


def last_day(fc, kept, synced):
    """Serves once more, with one line of one till, and ends as it should."""
    site = Site(fc, SITE, till_workers=1, dispenser_workers=1, connections=1, kept=kept, synced=synced)
    peer = Peer(site.till)
    peer.ask("till 1 show 1")
    for port in (site.dispenser, site.owner):
        Peer(port).close()
    peer.close()
    status, printed = site.end()
    site.journal = open(kept, "rb")
    return status, printed, site.audit(), [(peer.said, peer.heard)]


def is_kept(entries, said, heard):
    """Whether each answer with a number is that entry's, in rising order."""
    last = 0
    for line, answer in zip(said, heard):
        if not answer[0].isdigit():
            continue
        number, reply = answer.split(" ", 1)
        if int(number) <= last or entries.get(int(number)) != (line, reply):
            return False
        last = int(number)
    return True


def kill(fc, kills, synced):
    """Kills so many times, serves to an end, and prints what was found."""
    chosen = random.Random(20261122)
    folder = tempfile.TemporaryDirectory()
    kept = os.path.join(folder.name, "day.journal")
    connections = []
    for _ in range(kills):
        connections += serve_and_kill(fc, kept, synced, chosen.uniform(0.02, 0.3))
    status, printed, audited, heard = last_day(fc, kept, synced)
    with open(kept) as file:
        lines = file.read().splitlines()
    entries = {}
    for line in lines:
        number, _, _, rest = line.split(" ", 3)
        entries[int(number)] = tuple(rest.split(" ; ")[0].split(" = "))
    print("status", status, "printed", repr(printed))
    print("answers that are missing", sum(not is_kept(entries, *one) for one in connections + heard))
    rounds = [connections[at : at + 11] for at in range(0, 11 * kills, 11)]
    print("answers in each round", all(any(heard for _, heard in one) for one in rounds))
    print("the journal is legal", audited == (0, f"legal {len(lines)}\n"))
