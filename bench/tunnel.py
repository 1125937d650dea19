#!/usr/bin/env python3
"""The time that the answer to `till 1 show 1` takes on one connection that asks line by line: at a port, at a local
socket, and through a tunnel of stunnel that ends in that socket (examples/network), all on this machine, in turns. Prints
a row of a table in Markdown for each, of the medians of the turns, and the machine's load before and after.

    bench/tunnel.py [LINES [TURNS]]      LINES of each turn, 5000 where it isn't said; TURNS 7

The program is out/fc, which ./fc builds, or $FC.
"""

import os
import statistics
import sys
import time

sys.dont_write_bytecode = True
HERE = os.path.dirname(os.path.abspath(__file__))
sys.path.insert(0, os.path.join(HERE, "..", "cases", "network"))
from tunnelling import STUNNEL, Line, Station, free_ports, till_end


def times(where, lines):
    """The microseconds that each answer took, in order of their length."""
    line = Line(where)
    taken = []
    for _ in range(lines):
        begun = time.perf_counter()
        line.ask("till 1 show 1")
        taken.append((time.perf_counter() - begun) * 1e6)
    line.close()
    return sorted(taken)


def load():
    return " ".join(f"{one:.1f}" for one in os.getloadavg()[:2])


def main():
    lines, turns = (list(map(int, sys.argv[1:])) + [5000, 7][len(sys.argv) - 1 :])[:2]
    if not STUNNEL:
        sys.exit("bench: there is no stunnel here")
    port = free_ports(1)[0]
    fc = os.environ.get("FC", os.path.join(HERE, "..", "out", "fc"))
    station = Station(fc, connections=1000000, further=f"till_port = {port}\ntill_workers = 1\n")
    socket = os.path.join(station.doors, "till1")
    ways = {"a port": port, "a local socket": socket, "a tunnel": till_end(station, station.ports["till1"])}
    found = {way: [] for way in ways}
    before = load()
    for _ in range(turns):
        for way, where in ways.items():
            taken = times(where, lines)
            found[way].append((taken[len(taken) // 2], taken[len(taken) * 99 // 100], sum(taken) / len(taken)))
    print("| through | half within, us | 99 of 100 within, us | mean, us |\n|---|---|---|---|")
    for way, turned in found.items():
        print(f"| {way} |", " | ".join(f"{statistics.median(column):.0f}" for column in zip(*turned)), "|")
    print(f"load before and after: {before}, {load()}; {turns} turns of {lines} lines")


main()
