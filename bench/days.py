#!/usr/bin/env python3
"""How long tills wait where one day follows another while they are served: eight tills ask all the time, each in a
process of its own, and somebody else fills the day, by 4,000 loads or by 1,040,000 entries. Of each day's end the
longest wait of a till for its answer counts, from one day's last answer to the next day's first. Prints a table in
Markdown, with the longest wait of a till at any other time beside it, and the memory of the process at the end of the
first day and of the last one, while the day is full.

    bench/days.py PROGRAM [ENDS]        ENDS of days of each kind, 5 where it isn't said
"""

import multiprocessing
import os
import statistics
import sys
import tempfile
import time

sys.dont_write_bytecode = True
HERE = os.path.dirname(os.path.abspath(__file__))
sys.path.insert(0, os.path.join(HERE, "..", "cases", "serve"))
from serving import AS_ASKED, Peer, Served

TILLS = 8
BATCH = 500  # lines that the one who fills the day sends at once
SITE = f"""tills = {TILLS + 1}
price_slot = 2
prices = [1799, 0, 0, 0, 0, 0, 0, 0]
point = [{{release = 0, preset = 1}}]
[serve]
till_socket = "till"
till_workers = {TILLS + 1}
dispenser_socket = "dispenser"
dispenser_workers = 1
owner_socket = "owner"
connections = "unlimited"
"""
KINDS = {"4,000 loads": ("owner", f"load 0 0 {AS_ASKED}"), "1,040,000 entries": ("till", f"till {TILLS + 1} show 1")}


def asked(folder, till, over, told):
    """Asks until it is over. Tells the wait over each day's end, in order, and the longest of the others."""
    peer = Peer(os.path.join(folder, "till"))
    line = f"till {till} show 1\n".encode()
    ends, longest, last = [], 0.0, 0
    while not over.is_set():
        begun = time.perf_counter()
        peer.socket.sendall(line)
        answer = peer.reader.readline()
        took = time.perf_counter() - begun
        number = int(answer.split()[0])
        if number < last:
            ends.append(took)
        else:
            longest = max(longest, took)
        last = number
    told.put((ends, longest))


def megabytes(process):
    """The resident memory of a process."""
    with open(f"/proc/{process}/statm") as file:
        return int(file.read().split()[1]) * os.sysconf("SC_PAGE_SIZE") / 1e6


def fill(folder, door, line, ends, process):
    """Sends lines until so many days have ended. Tells the process's memory before the end of each."""
    peer = Peer(os.path.join(folder, door))
    last, memory, full = 0, 0, []
    while len(full) < ends:
        memory = max(memory, megabytes(process))
        peer.socket.sendall((line + "\n").encode() * BATCH)
        for _ in range(BATCH):
            number = int(peer.reader.readline().split()[0])
            if number < last:
                full.append(memory)
                memory = 0
            last = number
    return full


def measured(fc, folder, kind, ends):
    """The longest wait at each day's end, the longest at another time, and the memory at the end of each day."""
    os.mkdir(os.path.join(folder, "days"))
    site = Served(fc, SITE, folder, ("--days", "days"))
    over, told = multiprocessing.Event(), multiprocessing.Queue()
    tills = [multiprocessing.Process(target=asked, args=(folder, till, over, told)) for till in range(1, TILLS + 1)]
    for till in tills:
        till.start()
    memory = fill(folder, *KINDS[kind], ends, site.program.pid)
    time.sleep(0.5)
    over.set()
    waits = [told.get() for _ in tills]
    for till in tills:
        till.join()
    site.stop()
    at_ends = [max(each) for each in zip(*(at_ends for at_ends, _ in waits))]
    return at_ends, max(longest for _, longest in waits), memory


def main(fc, ends):
    print("| a day is full by | ends | longest wait, ms | median, ms | longest at another time, ms | memory, MB | of the last day |")
    print("|---|---|---|---|---|---|---|")
    for kind in KINDS:
        with tempfile.TemporaryDirectory() as folder:
            at_ends, other, memory = measured(fc, folder, kind, ends)
        longest, median = max(at_ends), statistics.median(at_ends)
        print(f"| {kind} | {len(at_ends)} | {1000 * longest:.1f} | {1000 * median:.1f} | {1000 * other:.1f} | {memory[0]:.0f} | {memory[-1]:.0f} |")


main(os.path.abspath(sys.argv[1]), int(sys.argv[2]) if len(sys.argv) > 2 else 5)
