#!/usr/bin/env python3
"""Serves a folder of days under load, while days end, rules are replaced, the process is killed and the disk is full, and
checks at the end that nothing was lost.

    soak.py PROGRAM [SECONDS]    120 seconds if none are given

Eight tills and two dispensers send batches of lines without a pause; the owner loads rules and ends days; two peers look; a
browser reads the page, the metrics and the journal. Now and then the program is killed, or the file system, a small one in
memory, is filled until the program ends with status 3; then it is started again. Between the owner's ends there are times
in which a day may become full by itself. Without the right to mount, no disk is filled, and that is said.

At the end this has to hold, else the status is 1:
- `fc audit --days` calls all days legal;
- each till's and each dispenser's answered lines stand in the journals, each once, in their order and with their numbers; of
  what was in flight when a connection broke, a beginning may stand there;
- no line was answered S29 or S30, and no program ended but by a kill or a full disk;
- a process that served six days or more has no more descriptors at its last day's end than at its first;
- and it has at most 1.3 times the memory that it had in its first half.
"""

import http.client
import multiprocessing
import os
import random
import shutil
import signal
import socket
import subprocess
import sys
import tempfile
import time

HERE = os.path.dirname(os.path.abspath(__file__))
sys.dont_write_bytecode = True
sys.path.insert(0, os.path.join(HERE, "..", "cases", "serve"))
from serving import AS_ASKED, AT_MOST_5000, COUNTED, free_ports

TILLS, DISPENSERS, POINTS, BATCH = 8, 2, 8, 100
LEAST_ROOM = 1_000_000_000  # bytes that 20 seconds don't fill
SITE = """tills = 8
price_slot = 2
prices = [1799, 1849, 0, 0, 0, 0, 0, 0]
point = [%s]
counter = [{value = 0, bound = 1000000000}]
[serve]
till_socket = "till"
till_workers = %d
dispenser_socket = "dispenser"
dispenser_workers = %d
owner_socket = "owner"
page_port = %d
connections = "unlimited"
"""
BROKEN = (ConnectionError, FileNotFoundError, TimeoutError, EOFError, http.client.HTTPException)


class Peer:
    def __init__(self, path):
        self.socket = socket.socket(socket.AF_UNIX)
        self.socket.settimeout(20)
        self.socket.connect(path)
        self.reader = self.socket.makefile("rb")

    def ask(self, lines):
        """Sends lines at once, and gives the answers one after another."""
        self.socket.sendall("".join(line + "\n" for line in lines).encode())
        for _ in lines:
            answer = self.reader.readline()
            if not answer.endswith(b"\n"):
                raise EOFError
            yield answer.decode()[:-1]


def again(path, over, act):
    """Connects again and again, and does `act` over each connection."""
    signal.signal(signal.SIGINT, signal.SIG_IGN)
    while not over.is_set():
        try:
            peer = Peer(path)
            while not over.is_set():
                act(peer)
        except BROKEN:
            time.sleep(0.02)


def till_line(till, chance):
    point, amount = chance.randint(1, POINTS), chance.randint(1, 9000)
    verb = chance.choice(["show", "show", "open", "release", "preset", "lock", "clear", "resume"])
    more = {"release": f" {amount}", "preset": f" {amount}", "lock": f" {chance.randint(1, 50)}", "clear": f" {chance.randint(1, 50)}"}
    return f"till {till} {verb} {point}{more.get(verb, '')}"


def dispenser_line(dispenser, chance):
    point = chance.randint(1, POINTS // DISPENSERS) + (dispenser - 1) * POINTS // DISPENSERS
    verb = chance.choice(["up 1", "down", "started", "order", f"flow {chance.randint(1, 999)} {chance.randint(1, 999)}"])
    return f"disp {point} {verb}"


def sender(path, over, line_of, number, log):
    """Sends batches of lines, and notes each with its answer; `?` and a line for each that was in flight."""
    chance = random.Random(number)
    with open(log, "w", 1 << 16) as file:

        def act(peer):
            lines = [line_of(number, chance) for _ in range(BATCH)]
            answered = 0
            try:
                for line, answer in zip(lines, peer.ask(lines)):
                    file.write(f"{answer.split(' ', 1)[0]} {line} = {answer.split(' ', 1)[-1]}\n")
                    answered += 1
            finally:
                for line in lines[answered:]:
                    file.write(f"? {line}\n")

        again(path, over, act)


def owner(path, over, ends, seen, process):
    rules = [AS_ASKED, AT_MOST_5000, COUNTED]
    chance = random.Random(99)
    begun = time.monotonic()

    def act(peer):
        nonlocal begun
        time.sleep(0.2)
        mask, rule = chance.choice([(0, rules[0]), (0, rules[1]), (1, rules[2])])
        list(peer.ask([f"load {chance.randint(0, 2)} {mask} {rule}"]))
        if ends.is_set() and time.monotonic() - begun > 4:
            begun, asked = time.monotonic(), time.monotonic()
            day = next(peer.ask(["day"]))
            took, pid = time.monotonic() - asked, process.value
            with open(f"/proc/{pid}/status") as file:
                memory = next(int(line.split()[1]) for line in file if line.startswith("VmRSS"))
            seen.put((pid, day, took, memory, len(os.listdir(f"/proc/{pid}/fd"))))

    again(path, over, act)


def looker(path, over):
    looks = ["look day", "look prices", "look unpaid", "look rules", "look counters", "look point 1"]

    def act(peer):
        list(peer.ask(looks))
        time.sleep(0.05)

    again(path, over, act)


def browser(port, over):
    signal.signal(signal.SIGINT, signal.SIG_IGN)
    while not over.is_set():
        try:
            for path in "/", "/metrics", "/healthz", "/journal?after=0":
                connection = http.client.HTTPConnection("127.0.0.1", port, timeout=20)
                connection.request("GET", path)
                connection.getresponse().read()
                connection.close()
        except BROKEN:
            pass
        time.sleep(0.3)


def entries_in(folder):
    """The entries of all days: number, line and answer of each."""
    for name in sorted(name for name in os.listdir(folder) if name.endswith(".journal")):
        with open(os.path.join(folder, name)) as file:
            for text in file:
                if text.endswith("\n"):
                    number, _, _, rest = text[:-1].split(" ", 3)
                    yield number, rest.split(" ; ")[0]


def kept_of(folder, logs):
    """For each sender the entries of its lines."""
    kept = {log: [] for log in logs}
    for number, text in entries_in(folder):
        words = text.split(" ", 2)
        if words[0] == "till":
            kept[f"till{words[1]}"].append(f"{number} {text}")
        elif words[0] == "disp":
            kept[f"disp{(int(words[1]) - 1) * DISPENSERS // POINTS + 1}"].append(f"{number} {text}")
    return kept


def compared(log, kept):
    """How many lines were answered, and the first that isn't kept as it was answered."""
    place = answered = 0
    in_flight = []
    with open(log) as file:
        for text in file:
            text = text[:-1]
            if text.startswith("? "):
                in_flight.append(text[2:])
                continue
            if not text[0].isdigit():
                if text.startswith(("S29", "S30")):
                    return answered, text
                continue
            # What was in flight may have been entered: a beginning of it.
            while in_flight and place < len(kept) and kept[place] != text and kept[place].split(" ", 1)[1].split(" = ")[0] == in_flight[0]:
                in_flight.pop(0)
                place += 1
            in_flight = []
            if place == len(kept) or kept[place] != text:
                return answered, f"{text!r} was answered, and there stands {kept[place] if place < len(kept) else None!r}"
            place, answered = place + 1, answered + 1
    return answered, None if len(kept) - place <= BATCH else f"{len(kept) - place} lines that nobody sent"


class Station:
    def __init__(self, fc, folder, process):
        self.fc, self.folder, self.process = fc, folder, process
        self.start()

    def start(self):
        self.said = open(os.path.join(self.folder, "..", "said"), "ab")
        self.program = subprocess.Popen(
            [self.fc, "serve", "--days", "days", "site.toml"], cwd=self.folder, stdin=subprocess.DEVNULL, stdout=subprocess.DEVNULL, stderr=self.said
        )
        self.process.value = self.program.pid

    def kill(self):
        self.program.kill()
        self.program.wait()
        for name in "till", "dispenser", "owner":
            if os.path.exists(os.path.join(self.folder, name)):
                os.remove(os.path.join(self.folder, name))

    def fill(self):
        """Fills the file system until the program ends; returns its status."""
        ballast = os.path.join(self.folder, "ballast")
        with open(ballast, "wb") as file:
            try:
                while file.write(bytes(1 << 16)):
                    file.flush()
            except OSError:
                pass
        try:
            status = self.program.wait(30)
        except subprocess.TimeoutExpired:
            status = "none"
        os.remove(ballast)
        return status


    def settle(self):
        """Starts the program once more, which takes away a last line that was cut off, and kills it."""
        self.start()
        until = time.monotonic() + 30
        while time.monotonic() < until and not os.path.exists(os.path.join(self.folder, "owner")):
            time.sleep(0.1)
        self.kill()


def mounted(folder):
    return subprocess.run(["mount", "-t", "tmpfs", "-o", "size=4000m", "none", folder], capture_output=True).returncode == 0


def trouble(station, until, ends, can_fill, counts):
    """Kills the program, or fills the disk, now and then. Returns what went wrong."""
    chance, quarter = random.Random(7), max((until - time.monotonic()) / 4, 1)
    started = time.monotonic()
    while time.monotonic() < until:
        if int((time.monotonic() - started) / quarter) % 2 == 0:
            ends.set()
        else:
            ends.clear()
        time.sleep(min(chance.uniform(5, 20), max(until - time.monotonic(), 0)))
        if os.statvfs(station.folder).f_bavail * os.statvfs(station.folder).f_frsize < LEAST_ROOM:
            print(f"the file system is full of days after {time.monotonic() - started:.0f} s")
            return None
        if station.program.poll() is not None:
            return f"the program ended with {station.program.poll()}"
        if time.monotonic() > until - 3 or not ends.is_set():
            continue
        if can_fill and chance.random() < 0.4:
            status = station.fill()
            counts["full disks"] += 1
            if status != 3:
                return f"status {status} after a full disk"
        else:
            station.kill()
            counts["kills"] += 1
        station.start()
    return None


def lives(seen):
    """What is wrong with memory and descriptors of a process that served many days."""
    by_process = {}
    while not seen.empty():
        pid, day, took, memory, descriptors = seen.get()
        by_process.setdefault(pid, []).append((day, took, memory, descriptors))
    faults, pauses = [], [row[1] for rows in by_process.values() for row in rows]
    for rows in by_process.values():
        half = len(rows) // 2
        if half >= 3 and rows[-1][3] > max(row[3] for row in rows[:half]):
            faults.append(f"descriptors {[row[3] for row in rows]}")
        if half >= 3 and rows[-1][2] > 1.3 * max(row[2] for row in rows[:half]):
            faults.append(f"memory in KiB {[row[2] for row in rows]}")
    return faults, pauses


def run(fc, seconds, room):
    folder = os.path.join(room, "site")
    os.mkdir(folder)
    can_fill = mounted(folder)
    if not can_fill:
        print("no file system may be mounted: no disk is filled")
    try:
        return soaked(fc, seconds, room, folder, can_fill)
    finally:
        if can_fill:
            subprocess.run(["umount", "-l", folder], check=False)


def soaked(fc, seconds, room, folder, can_fill):
    port = free_ports(1)[0]
    os.mkdir(os.path.join(folder, "days"))
    points = ", ".join(["{release = 0, preset = 1}"] * POINTS)
    with open(os.path.join(folder, "site.toml"), "w") as file:
        file.write(SITE % (points, TILLS + 2, DISPENSERS, port))
    over, ends, seen, process = multiprocessing.Event(), multiprocessing.Event(), multiprocessing.Queue(), multiprocessing.Value("i", 0)
    door = lambda name: os.path.join(folder, name)
    logs = {f"till{n}": (door("till"), over, till_line, n) for n in range(1, TILLS + 1)}
    logs |= {f"disp{n}": (door("dispenser"), over, dispenser_line, n) for n in range(1, DISPENSERS + 1)}
    station = Station(fc, folder, process)
    peers = [multiprocessing.Process(target=sender, args=(*given, os.path.join(room, log))) for log, given in logs.items()]
    peers += [multiprocessing.Process(target=looker, args=(door("till"), over)) for _ in range(2)]
    peers += [multiprocessing.Process(target=owner, args=(door("owner"), over, ends, seen, process))]
    peers += [multiprocessing.Process(target=browser, args=(port, over))]
    for peer in peers:
        peer.start()
    counts = {"kills": 0, "full disks": 0}
    faults = [trouble(station, time.monotonic() + seconds, ends, can_fill, counts)]
    over.set()
    time.sleep(1)
    station.kill()
    station.settle()
    memory_faults, pauses = lives(seen)
    for peer in peers:
        peer.join(30)
        peer.kill()
    faults += memory_faults
    audit = subprocess.run([fc, "audit", "--days", "days", "site.toml"], cwd=folder, capture_output=True, text=True)
    if not audit.stdout.startswith("legal "):
        faults.append(f"the audit says {audit.stdout + audit.stderr!r}")
    kept, answered = kept_of(os.path.join(folder, "days"), logs), 0
    for log in logs:
        count, fault = compared(os.path.join(room, log), kept[log])
        answered += count
        faults.append(fault and f"{log}: {fault}")
    print(f"{audit.stdout.strip()}; answered lines of tills and dispensers: {answered}; {counts}")
    print(f"days ended by the owner: {len(pauses)}, pauses in ms:", *(f"{1000 * pause:.0f}" for pause in sorted(pauses)))
    with open(os.path.join(room, "said")) as file:
        said = [line.strip() for line in file if " is served" not in line and "serving" not in line]
    print("said:", *sorted(set(said))[:12], sep="\n  ")
    return [fault for fault in faults if fault]


def main():
    fc, seconds = os.path.abspath(sys.argv[1]), float(sys.argv[2]) if len(sys.argv) > 2 else 120
    room = tempfile.mkdtemp()
    try:
        faults = run(fc, seconds, room)
    finally:
        shutil.rmtree(room, ignore_errors=True)
    print("faults:", *faults or ["none"], sep="\n  ")
    sys.exit(1 if faults else 0)


main()
