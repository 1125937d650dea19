#!/usr/bin/env python3
"""Refuses the program each allocation, read, write and sync in turn, and checks what it reports. A call is refused only
once, or all calls of its kind are refused from it on. A play is also refused eight in a row.

usage: tools/faults.py PROGRAM [WORD]    WORD: only the calls whose name has it

tools/faults.c is preloaded, and refuses the Nth call of a kind. N goes from 1 up to the first run in which nothing is
refused. This has to hold:
- the exit status is that of the unhindered run, or 3, and no signal ends the run;
- with the unhindered status, all is printed that the unhindered run prints, else a beginning of it. A line of a script
  may be answered S31: then the other lines are answered as if that line weren't there;
- with status 3, a line on standard error says why. Each line there begins with 'fc: ' and has no debug text, or is the
  beginning of a line that the unhindered run prints there;
- the file of a kept journal has each answered line, and its whole lines are legal;
- a folder of days has its journals as they were, and of a new day each file whole or not at all; its audit is legal;
- a served site leaves no local socket, and no folder in which it makes one;
- a look at a served site is answered 200, or not at all, or 503 because memory ran out or because its health is asked;
- nothing that is printed, said, answered or written says that memory ran out, unless an allocation was refused;
- if each read and write is cut to one byte, all is as in the unhindered run.
If there is no C compiler (CC, or cc), nothing is tried, and that is printed. The last line is 'N passed, M failed': it
counts the calls, each with one kind and one way of refusing. A run at which this script fails is a fault too.
"""
import functools
import itertools
import multiprocessing
import os
import re
import select
import shlex
import shutil
import socket
import struct
import subprocess
import sys
import tempfile
import time
import traceback
from concurrent.futures import ThreadPoolExecutor

from shared import AS_ASKED, HERE, OUT_OF_MEMORY

KINDS = ("memory", "read", "write", "sync")
UNHINDERED = ("none", 0, "once")
CUT = ("cut", 0, "on")
COUNTS = struct.Struct("5Q")
PATIENCE = 120  # seconds that a call may take
CALLS_AT_ONCE = 8  # at most: each runs in a process of its own, and there may be few processes
RUNS_AT_ONCE = 16  # of one call: those of a served site wait more than they compute
SILENCE = 1  # seconds after which a peer that isn't answered hangs up, if the whole program sleeps
DEBUG = re.compile(r"::|\w+Fault\b|\w+Error\b|\b(Os|Custom|Error) \{|\bKind\(|panicked")

SITE = """tills = 2
price_slot = 2
prices = [1799, 1849, 0, 0, 0, 0, 0, 0]
point = [{release = 0, preset = 1}, {release = 0, preset = 1}]
counter = [{value = 2, bound = 100}]
"""
SERVE = """[serve]
till_port = %d
dispenser_port = %d
owner_port = %d
till_workers = 1
dispenser_workers = 1
connections = 1
"""
SOCKETS = ("till.socket", "dispenser.socket", "owner.socket")
SERVE_AT_SOCKETS = """[serve]
till_socket = "%s"
dispenser_socket = "%s"
owner_socket = "%s"
till_workers = 1
dispenser_workers = 1
connections = 1
"""
NOTHING_SET = "9500000000000000"
QUOTA = "b701000000000000b70200000100000085000000020000009500000000000000"
MORNING = f"""load 0 0 {AS_ASKED}
till 1 open 1
disp 1 up 1
till 1 release 1 8000
disp 1 order
disp 1 started
disp 1 flow 2500 1390
load 0 0 {NOTHING_SET}
disp 1 down
till 2 lock 1 1
till 1 clear 1 1
till 2 clear 1 1
no such line
"""
EVENING = f"""load2 2 0 {AS_ASKED}
till 2 price 1 1899
load 0 1 {QUOTA}
till 1 release 1 3000
till 9 show 1
till 1 show 1
"""
# A file is read in blocks of 4,096 bytes, and all answers are written before the next block is read. This script is
# filled up so that its first block ends with a line.
SCRIPT = MORNING + (4095 - len(MORNING)) * "x" + "\n" + EVENING


def write(path, text):
    with open(path, "w", encoding="utf-8") as file:
        file.write(text)


def text_of(path):
    with open(path, encoding="utf-8", errors="replace") as file:
        return file.read()


class Told:
    """What a run of the program printed and left, how many calls of each kind it made, and whether one was refused."""

    def __init__(self, status, printed, said, counts, journal="", answers=()):
        self.status, self.printed, self.said = status, printed, said
        self.calls, self.is_refused = dict(zip(KINDS, counts)), counts[4] == 1
        self.journal, self.answers, self.looks = journal, list(answers), []

    def seen(self):
        return self.status, self.printed, self.said, self.journal, self.answers

    def wants_of_memory(self):
        """All that says that memory ran out."""
        texts = (self.printed, self.said, self.journal, *(answer for _, answer in self.answers))
        lines = [line for text in texts for line in text.splitlines() if OUT_OF_MEMORY.search(line.encode())]
        return lines + [look for look in self.looks if look[0] != "/healthz" and look[1] == "503"]


class Shim:
    """The library that refuses calls, the program into which it is preloaded, and the folder of the runs."""

    def __init__(self, program, folder):
        self.program, self.folder = program, folder
        self.library = os.path.join(folder, "faults.so")
        self.numbers = itertools.count()

    def build(self, compiler):
        source = os.path.join(HERE, "tools", "faults.c")
        subprocess.run([compiler, "-shared", "-fPIC", "-O2", "-nostdlib", "-o", self.library, source], check=True)

    def path(self, name):
        """A path below the folder that no other run uses, in this process or another."""
        return os.path.join(self.folder, f"{name}{os.getpid()}.{next(self.numbers)}")

    def environment(self, fault, counts):
        """The environment in which the calls of `fault` are refused. The library writes its counts to `counts`."""
        with open(counts, "wb") as file:
            file.write(bytes(COUNTS.size))
        return {**os.environ, "LD_PRELOAD": self.library, "FAULTS": f"{fault[0]} {fault[1]} {fault[2]} {counts}"}

    @staticmethod
    def counted(counts):
        with open(counts, "rb") as file:
            counted = COUNTS.unpack(file.read())
        os.remove(counts)
        return counted

    def run(self, words, stdin="", fault=UNHINDERED, folder=None):
        counts = self.path("counts")
        try:
            ran = subprocess.run(
                [self.program, *words], input=stdin.encode(), capture_output=True, timeout=PATIENCE,
                cwd=folder or self.folder, env=self.environment(fault, counts),
            )
            ended = ran.returncode, ran.stdout, ran.stderr
        except subprocess.TimeoutExpired as late:
            ended = "none: it doesn't end", late.stdout or b"", late.stderr or b""
        status, printed, said = ended
        return Told(status, printed.decode(errors="replace"), said.decode(errors="replace"), self.counted(counts))


def ended_ill(told, plain):
    """What is wrong with a call's status or with what it says on standard error."""
    if told.status not in (plain.status, 3):
        return f"status {told.status}, unhindered {plain.status}"
    said = [line for line in told.said.splitlines() if not line.startswith(("fc: serving", "fc: nothing is kept"))]
    if told.status == 3 and not said:
        return "status 3 without a word"
    usage = plain.said.splitlines()
    ill = [
        line for line in said
        if (not line.startswith("fc: ") or DEBUG.search(line)) and not any(one.startswith(line) for one in usage)
    ]
    return f"it says {ill[0]!r}" if ill else None


def printed_ill(told, wanted, status):
    """What is wrong with what a call printed: it must be `wanted` if it ended with `status`, else a beginning of it."""
    if told.status == status and told.printed != wanted:
        return f"status {status}, and it prints {told.printed[-300:]!r}"
    if not wanted.startswith(told.printed):
        return f"it prints no beginning: {told.printed[-300:]!r}"
    return None


class Call:
    """A call of the program: its name here, its arguments and its standard input."""

    ways = ("once", "on")  # of refusing

    def __init__(self, name, *words, stdin=""):
        self.name, self.words, self.stdin = name, words, stdin

    def run(self, shim, fault=UNHINDERED):
        return shim.run(self.words, self.stdin, fault)

    def ill(self, _shim, told, plain):
        return ended_ill(told, plain) or printed_ill(told, plain.printed, plain.status)

    def command(self, shim, fault):
        """The command that makes this call by hand, in the folder of a run."""
        refusing = "FAULTS={} LD_PRELOAD=faults.so ".format(shlex.quote("{} {} {} counts".format(*fault)))
        return refusing + shlex.join([shim.program, *self.words])


class Play(Call):
    """A play, whose script has one answer a line."""

    ways = ("once", "few", "on")

    def __init__(self, name, *words, script, stdin=""):
        super().__init__(name, *words, stdin=stdin)
        self.script, self.without = script, {}

    def answered_without(self, shim, left_out):
        """The answers to the script without these of its lines."""
        if left_out not in self.without:
            lines = [line for at, line in enumerate(self.script.splitlines(True)) if at not in left_out]
            path = shim.path("script")
            write(path, "".join(lines))
            self.without[left_out] = shim.run(("play", "site.toml", path)).printed
        return self.without[left_out]

    def ill(self, shim, told, plain):
        answers = told.printed.splitlines(True)
        left_out = frozenset(at for at, answer in enumerate(answers) if answer == "S31\n")
        wanted = self.answered_without(shim, left_out) if left_out else plain.printed
        told.printed = "".join(answer for answer in answers if answer != "S31\n")
        return ended_ill(told, plain) or printed_ill(told, wanted, plain.status)


class Start(Call):
    """The start of a site that goes on from this journal, but can't open its ports, since another process has them."""

    def __init__(self, name, journal, *words):
        super().__init__(name, "serve", "--journal", "day.journal", *words, "../taken.toml")
        self.journal = journal

    def run(self, shim, fault=UNHINDERED):
        folder = shim.path("start")
        os.mkdir(folder)
        kept = os.path.join(folder, "day.journal")
        write(kept, self.journal)
        told = shim.run(self.words, "", fault, folder)
        told.journal = text_of(kept)
        shutil.rmtree(folder)
        return told

    def ill(self, shim, told, plain):
        if told.journal not in (self.journal, plain.journal):
            return f"the journal is then {told.journal[-300:]!r}"
        return super().ill(shim, told, plain)


class NewDay(Call):
    """The start of a new day, in a folder whose first day has this journal. The site can't open its ports, since
    another process has them."""

    def __init__(self, name, journal, *words):
        super().__init__(name, "serve", "--days", "days", "--new-day", *words, "../taken.toml")
        self.before = {"000001.journal": journal}

    def run(self, shim, fault=UNHINDERED):
        folder = shim.path("days")
        days = os.path.join(folder, "days")
        os.makedirs(days)
        for name, text in self.before.items():
            write(os.path.join(days, name), text)
        told = shim.run(self.words, "", fault, folder)
        told.days = {name: text_of(os.path.join(days, name)) for name in os.listdir(days) if not name.endswith(".new")}
        whole = told.days["000001.journal"]
        write(os.path.join(days, "000001.journal"), whole[: whole.rfind("\n") + 1])
        told.audited = shim.run(("audit", "--days", "days", "../taken.toml"), folder=folder)
        shutil.rmtree(folder)
        return told

    def ill(self, shim, told, plain):
        for name, text in told.days.items():
            if text not in (self.before.get(name), plain.days.get(name)):
                return f"{name} is then {text[-300:]!r}"
        if told.audited.status != 0:
            return f"an audit of the folder says {told.audited.printed!r}"
        return super().ill(shim, told, plain)


def is_asleep(process):
    """Whether each thread of a process waits for something other than a processor or a device."""
    try:
        threads = [text_of(f"/proc/{process}/task/{one}/stat") for one in os.listdir(f"/proc/{process}/task")]
    except OSError:  # a thread has just ended
        return False
    return all(thread.rpartition(")")[2].split()[0] == "S" for thread in threads)


class Peer:
    """A connection to a process that serves a site, by a port or a path, until it isn't answered any more."""

    def __init__(self, process, where):
        self.process, self.came = process, b""
        self.socket = socket.socket(socket.AF_UNIX if isinstance(where, str) else socket.AF_INET)
        self.socket.settimeout(PATIENCE)
        try:
            self.socket.connect(where if isinstance(where, str) else ("127.0.0.1", where))
        except OSError:
            self.close()

    def send(self, text):
        """Sends a text, and returns whether it was sent."""
        if self.socket is None:
            return False
        try:
            self.socket.sendall(text.encode())
        except OSError:
            return False
        return True

    def has_more(self):
        """Whether more comes, which is added to what came. Nothing will come if the process sleeps meanwhile."""
        until = time.monotonic() + PATIENCE
        try:
            while not select.select([self.socket], [], [], SILENCE)[0]:
                if is_asleep(self.process) or time.monotonic() > until:
                    return False
            piece = self.socket.recv(65536)
        except OSError:
            return False
        self.came += piece
        return piece != b""

    def ask(self, line):
        """The answer to a line, or None if there is none."""
        is_sent = self.send(f"{line}\n")
        while is_sent and b"\n" not in self.came and self.has_more():
            pass
        answer, end, self.came = self.came.partition(b"\n")
        if end:
            return answer.decode(errors="replace")
        self.close()
        return None

    def close(self):
        if self.socket is not None:
            self.socket.close()
            self.socket = None


def free_ports(count):
    sockets = [socket.create_server(("127.0.0.1", 0)) for _ in range(count)]
    ports = [one.getsockname()[1] for one in sockets]
    for one in sockets:
        one.close()
    return ports


LOOKS = ("/", "/metrics", "/healthz", "/journal")


def looked(process, port, target):
    """The status with which a look is answered, or None if it isn't answered."""
    peer = Peer(process, port)
    if peer.send(f"GET {target} HTTP/1.1\r\nhost: localhost\r\nconnection: close\r\n\r\n"):
        while peer.has_more():
            pass
    peer.close()
    return peer.came[9:12].decode(errors="replace") or None


class Served(Call):
    """A day of a till, a dispenser and the owner, by the lines of a script, over ports or over local sockets. With a
    page somebody looks at the site after every third line."""

    def __init__(self, name, *words, at_sockets=False, has_page=False):
        super().__init__(name, "serve", *words, "site.toml")
        self.kept = {"--journal": "day.journal", "--days": "days/000001.journal"}.get("".join(words[:1]))
        self.at_sockets, self.has_page = at_sockets, has_page

    def doors(self, folder):
        """The part of the configuration that names the doors, and where a peer finds them."""
        if self.at_sockets:
            return SERVE_AT_SOCKETS % SOCKETS, [os.path.join(folder, name) for name in SOCKETS]
        ports = free_ports(4 if self.has_page else 3)
        return SERVE % tuple(ports[:3]) + "".join(f"page_port = {port}\n" for port in ports[3:]), ports

    def run(self, shim, fault=UNHINDERED):
        folder, counts = shim.path("served"), shim.path("counts")
        os.makedirs(os.path.join(folder, "days"))
        journal, said = (os.path.join(folder, name) for name in (self.kept or "printed", "said"))
        for _ in range(20):
            serve, doors = self.doors(folder)
            write(os.path.join(folder, "site.toml"), SITE + serve)
            with open(os.path.join(folder, "printed"), "wb") as out, open(said, "wb") as errors:
                program = subprocess.Popen(
                    [shim.program, *self.words], stdin=subprocess.DEVNULL, stdout=out, stderr=errors, cwd=folder,
                    env=shim.environment(fault, counts),
                )
            answers, looks = self.talk(program, doors, said)
            if "Address already in use" not in text_of(said):
                break
        try:
            status = program.wait(timeout=PATIENCE)
        except subprocess.TimeoutExpired:
            program.kill()
            program.wait()
            status = "none: it doesn't end"
        printed = "" if not self.kept else text_of(os.path.join(folder, "printed"))
        kept = text_of(journal) if os.path.exists(journal) else ""
        told = Told(status, printed, text_of(said), shim.counted(counts), kept, answers)
        told.left = sorted(name for name in os.listdir(folder) if name.endswith(".socket"))
        told.looks = looks
        shutil.rmtree(folder)
        return told

    @staticmethod
    def talk(program, doors, said):
        """Sends each line to its door, once the doors are open. Returns the answered lines, with their answers, and
        the answers to looks."""
        until = time.monotonic() + PATIENCE
        while "fc: serving" not in text_of(said) and program.poll() is None and time.monotonic() < until:
            time.sleep(0.005)
        if program.poll() is not None:
            return [], []
        peers = {name: Peer(program.pid, door) for name, door in zip(("till", "disp", "load"), doors)}
        answers, looks = [], []
        for turn, line in enumerate(SCRIPT.splitlines()):
            answer = peers.get(line[:4], peers["till"]).ask(line)
            if answer is not None:
                answers.append((line, answer))
            if turn % 3 == 0:
                target = LOOKS[turn // 3 % len(LOOKS)]
                looks += [(target, looked(program.pid, page, target)) for page in doors[3:]]
        for peer in peers.values():
            peer.close()
        return answers, looks

    def ill(self, shim, told, plain):
        whole = told.journal[: told.journal.rfind("\n") + 1]
        audited = shim.run(("audit", "site.toml", "-"), whole)
        if audited.status != 0 or (told.status == 0 and whole != told.journal):
            return f"status {audited.status}: an audit says {audited.printed!r} of its journal, {told.journal[-300:]!r}"
        if (self.kept or told.status == 0) and (ill := self.missing(told, whole)):
            return ill
        if not told.is_refused and told.answers != plain.answers:
            return f"it was refused nothing, says {told.said[-300:]!r}, and answers {told.answers}"
        if told.left:
            return f"it leaves {told.left}"
        looks = {status for _, status in told.looks}
        if not looks <= {"200", "503", None} or not told.is_refused and looks - {"200"}:
            return f"looks are answered {told.looks}"
        return ended_ill(told, plain)

    @staticmethod
    def missing(told, whole):
        """The first answer that isn't in the journal, which is legal, as it was given."""
        entries = {}
        for line in whole.splitlines():
            number, _, _, rest = line.split(" ", 3)
            entries[number] = tuple(rest.split(" ; ")[0].split(" = "))
        for line, answer in told.answers:
            number, _, reply = answer.partition(" ")
            if number.isdigit() and entries.get(number) != (line, reply):
                return f"{line!r} was answered {answer!r}, and the journal has {entries.get(number)}"
        return None


def calls_of_files(shim):
    """Plays, audits, openings, pages, rows, and calls with a program file, some accepted and some refused. Makes their files."""
    def put(name, text):
        write(os.path.join(shim.folder, name), text)

    journal = shim.run((), f"{SITE}---\n{SCRIPT}journal\n").printed
    journal = "".join(line for line in journal.splitlines(True) if re.match(r"\d+ \d+ \d+ ", line))
    put("site.toml", SITE)
    put("wrong.toml", SITE.replace("tills = 2", "tills = 65"))
    put("day.script", SCRIPT)
    put("cut.script", SCRIPT + "till 1 sh")
    put("day.journal", journal)
    told = journal.replace("granted 8000", "granted 8001", 1)
    put("told.journal", told)
    put("moved.journal", re.sub(r"^3 ", "4 ", journal, count=1, flags=re.M))
    put("bad.journal", journal.replace(" = done", " = don", 1))
    put("loaded.journal", journal.replace(AS_ASKED, NOTHING_SET, 1))
    opening = shim.run(("carry", "site.toml", "day.journal")).printed
    put("day.opening", opening)
    put("bad.opening", opening.replace("cleared ", "cleared 0", 1))
    put("loaded.opening", opening.replace(AS_ASKED, NOTHING_SET, 1))
    put("rule.bpf", text_of(os.path.join(HERE, "examples", "rules", "quota_by_counter.bpf")))
    put("form.bpf", "r0 = 0\nfoo\n")
    put("label.bpf", "goto end\n")
    put("rule.hex", shim.run(("asm", "rule.bpf")).printed)
    put("call.hex", "61110000000000008500000001000000" + NOTHING_SET)
    put("odd.hex", "950")
    yield Play("play of files", "play", "site.toml", "day.script", script=SCRIPT)
    yield Play("play of a script that is cut", "play", "site.toml", "cut.script", script=SCRIPT + "till 1 sh")
    yield Play("play of standard input", stdin=f"{SITE}---\n{SCRIPT}", script=SCRIPT)
    yield Call("play at a wrong configuration", "play", "wrong.toml", "day.script")
    yield Call("audit", "audit", "site.toml", "day.journal")
    yield Call("audit of another reply", "audit", "site.toml", "told.journal")
    yield Call("audit of no entry", "audit", "site.toml", "bad.journal")
    yield Call("audit of a refused program", "audit", "site.toml", "loaded.journal")
    yield Call("audit of another number", "audit", "site.toml", "moved.journal")
    yield Call("audit of standard input", "audit", "site.toml", "-", stdin=journal)
    yield Call("audit of another reply from standard input", "audit", "site.toml", "-", stdin=told)
    yield Call("carry of another reply from standard input", "carry", "site.toml", "-", stdin=told)
    yield Call("audit from an opening", "audit", "--opening", "day.opening", "site.toml", "-")
    yield Call("audit from no opening", "audit", "--opening", "bad.opening", "site.toml", "-")
    yield Call("audit from a refused program", "audit", "--opening", "loaded.opening", "site.toml", "-")
    yield Call("carry", "carry", "site.toml", "day.journal")
    yield Call("carry from an opening", "carry", "--opening", "day.opening", "site.toml", "-")
    yield Call("carry of another reply", "carry", "site.toml", "told.journal")
    yield from calls_of_days(shim, journal, opening)
    yield Call("report", "report", "site.toml", "day.journal")
    yield Call("report from an opening", "report", "--opening", "day.opening", "site.toml", "-")
    yield Call("report of another reply", "report", "site.toml", "told.journal")
    yield Call("export of sales", "export", "sales", "site.toml", "day.journal")
    yield Call("export of decisions in JSON", "export", "--json", "decisions", "site.toml", "day.journal")
    yield Call("export from an opening", "export", "--opening", "day.opening", "events", "site.toml", "second.journal")
    yield Call("export of entries from standard input", "export", "events", "site.toml", "-", stdin=journal)
    yield Call("export of another reply", "export", "sales", "site.toml", "told.journal")
    yield Call("explanation", "explain", "site.toml", "day.journal", "8")
    yield Call("explanation from an opening", "explain", "--opening", "day.opening", "site.toml", "second.journal", "1")
    yield Call("explanation of no entry", "explain", "site.toml", "day.journal", "0")
    yield Call("explanation as JSON", "explain", "--json", "site.toml", "day.journal", "8")
    yield Call("export of no rows", "export", "prices", "site.toml", "day.journal")
    yield Call("asm", "asm", "rule.bpf")
    yield Call("asm of no form", "asm", "form.bpf")
    yield Call("asm of no label", "asm", "label.bpf")
    yield Call("dis", "dis", "rule.hex")
    yield Call("dis of units", "dis", "--units", "rule.hex")
    yield Call("dis of an odd digit", "dis", "odd.hex")
    yield Call("verify", "verify", "--counters", "1", "rule.hex")
    yield Call("verify of a wrong argument", "verify", "call.hex")
    yield Call("run", "run", "--counters", "1", "--trace", "rule.hex", "counter.0=2/3", "asked=900")
    yield Call("run as JSON", "run", "--json", "--counters", "1", "--trace", "rule.hex", "counter.0=2/3", "asked=900")
    yield Call("run of a wrong word", "run", "rule.hex", "asked")
    yield Call("run of a wrong argument", "run", "call.hex", "asked=900")
    yield Call("help", "--help")
    yield Call("words of no job", "asm", "--mask")


def calls_of_days(shim, journal, opening):
    """Audits of folders with two days, some accepted and some refused. Makes their files."""
    script = shim.path("script")
    write(script, "till 1 show 1\ntill 1 stop 1\njournal\n")
    played = shim.run(("play", "--opening", "day.opening", "site.toml", script)).printed
    second = "".join(played.splitlines(True)[2:])
    write(os.path.join(shim.folder, "second.journal"), second)
    days = {
        "days": (journal, opening, second),
        "differing": (journal, re.sub(r"versions \d+", "versions 9", opening), second),
        "told": (journal, opening, re.sub("= .*", "= S20", second, count=1)),
        "bad": (journal.replace(" = done", " = don", 1), opening, second),
        "without": (journal, "", second),
        "older": ("", opening.replace("cleared ", "cleared 0", 1), second),
    }
    for folder, texts in days.items():
        os.mkdir(os.path.join(shim.folder, folder))
        for name, text in zip(("000001.journal", "000002.opening", "000002.journal"), texts):
            if text:
                write(os.path.join(shim.folder, folder, name), text)
    write(os.path.join(shim.folder, "days", "000002.toml"), SITE)
    yield Call("audit of days", "audit", "--days", "days", "site.toml")
    yield Call("audit of days with another opening", "audit", "--days", "differing", "site.toml")
    yield Call("audit of days with another reply", "audit", "--days", "told", "site.toml")
    yield Call("audit of days with no entry", "audit", "--days", "bad", "site.toml")
    yield Call("audit of days without an opening", "audit", "--days", "without", "site.toml")
    yield Call("audit of later days from no opening", "audit", "--days", "older", "site.toml")


def calls_of_sites(shim, taken):
    """Starts of a site that goes on from a journal, at a port that another process has, and days that are served."""
    journal = text_of(os.path.join(shim.folder, "day.journal"))
    write(os.path.join(shim.folder, "taken.toml"), SITE + SERVE % (taken, *free_ports(2)))
    yield Start("start with a line that is cut, synced", journal + "21 1 0 ti", "--sync")
    yield Start("start with another reply", journal.replace("granted 8000", "granted 8001", 1))
    yield Start("start with no entry", journal.replace(" = done", " = don", 1))
    yield NewDay("start of a new day", journal + "21 1 0 ti")
    yield NewDay("start of a new day, synced", journal, "--sync")
    yield Served("served day, printed")
    yield Served("served day, kept", "--journal", "day.journal")
    yield Served("served day, synced", "--journal", "day.journal", "--sync")
    yield Served("served day in a folder", "--days", "days")
    yield Served("served day over sockets", at_sockets=True)
    yield Served("served day with a page", "--journal", "day.journal", has_page=True)


def words_of(error):
    """The words of an exception in a look at a run: it is a fault, and the other runs are tried all the same."""
    at = traceback.extract_tb(error.__traceback__)[-1]
    return f"no look at this run: {error!r}, in line {at.lineno} of {os.path.basename(at.filename)}"


def spurious_want(told, fault):
    """What is wrong if a run says that memory ran out although no allocation was refused."""
    wants = [] if fault[0] == "memory" and told.is_refused else told.wants_of_memory()
    return f"no allocation was refused, and it says {wants[:3]}" if wants else None


def ill_of(shim, call, plain, fault):
    """What is wrong with a call with this fault."""
    try:
        told = call.run(shim, fault)
        return spurious_want(told, fault) or call.ill(shim, told, plain)
    except Exception as error:  # whatever it is
        return words_of(error)


def look(shim, call):
    """Tries a call with each fault. Returns the number of runs, and what is wrong, by kind and way of refusing."""
    try:
        plain, cut = call.run(shim), call.run(shim, CUT)
    except Exception as error:  # whatever it is
        return 0, {("cut", "on"): [(CUT, words_of(error))]}
    is_same = cut.answers == plain.answers if plain.answers else cut.seen() == plain.seen()
    ill = spurious_want(plain, UNHINDERED) or spurious_want(cut, CUT)
    ill = ill or (None if is_same else f"it isn't as unhindered: {cut.seen()}")
    wrong, runs = {("cut", "on"): [(CUT, ill)] if ill else []}, 2
    with ThreadPoolExecutor(RUNS_AT_ONCE) as pool:
        for kind, how in itertools.product(KINDS, call.ways):
            faults = [(kind, at, how) for at in range(1, plain.calls[kind] + 2)]
            ill = pool.map(functools.partial(ill_of, shim, call, plain), faults)
            wrong[kind, how] = [(fault, what) for fault, what in zip(faults, ill) if what]
            runs += len(faults)
    return runs, wrong


def main():
    program, word = os.path.realpath(sys.argv[1]), "".join(sys.argv[2:3])
    compiler = shutil.which(os.environ.get("CC", "cc"))
    if compiler is None:
        print("faults.py: no C compiler is here (CC, or cc), so nothing was tried")
        print("0 passed, 0 failed")
        return
    passed = failed = runs = 0
    processes = multiprocessing.get_context("fork")
    with tempfile.TemporaryDirectory() as folder, socket.create_server(("127.0.0.1", 0)) as taken:
        shim = Shim(program, folder)
        shim.build(compiler)
        all_calls = [*calls_of_files(shim), *calls_of_sites(shim, taken.getsockname()[1])]
        # The last ones take longest, so they begin first.
        calls = [call for call in reversed(all_calls) if word in call.name]
        with processes.Pool(min(os.cpu_count() or 1, CALLS_AT_ONCE)) as pool:
            for call, (count, wrong) in zip(calls, pool.imap(functools.partial(look, shim), calls)):
                runs += count
                for (kind, how), found in wrong.items():
                    passed, failed = passed + (not found), failed + bool(found)
                    for fault, what in found[:3]:
                        print(f"{call.name}: {call.command(shim, fault)}\n  {what}")
    print(f"faults.py: {runs} runs")
    print(f"{passed} passed, {failed} failed")
    sys.exit(failed != 0 or passed == 0)


main()
