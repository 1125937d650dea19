"""The commands that a document shows in its plain blocks, typed into one bash: what is printed stands below each."""

import os
import re
import shutil
import signal
import subprocess
import sys
import tempfile

from serving import free_ports

ROOT = os.path.join(os.path.dirname(os.path.abspath(__file__)), "..", "..")
DONE = "this command is done"
PORTS = ("7001", "7002", "7003", "7004")


def examples(text):
    """Each command of the blocks that are marked by nothing, with the lines that stand below it."""
    found, mark = [], None
    for line in text.splitlines():
        if line.startswith("```"):
            mark = line if mark is None else None
        elif mark == "```" and line.startswith("$ "):
            found.append((line[2:], []))
        elif mark == "```" and found:
            found[-1][1].append(line)
    return found


def plain(line):
    """Two figures differ from day to day: the moment of an entry, and which of the tills' passes a till has."""
    return re.sub(r"^(\d+) [12] \d{10} till", r"\1 PASS MOMENT till", line)


def answered(shell, command, wanted):
    """What bash prints of a command; a program in the background may speak a little later."""
    shell.stdin.write(f"{command}\necho {DONE}\n")
    shell.stdin.flush()
    printed, done = [], False
    while not done or len(printed) < len(wanted):
        line = shell.stdout.readline()
        if not line:
            break
        if line == f"{DONE}\n":
            done = True
        else:
            printed.append(line.rstrip("\n"))
    return printed


def shell_in(folder, fc, free):
    """A bash in a folder with `fc` and `examples`, whose served site has these ports."""
    shutil.copytree(os.path.join(ROOT, "examples"), os.path.join(folder, "examples"))
    os.symlink(os.path.abspath(fc), os.path.join(folder, "fc"))
    site = os.path.join(folder, "examples", "sites", "served.toml")
    with open(site) as file:
        served = moved(file.read(), free)
    with open(site, "w") as file:
        file.write(served)
    return subprocess.Popen(
        ["bash"],
        cwd=folder,
        env={**os.environ, "TMPDIR": folder},
        stdin=subprocess.PIPE,
        stdout=subprocess.PIPE,
        stderr=subprocess.STDOUT,
        text=True,
        start_new_session=True,
    )


def moved(text, free):
    return re.sub("|".join(PORTS), lambda port: free[port[0]], text)


def same(printed, wanted):
    return [plain(line) for line in printed] == [plain(line) for line in wanted]


def gave_up(_signal, _frame):
    raise TimeoutError


def walk(steps, fc, free):
    """Types these commands into one bash. Its folder is given up at the end, and nothing but `fc` and `examples` may
    stand in it."""
    with tempfile.TemporaryDirectory() as folder:
        shell = shell_in(folder, fc, free)
        try:
            for command, wanted in steps:
                printed = answered(shell, command, wanted)
                if not same(printed, wanted):
                    raise SystemExit(f"{command}\nprinted {printed}\nwanted  {wanted}")
            shell.stdin.close()
            shell.wait()
        except (SystemExit, TimeoutError):
            os.killpg(shell.pid, signal.SIGKILL)  # with what runs in its background
            raise
        left = set(os.listdir(folder)) - {"fc", "examples"}
        if any(not name.startswith("tmp.") for name in left):
            raise SystemExit(f"left behind: {left}")


def text_of(document):
    with open(os.path.join(ROOT, document)) as file:
        return file.read()


def follow(documents, fc, seconds=55):
    """Types the commands of these documents on ports that are free, one after another; then pastes all of them at once
    into another shell. If another process took one of the ports meanwhile, the commands wait for ever: then all is
    tried once more."""
    text = "\n".join(map(text_of, documents))
    signal.signal(signal.SIGALRM, gave_up)
    for is_last in (False, True):
        signal.alarm(seconds)
        try:
            for pasted in (False, True):
                free = dict(zip(PORTS, map(str, free_ports(len(PORTS)))))
                steps = examples(moved(text, free))
                if not steps:
                    raise SystemExit("no command was found")
                if pasted:
                    commands, lines = zip(*steps)
                    steps = [("\n".join(commands), [line for wanted in lines for line in wanted])]
                walk(steps, fc, free)
            print("the commands went as they are told")
            return
        except TimeoutError:
            if is_last:
                raise SystemExit(f"the commands didn't end in {seconds} seconds, twice") from None
