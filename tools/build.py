#!/usr/bin/env python3
"""Proves the crates of a program side by side, and builds the program.

usage: tools/build.py SOURCES NAME FOLDER    SOURCES: has crates.txt and crates/, which this call only reads
                                             NAME: the program's crate
                                             FOLDER: for what is proved, and for the program, FOLDER/NAME

Each crate is proved by the toolchain's `rattle build`, over what the crates below it state: --statements leaves out
their proofs, which nobody above reads. A crate is begun where a processor is idle, and memory allows it; FC_JOBS sets
another number of processes. Of the crates that can begin, the one with the longest chain up to the program comes first.
If all would wait for it, it gets more than one process, although two take at least a fifth of its time more.
What the toolchain prints goes to standard output, with a line 'build: NAME proved' at the end of each crate.
The exit status is 0 if all was proved and the program was built.
"""
import os
import shutil
import subprocess
import sys
import threading
import time
from concurrent.futures import FIRST_COMPLETED, ThreadPoolExecutor, wait

FEW = 2  # crates that can begin: if no more can, all would wait for the one that begins the longest chain
CHAIN_JOBS = 2  # processes for this crate
LAST_JOBS = 3  # processes for the program's own crate, beside which no other is left
MEMORY = 4_500_000_000  # bytes for each process
TARGET = "x86_64-unknown-linux-gnu"
C_LIBRARIES = ("libos_c.a", "liblibc_c.a")  # what the kit's libraries of the system are linked with


def timed(words, folder):
    """Runs a command in a folder: whether its status was 0, what it said, and in words the time that it took."""
    begun = time.monotonic()
    ran = subprocess.Popen(
        words, cwd=folder, stdin=subprocess.DEVNULL, stdout=subprocess.PIPE, stderr=subprocess.STDOUT, text=True,
        errors="replace",
    )
    said = ran.stdout.read()
    _, status, usage = os.wait4(ran.pid, 0)
    ran.returncode = os.waitstatus_to_exitcode(status)
    used = usage.ru_utime + usage.ru_stime
    return ran.returncode == 0, said, f"{time.monotonic() - begun:.0f} s, {used:.0f} processor seconds"


class Crate:
    """A crate: the crates and the kit's libraries that it depends on, its lines of code, and the most lines in a chain
    from it up to the program."""

    def __init__(self, folder, name, deps, of_kit):
        self.name, self.deps, self.of_kit = name, deps, of_kit
        self.lines, self.chain = 0, 0
        for path, _, names in os.walk(os.path.join(folder, "src")):
            for one in names:
                with open(os.path.join(path, one), "rb") as file:
                    self.lines += file.read().count(b"\n")


def crates_of(sources, top):
    """The crate `top` and all crates below it, by name, with their chains."""
    lines = {}
    with open(os.path.join(sources, "crates.txt"), encoding="utf-8") as file:
        for line in file:
            name, colon, deps = line.partition("#")[0].partition(":")
            if colon:
                lines[name.split()[0]] = deps.split()
    crates = {}

    def add(name, chain):
        if name not in crates:
            ours = [dep for dep in lines[name] if dep in lines]
            of_kit = ["std", *(dep for dep in lines[name] if dep not in lines)]
            crates[name] = Crate(os.path.join(sources, "crates", name), name, ours, of_kit)
        crate = crates[name]
        if chain + crate.lines > crate.chain:
            crate.chain = chain + crate.lines
            for dep in crate.deps:
                add(dep, crate.chain)

    add(top, 0)
    return crates


class Build:
    """A build: the sources, the folder for what is proved, the toolchain's kit, and the crates."""

    def __init__(self, sources, top, folder):
        self.sources, self.folder = os.path.realpath(sources), os.path.realpath(folder)
        self.top, self.crates = top, crates_of(sources, top)
        self.kit = os.path.dirname(os.path.dirname(os.path.realpath(shutil.which("rt"))))
        self.printing = threading.Lock()

    def of_kit(self, *path):
        return os.path.join(self.kit, *path)

    def words(self, name, jobs):
        """The command that proves a crate and writes its library, or for the program's crate its object file."""
        crate, is_top = self.crates[name], name == self.top
        words = [self.of_kit("bin", "rattle"), "build", "--crate-name", name]
        words += ["src/main.rt" if is_top else "src/lib.rt", "--jobs", str(jobs), "--links", f"{name}="]
        for dep in crate.of_kit:
            words += ["--extern", f"{dep}={self.of_kit('rlibs', dep)}.rlib"]
        for dep in crate.deps:
            words += ["--extern", f"{dep}={os.path.join(self.folder, dep)}.rlib"]
        words += ["-L", f"dependency={self.of_kit('rlibs')}", "-L", f"dependency={self.folder}"]
        words += ["--antt-project", self.of_kit("rattle", "logic", "antt-project.json")]
        words += ["--logic-built", self.of_kit("logic_built")]
        if is_top:
            words += ["--toolchain", self.of_kit("toolchain"), "--backend", "llvm"]
        else:
            words += ["--statements"]
        return [*words, "-o", os.path.join(self.folder, name + (".o" if is_top else ".rlib"))]

    def link(self):
        """Links the program and runs it for its version. Returns whether that went well, and what was said."""
        program = os.path.join(self.folder, self.top)
        words = [self.of_kit("bin", "rattle-link"), "--target", TARGET, "--toolchain", self.of_kit("toolchain")]
        words += ["-o", program, f"{program}.o", *(self.of_kit("c", one) for one in C_LIBRARIES)]
        is_linked, said, _ = timed(words, self.folder)
        if not is_linked:
            return False, said
        runs, version, _ = timed([program, "--version"], self.folder)
        return runs, said + version

    def prove(self, name, jobs):
        """Proves a crate, and returns whether it could be proved. The program's crate is also linked."""
        is_proved, said, took = timed(self.words(name, jobs), os.path.join(self.sources, "crates", name))
        if is_proved and name == self.top:
            is_proved, more = self.link()
            said += more
        verdict = "proved" if is_proved else "NOT PROVED"
        with self.printing:
            print(f"== {name}: {took}, processes: {jobs}\n{said}build: {name} {verdict}", flush=True)
        return is_proved

    def run(self, most):
        """Proves all crates, by some `most` processes at a time, up to the first that can't be proved. Returns whether
        all were proved."""
        left = sorted(self.crates.values(), key=lambda it: -it.chain)
        done, running = set(), {}
        with ThreadPoolExecutor(len(left)) as pool:
            while left or running:
                ready = [it for it in left if done.issuperset(it.deps)]
                idle = most - sum(jobs for _, jobs in running.values())
                longest = max(crate.chain for crate in [*left, *(crate for crate, _ in running.values())])
                for crate in ready:
                    if idle <= 0:
                        break
                    jobs = 1
                    if most > 2 and crate.chain == longest and len(ready) <= FEW:
                        jobs = LAST_JOBS if crate.name == self.top else CHAIN_JOBS
                    left.remove(crate)
                    running[pool.submit(self.prove, crate.name, jobs)] = crate, jobs
                    idle -= jobs
                for one in wait(running, return_when=FIRST_COMPLETED).done:
                    crate, _ = running.pop(one)
                    if one.result():
                        done.add(crate.name)
                    else:
                        left = []
        return len(done) == len(self.crates)


def most_processes(processors):
    asked = os.environ.get("FC_JOBS", "")
    if asked.isdigit() and int(asked) > 0:
        return int(asked)
    with open("/proc/meminfo", encoding="ascii") as file:
        free = next(int(line.split()[1]) * 1024 for line in file if line.startswith("MemAvailable"))
    return max(1, min(processors, free // MEMORY))


def main():
    sources, top, folder = sys.argv[1:]
    processors = len(os.sched_getaffinity(0))
    if not Build(sources, top, folder).run(most_processes(processors)):
        sys.exit(1)


main()
