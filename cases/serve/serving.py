"""A site served over loopback, for the cases and benchmarks that drive it: free ports, the program, its peers."""

import ctypes
import os
import select
import socket
import struct
import subprocess
import tempfile
import time

PATIENCE = 60  # seconds that any one wait may take, also on a machine that does much else

# Programs of rules: what is asked; 5000; and 1, where that can be added to counter 0.
AS_ASKED = "79101800000000009500000000000000"
AT_MOST_5000 = "b7000000881300009500000000000000"
COUNTED = "b701000000000000b70200000100000085000000020000009500000000000000"


def free_ports(count):
    """Ports that nobody has at this moment."""
    sockets = [socket.socket() for _ in range(count)]
    for one in sockets:
        one.bind(("127.0.0.1", 0))
    ports = [one.getsockname()[1] for one in sockets]
    for one in sockets:
        one.close()
    return ports


def lines_until_open(program):
    """What standard error says up to the line of the doors, or to its end."""
    until = time.monotonic() + PATIENCE
    said = b""
    while not (said.endswith(b"\n") and b"fc: serving" in said) and time.monotonic() < until:
        if select.select([program.stderr], [], [], 1)[0]:
            piece = os.read(program.stderr.fileno(), 4096)
            if not piece:
                break
            said += piece
    return said.decode()


def no_syncs():
    """For `prepare`: each sync of a file's data fails with EIO in this process, as on a disk that is broken."""
    fdatasync = {"x86_64": 75, "aarch64": 83, "riscv64": 83}[os.uname().machine]
    # Load the call's number; if it is this one, refuse it, or else allow it.
    steps = ((0x20, 0, 0, 0), (0x15, 0, 1, fdatasync), (0x06, 0, 0, 0x00050005), (0x06, 0, 0, 0x7FFF0000))
    packed = b"".join(struct.pack("HBBI", *step) for step in steps)
    program = ctypes.create_string_buffer(packed, len(packed))
    described = ctypes.create_string_buffer(struct.pack("HxxxxxxP", len(steps), ctypes.addressof(program)))
    library = ctypes.CDLL(None, use_errno=True)
    no_new_rights, by_filter = 38, 22
    if library.prctl(no_new_rights, 1, 0, 0, 0) or library.prctl(by_filter, 2, described, 0, 0):
        raise OSError(ctypes.get_errno(), "no filter of calls")


class Site:
    """`fc serve` over a configuration without its `[serve]`, on ports that are free. Another program may take a port
    between the choice and the start: then others are chosen. `kept` is the file that keeps the journal, if one does,
    and is synced where `synced` says so; `prepare` is called in the new process before the program."""

    def __init__(self, fc, site, till_workers, dispenser_workers, connections, kept=None, synced=False, prepare=None):
        self.fc = fc
        self.told = []  # what standard error said before the ports were open
        self.folder = tempfile.TemporaryDirectory()
        self.config = os.path.join(self.folder.name, "site.toml")
        for _ in range(10):
            self.till, self.dispenser, self.owner = free_ports(3)
            with open(self.config, "w") as file:
                file.write(
                    f"{site}\n[serve]\ntill_port = {self.till}\ndispenser_port = {self.dispenser}\n"
                    f"owner_port = {self.owner}\ntill_workers = {till_workers}\n"
                    f"dispenser_workers = {dispenser_workers}\nconnections = {connections}\n"
                )
            self.journal = open(os.path.join(self.folder.name, "journal"), "w+b")
            self.program = subprocess.Popen(
                [fc, "serve", *(["--journal", kept] if kept else []), *(["--sync"] if synced else []), self.config],
                stdin=subprocess.DEVNULL,
                stdout=self.journal,
                stderr=subprocess.PIPE,
                preexec_fn=prepare,
            )
            said = lines_until_open(self.program)
            if said.endswith(
                f"fc: serving on 127.0.0.1: tills {self.till}, dispensers {self.dispenser}, owner {self.owner}\n"
            ):
                self.told = said.splitlines()[:-1]
                return
            self.program.kill()
            if self.program.wait() != 3:
                raise SystemExit(f"fc serve said {said!r}")
        raise SystemExit("no free ports")

    def end(self):
        """The status, once all workers have ended, and the journal."""
        status = self.program.wait(timeout=PATIENCE)
        self.journal.seek(0)
        return status, self.journal.read().decode()

    def audit(self):
        told = subprocess.run(
            [self.fc, "audit", self.config, self.journal.name], capture_output=True, timeout=PATIENCE, text=True
        )
        return told.returncode, told.stdout


class Served:
    """`fc serve` over a whole configuration, run in a folder, where the paths of its local sockets begin, with further
    words of the command line, and of a command before it. `said` is what standard error says up to the line of the doors,
    or to its end."""

    def __init__(self, fc, config, folder, words=(), prepare=None, before=()):
        with open(os.path.join(folder, "site.toml"), "w") as file:
            file.write(config)
        self.journal = tempfile.TemporaryFile("w+b")
        self.program = subprocess.Popen(
            [*before, fc, "serve", *words, "site.toml"],
            cwd=folder,
            stdin=subprocess.DEVNULL,
            stdout=self.journal,
            stderr=subprocess.PIPE,
            preexec_fn=prepare,
        )
        self.said = lines_until_open(self.program)

    def end(self):
        """The status, what was printed, and what standard error said behind the line of the doors."""
        status = self.program.wait(timeout=PATIENCE)
        self.journal.seek(0)
        return status, self.journal.read().decode(), self.program.stderr.read().decode()

    def stop(self):
        self.program.kill()
        self.program.wait()


def served_at(fc, config_of, count, folder):
    """`fc serve` over the configuration that `config_of` gives of so many ports that are free, and these ports. Another
    program may take one between the choice and the start: then others are chosen."""
    for _ in range(10):
        ports = free_ports(count)
        site = Served(fc, config_of(*ports), folder)
        if "fc: serving" in site.said:
            return site, ports
        if site.end()[0] != 3:
            raise SystemExit(f"fc serve said {site.said!r}")
    raise SystemExit("no free ports")


def lets_others_in(folder):
    """Whether other users come to what is in a folder: whether it and each folder above it let them through."""
    folder = os.path.realpath(folder)
    while os.stat(folder).st_mode & 1:
        if folder == os.path.dirname(folder):
            return True
        folder = os.path.dirname(folder)
    return False


class Peer:
    """A connection to a port or to a path, and what was said and heard on it."""

    def __init__(self, where):
        if isinstance(where, str):
            self.socket = socket.socket(socket.AF_UNIX)
            self.socket.settimeout(PATIENCE)
            self.socket.connect(where)
        else:
            self.socket = socket.create_connection(("127.0.0.1", where), timeout=PATIENCE)
            self.socket.setsockopt(socket.IPPROTO_TCP, socket.TCP_NODELAY, 1)
        self.reader = self.socket.makefile("rb")
        self.said = []
        self.heard = []

    def ask(self, *lines, piece=None):
        """Sends lines at once, or so many bytes at a time, and reads as many answers."""
        text = "".join(line + "\n" for line in lines).encode()
        for at in range(0, len(text), piece or len(text)):
            self.socket.sendall(text[at : at + (piece or len(text))])
        for line in lines:
            answer = self.reader.readline().decode()
            if not answer.endswith("\n"):
                raise SystemExit(f"{line!r} was answered by {answer!r}")
            self.said.append(line)
            self.heard.append(answer[:-1])
        return self.heard[-1]

    def close(self):
        self.reader.close()
        self.socket.close()
