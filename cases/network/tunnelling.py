"""A site whose tills are behind tunnels, over loopback, for the cases and benchmarks that drive it: the files of
examples/network with ports that are free and folders of their own, `fc serve`, stunnel's ends, and who speaks through
them."""

import atexit
import os
import re
import shutil
import signal
import socket
import subprocess
import sys
import tempfile
import time

HERE = os.path.dirname(os.path.abspath(__file__))
sys.path.insert(0, os.path.join(HERE, "..", "serve"))
from serving import PATIENCE, free_ports

NETWORK = os.path.join(HERE, "..", "..", "examples", "network")
STUNNEL = shutil.which("stunnel4") or shutil.which("stunnel")
SERVICES = {"till1": "7101", "till2": "7102", "pumps": "7201"}  # what stands in controller.conf


def begin(run, seconds):
    """Leaves a case out where this machine is without what it needs: what is wanted of it is printed, and standard
    error says why. Else it has so many seconds, and what it started is ended with it."""
    for name, is_there in (("stunnel", STUNNEL), ("openssl", shutil.which("openssl"))):
        if not is_there:
            with open(os.path.join(os.path.dirname(os.path.abspath(run)), "stdout")) as wanted:
                print(wanted.read(), end="")
            print(f"left out: there is no {name} here", file=sys.stderr)
            raise SystemExit(0)
    signal.signal(signal.SIGALRM, lambda *_: sys.exit(f"not done within {seconds} seconds"))
    signal.alarm(seconds)


def started(words, **how):
    """A program that is killed at the end of the case, if it still runs."""
    program = subprocess.Popen(words, stdin=subprocess.DEVNULL, **how)
    atexit.register(program.kill)
    return program


def read(path):
    with open(path) as file:
        return file.read()


def made_keys(*words):
    subprocess.run([os.path.join(NETWORK, "make-keys.sh"), *words], stdout=subprocess.DEVNULL, check=True)


def stunnel(folder, name, text):
    """stunnel over a configuration, once it accepts connections; None where it ended before."""
    config, said = os.path.join(folder, f"{name}.conf"), os.path.join(folder, f"{name}.said")
    with open(config, "w") as file:
        file.write(f"debug = info\n{text}")
    with open(said, "w") as errors:
        program = started([STUNNEL, config], stdout=errors, stderr=errors)
    until = time.monotonic() + PATIENCE
    while "Accepting new connections" not in read(said):
        if program.poll() is not None or time.monotonic() > until:
            program.kill()
            program.wait()
            return None
        time.sleep(0.01)
    return program


def stunnel_on_a_port(folder, name, text_for):
    """The port of stunnel over the configuration that `text_for` makes for a port. Another program may take a port
    between the choice and the start: then another is chosen."""
    for _ in range(10):
        port = free_ports(1)[0]
        if stunnel(folder, name, text_for(port)):
            return port
    raise SystemExit(f"{name} said {read(os.path.join(folder, f'{name}.said'))}")


def changed(text, changes):
    """A text in which each of some pieces, which have to stand in it, is another."""
    for old, new in changes.items():
        if old not in text:
            raise SystemExit(f"'{old}' doesn't stand in the file")
        text = text.replace(old, new)
    return text


def end_of(file, changes):
    """A configuration of examples/network with changes. It stays the user that runs the case."""
    return re.sub(r"^set[ug]id = .*\n", "", changed(read(os.path.join(NETWORK, file)), changes), flags=re.MULTILINE)


class Station:
    """The site of examples/network, with keys and with the controller's end of the tunnels. Each door serves so many
    connections, and its lines are read as fast as they come; `further` is more text of its `[serve]`."""

    def __init__(self, fc, connections, further=""):
        self.room = tempfile.TemporaryDirectory()
        self.folder = self.room.name
        self.keys = os.path.join(self.folder, "keys")
        self.doors = os.path.join(self.folder, "doors")
        self.ends = 0
        os.mkdir(self.doors)
        made_keys(self.keys, *SERVICES)
        site = {
            "/run/fc": self.doors,
            'connections = "unlimited"\n': f"connections = {connections}\n{further}",
            "lines_per_second = 50\n": "",
            "lines_per_second = 100\n": "",
        }
        self.config = os.path.join(self.folder, "site.toml")
        with open(self.config, "w") as file:
            file.write(changed(read(os.path.join(NETWORK, "site.toml")), site))
        self.journal = open(os.path.join(self.folder, "journal"), "w+")
        self.program = started([fc, "serve", self.config], stdout=self.journal, stderr=subprocess.PIPE)
        unkept, self.told = (self.program.stderr.readline().decode() for _ in range(2))
        if not self.told.startswith("fc: serving"):
            raise SystemExit(f"fc serve said {unkept + self.told!r}")
        self.open_controller()

    def open_controller(self):
        for _ in range(10):
            self.ports = dict(zip(SERVICES, free_ports(len(SERVICES))))
            self.controller = self.controller_end()
            if self.controller:
                return
        raise SystemExit(f"the controller's end said {read(os.path.join(self.folder, 'controller.said'))}")

    def controller_end(self):
        changes = {f"192.168.7.1:{was}": f"127.0.0.1:{self.ports[name]}" for name, was in SERVICES.items()}
        changes |= {"/etc/fc/tunnel": self.keys, "/run/fc": self.doors}
        return stunnel(self.folder, "controller", end_of("controller.conf", changes))

    def open_controller_again(self):
        """As after a change of what it accepts. The tills' ends know its ports, so they stay; another program that took
        one meanwhile has some seconds to leave it."""
        self.controller.kill()
        self.controller.wait()
        for _ in range(10):
            self.controller = self.controller_end()
            if self.controller:
                return
            time.sleep(0.5)
        raise SystemExit(f"the controller's end said {read(os.path.join(self.folder, 'controller.said'))}")

    def end(self):
        """The status, once every door has served its connections, the journal, and what is left of the doors."""
        status = self.program.wait(timeout=PATIENCE)
        self.journal.seek(0)
        return status, self.journal.read(), os.listdir(self.doors)


def till_end(station, port, keys=None, name="till1", further=None):
    """The port of a till's end with the keys of this folder and name, which connects to such a port; `further` are more
    changes of its file."""
    changes = {
        "/etc/fc/tunnel/till1": os.path.join(keys or station.keys, name),
        "/etc/fc/tunnel/authority": os.path.join(station.keys, "authority"),
        "192.168.7.1:7101": f"127.0.0.1:{port}",
    }
    text = changed(end_of("till.conf", changes), further or {})
    station.ends += 1
    return stunnel_on_a_port(
        station.folder, f"end{station.ends}", lambda here: changed(text, {"127.0.0.1:7001": f"127.0.0.1:{here}"})
    )


class Line:
    """A connection to a port of this machine, or to a socket: a line, and its answer."""

    def __init__(self, where):
        if isinstance(where, int):
            self.socket = socket.create_connection(("127.0.0.1", where), timeout=PATIENCE)
            self.socket.setsockopt(socket.IPPROTO_TCP, socket.TCP_NODELAY, 1)
        else:
            self.socket = socket.socket(socket.AF_UNIX)
            self.socket.settimeout(PATIENCE)
            self.socket.connect(where)
        self.reader = self.socket.makefile("rb")

    def ask(self, line):
        """The answer, or that the connection was closed; one that stays open and silent ends the case."""
        try:
            if line:
                self.socket.sendall(f"{line}\n".encode())
            answer = self.reader.readline().decode()
        except (ConnectionResetError, BrokenPipeError):
            return "closed"
        return answer.rstrip("\n") or "closed"

    def close(self):
        self.reader.close()
        self.socket.close()


def asked(where, *lines):
    """The answers of a connection of its own."""
    line = Line(where)
    answers = [line.ask(one) for one in lines]
    line.close()
    return ", ".join(answers)
