"""A connection to the site, for a till or a dispenser: a line is sent, and its answer is read."""

import socket
import sys
import time

PATIENCE = 10  # seconds that an answer, or a connection, may take
PAUSE = 0.2  # seconds between two tries, and between two looks


class Lost(Exception):
    """No answer came: whether the line was done has to be looked up."""


def numbers(count, usage):
    """The numbers behind the first word of the command line. Where there are others, the usage is printed."""
    words = sys.argv[2:]
    if len(words) != count or not all(word.isdecimal() for word in words):
        raise SystemExit(usage)
    return map(int, words)


def connected(where):
    """Connects to the port of 127.0.0.1, or to the path of a local socket, that `where` is."""
    if where.isdigit():
        made = socket.create_connection(("127.0.0.1", int(where)), timeout=PATIENCE)
        made.setsockopt(socket.IPPROTO_TCP, socket.TCP_NODELAY, 1)
        return made
    made = socket.socket(socket.AF_UNIX)
    made.settimeout(PATIENCE)
    made.connect(where)
    return made


class Controller:
    """The site. A connection that breaks is made anew, and a new day is told."""

    def __init__(self, where):
        self.where = where
        self.day = None
        self.connect()

    def connect(self):
        until = time.monotonic() + PATIENCE
        while True:
            try:
                self.socket = connected(self.where)
                self.answers = self.socket.makefile("r", encoding="ascii", newline="\n")
                day = self.ask("look day")[1]
                break
            except (OSError, Lost) as error:
                if time.monotonic() > until:
                    raise SystemExit(f"no connection to {self.where}: {error}")
                time.sleep(PAUSE)
        if self.day not in (None, day):
            print(f"day {day} has begun: entries count from 1 again")
        self.day = day

    def ask(self, line):
        """Sends a line, and returns the words of its answer, without the number of entries."""
        try:
            self.socket.sendall(f"{line}\n".encode("ascii"))
            answer = self.answers.readline()
        except OSError as error:
            raise Lost(error)
        if not answer.endswith("\n"):
            raise Lost(f"no answer to '{line}'")
        words = answer.split()
        return words[1:] if words[0].isdigit() else words

    def look(self, what):
        """The words behind `look`'s own in its answer. A look enters nothing, so one that was lost is sent again."""
        try:
            answer = self.ask(f"look {what}")
        except Lost:
            self.connect()
            answer = self.ask(f"look {what}")
        if answer[0] != what.split()[0]:
            raise SystemExit(f"look {what}: {' '.join(answer)}")
        return answer[1:]

    def do(self, line, was_done):
        """Sends a line that is to be done once. Where its answer is lost, `was_done` looks whether it was done."""
        try:
            return self.ask(line)
        except Lost:
            self.connect()
        return ["done"] if was_done() else self.ask(line)

    def prices(self):
        """The prices of products 1 to 8, in thousandths a litre; nozzle n has product n."""
        return list(map(int, self.look("prices")))

    def point(self, number):
        """State, nozzle, cents, centilitres and limit of a point."""
        return tuple(map(int, self.look(f"point {number}")[:5]))

    def unpaid(self, point):
        """The unpaid transactions of a point, by their numbers: product, price, centilitres, cents, holder."""
        rows = " ".join(self.look(f"unpaid {point}"))
        if rows == "none":
            return {}
        numbers = [list(map(int, row.split())) for row in rows.split("; ")]
        return {row[1]: tuple(row[2:]) for row in numbers}
