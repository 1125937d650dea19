"""Looks at a served site through its page's port, as a browser, a monitor or a script does. Requests are written byte
by byte, and answers are read strictly."""

import html.parser
import os
import re
import shutil
import socket
import subprocess
import sys

HERE = os.path.dirname(os.path.abspath(__file__))
sys.path.insert(0, os.path.join(HERE, "..", "serve"))
sys.path.insert(0, os.path.join(HERE, "..", "..", "tools"))
from metrics import Metrics
from serving import PATIENCE, Peer, Served, free_ports, no_syncs

STATUS_LINE = re.compile(r"HTTP/1\.[01] ([1-5][0-9][0-9]) [ -~]*")


class Answer:
    """An answer: its status, its headers by their names in small letters, and its body."""

    def __init__(self, head, body):
        first, *lines = head.decode("ascii").split("\r\n")
        it = STATUS_LINE.fullmatch(first)
        if not it:
            raise SystemExit(f"no status line: {first!r}")
        self.status, self.headers, self.body = int(it[1]), {}, body
        for line in lines:
            name, colon, value = line.partition(":")
            if not colon or name.lower() in self.headers:
                raise SystemExit(f"no header, or one that is there twice: {line!r}")
            self.headers[name.lower()] = value.strip()

    @property
    def text(self):
        return self.body.decode()


def exchanged(port, request, shut=False):
    """Sends these bytes on a connection of its own, and returns all that comes until its end."""
    with socket.create_connection(("127.0.0.1", port), timeout=PATIENCE) as connection:
        try:
            connection.sendall(request)
            if shut:
                connection.shutdown(socket.SHUT_WR)
        except OSError:  # it was answered, and closed, before all was sent
            pass
        came = b""
        try:
            while piece := connection.recv(65536):
                came += piece
        except ConnectionResetError:
            pass
        return came


def answer_of(came, bodiless=False):
    """The one answer that these bytes are. Without a body it still says how long that would be."""
    head, ends, body = came.partition(b"\r\n\r\n")
    if not ends:
        raise SystemExit(f"no answer: {came[:200]!r}")
    answer = Answer(head, body)
    if not bodiless and answer.headers.get("content-length") != str(len(body)):
        raise SystemExit(f"{len(body)} bytes came, with the headers {answer.headers}")
    if bodiless and body:
        raise SystemExit(f"a body came: {body[:200]!r}")
    return answer


def ask(port, target, method="GET", host="localhost", more=""):
    """Asks for one thing on a connection of its own."""
    request = f"{method} {target} HTTP/1.1\r\nhost: {host}\r\n{more}connection: close\r\n\r\n"
    return answer_of(exchanged(port, request.encode()), method == "HEAD")


def look(port, target):
    """What is answered with status 200, as text."""
    answer = ask(port, target)
    if answer.status != 200:
        raise SystemExit(f"{target} was answered {answer.status}: {answer.text!r}")
    return answer.text


def metrics(port):
    """The metrics, which must be without a fault."""
    read = Metrics(look(port, "/metrics"))
    if read.faults:
        raise SystemExit(f"metrics: {read.faults}")
    return read


def followed(port, after=0):
    """The journal behind an entry, by as many calls as it takes, and how many lines each of them gave."""
    lines, counts = [], []
    while True:
        text = look(port, f"/journal?after={after + len(lines)}")
        counts.append(text.count("\n"))
        if not text:
            return lines, counts
        lines += text.removesuffix("\n").split("\n")


SITE = """tills = 2
price_slot = 2
prices = [1799, 1849, 0, 0, 0, 0, 0, 0]
point = [{release = 0, preset = 1}, {release = 0, preset = 1}]
counter = [{value = 2, bound = 9000}, {value = 0, bound = 0}, {value = 0, bound = 1}]
"""
# The names of the states, by their numbers from 1 on.
STATES = ("inoperative closed idle calling authorised started suspended_started fuelling suspended_fuelling").split()
STATES = [name.replace("_", " ") for name in STATES]


class Station:
    """A site that is served in a folder, at ports that are free, with a page or without. Further words stand on the
    command line. `ask` connects to a door when something is asked there first."""

    def __init__(self, fc, folder, page=True, site=SITE, workers=(1, 1), connections=1, words=(), prepare=None):
        self.peers = {}
        for _ in range(10):
            ports = free_ports(4)
            self.ports = dict(zip(("till", "dispenser", "owner", "page"), ports))
            config = (
                f"{site}[serve]\ntill_port = {ports[0]}\ndispenser_port = {ports[1]}\nowner_port = {ports[2]}\n"
                f"till_workers = {workers[0]}\ndispenser_workers = {workers[1]}\nconnections = {connections}\n"
            )
            config += f"page_port = {ports[3]}\n" if page else ""
            self.served = Served(fc, config, folder, words, prepare)
            if "fc: serving" in self.served.said:
                return
            if self.served.end()[0] != 3:
                raise SystemExit(f"fc serve said {self.served.said!r}")
        raise SystemExit("no free ports")

    @property
    def said(self):
        """What standard error said until the doors were open, with words in place of the ports."""
        said = self.served.said
        for name, port in self.ports.items():
            said = said.replace(str(port), f"{name.upper()}_PORT")
        return said

    def peer(self, door, which=0):
        if (door, which) not in self.peers:
            self.peers[door, which] = Peer(self.ports[door])
        return self.peers[door, which]

    def ask(self, line, which=0):
        """Sends a line to the door that takes it, and returns the answer."""
        door = {"till": "till", "disp": "dispenser"}.get(line.split(" ", 1)[0], "owner")
        return self.peer(door, which).ask(line)

    def look(self, target):
        return look(self.ports["page"], target)

    def metrics(self):
        return metrics(self.ports["page"])

    def page(self):
        return Page(self.look("/"))

    def page_in_browser(self):
        """The page as Chromium has it. Where there is none, that is said, and it is the page as it is sent."""
        browser = shutil.which("chromium") or shutil.which("chromium-browser")
        if not browser:
            print("left out: there is no chromium here", file=sys.stderr)
            return self.page()
        words = [browser, "--headless", "--no-sandbox", "--disable-gpu", "--dump-dom"]
        words.append(f"http://127.0.0.1:{self.ports['page']}/")
        return Page(subprocess.run(words, capture_output=True, text=True, timeout=PATIENCE).stdout)

    def end(self):
        """Connects to the doors where nobody was yet, and hangs up everywhere. The status, what was printed, and what
        standard error said behind the line of the doors."""
        for door in ("till", "dispenser", "owner"):
            self.peer(door)
        for peer in self.peers.values():
            peer.close()
        return self.served.end()


class Page(html.parser.HTMLParser):
    """The rows of the table in each section of a page, by the table's name or else the section's, and apart from them the columns' names;
    the headline's figures; and what the page says of being well. A tag that isn't closed, a script, or anything that is
    loaded from elsewhere ends the case."""

    VOID = ("meta", "link", "img", "br", "hr", "input")
    LOADED = ("script", "link", "img", "iframe", "object", "embed")

    def __init__(self, text):
        super().__init__()
        self.tables, self.columns, self.figures = {}, {}, {}
        self.well, self.renewed, self.open, self.section, self.name, self.piece = None, None, [], None, None, None
        self.feed(text)
        self.close()
        if self.open or not text.startswith("<!DOCTYPE html>") or not text.endswith("</html>\n"):
            raise SystemExit(f"the page isn't whole: {self.open}, {text[:40]!r}, {text[-40:]!r}")

    def handle_starttag(self, tag, attrs):
        attrs = dict(attrs)
        if tag in self.LOADED or "src" in attrs or "href" in attrs or any(it.startswith("on") for it in attrs):
            raise SystemExit(f"the page has a {tag} with {attrs}")
        if tag == "meta" and attrs.get("http-equiv") == "refresh":
            self.renewed = attrs["content"]
        if tag not in self.VOID:
            self.open.append(tag)
        if tag == "section" or (tag == "table" and "id" in attrs):
            self.section = attrs["id"]
            self.tables[self.section], self.columns[self.section] = [], []
        elif tag == "tr":
            self.tables[self.section].append([])
        elif tag in ("td", "th", "span", "b", "p"):
            self.piece = ""

    def handle_data(self, data):
        if self.piece is not None:
            self.piece += data

    def handle_endtag(self, tag):
        if not self.open or self.open.pop() != tag:
            raise SystemExit(f"</{tag}> closes nothing")
        if tag in ("td", "th"):
            self.tables[self.section][-1].append(self.piece)
        elif tag == "thead":
            self.columns[self.section] = self.tables[self.section].pop()
        elif tag == "span":
            self.name = self.piece
        elif tag == "b" and self.name is not None:
            self.figures[self.name] = self.piece
        elif tag == "p" and self.piece and self.section is None and self.well is None:
            self.well = self.piece if "well" in self.piece else None


def money(hundredths):
    """An amount in cents as money, or a volume in centilitres in litres."""
    return f"{hundredths // 100:,}.{hundredths % 100:02}"


def price(thousandths):
    return f"{thousandths // 1000:,}.{thousandths % 1000:03}"
