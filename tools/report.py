#!/usr/bin/env python3
"""Makes pages of journals by fc report, and compares their figures with a count over the journal's lines.

usage: tools/report.py PROGRAM

The journals are an empty one, that of a day with two tills, two rules, unpaid deliveries and refusals, one of price
changes, of which one has no moment, one of price changes without moments, one of two moments, and a long one of
bench/script.awk. If tidy is installed, it must find no fault in a page. If Chromium is installed, it must open each
page and show the headline. If one isn't installed, that is printed. The last line is 'N passed, M failed'.
"""
import html.parser
import os
import re
import shutil
import subprocess
import sys
import tempfile

from shared import AS_ASKED, HERE, Count, played, text_of

MOST_BYTES = 2_000_000
# The program of a rule that denies.
DENIED = "b7000000000000009500000000000000"
DAY = f"""load 0 0 {AS_ASKED}
till 1 open 1
till 1 open 2
moment 1790000000
disp 1 up 1
till 1 release 1 8000
disp 1 order
disp 1 started
disp 1 flow 2500 1390
disp 1 down
moment 1790003600
till 2 lock 1 1
till 1 clear 1 1
till 2 clear 1 1
disp 2 up 2
till 2 release 2 6000
disp 2 order
disp 2 started
disp 2 flow 1234 700
disp 2 down
load 0 0 {DENIED}
till 1 release 1 3000
till 1 show 9
load 2 0 {AS_ASKED}
till 2 price 1 1899
till 1 stop 1
"""
PRICES = f"""load 2 0 {AS_ASKED}
moment 1790000000
till 1 price 1 1899
moment 1790003600
till 1 price 1 1799
moment 0
till 1 price 1 1850
moment 1790007200
till 1 price 1 1880
"""
# Prices change at the second and at the fourth of five entries, so one and three fifths along the axis: it begins at 90
# and is 900 long.
STEPS = f"""load 2 0 {AS_ASKED}
till 1 price 1 1899
till 1 show 1
till 1 price 1 1799
till 1 show 1
"""
STEPS_AT = [90, 270, 630, 990]
# The axis is time, from 14:14:01 to 14:25:00. Its labels are a quarter of it apart.
TIMES = """moment 1790000041
till 1 show 1
moment 1790000700
till 1 show 1
"""
TIMES_ARE = ["14:14", "14:16", "14:19", "14:22", "14:25"]
LOAD = "load 0 0 79101800000000009500000000000000\n"
AXIS_LABEL = re.compile(r'<text class="soft" x="\d+" y="78" text-anchor="\w+">([^<]*)</text>')
# A line of a chart of prices: its path, which has H before the place to which it goes.
PRICE_LINE = re.compile(r'<path class="price[^"]*" d="M(\d+)([^"]*)"')


class Page(html.parser.HTMLParser):
    """The rows of each table of a page, by the table's name, and the headline's figures."""

    def __init__(self, text):
        super().__init__()
        self.tables, self.figures, self.first, self.scripts = {}, {}, "", 0
        self.rows, self.row, self.cell, self.tag, self.name = None, None, None, None, None
        self.feed(text)

    def handle_starttag(self, tag, attrs):
        attrs = dict(attrs)
        if tag in ("script", "link", "img", "iframe"):
            self.scripts += 1
        if tag == "table":
            self.rows = self.tables.setdefault(attrs["id"], [])
        elif tag == "tr":
            self.row = []
        elif tag in ("td", "th", "p", "span", "b"):
            self.cell, self.tag = "", attrs.get("class", tag)

    def handle_data(self, data):
        if self.cell is not None:
            self.cell += data

    def handle_endtag(self, tag):
        if tag in ("td", "th") and self.row is not None:
            self.row.append(self.cell)
        elif tag == "tr" and self.rows is not None:
            self.rows.append(self.row)
            self.row = None
        elif tag == "table":
            self.rows = None
        elif tag == "p" and self.tag == "audited":
            self.first = self.cell
        elif tag == "span":
            self.name = self.cell
        elif tag == "b" and self.name is not None:
            self.figures[self.name] = self.cell
        if tag in ("td", "th", "p", "span", "b"):
            self.cell = None


def money(cents):
    return f"{cents // 100:,}.{cents % 100:02}"


def price(thousandths):
    return f"{thousandths // 1000:,}.{thousandths % 1000:03}"


def prices_of(site):
    """The prices of a configuration, by product."""
    return dict(enumerate(map(int, re.search(r"prices = \[(.*)\]", text_of(site))[1].split(",")), 1))


def count(lines, prices):
    """The sales, the unpaid transactions, the refusals, the decisions and the loads of a journal, found without fc. The
    prices are those before its first line, by product."""
    flow, last, unpaid, sold = {}, {}, {}, []
    nozzles, prices = {}, dict(prices)
    refused, decided, loads = {}, {}, []
    for line in lines:
        words = line.split(" = ")[0].split()
        answer = line.split(" = ")[1].split(" ; ")[0].split()
        _, _, moment, who, *asks = words
        if answer[0].startswith("S"):
            refused[answer[0]] = refused.get(answer[0], 0) + 1
        if answer[0] in ("granted", "S24"):
            key = (int(answer[-1]), asks[1], answer[0] == "granted")
            decided[key] = decided.get(key, 0) + 1
        if who == "disp" and answer[0] == "done":
            point = asks[0]
            if asks[1] == "flow":
                flow[point] = (int(asks[2]), int(asks[3]))
            elif asks[1] == "up":
                nozzles[point] = int(asks[2])
            elif asks[1] in ("down", "fault"):
                end(point, flow, last, unpaid, nozzles, prices)
        elif who == "till" and answer[0] == "done":
            if asks[1] == "stop":
                end(asks[2], flow, last, unpaid, nozzles, prices)
            elif asks[1] == "clear":
                amount, volume, _, _ = unpaid.pop((asks[2], int(asks[3])))
                sold.append((asks[0], asks[2], int(moment), amount, volume))
        elif who == "till" and answer[0] == "granted" and asks[1] == "price":
            prices[int(asks[2])] = int(answer[1])
        elif who.startswith("load") and answer[0] == "version":
            loads.append((int(answer[1]), asks[0], words[0]))
    return sold, unpaid, refused, decided, loads


def end(point, flow, last, unpaid, nozzles, prices):
    amount, volume = flow.pop(point, (0, 0))
    if amount:
        last[point] = last.get(point, 0) + 1
        product = nozzles[point]
        unpaid[(point, last[point])] = (amount, volume, product, prices[product])


def unpaid_rows(unpaid):
    """The rows of the unpaid transactions, without their holders."""
    return [
        [point, str(number), str(product), price(thousandths), money(amount), money(volume)]
        for (point, number), (amount, volume, product, thousandths) in sorted(unpaid.items(), key=by_point)
    ]


def by_point(item):
    (point, number), _ = item
    return int(point), number


def price_lines(text):
    """The places of each line of prices: where it begins, where it steps, and where it ends."""
    return [[int(start), *map(int, re.findall(r"H(\d+)", rest))] for start, rest in PRICE_LINE.findall(text)]


def going_back(text):
    """The lines of prices that go to the left at some place."""
    return [line for line in price_lines(text) if line != sorted(line)]


def cells(sales):
    amounts = sum(sale[3] for sale in sales), sum(sale[4] for sale in sales)
    return [f"{len(sales):,}", money(amounts[0]), money(amounts[1])]


class Checks(Count):
    def same(self, what, got, want):
        self.case([f"{what}: {got}, wanted {want}"] if got != want else [])


def compare(checks, name, page, lines, prices):
    sold, unpaid, refused, decided, loads = count(lines, prices)
    checks.same(f"{name}: first line", page.first, f"{len(lines):,} entries, audited")
    checks.same(f"{name}: scripts and files", page.scripts, 0)
    figures = page.figures
    total = cells(sold)
    checks.same(f"{name}: headline", [figures["Sales"], figures["Sold"], figures["Litres sold"]], total)
    checks.same(f"{name}: unpaid", figures["Unpaid at the end"], money(sum(it[0] for it in unpaid.values())))
    rows = page.tables.get("unpaid", [[]])[1:]
    checks.same(f"{name}: unpaid transactions", [row[:6] for row in rows], unpaid_rows(unpaid))
    granted = sum(n for (_, _, is_granted), n in decided.items() if is_granted)
    denied = sum(n for (_, _, is_granted), n in decided.items() if not is_granted)
    checks.same(f"{name}: decisions", [figures["Granted by rules"], figures["Denied by rules"]],
                [f"{granted:,}", f"{denied:,}"])
    for row in page.tables["by-point"][1:]:
        part = sold if row[0] == "All" else [s for s in sold if s[1] == row[0]]
        checks.same(f"{name}: point {row[0]}", row[1:4], cells(part))
    tills = {s[0] for s in sold}
    checks.same(f"{name}: tills", {row[0] for row in page.tables.get("by-till", [[]])[1:]}, tills)
    for row in page.tables.get("by-till", [[]])[1:]:
        checks.same(f"{name}: till {row[0]}", row[1:], cells([s for s in sold if s[0] == row[0]]))
    for row in page.tables.get("by-hour", [[]])[1:]:
        part = [s for s in sold if s[2] and s[2] // 3600 % 24 == int(row[0])]
        checks.same(f"{name}: hour {row[0]}", row[1:], cells(part))
    checks.same(f"{name}: versions", len(page.tables.get("versions", [[]])) - 1, len(loads))
    for row, (version, slot, entry) in zip(page.tables.get("versions", [[]])[1:], loads):
        want = [str(version), slot, entry]
        for kind in ("release", "preset", "price"):
            want += [str(decided.get((version, kind, True), 0)), str(decided.get((version, kind, False), 0))]
        moments = "Loaded after" in page.tables["versions"][0]
        checks.same(f"{name}: version {version}", row[:3] + row[3 + moments :], want)


def journal_of(program, site, script):
    """The journal of a script."""
    return [line for line in played(program, site, script + "journal\n") if " = " in line]


def main():
    program = os.path.abspath(sys.argv[1])
    two = os.path.join(HERE, "examples/sites/two_points.toml")
    station = os.path.join(HERE, "bench/station.toml")
    checks = Checks()
    with tempfile.TemporaryDirectory() as work:
        day = journal_of(program, two, DAY)
        awk = ["awk", "-v", "lines=30000", "-f", os.path.join(HERE, "bench/script.awk")]
        long = journal_of(program, station, subprocess.run(awk, capture_output=True, text=True, check=True).stdout)
        for name, lines in (
            ("empty", []),
            ("day", day),
            ("prices", journal_of(program, two, PRICES)),
            ("steps", journal_of(program, two, STEPS)),
            ("times", journal_of(program, two, TIMES)),
        ):
            show(checks, program, work, name, two, lines)
        show(checks, program, work, "long", station, long)
        columns(checks, program, two, work)
        faulty(checks, program, two, work, day)
    checks.end()


def show(checks, program, work, name, site, lines):
    journal, path = os.path.join(work, "journal"), os.path.join(work, f"{name}.html")
    with open(journal, "w") as file:
        file.writelines(line + "\n" for line in lines)
    done = subprocess.run([program, "report", site, journal], capture_output=True, text=True)
    checks.same(f"{name}: status", done.returncode, 0)
    with open(path, "w") as file:
        file.write(done.stdout)
    checks.same(f"{name}: under 2 MB", len(done.stdout) < MOST_BYTES, True)
    checks.same(f"{name}: lines of prices", going_back(done.stdout), [])
    if name == "prices":
        checks.same(f"{name}: as many lines as products", len(PRICE_LINE.findall(done.stdout)), 2)
    if name == "steps":
        checks.same(f"{name}: where prices change", price_lines(done.stdout)[0], STEPS_AT)
    if name == "times":
        checks.same(f"{name}: labels of the axis", AXIS_LABEL.findall(done.stdout), TIMES_ARE)
    compare(checks, name, Page(done.stdout), lines, prices_of(site))
    if shutil.which("tidy"):
        said = subprocess.run(["tidy", "-q", "-e", path], capture_output=True, text=True).stderr
        checks.same(f"{name}: tidy", said, "")
    else:
        print(f"report.py: tidy is not there: {name} is not validated")
    browser = shutil.which("chromium") or shutil.which("chromium-browser")
    if browser:
        words = [browser, "--headless", "--no-sandbox", "--disable-gpu", "--dump-dom", f"file://{path}"]
        dom = subprocess.run(words, capture_output=True, text=True, timeout=120).stdout
        checks.same(f"{name}: browser", f"<p class=\"audited\">{len(lines):,} entries, audited</p>" in dom, True)
    else:
        print(f"report.py: no Chromium is there: {name} is not opened in a browser")


def columns(checks, program, site, work):
    """Checks that the page says which versions a column shows: each its own if they are fewer than 1,000."""
    journal = os.path.join(work, "journal")
    for versions, want in ((999, "A column for each version"), (1000, "A column for some neighbouring versions")):
        with open(journal, "w") as file:
            file.writelines(line + "\n" for line in journal_of(program, site, LOAD * versions))
        done = subprocess.run([program, "report", site, journal], capture_output=True, text=True)
        checks.same(f"{versions} versions: columns", want in done.stdout, True)


def faulty(checks, program, site, work, day):
    """Checks that a journal with a fault gives no page, but the line that its audit prints."""
    journal = os.path.join(work, "journal")
    for change in (("granted 8000", "granted 9000"), ("= done", "= gone"), ("\n2 ", "\n3 ")):
        text = "".join(line + "\n" for line in day).replace(*change, 1)
        with open(journal, "w") as file:
            file.write(text)
        words = ("audit", "report")
        said = [subprocess.run([program, it, site, journal], capture_output=True, text=True) for it in words]
        checks.same("a fault", (said[1].returncode, said[1].stdout), (1, said[0].stdout))


if __name__ == "__main__":
    main()
