#!/usr/bin/env python3
"""Sends a rule in C 2,000 requests at random, with lines between them that change the site, and holds each answer
and the counters against what the rule means, written down below. A rule that stands in assembler too has to answer all
lines alike.

    requests.py NAME              the units in examples/c/NAME.hex, and those of examples/rules/NAME.bpf if it is there
    requests.py NAME FILE.hex     the units in that file in place of the first

It prints 'the same' where all answers were as they should be, and 20 requests at least were granted as they were asked
and 20 weren't. `fc` is looked for on the path. Each run sends the same lines.
"""
import os
import random
import re
import subprocess
import sys

EXAMPLES = "../../examples"
REQUESTS, ENOUGH = 2000, 20
DAY, HOUR = 86400, 3600
KINDS = {"releases": "release", "presets": "preset", "prices": "price"}


class Rule:
    """What a rule's first comment says: the word that loads it, the kind of its requests, and its mask."""

    def __init__(self, name):
        with open(f"{EXAMPLES}/c/{name}.c", encoding="utf-8") as file:
            head = file.read().split("*/")[0]
        self.word = "load2" if "Layout: 2" in head else "load"
        self.kind = KINDS[re.search(r"Slot: (\w+)", head)[1]]
        self.slot = list(KINDS.values()).index(self.kind)
        self.mask = int(re.search(r"Mask: (\d+)", head)[1])

    def answers(self, units, lines):
        """Returns what a play of the lines answers, with a rule of these units, without the entries' numbers."""
        script = "\n".join([f"{self.word} {self.slot} {self.mask} {''.join(units.split())}", *lines, ""])
        how = {"input": script, "stdout": subprocess.PIPE, "text": True, "check": True}
        first, *rest = subprocess.run(["fc", "play", "site.toml", "-"], **how).stdout.splitlines()
        if first != "1 version 1" or len(rest) != len(lines):
            sys.exit(f"not loaded, or not all lines were answered: {first}")
        return [line.partition(" ")[2] for line in rest]


class Point:
    """A point as the lines that were sent have left it: its state, its nozzle, its amount, its transactions."""

    def __init__(self):
        self.state, self.nozzle, self.amount, self.limit = 2, 0, 0, 0
        self.unpaid, self.last = 0, 0

    def end(self):
        """A delivery ends: what has flowed becomes a transaction."""
        if self.amount:
            self.unpaid += 1
            self.last += 1
        self.amount = 0


class Site:
    """The lines that are sent to site.toml, and what they make of it."""

    def __init__(self):
        self.lines = []
        self.points = {number: Point() for number in range(1, 9)}
        self.prices = {1: 1799, 2: 1849, 3: 1999, 7: 1200}
        self.counters = {0: 1000, 1: 90000000, 2: 90000000}
        self.moment = 1790000000

    def send(self, *lines):
        self.lines += lines

    def busy(self):
        return sum(point.state >= 5 for point in self.points.values())

    def open(self):
        return sum(point.state >= 3 for point in self.points.values())

    def hour(self):
        return self.moment // HOUR % 24

    def take(self, counter, n):
        """Takes n from a counter, if it has as many."""
        has = self.counters[counter] >= n
        self.counters[counter] -= n if has else 0
        return has

    def pass_time(self):
        """Goes on by some minutes, or to a full hour or a second beside it."""
        to_the_hour = HOUR - self.moment % HOUR + random.choice([-1, 0, 1])
        self.moment += random.choice([0, 1, 300, 900, to_the_hour])
        self.send(f"moment {self.moment}")

    def make_ready(self, number, nozzle):
        """Brings a point to where it may be released, with nothing unpaid, and this nozzle up."""
        point = self.points[number]
        if point.state >= 5:
            self.send(f"till 1 stop {number}")
            point.end()
            point.state = 4 if point.nozzle else 3
        if point.nozzle:
            self.send(f"disp {number} down")
            point.state, point.nozzle = min(point.state, 3), 0
        if point.state == 2:
            self.send(f"till 1 open {number}")
            point.state = 3
        while point.unpaid:
            point.unpaid -= 1
            taken = f"{number} {point.last - point.unpaid}"
            self.send(f"till 1 lock {taken}", f"till 1 clear {taken}")
        if nozzle:
            self.send(f"disp {number} up {nozzle}")
            point.state, point.nozzle = 4, nozzle

    def fuel(self, number, limit):
        """What may follow a grant: it stays authorised, or fuel flows, perhaps to the end."""
        point, what, amount = self.points[number], random.choice(["stay", "flow", "end"]), random.randint(1, 12000)
        point.state = 5
        if what == "stay" or not point.nozzle:
            return
        self.send(f"disp {number} order", f"disp {number} started", f"disp {number} flow {amount} 100")
        point.state, point.amount = 9 if amount > limit else 8, amount
        if what == "end":
            self.send(f"disp {number} down")
            point.end()
            point.state, point.nozzle = 3, 0


class Request:
    """What is asked at random: an amount at a point, often at a rule's edge or beside it, or a price."""

    def __init__(self, site, kind):
        self.kind, self.asked = kind, 0
        self.till, self.number = random.randint(1, 3), random.randint(1, 8)
        self.product = random.choice([0, 1, 1, 2, 2, 3, 4])
        edge = random.choice([3000, 4000, 5000, 8000, 10000, 30000]) + random.randint(-1, 1)
        self.asked = random.choice([edge, random.randint(1, 20000), 999999999])
        if kind == "price":
            self.ask_for_a_price(site)
        else:
            site.make_ready(self.number, self.product)
        place = self.product if kind == "price" else self.number
        self.line = f"till {self.till} {kind} {place} {self.asked}"
        self.price = site.prices.get(self.product, 0)

    def ask_for_a_price(self, site):
        """A price some per cent beside the one that is, while at one of three points a nozzle may be up."""
        self.product = random.choice([1, 1, 2, 3, 4, 7])
        site.make_ready(random.randint(1, 3), random.choice([0, 0, 0, 1]))
        price = site.prices.get(self.product, 0)
        self.asked = price * random.choice([80, 90, 98, 102, 105, 120]) // 100 + random.randint(-1, 1)
        if not 900 <= self.asked <= 3000:
            self.asked = 1800

    def follow(self, site, granted):
        """What comes after the answer: 0 where it was denied."""
        if self.kind == "preset":
            site.send(f"till 1 close {self.number}")
            site.points[self.number].state = 2
        elif self.kind == "price" and granted:
            site.prices[self.product] = self.asked
        elif self.kind == "release" and granted:
            site.fuel(self.number, granted)


# What each rule means: the most that is granted, 0 where it denies; of a price what is asked or 0.
def cap_by_till(site, it):
    return 10000 if it.till == 1 else 5000


def cap_by_hour_and_till(site, it):
    by_day, by_night = (10000, 3000) if it.till == 1 else (5000, 0)
    return by_day if 6 <= site.hour() <= 21 else by_night


def forty_litres(site, it):
    return it.asked if it.till == 1 else 4 * 1849


def limit_at_the_last_open_point(site, it):
    others_open = site.open() - 1
    return 3000 if site.busy() >= others_open else it.asked


def limit_while_busy(site, it):
    return 3000 if site.busy() >= 3 else it.asked


def litres_a_day(site, it):
    if site.counters[2] < site.moment // DAY:
        site.counters.update({1: 200000, 2: site.moment // DAY})
    return it.asked if it.price and site.take(1, it.asked * 1000 // it.price) else 0


def night_limit(site, it):
    return it.asked if 6 <= site.hour() <= 21 else 3000


def no_fuel_without_a_price(site, it):
    return it.asked if it.price else 0


def no_price_change_while_fuelling(site, it):
    return 0 if site.points[1].state == 4 or site.points[2].state == 4 else it.asked


def nozzle_for_one_till(site, it):
    return it.asked if it.product in (1, 3, 4) or (it.product == 2 and it.till == 2) else 0


def point_out_of_service(site, it):
    return it.asked if it.number != 2 else 0


def preset_by_product(site, it):
    return {1: 5000, 2: 8000}.get(it.product, 0)


def price_kept_at_night(site, it):
    return it.asked if 6 <= site.hour() <= 21 else 0


def price_rise(site, it):
    return it.asked if not it.price or it.asked <= it.price * 1.05 else 0


def quota_by_counter(site, it):
    return it.asked if site.take(0, 1) else 0


def limit_by_what_flows(site, it):
    return max(0, 30000 - sum(point.amount for point in site.points.values()))


def opening_hours(site, it):
    local = site.moment + HOUR
    day = ["Thu", "Fri", "Sat", "Sun", "Mon", "Tue", "Wed"][local // DAY % 7]
    first, last = (8, 13) if day == "Sat" else (6, 19)
    return 0 if day == "Sun" else it.asked if first <= local // HOUR % 24 <= last else 4000


def price_in_bounds(site, it):
    least, most = (98, 102) if it.product in (7, 8) else (90, 105)
    is_inside = it.price * least // 100 <= it.asked <= it.price * most // 100
    return it.asked if is_inside or not it.price else 0


def quota_by_product(site, it):
    return it.asked if it.product in (1, 2, 3) and site.take(it.product - 1, it.asked * 1000 // it.price) else 0


def requests_to(rule, meaning):
    """Returns the lines for a site with this rule, what some of them should be answered, by their places, and how many
    requests are granted as they are asked."""
    site, wanted, full = Site(), {}, 0
    for _ in range(REQUESTS):
        site.pass_time()
        request = Request(site, rule.kind)
        granted = min(request.asked, meaning(site, request))
        full += granted == request.asked
        wanted[len(site.lines)] = f"granted {granted} by 1" if granted else "S24 1"
        site.send(request.line)
        for counter, value in site.counters.items():
            if rule.mask >> counter & 1:
                wanted[len(site.lines)] = f"{value} 900000000"
                site.send(f"counter {counter}")
        request.follow(site, granted)
    return site.lines, wanted, full


def main():
    name = sys.argv[1]
    with open(sys.argv[2] if len(sys.argv) > 2 else f"{EXAMPLES}/c/{name}.hex", encoding="utf-8") as file:
        texts = [file.read()]
    twin = f"{EXAMPLES}/rules/{name}.bpf"
    if os.path.exists(twin):
        texts.append(subprocess.run(["fc", "asm", twin], stdout=subprocess.PIPE, text=True, check=True).stdout)
    random.seed(name)
    rule = Rule(name)
    lines, wanted, full = requests_to(rule, globals()[name])
    played = [rule.answers(units, lines) for units in texts]
    for at, (line, answers) in enumerate(zip(lines, zip(*played))):
        if len(set(answers)) != 1:
            sys.exit(f"line {at + 1}, {line}: in C {answers[0]}, in assembler {answers[1]}")
    for at, answer in wanted.items():
        if played[0][at] != answer:
            sys.exit(f"line {at + 1}, {lines[at]}: {played[0][at]}, and it means {answer}")
    print("the same" if ENOUGH <= full <= REQUESTS - ENOUGH else f"{full} were granted as they were asked")


main()
