#!/usr/bin/env python3
"""A dispenser with one customer, who lifts a nozzle, waits for a release, fuels and hangs up.

    dispenser.py PORT|PATH POINT NOZZLE CENTS     a port of 127.0.0.1, or the path of a local socket; CENTS is what the
                                                  customer wants at most

The status is 1 where the site refuses, or can't be reached for ten seconds.
"""

import sys
import time

sys.dont_write_bytecode = True
from controller import PAUSE, Controller, Lost, numbers

STEPS = 5
NO_ORDER = ["S33"]


def order(site, point):
    """The pending order, or [] where there is none. Anything else ends this dispenser."""
    answer = site.ask(f"disp {point} order")
    if answer == NO_ORDER:
        return []
    if answer[0] != "order":
        raise SystemExit(f"point {point}: {' '.join(answer)}")
    return answer[1:]


def wait_for(site, point, wanted):
    """Waits for an order of these words, and returns it. Where `wanted` has `authorise`, older orders are skipped."""
    while True:
        given = order(site, point)
        if given and (given[0] in wanted or "authorise" not in wanted):
            return given
        time.sleep(PAUSE)


def fuel(site, point, cents, price):
    """Reports the flow in steps up to `cents`, and obeys the till's orders meanwhile. Returns how many cents flowed."""
    amount = 0
    for step in range(1, STEPS + 1):
        now = cents * step // STEPS
        if site.ask(f"disp {point} flow {now} {(now * 1000 + price // 2) // price}") != ["done"]:
            break  # this amount isn't counted, so the valve is shut
        amount = now
        given = order(site, point)
        if given == ["stop"] or given == ["suspend"] and wait_for(site, point, ["resume"]) != ["resume"]:
            break
        time.sleep(PAUSE)
    return amount


def serve(site, point, nozzle, cents):
    limit = int(wait_for(site, point, ["authorise"])[1])
    price = site.prices()[nozzle - 1]  # it stays while a point is busy
    print(f"point {point}: authorised for {limit} cents, at {price}")
    if price and site.ask(f"disp {point} started") == ["done"]:
        # A till may suspend the delivery at any moment. Before the first flow that would stop the counting.
        site.ask(f"disp {point} flow 0 0")
        print(f"point {point}: {fuel(site, point, min(limit, cents), price)} cents have flowed")


def main():
    point, nozzle, cents = numbers(3, __doc__)
    site = Controller(sys.argv[1])
    lifted = site.do(f"disp {point} up {nozzle}", lambda: site.point(point)[1] == nozzle)
    print(f"point {point}: up {' '.join(lifted)}")
    if lifted != ["done"]:
        sys.exit(1)
    try:
        serve(site, point, nozzle, cents)
    except Lost:
        print(f"point {point}: the valve is shut")
        site.connect()
    hung_up = site.do(f"disp {point} down", lambda: site.point(point)[1] == 0)
    print(f"point {point}: down {' '.join(hung_up)}")


main()
