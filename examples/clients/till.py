#!/usr/bin/env python3
"""A till that sells one delivery at a point where no other till sells. It opens the point, waits for a customer, asks
for a release, follows the delivery, and settles its transaction with a receipt. What was left unpaid before is told.

    till.py PORT|PATH TILL POINT CENTS     a port of 127.0.0.1, or the path of a local socket; CENTS is the amount that
                                           is asked for

The status is 1 where a line is refused, or the site can't be reached for ten seconds; it is 0 also where the customer
hangs up without fuel.
"""

import sys
import time

sys.dont_write_bytecode = True
from controller import PAUSE, Controller, numbers

CLOSED, IDLE, CALLING, AUTHORISED, SUSPENDED_FUELLING = 2, 3, 4, 5, 9


def litres(centilitres):
    return f"{centilitres // 100}.{centilitres % 100:02}"


def wait_for_a_nozzle(site, till, point):
    if site.point(point)[0] == CLOSED:
        answer = site.do(f"till {till} open {point}", lambda: site.point(point)[0] in (IDLE, CALLING))
        print(f"point {point}: open {' '.join(answer)}")
        if answer != ["done"]:
            sys.exit(1)
    while site.point(point)[0] != CALLING:
        time.sleep(PAUSE)


def is_busy(state):
    return AUTHORISED <= state <= SUSPENDED_FUELLING


def release(site, till, point, cents, before):
    """Whether the site releases the point. If the answer is lost, it did if the point is busy, or has already sold more
    than what was unpaid before. How much it granted is the point's limit."""
    answer = site.do(
        f"till {till} release {point} {cents}",
        lambda: is_busy(site.point(point)[0]) or site.unpaid(point).keys() > before.keys(),
    )
    print(f"point {point}: release {' '.join(answer)}")
    return answer[0] in ("granted", "done")


def follow(site, point):
    """Waits for the end of the delivery."""
    while is_busy(site.point(point)[0]):
        time.sleep(PAUSE)


def settle(site, till, point, number):
    """Whether the transaction was locked and cleared. A lock may be sent twice; a transaction that is gone was cleared."""
    for line in (f"till {till} lock {point} {number}", f"till {till} clear {point} {number}"):
        answer = site.do(line, lambda: number not in site.unpaid(point))
        if answer != ["done"]:
            print(f"point {point}: transaction {number} is left: {' '.join(answer)}")
            return False
    return True


def main():
    till, point, cents = numbers(3, __doc__)
    site = Controller(sys.argv[1])
    before = site.unpaid(point)
    for number, (_, _, _, amount, _) in before.items():
        print(f"point {point}: transaction {number} of {amount} cents was left unpaid")
    wait_for_a_nozzle(site, till, point)
    if not release(site, till, point, cents, before):
        sys.exit(1)
    follow(site, point)
    for number, (product, price, volume, amount, _) in site.unpaid(point).items():
        if number not in before:
            if not settle(site, till, point, number):
                sys.exit(1)
            print(f"point {point}: product {product}, {litres(volume)} litres at {price / 1000:.3f}: {amount} cents paid")


main()
