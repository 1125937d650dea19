#!/usr/bin/env python3
"""Looks at a served site so many times a second, at the page, the metrics and the end of the journal in turn, each on a
connection of its own, until nobody listens at the port. Then prints how many looks there were, and within how many
milliseconds half of them and all of them were answered.

    bench/looks.py PORT TIMES      TIMES a second
"""

import http.client
import itertools
import statistics
import sys
import time

TARGETS = ("/", "/metrics", "/journal?after=4294967295")


def look(port, target):
    """The milliseconds that an answer takes, or None if nobody listens."""
    begun = time.perf_counter()
    connection = http.client.HTTPConnection("127.0.0.1", port, timeout=10)
    try:
        connection.request("GET", target)
        answer = connection.getresponse()
        answer.read()
    except (ConnectionError, http.client.HTTPException):  # the site ends
        return None
    finally:
        connection.close()
    if answer.status != 200:
        raise SystemExit(f"{target} was answered {answer.status}")
    return 1000 * (time.perf_counter() - begun)


def main():
    port, times = int(sys.argv[1]), int(sys.argv[2])
    taken, begun = [], time.monotonic()
    for turn, target in enumerate(itertools.cycle(TARGETS)):
        time.sleep(max(begun + turn / times - time.monotonic(), 0))
        one = look(port, target)
        if one is None:
            break
        taken.append(one)
    if taken:
        print(f"{len(taken)} looks, half within {statistics.median(taken):.1f} ms, all within {max(taken):.1f} ms")


main()
