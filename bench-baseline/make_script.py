#!/usr/bin/env python3
"""make_script.py N RECORDS LINK [SEED] > script

A script of RECORDS records that keeps a kit of N boards and 16 pages busy: some words placed, then one load or store to two
deliveries, on boards and picks drawn at random; three of four accesses are to two hot pages, and two of three are loads.
LINK is queue or pool. The same arguments give the same bytes, with any Python: of random, only Random.random is used, which
Python promises to keep.
"""
import random
import sys

PAGES = 16
HOT_PAGES = 2
PLACED = 64


def records(boards, count, link, seed):
    chance = random.Random(seed).random

    def below(bound):
        return int(chance() * bound)

    yield f"K{boards:02}{PAGES:03}{('queue', 'pool').index(link):08x} \n"
    for i in range(1, count):
        address = 16 * below(HOT_PAGES if chance() < 0.75 else PAGES) + below(16)
        if i <= PLACED and 2 * PLACED <= count:
            yield f"P00{address:03}{below(1 << 32):08x} \n"
        elif chance() < 2 / 3:
            yield f"D00{below(1000):03}00000000 \n"
        elif chance() < 2 / 3:
            yield f"L{below(boards):02}{address:03}00000000 \n"
        else:
            yield f"S{below(boards):02}{address:03}{below(1 << 32):08x} \n"


def script(boards, count, link, seed=1):
    return "".join(records(boards, count, link, seed)).encode()


if __name__ == "__main__":
    if len(sys.argv) not in (4, 5) or sys.argv[3] not in ("queue", "pool"):
        sys.exit(__doc__)
    numbers = [int(text) for text in sys.argv[1:3] + sys.argv[4:]]
    sys.stdout.buffer.write(script(numbers[0], numbers[1], sys.argv[3], *numbers[2:]))
