#!/usr/bin/env python3
"""Writes a plan of 1,024 legs and many questions to standard output (100,000, or as many as the argument says), to see how
long `office` takes: python3 examples/many.py > target/many; time target/bin/office target/many > /dev/null"""
import random
import sys

PIERS, RUNS, LEGS_OF_RUN, WALKS = 64, 128, 8, 256


def numbers(*values):
    return b"".join(value.to_bytes(4, "little") for value in values)


def main():
    chance = random.Random(1024)
    out = sys.stdout.buffer
    out.write(numbers(PIERS, RUNS * LEGS_OF_RUN, WALKS, *[chance.randrange(2, 6) for _ in range(PIERS)]))
    for run in range(RUNS):
        here, time = chance.randrange(PIERS), chance.randrange(300, 1200)
        for number in range(LEGS_OF_RUN):
            there, comes = chance.randrange(PIERS), time + chance.randrange(5, 30)
            out.write(numbers(run, number, here, there, time, comes))
            here, time = there, comes + chance.randrange(4)
    for _ in range(WALKS):
        out.write(numbers(chance.randrange(PIERS), chance.randrange(PIERS), chance.randrange(10, 60)))
    for _ in range(int(sys.argv[1]) if len(sys.argv) > 1 else 100_000):
        out.write(bytes([0]) + numbers(chance.randrange(PIERS), chance.randrange(300, 900), chance.randrange(PIERS), 8))


main()
