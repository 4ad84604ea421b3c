#!/usr/bin/env python3
"""Writes the example files of this folder, and the input of the programs in the gate. docs/FORMAT.md has their format."""
import pathlib
import random

HERE = pathlib.Path(__file__).parent
CRATES = HERE.parent / "crates"


def numbers(*values):
    return b"".join(value.to_bytes(4, "little") for value in values)


def plan(changes, legs, walks):
    flat = [number for row in legs + walks for number in row]
    return numbers(len(changes), len(legs), len(walks), *changes, *flat)


def request(kind, *values):
    return bytes([kind]) + numbers(*values)


# Four piers: one can stay aboard at pier 1, where a change takes longer than the boat waits.
CHANGES = [2, 3, 2, 0]
LEGS = [
    (0, 0, 0, 1, 10, 20),
    (0, 1, 1, 2, 22, 35),
    (1, 0, 1, 2, 24, 30),
    (2, 0, 0, 2, 12, 45),
    (3, 0, 2, 3, 31, 40),
]
WALKS = [(2, 3, 15)]

FOUR = plan(CHANGES, LEGS, WALKS)
(HERE / "four-piers.plan").write_bytes(FOUR)

# A day on it: questions, then a delay, another, a cancelled leg, an extra one, with the questions again after each;
# and whether the itinerary of the mark 30/2 still goes.
ASK = request(0, 0, 9, 2, 3) + request(0, 0, 9, 3, 3)
STILL = request(4, 0, 9, 2, 0, 0, 1, 0)
DAY = [
    ASK,
    request(1, 3, 0, 2), ASK, STILL,
    request(1, 0, 0, 2), ASK, STILL,
    request(2, 0, 1), ASK,
    request(3, 9, 0, 1, 3, 25, 33), ASK,
]
(HERE / "four-piers.requests").write_bytes(FOUR + b"".join(DAY))

# The same plan with the name of the first leg given to the second too.
TWICE = [LEGS[0], (0, 0, 1, 2, 22, 35)] + LEGS[2:]
(HERE / "one-name-twice.plan").write_bytes(plan(CHANGES, TWICE, WALKS))

# Questions to the four piers: with more boats and with fewer, to where one is already, to where nothing leads, and
# questions that are refused; the last is cut short.
QUESTIONS = [
    request(0, 0, 9, 2, 3),  # 35/1 30/2
    request(0, 0, 9, 3, 3),  # 50/1 45/2
    request(0, 0, 9, 2, 1),  # 35/1
    request(0, 0, 9, 2, 0),  # an empty line: nobody is there without a boat
    request(0, 0, 11, 2, 8),  # 45/1: run 0 has left
    request(0, 2, 40, 3, 8),  # 55/0: on foot
    request(0, 1, 5, 1, 8),  # 5/0: there already
    request(0, 3, 0, 0, 8),  # an empty line: nothing leads there
    request(0, 4, 9, 2, 3),  # refused 3 at 0
    request(0, 0, 9, 4, 3),  # refused 3 at 2
    request(0, 0, 9, 2, 9),  # refused 3 at 3
]
CUT_SHORT = request(0, 0, 9)  # refused 3 at 2
(HERE / "four-piers.questions").write_bytes(FOUR + b"".join(QUESTIONS) + CUT_SHORT)
(CRATES / "office" / "stdin").write_bytes(FOUR + b"".join(QUESTIONS) + CUT_SHORT)

# What is refused of updates and itineraries, on the plan as the day leaves it (five legs), and the plan is as it was.
REFUSED = [
    request(1, 3, 0, 2**32 - 42),  # refused 6 at 3: run 3's leg would come at 2^32, and it is the fourth leg
    request(1, 7, 0, 1),  # nothing: no leg is of run 7
    request(2, 0, 1),  # refused 8 at 1: that leg is gone already
    request(3, 9, 0, 0, 1, 1, 2),  # refused 7 at 0: run 9 has a leg 0
    request(3, 9, 1, 0, 4, 1, 2),  # refused 2 at 5: there is no pier 4
    request(4, 0, 9, 0),  # still: no legs
    request(4, 0, 9, 1, 9, 9),  # gone: no such leg
    ASK,
    request(4, 0, 9, 1025, *([0] * 2050)),  # refused 9 at 1025
    request(4, 0, 9, 2, 0, 0),  # refused 9 at 2: cut short by the file's end
]
# What the office prints of these stands in day.lines.
(HERE / "day.requests").write_bytes(FOUR + b"".join(QUESTIONS + DAY + REFUSED))

# Where a file cannot be read on: a byte that is no request, and an update that is cut short.
(HERE / "no-such-request.requests").write_bytes(FOUR + ASK + request(7))
(HERE / "short-delay.requests").write_bytes(FOUR + ASK + request(1, 3, 0))


def journey(start, time, end, *legs):
    return numbers(start, time, end, len(legs), *[number for leg in legs for number in leg])


# Six piers, and journeys with every kind of break and every kind of end.
SIX = plan(
    [2, 3, 2, 0, 5, 1],
    LEGS + [
        (4, 0, 3, 4, 60, 50),  # does not run
        (5, 1, 4, 5, 70, 70),  # takes no time, and stands before the leg that it follows
        (5, 0, 3, 4, 70, 70),
    ],
    [(2, 3, 15), (3, 4, 4), (2, 3, 9), (0, 2, 30)],
)
JOURNEYS = [
    journey(0, 9, 2, (0, 0), (0, 1)),  # 35/1: a stay, where a change takes longer than the boat waits
    journey(0, 9, 2, (0, 0), (1, 0)),  # 30/2: a change
    journey(0, 9, 3, (0, 0), (1, 0), (3, 0)),  # broken at 2: too short a change
    journey(0, 9, 3, (0, 0), (0, 1)),  # 44/1: ended by the shorter of two walks
    journey(0, 9, 2, (7, 0)),  # broken at 0: no such leg
    journey(0, 9, 2, (0, 0), (0, 7)),  # broken at 1: no such leg
    journey(3, 50, 4, (4, 0)),  # broken at 0: the leg does not run
    journey(3, 60, 5, (5, 0), (5, 1)),  # 70/1: legs that take no time
    journey(2, 50, 5, (5, 0), (5, 1)),  # 70/1: begun by a walk
    journey(2, 62, 5, (5, 0), (5, 1)),  # broken at 0: the walk comes too late
    journey(0, 9, 5, (2, 0), (5, 0), (5, 1)),  # 70/2: a walk between boats
    journey(0, 9, 4, (2, 0)),  # broken at 1: two walks in a row lead there, and that is no journey
    journey(0, 9, 5, (0, 0)),  # broken at 1: nothing leads on
    journey(0, 11, 2, (0, 0), (0, 1)),  # broken at 0: the boat has left
    journey(3, 60, 5, (5, 0), (5, 0)),  # broken at 1: the leg does not follow itself
    journey(1, 5, 1),  # 5/0: there already
    journey(2, 10, 3),  # 19/0: on foot, by the shorter of two walks
    journey(2, 10, 4),  # broken at 0: two walks in a row
]
(HERE / "six-piers.journeys").write_bytes(SIX + b"".join(JOURNEYS))
(CRATES / "inspect" / "stdin").write_bytes(SIX + b"".join(JOURNEYS))


def three_lakes():
    """41 piers on three lakes, 15, 14 and 12 of them. Boats go round each lake both ways, express boats skip piers,
    and walks join the lakes."""
    chance = random.Random(41)
    lakes = [range(0, 15), range(15, 29), range(29, 41)]
    changes = [chance.choice([2, 3, 3, 4, 5]) for _ in range(41)]
    legs, run = [], 0
    for lake in lakes:
        piers = list(lake)
        for start in range(360, 1200, 75):
            for way in (piers, piers[::-1], piers[::4]):
                time = start + chance.randrange(30)
                stops = [way[(k + run) % len(way)] for k in range(min(len(way), 5))]
                for number, (here, there) in enumerate(zip(stops, stops[1:])):
                    comes = time + chance.randrange(8, 20)
                    legs.append((run, number, here, there, time, comes))
                    time = comes + chance.randrange(0, 4)
                run += 1
    walks = []
    for here, there, takes in [(3, 15, 12), (9, 20, 25), (22, 30, 9), (27, 36, 14), (14, 40, 31)]:
        walks += [(here, there, takes), (there, here, takes + 2)]
    return plan(changes, legs, walks)


(HERE / "three-lakes.plan").write_bytes(three_lakes())
