"""Plans that were made against the way matches are kept: a match is added to a list without a search, the list is linked when one is
searched for, and a match is first looked for where a command last had it."""

import random

from bred import ALL, IMAGE, INVOKE, MATCH, WRITE, again, pick, sets, size, tries

CONTENT = sets((18, ("bytes", 0xAA, 1)), (22, 1), (21, ("bytes", 20, 1)))
START = (ALL, CONTENT, sets((3, IMAGE)), pick(0))


def forks(count):
    return again(count, tries((size(("v", 900_000)), MATCH), None))


def under(sizes, command):
    return tuple(node for number in sizes for node in (size(number), command))


def mixed(count):
    """The numbers below `count`, shuffled."""
    numbers = list(range(count))
    random.Random(1).shuffle(numbers)
    return numbers


def told_before(count, every, back):
    """`count` sizes. Each `every`-th repeats the one that came `back` places before it."""
    sizes = []
    for number in range(count):
        sizes.append(sizes[number - back] if number % every == 0 and number >= back else number)
    return sizes


# ---- searches for matches that are far back, so that all are linked

def far():
    for count, pairs in ((5, 32_000), (8, 4_000), (10, 1_000)):
        yield "%d forks and %d pairs, then as many invokes in another order" % (count, pairs), (
            *START, forks(count), *under(range(pairs), MATCH), *under(mixed(pairs), INVOKE)), "severed", 2
    turns = tuple(node for at in range(3_000) for node in (*under((2_000 + at,), MATCH), *under((at * 7_919 % (2_000 + at),), INVOKE)))
    yield "8 forks and 2,000 pairs, then a pair and an invoke far back in turn", (
        *START, forks(8), *under(range(2_000), MATCH), *turns), "severed", 2


# ---- the same matches again, after their places are forgotten

def repeated():
    every = tries(*((sets((3, ("digest", 300 + number, 32))), MATCH) for number in range(64)), None)
    yield "64 digests, then pairs of which one in three was told 9,000 before", (
        every, *under(told_before(32_000, 3, 9_000), MATCH)), "severed", 2


# ---- short lists, each of which a write ends

def short():
    for count in (15, 16, 17, 200, 260):
        yield "12 forks, then %d matches and a write, again" % count, (
            *START, forks(12), again(1, *under(range(count), MATCH), WRITE)), "twice", 2


def against_lists():
    for thought in (far, repeated, short):
        yield from thought()
