"""Plans that were made by reading a judge that salts its fingerprints and keeps no events: more sizes than any of its tables holds, invoked
in another order, so that each invoke is searched for outside the caches of a processor; contents that are compared up to what may be read,
in rows that states share, next to identities that are learnt; unsafe ones, whose one path is followed a second time; sequences that are
looked through for a condition again and again; and lists, matches and commands that are held at once."""

import functools
import random

from against_last import in_sizes, most
from against_words import EIGHT, IDS, SLOT, STRICT, digest, tests, under
from bred import ALL, IMAGE, INVOKE, MATCH, SWAP, WIDEST, WRITE, Plan, again, pick, run, sets, size, tries

# Sizes of three bytes, and of nine bytes with one tag: the exclusive or of both halves is the same.
PLAIN = range(3_000, 65_000)
TAG = 0x123_4567
OPEN_END = (pick(0), size(77), INVOKE)


@functools.lru_cache
def tagged(count):
    return tuple(upper << 32 | (TAG ^ upper) for upper in random.Random(5).sample(range(1 << 24, 1 << 31), count))


def shuffled(numbers, seed):
    return random.Random(seed).sample(numbers, len(numbers))


def own(at, turn=0, length=32):
    """A digest of its own for each of these components."""
    return tuple(node for one in at for node in (pick(one), digest(8 * turn + one + 1, length)))


def matched(numbers, at, linked=0):
    """A match under each size at these components, of which the first ones may be linked before the others are added."""
    order = shuffled(numbers, 1)
    if linked:
        return (*own(at), pick(*at), *under(order[:linked]), INVOKE, *under(order[linked:]))
    return *own(at), pick(*at), *under(order)


def left(nodes, each, place="severed", count=8):
    """How many more times this much work is judged after these nodes in one state."""
    return (WIDEST - Plan(nodes, place, count).width() - 20) // each


def in_turn(numbers, at, linked=0, *tail):
    """Invoked in another order at one component after another."""
    first = matched(numbers, at, linked)
    times = left((*first, pick(0), *tail), 2 * len(numbers) + 1)
    return (*first, pick(*(tuple(at) * times)[:times]), run(*under(shuffled(numbers, 2), INVOKE)), pick(0), *tail)


def at_once(numbers, at, linked=0, *tail):
    """Invoked in another order at all of the components, one size after another."""
    first = matched(numbers, at, linked)
    times = left((*first, pick(0), *tail), 2 * len(at) * len(numbers) + 2)
    return (*first, pick(*(0,) * times), run(pick(*at), *under(shuffled(numbers, 2), INVOKE)), pick(0), *tail)


# ---- more sizes than any table holds

def lost():
    for name, numbers, linked in (("62,000 sizes", PLAIN, 0), ("62,000 sizes, linked early", PLAIN, 32_000),
                                  ("36,000 sizes of one tag", tagged(36_000), 0), ("36,000 sizes of one tag, linked early", tagged(36_000), 17_000),
                                  ("40,000 sizes of five bytes", range(70_000, 110_000), 0)):
        for at in (3, 4, 5, 6, 8):
            yield "%s at %d, invoked in another order at one after another" % (name, at), in_turn(numbers, EIGHT[:at], linked), "severed", 8
    for name, numbers, linked in (("62,000 sizes", PLAIN, 32_000), ("36,000 sizes of one tag", tagged(36_000), 17_000)):
        for at in (2, 3, 4, 5, 8):
            yield "%s at %d, invoked in another order at all" % (name, at), at_once(numbers, EIGHT[:at], linked), "severed", 8
    for count in (20_000, 30_000):
        for at in (4, 8):
            yield "%d sizes at %d, invoked in another order at one after another" % (count, at), in_turn(PLAIN[:count], EIGHT[:at]), "severed", 8
    fork = (sets((3, IMAGE)), tries((size(9), MATCH), None))
    yield "62,000 sizes at eight in two states, invoked in another order", (
        *fork, *matched(PLAIN, EIGHT), INVOKE, *under(shuffled(PLAIN[:60_000], 2), INVOKE), pick(0)), "severed", 8
    yield "62,000 sizes at four in four states, invoked in another order", (
        *fork, tries((size(10), MATCH), None), *matched(PLAIN, EIGHT[:4]), INVOKE, *under(shuffled(PLAIN[:60_000], 2), INVOKE), pick(0)), "severed", 8


# ---- contents that are compared, and identities that are learnt

SETUP, MATCHED = (ALL, sets((3, IMAGE), *IDS)), tries((MATCH,), None)
LEARN = (ALL, *tests(24, 5, 1, 2), pick(0))


def long(length, *keys):
    """Parameters of this length in all at each of eight components."""
    return (sets(*((key, ("bytes", 97, length // len(keys))) for key in keys)),)


TAILS = (
    ("an override at one", (pick(7), size(2))),
    ("other arguments at one", (pick(7), sets((14, 2), (23, ("bytes", 1, 1))))),
    ("an override at each", (size(2),)),
    ("an override and a write at one", (pick(7), size(2), WRITE)),
    ("overrides at three", (pick(5, 6, 7), size(2))),
    ("no override", ()),
)


def states_in_a_run(more, tail):
    return run(ALL, MATCHED, pick(*range(more)), size(1), MATCHED, *tail)


def read():
    for name, tail in TAILS:
        for more in (5, 6, 7):
            for place in ("twice", "among"):
                yield "contents of 14,000 at eight, %d states in a run, %s, then 32 identities, %s" % (256 << more, name, place), (
                    *SETUP, *long(14_000, 18), pick(0), states_in_a_run(more, tail), *LEARN, again(9, MATCH)), place, 8
    for keys in ((18, 21, 23), (21,), (23,)):
        for length in (14_000, 7_000, 3_000):
            yield "%d bytes of keys %s at eight, 32,768 states in a run, an override, then 32 identities" % (length, " ".join(map(str, keys))), (
                *SETUP, *long(length, *keys), pick(0), states_in_a_run(7, TAILS[0][1]), *LEARN, again(9, MATCH)), "twice", 8
    asked = tries((("test", 1), ("test", 2)), None)
    for name, tail in TAILS[:3]:
        for place in ("twice", "among"):
            yield "contents of 14,000 at eight, 20,736 states in a run, %s, then 24 identities, %s" % (name, place), (
                *SETUP, *long(14_000, 18), pick(0), run(ALL, MATCHED, pick(0, 1, 2, 3), asked, *tail), pick(4, 5, 6, 7), *tests(1, 2),
                ALL, *tests(24, 5), pick(0), again(9, MATCH)), place, 8


# ---- next to a member of 62,000 sizes that the other procedure runs

def next_to_lost():
    for order, name in (((24, 5, 1, 2), "by key"), ((), "by component")):
        learn = (ALL, *tests(*order)) if order else tuple(node for at in EIGHT for node in (pick(at), *tests(1, 2, 24, 5)))
        for more in (6, 7):
            yield "%d states by match, then 32 identities are learnt %s, among" % (256 << more, name), (
                *SETUP, MATCHED, pick(*range(more)), size(1), MATCHED, *learn, pick(0), again(9, MATCH)), "among", 8
    each = in_sizes((1, 2, 3), INVOKE)
    digests = tries(*((digest(number, 64), MATCH) for number in (1, 2, 3)), None)
    yield "invokes of three sizes in turn in loops, among", *most(
        lambda times: (digest(0, 64), *under((1, 2, 3)), pick(0, times=times), run(*each * 200), pick(0)), "among", 8)
    yield "pairs in states of four digests, among", (
        digest(0, 64), size(1), digests, again(9, size(("v", 5)), MATCH), pick(0)), "among", 8
    yield "overrides of all in loops, among", *most(
        lambda times: (pick(0, times=times), run(*(ALL, size(1), size(2), pick(0)) * 300), pick(0)), "among", 8)


# ---- unsafe ones, whose path is followed a second time

def opened():
    for at in (3, 5, 8):
        yield "62,000 sizes at %d, invoked in another order at one after another, and one that is open" % at, in_turn(
            PLAIN, EIGHT[:at], 32_000, *OPEN_END), "severed", 8
    yield "62,000 sizes at eight, invoked in another order at all, and one that is open", at_once(PLAIN, EIGHT, 32_000, *OPEN_END), "severed", 8
    units = (("selections", (pick(0),)), ("lists", (pick(0, 1, 0), pick(1, 0))), ("runs", (run(pick(0)),)), ("tries", (tries((pick(0),), None),)),
             ("five runs", (run(run(run(run(run(pick(0)))))),)), ("runs at two", (pick(0, 1), run(pick(1)))),
             ("swaps", (SWAP,)))
    for name, unit in units:
        start = (ALL, sets((22, 1), (18, ("bytes", 1, 1))), pick(0))
        for place in ("severed", "twice"):
            yield "%s in loops, and an invoke that is open, %s" % (name, place), *most(functools.partial(
                lambda unit, times: (*start, pick(0, times=times), run(*unit * 300), pick(0), *OPEN_END), unit), place, 2)
    each = in_sizes((1, 2, 3), INVOKE)
    for place in ("among", "twice"):
        yield "invokes of three sizes in loops, and one that is open, %s" % place, *most(
            lambda times: (digest(0, 64), *under((1, 2, 3)), pick(0, times=times), run(*each * 200), *OPEN_END), place, 8)
    for more in (6, 7):
        yield "%d states by match, then 32 identities, and an invoke that is open in the last" % (256 << more), (
            *SETUP, MATCHED, pick(*range(more)), size(1), MATCHED, *LEARN, again(9, MATCH), *OPEN_END), "twice", 8
    for count in (200, 1_000, 1_300):
        many = tries(*((size(number), MATCH) for number in range(1_000, 1_000 + count)), None)
        yield "%d ways that are passed over, and an invoke that is open" % count, (sets((3, IMAGE)), many, *OPEN_END), "twice", 2


# ---- sequences that are looked through for a condition

def within(inside, body, depth, *end):
    inner = (*body, *end)
    for _ in range(depth):
        inner = (*body, inside(*inner))
    return inner


def looked_through():
    body = (pick(0),) * 200
    for depth in (2, 4, 6):
        for name, inside in (("runs", run), ("tries", lambda *inner: tries(inner, (pick(0),))), ("second branches", lambda *inner: tries(
                (("test", 14),), inner)), ("tries that go on", lambda *inner: tries(inner, None))):
            for end, tail in (("", ()), (", and an invoke that is open", OPEN_END)):
                forks = again(9, tries((size(("v", 9_000)), MATCH), None))
                yield "200 selections in each of %d %s, in states%s" % (depth, name, end), (
                    sets((3, IMAGE)), *within(inside, body, depth, MATCH), *tail, forks), "twice", 2
    for name, unit in (("runs", run(*body)), ("tries", tries(body, None))):
        yield "a try each before 60 %s without a condition, again and again" % name, (
            sets((3, IMAGE)), again(9, tries((size(("v", 9_000)), MATCH), None), *(unit,) * 8)), "twice", 2


# ---- what is held at once

def held():
    fork = (sets((3, IMAGE)), tries((size(9), MATCH), None))
    for count in (50_000, 62_000):
        numbers = PLAIN[:count]
        again_in_order = under(shuffled(numbers, 2))
        yield "%d sizes at eight in two states, linked, matched again, linked" % count, (
            *fork, *matched(numbers, EIGHT), INVOKE, *again_in_order, INVOKE, pick(0)), "severed", 8
        end = (pick(0), tries((size(70_001), MATCH), None), pick(*EIGHT), size(70_002), MATCH, INVOKE, pick(0))
        yield "%d sizes at eight, linked, matched again, linked, a fork and a match at eight" % count, (
            *matched(numbers, EIGHT), INVOKE, *again_in_order, INVOKE, *end), "severed", 8
        yield "%d sizes at eight, linked, under other digests, linked, a fork and a match at eight" % count, (
            *matched(numbers, EIGHT), INVOKE, *own(EIGHT, 1), pick(*EIGHT), *again_in_order, INVOKE, *end), "severed", 8
    for count, forks, more in ((60_000, 5, (SLOT, STRICT, (22, 0))), (62_000, 5, ()), (30_000, 6, (SLOT, STRICT, (22, 0)))):
        base = tuple(node for number in shuffled(range(1_000, 1_000 + count), 1) for node in (size(number, *more), MATCH))
        each = (tries((size(9_000_000 + number), MATCH, INVOKE, size(1)), None) for number in range(forks))
        yield "%d sizes with %d more keys, copied by %d forks in a run" % (count, len(more), forks), (
            sets((3, IMAGE)), *base, size(1), MATCH, INVOKE, run(*each), INVOKE, pick(0)), "severed", 2


def against_walks():
    for thought in (lost, read, next_to_lost, opened, looked_through, held):
        yield from thought()
