"""The plans that `bench/search` begins with: plans that were dear at some time, and plans that were made by reading the checker's code. Each
is of another kind. If a plan ends with a repetition, that is not yet filled."""

from against import against
from against_alone import against_alone
from against_last import against_last
from against_lists import against_lists
from against_pairs import against_pairs
from against_room import against_room
from against_sides import against_sides
from against_tables import against_tables
from against_walks import against_walks
from against_words import against_words
from bred import ALL, EACH, IMAGE, INVOKE, MATCH, SWAP, WRITE, Plan, again, nested, pick, run, sets, size, tries

ALL_KEYS = tuple((key, ("bytes", 0, 16)) for key in (1, 2, 24)) + (
    (3, IMAGE), (5, 0), (13, False), (18, ("bytes", 0xAA, 1)), (21, ("bytes", 20, 1)), (22, 0), (23, ("bytes", 0xAA, 1)))
CONTENT = sets((18, ("bytes", 0xAA, 1)), (22, 1), (21, ("bytes", 20, 1)))
CELLS = tuple(
    tries((size(100 + number, cell), MATCH), None)
    for number, cell in enumerate(((5, 1), (18, ("bytes", 1, 1)), (23, ("bytes", 2, 1)), (21, ("bytes", 3, 1)),
                                   (1, ("bytes", 4, 16)), (2, ("bytes", 5, 16)), (24, ("bytes", 6, 16))))
)
LAST = (size(8_888), MATCH)
# With these sizes and the digest of 32 bytes 0x11, each match lies below the one before it in the search tree, and that of size 0 below all.
DEEP = (1_283, 2_200, 10_751, 20_702, 46_874, 71_662, 272_081, 464_996, 1_022_571, 1_040_589, 5_691_220, 7_016_594, 9_657_326, 12_629_774,
        27_040_640, 126_098_492, 247_349_042, 477_141_728, 1_234_494_685)


def forks(count, *more):
    return again(count, tries((size(("v", 9_000), *more), MATCH), None))


def pairs(count, first=0):
    return again(count, size(("v", first)), MATCH)


def cells(count):
    return CELLS * (count // 7) + CELLS[:count % 7]


def distinct(count):
    """Forks, each with a cell and a size of its own."""
    kinds = ((5, EACH), (18, ("v", ("bytes", 1, 8))), (23, ("v", ("bytes", 2, 8))), (21, ("v", ("bytes", 3, 8))))
    return tuple(again(count // 4 + (number < count % 4), tries((size(("v", 100 + 200 * number), cell), MATCH), None))
                 for number, cell in enumerate(kinds))


def identities(count):
    """Forks on vendor, class, device and slot of one component after another."""
    tests = tuple(tries((("test", key),), None) for key in (1, 2, 24, 5))
    return tuple(node for number in range(0, count, 4) for node in (pick(number // 4), *tests[:count - number]))


KNOWN_IDS = (ALL, sets((1, ("bytes", 1, 16)), (2, ("bytes", 2, 16)), (24, ("bytes", 3, 16)), (5, 7), (3, IMAGE)), pick(0))
FULL = (ALL, sets((14, 0), *ALL_KEYS), pick(0))
START = (ALL, CONTENT, pick(0))


def looped(counts, *inner):
    """The nodes in loops over two components, each loop inside the one before it."""
    for count in reversed(counts):
        inner = (pick(0, 1, times=count // 2), run(*inner))
    return (*inner, pick(0))


def digests(kind, count):
    """A match at each component, each with a digest of 64 bytes of its own."""
    return tuple(node for number in range(count) for node in (pick(number), sets((3, (kind, number, 64)), (14, number)), MATCH))


def contents(length, count=8):
    return (ALL, sets((18, ("bytes", 7, length))), pick(count - 1), sets((3, IMAGE)))


def ways(count, key, length=2):
    """`count` ways, each with another value for a key."""
    return tries(*((sets((key, ("bytes", 256 * number + 97, length))), MATCH) for number in range(count)), None)


def outside():
    yield "many matches", (pairs(100),), "invoke", 2
    yield "matches of 64 states", (forks(6), pairs(100)), "invoke", 2
    yield "failures of a last branch", (forks(3), tries(LAST, (pairs(100),))), "invoke", 2
    yield "failures of two last branches", (tries(LAST, (tries(LAST, (pairs(100),)),)),), "invoke", 2
    yield "forks in a last branch, then pairs", (tries(LAST, (forks(10), pairs(100))),), "invoke", 2
    yield "more forks in a last branch, then pairs", (tries(LAST, (forks(12), pairs(100))),), "invoke", 2
    yield "forks in a last branch, then few sizes", (tries(LAST, (forks(12), again(100, size(1), MATCH, size(2), MATCH))),), "invoke", 2
    yield "forks in a last branch, then slots", (tries(LAST, (forks(12), sets((5, 7)), again(100, ("test", 5)))),), "invoke", 2
    yield "forks in a last branch, then a match", (tries(LAST, (forks(12), again(100, MATCH))),), "invoke", 2
    yield "forks in a last branch, then matches and writes", (CONTENT, tries(LAST, (forks(10), again(100, MATCH, WRITE)))), "invoke", 2
    yield "the same in a severed member", (tries(LAST, (pairs(100),)),), "severed", 2
    yield "matches at 2,000 components", (sets((3, IMAGE)), pick(0, 1, times=1_000), again(100, MATCH)), "invoke", 2
    yield "writes at 4,000 components", (*START, pick(0, 1, times=2_000), again(100, WRITE)), "invoke", 2
    yield "swaps at 4,000 components", (*START, pick(0, 1, times=2_000), again(100, SWAP)), "invoke", 2
    yield "a match and a write at 2,000", (*START, pick(0, 1, times=1_000), again(100, MATCH, WRITE)), "invoke", 2
    yield "invokes at 4,000 of 8", (*digests("digest", 8), pick(*range(8), times=500), again(100, INVOKE)), "invoke", 8
    yield "matches at 4,000 of 8", (*digests("digest", 8), pick(*range(8), times=500), again(100, MATCH)), "invoke", 8
    yield "runs over 1,000", (pick(0, 1, times=500), again(100, run(pick(0))), pick(0)), "invoke", 2
    yield "runs over 1,000, five deep", (pick(0, 1, times=500), again(100, nested(run, 5)), pick(0)), "invoke", 2
    yield "identities at the top", (*KNOWN_IDS, *identities(16)), "invoke", 8
    yield "slots excluded", (tries(*((sets((5, number)), ("test", 5)) for number in range(200)), None),), "invoke", 2
    yield "pairs in a branch", (forks(6), tries((pairs(20),), None)), "invoke", 2
    yield "states alone, then a run", (*START, forks(4), pick(0, 1, times=1_000), again(100, WRITE), pick(0), run(pick(0))), "invoke", 2
    yield "pairs of states alone, then a fork in a run", (forks(7), pairs(100), run(forks(1))), "invoke", 2
    yield "an open invoke behind writes", (*START, *looped((20, 20, 2), again(100, WRITE))), "told", 2


def in_states():
    for count in (13, 14, 15, 16):
        yield "%d forks of distinct cells" % count, (run(*distinct(count)),), "invoke", 2
    for count in (12, 13, 14):
        yield "%d forks of cells, then writes" % count, (CONTENT, run(*cells(count), again(10, WRITE))), "invoke", 2
    yield "two forks at eight components each", (run(ALL, again(2, tries((size(EACH, (3, IMAGE)), MATCH), None))),), "invoke", 8
    yield "identities, then writes", (*KNOWN_IDS, CONTENT, run(*identities(13), pick(0), again(10, WRITE))), "invoke", 8
    yield "identities and cells", (*KNOWN_IDS, run(*identities(12), *cells(3))), "invoke", 8
    for count in (12, 13, 14):
        yield "%d forks, override and selection in turn" % count, (*FULL, run(forks(count), again(9, size(EACH), pick(0)))), "invoke", 8
        yield "%d forks, override and write in turn" % count, (*FULL, run(forks(count), again(9, size(EACH), WRITE))), "invoke", 8
        yield "%d forks, all keys and write in turn" % count, (
            *FULL, run(forks(count), again(9, sets((14, EACH), *ALL_KEYS), WRITE))), "invoke", 8
        yield "%d forks, runs of overrides" % count, (*FULL, run(forks(count), again(9, run(size(EACH))))), "invoke", 8
        yield "%d forks, five runs" % count, (*FULL, run(forks(count), again(9, nested(run, 5)))), "invoke", 8
        yield "%d forks, five tries" % count, (*FULL, run(forks(count), again(9, nested(lambda one: tries((one,), None), 5)))), "invoke", 8
        yield "%d forks, invokes" % count, (
            sets((3, IMAGE)), MATCH, run(forks(count), sets((14, 9_000)), again(9, MATCH, INVOKE))), "invoke", 2
    for count in (6, 11):
        yield "%d forks in a run, pairs in a branch" % count, (run(forks(count), tries((pairs(10),), None)),), "invoke", 2
        yield "%d forks in a run, pairs that may end a run" % count, (run(forks(count), run(sets((13, True)), pairs(10))),), "invoke", 2
        yield "%d forks in a run, slots in branches" % count, (
            run(forks(count), tries(*((sets((5, number)), ("test", 5)) for number in range(16)), None)),), "invoke", 2
    yield "tries of a run of two", (*FULL, run(forks(13), again(9, tries((pick(0, 1), run(pick(0))), None)))), "invoke", 8
    yield "runs that set and write", (CONTENT, run(forks(12), again(9, sets((18, ("v", ("bytes", 1, 1)))), run(WRITE)))), "invoke", 2
    for length in (100, 10_000):
        yield "contents of %d, overridden" % length, (*contents(length), run(forks(13), again(9, size(EACH), WRITE)), pick(0)), "invoke", 8
    yield "contents of 90,000, severed", (*contents(90_000), run(forks(14), again(9, size(EACH), WRITE)), pick(0)), "severed", 8


    for count, selected in ((16, 5), (15, 8)):
        cut = pick(*range(8 - selected, 8))
        yield "%d forks of cells, then an override at %d" % (count, selected), (
            run(*distinct(count), cut, sets((23, ("bytes", 7, 1))), pick(0)),), "invoke", 8
    twos = again(2, tries((size(EACH, (3, IMAGE)), MATCH), None))
    yield "two forks at eight components each, then an override", (
        run(pick(*range(8)), twos, pick(5, 6, 7), sets((23, ("bytes", 7, 1))), pick(0)),), "invoke", 8
    threes = tries((size(EACH, (24, ("v", ("bytes", 1, 16)))), ("test", 24), MATCH), None)
    yield "forks of cell, identity and match", (run(*(node for number in range(8) for node in (pick(number), threes))),), "invoke", 8


def compared():
    for length, count in ((6_000, 300), (13_900, 100)):
        yield "states that differ in the last content, beside %d" % length, (
            *contents(length), run(ways(count, 23), run(MATCH)), pick(0)), "invoke", 8
        yield "three times eight ways beside %d" % length, (
            *contents(length), MATCH, run(ways(8, 18), ways(8, 21), ways(8, 23), run(MATCH)), pick(0)), "invoke", 8
    yield "the same beside 900,000, severed", (*contents(900_000), run(ways(100, 23), run(MATCH)), pick(0)), "severed", 8
    yield "forks with many matches, then equal ones", (pairs(400), run(forks(11), tries((size(1), MATCH), None))), "invoke", 2
    yield "pairs before, writes behind", (pairs(400), pick(1), CONTENT, pick(0), run(forks(10), pick(1), again(9, WRITE))), "invoke", 2
    yield "states that differ in a flag", (MATCH, run(*(node for number in range(7) for node in (
        pick(number), tries((sets((12, True), (14, number)), MATCH), None), tries((sets((13, True), (14, number)), MATCH), None)))), pick(0)), "invoke", 8


def in_loops():
    for name, act in (("writes", WRITE), ("swaps", SWAP)):
        yield "%s in loops" % name, (*START, *looped((20, 20, 2), again(100, act))), "invoke", 2
        yield "%s at 100 components in a loop" % name, (*START, *looped((20, 20), pick(0, 1, times=50), again(10, act))), "invoke", 2
        yield "%s at 2 components in a loop" % name, (*START, *looped((100, 100), pick(0, 1), again(10, act))), "invoke", 2
        yield "%s, selected anew" % name, (*START, *looped((100, 100), again(10, pick(0), act, pick(1), act))), "invoke", 2
    eight = (pick(0, 1, times=50), run(pick(0, 1, times=25), run(ALL, again(10, INVOKE))), pick(0))
    yield "invokes at eight", (*digests("digest", 8), *eight), "invoke", 8
    few = tuple(node for number in range(100) for node in (size(number), INVOKE))
    yield "invokes under many sizes", (sets((3, IMAGE)), pairs(100), pick(0, times=100), run(pick(0, times=200), run(*few)), pick(0)), "invoke", 2
    alike = tuple(sets((3, ("alike", number, 64))) for number in range(100))
    matched, invoked = (tuple(node for one in alike for node in (one, act)) for act in (MATCH, INVOKE))
    yield "invokes under digests that begin alike", (*matched, pick(0, times=100), run(pick(0, times=200), run(*invoked)), pick(0)), "invoke", 2
    yield "invokes under two digests that begin alike", (
        ALL, *matched[:4], pick(0), *looped((100, 100), again(10, *invoked[:4]))), "invoke", 2
    yield "an override and an invoke in turn", (ALL, sets((3, IMAGE)), MATCH, pick(0), *looped((100, 100), again(10, sets((3, IMAGE)), INVOKE))), "invoke", 2
    deep = (ALL, sets((3, IMAGE)), *(node for number in DEEP + (0,) for node in (size(number), MATCH)), pick(0))
    yield "invokes of a match twenty deep", (*deep, *looped((100, 100), again(10, INVOKE))), "invoke", 2
    yield "matches twenty deep at 2,000 components", (*deep, pick(0, 1, times=1_000), again(10, MATCH)), "invoke", 2
    yield "invokes of two matches in turn, twenty deep", (*deep, *looped((100, 100), again(10, size(0), INVOKE, size(DEEP[-1]), INVOKE))), "invoke", 2
    yield "runs of a selection", looped((126, 126), again(10, run(pick(0)))), "invoke", 2
    yield "five runs, one in the next", looped((100, 100), again(10, nested(run, 4))), "invoke", 2
    yield "tries of a selection", looped((100, 100), again(10, tries((pick(0),), None))), "invoke", 2
    yield "tries of an override", looped((100, 100), again(10, tries((size(1),), None))), "invoke", 2
    yield "overrides of all keys and a write", (*START, *looped((100, 10), again(9, pick(0, 1), sets((14, 0), *ALL_KEYS), WRITE))), "invoke", 2
    yield "four overrides of all keys and a write", (*START, *looped((100, 10), again(9, *(sets((14, 0), *ALL_KEYS),) * 4, WRITE))), "invoke", 2
    yield "copies and fetches", (*START, *looped((20, 20, 2), again(9, ("act", 22), ("act", 21)))), "invoke", 2
    for length, count in ((14_000, 1), (4_000, 3), (3_900, 4), (1_900, 8), (300, 9)):
        several = tuple(sets((18, ("bytes", number, length))) for number in range(count))
        yield "%d contents of %d" % (count, length), looped((100, 100, 400 // (count + 1)), *several), "invoke", 2
    threes = tuple(sets((18, ("bytes", number, 4_100))) for number in range(3))
    yield "three contents at both components", looped((100, 100, 40), ALL, *threes), "invoke", 2
    yield "overrides apart", looped((100, 100), again(10, size(EACH), pick(0), size(EACH), pick(1))), "invoke", 2
    yield "an override in loops", looped((100, 100), again(10, size(EACH))), "invoke", 2


def long_ones():
    yield "a severed member of writes", (CONTENT, again(100, WRITE)), "severed", 2
    yield "a severed member of slots", (again(100, sets((5, 0))),), "severed", 2
    yield "a severed member of tries", (again(100, tries((pick(0),), None)),), "severed", 2
    yield "a severed member of lists", (again(100, pick(0, 1)), pick(0)), "severed", 2
    yield "a severed member of pairs", (again(100, size(EACH), MATCH),), "severed", 2
    yield "a shared sequence of overrides", (forks(3), again(100, size(EACH))), "shared", 2
    yield "a member behind states", (run(forks(12), again(10, size(EACH)))), "behind", 2


def known():
    """All plans, by name."""
    all = {}
    for kind in (outside, in_states, compared, in_loops, long_ones, against, against_alone, against_lists, against_tables, against_words,
                 against_pairs, against_last, against_room, against_sides, against_walks):
        for name, nodes, place, count in kind():
            nodes = nodes if isinstance(nodes[0], tuple) else (nodes,)
            all[name] = Plan(nodes, place, count)
    return all
