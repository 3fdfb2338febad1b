"""Plans made against states that go on alone, by reading how they do: what is never freed beside what is read, what each of them does in its
tail, tries whose last branch splits, overrides that are told together, matches whose place is forgotten, more matches than are kept,
identities alone, and lists that are made again and again."""

import against
from bred import ALL, EACH, EIGHT, IMAGE, INVOKE, MATCH, SWAP, WRITE, again, nested, pick, run, sets, size, tries

CONTENT = sets((18, ("bytes", 0xAA, 1)), (22, 1), (21, ("bytes", 20, 1)))
START = (ALL, CONTENT, pick(0))
START_8 = (ALL, CONTENT, sets((3, IMAGE)), pick(7))
LAST = (size(8_888), MATCH)
TWO = (size(1), size(2))
TWELVE = sets((3, ("digest", 9, 64)), (5, 1), (12, True), (13, True), (14, 7), (18, ("bytes", 1, 1)), (21, ("bytes", 1, 1)), (22, 0),
              (23, ("bytes", 1, 1)), *((key, ("bytes", 7, 16)) for key in (1, 2, 24)))
# As in `against`: digests that begin alike, each of which lies below the one before it.
ALIKE = (0x548ae1127235b07e, 0x829cd6c0977fd230, 0xc035d2833f7ea01c, 0x700ce38afb432a5e, 0x98af62ea15b92aab, 0xd84efb84400d1083,
         0x36bdbb609388c52b, 0x29ca34ea1e6a0e5a)


def forks(count):
    return again(count, tries((size(("v", 9_000)), MATCH), None))


def alike(number):
    return sets((3, ("alike", number, 64)))


def looped(counts, *inner):
    for count in reversed(counts):
        inner = (pick(0, 1, times=count // 2), run(*inner))
    return (*inner, pick(0))


def by_identity(count):
    """Forks by identity, beginning with the last component."""
    keys = tuple(tries((sets((key, ("bytes", 7, 16))), ("test", key)), None) for key in (1, 2, 24)) + (
        tries((sets((5, 9)), ("test", 5)), None),)
    return tuple(node for at in range(count) for node in ((pick(7 - at // 4),) if at % 4 == 0 else ()) + (keys[at % 4],))


# ---- what is held next to a long member of the other procedure, since what was read stays until everything is judged

def beside():
    for name, tail in (("writes", (WRITE,)), ("swaps", (SWAP,)), ("two sizes and a write", (*TWO, WRITE)), ("writes and sizes", (WRITE, size(1)))):
        yield "%s in loops, beside" % name, (*START, *looped((100, 100), again(9, *tail))), "beside", 2
        for count in (11, 12, 13):
            yield "%d forks in a run, then %s, beside" % (count, name), (*START, run(forks(count), again(9, *tail))), "beside", 2
    for count in (11, 12, 13, 14):
        yield "%d forks of eight, all overridden, then writes, beside" % count, (
            *START_8, run(forks(count), ALL, size(7), pick(7), again(9, WRITE))), "beside", 8
    for count in (12, 14, 15, 16):
        yield "%d forks by identity, all overridden, then writes, beside" % count, (
            *START_8, run(*by_identity(count), ALL, size(7), pick(7), again(9, WRITE))), "beside", 8
        yield "%d forks by identity, then writes, beside" % count, (*START_8, run(*by_identity(count), again(9, WRITE))), "beside", 8
    yield "states of their own in all, then writes, beside", (
        *START_8, run(forks(4), *by_identity(8), ALL, size(7), sets((5, 3)), pick(7), again(9, WRITE))), "beside", 8
    yield "12 forks alone, then writes, beside", (*START, forks(12), again(9, WRITE)), "beside", 2
    yield "11 forks alone, writes and a fork, beside", (*START, forks(11), again(150, WRITE), forks(1), again(9, WRITE)), "beside", 2
    yield "a last branch of 12 forks, then writes, beside", (*START, tries(LAST, (forks(12), again(9, WRITE)))), "beside", 2


# ---- what each state does in its tail

def tails():
    eight_alike = tuple(node for at in range(8) for node in (pick(at), alike(ALIKE[at]), MATCH))
    for count in (3, 9, 12):
        yield "%d forks, then matches of eight at eight" % count, (
            *eight_alike, pick(0), forks(count), *eight_alike[:2], pick(*range(8)), again(9, MATCH)), "twice", 8
        yield "%d forks, then invokes of eight at eight" % count, (
            *eight_alike, pick(0), forks(count), *eight_alike[:2], pick(*range(8)), again(9, INVOKE)), "twice", 8
        yield "%d forks, then eight in turn" % count, (
            *eight_alike, pick(0), forks(count), alike(ALIKE[0]), again(9, *(node for at in range(8) for node in (pick(at), MATCH)))), "twice", 8
        yield "%d forks, then twelve keys and runs" % count, (*START, forks(count), again(9, TWELVE, run(size(1)))), "twice", 2
        yield "%d forks, then eight keys and a match" % count, (*START, sets((3, IMAGE)), forks(count), again(9, EIGHT, MATCH)), "twice", 2
        yield "%d forks, then runs of a size and a write" % count, (*START, forks(count), again(9, run(size(1), WRITE))), "twice", 2
        yield "%d forks, then tries of an override" % count, (*START, forks(count), again(9, tries((size(1),), None))), "twice", 2
        yield "%d forks, then a match, a write and a match" % count, (
            *START, forks(count), again(9, size(EACH), MATCH, MATCH, WRITE)), "twice", 2
        yield "%d forks, then runs five deep" % count, (*START, forks(count), again(9, nested(run, 5))), "twice", 2
        yield "%d forks, then twelve keys at 22 and a write" % count, (
            *START, forks(count), pick(0, 1, times=11), again(9, TWELVE, WRITE)), "twice", 2
    for count in (3, 5):
        turns = tuple(node for one in ALIKE[:count] for node in (alike(one), MATCH, WRITE, MATCH))
        yield "12 forks, then %d alike, matched, written and matched" % count, (*START, forks(12), again(1, *turns)), "twice", 2
        yield "%d alike in loops, invoked in 16 states" % count, (
            ALL, *(node for one in ALIKE for node in (alike(one), MATCH)), pick(0), forks(4),
            *looped((100, 20), again(1, *(node for one in ALIKE[:count] for node in (alike(one), INVOKE))))), "twice", 2


# ---- tries whose last branch splits

def last_ones():
    wide = tries((size(8_888), MATCH), (run(size(("v", 9_000)), MATCH),))
    short = tries((MATCH,), (run(MATCH),))
    two = tries((MATCH,), (tries((MATCH,), None),))
    for name, one in (("of a run", wide), ("of a match and a run", short), ("of a match and a try", two)):
        for at, count in ((pick(0), 2), (pick(0, 1), 2), (pick(0, 1, 0), 2)):
            yield "last branches %s, one after another at %d" % (name, len(at[1])), (
                sets((3, IMAGE)), at, again(100, one), pick(0)), "twice", count
        yield "last branches %s, then matches" % name, (sets((3, IMAGE)), again(7, one), again(9, size(EACH), MATCH)), "twice", 2
        yield "last branches %s behind 100 matches" % name, (
            sets((3, IMAGE)), again(100, size(EACH), MATCH), size(7), again(100, one)), "twice", 2
    yield "last branches of nine commands", (
        *START, sets((3, IMAGE)), again(100, tries((size(8_888), MATCH), (WRITE,) * 9))), "twice", 2
    yield "last branches of nine commands, then pairs", (
        *START, sets((3, IMAGE)), again(7, tries((size(8_888), MATCH), (WRITE,) * 9)), again(9, size(EACH), MATCH)), "twice", 2
    yield "last branches in last branches of last branches", (
        sets((3, IMAGE)), nested(lambda one: tries(LAST, (*(wide, wide), one)), 4), again(9, size(EACH), MATCH)), "twice", 2
    for count in (8, 20):
        yield "a last branch of many forks behind %d branches" % count, (
            sets((3, IMAGE)), tries(*((size(500 + at), MATCH) for at in range(count)), (forks(6), again(9, size(1), MATCH)))), "twice", 2
    yield "a last branch at 22 in the last of two", (
        ALL, sets((3, IMAGE)), MATCH, pick(0, 1, times=2), tries((size(1), MATCH), (tries((size(2), MATCH), (run(size(3)),)),)), pick(0),
        again(9, size(EACH), MATCH)), "twice", 2
    yield "equal states behind last branches", (
        *START, sets((3, IMAGE)), MATCH, again(9, tries((size(7), MATCH), (size(7), run(run(size(8), MATCH)), size(1)))), again(9, WRITE)), "twice", 2


# ---- overrides that are reported together, at lists of components

def told():
    for count in (3, 8, 22):
        at = pick(*(number % 2 for number in range(count)))
        yield "four sizes at %d, then a write, in 1,024 states" % count, (
            *START, run(forks(10), at, *(size(number) for number in range(4)), pick(0), again(9, WRITE))), "twice", 2
        yield "an override at %d in 4,096 states" % count, (*START, forks(12), at, again(9, size(EACH))), "twice", 2
    for count in (4, 5, 9):
        sizes = tuple(size(number) for number in range(count))
        yield "%d sizes told together, in loops" % count, (*START, *looped((100, 100), again(9, *sizes, WRITE))), "beside", 2
        yield "%d sizes told together, at two" % count, (
            *START, *looped((100, 50), pick(0, 1), again(9, *sizes, WRITE))), "twice", 2
        yield "%d sizes told together in 4,096 states" % count, (*START, run(forks(12), again(9, *sizes, WRITE))), "beside", 2
    yield "runs of four sizes", (*START, *looped((100, 100), again(9, run(*(size(number) for number in range(4)))))), "twice", 2
    yield "runs of a size", (*START, *looped((100, 100), again(9, run(size(1))))), "twice", 2
    yield "runs of a size and a size", (*START, *looped((100, 100), again(9, run(size(1)), size(2)))), "twice", 2
    yield "runs of two sizes and twelve keys", (*START, *looped((100, 100), again(9, run(*TWO), TWELVE))), "twice", 2


# ---- matches whose place differs from state to state

def places():
    for count in (4, 6, 8, 10):
        turned = tuple(tries((size(2 * at), MATCH, size(2 * at + 1), MATCH), (size(2 * at + 1), MATCH, size(2 * at), MATCH), None)
                       for at in range(count // 2))
        yield "%d in another order in each state, then matches" % count, (
            sets((3, IMAGE)), *turned, again(9, *(node for at in range(count) for node in (size(at), MATCH)))), "twice", 2
    for count in (6, 10, 12):
        yield "%d forks, then four times as many linked anew" % count, (
            sets((3, IMAGE)), forks(count), again(9, size(EACH), MATCH)), "twice", 2
        yield "%d forks, then matches written away" % count, (
            *START, sets((3, IMAGE)), forks(count), again(9, size(EACH), MATCH, size(("v", 1)), MATCH, WRITE)), "twice", 2


# ---- more matches than are kept as used last: each component has its own digest or size

def digest(number, length=32):
    return sets((3, ("digest", number, length)))


def at_each(count, one):
    """At each of `count` components what `one` makes for it."""
    return tuple(node for at in range(count) for node in (pick(at), one(at)))


def ways_of(count, one):
    """`count` ways. In each of them each of eight components has something of its own."""
    return tries(*((*at_each(8, lambda at: one(8 * number + at)), MATCH) for number in range(count - 1)), None)


DIGESTS = at_each(8, lambda at: digest(at))
ALL_SIZES = (ALL, again(9, size(EACH), MATCH), pick(0))
ALL_DIGESTS = (ALL, again(9, sets((3, ("v", ("digest", 300, 32)))), MATCH), pick(0))


def distinct():
    for count in (7, 8):
        yield "%d forks, then sizes at eight digests" % count, (forks(count), *DIGESTS, *ALL_SIZES), "twice", 8
    for count in (3, 5):
        yield "%d forks, then sizes at eight digests, severed" % count, (forks(count), *DIGESTS, *ALL_SIZES), "severed", 8
    fortieth = tries(*((digest(300 + number), MATCH) for number in range(40)), None)
    yield "2 forks and 40 digests, then sizes at eight", (*DIGESTS, pick(0), forks(2), fortieth, *ALL_SIZES), "twice", 8
    for count, ways in ((6, 8), (6, 16), (5, 32)):
        yield "%d forks, then %d ways of eight sizes, then digests at eight" % (count, ways), (
            *START_8, forks(count), ways_of(ways, lambda number: size(1_000 + number)), *ALL_DIGESTS), "twice", 8
    yield "16 ways of eight digests, then sizes at eight", (
        *START_8, forks(3), ways_of(16, digest), *ALL_SIZES), "twice", 8
    for count in (15, 20):
        every = tries(*((digest(300 + number), MATCH) for number in range(count)), None)
        yield "%d digests, then pairs, severed" % count, (every, again(100, size(EACH), MATCH)), "severed", 2
    eightieth = tries(*((digest(300 + number), MATCH) for number in range(80)), None)
    yield "4 forks and 80 digests, then pairs", (forks(4), eightieth, again(100, size(EACH), MATCH)), "twice", 2


# ---- identities alone: with two conditions in a try, one state becomes three in three steps

IDS = ((1, ("bytes", 7, 16)), (2, ("bytes", 7, 16)), (24, ("bytes", 7, 16)), (5, 9))
ALL_IDS = (ALL, sets((3, IMAGE), *IDS), pick(0))


def asked(*keys):
    return tries(*((("test", key),) for key in keys), None)


def enclosed(node, depth, inside):
    return node if depth == 0 else inside(enclosed(node, depth - 1, inside))


AT_FIVE = (pick(0, 1, 2, 3, 4), sets((3, IMAGE), *IDS), pick(0))
CELLS = tuple(tries((sets((23, ("bytes", number, 1))), ("test", key)), None) for number, key in ((1, 24), (2, 5)))
NINE = run(AT_FIVE[0], asked(1, 2), pick(1, 2, 3, 4), asked(24, 5), pick(0), *CELLS)


def by_three():
    ten = (ALL, asked(1, 2), pick(6, 7), asked(24, 5), pick(0))
    for place in ("twice", "beside"):
        yield "78,732 states by identity and cell, %s" % place, (*AT_FIVE, NINE), place, 8
    yield "59,049 states by identity, then an override at two", (*ALL_IDS, run(*ten, pick(0, 1), size(5), pick(0))), "twice", 8
    yield "59,049 states by identity, all overridden", (*ALL_IDS, run(*ten, ALL, size(5), pick(0))), "twice", 8
    yield "59,049 states by identity, then 12 more are learnt", (
        *ALL_IDS, run(ALL, asked(1, 2), pick(0, 1), asked(24, 5)), pick(2, 3, 4, 5, 6, 7), ("test", 24), ("test", 5), pick(0)), "twice", 8
    yield "15 forks, then 32 identities are learnt", (
        *ALL_IDS, forks(15), ALL, *(("test", key) for key in (1, 2, 24, 5)), pick(0), again(1, WRITE)), "twice", 8
    # Each sequence around a fork costs one step and adds no way, and each state after it is put back there.
    eight = (ALL, asked(1, 2), pick(0))
    for name, inside in (("runs", run), ("tries", lambda one: tries((one,), None))):
        deep = tuple(enclosed(tries((size(20 + number), MATCH), None), 5, inside) for number in range(3))
        yield "6,561 states by identity, then 3 forks in five %s" % name, (*ALL_IDS, run(*eight, *deep)), "twice", 8
        whole = enclosed(run(pick(0, 1, 2, 3), *(asked(key) for key in (1, 2, 24, 5))), 5, inside)
        yield "16 identities in five %s" % name, (*ALL_IDS, whole, pick(0)), "twice", 8
    for identities, first in ((10, 5), (12, 0)):
        yield "%d forks by identity and %d by match from %d on, beside" % (identities, 16 - identities, first), (
            run(*against.in_turns(identities, 16 - identities, first)),), "beside", 8


# ---- lists that are made again and again, and events that are kept twice

def made_again():
    both = (ALL, CONTENT, sets((3, IMAGE)))
    for count in (2, 17):
        matches = tuple(node for number in range(count) for node in (size(number), MATCH))
        yield "12 forks, then %d matches at two and a swap" % count, (
            *both, pick(0), forks(12), again(9, pick(0, 1), *matches, pick(0), SWAP)), "twice", 2
    last = (ALL, sets((3, IMAGE), (18, ("bytes", 0xAA, 1)), (22, 6)), pick(7))
    turns = (MATCH, size(1), MATCH, WRITE, MATCH, size(2), MATCH, WRITE)
    yield "12 forks, then two matches and a write at the last of eight", (*last, forks(12), again(9, *turns)), "twice", 8
    deep = tuple(node for one in against.DEEP for node in (alike(one), MATCH))
    yield "12 forks, then 22 deep at two and a swap", (*last, forks(12), again(1, pick(6, 7), *deep, pick(7), SWAP)), "twice", 8
    yield "writes in loops, then a fork, beside", (
        *START, *looped((100, 100), again(9, WRITE)), tries((size(1), MATCH), None)), "beside", 2
    for count in (3, 5):
        yield "%d forks and writes in a run, severed" % count, (*START, run(forks(count), again(9, WRITE))), "severed", 2


# ---- each procedure has its own width, so the costs of both add up

def along():
    yield "7 forks, then sizes at eight digests, along", (forks(7), *DIGESTS, *ALL_SIZES), "along", 8
    yield "78,732 states by identity and cell, along", (*AT_FIVE, NINE), "along", 8


def against_alone():
    for thought in (beside, tails, last_ones, told, places, distinct, by_three, made_again, along):
        yield from thought()
