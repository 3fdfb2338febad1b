"""Plans that were made against the tables of matches, by computing the place that a match has in them: two matches with the same place, so
that each is put into its list again and again; matches that lie deep in a list; and matches that are made anew each time, and stay until
the judgement ends."""

import against_lists
from bred import ALL, EACH, IMAGE, INVOKE, MATCH, WIDEST, WRITE, again, pick, run, sets, size, tries

CONTENT = sets((18, ("bytes", 0xAA, 1)), (22, 1), (21, ("bytes", 20, 1)))
EIGHT = tuple(range(8))
SEVEN = ((5, 0), (12, True), (13, True), (18, ("bytes", 1, 0)), (21, ("bytes", 97, 0)), (22, 0), (23, ("bytes", 1, 0)))
# Sizes whose matches, with the digest of 32 bytes 0x11, have a fingerprint that ends in fifteen zeros and has nine more in its middle. Each
# lies below those before it.
DEEP = (
    10027453, 14858039, 18904430, 25039188, 43536129, 43564780, 43833288, 53992873, 58255637, 61798552, 149073047, 156870666, 157579762,
    164190234, 171639225, 182048334, 195623007, 267817819, 270497905, 273124411, 281608816, 285267957, 332492758, 353698041, 361805901,
    367954897, 368145653, 374761683, 383186019, 385860227, 408608297, 425674883, 427943200, 437275824, 440122669, 448173422, 453981839,
    456578682, 463271228, 493010762, 495505207, 501584346, 536393302, 536656473, 541301520, 549565093, 550743303, 551839966, 582133302,
    605867366, 666768094, 688077399, 693169986, 698135275, 720341461, 723191558, 735027249, 769522588, 776161021, 781759556, 804601441,
    819400654, 856149411, 860150706, 868051666, 924974882, 946184504, 958671911, 959615374, 968280761, 976548951, 983016732, 984076777,
    1044674445, 1049246195, 1082128581, 1153664303, 1168098567, 1208788646, 1209200264, 1282876384, 1298593466, 1302786695, 1304455835,
    1313732628, 1319945413, 1324343853, 1339387191, 1376093828, 1389347371, 1416916257, 1433968191, 1474489493, 1509894590, 1525340603,
    1534375265, 1544656281, 1545882531, 1560798479, 1565721168, 1607264972, 1612250812, 1626932883, 1657444151, 1657629954, 1659183119,
    1660909305, 1680233698, 1695187597, 1707848127,)
# In each pair, the first at component 0 and the second at component 1 have the same place.
DEEP_PAIR, SHALLOW_PAIR = (55_752_730, 752_359_645), (528, 104)
# For each component, two sizes that have the same place among all matches and among those of the component. Among the matches used last
# all of these have the same place.
BOTH = (
    (6320016898366597851, 3180161213313476319),
    (1694479192922533926, 8928724347710650205),
    (13405216204444665648, 11756512020608633474),
    (859186608778608177, 15847965889582842996),
    (15246171114375862404, 1064504829607262319),
    (9942540514137580830, 11627648117727829996),
    (7164430044369280278, 347701035304751383),
    (3511770658940279507, 14572950634206166822),
)


def under(numbers, command=MATCH):
    return tuple(node for number in numbers for node in (size(number), command))


def digest(number):
    return sets((3, ("digest", number, 32)))


# ---- two matches with the same place, one of each of two components: each is put there again, and those that are there twice are dropped

def behind(count, numbers, one, other):
    """`count` matches at both components, and then one more at each of the two."""
    return ALL, sets((3, IMAGE)), *under(numbers[:count]), pick(0), *under((one,)), pick(1), *under((other,))


def of_one_place():
    for name, numbers, pair, counts in (("shallow", range(1_000, 1_300), SHALLOW_PAIR, (64,)), ("deep", DEEP, DEEP_PAIR, (30, 110))):
        for count in counts:
            for acts, what in (((MATCH,), "matches"), ((INVOKE,), "invokes"), ((MATCH, INVOKE), "matches and invokes")):
                yield "%s of two of one place behind %d %s ones" % (what, count, name), (
                    *behind(count, numbers, *pair), pick(0, 1, times=1_000), again(10, *acts)), "twice", 2


# ---- two matches, used in turn by each command, that have the same place among those used last too

def turns(count, apart):
    """Each of eight components has its first match in one round, and its second in the next."""
    first, second = (tuple(node for at in EIGHT for node in (pick(at), size(BOTH[at][one]))) for one in (0, 1))
    invokes = (again(count, pick(*EIGHT), INVOKE),) if apart else (pick(*EIGHT), again(count, INVOKE))
    return *first, pick(0, 0), run(*invokes, *second)


def in_turn():
    matched = (ALL, sets((3, IMAGE)), *(node for at in EIGHT for node in (pick(at), *under(BOTH[at]))))
    for name, apart in (("apart", True), ("together", False)):
        yield "invokes of two in turn at eight by commands %s" % name, (
            *matched, pick(0, times=400), run(*turns(5, apart)), pick(0)), "twice", 8
    yield "invokes of two in turn at eight behind 110 deep ones", (
        *matched, ALL, *under(DEEP), pick(0, times=100), run(*turns(5, True)), pick(0)), "twice", 8


# ---- sizes with eight digests in few ways: nearly all matches are made, and what was read is held next to them

def digests_at_eight(first):
    return tuple(node for at in EIGHT for node in (pick(at), digest(first + at)))


def few_ways():
    for count in (0, 1, 2, 3, 6):
        ways = tries(*((*digests_at_eight(300 + 8 * number), MATCH) for number in range(count)), None) if count else pick(0)
        for name, more in (("", ()), (" of a slot", ((5, 0),))):
            yield "%d ways of eight digests, then sizes%s at eight, severed" % (count + 1, name), (
                *digests_at_eight(0), pick(0), ways, ALL, again(9, size(EACH, *more), MATCH), pick(0)), "severed", 8
    yield "2 ways of eight digests, then sizes and writes at eight, severed", (
        ALL, CONTENT, *digests_at_eight(0), pick(0), tries((*digests_at_eight(300), MATCH), None), ALL,
        again(9, size(EACH), MATCH, size(("v", 500_000)), MATCH, WRITE), pick(0)), "severed", 8


# ---- each command meets another digest in each round, with more sizes than the tables hold

def rounds():
    for count, mixed in ((5_000, False), (20_000, False), (20_000, True), (30_000, True)):
        turned = against_lists.mixed(count) if mixed else range(count)
        times = (WIDEST - 4 * count - 100) // (4 * count + 8)
        yield "%d sizes %s under two digests in turn, invoked" % (count, "mixed" if mixed else "in order"), (
            digest(1), *under(range(count)), digest(2), *under(range(count)), pick(0, times=times),
            run(digest(1), pick(0, 0), run(*under(turned, INVOKE), digest(2))), pick(0)), "severed", 2
    many = tuple(node for number in against_lists.mixed(20_000) for node in (size(number, *SEVEN), INVOKE))
    yield "20,000 sizes with seven more keys under two digests in turn, invoked", (
        digest(1), *under(range(20_000)), digest(2), *under(range(20_000)), pick(0, times=51),
        run(digest(1), pick(0, 0), run(*many, digest(2))), pick(0)), "severed", 2
    for count, place in ((600, "severed"), (600, "twice"), (900, "severed"), (2_500, "severed")):
        one, two = digests_at_eight(0), digests_at_eight(8)
        times = (WIDEST - 32 * count - 200) // (32 * count + 60)
        yield "%d sizes at eight under two digests each in turn, invoked, %s" % (count, place), (
            *one, ALL, *under(range(count)), *two, ALL, *under(range(count)), pick(0, times=times),
            run(*one, pick(0, 0), run(ALL, *under(against_lists.mixed(count), INVOKE), *two)), pick(0)), place, 8


def against_tables():
    for thought in (of_one_place, in_turn, few_ways, rounds):
        yield from thought()
