"""Plans that were made by reading the body of the judge word by word: commands whose last match is always another one, short lists that are
compared one by one, matches that are found deep among all or made while no search is made, what is read next to the events of one state,
identities that are learnt in as many states as possible, and equal states with long lists."""

from against import DEEP as ALIKE
from against_tables import DEEP
from bred import ALL, EACH, IMAGE, INVOKE, MATCH, SWAP, WRITE, again, pick, run, sets, size, tries

CONTENT = sets((18, ("bytes", 0xAA, 1)), (22, 1), (21, ("bytes", 20, 1)))
EIGHT = tuple(range(8))
AT_EIGHT = pick(*EIGHT)
IDS = ((1, ("bytes", 7, 16)), (2, ("bytes", 7, 16)), (24, ("bytes", 7, 16)), (5, 9))
SLOT, STRICT, SOFT = (5, 0), (12, True), (13, True)


def under(numbers, command=MATCH):
    return tuple(node for number in numbers for node in (size(number), command))


def alike(number, length=64):
    return sets((3, ("alike", number, length)))


def digest(number, length=64):
    return sets((3, ("digest", number, length)))


def forks(count):
    return again(count, tries((size(("v", 9_000)), MATCH), None))


def looped(counts, *inner, at=(0, 1)):
    for count in reversed(counts):
        inner = (pick(*at, times=count // len(at)), run(*inner))
    return (*inner, pick(0))


# ---- the numbers that matches have in the table of those used last, computed backwards

FACTOR, WORD = 0x9E37_79B9_7F4A_7C15, 2**64
BACK = pow(FACTOR, -1, WORD)


def mixed(print, number):
    product = (print ^ number) * FACTOR % WORD
    return product ^ product >> 32


def ending_for(number, length):
    """The last eight bytes of a digest of this length, whose other bytes are 0x11, so that its bytes mix to `number`."""
    print = 1
    for _ in range(length // 8 - 1):
        print = mixed(print, 0x1111_1111_1111_1111)
    product = number ^ number >> 32
    word = product * BACK % WORD ^ print
    return int.from_bytes(word.to_bytes(8, "little"), "big")


def one_pair_each(turn, length):
    """A digest for each of eight components. With any size, those of every second component share a pair among the matches used last."""
    return tuple(node for at in EIGHT for node in (pick(at), alike(ending_for(0x12_3456_7890 + 0x10_0000 * turn | at << 44, length), length)))


# ---- commands that are done in turn under two values, so that their last match is always the other one

def in_turn(setup, values, unit, count, times, inner=2):
    """The unit `count` times, at eight components, under the first value and then `inner` - 1 times under the second."""
    first, second = values
    return (*setup, pick(0, times=times), run(ALL, first, pick(*(0,) * inner), run(again(count, *unit), ALL, second)), pick(0))


def turned(setup, values, place="twice", count=1_000, unit=(AT_EIGHT, INVOKE), inner=2):
    each = 8 * sum(one[0] != "pick" for one in unit) + sum(one[0] == "pick" for one in unit)
    return in_turn(setup, values, unit, count, max(1, 4_170_000 // (inner * (each * count + 10) + 12) - 1), inner), place, 8


def short_lists():
    for count in (2, 4, 8, 12, 16, 17):
        for name, one in (("alike", alike), ("of 64 bytes", digest)):
            setup = (ALL, *(node for number in range(count) for node in (one(number), MATCH)))
            yield "invokes in turn of the last two of %d digests %s" % (count, name), *turned(setup, (one(count - 2), one(count - 1)))
    for count in (2, 16):
        setup = (ALL, sets((3, IMAGE)), *under(range(count)))
        yield "invokes in turn of the last two of %d sizes" % count, *turned(setup, (size(count - 2), size(count - 1)))
    sixteen = (ALL, *(node for number in range(16) for node in (alike(number), MATCH)))
    yield "invokes in turn of the first two of 16 digests alike", *turned(sixteen, (alike(0), alike(1)))
    yield "invokes in turn of the last two of 16 digests alike, once", *turned(sixteen, (alike(14), alike(15)), "invoke")
    yield "invokes in turn of the last two of 16 digests alike, along", *turned(sixteen, (alike(14), alike(15)), "along")
    yield "invokes in turn of the last two of 16 digests alike, severed", *turned(sixteen, (alike(14), alike(15)), "severed", 20_000)
    yield "two invokes at each list in turn of 16 digests alike", *turned(
        sixteen, (alike(14), alike(15)), unit=(AT_EIGHT, INVOKE, ALL, INVOKE), count=600)
    yield "invokes at two in turn of 16 digests alike", *turned(sixteen, (alike(14), alike(15)), unit=(pick(6, 7), INVOKE), count=1_000)
    deep = (ALL, *(node for one in ALIKE[:15] for node in (alike(one), MATCH)), alike(77), MATCH)
    yield "invokes in turn of 16 deep digests", *turned(deep, (alike(ALIKE[14]), alike(77)))
    long = (ALL, *(node for number in range(16) for node in (alike(number), size(7), MATCH)))
    yield "invokes in turn of 16 digests alike with a size", *turned(long, (alike(14), alike(15)))
    for inner in (3, 8):
        yield "invokes of 16 digests alike, once in %d" % inner, *turned(sixteen, (alike(14), alike(15)), inner=inner)
    yield "invokes in turn of 110 deep sizes", *turned((ALL, sets((3, IMAGE)), *under(DEEP)), (size(DEEP[-1]), size(DEEP[-2])), count=900)


# ---- states in turn: the last fork sets other values, so each command's last match is that of the state before

def matches_in_turn(setup, one, other, count, unit=(AT_EIGHT, MATCH), place="twice"):
    return (*setup, forks(count), *one, tries((*other, MATCH), None), again(9, *unit), pick(0)), place, 8


# Sizes under the digest of 32 bytes 0x11. All sixteen wanted ones have one pair among the matches used last and one place among all, and each
# is below fifteen others in its bucket, which come before it. It takes a second to find them.
BELOW = (
    138623461, 138623620, 138624255, 138632348, 138640617, 138646733, 138662683, 138711741, 138725629, 138759759, 138964148, 140133953,
    141195295, 143073481, 147513897, 0, 147513938, 147514239, 147514429, 147514576, 147514660, 147515938, 147576246, 147633847, 147668271,
    147891375, 148276373, 148590564, 149893283, 150856983, 165500751, 3603391, 165501558, 165502246, 165504894, 165506892, 165508101,
    165517144, 165535997, 165593297, 165766363, 165822855, 166222512, 167595515, 168180623, 171729712, 173576277, 7197005, 173576573,
    173576624, 173576941, 173577486, 173582728, 173600659, 173618623, 173648434, 173699589, 173715376, 174138476, 174218028, 174339272,
    176148949, 186418541, 16975390, 186418597, 186419976, 186420320, 186420843, 186426294, 186438066, 186448752, 186508502, 186538382,
    186614234, 187084067, 187170582, 188537955, 190689902, 194609735, 17233837, 194610094, 194610186, 194610644, 194611809, 194614384,
    194633099, 194637898, 194673965, 194681374, 194709174, 194741966, 195620145, 197829077, 199587315, 203025837, 33036610, 203026429,
    203027570, 203027644, 203027773, 203033298, 203034903, 203039705, 203063705, 203154749, 203206826, 203262681, 203751650, 203953388,
    209153352, 209226903, 35995576, 209227030, 209227368, 209228968, 209229856, 209231058, 209237523, 209246655, 209246974, 209298786,
    209467214, 210211988, 210741122, 210906288, 216555231, 219031465, 50477740, 219032124, 219032198, 219033372, 219036926, 219047995,
    219056005, 219067794, 219096249, 219107953, 219163816, 219658965, 219700046, 219966586, 221070478, 230827782, 70217534, 230828286,
    230828413, 230828538, 230832935, 230833861, 230836361, 230857268, 230917387, 230919224, 230988203, 231389636, 232551244, 233970531,
    235519732, 244029585, 71488259, 244029845, 244030733, 244031964, 244034631, 244037301, 244049260, 244058380, 244076060, 244129047,
    244136852, 244299691, 244450493, 245335886, 246771605, 248760719, 100462110, 248760893, 248762642, 248763165, 248763371, 248763756,
    248779442, 248786867, 248801124, 248834246, 248990763, 248998837, 249063150, 249445243, 252874546, 252982665, 104908084, 252982884,
    252983056, 252985498, 252987513, 252993080, 253002566, 253013617, 253027062, 253062209, 253286096, 253417595, 254342396, 254708677,
    254917295, 262627943, 106276195, 262628350, 262628520, 262628622, 262628794, 262632453, 262632615, 262656406, 262690555, 262694128,
    263629637, 263870967, 263925743, 263935572, 264067120, 265776138, 107426594, 265776170, 265776956, 265777590, 265780288, 265784995,
    265785602, 265786705, 265790510, 265796622, 265823057, 265831407, 266172443, 268845158, 271224957, 273099656, 120446705, 273100230,
    273100235, 273101116, 273103573, 273107185, 273135246, 273158144, 273197692, 273285490, 273367301, 273564494, 273919385, 273995784,
    274797435, 280376660, 138623403,
)
WANTED = BELOW[15::16]


def found_among_all():
    turns = tuple(one_pair_each(turn, 64) for turn in (0, 1))
    for count in (8, 10):
        yield "%d forks, then matches in turn of one pair" % count, *matches_in_turn((*turns[0], pick(0)), (pick(0),), turns[1], count)
    yield "8 forks, then matches in turn of one pair and a size", *matches_in_turn(
        (*turns[0], pick(0)), (pick(0),), turns[1], 8, (AT_EIGHT, size(EACH), MATCH))
    apart = tuple(tuple(node for at in EIGHT for node in (pick(at), digest(8 * turn + at))) for turn in (0, 1))
    yield "8 forks, then matches in turn of eight digests", *matches_in_turn((*apart[0], pick(0)), (pick(0),), apart[1], 8)
    one, other = (tuple(node for at in EIGHT for node in (pick(at), size(WANTED[2 * at + turn]))) for turn in (0, 1))
    for length, name in ((32, "deep among all"), (64, "of one place")):
        setup = (ALL, alike(0x1111_1111_1111_1111, length), pick(0), *under(BELOW))
        for count in (7, 8, 9):
            yield "%d forks, then matches in turn, %s" % (count, name), *matches_in_turn(setup, one, other, count)
    setup = (ALL, alike(0x1111_1111_1111_1111, 32), pick(0), *under(BELOW))
    yield "8 forks, then matches in turn, deep among all, and invokes", *matches_in_turn(
        setup, one, other, 8, (AT_EIGHT, MATCH, AT_EIGHT, INVOKE))
    yield "8 forks, then matches in turn, deep among all, and writes", *matches_in_turn(
        (ALL, CONTENT, *setup), one, other, 8, (AT_EIGHT, MATCH, WRITE))
    yield "matches in turn, deep among all, severed", *matches_in_turn(setup, one, other, 2, place="severed")


# ---- states in turn, each with one of several values, so that not even the last few matches of a command are the wanted one

def ways_of(*ways):
    return tries(*((*one, pick(0), MATCH) for one in ways), None)


def rotated(values, by):
    """At each of eight components one of the values, beginning with another one in each way."""
    return tuple(node for at in EIGHT for node in (pick(at), values[(at + by) % len(values)]))


def several_in_turn():
    sixteen = (ALL, *(node for number in range(16) for node in (alike(number), MATCH)))
    for turns, split in ((2, 7), (4, 6), (7, 6)):
        every = ways_of(*((ALL, alike(15 - number)) for number in range(turns)))
        yield "invokes of 16 digests alike in states, %d in turn" % (turns + 1), (
            *sixteen, pick(0), forks(split), every, again(9, AT_EIGHT, INVOKE), pick(0)), "twice", 8
        yield "invokes of 16 digests alike at each, %d in turn" % (turns + 1), (
            *sixteen, pick(0), forks(split), ways_of(*(rotated(tuple(map(alike, range(8, 16))), number) for number in range(turns))),
            again(9, AT_EIGHT, INVOKE), pick(0)), "twice", 8
        setup = (ALL, alike(0x1111_1111_1111_1111, 32), pick(0), *under(BELOW))
        wanted = tuple(map(size, WANTED[8:]))
        yield "matches in states, deep among all, %d in turn" % (turns + 1), (
            *setup, *rotated(wanted, 7), pick(0), forks(split), ways_of(*(rotated(wanted, number) for number in range(turns))),
            again(9, AT_EIGHT, MATCH), pick(0)), "twice", 8
    own = tuple(tuple(alike(16 * at + number) for number in range(16)) for at in EIGHT)
    setup = tuple(node for at in EIGHT for node in (pick(at), *(item for one in own[at] for item in (one, MATCH))))
    first, second = (tuple(node for at in EIGHT for node in (pick(at), own[at][number])) for number in (14, 15))
    for count in (150, 300):
        yield "invokes in turn of 16 digests of each component's own, %d commands" % count, (
            *setup, pick(0, times=4_150_000 // (18 * count + 50)),
            run(*first, pick(0, 0), run(again(count, AT_EIGHT, INVOKE), *second)), pick(0)), "twice", 8
    sizes = tuple(size(number, SLOT) for number in range(16))
    yield "invokes in turn of 16 sizes with a slot", *turned(
        (ALL, sets((3, IMAGE)), *(node for one in sizes for node in (one, MATCH))), (sizes[14], sizes[15]))
    for unit, name in (((AT_EIGHT, INVOKE, INVOKE), "two commands"), ((ALL, INVOKE, ALL, ALL), "close commands"),
                       ((pick(*EIGHT, *EIGHT), INVOKE), "lists of 16")):
        yield "invokes in turn of 16 digests alike by %s" % name, *turned(sixteen, (alike(14), alike(15)), unit=unit, count=800)
    both = (ALL, *(node for number in range(8) for node in (alike(number), MATCH, alike(number, 32), MATCH)))
    yield "invokes in turn of 16 digests of two lengths", *turned(both, (alike(7), alike(7, 32)))
    yield "invokes in turn of 16 matches of 8 digests alike", *turned(
        (ALL, *(node for number in range(8) for node in (alike(number), size(1), MATCH, size(2), MATCH))), (size(1), size(2)))


# ---- matches that are made while no search is made, and stay

def epochs(count, commands, *keys):
    """Sizes at eight components, each matched by so many commands."""
    return again(count, AT_EIGHT, size(EACH, *keys), MATCH, *(AT_EIGHT, MATCH) * (commands - 1))


def in_the_pause():
    for ways, each in ((2, (4,)), (4, (2, 4)), (5, (1, 2, 3, 4, 5)), (6, (4,))):
        for commands in each:
            every = tries(*((*one_pair_each(turn, 64), MATCH) for turn in range(1, ways)), None)
            yield "%d ways of one pair, then sizes at eight, %d matches each" % (ways, commands), (
                *one_pair_each(0, 64), pick(0), every, epochs(9, commands), pick(0)), "severed", 8
    every = tries(*((*one_pair_each(turn, 64), MATCH) for turn in range(1, 5)), None)
    for name, keys in (("a slot", (SLOT,)), ("a slot and two flags", (SLOT, STRICT, SOFT))):
        yield "5 ways of one pair, then sizes and %s at eight, 4 matches each" % name, (
            *one_pair_each(0, 64), pick(0), every, epochs(9, 4, *keys), pick(0)), "severed", 8
    yield "5 ways of one pair, then sizes at eight, 4 matches each, linked", (
        *one_pair_each(0, 64), pick(0), every, epochs(9, 4), ALL, INVOKE, pick(0)), "severed", 8
    for count in (7, 8, 9):
        yield "%d forks of one pair in turn, then sizes at eight, 4 matches each" % count, (
            *one_pair_each(0, 64), pick(0), forks(count), tries((*one_pair_each(1, 64), pick(0), MATCH), None), epochs(9, 4), pick(0)), "twice", 8


def doubled(count, most=10**9):
    """Sizes at the selected components: 400 of their own, then 256 below 24, 400 of their own, 512 below 24, and so on."""
    nodes, own, few = [], 300, 256
    while count > 0:
        nodes += under(range(own, own + 400))
        now = min(few, count, most)
        nodes += under(number % 24 for number in range(now))
        own, few, count = own + 400, 2 * few, count - now
    return tuple(nodes)


def spent(steps, act):
    """About so many steps of one directive at component 7, in loops."""
    return (pick(7, times=400), run(pick(7, times=max(1, (steps // 400 - 2) // 11)), run(*(act,) * 10)), pick(0))


def short_pairs():
    start = (ALL, CONTENT, *one_pair_each(0, 32), ALL)
    for count in (165_000, 120_000):
        base = (*start, *doubled(count))
        left = 4_170_000 - 16 * sum(one[0] == "test" for one in base)
        yield "%d short pairs of one pair" % count, (*base, pick(0)), "severed", 8
        yield "%d short pairs of one pair, then swaps" % count, (*base, pick(7), *spent(left, SWAP)), "severed", 8
        # The invoke at all eight links the lists.
        yield "%d short pairs of one pair, linked, then invokes" % count, (*base, INVOKE, pick(7), *spent(left, INVOKE)), "severed", 8
    yield "70,000 short pairs of one pair in two ways", (
        *start, pick(0), tries((*one_pair_each(1, 32), MATCH), None), ALL, *doubled(70_000), pick(0)), "severed", 8


# ---- the same, where each component's list is short, and is looked through for each match that was made anew

def looked_through():
    fourteen = tuple(node for number in range(14) for node in (alike(number), MATCH))
    turns = tuple(one_pair_each(turn, 64) for turn in (0, 1))
    for count in (380, 700):
        state = (*turns[0], ALL, *under(range(300, 560)), WRITE, *fourteen, *turns[1], AT_EIGHT, MATCH, *turns[0], AT_EIGHT, MATCH)
        for split in (7, 8):
            yield "%d forks, then sizes and %d matches at eight of 16 digests alike" % (split, count), (
                ALL, CONTENT, pick(0), forks(split), *state, again(count, AT_EIGHT, MATCH), pick(0)), "twice", 8
            yield "%d forks, then sizes and %d matches at eight in turn of 16 digests alike" % (split, count), (
                ALL, CONTENT, pick(0), forks(split), *state, pick(0), tries((*turns[1], pick(0), MATCH), None), again(count, AT_EIGHT, MATCH),
                pick(0)), "twice", 8


# ---- what is read, next to the events of one state

def read_and_run():
    start = (ALL, CONTENT, sets((3, IMAGE)), MATCH, pick(0))
    for name, list, count in (("a slot", (SLOT,), 255_000), ("a slot and a flag", (SLOT, STRICT), 172_000),
                              ("five keys", (SLOT, STRICT, SOFT, (22, 0), (23, ("bytes", 1, 0))), 86_000)):
        for act, what in ((SWAP, "swaps"), (INVOKE, "invokes"), (("act", 22), "copies")):
            yield "%d,000 overrides of %s, then %s" % (count // 1_000, name, what), (
                *start, again(count, sets(*list)), *looped((40, 40), again(9, act))), "severed", 2
    slots = (*start, again(255_000, sets(SLOT)))
    yield "255,000 slots, then swaps in 4 states", (*slots, forks(2), *looped((40, 4), again(9, SWAP))), "severed", 2
    yield "255,000 slots, then an override and a swap", (*slots, *looped((40, 40), again(9, size(1), SWAP))), "severed", 2
    yield "255,000 slots, then overrides at three", (*slots, *looped((40, 40), pick(0, 1, 0), again(9, size(1)))), "severed", 2


# ---- identities that are learnt: some 0.5 us for each, at most 32 times in a state

def asked(*keys):
    return tries(*((("test", key),) for key in keys), None)


def tests(*keys):
    return tuple(("test", key) for key in keys)


def learnt():
    setup, matched = (ALL, sets((3, IMAGE), *IDS)), tries((MATCH,), None)
    yield "62,208 states, then 16 identities are learnt", (
        *setup, matched, pick(0, 1, 2, 3, 4), asked(1, 2), ALL, *tests(24, 5), pick(0)), "twice", 8
    yield "62,208 states, then 16 identities are learnt, one component after another", (
        *setup, matched, pick(0, 1, 2, 3, 4), asked(1, 2), *(node for at in range(5) for node in (pick(at), *tests(24, 5))), pick(0)), "twice", 8
    yield "20,736 states, then 24 identities are learnt", (
        *setup, matched, pick(0, 1, 2, 3), asked(1, 2), pick(4, 5, 6, 7), *tests(1, 2), ALL, *tests(24, 5), pick(0), again(9, MATCH)), "twice", 8
    yield "20,736 states in a run, then 24 identities are learnt", (
        *setup, pick(0), run(ALL, matched, pick(0, 1, 2, 3), asked(1, 2)), pick(4, 5, 6, 7), *tests(1, 2), ALL, *tests(24, 5), pick(0),
        again(9, MATCH)), "twice", 8
    for order, name in (((24, 5, 1, 2), "by key"), ((), "by component")):
        learn = (ALL, *tests(*order)) if order else tuple(node for at in EIGHT for node in (pick(at), *tests(1, 2, 24, 5)))
        for more in (5, 6, 7):
            yield "%d states by match, then 32 identities are learnt %s" % (256 << more, name), (
                *setup, matched, pick(*range(more)), size(1), matched, *learn, pick(0), again(9, MATCH)), "twice", 8
    lacking = tuple(node for key in (1, 2, 24, 5) for node in (asked(key), sets((key, 10 if key == 5 else ("bytes", 9, 16)))))
    yield "16 states that rule out four, 512 by match, then 28 identities are learnt", (
        *setup, pick(0), *lacking, ALL, matched, pick(0), size(1), matched, pick(1, 2, 3, 4, 5, 6, 7), *tests(24, 5, 1, 2), pick(0),
        again(9, MATCH)), "twice", 8


# ---- states that are held at once, each with lists of its own at eight components

def lists_at_eight():
    setup = (ALL, sets((3, IMAGE), *IDS), MATCH)
    for at in (5, 6, 7, 8):
        split = tries((pick(*range(8 - at, 8)), size(7), MATCH), None)
        yield "6,561 states by identity, then matches at %d in a branch" % at, (
            *setup, pick(0), run(pick(0, 1, 2, 3), asked(1, 2), asked(24, 5), pick(0), split, again(9, size(EACH)))), "twice", 8
        yield "matches at %d in a branch, twice, then overrides" % at, (
            *setup, pick(0), run(split, tries((pick(*range(8 - at, 8)), size(8), MATCH), None), asked(1, 2), asked(24, 5), pick(1),
                                 asked(1, 2), again(9, size(EACH), WRITE))), "twice", 8
    several = (ALL, sets((3, IMAGE), *IDS), MATCH, size(1), MATCH, size(2), MATCH)
    yield "2,187 states by identity, then matches at eight in a branch behind three", (
        *several, pick(0), run(pick(0, 1, 2), asked(1, 2), asked(24, 5), pick(3), asked(1, 2), tries((ALL, size(7), MATCH), None))), "twice", 8


# ---- equal states with long lists: each match of both is looked for in the other

def equal_states():
    deep = (ALL, sets((3, IMAGE)), *under(DEEP), pick(0))
    for forked, branches in ((6, 32), (4, 128), (0, 1_000)):
        equal = tries(*((size(7), MATCH) for _ in range(branches)), None)
        yield "110 deep matches at eight, %d forks, then %d equal branches" % (forked, branches), (*deep, run(forks(forked), equal)), "twice", 8
    for length in (16, 17, 400):
        equal = tries(*((size(7), MATCH) for _ in range(32)), None)
        yield "%d matches at eight, 5 forks, then 32 equal branches" % length, (
            ALL, sets((3, IMAGE)), *under(range(100, 100 + length)), pick(0), run(forks(5), equal)), "twice", 8
    alikes = (ALL, *(node for number in range(16) for node in (alike(number), MATCH)), pick(0))
    yield "16 digests alike at eight, 6 forks, then 64 equal branches", (
        *alikes, run(forks(6), tries(*((alike(3), MATCH) for _ in range(64)), None))), "twice", 8
    yield "110 deep matches at eight, 9 forks, then equal branches one after another", (
        *deep, run(forks(7), again(3, tries((size(7), MATCH), (size(7), MATCH))))), "twice", 8


# ---- contents that are compared to share them, up to four thousand million bytes in each judgement

def contents():
    for length, at in ((13_000, ALL), (13_000, pick(0)), (6_000, ALL), (3_900, ALL), (1_000, ALL)):
        for count in (13, 14):
            yield "contents of %d at %s, %d forks, then overrides" % (length, "eight" if at == ALL else "one", count), (
                at, sets((18, ("bytes", 7, length))), pick(7), sets((3, IMAGE)),
                run(forks(count), again(9, size(EACH), *(WRITE,) * (at == ALL))), pick(0)), "twice", 8
    yield "contents, URIs and arguments of 4,000 at eight, 13 forks, then overrides", (
        ALL, sets(*((key, ("bytes", 97, 4_000)) for key in (18, 21, 23))), pick(7), sets((3, IMAGE)), run(forks(13), again(9, size(EACH), WRITE)),
        pick(0)), "twice", 8


# ---- commands far apart that have one place among the last matches: 131,072 bytes apart, and one component

def far_apart():
    setup = tuple(node for at in EIGHT for node in (pick(at), digest(at), MATCH))
    for count in (24_000, 44_000, 80_000):
        yield "%d commands that invoke at eight, in loops" % count, (
            *setup, pick(0, times=max(1, 4_190_000 // (9 * count))), run(again(count, AT_EIGHT, INVOKE)), pick(0)), "severed", 8
    yield "44,000 commands that invoke at eight of 16 digests alike, in loops", (
        ALL, *(node for number in range(8) for node in (alike(number), MATCH)),
        *(node for at in EIGHT for node in (pick(at), *(item for number in range(8) for item in (alike(8 * at + 20 + number), MATCH)))),
        pick(0, times=10), run(again(44_000, AT_EIGHT, INVOKE)), pick(0)), "severed", 8
    seven = (SLOT, STRICT, SOFT, (18, ("bytes", 1, 0)), (21, ("bytes", 97, 0)), (22, 0), (23, ("bytes", 1, 0)))
    count = 22_000
    invoked = tuple(node for number in range(count) for node in (size(number * 7_919 % count, *seven), INVOKE))
    yield "22,000 sizes with seven more keys, invoked by commands of their own", (
        sets((3, IMAGE)), *under(range(count)), pick(0, times=94), run(*invoked), pick(0)), "severed", 2
    for count, turns in ((5_000, 3), (5_000, 8), (12_000, 3), (20_000, 2), (40_000, 1)):
        sizes = tuple(number * 7_919 % count for number in range(count))
        each = tuple(digest(number, 32) for number in range(turns))
        times = (4_190_000 - 2 * turns * count) // (turns * (2 * count + 8))
        yield "%d sizes under each of %d digests, invoked by commands of their own" % (count, turns), (
            *(node for one in each for node in (one, *under(range(count)))), pick(0, times=times),
            run(*(node for one in each for node in (one, run(*under(sizes, INVOKE))))), pick(0)), "severed", 2


# ---- other commands in many states

def others():
    start = (ALL, CONTENT, sets((3, IMAGE), *IDS), MATCH, pick(0))
    yield "12 forks, then two sizes at eight and a write at each", (
        *start, forks(12), again(9, ALL, size(1), MATCH, size(2), MATCH, WRITE)), "twice", 8
    yield "10 forks, then 17 matches at eight and writes", (*start, forks(10), again(9, ALL, *under(range(17)), WRITE)), "twice", 8
    yield "8 forks, then 17 digests alike at eight and writes", (
        *start, forks(8), again(9, ALL, *(node for number in range(17) for node in (alike(number), MATCH)), WRITE)), "twice", 8
    yield "8 forks, then 16 digests alike at eight, matched twice, and writes", (
        *start, forks(8), again(1, ALL, *(node for number in range(16) for node in (alike(number), MATCH, MATCH)), WRITE)), "twice", 8
    for count in (12, 14):
        yield "%d forks in six runs each" % count, (
            *start, run(*(enclosed(tries((size(20 + number), MATCH), None), 5) for number in range(count)))), "twice", 8
    soft = tuple(run(sets(SOFT, (14, 50 + number)), MATCH) for number in range(15))
    for count in (12, 13, 15):
        yield "%d soft failures in runs" % count, (*start, *soft[:count], again(9, size(EACH), MATCH)), "twice", 8
    yield "soft failures in runs, all at once", (*start, run(*soft[:14]), again(9, WRITE)), "twice", 8
    yield "14 forks in a run of tries of a run", (
        *start, run(forks(14), again(9, tries((run(size(1)),), None)))), "twice", 8
    six = sets(*((key, ("bytes", 7, 16)) for key in (1, 2, 24)), (5, 1), (14, 7), (22, 0))
    yield "six keys at eight in 8,192 states", (*start, run(forks(13), again(9, ALL, six))), "twice", 8
    yield "forks that override all eight, each of another key", (*start, run(*(
        tries((ALL, sets(one), pick(0), size(60 + number), MATCH), None) for number, one in enumerate(
            (SLOT, (12, True), (18, ("bytes", 1, 1)), (21, ("bytes", 97, 1)), (22, 2), (23, ("bytes", 1, 1)), (24, ("bytes", 9, 16)),
             (2, ("bytes", 9, 16)), (1, ("bytes", 9, 16)), (5, 2), (18, ("bytes", 2, 2)), (21, ("bytes", 98, 2))))), again(9, WRITE))), "twice", 8


def enclosed(node, depth):
    return node if depth == 0 else run(enclosed(node, depth - 1))


def against_words():
    for thought in (short_lists, found_among_all, several_in_turn, in_the_pause, short_pairs, looked_through, read_and_run, learnt,
                    lists_at_eight, equal_states, contents, far_apart, others):
        yield from thought()
