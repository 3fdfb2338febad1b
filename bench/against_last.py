"""Plans that were made by reading how a state keeps the match that it used last, and its events in lines: values in turn by state and by
command, so that the last match of the state, the last two of the command and the place of a match are all lost; short lists that are looked
through, and long ones in which a match is noted in vain; lists with their index that are copied for one more match; lines that are copied
at each fork, and stretches too short for one; and what is read or compared, next to these."""

import functools
import random

from against_pairs import SHARED, UNDER
from against_words import AT_EIGHT, CONTENT, EIGHT, IDS, SLOT, SOFT, STRICT, alike, digest, forks, one_pair_each, tests, under
from bred import ALL, EACH, IMAGE, INVOKE, MATCH, SWAP, WIDEST, WRITE, Plan, again, pick, run, sets, size, tries

# Digests of 64 bytes of which all but the last eight are 0x11. Sizes 1, 2 and 3 under each have one pair of places at component 0, and
# under the first one, the sizes of the three rows lie above them in their buckets.
DEEP_BY = (
    (0x111111111124e98c, (
        (30447, 31549, 30292, 33272, 31336, 54637, 101490, 150924, 43833, 45300, 787770, 847686, 4505449, 14016605, 3526002,
         5039582, 34806203, 20998965, 52193280, 156265542, 116885606, 353337760, 507400328),
        (30417, 31141, 32605, 31763, 33734, 44943, 38978, 135884, 79451, 478274, 285528, 1338426, 1091755, 6469224, 3160176,
         6256033, 28519225, 19001765, 7737434, 274121425),
        (30694, 30952, 30677, 30541, 31119, 30226, 66946, 161338, 90276, 1011671, 211085, 1175091, 141661, 3630248, 5470969,
         25822027, 5170688, 5411318, 66479782, 399940964, 67349367, 75165929, 107524783),
    )),
    (0x111111111155b19c, (
        (30056, 30913, 34725, 33187, 30816, 34434, 68770, 41698, 35751, 140147, 438878, 1936379, 1349176, 11845740, 2143827,
         66396077, 47777552, 136297134, 370333554, 454400713, 183165949, 268202023),
        (30074, 30303, 32308, 34977, 33490, 63521, 56108, 71936, 168074, 100489, 201102, 1250070, 705971, 6053988, 4048609,
         15906741, 54089178, 6125521, 519525201, 452701944, 523428412),
        (31103, 30652, 32381, 31379, 42487, 33300, 51129, 86375, 105122, 141199, 43831, 1799421, 1238907, 5380033, 13299757,
         47153108, 18191209, 30155649, 218783976, 309322112),
    )),
    (0x1111111111a9c311, (
        (30201, 30336, 38138, 30770, 38528, 46139, 40032, 71443, 166010, 89893, 564129, 695765, 2573566, 163571, 971832, 7386727,
         10127585, 25106679, 230641173, 118206614, 250370046, 264099743),
        (30318, 30441, 30362, 33477, 44042, 49433, 72432, 137123, 111759, 220417, 418186, 271065, 4225473, 1001020, 893037,
         36876695, 16379987, 107776130, 120592819, 59307243, 258299083, 413666834, 142276329),
        (30227, 30487, 31789, 34356, 32080, 34661, 68096, 60978, 55151, 72520, 2115835, 737791, 927035, 373347, 5541055, 4520006,
         4440662, 1440853, 142328897, 245298910),
    )),
    (0x1111111111b6b05a, (
        (30131, 32385, 38689, 37946, 39854, 36625, 82516, 30874, 58349, 61696, 952937, 176575, 1943816, 1963355, 6269766, 25252319,
         25861597, 19463508, 9736978, 103570328, 157912284),
        (30841, 30228, 31337, 32359, 41647, 41591, 32677, 221270, 59042, 236830, 1399952, 1487619, 2523993, 945568, 3759569,
         13633279, 35699783, 19232575, 116068217, 408529841, 28364142, 137423237),
        (30586, 32776, 30432, 30563, 36719, 50569, 67970, 178305, 89965, 108533, 412322, 1151495, 76395, 797295, 10348196, 14014555,
         16916692, 119813553, 93707200, 48979732, 79553435, 37559119),
    )),
)

# The same, where those above also have one tag, so that each is looked at. Those from 2,147,483,648 on have the same mark.
ALIKE_BY = (
    (0x111111111124e98c, (
        (39533, 138254, 1115602, 2021269, 2344133, 1405183, 15930178, 7879142, 35831955, 128093620, 207229081, 147617996, 282294912,
         209051704, 584291413, 1654812572, 507400328, 7528637116, 9292344560, 10583858988, 13526508722, 14041841001, 15673248127,
         16318414724, 17002808666, 19376461628, 21314634224, 27864611070, 28557106167, 30045295180, 30327282200, 31975040796,
         34667022396, 35899965715),
        (43272, 402589, 203491, 942846, 3366144, 6051823, 1306624, 15309235, 28401629, 19368673, 62622077, 50818721, 839061627,
         1059249903, 859190925, 1593799189, 5494515184, 6684357538, 6773382057, 7171144689, 7646701470, 8838704625, 9936549764,
         12571365594, 12752382557, 13641232347, 17092814663, 18771053936, 19625540985, 25997283359, 28674690662, 28801998344,
         34946811745),
        (676587, 323446, 475155, 404052, 12889378, 4595417, 476381, 8960427, 40908605, 53135998, 33230212, 53159958, 12083621,
         1969925684, 100728961, 1512913359, 18999884542, 21628206014, 22519037776, 24760692961, 33295511305),
    )),
    (0x111111111155b19c, (
        (244816, 90407, 109023, 909881, 804811, 3725848, 11170445, 98062884, 6467080, 4652750, 242495055, 964373842, 487002500,
         590075379, 221597815, 2063573979, 2130929655, 5757335445, 7494246889, 8067877577, 8637682233, 9528675002, 12477670129,
         13891949453, 18284924019, 20954737412, 29783908150, 32228798341, 34866446622),
        (293142, 78000, 1634628, 1727334, 1319356, 4906083, 5533841, 4852612, 6523016, 26034764, 1584111, 44339848, 208976116,
         794139132, 11541994832, 13369677224, 13826298500, 17935767918, 19284176081, 20594658670, 20854236070, 26049153649,
         29495590596, 30048460134, 31549144692, 31576121006, 32502230446, 33906870607),
        (89368, 1322782, 1289934, 2097682, 750688, 297590, 5411083, 3115263, 36662795, 104918625, 470122006, 21551069, 589195515,
         425941322, 950965459, 1964017404, 3040025772, 13752273250, 16828032202, 18978326715, 20256416368, 22141039440, 26613873561,
         29210828275, 30966944226, 31009090113, 31189440510, 35697151175),
    )),
    (0x1111111111a9c311, (
        (168391, 85215, 530383, 933327, 1894962, 3829102, 15569917, 2012381, 2701516, 20778584, 175514533, 519456689, 221255095,
         5449412, 794570372, 3474841940, 4455133317, 6656858678, 7167244470, 9264517908, 11284641087, 22655171441, 22700639006,
         25415170269, 28052925760, 28971322830, 29319232307, 29539048320, 31250371179, 32221281399, 32853876910, 33211035371,
         33884867161, 36051267692, 36355504054),
        (119636, 125583, 427825, 3128839, 93236, 1090740, 15188257, 9924959, 45350199, 65976989, 946077478, 76424029, 159019873,
         1017457578, 1572309815, 2033894796, 1413858071, 1643157804, 2024070273, 5040212654, 5737018027, 8295459007, 9832625544,
         11808914297, 13372932304, 15754470382, 18191992567, 20086233181, 22484211272, 23118916647, 23603510670, 26970375583,
         29263195167, 30108714154, 31281279852, 33599166313, 35332080290, 35375550716),
        (67939, 629467, 842135, 2584565, 685584, 3667511, 1088167, 1082278, 11866289, 43508103, 214669085, 385034595, 724120613,
         682724115, 1316952433, 1971637551, 2235921231, 2273871550, 4626385683, 9223642044, 9729587462, 10647480518, 13344385625,
         13474642376, 16693861436, 17231827173, 21053302576, 23540109341, 26670365263, 27003006115, 30874255258, 33251485061,
         34672926920, 35477220667),
    )),
    (0x1111111111b6b05a, (
        (53123, 151131, 169595, 105366, 5818112, 5154943, 15117308, 30399276, 24615332, 742207640, 57110269, 928317188, 1349656029,
         552623330, 1989459034, 469576326, 4316135174, 10699950977, 10837121299, 17869750763, 23900776070, 24952964817, 25372093510,
         27993112581, 30000325411),
        (71517, 94458, 901711, 1717776, 7360965, 2007583, 5463886, 15478939, 44959651, 180009952, 280374938, 338912386, 44362067,
         489350951, 124357487, 233700830, 2988251791, 14131586778, 15227281819, 16186220567, 16538655441, 16763672894, 27071866325,
         27767313411, 29601917805, 31473343566, 32598388692),
        (46806, 458239, 1883770, 1009365, 266452, 2670547, 10919643, 5826569, 70482832, 4290339, 319709327, 18816419, 506501927,
         725933021, 1097771698, 37559119, 911026448, 3819701465, 5985373430, 6247322116, 7028856914, 9022897770, 9753953047,
         11075426539, 13827715651, 17346966718, 19055396795, 19134793948, 22706102092, 24779100468, 29114599765, 31097638704,
         34064628297),
    )),
)


def most(make, place="twice", count=2):
    """The nodes with as many repetitions as are judged, whose text does not grow with them."""
    low, high = 1, 1_000_000
    while low < high:
        middle = (low + high + 1) // 2
        if Plan(make(middle), place, count).width() <= WIDEST:
            low = middle
        else:
            high = middle - 1
    return make(low), place, count


def fork(number):
    return tries((size(9_000 + number), MATCH), None)


def read(count, pair=SLOT):
    return again(count, sets(pair))


# ---- a digest by state, and a size by command

def chains(table, deepest):
    """Each wanted size of each digest, matched behind so many that lie above it."""
    first = alike(table[0][0])
    return (pick(0), *(node for number, rows in table for at, row in enumerate(rows)
                       for node in (first, *under(row[:deepest]), alike(number), size(at + 1), MATCH)))


def by_digest(table):
    """A state for each digest."""
    numbers = [number for number, _ in table]
    return alike(numbers[0]), size(1), tries(*((alike(number), MATCH) for number in numbers[1:]), None)


def in_sizes(sizes, *acts, more=()):
    return tuple(node for number in sizes for node in (size(number, *more), *acts))


ELSEWHERE = (pick(1), sets((3, IMAGE)))


def thirds(table, count, *acts, deepest=99, sizes=(1, 2, 3), more=(), place="twice"):
    nodes = *chains(table, deepest), *ELSEWHERE, forks(count), pick(0), *by_digest(table), again(9, *in_sizes(sizes, *acts, more=more))
    return nodes, place, 3


def in_thirds():
    for table, name in ((DEEP_BY, "deep"), (ALIKE_BY, "deep and alike")):
        for count in (7, 8, 9):
            yield "invokes of three sizes in turn, %s, in states of four digests, %d forks" % (name, count), *thirds(table, count, INVOKE)
        yield "matches of three sizes in turn, %s, in states of four digests" % name, *thirds(table, 8, MATCH)
        yield "matches and invokes of three sizes in turn, %s, in states of four digests" % name, *thirds(table, 8, MATCH, INVOKE)
        yield "invokes of two sizes in turn, %s, in states of four digests" % name, *thirds(table, 8, INVOKE, sizes=(1, 2))
        for turns in (2, 3):
            yield "invokes of three sizes in turn, %s, in states of %d digests" % (name, turns), *thirds(table[:turns], 9, INVOKE)
        for place in ("both", "along", "severed", "invoke", "aside"):
            yield "invokes of three sizes in turn, %s, in states of four digests, %s" % (name, place), *thirds(
                table, 3 if place == "severed" else 8, INVOKE, place=place)
    for deepest in (0, 4, 8, 12, 16):
        yield "invokes of three sizes in turn, %d deep, in states of four digests" % deepest, *thirds(ALIKE_BY, 8, INVOKE, deepest=deepest)
    yield "invokes of three sizes with a slot and flags in turn", *thirds(ALIKE_BY, 9, INVOKE, more=(SLOT, STRICT, SOFT, (22, 0)))
    states = (*chains(ALIKE_BY, 99), *ELSEWHERE, forks(8), pick(0), *by_digest(ALIKE_BY))
    each = in_sizes((1, 2, 3), INVOKE)
    yield "invokes of three sizes in turn in runs", (*states, again(9, run(*each))), "twice", 2
    for place in ("twice", "aside"):
        yield "matches of three sizes, then invokes of them, in turn, %s" % place, (
            *states, again(9, *in_sizes((1, 2, 3), MATCH), *each)), place, 3
    yield "six matches of three sizes, then an invoke that links them", (
        *states, again(9, *in_sizes((1, 2, 3, 1, 2, 3), MATCH), *in_sizes((1,), INVOKE))), "twice", 2
    yield "states of four digests, then forks, and invokes of three sizes", (
        *chains(ALIKE_BY, 99), *by_digest(ALIKE_BY), *ELSEWHERE, forks(8), pick(0), again(9, *each)), "twice", 2
    yield "invokes of three sizes in turn in loops, in four states", *most(
        lambda times: (*chains(ALIKE_BY, 99), *by_digest(ALIKE_BY), pick(0, times=times), run(*each * 60), pick(0)))
    for table, name in ((DEEP_BY, "deep"), (ALIKE_BY, "deep and alike")):
        for place in ("twice", "aside", "severed"):
            yield "invokes of three sizes in turn, %s, in loops, %s" % (name, place), *most(functools.partial(
                lambda table, times: (*chains(table[:1], 99), pick(0, times=times), run(*each * 200), pick(0)), table), place, 3)
    yield "invokes of three sizes in turn, 0 deep, in loops", *most(
        lambda times: (*chains(ALIKE_BY[:1], 0), pick(0, times=times), run(*each * 200), pick(0)))
    yield "learnt identities, then invokes of three sizes in turn", (
        *chains(ALIKE_BY, 8), ALL, sets(*IDS, (3, IMAGE)), *ELSEWHERE, forks(7), ALL, *tests(24, 5, 1, 2), pick(0), *by_digest(ALIKE_BY),
        again(9, *each)), "twice", 8


# ---- short lists, which are looked through: a digest by state and a size by command, or the other way around

def short():
    for count in (16, 17):
        lists = tuple(node for number in range(4) for node in (alike(number), *under(range(4)))) + under((4,) * (count - 16))
        states = tries(*((ALL, alike(number), pick(0), MATCH) for number in (1, 2, 3)), None)
        sizes = tries(*((ALL, size(number), pick(0), MATCH) for number in (1, 2, 3)), None)
        setup = (ALL, *lists, alike(0), size(0), pick(0))
        for acts, name in (((INVOKE,), "invokes"), ((MATCH,), "matches"), ((MATCH, INVOKE), "matches and invokes")):
            yield "%s of a list of %d, four sizes in turn in states of four digests" % (name, count), (
                *setup, forks(6), size(0), states, ALL, again(9, *in_sizes(range(4), *acts)), pick(0)), "twice", 8
            yield "%s of a list of %d at one, four sizes in turn in states of four digests" % (name, count), (
                *setup, *ELSEWHERE, forks(8), pick(0), size(0), states, again(9, *in_sizes(range(4), *acts))), "twice", 8
        digests = tuple(node for number in range(4) for node in (alike(number), INVOKE))
        yield "invokes of a list of %d, four digests in turn in states of four sizes" % count, (
            *setup, forks(5), size(0), sizes, ALL, again(9, *digests), pick(0)), "twice", 8
        for places, name in ((AT_EIGHT, "eight in a list"), (pick(0, 1, 2, 3), "four"), (pick(*EIGHT, *EIGHT), "eight, twice")):
            yield "invokes of a list of %d at %s, three sizes in turn in states of four digests" % (count, name), (
                *setup, forks(6), size(0), states, places, again(9, *in_sizes((3, 2, 1), INVOKE)), pick(0)), "twice", 8


# ---- matches that are noted in vain: their places are lost, so that each is added again

def noted():
    setup = (ALL, CONTENT, UNDER, *under(range(100, 120)))
    for at in (0, 7):
        for count in (8, 10):
            yield "three sizes of one place at %d, matched in turn behind %d forks" % (at, count), (
                *setup, pick(0), forks(count), pick(at), again(9, *in_sizes(SHARED[at][:3], MATCH)), pick(0)), "twice", 8
        yield "three sizes of one place at %d, matched and invoked in turn" % at, (
            *setup, pick(0), forks(9), pick(at), again(9, *in_sizes(SHARED[at][:3], MATCH, INVOKE)), pick(0)), "twice", 8
    each = tuple(node for at in EIGHT for node in (pick(at), *in_sizes(SHARED[at][:3], MATCH)))
    yield "three sizes of one place at each of eight, matched in turn", (*setup, again(9, *each), pick(0)), "severed", 8
    yield "the same with an invoke that links them", (*setup, again(9, *each, INVOKE), pick(0)), "severed", 8
    long = (*setup, pick(0), again(30_000, *in_sizes(SHARED[0][:3], MATCH)))
    yield "a list of 90,000 that holds three sizes, then invokes of them in loops", *most(
        lambda times: (*long, pick(0, times=times), run(*in_sizes(SHARED[0][:3], INVOKE) * 40), pick(0)), "severed", 8)
    every = tries(*(in_sizes((number,), MATCH) for number in SHARED[0][1:3]), None)
    yield "a list of 90,000 that holds three sizes, then invokes of one in three states", (
        *long, *in_sizes(SHARED[0][:1], MATCH), every, again(9, INVOKE, pick(0, 0), pick(0))), "severed", 8
    lists = tuple(node for number in range(4) for node in (alike(number), *under(range(4))))
    many = (*setup, *one_pair_each(0, 64), ALL, again(33_000, size(EACH), MATCH), ALL, WRITE, *lists)
    for act, name in ((INVOKE, "invokes"), (MATCH, "matches")):
        yield "plenty, then four sizes in turn in a list of 16, by %s" % name, (
            *many, again(9, *in_sizes(range(4), act)), pick(0)), "severed", 8


# ---- lists that are copied with their index, for one more match

def own(turn, length=32):
    return tuple(node for at in EIGHT for node in (pick(at), digest(8 * turn + at, length)))


def sizes_at_eight(first, second=0):
    more = (*own(1), ALL, again(second, size(EACH), MATCH)) if second else ()
    return ALL, CONTENT, *own(0), ALL, again(first, size(EACH), MATCH), *more


def several_times(times, first, second, third):
    """Sizes under digests that evict each other among those used last. The first of them are matched several times."""
    return (ALL, CONTENT, *one_pair_each(0, 32), AT_EIGHT, again(first, size(EACH), *(MATCH,) * times),
            again(second, size(("v", first)), MATCH), *one_pair_each(1, 32), AT_EIGHT, again(third, size(EACH), MATCH))


def threes(times, inner=40):
    return pick(0, times=times), run(pick(0, 1, 0), *(size(1), size(2), size(3), pick(0, 1, 0)) * inner), pick(0)


def copied():
    both = sizes_at_eight(64_000, 64_000)
    more = (ALL, size(77), MATCH, INVOKE, pick(0))
    yield "sizes of two digests at eight, linked, then a fork and a match at eight", (*both, INVOKE, pick(0), fork(0), *more), "severed", 8
    yield "sizes of two digests at eight, then a fork and a match at eight", (*both, pick(0), fork(0), *more), "severed", 8
    yield "sizes of two digests at eight, linked, then a fork", (*both, INVOKE, pick(0), fork(0)), "severed", 8
    for slots in (0, 100_000):
        yield "64,000 sizes at eight behind %d slots, linked, then 2 forks and a match at eight" % slots, (
            read(slots), *sizes_at_eight(64_000 - slots // 10), INVOKE, pick(0), fork(0), fork(1), *more), "severed", 8
    yield "64,000 sizes at eight, linked, then three matches that may fail", (
        *sizes_at_eight(64_000), INVOKE, pick(0), tries((ALL, size(77), pick(0), MATCH, MATCH, MATCH), None), *more), "severed", 8
    yield "64,000 sizes at eight, linked, then a last branch", (
        *sizes_at_eight(64_000), INVOKE, pick(0), tries((size(76), MATCH), (*more, again(2, size(EACH), MATCH))), *more), "severed", 8
    yield "sizes of two digests at eight, linked, then three overrides between selections", *most(
        lambda times: (*sizes_at_eight(62_000, 62_000), INVOKE, *threes(times)), "severed", 8)
    for times, first, second, third in ((1, 0, 64_000, 64_000), (2, 16_000, 46_000, 54_000), (3, 11_000, 51_000, 61_800)):
        base = several_times(times, first, second, third)
        yield "sizes of one pair at eight, the first matched %d times, linked, then three overrides between selections" % times, *most(
            functools.partial(lambda base, loops: (*base, INVOKE, *threes(loops)), base), "severed", 8)
    for times, first, second, third in ((2, 14_000, 45_000, 40_000), (3, 9_000, 50_000, 48_000)):
        yield "sizes of one pair at eight, the first matched %d times, linked, then a fork and a match at eight" % times, (
            *several_times(times, first, second, third), INVOKE, pick(0), fork(0), *more), "severed", 8
    for ways in (2, 3):
        every = tries(*((*own(turn, 64), MATCH) for turn in range(1, ways)), None)
        yield "%d ways of eight digests, then sizes at eight, linked" % ways, (
            *own(0, 64), pick(0), every, ALL, again(9, size(EACH), MATCH), INVOKE, pick(0)), "severed", 8
    each = tuple(tries((ALL, size(600 + number), pick(0), MATCH), None) for number in range(8))
    yield "500 sizes at eight, then forks that each match at eight", (*sizes_at_eight(500), INVOKE, pick(0), *each), "twice", 8
    yield "500 sizes at eight, then forks in a run that each match at eight", (
        *sizes_at_eight(500), INVOKE, pick(0), run(*each)), "twice", 8


# ---- lines that are copied at each fork, and stretches too short for one

def stretches(count, *unit):
    """So many forks at component 2, each behind as many of the unit as the width allows."""
    times = max(1, ((WIDEST >> count) // count - 20) // len(unit))
    return tuple(node for number in range(count) for node in (pick(0), again(times, *unit), pick(2), fork(number)))


def in_lines():
    start = (ALL, CONTENT, UNDER, sets(IDS[3]), MATCH, size(1), MATCH, pick(0))
    units = (("swaps", (SWAP,)), ("invokes", (size(1), MATCH, INVOKE)), ("overrides", (size(1), size(2), SWAP)))
    three = (size(1), size(2), size(3), pick(0, 1, 0)) * 8
    for count in (10, 11, 12, 13, 14):
        for name, unit in units:
            yield "%d forks, each behind %s" % (count, name), (*start, *stretches(count, *unit), pick(0)), "twice", 3
            if name != "invokes":
                yield "%d forks in a run, each behind %s" % (count, name), (*start, run(*stretches(count, *unit))), "twice", 3
    for count in (1, 2, 3):
        for name, unit in (("swaps", (SWAP,) * 30), ("invokes", (INVOKE,) * 30), ("three overrides", (pick(0, 1, 0), *three))):
            nodes = (*start, read(300_000 >> count), *map(fork, range(count)), size(1))
            yield "%d slots, then %d forks side by side, %s in loops and a fork" % (300_000 >> count, count, name), *most(
                functools.partial(lambda nodes, unit, times: (
                    *nodes, pick(0, times=times), run(*unit), pick(0), fork(9)), nodes, unit), "severed", 2)
    for events in (15, 19, 20, 24, 31):
        yield "16,384 states in a run, then %d swaps" % events, (
            *start, run(pick(2), forks(14), pick(0), *(SWAP,) * events, again(9, run(pick(0))))), "twice", 3
    for slots in (0, 200_000):
        yield "lines of many overrides at three, then a fork, behind %d slots" % slots, *most(
            lambda times: (*start, read(slots), *threes(times), fork(0), *(SWAP,) * 70), "severed", 2)


# ---- what is read, next to the events of one state

def read_in_lines():
    start = (ALL, CONTENT, UNDER, sets(IDS[3]), MATCH, pick(0))
    for name, nodes in (("250,000 slots", read(250_000)), ("200,000 contents of a byte", read(200_000, (18, ("bytes", 1, 1)))),
                        ("200,000 texts of a letter", read(200_000, (21, ("bytes", 97, 1)))),
                        ("110,000 tries of a slot", again(110_000, tries((sets(SLOT),), None))),
                        ("140,000 tries of a selection", again(140_000, tries((pick(0),), None))),
                        ("500,000 selections", again(500_000, pick(0))), ("500,000 conditions", again(500_000, ("test", 5)))):
        yield "%s, then three overrides between selections" % name, *most(
            functools.partial(lambda nodes, times: (*start, nodes, *threes(times)), nodes), "severed", 2)


# ---- contents that are compared: two that are equal, in turn

def two_contents():
    tail = again(9, size(EACH), WRITE, pick(7))
    for length in (200_000, 500_000):
        one = ("bytes", 7, length)
        for count in (13, 14):
            yield "two equal contents of %d, %d forks" % (length, count), (
                pick(7), sets((18, one)), sets((3, IMAGE)), pick(0),
                run(forks(count), pick(7), size(5), WRITE, run(pick(7)), pick(7), size(5, (18, one)), WRITE, tail), pick(0)), "severed", 8
    yield "a content of 900,000 in 8,192 states, then overrides", (
        pick(7), sets((18, ("bytes", 7, 900_000))), sets((3, IMAGE)), pick(0), run(forks(13), pick(7), tail), pick(0)), "severed", 8
    each = tuple(node for at in EIGHT for node in (pick(at), sets((18, ("bytes", at, 128_000)))))
    yield "contents of 128,000 of each of eight, 13 forks, then overrides", (
        *each, pick(7), sets((3, IMAGE)), pick(0), run(forks(13), pick(7), tail), pick(0)), "severed", 8


# ---- as many sizes as no table holds, invoked by commands at a few components

def lost():
    for count, at in ((40_000, (0, 1, 2)), (40_000, (0, 1)), (30_000, (0, 1, 2, 3)), (10_000, EIGHT)):
        numbers = range(70_000, 70_000 + count)
        matched, invoked = (random.Random(seed).sample(numbers, count) for seed in (1, 2))
        times = (WIDEST - 200 - len(at) * (2 * count + 10)) // (2 * count + 1)
        yield "%d sizes at %d, invoked at one after another in loops" % (count, len(at)), (
            *(node for one in at for node in (pick(one), digest(1, 32))), pick(*at), *under(matched), pick(*(at * times)[:times]),
            run(*under(invoked, INVOKE)), pick(0)), "severed", 8


def against_last():
    for thought in (in_thirds, short, noted, copied, in_lines, read_in_lines, two_contents, lost):
        yield from thought()
