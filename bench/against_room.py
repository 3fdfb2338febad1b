"""Plans that were made by reading what a judgement holds for a million matches, and when it indexes them anew: these matches next to the
events of one state, told in as many bytes for each step as there are; and lists that are copied without their index and then searched."""

from against_last import fork, most, several_times, sizes_at_eight
from against_words import AT_EIGHT
from bred import ALL, EACH, INVOKE, MATCH, WRITE, again, pick, run, size, tries


def loops(*inner):
    """The inner commands in loops, as often as the width allows, at one component."""
    return lambda times: (pick(0, times=times), run(*inner), pick(0))


UNITS = (
    ("invokes", (INVOKE,) * 200),
    ("matches", (MATCH,) * 200),
    ("sizes and invokes in turn", tuple(node for number in range(200) for node in (size(number), INVOKE))),
    ("an override between selections", (size(1), pick(0)) * 100),
    ("three overrides between selections of one", (size(1), size(2), size(3), pick(0)) * 50),
    ("three overrides between selections of two", (pick(0, 1), *(size(1), size(2), size(3), pick(0, 1)) * 50)),
    ("three overrides between selections of three", (pick(0, 1, 0), *(size(1), size(2), size(3), pick(0, 1, 0)) * 50)),
    ("three overrides between selections of four", (pick(0, 1, 0, 1), *(size(1), size(2), size(3), pick(0, 1, 0, 1)) * 50)),
    ("three overrides between selections of all", (ALL, *(size(1), size(2), size(3), ALL) * 50)),
    ("writes and invokes in turn", (WRITE, MATCH, INVOKE) * 60),
)


def next_to_matches():
    bases = (("sizes of two digests at eight, linked", (*sizes_at_eight(61_000, 61_000), INVOKE)),
             ("sizes of one pair at eight, linked", (*several_times(1, 0, 62_000, 62_000), INVOKE)))
    for base, nodes in bases:
        for name, unit in UNITS:
            yield "%s, then %s" % (base, name), *most(
                lambda times, nodes=nodes, unit=unit: (*nodes, *loops(*unit)(times)), "severed", 8)


def indexed_anew():
    for count, forks in ((33_500, 3), (67_000, 2), (127_000, 1)):
        each = tuple(node for number in range(forks)
                     for node in (fork(number), ALL, size(200_000 + number), MATCH, size(3), INVOKE, size(4), INVOKE, pick(0)))
        yield "%d sizes at eight, then %d forks, each with a match and invokes" % (count, forks), (
            *sizes_at_eight(count), INVOKE, pick(0), *each), "severed", 8
        several = tries(*((ALL, size(200_000 + number), pick(0), MATCH) for number in range(2 ** forks - 1)), None)
        yield "%d sizes at eight, then %d ways with a match, and invokes" % (count, 2 ** forks), (
            *sizes_at_eight(count), INVOKE, pick(0), several, ALL, size(300_000), MATCH, size(3), INVOKE, pick(0)), "severed", 8
    yield "60,000 sizes at eight, packed, then a fork and matches at eight", (
        *sizes_at_eight(60_000), INVOKE, pick(0), fork(0), AT_EIGHT, again(9, size(("v", 200_000)), MATCH), ALL, size(EACH), INVOKE, pick(0)), "severed", 8


def against_room():
    for thought in (next_to_matches, indexed_anew):
        yield from thought()
