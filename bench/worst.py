"""Envelopes that are made against the way `suit check` judges: forks that leave many states, and then commands that are dear in each of
them, at each place where states are kept: outside inner sequences, inside one, in a loop over components, in a branch, and before a
member that follows. Each is filled up to the width that is judged and to the length of a manifest."""

import hashlib

from drawn import digest
from inputs import byte_string, head, parts_of

WIDEST = 4_194_304
LONGEST = 16_000
MATCH = ("test", b"\x03\x0f")
IMAGE = b"\x11" * 32


def override(*pairs):
    return ("override", b"\x14" + head(5, len(pairs)) + b"".join(head(0, key) + value for key, value in sorted(pairs)))


def size(number):
    return override((14, head(0, number)))


def index(*indices):
    return ("index", b"\x0c" + (head(0, indices[0]) if len(indices) == 1 else head(4, len(indices)) + b"".join(head(0, one) for one in indices)), len(indices))


def run(*commands):
    return ("run", list(commands))


def tries(*branches):
    return ("tries", list(branches))


# ---- as bytes, and how wide they are

def spelled(commands):
    return head(4, 2 * len(commands)) + b"".join(map(spelled_one, commands))


def spelled_one(command):
    if command[0] == "run":
        return b"\x18\x20" + byte_string(spelled(command[1]))
    if command[0] == "tries":
        return b"\x0f" + head(4, len(command[1])) + b"".join(b"\xf6" if one is None else byte_string(spelled(one)) for one in command[1])
    return command[1]


def measured(commands, selected=1):
    """The work, and in how many ways the commands complete or are ended by a condition."""
    work, on, off = 0, 1, 0
    for command in commands:
        kind = command[0]
        if kind == "index":
            work, selected = work + 1, command[2]
        elif kind == "run":
            inner_work, inner_on, inner_off = measured(command[1])
            work += selected * (1 + inner_work)
            for _ in range(selected):
                on, off = on * (inner_on + inner_off), off + on * inner_off
        elif kind == "tries":
            parts = [None if one is None else measured(one) for one in command[1]]
            work += selected * (1 + sum(part[0] for part in parts if part))
            done, failed = 0, 1
            for part in reversed(parts):
                done, failed = (1, 0) if part is None else (part[1] + part[2] * done, part[2] * failed)
            for _ in range(selected):
                on, off = on * done, off + on * failed
        else:
            work += selected
            if kind == "test":
                off += selected * on
    return work, on, off


# ---- what is dear

def fork_by_size(number):
    return tries([size(1000 + number), MATCH], None)


def fork_by_slot(number):
    return tries([override((5, head(0, number))), ("test", b"\x05\x0f")], None)


def fork_by_three(number):
    return tries([size(1000 + number), MATCH], [size(3000 + number), MATCH], [size(5000 + number), MATCH], None)


def forks_of_pairs(number):
    return tries([override((24, byte_string(bytes([number]) * 16)), (14, head(0, number))), ("test", b"\x18\x18\x0f"), MATCH], None)


FORKS = (fork_by_size, fork_by_slot, fork_by_three, forks_of_pairs)
SOME_IDS = tuple((key, byte_string(b"\x00" * 16)) for key in (1, 2, 24))
ALL_KEYS = SOME_IDS + ((3, digest(IMAGE)), (5, b"\x00"), (13, b"\xf4"), (18, b"\x41\xaa"), (21, b"\x61u"), (22, b"\x00"), (23, b"\x41\xaa"))


def nested(inside, depth):
    """The selection of a component inside `depth` sequences."""
    return index(0) if depth == 0 else inside(nested(inside, depth - 1))


TAILS = {
    "sizes": lambda n: [size(n), MATCH],
    "few sizes": lambda n: [size(n % 7), MATCH],
    "one match": lambda n: [MATCH],
    "sizes alone": lambda n: [size(n)],
    "digests": lambda n: [override((3, digest(bytes([n % 256, n // 256 % 256]) * 16)), (14, head(0, n))), MATCH],
    "writes": lambda n: [override((18, byte_string(bytes([n % 256])))), MATCH, ("act", b"\x12\x0f")],
    "swaps": lambda n: [override((22, b"\x01")), MATCH, ("act", b"\x18\x1f\x0f")],
    "contents of 64": lambda n: [override((18, byte_string(bytes([n % 256]) * 64)))],
    "contents of 65": lambda n: [override((18, byte_string(bytes([n % 256]) * 65)))],
    "contents of 1000": lambda n: [override((18, byte_string(bytes([n % 256]) * 1000)))],
    "contents of 1100": lambda n: [override((18, byte_string(bytes([n % 256]) * 1100)))],
    "all keys": lambda n: [override((14, head(0, n)), *ALL_KEYS)],
    "slots": lambda n: [override((5, head(0, n))), ("test", b"\x05\x0f")],
    "slot": lambda n: [override((5, head(0, n % 3))), ("test", b"\x05\x0f")],
    "invokes": lambda n: [MATCH, ("act", b"\x17\x0f")],
    "indices": lambda n: [index(n % 2), MATCH],
    "lists": lambda n: [index(0, 1, 0, 1), MATCH],
    "checked contents": lambda n: [override((18, byte_string(bytes([n % 256])))), ("test", b"\x06\x0f")],
    "runs": lambda n: [run(size(n))],
    "tries": lambda n: [tries([size(n)], None)],
    "runs of an index": lambda n: [nested(run, 5)],
    "tries of an index": lambda n: [nested(lambda one: tries([one], None), 5)],
    "runs of a write": lambda n: [override((18, byte_string(bytes([n % 256])))), *[run(("act", b"\x12\x0f"))] * 8],
}


def outside(forks, tail):
    return forks + tail


def in_a_run(forks, tail):
    return [run(*forks, *tail)]


def tail_in_a_run(forks, tail):
    return forks + [run(*tail)]


def in_a_branch(forks, tail):
    return [tries(forks + tail, None)]


def in_a_loop(forks, tail):
    return forks + [index(*[0, 1] * 50), run(*tail), index(0)]


PLACES = (outside, in_a_run, tail_in_a_run, in_a_branch, in_a_loop)


def is_judged(commands):
    """Whether the commands, with what comes before and after them, are within the width, and within the length."""
    work, on, _ = measured(commands)
    return (work + 60) * on <= WIDEST and len(spelled(commands)) <= LONGEST


def filled(place, forks, tail):
    """The forks with as many commands of the tail as are judged."""
    low, high = 0, LONGEST // len(spelled(tail(0))[1:]) + 1
    while low < high:
        count = (low + high + 1) // 2
        if is_judged(place(forks, [command for n in range(count) for command in tail(n)])):
            low = count
        else:
            high = count - 1
    return place(forks, [command for n in range(low) for command in tail(n)])


# ---- loops in which the same events are reported again and again

WRITE = ("act", b"\x12\x0f")
SWAP = ("act", b"\x18\x1f\x0f")
INVOKE = ("act", b"\x17\x0f")
ALL = ("index", b"\x0c\xf5", 2)


def content(byte, length):
    return override((18, byte_string(bytes([byte]) * length)))


def turns(count):
    """A list of indices in which two components take turns."""
    return index(*[0, 1] * (count // 2))


def looped(counts, inner):
    """Commands in loops over two components, each loop inside the one before it."""
    for count in reversed(counts):
        inner = [turns(count), run(*inner)]
    return inner + [index(0)]


def alike(number):
    """An override of a digest that begins like others."""
    return [override((3, digest(b"\x11" * 31 + bytes([number]))))]


def in_loops():
    """Commands that are done many times in loops, each with its name."""
    start = [ALL, override((18, b"\x41\xaa"), (22, b"\x01")), index(0)]
    sizes = [command for number in range(100) for command in (override((3, digest(IMAGE)), (14, head(0, number))), MATCH)]
    apart = [command for number in range(200) for command in (size(number), index(number % 2))]
    longs = [content(number, 4100) for number in range(3)]
    yield "a content of 14,000 bytes, overridden 2,000,000 times", looped((126, 126, 126), [content(7, 14_000)])
    yield "a content of 4,000 bytes, overridden 2,000,000 times", looped((126, 126, 126), [content(7, 4_000)])
    yield "three contents of 4,100 bytes, each overridden 680,000 times", looped((100, 100, 68), [index(0), *longs])
    yield "the same at two components, each 410,000 times", looped((100, 100, 40), [ALL, *longs])
    yield "a write, done 4,000,000 times", start + looped((20, 20, 2), [WRITE] * 5000)
    yield "a swap, done 4,000,000 times", start + looped((20, 20, 2), [SWAP] * 5000)
    threes = [size(1), size(2), size(3), WRITE] * 50
    yield "three overrides at two components, and a write, done 500,000 times", start + looped((100, 100), [ALL, *threes])
    yield "200 overrides, one apart from the next, each done 10,000 times", looped((100, 100), apart)
    invokes = [one for number in range(100) for one in (size(number), INVOKE)]
    yield "invokes under 100 sizes, done 2,000,000 times", sizes + [index(*[0] * 100), run(index(*[0] * 200), run(*invokes)), index(0)]
    yield "4,000,000 matches", [index(*[0, 1] * 1000), override((3, digest(IMAGE)))] + [MATCH] * 2000
    yield "4,000,000 matches of digests that begin alike", alike(0) + [MATCH] + alike(1) + [index(1)] + alike(2) + [turns(2000)] + [MATCH] * 2000


# ---- against fingerprints, against what is lent, and against the comparison of parameters

FACTOR = 0x9E37_79B9_7F4A_7C15
PARTS = 1 << 64


def mixed(print, number):
    product = (print ^ number) * FACTOR % PARTS
    return product ^ product >> 32


def of_one_fingerprint(count):
    """Digests whose words give the same number when they are mixed in by multiplication, as the fingerprint of a match once was."""
    wanted, back = 0x1234_5678_9ABC_DEF0, pow(FACTOR, -1, PARTS)
    for number in range(count):
        words = [number, 1, 1]
        print = 1
        for word in words:
            print = mixed(print, word)
        words.append((wanted ^ wanted >> 32) * back % PARTS ^ print)
        yield b"".join(word.to_bytes(8, "little") for word in words)


def met_fingerprints():
    sets = [override((3, digest(one))) for one in of_one_fingerprint(165)]
    matches = [command for one in sets for command in (one, MATCH)]
    invokes = [command for one in sets for command in (one, INVOKE)]
    return matches + [index(*[0] * 100), run(index(*[0] * 120), run(*invokes)), index(0)]


def many_pairs(digests, sizes, times):
    """Matches with each pair of a digest and a size, each digest in a state of its own, `times` times."""
    branches = [[override((3, digest(bytes([number]) * 32))), MATCH] for number in range(digests)]
    matches = [command for number in range(sizes) for command in (size(number), MATCH)]
    return [tries(*branches, None), index(*[0] * times), *matches, index(0)]


def long_contents(length, forks, count):
    """`count` overrides and writes in the states after `forks` forks in a sequence, with a content of `length` bytes in force at eight
    components."""
    start = [("index", b"\x0c\xf5", 8), content(7, length), index(0)]
    return start + [run(*map(fork_by_size, range(forks)), *(command for number in range(count) for command in (size(number), WRITE)))]


def alike_but_last(length, count):
    """`count` states that differ only in the arguments of the last component, with a content of `length` bytes in force at all eight."""
    start = [("index", b"\x0c\xf5", 8), content(7, length), index(7), override((3, digest(IMAGE)))]
    branches = [[override((23, byte_string(number.to_bytes(2, "big")))), MATCH] for number in range(count)]
    return start + [run(tries(*branches, None), run(MATCH)), index(0)]


def runs_in_states(forks, count):
    """`count` sequences that only select, in the states after `forks` forks in a sequence, with all parameters in force at eight
    components."""
    start = [("index", b"\x0c\xf5", 8), override((14, b"\x00"), *ALL_KEYS), index(0)]
    return start + [run(*map(fork_by_size, range(forks)), *[run(index(0))] * count)]


def together(length, count):
    """`count` overrides of a content of `length` bytes, one after another, in a loop."""
    return looped((100, 100, 400 // (count + 1)), [content(number, length) for number in range(count)])


# ---- made by reading the checker's code: failures that the width does not count, bytes that no bound on comparisons counts, and states
# that share nothing with the one before them

def pairs_of(count, first=0):
    return [command for number in range(first, first + count) for command in (size(number), MATCH)]


def in_a_last_branch(forks, count):
    """A try without a null branch. Its first branch has `forks` forks, and in its last one `count` matches may fail in each state. The
    width counts in how many ways the try completes, so these failures do not count."""
    return [tries([*map(fork_by_size, range(forks)), MATCH], pairs_of(count))]


def fork_by_a_cell(number):
    """A fork that leaves another parameter in force than the other forks do, so that no state has the parameters of the one before it."""
    ids = [(key, byte_string(bytes([number]) * 16)) for key in (1, 2, 24)]
    one = byte_string(bytes([number]))
    pair = [(5, head(0, number)), (18, one), (23, one), (21, b"\x61" + bytes([65 + number])), *ids][number % 7]
    return tries([override((14, head(0, 100 + number)), pair), MATCH], None)


def cells_in_a_run(forks, writes=0):
    return [content(7, 1), run(*map(fork_by_a_cell, range(forks)), *[WRITE] * writes)]


def invokes_at_eight():
    """Invokes of eight components in turn, each with a digest of 64 bytes of its own, done 4,000,000 times."""
    digests = [byte_string(b"\x82\x38\x2b" + byte_string(bytes([number]) * 64)) for number in range(8)]
    matches = [command for number in range(8) for command in (index(number), override((3, digests[number]), (14, head(0, number))), MATCH)]
    return matches + [turns(100), run(turns(50), run(("index", b"\x0c\xf5", 8), *[INVOKE] * 103)), index(0)]


def tries_in_states(forks, count):
    """`count` selections, each inside five tries, in the states after `forks` forks in a sequence."""
    return [run(*map(fork_by_size, range(forks)), *[nested(lambda one: tries([one], None), 5)] * count)]


def of_long_contents(length, ways):
    """`ways` times `ways` times `ways` states in a sequence. They differ only at the last component, in a content, a URI and arguments of
    equal length; the other seven have a content of `length` bytes in force."""
    kinds = ((18, byte_string), (21, lambda text: head(3, 2) + text), (23, byte_string))
    each = [tries(*[[override((key, spell(b"a" + bytes([97 + number])))), MATCH] for number in range(ways)], None) for key, spell in kinds]
    return [("index", b"\x0c\xf5", 8), content(7, length), index(7), override((3, digest(IMAGE))), MATCH, run(*each, run(MATCH)), index(0)]


def common_of(count):
    ids = b"".join(b"\x81\x41" + bytes([number]) for number in range(count))
    start = spelled([override((3, digest(IMAGE)))])
    common = head(5, 2) + b"\x02" + head(4, count) + ids + b"\x04" + byte_string(start)
    return [b"\x01\x01", b"\x02\x01", b"\x03" + byte_string(common)]


def judged_twice(stored, commands, count):
    """An envelope with the commands, and an invoke after them, in the validate member, which both procedures run."""
    pairs = common_of(count) + [b"\x07" + byte_string(spelled(commands + ending()))]
    manifest = head(5, len(pairs)) + b"".join(pairs)
    return bytes.fromhex("d86b") + head(5, 2) + parts_of(stored)[0] + b"\x03" + byte_string(manifest)


def ending():
    return [index(0), size(3), override((3, digest(IMAGE))), MATCH, INVOKE]


def severed(stored, commands, count):
    """An envelope with the commands, and an invoke after them, in a severed install member, which may be as long as the file."""
    member = byte_string(spelled(commands + ending()))
    pairs = common_of(count) + [b"\x14\x82\x2f" + byte_string(hashlib.sha256(member).digest())]
    manifest = head(5, len(pairs)) + b"".join(pairs)
    return bytes.fromhex("d86b") + head(5, 3) + parts_of(stored)[0] + b"\x03" + byte_string(manifest) + b"\x14" + member


def enclosed(stored, commands, is_wanted, count):
    """An envelope with the commands in the validate member if a member is wanted after them, and otherwise in the invoke member."""
    pairs, end = common_of(count), ending()
    if is_wanted:
        pairs += [b"\x07" + byte_string(spelled(commands)), b"\x09" + byte_string(spelled(end))]
    else:
        pairs.append(b"\x09" + byte_string(spelled(commands + end)))
    manifest = head(5, len(pairs)) + b"".join(pairs)
    return bytes.fromhex("d86b") + head(5, 2) + parts_of(stored)[0] + b"\x03" + byte_string(manifest)


def worst(stored, count):
    """`count` envelopes with their names, chosen evenly from all combinations."""
    all = [
        (name, place, fork, many, is_wanted)
        for place in PLACES for is_wanted in (False, True) for fork in FORKS for many in (6, 12, 15) for name in TAILS
        if is_judged(place([fork(number) for number in range(many)], TAILS[name](0)))
    ]
    for at in range(count):
        name, place, fork, many, is_wanted = all[at * len(all) // count]
        commands = filled(place, [fork(number) for number in range(many)], TAILS[name])
        shows = "%s %s behind %d times %s%s" % (name, place.__name__, many, fork.__name__, ", with a member behind" if is_wanted else "")
        yield shows, enclosed(stored, commands, is_wanted, 2)


def dear(stored):
    """The commands in loops and others, as envelopes with their names."""
    for shows, commands in in_loops():
        yield shows, enclosed(stored, commands, False, 2)
    yield "invokes under 165 digests of one fingerprint, done 2,000,000 times", enclosed(stored, met_fingerprints(), False, 2)
    yield "matches under 120,000 pairs of a digest and a size, 14 times each", enclosed(stored, many_pairs(150, 800, 14), False, 2)
    for length, count in ((4_000, 3), (3_900, 4), (1_900, 8), (300, 9)):
        yield "%d overrides of %d bytes, one after another, in a loop" % (count, length), enclosed(stored, together(length, count), False, 2)
    yield "200 sequences of a selection alone in 8,192 states", enclosed(stored, runs_in_states(13, 200), False, 8)
    yield "500 states that differ in the last of their parameters", enclosed(stored, alike_but_last(6_000, 500), False, 8)
    for length in (100, 10_000):
        for forks, count in ((13, 200), (14, 70), (15, 4)):
            shows = "a content of %d bytes at 8 components in %d states" % (length, 2**forks)
            yield shows, enclosed(stored, long_contents(length, forks, count), False, 8)
    for forks, count in ((0, 1_800), (3, 1_000)):
        shows = "a last branch of %d matches in %d states" % (count, 2**forks)
        yield shows, enclosed(stored, in_a_last_branch(forks, count), False, 2)
    for forks, writes in ((16, 0), (14, 200)):
        shows = "%d states that share no parameters, and %d writes" % (2**forks, writes)
        yield shows, enclosed(stored, cells_in_a_run(forks, writes), False, 2)
    yield "invokes at eight components, done 4,000,000 times", enclosed(stored, invokes_at_eight(), False, 8)
    yield "the same in the validate member", judged_twice(stored, invokes_at_eight(), 8)
    yield "160 selections, each inside five tries, in 4,096 states", enclosed(stored, tries_in_states(12, 160), False, 8)
    yield "512 states that differ in the last component alone", enclosed(stored, of_long_contents(13_900, 8), False, 8)
    yield "100 such states with a content of 900,000 bytes in a severed member", severed(stored, alike_but_last(900_000, 100), 8)
