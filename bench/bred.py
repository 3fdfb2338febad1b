"""Plans that can be changed by chance. A plan is the commands of a procedure as a tree in which a repetition is one node. The width and the
length of a plan are computed from the tree, so a repetition can be increased to the most that is judged. The same numbers always make the
same plan.

    ("set", ((key, value), ..))    an override; a value is a number, or a kind, a byte and a length; with "v" in front of it, it differs
                                   in each copy that a repetition makes
    ("pick", indices, times)       a selection: a list of indices, `times` times over, or a single index, or "all"
    ("test", key) ("act", key)     a condition, and a directive
    ("run", nodes) ("tries", branches)    a branch may be None
    ("again", count, nodes)        the nodes, `count` times in a row"""

import functools
import hashlib
import random

import worst
from inputs import byte_string, head, parts_of

WIDEST, LONGEST, LONGEST_FILE = worst.WIDEST, 16_200, 1_040_000
DEEPEST = 7
PLACES = ("invoke", "behind", "twice", "severed", "shared", "told", "beside", "along", "aside")
# How many overrides the long member has: each is of eight keys, which takes much room when it is read, but only one step.
LONG_COUNT = 56_000
# How many sizes the dear member matches, each in 32 states: as many as the width allows.
PAIR_COUNT = 65_500
# How many sizes the lost member invokes in another order, at three components after another, and how many times.
LOST_COUNT, LOST_TIMES = 40_000, 49
# The sizes that the missed member invokes in another order, at five components after another, and how many times.
MISSED, MISSED_TIMES = range(3_000, 65_000), 28
TESTS, ACTS = (3, 1, 2, 24, 5, 6), (18, 23, 31, 21, 22)
NUMBERS, IDENTITIES, BYTES = (5, 14, 22), (1, 2, 24), (18, 23, 21)
LENGTHS = (1, 2, 31, 64, 65, 300, 1_000, 1_100, 1_900, 4_000, 4_096, 4_097, 13_000)
IMAGE = ("digest", 0x11, 32)


# ---- small plans

def sets(*pairs):
    return ("set", tuple(sorted(pairs, key=lambda pair: pair[0])))


def size(number, *more):
    return sets((14, number), *more)


def pick(*indices, times=1):
    return ("pick", indices, times)


def again(count, *nodes):
    return ("again", count, nodes)


def run(*nodes):
    return ("run", nodes)


def tries(*branches):
    return ("tries", tuple(branches))


def nested(inside, depth):
    return pick(0) if depth == 0 else inside(nested(inside, depth - 1))


ALL = ("pick", "all", 1)
MATCH, WRITE, INVOKE, SWAP = ("test", 3), ("act", 18), ("act", 23), ("act", 31)
EACH = ("v", 0)
ENDING = (pick(0), size(3), sets((3, IMAGE)), MATCH, INVOKE)
OPEN = (pick(0), size(77), INVOKE)
EIGHT = sets((5, 0), (12, True), (13, True), (14, 1), (18, ("bytes", 1, 0)), (21, ("bytes", 97, 0)), (22, 0), (23, ("bytes", 1, 0)))


# ---- how wide they are, and how long

def composed(one, other):
    """The work and the ways of one, followed by the other."""
    return one[0] + other[0], one[1] * other[1], one[2] + one[1] * other[2]


def repeated(ways, count):
    work, on, off = ways
    if count < 1:
        return 0, 1, 0
    if on == 1:
        return work * count, 1, off * count
    power = on ** min(count, 64)
    return work * count, power, off * (power - 1) // (on - 1)


def selected_by(node, count):
    return count if node[1] == "all" else len(node[1]) * node[2]


def measured(nodes, count, selected=1):
    """The work, in how many ways the nodes complete or are ended by a condition, and how many components are selected after them."""
    all = 0, 1, 0
    for node in nodes:
        ways, selected = measured_one(node, count, selected)
        all = composed(all, ways)
    return all, selected


def measured_one(node, count, selected):
    kind = node[0]
    if kind == "pick":
        return (1, 1, 0), selected_by(node, count)
    if kind == "again":
        first, behind = measured(node[2], count, selected)
        if node[1] < 1:
            return (0, 1, 0), selected
        return composed(first, repeated(measured(node[2], count, behind)[0], node[1] - 1)), behind
    if kind == "run":
        work, on, off = measured(node[1], count)[0]
        return repeated((1 + work, on + off, off), selected), selected
    if kind == "tries":
        parts = [None if one is None else measured(one, count)[0] for one in node[1]]
        done, failed = 0, 1
        for part in reversed(parts):
            done, failed = (1, 0) if part is None else (part[1] + part[2] * done, part[2] * failed)
        return repeated((1 + sum(part[0] for part in parts if part), done, failed), selected), selected
    return repeated((1, 1, 1 if kind == "test" else 0), selected), selected


def depth(nodes):
    return max((1 + depth(inner) if one[0] in ("run", "tries") else depth(inner) for one in nodes for inner in inners(one)), default=0)


def inners(node):
    if node[0] == "tries":
        return [one for one in node[1] if one is not None]
    return [node[-1]] if node[0] in ("run", "again") else []


# ---- as bytes

def value_of(key, value, shift):
    if value[0:1] == ("v",) if isinstance(value, tuple) else False:
        return value_of(key, shifted(value[1], shift), 0)
    if isinstance(value, bool):
        return b"\xf5" if value else b"\xf4"
    if isinstance(value, int):
        return head(0, value)
    kind, byte, length = value
    held = byte.to_bytes(8, "big")[-min(8, max(1, length)):] if byte > 255 else bytes([byte])
    held = (held + bytes([byte % 251]) * length)[:length]
    if kind == "digest":
        return byte_string((b"\x82\x2f" if length == 32 else b"\x82\x38\x2b") + byte_string(held))
    if kind == "alike":
        # Digests of which all but the last eight bytes are the same.
        return byte_string((b"\x82\x2f" if length == 32 else b"\x82\x38\x2b") + byte_string(b"\x11" * (length - 8) + byte.to_bytes(8, "big")))
    if key == 21:
        return head(3, length) + bytes(97 + one % 26 for one in held)
    return byte_string(held)


def shifted(value, shift):
    if isinstance(value, bool):
        return value
    if isinstance(value, int):
        return value + shift
    return value[0], value[1] + 256 * shift, value[2]


def commands_of(nodes, shift=0):
    """The commands in the form that `worst` spells."""
    all = []
    for node in nodes:
        kind = node[0]
        if kind == "set":
            pairs = b"".join(head(0, key) + value_of(key, value, shift) for key, value in node[1])
            all.append(("override", b"\x14" + head(5, len(node[1])) + pairs))
        elif kind == "pick":
            all.append(("index", b"\x0c\xf5", 8) if node[1] == "all" else worst.index(*node[1] * node[2]))
        elif kind in ("test", "act"):
            all.append((kind, head(0, node[1]) + b"\x0f"))
        elif kind == "run":
            all.append(("run", commands_of(node[1], shift)))
        elif kind == "tries":
            all.append(("tries", [None if one is None else commands_of(one, shift) for one in node[1]]))
        else:
            for number in range(node[1]):
                all += commands_of(node[2], shift * node[1] + number)
    return all


def with_head(length):
    return length + len(head(0, length))


def spelled_length(nodes, shift=0):
    """How long a sequence is at most. Each copy that a repetition makes counts as long as the last one."""
    count, length = lengths(nodes, shift)
    return length + len(head(0, 2 * count))


def lengths(nodes, shift):
    """How many commands the nodes are, and how many bytes these take."""
    commands = length = 0
    for node in nodes:
        if node[0] == "again":
            inner = lengths(node[2], shift * node[1] + max(0, node[1] - 1))
            commands, length = commands + node[1] * inner[0], length + node[1] * inner[1]
            continue
        commands += 1
        if node[0] == "run":
            length += 2 + with_head(spelled_length(node[1], shift))
        elif node[0] == "tries":
            length += 1 + len(head(0, len(node[1])))
            length += sum(1 if one is None else with_head(spelled_length(one, shift)) for one in node[1])
        else:
            length += len(commands_of((node,), shift)[0][1])
    return commands, length


@functools.lru_cache
def long_member():
    one = worst.spelled(commands_of((EIGHT,)))[1:]
    return byte_string(head(4, 2 * LONG_COUNT) + one * LONG_COUNT)


@functools.lru_cache
def dear_member():
    forks = again(5, tries((size(("v", 9_000)), MATCH), None))
    return byte_string(worst.spelled(commands_of((forks, again(PAIR_COUNT, size(EACH), MATCH), *ENDING))))


@functools.lru_cache
def lost_member():
    first, second = (random.Random(seed).sample(range(70_000, 70_000 + LOST_COUNT), LOST_COUNT) for seed in (1, 2))
    matched, invoked = ([node for number in order for node in (size(number), act)] for order, act in ((first, MATCH), (second, INVOKE)))
    three = pick(*((0, 1, 2) * LOST_TIMES)[:LOST_TIMES])
    return byte_string(worst.spelled(commands_of((pick(0, 1, 2), sets((3, IMAGE)), *matched, three, run(*invoked), *ENDING))))


@functools.lru_cache
def missed_member():
    first, second = (random.Random(seed).sample(MISSED, len(MISSED)) for seed in (1, 2))
    matched, invoked = ([node for number in order for node in (size(number), act)] for order, act in ((first, MATCH), (second, INVOKE)))
    own = [node for one in range(5) for node in (pick(one), sets((3, ("digest", one + 1, 32))))]
    five = pick(*((0, 1, 2, 3, 4) * MISSED_TIMES)[:MISSED_TIMES])
    return byte_string(worst.spelled(commands_of((*own, pick(0, 1, 2, 3, 4), *matched, five, run(*invoked), *ENDING))))


OTHERS = {"beside": long_member, "along": dear_member, "aside": lost_member, "among": missed_member}


class Plan:
    """Commands, the member that they are in, and the number of components."""

    def __init__(self, nodes, place="invoke", count=2):
        self.nodes, self.place, self.count = tuple(nodes), place, count

    def members(self):
        """The shared sequence and the members of the wider procedure, all as nodes."""
        shared, end = (sets((3, IMAGE)),), OPEN if self.place == "told" else ENDING
        if self.place == "shared":
            return shared + self.nodes, [end]
        if self.place == "behind":
            return shared, [self.nodes, end]
        return shared, [self.nodes + end]

    def width(self):
        shared, members = self.members()
        work, on, _ = measured(shared, self.count)[0]
        work, on = 3 * work, on**3
        for member in members:
            inner, _ = measured(member, self.count)
            work, on = work + inner[0], on * inner[1]
        return work * on

    def states(self):
        return measured(self.nodes, self.count)[0][1]

    def envelope(self, stored):
        shared, members = self.members()
        spelled = [byte_string(worst.spelled(commands_of(one))) for one in members]
        ids = b"".join(b"\x81\x41" + bytes([number]) for number in range(self.count))
        common = head(5, 2) + b"\x02" + head(4, self.count) + ids + b"\x04" + byte_string(worst.spelled(commands_of(shared)))
        pairs, beside = [b"\x01\x01", b"\x02\x01", b"\x03" + byte_string(common)], b""
        if self.place == "severed":
            pairs.append(b"\x14\x82\x2f" + byte_string(hashlib.sha256(spelled[0]).digest()))
            beside = b"\x14" + spelled[0]
        elif self.place in OTHERS:
            # A member that only the other procedure runs: a long one, or one that takes long to judge.
            other = OTHERS[self.place]()
            pairs += [b"\x09" + spelled[0], b"\x14\x82\x2f" + byte_string(hashlib.sha256(other).digest())]
            beside = b"\x14" + other
        elif self.place == "both":
            # Nearly the same member for both procedures, so that each is judged.
            other = byte_string(worst.spelled(commands_of((pick(0),) + members[0])))
            pairs += [b"\x09" + spelled[0], b"\x14\x82\x2f" + byte_string(hashlib.sha256(other).digest())]
            beside = b"\x14" + other
        elif self.place == "twice":
            pairs.append(b"\x07" + spelled[0])
        elif self.place == "behind":
            pairs += [b"\x07" + spelled[0], b"\x09" + spelled[1]]
        else:
            pairs.append(b"\x09" + spelled[0])
        manifest = head(5, len(pairs)) + b"".join(pairs)
        return bytes.fromhex("d86b") + head(5, 3 if beside else 2) + parts_of(stored)[0] + b"\x03" + byte_string(manifest) + beside

    def length(self):
        shared, members = self.members()
        return sum(map(spelled_length, [shared, *members]))

    def is_judged(self, widest=WIDEST):
        # The length comes last, since it takes longest to compute.
        if depth(self.nodes) > DEEPEST or self.width() > widest:
            return False
        if steps(self.nodes) > LONGEST_FILE // 2:
            return False
        return self.length() <= (LONGEST_FILE if self.place == "severed" else LONGEST)


def steps(nodes):
    """How many commands the spelled sequence has."""
    return sum(node[1] * steps(node[2]) if node[0] == "again" else 1 + sum(map(steps, inners(node))) for node in nodes)


# ---- changes by chance

def paths(nodes, path=()):
    """The path to each sequence in the tree."""
    yield path
    for at, node in enumerate(nodes):
        if node[0] in ("run", "again"):
            yield from paths(node[-1], path + ((at, -1),))
        elif node[0] == "tries":
            for branch, inner in enumerate(node[1]):
                if inner is not None:
                    yield from paths(inner, path + ((at, branch),))


def sequence_at(nodes, path):
    for at, branch in path:
        nodes = nodes[at][-1] if branch < 0 else nodes[at][1][branch]
    return nodes


def replaced(nodes, path, changed):
    """The tree with another sequence at the end of this path."""
    if not path:
        return tuple(changed)
    at, branch = path[0]
    node = nodes[at]
    if branch < 0:
        node = node[:-1] + (replaced(node[-1], path[1:], changed),)
    else:
        node = ("tries", node[1][:branch] + (replaced(node[1][branch], path[1:], changed),) + node[1][branch + 1:])
    return nodes[:at] + (node,) + nodes[at + 1:]


def filled(plan, draw, widest=WIDEST):
    """The plan with a repetition increased to the most that is judged, after repetitions were halved while it was too wide or too long.
    Which ones is drawn; without a draw it is always the last one. None if that does not help."""
    def any_of(count):
        return draw.randrange(count) if draw else count - 1

    def counted(at, count):
        path, place = spots[at]
        held = sequence_at(plan.nodes, path)
        changed = held[:place] + (("again", count, held[place][2]),) + held[place + 1:]
        return Plan(replaced(plan.nodes, path, changed), plan.place, plan.count)

    def all_spots():
        return [
            (path, place) for path in paths(plan.nodes) for place, node in enumerate(sequence_at(plan.nodes, path)) if node[0] == "again"
        ]

    spots = all_spots()
    for _ in range(40):
        if plan.is_judged(widest) or not spots:
            break
        at = any_of(len(spots))
        path, place = spots[at]
        plan = counted(at, sequence_at(plan.nodes, path)[place][1] // 2)
        spots = all_spots()
    if not plan.is_judged(widest):
        return None
    if spots:
        at = any_of(len(spots))
        path, place = spots[at]
        low = sequence_at(plan.nodes, path)[place][1]
        high = LONGEST_FILE // 2 if plan.place == "severed" else LONGEST // 2
        while low < high:
            middle = (low + high + 1) // 2 if high - low < 64 or low > 1_000 else min(high, 2 * low + 1)
            if counted(at, middle).is_judged(widest):
                low = middle
            else:
                high = middle - 1
        plan = counted(at, low)
    return plan


def drawn_value(draw, key, count):
    if key in NUMBERS:
        value = draw.randrange(count) if key == 22 else draw.choice((draw.randrange(4), draw.randrange(24), draw.randrange(9_000)))
    elif key in (12, 13):
        return draw.random() < 0.5
    elif key in IDENTITIES:
        value = ("bytes", draw.randrange(4), 16)
    elif key == 3:
        value = draw.choice((IMAGE, ("digest", draw.randrange(256), draw.choice((32, 64))), ("alike", draw.randrange(256), 64)))
    else:
        value = ("bytes", draw.randrange(256), draw.choice(LENGTHS))
    return ("v", value) if draw.random() < 0.4 and key != 22 else value


def drawn_set(draw, count):
    keys = draw.sample((1, 2, 3, 5, 12, 13, 14, 18, 21, 22, 23, 24), draw.choice((1, 1, 1, 1, 2, 2, 3, 6, 12)))
    return sets(*((key, drawn_value(draw, key, count)) for key in keys))


def drawn_pick(draw, count):
    kind = draw.randrange(4)
    if kind == 0:
        return ALL
    if kind == 1:
        return pick(draw.randrange(count))
    return pick(*(draw.randrange(count) for _ in range(draw.choice((2, 2, 3, 8)))), times=draw.choice((1, 2, 10, 50, 100, 500, 2_000)))


def drawn_fork(draw, count):
    """Nodes that leave two states or more."""
    kind = draw.randrange(6)
    number = draw.randrange(10_000, 60_000)
    if kind == 0:
        return (tries((size(("v", number)), MATCH), None),)
    if kind == 1:
        return (pick(draw.randrange(count)), tries((size(("v", number)), MATCH), None))
    if kind == 2:
        key = draw.choice((1, 2, 24, 5))
        return (tries((sets((key, drawn_value(draw, key, count))), ("test", key)), None),)
    if kind == 3:
        return (tries((size(number), MATCH), (size(number + 1), MATCH), None),)
    if kind == 4:
        return (tries((drawn_set(draw, count), size(("v", number)), MATCH), None),)
    return (sets((13, True)), run(sets((13, True)), size(("v", number)), MATCH))


def drawn_nodes(draw, count):
    """A few commands."""
    kind = draw.randrange(14)
    if kind < 3:
        return (drawn_set(draw, count),)
    if kind < 5:
        return (drawn_pick(draw, count),)
    if kind < 7:
        return (("act", draw.choice(ACTS)),)
    if kind < 8:
        return (("test", draw.choice(TESTS)),)
    if kind < 9:
        return (drawn_set(draw, count), ("act", draw.choice(ACTS)))
    if kind < 10:
        return (drawn_set(draw, count), MATCH, INVOKE)
    if kind < 11:
        return (again(draw.choice((2, 4, 8, 12)), *drawn_fork(draw, count)),)
    if kind < 12:
        return drawn_fork(draw, count)
    inside = draw.choice((run, lambda *inner: tries(inner, None), lambda *inner: tries((size(8_888), MATCH), inner)))
    if kind < 13:
        return (inside(*drawn_nodes(draw, count)),)
    return (nested(lambda one: inside(one), draw.randrange(2, 6)),)


def changed_leaf(draw, node, count):
    if node[0] == "set":
        pairs = dict(node[1])
        key = draw.choice(sorted(pairs) + [draw.choice((1, 2, 3, 5, 12, 13, 14, 18, 21, 22, 23, 24))])
        if key in pairs and len(pairs) > 1 and draw.random() < 0.3:
            del pairs[key]
        else:
            pairs[key] = drawn_value(draw, key, count)
        return sets(*pairs.items())
    if node[0] == "pick":
        return drawn_pick(draw, count)
    if node[0] == "act":
        return ("act", draw.choice(ACTS))
    if node[0] == "test":
        return ("test", draw.choice(TESTS))
    if node[0] == "again":
        return ("again", max(1, draw.choice((node[1] * 2, node[1] // 2, node[1] + 1, node[1] - 1, 3, 12, 16))), node[2])
    if node[0] == "run":
        return draw.choice((tries(node[1], None), tries((size(8_888), MATCH), node[1]), run(run(*node[1]))))
    branches = list(node[1])
    if draw.random() < 0.5 and branches[-1] is None and len(branches) > 2:
        branches.pop()
    else:
        branches.insert(draw.randrange(len(branches)), drawn_nodes(draw, count))
    return ("tries", tuple(branches))


def changed_once(plan, draw, others):
    nodes, place, count = plan.nodes, plan.place, plan.count
    path = draw.choice(list(paths(nodes)))
    held = sequence_at(nodes, path)
    at = draw.randrange(len(held) + 1)
    end = min(len(held), at + draw.choice((1, 1, 2, 3, 8)))
    kind = draw.randrange(20)
    if kind < 4 and at < len(held):
        held = held[:at] + (changed_leaf(draw, held[at], count),) + held[at + 1:]
    elif kind < 8:
        held = held[:at] + drawn_nodes(draw, count) + held[at:]
    elif kind < 10:
        held = held[:at] + held[end:]
    elif kind < 11:
        held = held[:at] + held[at:end] * 2 + held[end:]
    elif kind < 12:
        held = held[:at] + held[end:] + held[at:end]
    elif kind < 15 and at < end:
        inner = held[at:end]
        wrapped = draw.choice((
            (run(*inner),), (tries(inner, None),), (tries((size(8_888), MATCH), inner),), (again(draw.choice((2, 10, 100)), *inner),),
            (drawn_pick(draw, count), run(*inner), pick(0)), (run(run(run(*inner))),),
        ))
        held = held[:at] + wrapped + held[end:]
    elif kind < 16:
        held = held[:at] + (again(draw.choice((1, 2, 3, 4)), *drawn_fork(draw, count)),) + held[at:]
    elif kind < 18 and others:
        other = draw.choice(others)
        inner = sequence_at(other.nodes, draw.choice(list(paths(other.nodes))))
        first = draw.randrange(len(inner) + 1)
        held = held[:at] + inner[first:first + draw.choice((1, 2, 4))] + held[at:]
        count = max(count, other.count)
    elif kind < 19:
        place = draw.choice(PLACES[:5])
    else:
        count = draw.choice((1, 2, 2, 8, 8))
    return Plan(replaced(nodes, path, held), place, count)


def bred(plan, seed, others, widest=WIDEST):
    """The plan that a seed makes of another one: changed a few times, and then filled. None if it is not judged."""
    draw = random.Random(seed)
    for _ in range(draw.choice((1, 1, 1, 2, 2, 3, 5))):
        plan = changed_once(plan, draw, others)
    if len(str(plan.nodes)) > 20_000:
        return None
    return filled(plan, draw, widest)


def drawn(seed, widest=WIDEST):
    """A plan that is drawn from a seed alone."""
    draw = random.Random(seed)
    count = draw.choice((1, 2, 2, 8))
    nodes = tuple(node for _ in range(draw.randrange(1, 5)) for node in drawn_nodes(draw, count))
    nodes += (again(draw.choice((4, 8, 12)), *drawn_fork(draw, count)), again(10, *drawn_nodes(draw, count)))
    nodes = draw.choice((nodes, (run(*nodes),), (tries(nodes, None),), (tries((size(8_888), MATCH), nodes),)))
    return filled(Plan(nodes, draw.choice(PLACES[:4]), count), draw, widest)
