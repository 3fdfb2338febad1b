"""Envelopes for `suit check` that are drawn by chance: procedures of one to eight components with loops over components, tries, overrides,
matches, writes and conditions on the identity. Many of them are as wide as `check` judges."""

import random

from inputs import byte_string, head, parts_of

DIGESTS = [bytes([number]) * 32 for number in range(4)]
IDENTIFIERS = [bytes([number]) * 16 for number in range(3)]


def sequence(items):
    return head(4, len(items)) + b"".join(items)


def command(code, argument):
    return [head(0, code), argument]


def digest(of):
    return byte_string(b"\x82\x2f" + byte_string(of))


def parameters(draw, count):
    """A map of some parameters, in the order of their keys."""
    values = {
        1: lambda: byte_string(draw.choice(IDENTIFIERS)),
        2: lambda: byte_string(draw.choice(IDENTIFIERS)),
        3: lambda: digest(draw.choice(DIGESTS)),
        5: lambda: head(0, draw.randrange(3)),
        13: lambda: draw.choice((b"\xf4", b"\xf5")),
        14: lambda: head(0, draw.randrange(3)),
        18: lambda: byte_string(b"abc"),
        21: lambda: b"\x61u",
        22: lambda: head(0, draw.randrange(count)),
        24: lambda: byte_string(draw.choice(IDENTIFIERS)),
    }
    keys = sorted(draw.sample(sorted(values), draw.choice((1, 1, 1, 2, 3, 8))))
    return head(5, len(keys)) + b"".join(head(0, key) + values[key]() for key in keys)


def selection(draw, count, long):
    kind = draw.randrange(3)
    if kind == 0:
        return head(0, draw.randrange(count))
    if kind == 1:
        return b"\xf5"
    picked = [draw.randrange(count) for _ in range(draw.choice((1, 2, 3, long)))]
    return head(4, len(picked)) + b"".join(head(0, index) for index in picked)


def commands(draw, count, level, size, long, acts):
    items = []
    for _ in range(size):
        kind = draw.randrange(12 if level < 5 else 9)
        if kind < 3:
            items += command(20, parameters(draw, count))
        elif kind < 4:
            items += command(12, selection(draw, count, long))
        elif kind < 6:
            items += command(3, b"\x0f")
        elif kind < 8:
            items += command(draw.choice((1, 2, 5, 24, 6)), b"\x0f")
        elif kind < 9:
            items += command(draw.choice((18, 21, 22, 31, 23)) if acts else 14, b"\x0f")
        elif kind < 11:
            inner = [byte_string(sequence(commands(draw, count, level + 1, draw.randrange(1, 4), long, acts)))
                     for _ in range(draw.choice((1, 2, 2)))]
            inner.append(b"\xf6" if draw.random() < 0.7 or len(inner) < 2 else inner.pop())
            items += command(15, sequence(inner))
        else:
            inner = commands(draw, count, level + 1, draw.randrange(1, 5), long, acts)
            if draw.random() < 0.5:
                inner = command(20, b"\xa1\x0d\xf5") + inner
            items += command(32, byte_string(sequence(inner)))
    return items


def drawn(stored, seed):
    """The envelope that a seed draws. It may be refused."""
    draw = random.Random(seed)
    count = draw.randrange(1, 9)
    long = draw.choice((4, 16, 64, 256))
    shared = commands(draw, count, 1, draw.randrange(0, 4), 3, False)
    start = command(20, b"\xa1\x03" + digest(DIGESTS[0]))
    ids = b"".join(b"\x81\x41" + bytes([number]) for number in range(count))
    common = head(5, 2) + b"\x02" + head(4, count) + ids + b"\x04" + byte_string(sequence(start + shared))
    invoke = commands(draw, count, 1, draw.choice((2, 5, 10, 20, 40)), long, True)
    end = command(12, b"\x00") + command(3, b"\x0f") + command(23, b"\x0f")
    pairs = [b"\x01\x01", b"\x02\x01", b"\x03" + byte_string(common)]
    if draw.random() < 0.3:
        pairs.append(b"\x07" + byte_string(sequence(commands(draw, count, 1, draw.randrange(1, 5), 3, False))))
    pairs.append(b"\x09" + byte_string(sequence(invoke + end)))
    manifest = head(5, len(pairs)) + b"".join(pairs)
    return bytes.fromhex("d86b") + head(5, 2) + parts_of(stored)[0] + b"\x03" + byte_string(manifest)


# ---- shapes that are dear: tries, each of which multiplies the states, and then commands in all of these, up to the width

WIDEST = 4_194_304


def override(pairs):
    return b"\x14" + head(5, len(pairs)) + b"".join(head(0, key) + value for key, value in sorted(pairs))


def size(number):
    return (14, head(0, number))


# A branch that may fail: its commands, how many they are, what they cost, and by how much they multiply the ways.
FORKS = [
    lambda draw, n: (override([size(100 + n)]) + b"\x03\x0f", 2, 2, 2),
    lambda draw, n: (override([(5, head(0, n))]) + b"\x05\x0f", 2, 2, 2),
    lambda draw, n: (override([(1, byte_string(bytes([n]) * 16))]) + b"\x01\x0f", 2, 2, 2),
    lambda draw, n: (override([(24, byte_string(bytes([n]) * 16)), size(n)]) + b"\x18\x18\x0f\x03\x0f", 3, 3, 3),
    lambda draw, n: (override([(18, byte_string(bytes([n])))]) + b"\x06\x0f", 2, 2, 2),
    lambda draw, n: (override([(21, b"\x61" + bytes([65 + n])), size(n)]) + b"\x03\x0f", 2, 2, 2),
]

# Commands in all states after the tries: their bytes, and how many they are.
TAILS = [
    lambda draw, n: (override([size(n)]), 1),
    lambda draw, n: (override([size(n)]) + b"\x03\x0f", 2),
    lambda draw, n: (override([size(n % 7)]) + b"\x03\x0f", 2),
    lambda draw, n: (override([(3, digest(bytes([n % 251]) * 32)), size(n)]) + b"\x03\x0f", 2),
    lambda draw, n: (override([(18, byte_string(bytes([n % 256])))]) + b"\x12\x0f", 2),
    lambda draw, n: (override([(18, byte_string(bytes([n % 256])))]), 1),
    lambda draw, n: (b"\x03\x0f", 1),
]


def inside(draw, fork, count):
    """A fork, sometimes after the selection of a component, which is one more command."""
    branch, many, work, ways = fork
    if count > 1 and draw.random() < 0.5:
        return b"\x0c" + head(0, draw.randrange(count)) + branch, many + 1, work + 1, ways
    return fork


def shaped(stored, seed):
    """The envelope that a seed draws, with as many commands after the tries as the width and the length allow."""
    draw = random.Random(seed)
    count = draw.choice((1, 2, 8))
    kinds = draw.sample(FORKS, draw.randrange(1, 3))
    body, items, work, ways = override([(3, digest(DIGESTS[0]))]), 1, 60, 1
    limit = 2 ** draw.randrange(3, 17)
    number = 0
    while True:
        part, many, cost, times = inside(draw, draw.choice(kinds)(draw, number), count)
        if ways * times > limit or (work + 3 * cost) * ways * times > WIDEST:
            break
        body += b"\x0f\x82" + byte_string(head(4, 2 * many) + part) + b"\xf6"
        items, work, ways, number = items + 1, work + cost + 1, ways * times, number + 1
    everywhere = count > 1 and draw.random() < 0.7
    if everywhere:
        body, items, work = body + b"\x0c\xf5" + override([(3, digest(DIGESTS[1]))]), items + 2, work + count + 1
    kinds = draw.sample(TAILS, draw.randrange(1, 3))
    number = 0
    while True:
        part, many = draw.choice(kinds)(draw, number)
        cost = many * (count if everywhere else 1)
        if (work + cost + 8) * ways > WIDEST or len(body) + len(part) > 15_000:
            break
        body, items, work, number = body + part, items + many, work + cost, number + 1
    end = b"\x0c\x00" + override([size(3)]) + b"\x03\x0f\x17\x0f"
    ids = b"".join(b"\x81\x41" + bytes([number]) for number in range(count))
    start = b"\x82" + override([(3, digest(DIGESTS[0]))])
    common = head(5, 2) + b"\x02" + head(4, count) + ids + b"\x04" + byte_string(start)
    pairs = [b"\x01\x01", b"\x02\x01", b"\x03" + byte_string(common)]
    pairs.append(b"\x09" + byte_string(head(4, 2 * (items + 4)) + body + end))
    manifest = head(5, len(pairs)) + b"".join(pairs)
    return bytes.fromhex("d86b") + head(5, 2) + parts_of(stored)[0] + b"\x03" + byte_string(manifest)
