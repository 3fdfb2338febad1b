"""Large inputs for `suit check`: envelopes made from the stored one, each of a given size or width."""

LIMIT = 1_048_576

# Widths for equal states, and numbers of branches for distinct states, which each branch doubles. The last of each are the widest that is
# judged.
WIDTHS = (1_024, 16_384, 262_144, 4_194_304)
BRANCHES = (6, 10, 14, 16)


def head(major, argument):
    """The shortest head of a major type and an argument."""
    if argument < 24:
        return bytes([major * 32 + argument])
    for low, width in ((24, 1), (25, 2), (26, 4), (27, 8)):
        if argument < 256**width:
            return bytes([major * 32 + low]) + argument.to_bytes(width, "big")
    raise ValueError(argument)


def byte_string(content):
    return head(2, len(content)) + content


def text_string(text):
    return head(3, len(text)) + text.encode()


def parts_of(stored):
    """The wrapper and the manifest of the stored envelope, as spelled under keys 2 and 3."""
    return stored[3:45], stored[45:]


def envelope(stored, payloads):
    wrapper, manifest = parts_of(stored)
    pairs = [wrapper, manifest] + [text_string(key) + byte_string(content) for key, content in payloads]
    return bytes.fromhex("d86b") + head(5, len(pairs)) + b"".join(pairs)


def one_payload(stored, size):
    room = size - len(envelope(stored, [("#image", b"")])) - 4
    return envelope(stored, [("#image", b"\x55" * room)])


def many_payloads(stored, size):
    each = len(text_string("#000000") + byte_string(b"abc"))
    count = (size - 128) // each
    return envelope(stored, [("#%06d" % number, b"abc") for number in range(count)])


def small_items(_stored, size):
    count = (size - 5) // 2
    return head(4, count) + b"\x18\x64" * count


def deep_items(_stored, size):
    item = b"\x81" * 14 + b"\x80"
    count = (size - 5) // len(item)
    return head(4, count) + item * count


IMAGE = bytes.fromhex("8214a2035824822f5820ba7816bf8f01cfea414140de5dae2223b00361a396177a9cb410ff61f20015ad0e03")
MATCH = bytes.fromhex("82030f")


def judged(stored, members, count=1):
    """An envelope whose manifest has `count` components, with the image of the stored one, and these members after common."""
    components = head(4, count) + b"".join(b"\x81\x41" + bytes([number]) for number in range(count))
    common = head(5, 2) + b"\x02" + components + b"\x04" + byte_string(IMAGE)
    pairs = [b"\x01\x01", b"\x02\x01", b"\x03" + byte_string(common)] + members
    manifest = head(5, len(pairs)) + b"".join(pairs)
    return bytes.fromhex("d86b") + head(5, 2) + parts_of(stored)[0] + b"\x03" + byte_string(manifest)


def long_text(stored, size):
    return judged(stored, [b"\x04" + text_string("a" * (size - 256))])


def many_commands(stored, size):
    count = (size - 256) // 2
    return judged(stored, [b"\x07" + byte_string(head(4, 2 * count) + b"\x03\x0f" * count)])


def many_states(stored, width):
    """Matches that may fail, each of which doubles the states: as many as make the width about `width`."""
    count = {1024: 6, 16384: 9, 262144: 13, 4194304: 16}[width]
    tries = b"".join(b"\x0f\x82" + byte_string(MATCH) + b"\xf6" for _ in range(count))
    return judged(stored, [b"\x09" + byte_string(head(4, 2 * count + 4) + tries + b"\x03\x0f\x17\x0f")])


def distinct_states(stored, count):
    """`count` branches, each of which sets another size and matches, so that all states differ."""
    tries = b""
    for number in range(count):
        branch = head(4, 4) + b"\x14\xa1\x0e" + head(0, 100 + number) + b"\x03\x0f"
        tries += b"\x0f\x82" + byte_string(branch) + b"\xf6"
    return judged(stored, [b"\x09" + byte_string(head(4, 2 * count + 6) + tries + b"\x14\xa1\x0e\x03\x03\x0f\x17\x0f")])


# ---- envelopes of a few kilobytes that took minutes or gigabytes before they were judged as they are now

ALL = b"\x0c\xf5"
COVERED = b"\x0c\x00\x03\x0f\x17\x0f"
OVERRIDE = bytes.fromhex(
    "14ac0150" + "00" * 16 + "0250" + "00" * 16 + "035824822f5820" + "ba7816bf8f01cfea414140de5dae2223b00361a396177a9cb410ff61f20015ad"
    "0500" "0cf5" "0df4" "0e03" "1241aa" "156175" "1600" "1741aa" "181850" + "00" * 16
)


def size_of(number):
    return b"\x14\xa1\x0e" + head(0, number)


def invoked(stored, items, commands, count=1):
    """An envelope whose invocation runs these commands, which are `items` items, and then matches the image and invokes it."""
    return judged(stored, [b"\x09" + byte_string(head(4, items + 6) + commands + COVERED)], count)


def many_overrides(stored, times):
    """An override of twelve parameters, done `times` times `times` times: a list of that many indices inside another."""
    listed = b"\x0c" + head(4, times) + b"\x00" * times
    inner = byte_string(head(4, 4) + listed + OVERRIDE)
    return invoked(stored, 4, listed + b"\x18\x20" + inner)


def many_facts(stored, count):
    """`count` tries, each of which doubles the states, and then three conditions on the identity of each of eight components."""
    tries = b"".join(b"\x0f\x82" + byte_string(head(4, 4) + size_of(number) + MATCH[1:]) + b"\xf6" for number in range(count))
    ids = b"\x14\xa3\x01\x50" + b"\x00" * 16 + b"\x02\x50" + b"\x00" * 16 + b"\x18\x18\x50" + b"\x00" * 16
    conditions = ALL + ids + b"\x01\x0f\x02\x0f\x18\x18\x0f" + size_of(3)
    return invoked(stored, 2 * count + 12, tries + conditions, 8)


def many_matches(stored, count, states=0):
    """`count` matches at each of eight components, each of another size, in 2^`states` states."""
    tries = b"".join(b"\x0f\x82" + byte_string(head(4, 4) + size_of(9000 + number) + MATCH[1:]) + b"\xf6" for number in range(states))
    matches = b"".join(size_of(number) + b"\x03\x0f" for number in range(count))
    return invoked(stored, 2 * states + 4 * count + 6, tries + ALL + IMAGE[1:] + matches + size_of(3), 8)


def matches_in_a_try(stored, count):
    """`count` matches, each of another size, in a try, whose branch each of them may end."""
    matches = head(4, 4 * count) + b"".join(size_of(number) + b"\x03\x0f" for number in range(count))
    return invoked(stored, 4, b"\x0f\x82" + byte_string(matches) + b"\xf6" + size_of(3))


def writes_beside(stored, count, times):
    """`count` matches at each of eight components, and then `times` matches at one of them, each of which a write ends."""
    matches = b"".join(size_of(number) + b"\x03\x0f" for number in range(count))
    writes = b"\x0c\x01\x14\xa1\x12\x41\xaa" + b"\x03\x0f\x12\x0f" * times
    return invoked(stored, 4 * count + 4 * times + 12, ALL + IMAGE[1:] + matches + writes + b"\x0c\x00" + size_of(3), 8)


def many_overrides_told(stored, times):
    """The same as `many_overrides`, but without the match, so that the invoke is not covered."""
    listed = b"\x0c" + head(4, times) + b"\x00" * times
    inner = byte_string(head(4, 4) + listed + OVERRIDE)
    return judged(stored, [b"\x09" + byte_string(head(4, 6) + listed + b"\x18\x20" + inner + b"\x17\x0f")])
