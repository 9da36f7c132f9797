"""Random values, at the limits above all."""
from .definitions import ALLOWED, LOOKS, MAX, USIZE_MAX, class_map, comparable, encode, join, show_byte

LIMIT_BYTES = [0x00, 0x01, 0x08, 0x09, 0x0A, 0x0B, 0x0C, 0x0D, 0x0E, 0x19, 0x1A, 0x1F, 0x20, 0x22, 0x27, 0x2F, 0x30,
               0x39, 0x3A, 0x40, 0x41, 0x5A, 0x5B, 0x5C, 0x5E, 0x5F, 0x60, 0x61, 0x7A, 0x7B, 0x7E,
               0x7F, 0x80, 0x81, 0x8F, 0x90, 0x9F, 0xA0, 0xBF, 0xC0, 0xC1, 0xC2, 0xDF, 0xE0, 0xE1,
               0xEC, 0xED, 0xEE, 0xEF, 0xF0, 0xF1, 0xF3, 0xF4, 0xF5, 0xF7, 0xF8, 0xFE, 0xFF]
LIMIT_NUMBERS = [0, 1, 2, 255, 256, 65535, 65536, MAX - 1, MAX, MAX + 1, MAX + 2, 2**31, 2**32 - 1,
                 2**32, 2**63 - 1, 2**63, USIZE_MAX - 1, USIZE_MAX]
LIMIT_CHARACTERS = [0, 0x7F, 0x80, 0x7FF, 0x800, 0xFFF, 0x1000, 0xCFFF, 0xD000, 0xD7FF, 0xE000, 0xFFFF,
                    0x10000, 0x3FFFF, 0x40000, 0xFFFFF, 0x100000, 0x10FFFF]
BROKEN = [bytes.fromhex(data) for data in (
    "c080", "c1bf", "e08080", "e09f80", "eda080", "edbfbf", "f0808080", "f08f8080", "f4908080", "f5808080", "f7bfbfbf",
    "f888808080", "fe", "ff", "80", "bf", "8080", "808080", "80808080", "8080808080", "c2", "df", "e282", "ed9f", "f09d",
    "f09d9b", "f48fbf")]


def some_byte(draw):
    return draw.choice(LIMIT_BYTES) if draw.random() < 0.6 else draw.randrange(256)


def some_bytes(draw, most):
    return bytes(some_byte(draw) for _ in range(draw.randrange(most)))


def some_number(draw, top=USIZE_MAX):
    fitting = [number for number in LIMIT_NUMBERS if number <= top]
    kind = draw.random()
    if kind < 0.4:
        return draw.choice(fitting)
    if kind < 0.7:
        return draw.randrange(min(top + 1, 300))
    return draw.randrange(top + 1)


def near_max(draw, top=USIZE_MAX):
    """A number about the greatest small index, where it fits."""
    if top > MAX and draw.random() < 0.5:
        return draw.choice([MAX - 1, MAX, MAX + 1, MAX + 2])
    return some_number(draw, top)


def piece(draw):
    kind = draw.randrange(12)
    if kind < 2:
        return bytes([draw.choice(b"abzAZ_09mQ")])
    if kind < 4:
        return bytes([draw.choice(b" -.{`[@/:\x00\x7f~")])
    if kind == 4:
        return draw.choice([b"\r", b"\n", b"\r\n", b"\n\r", b"\r\r\n"])
    if kind < 8:
        return encode(draw.choice(list(ALLOWED)))
    if kind == 8:  # too long or too short
        whole = encode(draw.choice(list(ALLOWED)))
        return whole[:draw.randrange(1, len(whole) + 1)] if draw.random() < 0.5 else whole + b"\x80"
    if kind == 9:
        return draw.choice(BROKEN)
    if kind == 10:
        return bytes([draw.randrange(0x80, 0xC0)])
    return bytes([some_byte(draw)])


def pieces(draw, most):
    return b"".join(piece(draw) for _ in range(draw.randrange(most)))


def haystack(draw, most=12):
    """Mixed valid and invalid UTF-8 with allowed characters alone."""
    while True:
        data = pieces(draw, most)
        if comparable(data):
            return data


def any_bytes(draw, most=9):
    return some_bytes(draw, most) if draw.random() < 0.5 else pieces(draw, most)


def any_character(draw):
    """A character, at the limits of the forms or anywhere."""
    if draw.random() < 0.4:
        return draw.choice(LIMIT_CHARACTERS)
    code = draw.randrange(draw.choice([0x80, 0x800, 0x10000, 0x110000]))
    return code if not 0xD800 <= code < 0xE000 else 0xE000


def text(draw, most=6):
    return "".join(chr(draw.choice(list(ALLOWED) + list(b"ab _-09"))) for _ in range(draw.randrange(most)))


def some_ranges(draw, most):
    ranges = []
    for _ in range(draw.randrange(most + 1)):
        first, last = some_byte(draw), some_byte(draw)
        if draw.random() < 0.3:
            last = min(first + draw.randrange(3), 255)
        ranges.append((min(first, last), max(first, last)))
    return ranges


def some_map(draw):
    """A class map's token."""
    kind = draw.randrange(8)
    if kind == 0:
        base = draw.choice(["empty", "singletons", "default"])
        changes = bytes(draw.choice([some_byte(draw), 0xFF, 0]) for _ in range(2 * draw.randrange(4)))
        return f"{base}:{changes.hex()}" if changes else base
    if kind < 4:  # what a class set gives
        classes = class_map(some_ranges(draw, draw.choice([1, 3, 8, 30])))
    elif kind < 6:  # few classes, anyhow
        few = [some_byte(draw) for _ in range(draw.randrange(1, 5))]
        classes = [draw.choice(few) for _ in range(256)]
    elif kind == 6:
        classes = [draw.randrange(256) for _ in range(256)]
    else:
        step = draw.randrange(1, 40)
        classes = [byte // step % 256 for byte in range(256)]
    if draw.random() < 0.2:
        classes[255] = draw.choice([0, 1, 254, 255])
    return bytes(classes).hex()


def some_unit(draw):
    if draw.random() < 0.6:
        return f"b{some_byte(draw):02x}"
    return f"e{draw.choice([0, 1, 2, 7, 128, 255, 256, draw.randrange(257)])}"


def some_bound(draw, value):
    kind = draw.choice("uiix")
    return "u" if kind == "u" else f"{kind}{value}"


def look_list(draw):
    return join(draw.choices(LOOKS, k=draw.randrange(6)))


def look_set(draw):
    if draw.random() < 0.5:
        return sum(set(draw.choices(LOOKS, k=draw.randrange(4))))
    return draw.randrange(2**18)


def terminator(draw):
    return show_byte(draw.choice([0x0A, 0x0A, 0x0D, 0x00, 0xFF, 0x61, 0x80, draw.randrange(256)]))


def some_mode(draw):
    return draw.choice(["no", "yes", f"p{some_number(draw, MAX)}"])


def some_span(draw):
    if draw.random() < 0.8:
        return draw.randrange(7), draw.randrange(7)
    return some_number(draw), some_number(draw)


def members(draw, capacity):
    """Numbers below a capacity, at the limits of 64 above all."""
    if capacity == 0:
        return []
    kind = draw.randrange(4)
    if kind == 0:
        return draw.sample(range(capacity), draw.randrange(min(capacity, 9) + 1))
    if kind == 1:
        limits = [0, 1, 62, 63, 64, 65, 126, 127, 128, 129, 191, 192, capacity - 1]
        return [number for number in draw.sample(limits, draw.randrange(len(limits))) if number < capacity]
    if kind == 2:
        return list(range(capacity)) if capacity <= 200 else [0, capacity - 1]
    return [number for number in range(min(capacity, 200)) if draw.random() < 0.3]


def some_groups(draw, faults):
    groups = [None]
    for _ in range(draw.choice([0, 0, 1, 2, 3, 5])):
        kind = draw.random()
        fresh = draw.choice("abcdefxyz") + (str(len(groups)) if not faults or kind < 0.9 else "")
        if kind < 0.1:
            fresh = text(draw)
        groups.append(None if draw.random() < 0.4 else fresh)
    if not faults:
        groups = [name if name not in groups[:index] else None for index, name in enumerate(groups)]
    return groups


def group_lists(draw, faults=True):
    """Group lists; a fault of each kind now and then."""
    lists = [some_groups(draw, faults) for _ in range(draw.choice([0, 1, 1, 2, 2, 3, 4, 7]))]
    if faults and lists and draw.random() < 0.4:
        groups = draw.choice(lists)
        fault = draw.randrange(4)
        if fault == 0:
            groups.clear()
        elif fault == 1 and groups:
            groups[0] = draw.choice(["x", "", "a1"])
        elif groups:
            groups += ["dup"] + [None] * draw.randrange(2) + ["dup"]
    return lists
