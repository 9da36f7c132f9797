"""What the generator must know of the answers: where the original departs from the port, and which commands keep the
conditions of the caller."""
import os

MAX = 2147483646
USIZE_MAX = 2**64 - 1
WIDTHS = {"u8": 2**8 - 1, "u16": 2**16 - 1, "u32": 2**32 - 1, "u64": USIZE_MAX, "usize": USIZE_MAX}
LOOKS = [1 << bit for bit in range(18)]


class Refused(Exception):
    """A command that would not keep a condition of the caller."""


def require(condition):
    if not condition:
        raise Refused()


# Tokens.

def join(items, separator=","):
    items = [str(item) for item in items]
    return separator.join(items) if items else "."


def show_hex(data):
    return bytes(data).hex() if data else "-"


def show_byte(byte):
    return f"{byte:02x}"


def show_name(name):
    return "_" if name is None else f"={name.encode().hex()}"


def show_lists(lists):
    patterns = (join(map(show_name, groups)) if groups else "!" for groups in lists)
    return join(patterns, ";")


def tagged(name, stated):
    return f"{name}_port" if stated else name


# Encodings of characters, by RFC 3629.

def encode(code):
    if code < 0x80:
        return bytes([code])
    if code < 0x800:
        return bytes([0xC0 + code // 64, 0x80 + code % 64])
    if code < 0x10000:
        return bytes([0xE0 + code // 4096, 0x80 + code // 64 % 64, 0x80 + code % 64])
    return bytes([0xF0 + code // 262144, 0x80 + code // 4096 % 64, 0x80 + code // 64 % 64, 0x80 + code % 64])


TAIL = (0x80, 0xBF)
# The nine forms: the ranges of each byte.
FORMS = [
    [(0x00, 0x7F)],
    [(0xC2, 0xDF), TAIL],
    [(0xE0, 0xE0), (0xA0, 0xBF), TAIL],
    [(0xE1, 0xEC), TAIL, TAIL],
    [(0xED, 0xED), (0x80, 0x9F), TAIL],
    [(0xEE, 0xEF), TAIL, TAIL],
    [(0xF0, 0xF0), (0x90, 0xBF), TAIL, TAIL],
    [(0xF1, 0xF3), TAIL, TAIL, TAIL],
    [(0xF4, 0xF4), (0x80, 0x8F), TAIL, TAIL],
]


def encoded(data):
    """The character whose encoding is all of these bytes, else None."""
    for form in FORMS:
        if len(form) == len(data) and all(low <= byte <= high for byte, (low, high) in zip(data, form)):
            return ord(data.decode())
    return None


def first(options):
    return next((option for option in options if option is not None), None)


def begins(data, at):
    """The character whose encoding begins at a position."""
    return first(encoded(data[at:at + size]) for size in range(1, 5) if at + size <= len(data))


def ends(data, at):
    """The character whose encoding ends at a position."""
    return first(encoded(data[at - size:at]) for size in range(1, 5) if size <= at)


def is_char_boundary(data, at):
    return at == len(data) or (at < len(data) and not 0x80 <= data[at] <= 0xBF)


# Where the original departs.

def original_last(data):
    """What the original finds at the end: back over at most three continuation bytes, then whatever is encoded from
    there on, whether it reaches the end or not."""
    start = len(data) - 1
    while start > max(len(data) - 4, 0) and 0x80 <= data[start] <= 0xBF:
        start -= 1
    return begins(data, start)


def departs_at(data, at):
    """True where the original sees another character before a position than ends there."""
    return at > 0 and original_last(data[:at]) != ends(data, at)


def departs(data):
    return any(departs_at(data, at) for at in range(len(data) + 1))


# The characters past ASCII of chars.txt.

def allowed_characters():
    """By code point: whether it is a word character, and whether texts may use it."""
    path = os.path.join(os.path.dirname(os.path.abspath(__file__)), "..", "chars.txt")
    with open(path, encoding="ascii") as file:
        rows = [line.split() for line in file if not line.startswith("#")]
    return {int(code, 16): (kind == "word", plain == "plain") for code, kind, plain in rows}


ALLOWED = allowed_characters()
PLAIN = [code for code, (_, plain) in ALLOWED.items() if plain]


def all_characters(data, accepted):
    """True where every character past ASCII, wherever its encoding is, is accepted."""
    found = (begins(data, at) for at in range(len(data)))
    return all(code is None or code < 128 or code in accepted for code in found)


def comparable(data):
    return all_characters(data, ALLOWED)


# Class maps.

def class_map(ranges):
    """The map under which two bytes are alike exactly if the same ranges hold them."""
    boundaries = {byte for first, last in ranges for byte in (first - 1, last) if 0 <= byte <= 254}
    return [sum(1 for boundary in boundaries if boundary < byte) for byte in range(256)]


def read_map(token):
    base, _, changes = token.partition(":")
    if base == "empty":
        classes = [0] * 256
    elif base in ("singletons", "default"):
        classes = list(range(256))
    else:
        classes = list(bytes.fromhex(base))
    changes = bytes.fromhex(changes)
    for byte, class_ in zip(changes[::2], changes[1::2]):
        classes[byte] = class_
    return classes


# Inputs.

def bound_end(token, unbounded, moved_kind):
    """Where a range begins or ends, by a bound's token; `moved_kind` is the kind of bound that lies one before."""
    return unbounded if token == "u" else int(token[1:]) + (token[0] == moved_kind)


def moved_span(haystack, span, op):
    """The span of an input after a change, which must keep the condition of the caller."""
    start, end = span
    kind, rest = op[:1].lower(), op[1:]
    if kind == "s":
        start, end = map(int, rest.split(":"))
    elif kind == "r":
        low, high = rest.split(":")
        start, end = bound_end(low, 0, "x"), bound_end(high, len(haystack), "i")
    elif kind == "a":
        start = int(rest)
    elif kind == "z":
        end = int(rest)
    require(end <= len(haystack) and start <= end + 1)
    return start, end


# Captures.

class Captures:
    """Pattern and slots of captures, as far as the conditions of the caller need them."""

    def __init__(self, kind, lists):
        sizes = {"all": 2 * sum(map(len, lists)), "matches": 2 * len(lists), "empty": 0}
        self.lists, self.pattern, self.slots = lists, None, [None] * sizes[kind]

    def apply(self, op):
        kind, rest = op[:1], op[1:]
        if kind == "c":
            self.pattern, self.slots = None, [None] * len(self.slots)
        elif kind == "=":
            self.pattern = None if rest == "_" else int(rest)
        elif kind == "w":
            index, value = rest.split(":")
            self.slots[int(index)] = None if value == "_" else int(value)

    def first_slot(self, index):
        before = sum(len(groups) - 1 for groups in self.lists[:self.pattern])
        return 2 * self.pattern if index == 0 else 2 * len(self.lists) + 2 * (before + index - 1)

    def spans(self):
        """The spans of the pattern's participating groups."""
        known = self.pattern is not None and self.pattern < len(self.lists)
        for index in range(len(self.lists[self.pattern])) if known else ():
            span = self.slots[self.first_slot(index):][:2]
            if len(span) == 2 and None not in span:
                yield tuple(span)

    def whole(self):
        """The span of the whole match, which a single pattern has under any number."""
        single = len(self.lists) == 1
        if self.pattern is None or not single and self.pattern >= len(self.lists):
            return None
        start = 0 if single else 2 * self.pattern
        span = self.slots[start:start + 2]
        return tuple(span) if len(span) == 2 and None not in span else None

    def extracts(self, op):
        """True where an extraction answers, and the original doesn't panic."""
        count, haystack = op[1:].split(":")
        data = b"" if haystack == "-" else bytes.fromhex(haystack)
        parts = list(self.spans())[:int(count) + 1]
        cuts = all(start <= end <= len(data) for start, end in parts)
        if op[0] == "x":
            cuts = cuts and all(is_char_boundary(data, at) for part in parts for at in part)
        return cuts and len(parts) == int(count) + 1
