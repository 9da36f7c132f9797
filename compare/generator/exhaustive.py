"""All commands of a kind: for each mode what makes its commands."""
import itertools

from .definitions import (
    LOOKS, PLAIN, Refused, all_characters, class_map, comparable, departs, departs_at, join, moved_span, show_byte, show_hex,
    show_lists, tagged)

AT_LIMITS = [0x61, 0x20, 0x0A, 0x0D, 0x80, 0x8F, 0x90, 0x9B, 0x9D, 0x9F, 0xA0, 0xBF, 0xC1, 0xC2, 0xDF, 0xE0,
         0xE2, 0xED, 0xEF, 0xF0, 0xF4, 0xF5, 0xFF]
FIRSTS = [0x61, 0x80, 0xC2, 0xDF, 0xE0, 0xE1, 0xEC, 0xED, 0xEE, 0xEF, 0xF0, 0xF1, 0xF3, 0xF4, 0xF5]
TAILS = [0x61, 0x80, 0x8F, 0x90, 0x9F, 0xA0, 0xBF, 0xC2, 0xF0]


def byte_lists(most, alphabet=range(256)):
    for length in range(most + 1):
        yield from map(bytes, itertools.product(alphabet, repeat=length))


def limit_lists():
    """Lists of three to five bytes over the limits of the forms."""
    yield from (data for data in byte_lists(3, AT_LIMITS) if len(data) == 3)
    for first in FIRSTS:
        yield from (bytes([first, *tail]) for tail in itertools.product(TAILS, repeat=3))
    for first in FIRSTS:
        yield from (bytes([first, *tail]) for tail in itertools.product([0x80, 0x90, 0xA0], repeat=4))


def look_lines(name, haystacks):
    for data in haystacks:
        if comparable(data):
            yield f"{tagged(name, departs(data))} 0a {show_hex(data)}"
        else:  # characters that may be of another class elsewhere: with a predicate of our own
            for predicate in ("ascii", "0-255", "128-1114111"):
                yield f"looks_with_port 0a {predicate} {show_hex(data)}"


def decode_last_lines(haystacks):
    for data in haystacks:
        yield f"{tagged('decode_last', departs_at(data, len(data)))} {show_hex(data)}"


def terminator_lines():
    for number in range(256):
        byte = show_byte(number)
        yield f"matcher {byte}"
        for token in ("-", byte, byte + byte, "0a" + byte, byte + "0d0a", "0d" + byte + "0a", "61" + byte + "62"):
            data = b"" if token == "-" else bytes.fromhex(token)
            if comparable(data):
                yield f"{tagged('looks', departs(data))} {byte} {token}"
                yield f"{tagged('is_all', departs(data))} {byte} {token}"


def classes_lines():
    for byte in range(256):
        for look in LOOKS:
            yield f"classes_of {show_byte(byte)} {look}"
    for byte in (0x00, 0x0A, 0x0D, 0x2F, 0x30, 0x61, 0x7A, 0x7F, 0xFE, 0xFF):
        for pair in itertools.combinations(LOOKS, 2):
            yield f"classes_of {show_byte(byte)} {join(pair)}"


def representatives_lines():
    maps = ["empty", "singletons", "empty:ffff", "empty:0007", "singletons:ff00",
            bytes(class_map([(0x62, 0x64), (0x67, 0x6D), (0x7A, 0x7A)])).hex(),
            bytes(byte % 2 for byte in range(256)).hex()]
    points = [0x00, 0x01, 0x61, 0x62, 0x63, 0x64, 0x65, 0x7A, 0x7B, 0xFE, 0xFF]
    bounds = ["u"] + [f"{kind}{show_byte(point)}" for kind in "ix" for point in points]
    for token in maps:
        for start, end in itertools.product(bounds, repeat=2):
            yield f"map_reps {token} {start} {end}"


UNITS = [f"b{byte:02x}" for byte in range(256)] + [f"e{number}" for number in range(257)]


def elements_lines():
    for token in ("empty", "singletons", "empty:ffff", "empty:0007", "singletons:ff00", "singletons:00ff"):
        yield f"map_info {token}"
        yield f"map_iter {token}"
        yield f"map_debug {token}"
        for unit in UNITS:
            yield f"map_elems {token} {unit}"
            yield f"map_unit {token} {unit}"


def unit_lines():
    yield from (f"unit {unit}" for unit in UNITS)
    some = ["b00", "b01", "b61", "bfe", "bff", "e0", "e1", "e97", "e255", "e256"]
    yield from (f"unit_cmp {one} {other}" for one, other in itertools.product(some, repeat=2))


def range_lines():
    for first in range(256):
        for last in range(first, 256):
            yield f"ranges {first:02x}{last:02x}"


def group_lists(most_patterns, most_groups):
    patterns = [list(groups) for count in range(most_groups + 1)
                for groups in itertools.product([None, "x", "y"], repeat=count)]
    for count in range(most_patterns + 1):
        yield from map(list, itertools.product(patterns, repeat=count))


def limited_lines():
    for lists in map(show_lists, group_lists(3, 3)):
        yield from (f"limited_port {limit} {lists}" for limit in range(21))


def pattern_set_lines():
    for capacity in range(5):
        for size in range(capacity + 1):
            for chosen in itertools.combinations(range(capacity), size):
                inserts = [f"i{number}" for number in chosen]
                for steps in itertools.product("fbh", repeat=5):
                    name = tagged("pset", "h" in steps)
                    yield " ".join([name, str(capacity), *inserts, "w" + "".join(steps)])


def span_lines():
    for start, end, number in itertools.product(range(5), repeat=3):
        yield f"span {start} {end}"
        yield f"span_contains {start} {end} {number}"
        yield f"span_get_port {start} {end} {'616263'[:2 * number] or '-'}"
        yield f"span_str_port {start} {end} {['c3a9', '61c3a9', 'f09d9b83', '-', '616263'][number]}"


def input_lines():
    for length in range(4):
        data = b"abc"[:length]
        bounds = ["u"] + [f"{kind}{at}" for kind in "ix" for at in range(length + 2)]
        for low, high in itertools.product(bounds, repeat=2):
            try:
                moved_span(data, (0, length), f"r{low}:{high}")
            except Refused:
                continue
            yield f"input {show_hex(data)} r{low}:{high} R{low}:{high}"


def byte_lines(name):
    return (f"{name} {show_byte(byte)}" for byte in range(256))


def data_lines(name, haystacks):
    return (f"{name} {show_hex(data)}" for data in haystacks)


MODES = {
    "decode_two": lambda: data_lines("decode", byte_lists(2)),
    "decode_at_limits": lambda: data_lines("decode", limit_lists()),
    "decode_last_two": lambda: decode_last_lines(byte_lists(2)),
    "decode_last_at_limits": lambda: decode_last_lines(limit_lists()),
    "char_boundaries": lambda: data_lines("char_boundaries", byte_lists(2)),
    "word_bytes": lambda: byte_lines("is_word_byte"),
    "byte_texts": lambda: byte_lines("byte_text"),
    "haystack_texts": lambda: data_lines(
        "haystack_text", (data for data in byte_lists(2) if all_characters(data, PLAIN))),
    "units": unit_lines,
    "ranges": range_lines,
    "classes": classes_lines,
    "representatives": representatives_lines,
    "elements": elements_lines,
    "looks": lambda: (f"look {number}" for number in range(2**18 + 2)),
    "look_sets": lambda: (f"lookset {bits}" for bits in range(2**18)),
    "matches_two": lambda: look_lines("looks", byte_lists(2)),
    "matches_at_limits": lambda: look_lines("looks", limit_lists()),
    "calls_two": lambda: look_lines("is_all", byte_lists(2)),
    "terminators": terminator_lines,
    "spans": span_lines,
    "inputs": input_lines,
    "pattern_sets": pattern_set_lines,
    "groups": lambda: (f"groups {show_lists(lists)}" for lists in group_lists(3, 3)),
    "limited": limited_lines,
}
