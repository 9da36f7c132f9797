"""Random commands, a family for each group of calls."""
from .definitions import (
    LOOKS, MAX, PLAIN, USIZE_MAX, WIDTHS, Captures, Refused, all_characters, departs, departs_at, encode, join,
    moved_span, read_map, show_byte, show_hex, show_lists, tagged)
from .values import (
    any_bytes, any_character, group_lists, haystack, look_list, look_set, members, near_max, pieces, some_bound, some_byte,
    some_bytes, some_map, some_mode, some_number, some_ranges, some_span, some_unit, terminator, text)


# Small indices, UTF-8, texts.

def index_command(draw):
    kind = draw.choice(["small", "pattern", "state"])
    which = draw.randrange(8)
    if which == 0:
        return f"idx_consts {kind}"
    if which == 1:
        return f"idx_new {kind} {near_max(draw)}"
    if which == 2:
        width = draw.choice(list(WIDTHS))
        return f"idx_from {kind} {width} {near_max(draw, WIDTHS[width])}"
    if which == 3:
        return f"idx_get {kind} {some_number(draw, MAX)}"
    if which == 4:
        data = bytes(some_byte(draw) for _ in range(4))
        if draw.random() < 0.5:
            data = draw.choice([MAX - 1, MAX, MAX + 1, 2**31, 2**32 - 1]).to_bytes(4, "little")
        return f"idx_from_le {kind} {data.hex()}"
    if which == 5:
        length = draw.choice([0, 1, 2, 5, draw.randrange(40), MAX, MAX + 1])
        return f"{tagged('idx_iter', kind == 'small')} {kind} {length} {draw.randrange(8)}"
    if which == 6:
        number = some_number(draw, MAX)
        return f"idx_cmp {kind} {number} {draw.choice([number, some_number(draw, MAX)])}"
    number = draw.choice([MAX + 1, 2**32, USIZE_MAX])
    return f"idx_err_eq {kind} {number} {draw.choice([number, MAX + 2])}"


def nonmax_command(draw):
    number = some_number(draw)
    if draw.random() < 0.5:
        return f"nonmax {number}"
    number = min(number, USIZE_MAX - 1)
    other = draw.choice([number, 0, USIZE_MAX - 1, some_number(draw, USIZE_MAX - 1)])
    return f"nonmax_cmp {number} {other}"


def utf8_command(draw):
    which = draw.randrange(8)
    data = any_bytes(draw)
    if draw.random() < 0.3:
        data = data[:3] + encode(any_character(draw)) + (b"" if draw.random() < 0.5 else data[3:])
    if which < 3:
        if draw.random() < 0.5:
            data = encode(any_character(draw)) + data
        return f"decode {show_hex(data)}"
    if which < 6:
        return f"{tagged('decode_last', departs_at(data, len(data)))} {show_hex(data)}"
    if which == 6:
        at = draw.choice([0, len(data), len(data) + 1, draw.randrange(len(data) + 2), USIZE_MAX])
        return f"is_boundary {show_hex(data)} {at}"
    return f"char_boundaries {show_hex(data)}"


def text_command(draw):
    if draw.random() < 0.3:
        return f"byte_text {show_byte(some_byte(draw))}"
    while True:
        data = bytes([draw.randrange(0x20), draw.randrange(0x20)]) + pieces(draw, 10)
        if all_characters(data, PLAIN):
            return f"haystack_text {show_hex(data)}"


def word_byte_command(draw):
    return f"is_word_byte {show_byte(some_byte(draw))}"


# Units, byte sets, class sets, class maps.

def unit_command(draw):
    which = draw.randrange(3)
    unit = some_unit(draw)
    if which == 0:
        return f"unit {unit}"
    if which == 1:
        same = int(unit[1:], 16) & 255 if unit[0] == "b" else 0
        return f"unit_is_byte {unit} {show_byte(draw.choice([some_byte(draw), same]))}"
    return f"unit_cmp {unit} {draw.choice([unit, some_unit(draw), some_unit(draw)])}"


def byteset_command(draw):
    if draw.random() < 0.1:
        one = some_bytes(draw, 4)
        other = one + bytes([some_byte(draw)])
        if draw.random() < 0.5:
            other = bytes(draw.sample(one, len(one))) + one[:1]
        return f"byteset_eq {show_hex(one)} {show_hex(other)}"
    ops = []
    for _ in range(draw.randrange(12)):
        op = draw.choice("aaaaarcRige")
        if op in "arc":
            byte = some_byte(draw)
            ops += [f"{op}{near:02x}" for near in range(byte, min(byte + draw.choice([1, 1, 2, 6]), 256))]
        elif op == "R":
            ops.append(f"R{some_byte(draw):02x}{some_byte(draw):02x}")
        else:
            ops.append(op)
    return " ".join(["byteset", *ops, "i", "g", "e"])


def classset_command(draw):
    which = draw.randrange(3)
    at = show_hex(any_bytes(draw)) if draw.random() < 0.2 else None
    if which == 0:
        ranges = some_ranges(draw, draw.choice([1, 3, 8, 40]))
        pairs = show_hex(bytes(byte for ends in ranges for byte in ends))
        return f"ranges_at {pairs} {at}" if at else f"ranges {pairs}"
    if which == 1:
        byte, looks = terminator(draw), look_list(draw)
        return f"classes_at {byte} {looks} {at}" if at else f"classes_of {byte} {looks}"
    ops = []
    for _ in range(draw.randrange(6)):
        kind = draw.randrange(3)
        if kind == 0:
            ops += [f"r{first:02x}{last:02x}" for first, last in some_ranges(draw, 2)]
        elif kind == 1:
            held = {b for first, last in some_ranges(draw, 3) for b in range(first, min(last, first + 9) + 1)}
            ops.append(f"s{show_hex(bytes(held))}")
        else:
            ops.append(f"l{draw.choice(LOOKS)}")
    return " ".join(["classset", terminator(draw), *ops])


def map_command(draw):
    token = some_map(draw)
    which = draw.randrange(9)
    if which == 0:
        return f"map_get {token}"
    if which == 1:
        return f"map_info {token}"
    if which == 2:
        return f"map_unit {token} {some_unit(draw)}"
    if which == 3:
        return f"map_iter {token}"
    if which < 6:
        start, end = (some_bound(draw, show_byte(some_byte(draw))) for _ in range(2))
        return f"map_reps {token} {start} {end}"
    if which < 8:
        classes = read_map(token)
        unit = draw.choice([some_unit(draw), f"b{draw.choice(classes):02x}", f"e{classes[255] + 1}"])
        return f"map_elems {token} {unit}"
    return f"map_debug {token}"


# Assertions, their sets, the matcher.

def look_command(draw):
    look = draw.choice(LOOKS)
    return f"look {draw.choice([look, look + 1, 0, 3, 2**18, 2**19, 2**31, draw.randrange(2**32)])}"


def lookset_command(draw):
    which = draw.randrange(8)
    if which == 0:
        return f"lookset_contains {look_set(draw)} {draw.choice(LOOKS)}"
    if which == 1:
        kind = draw.choice(["empty", "default", "full", *map(str, LOOKS)])
        return f"{tagged('lookset_make', kind == 'full')} {kind}"
    if which == 2:
        bits = draw.choice([2**18 - 1, 2**18, look_set(draw), draw.randrange(2**32), 2**32 - 1])
        return f"lookset_from_bits_port {bits}"
    if which == 3:
        return f"lookset_available {look_set(draw)}"
    if which == 4:
        bits = look_set(draw)
        return f"lookset_eq {bits} {draw.choice([bits, look_set(draw)])}"
    if which < 7:
        op = draw.choice(["insert", "remove", "union", "intersect", "subtract"])
        argument = draw.choice(LOOKS) if op in ("insert", "remove") else look_set(draw)
        return f"lookset_op {op} {look_set(draw)} {argument}"
    return f"lookset {look_set(draw)}"


def matcher_command(draw):
    which = draw.randrange(9)
    byte, data = terminator(draw), haystack(draw)
    at = draw.randrange(len(data) + 1)
    if which == 0:
        return f"matcher {byte}"
    if which == 1:
        name = tagged(draw.choice(["matches", "is"]), departs_at(data, at))
        return f"{name} {byte} {draw.choice(LOOKS)} {show_hex(data)} {at}"
    if which == 2:
        return f"{tagged('matches_set', departs_at(data, at))} {byte} {look_set(draw)} {show_hex(data)} {at}"
    if which == 3:
        ranges = [sorted((any_character(draw), any_character(draw))) for _ in range(draw.randrange(4))]
        predicate = draw.choice(["ascii", join(f"{low}-{high}" for low, high in ranges), "0-1114111"])
        return f"looks_with_port {byte} {predicate} {show_hex(any_bytes(draw))}"
    if which == 4:
        return f"{tagged('sets', departs(data))} {byte} {look_set(draw)} {show_hex(data)}"
    if which == 5:
        return f"{tagged('is_all', departs(data))} {byte} {show_hex(data)}"
    return f"{tagged('looks', departs(data))} {byte} {show_hex(data)}"


# Spans, inputs, matches, pattern sets.

def span_command(draw):
    start, end = some_span(draw)
    which = draw.randrange(7)
    if which == 0:
        return f"span {start} {end}"
    if which == 1:
        after = min(start + 1, USIZE_MAX)
        return f"span_contains {start} {end} {draw.choice([start, end, after, some_number(draw)])}"
    if which == 2:
        room = USIZE_MAX - max(start, end)
        return f"span_offset {start} {end} {draw.choice([0, min(room, draw.randrange(9)), room])}"
    if which == 3:
        return f"span_eq {start} {end} {draw.choice([start, end])} {draw.choice([start, end])}"
    if which == 4:
        return f"span_get_port {start} {end} {show_hex(any_bytes(draw))}"
    if which == 5:
        return f"span_str_port {start} {end} {show_hex(text(draw).encode())}"
    return f"span_mut_port {start} {end} {show_hex(any_bytes(draw))} {show_byte(some_byte(draw))}"


def range_op(draw, op, data, span):
    while True:
        low, high = (some_bound(draw, draw.randrange(len(data) + 2)) for _ in range(2))
        try:
            moved_span(data, span, f"{op}{low}:{high}")
            return f"{op}{low}:{high}"
        except Refused:
            pass


def input_op(draw, data, span):
    start, end = span
    op = draw.choice("sSrRazmMeE")
    if op in "sS":
        end = draw.randrange(len(data) + 1)
        return f"{op}{draw.randrange(end + 2)}:{end}"
    if op in "rR":
        return range_op(draw, op, data, span)
    if op == "a":
        return f"a{draw.randrange(end + 2)}"
    if op == "z":
        return f"z{draw.randrange(max(start - 1, 0), len(data) + 1)}"
    return f"{op}{some_mode(draw)}" if op in "mM" else f"{op}{draw.choice('TF')}"


def input_command(draw):
    if draw.random() < 0.15:
        data = any_bytes(draw)
        at = draw.choice([0, len(data), len(data) + 1, draw.randrange(len(data) + 1), USIZE_MAX])
        return f"input_char_boundary {show_hex(data)} {at}"
    shown = draw.random() < 0.1
    data = bytes(draw.choice(b'ab "\n\x7f') for _ in range(draw.randrange(5))) if shown else any_bytes(draw, 5)
    span, ops = (0, len(data)), []
    for _ in range(draw.randrange(6)):
        ops.append(input_op(draw, data, span))
        span = moved_span(data, span, ops[-1])
    return " ".join(["input_debug" if shown else "input", show_hex(data), *ops])


def match_command(draw):
    which = draw.randrange(8)
    pattern = some_number(draw, MAX)
    start, end = sorted(some_span(draw))
    if which == 0:
        return f"half {pattern} {some_number(draw)}"
    if which == 1:
        return f"half_eq {pattern} {start} {draw.choice([pattern, 0])} {draw.choice([start, end])}"
    if which == 2:
        return f"match {pattern} {start} {end}"
    if which == 3:
        return f"match_eq {pattern} {start} {end} {draw.choice([pattern, 1])} {draw.choice([start, 0])} {end}"
    if which == 4:
        return f"anchored {some_mode(draw)}"
    if which == 5:
        mode = some_mode(draw)
        return f"anchored_eq {mode} {draw.choice([mode, some_mode(draw)])}"
    if which == 6:
        return f"match_kind {draw.choice(['all', 'leftmost', 'default'])}"
    kind = draw.choice(["quit", "gaveup", "toolong", "anchored"])
    if kind == "quit":
        return f"match_err quit {show_byte(some_byte(draw))} {some_number(draw)}"
    return f"match_err {kind} {some_mode(draw) if kind == 'anchored' else some_number(draw)}"


CAPACITIES = [0, 1, 2, 3, 63, 64, 65, 66, 127, 128, 129, 130, 192, 200, 1000]


def steps_op(draw, asks):
    style = draw.choice(["fb", "f", "b", "fffb", "bbbf", "fc", "bcf"])
    letters = "".join(draw.choice(style) for _ in range(draw.choice([1, 3, 8, 20])))
    if asks:
        letters = "".join(letter + draw.choice(["", "h", "n"]) for letter in "h" + letters).replace("hh", "h")
    return f"w{letters}"


def pattern_set_op(draw, capacity, asks):
    """A change of a pattern set or a question, or no operation."""
    op = draw.choice("itcxkqlww")
    if op == "i":
        return [f"i{draw.randrange(capacity)}"] if capacity else []
    if op in "tc":
        return [f"{op}{draw.choice([0, max(capacity - 1, 0), capacity, capacity + 1, MAX])}"]
    if op == "w":
        return [steps_op(draw, asks)]
    if op == "x":
        return ["x", "q"] if draw.random() < 0.5 else []
    return [op]


def pattern_set_command(draw):
    capacity = draw.choice(CAPACITIES)
    kind = draw.random()
    if kind < 0.08:
        return f"pset_err {capacity} {draw.choice([capacity, capacity + 1, MAX])}"
    if kind < 0.16:
        one = members(draw, capacity)
        other_capacity = draw.choice([capacity, capacity, capacity + 1, capacity + 64])
        other = draw.choice([one, list(reversed(one)), one[1:], members(draw, other_capacity)])
        return f"pset_eq {capacity} {join(one)} {other_capacity} {join(other)}"
    asks = draw.random() < 0.5
    ops = [f"i{number}" for number in members(draw, capacity)]
    for _ in range(draw.randrange(8)):
        ops += pattern_set_op(draw, capacity, asks)
    return " ".join([tagged("pset", asks), str(capacity), *ops, "q", steps_op(draw, asks)])


# Group infos, captures.

def names_of(lists):
    return [name for groups in lists for name in groups if name is not None]


def group_info_op(draw, lists):
    op = draw.choice("insSgPAqk")
    pattern = draw.choice([draw.randrange(len(lists) + 1), len(lists), MAX])
    if op == "i":
        return f"i{pattern}:{show_hex(draw.choice(['', 'x', 'nope', *names_of(lists)]).encode())}"
    if op in "nsS":
        return f"{op}{pattern}:{draw.choice([0, 1, draw.randrange(6), USIZE_MAX, 2**63])}"
    return f"{op}{pattern}" if op in "gP" else op


def groups_command(draw):
    lists = group_lists(draw)
    if draw.random() < 0.3:
        return f"groups {show_lists(lists)}"
    if draw.random() < 0.5:
        lists = group_lists(draw, faults=False)
    if draw.random() < 0.05:
        return " ".join(["gi_empty", *(group_info_op(draw, []) for _ in range(draw.randrange(1, 8)))])
    ops = [group_info_op(draw, lists) for _ in range(draw.randrange(1, 8))]
    return " ".join(["gi", show_lists(lists), *ops])


def slot_ops(draw, slot_count, length):
    """Slots written, mostly two by two."""
    wild = draw.random() < 0.3
    ops = []
    for slot in range(0, slot_count, 2):
        if draw.random() < 0.75:
            start = draw.randrange(length + 1)
            end = draw.randrange(start, length + 1)
            if wild:
                far = some_number(draw, USIZE_MAX - 1)
                start, end = draw.choice([(end, start), (start, end + 3), (far, end)])
            ops += [f"w{slot}:{start}", f"w{slot + 1}:{end}"]
        elif draw.random() < 0.2:
            ops.append(f"w{slot + draw.randrange(2)}:{draw.randrange(9)}")
    return ops


def captures_op(draw, captures, data):
    """A change of captures or a question, or None."""
    op = draw.choice("mpGsgnliMxyc=kgnixy")
    lists = captures.lists
    if op == "g":
        return f"g{draw.choice([0, 1, 2, draw.randrange(8), 2**63, USIZE_MAX])}"
    if op == "n":
        return f"n{show_hex(draw.choice(['', 'x', *names_of(lists)]).encode())}"
    if op in "xy":
        return f"{draw.choice('xy')}{draw.choice([0, 0, 1, 1, 2, 3, 4, 8])}:{show_hex(data)}"
    if op == "=":
        return f"={draw.choice(['_', 0, len(lists), max(len(lists) - 1, 0)])}"
    if op == "c" and draw.random() < 0.7:
        return None
    if op == "M":
        whole = captures.whole()
        return "M" if whole is None or whole[0] <= whole[1] else None
    return op


def is_plain_ascii(name):
    return all(32 <= ord(character) < 127 for character in name)


def captures_command(draw):
    lists = group_lists(draw, faults=False)
    kind = draw.choice(["all", "all", "all", "matches", "empty"])
    captures = Captures(kind, lists)
    data = text(draw, 8).encode() if draw.random() < 0.6 else bytes(draw.choice(b"abc") for _ in range(6))
    ops = slot_ops(draw, len(captures.slots), len(data))
    if draw.random() < 0.9:
        ops.insert(0, f"={draw.choice([0, draw.randrange(len(lists) + 1), MAX if draw.random() < 0.2 else 0])}")
    for op in ops:
        captures.apply(op)
    extracts = True
    for _ in range(draw.randrange(1, 8)):
        op = captures_op(draw, captures, data)
        if op is not None:
            ops.append(op)
            captures.apply(op)
            extracts = extracts and (op[0] not in "xy" or captures.extracts(op))
    if draw.random() < 0.1 and all(map(is_plain_ascii, names_of(lists))):
        return " ".join(["caps_debug", kind, show_lists(lists), *(op for op in ops if op[0] not in "xy")])
    return " ".join([tagged("caps", not extracts), kind, show_lists(lists), *ops])


FAMILIES = [
    (3, index_command), (1, nonmax_command), (8, utf8_command), (3, text_command), (1, word_byte_command),
    (2, unit_command), (4, byteset_command), (5, classset_command), (6, map_command), (1, look_command),
    (3, lookset_command), (12, matcher_command), (0.2, lambda draw: "unicode_check"), (4, span_command),
    (4, input_command), (3, match_command), (8, pattern_set_command), (7, groups_command), (8, captures_command),
]
