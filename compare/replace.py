#!/usr/bin/env python3
"""Makes pairs of a pattern and a template with a text, and the text that Python's `re` makes of them.

    compare/replace.py COUNT SEED            # writes a line for each: pattern, template, text and what comes of it, with tabs between
    compare/replace.py --store COUNT SEED    # writes them as crates/rsc_replace_tests/src/tests/pairs.rt

A pattern is the builder's calls as crates/rsc_replace_tests/src/made.rt reads them, a character each, after their parts. A template is made of pieces, and
of each it is known what Python's template for it is; so no rule on templates stands here but the one that a name without braces goes on over word bytes.

What is repeated can't be empty, since there the two differ on purpose (compare/pairs.py). Where the pattern may be empty, the matches are those of
compare/pairs.py, since `re.sub` takes an empty match where the last one ended too.
"""
import random
import re
import sys

from pairs import matches

CLASSES = {".": "[ab]", "W": "[a-z]"}
LITERALS = {"a": "a", "b": "b", "c": "c", " ": " ", "E": "é"}
LOOKS = {"B": r"\b", "X": r"\A", "Z": r"\Z"}
REPEATS = {"*": "*", "+": "+", "?": "?", "R": "{2,3}", "S": "*?", "P": "+?", "Q": "??"}
# What begins no reference, with what it stands for.
PLAIN = {"-": "-", "é": "é", "<a b>": "<a b>", "$$": "$", "$$$$": "$$", "$-": "$-", "$ ": "$ ", "${": None, "${1": None, "$": None, "\\1": "\\\\1", "}": "}"}
ROWS = 60


def pattern(numbers, depth, named):
    """Returns a pattern's calls, its text for Python, and whether it may match no byte. `named` has the group names so far."""
    leaves = ["literal", "literal", "class"] + ["look"] * (depth < 3)
    kind = numbers.choice(leaves if depth == 0 else [*leaves, "then", "then", "then", "either", "group", "group", "repeat", "repeat"])
    if kind in ("literal", "class", "look"):
        call, text = numbers.choice(list({"literal": LITERALS, "class": CLASSES, "look": LOOKS}[kind].items()))
        return call, text, kind == "look"
    if kind == "group":
        if not named and numbers.random() < 0.5:
            named.append("key")
            calls, text, is_empty = pattern(numbers, depth - 1, named)
            return calls + "K", f"(?P<key>{text})", is_empty
        calls, text, is_empty = pattern(numbers, depth - 1, named)
        return calls + "G", f"({text})", is_empty
    calls, text, is_empty = pattern(numbers, depth - 1, named)
    if kind == "repeat":
        if is_empty:
            return calls, text, is_empty
        call, repeat = numbers.choice(list(REPEATS.items()))
        return calls + call, f"(?:{text}){repeat}", repeat[0] in "*?"
    other_calls, other_text, is_other_empty = pattern(numbers, depth - 1, named)
    if kind == "then":
        return f"{calls}{other_calls},", f"(?:{text})(?:{other_text})", is_empty and is_other_empty
    return f"{calls}{other_calls}|", f"(?:{text}|{other_text})", is_empty or is_other_empty


def template(numbers, compiled):
    """Returns a template, and the same for Python."""
    made, python = "", ""
    for _ in range(numbers.randint(1, 4)):
        if numbers.random() < 0.4:
            plain = numbers.choice(list(PLAIN))
            if PLAIN[plain] is not None:
                made, python = made + plain, python + PLAIN[plain]
            continue
        name = numbers.choice(["0", "1", "1", "2", "key", "key", "9", "none", "1a", "10", "01"])
        is_there = int(name) <= compiled.groups if name.isdigit() else name in compiled.groupindex
        stands_for = f"\\g<{int(name) if name.isdigit() else name}>" if is_there else ""
        after = numbers.choice(["", "", "-", "a", "_", "."])
        is_bare = numbers.random() < 0.5 and not after[:1].isalnum() and after != "_"
        made += f"${name}{after}" if is_bare else f"${{{name}}}{after}"
        python += stands_for + after
        if is_bare and not after:
            made, python = made + "/", python + "/"
    # At the end a `$` that begins nothing, or a brace that isn't closed.
    last = numbers.choice(["", "", "", "$", "${", "${1", "$1", "${key}"])
    if last in ("$1", "${key}"):
        is_there = compiled.groups if last == "$1" else "key" in compiled.groupindex
        return made + last, python + ("\\g<1>" if last == "$1" else "\\g<key>") * bool(is_there)
    return (made + last, python + last) if "}" not in last else (made, python)


def replaced(compiled, python, text, is_empty):
    if not is_empty:
        return compiled.sub(python, text)
    out, start = "", 0
    for found in matches(compiled, text):
        out, start = out + text[start : found.start()] + found.expand(python), found.end()
    return out + text[start:]


def row(numbers):
    while True:
        calls, source, is_empty = pattern(numbers, numbers.randint(1, 4), [])
        compiled = re.compile(source, re.ASCII)
        made, python = template(numbers, compiled)
        text = "".join(numbers.choice(["a", "b", "a", "b", "c", " ", "é"]) for _ in range(numbers.randint(0, 12)))
        if compiled.search(text) or numbers.random() < 0.05:
            return "\t".join((calls, made, text, replaced(compiled, python, text, is_empty)))


def literal(text):
    return '"' + text.replace("\\", "\\\\").replace('"', '\\"').replace("\t", "\\t") + '"'


def main():
    is_stored = sys.argv[1] == "--store"
    count, seed = map(int, sys.argv[1 + is_stored :])
    numbers = random.Random(seed)
    rows = [row(numbers) for _ in range(count)]
    if not is_stored:
        print(*rows, sep="\n")
        return
    print("//! What `compare/replace.py` writes: a pattern, a template, a text, and what Python's `re` makes of them.")
    print("use crate::made::first_wrong;\nuse std::test::Fail;")
    for at in range(0, count, ROWS):
        print(f"\n#[test]\nfn pairs_from_{at}(rt: HostRuntime) -> Result<(), Fail> {{")
        print("    let rows = [")
        print(*(f"        {literal(it)}," for it in rows[at : at + ROWS]), sep="\n")
        print("    ];\n    assert!(rt; first_wrong(rt.alloc(), &rows)?.is_none());\n    Ok(())\n}")


if __name__ == "__main__":
    main()
