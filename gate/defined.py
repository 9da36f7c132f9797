"""Reads the definitions of a crate's specs/ with their comments: the glossary of its CALLING.md, and the lists of docs/DEFINITIONS.md; and the calls that a doc
comment says the original lacks. gate/calling.py and gate/pages.py import it."""
import itertools
import pathlib
import re

from heads import above, head, source_of

ROOT = pathlib.Path(__file__).resolve().parent.parent

# How many characters the fields of a record take at most where a table has them whole.
MOST_OF_A_RECORD = 280


def own_text(lines):
    """Returns what stands for a comment that a definition lacks: the lines below its first, which define it."""
    own = itertools.takewhile(str.strip, lines)
    return "; ".join(f"`{it.strip()}`" for it in own if not it.strip().startswith("--"))


def meaning(comment, line, below):
    """Returns what a definition says: its comment, with a record's fields or a definition of one line after it, or else how it is defined.

    >>> meaning("two ends", "pub record Ends : Type 0 where", ["  pub start : ℕ", "  pub end : ℕ", ""])
    'two ends (a record: `start : ℕ`, `end : ℕ`)'
    >>> meaning("one more than one", "abbrev pub two : ℕ", ["two = 1 + 1", ""])
    'one more than one: `two = 1 + 1`'
    >>> meaning("two is even", "pub two-even : IsEven two", ["two-even = refl", ""])
    'two is even'
    """
    own = own_text(below)
    if " record " in line:
        fields = [*itertools.takewhile(lambda it: it.startswith("  "), below)]
        names = [f"`{found[1]}`" for it in fields if (found := re.match(r"  pub (\S+) :", it))]
        whole = [f"`{it.strip().removeprefix('pub ')}`" for it in fields]
        # What the fields say, too, if they are few.
        is_short = len(whole) == len(names) and len("".join(whole)) <= MOST_OF_A_RECORD
        return f"{comment} (a record: {', '.join(whole if is_short else names)})".strip()
    # A lemma is what its comment says; its proof says nothing.
    is_short = re.match(r"\s*(abbrev|unfoldable) ", line) and own.count("`") == 2
    return f"{comment}: {own}" if comment and is_short else comment or own


def definitions_of(crate):
    """Yields the public definitions of specs/ but those of `..Layout`: the file, the name, the comment above it, its first line and the lines below."""
    for file in sorted((ROOT / "crates" / crate / "specs").glob("**/*.antt")):
        comment, is_taken = "", False
        lines = file.read_text(encoding="utf-8").splitlines()
        for k, line in enumerate(lines):
            # A definition within a section is indented; so is a field of a record, which is no definition.
            name = re.match(r"(?:  (?=abbrev ))?(?:abbrev |unfoldable )*pub (?:record |data |class )?([^\s:]+)", line)
            if line.startswith(("-- ", "  -- ")):
                comment, is_taken = f"{'' if is_taken else comment} {line.strip()[3:]}".strip(), False
            elif name and not line.startswith("pub mod"):
                if "Layout" not in file.stem:
                    yield file, name[1], comment, line, lines[k + 1 :]
                # Of several definitions in a row the comment is that of each.
                is_taken = True
            elif not line.strip():
                comment, is_taken = "", False


def names_of_specs(crate, cited):
    """Returns the definitions of specs/, each with the comment above it, or how it is defined: the cited ones, what these are made of, and lemmas with
    what serves them. Private ones are left out."""
    tables = {
        "Contracts cite these, or fields of these. From 0.1.0 on they stay, with the fields of their records and the constructors of their data types:": [],
        "Of these they are made. These may change:": [],
        "These serve proofs, and need no trust. They may change, too:": [],
    }
    stay, parts, others = tables.values()
    for file, name, comment, line, below in definitions_of(crate):
        rows = others if re.search(r"Laws|Same", file.stem) else stay if f"{file.stem}.{name}" in cited else parts
        if comment or rows is not others:
            rows.append(f"| `{file.stem}.{name}` | {meaning(comment, line, below).replace('|', chr(92) + '|')} |")
    listed = [[title, "", "| Name | What it says |", "|---|---|", *rows, ""] for title, rows in tables.items() if rows]
    return "\n".join(["## Names of `specs/`", "", *itertools.chain(*listed)])


def with_parameters(name, comment, line, below):
    """Returns a definition's name, with its parameters if its comment speaks of one.

    >>> with_parameters("IsTail", "b is a tail", "abbrev pub IsTail : ℕ → Type 0", ["IsTail b = IsInRange 0x80 0xBF b", ""])
    'IsTail b'
    >>> with_parameters("Ends", "two ends", "pub record Ends (h : List ℕ) : Type 0 where", [])
    'Ends'
    """
    clauses = [it for it in itertools.takewhile(str.strip, below) if re.match(rf"\s*{re.escape(name)} .*=", it)]
    found = " ".join(re.findall(r"\(([^:()]+) :", line)).split() if " record " in line else clauses[0].partition(" =")[0].split()[1:] if len(clauses) == 1 else []
    is_said = any(re.search(rf"(?<![\w`]){it}(?![\w`])", comment) for it in found if it.isidentifier() and it != "a")
    return " ".join([name, *found]) if is_said and all(it.isidentifier() for it in found) else name


def definitions_page(text):
    """Returns docs/DEFINITIONS.md with the definitions of the files that each line `<!-- specs: FILE .. -->` names, of the crate in the heading above it, up to
    the line `<!-- end -->`; and the files that no such line names."""
    made, crate, left = [], "", {}
    for part in re.split(r"^(?=## )", text, flags=re.M):
        found = re.match(r"## .*`(rsc_\w+)", part)
        if found and found[1] not in left:
            crate, left[found[1]] = found[1], {}
            for file, name, comment, line, below in definitions_of(crate):
                if not re.search(r"Laws|Same", file.stem):
                    said = f"- `{with_parameters(name, comment, line, below)}`: {comment or own_text(below)}"
                    left[crate].setdefault(file.stem, []).append(said)

        def listed(mark):
            parts = ["\n".join([f"`{it}`:", "", *left[crate].pop(it, ()), ""]) for it in mark[1].split()]
            return f"<!-- specs: {mark[1]} -->\n\n" + "\n".join(parts) + "\n<!-- end -->"

        made.append(re.sub(r"<!-- specs: (.*?) -->\n.*?<!-- end -->", listed, part, flags=re.S))
    return "".join(made), [f"{crate}/{it}" for crate, files in left.items() for it in files]


LACKED = "The original lacks it."


def first_sentence(comment):
    """Returns the first sentence of a doc comment, on one line, with links as what they show.

    >>> first_sentence("    /// The set, as by\\n    /// [`Set::new`](crate::Set::new). The original lacks it.\\n")
    'the set, as by `Set::new`'
    """
    said = " ".join(it.strip().removeprefix("///").strip() for it in comment.splitlines() if it.strip().startswith("///"))
    said = re.sub(r"\[(`[^`]*`)\](\([^)]*\))?", r"\1", said)
    return re.sub(r"^[A-Z](?=[a-z ])", lambda it: it[0].lower(), re.split(r"\.(?: |$)", said)[0])


def lacked_calls(crates):
    """Yields a line for each public function of these crates of which a doc comment says that the original lacks it."""
    for crate in crates:
        for file in sorted((ROOT / "crates" / crate / "src").glob("**/*.rt")):
            text = file.read_text(encoding="utf-8")
            for it in source_of(text).functions if LACKED in text else ():
                comment = text[above(text, it.line) : it.line]
                if LACKED in comment:
                    yield f"- `{'::'.join(filter(None, (head(it.owner.name), it.name)))}`: {first_sentence(comment)}"


def with_lacked_calls(text, crates):
    """Returns docs/DIFFERENCES.md with these lines between `<!-- lacked -->` and `<!-- end -->`."""
    return re.sub(r"<!-- lacked -->\n.*?<!-- end -->", lambda _: "<!-- lacked -->\n" + "\n".join(lacked_calls(crates)) + "\n<!-- end -->", text, flags=re.S)
