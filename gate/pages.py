#!/usr/bin/env python3
"""Writes what the pages take from the sources, and compares it; checks what every source and proof holds to.

    gate/pages.py [--write]      # without --write it says which pages are out of date, and what they lack; with it, what it can't write

- The lower part of each library's CALLING.md: below the line `<!-- callers: FILE FUNCTION ..; FILE FUNCTION .. -->`, which names the functions of
  files of crates/rsc_uses/src to show, come those callers, the contract of each public call, and the names of specs/ with their comments.
- The first Rust code of a library's README.md: its file in crates/rsc_docs/src/readmes, a test. In the README.md of the repository, the code below each line
  `<!-- quoted: FILE -->`. README.md also gets how many definitions are to be believed and what is proved by hand, docs/TRUSTED.md each of those definitions,
  and docs/CALLS.md each public call.
- The examples of doc comments: what is in a test of crates/rsc_docs/src/examples below the comment that names the item, as `Span::get` in backquotes, after
  four spaces and `// `. A test begins with such a comment, and its last example ends at its `Ok(())`. The example of a head has the crate's name.
- The table of docs/WRONG_BODIES.md: for each edit that it names, the function and the goal that refuse it.
- The comments of each Lib.antt: the first sentence of each module's head.
- The lists of docs/DEFINITIONS.md: the comments of the files of specs/ that each line `<!-- specs: FILE .. -->` names. Each file but `..Layout` is named.
- The list of docs/DIFFERENCES.md of what is new here: the calls of which a doc comment says `The original lacks it.`
- Numbers that other files decide: README.md's totals of docs/PERFORMANCE.md, of commands and of wrong bodies, and the sizes of a batch of names.

It asks that the forms under 'Forms that are asked for' of docs/DECISIONS.md are there, that no library calls a function whose sums wrap, and that no
definition of a `..Layout` is cited by a public contract or the promise of a trait's methods, or is in docs/TRUSTED.md.

A file that a page written by hand names in backquotes, below one of the usual folders, is there, and so is what a page links to.

What the root file of a library doesn't bring out is `pub(crate)`. Clauses that say the same have the same name (gate/settled.py),
and no two files of a crate's specs/ have a definition of one name.

No crate imports another crate's `proofs` or `specs/..Layout`: the layers compose by contracts, laws and definitions alone. No line of a .rt
or .antt file is longer than 160 columns, except imports, tables of literals, and the quotation of a test or of a text that is longer.
"""
import itertools
import pathlib
import re
import sys

from calling import ROOT, calls, cited, is_exported, page, sources
from defined import definitions_page, with_lacked_calls
from edits import edits_in
from frozen import frozen_faults
from heads import above, head, source_of
from settled import clause_faults, name_faults, twice_named
from trusted import believed, engine_statement, reached, statement, trusted
from typed import LIBRARIES

MOST_COLUMNS = 160
# The forms that are asked for, however plain another is: a source, and a text that stands in it once. docs/DECISIONS.md names them.
FORMS = (
    ("rsc_alphabet/src/byte_class_set.rt", "classes.set(byte, self.ends.count_below(byte));"),
    ("rsc_alphabet/src/byte_set.rt", "    low: u128,\n"),
    ("rsc_alphabet/src/byte_set.rt", "    high: u128,\n"),
    ("rsc_look/src/boundaries.rt", "    set.add_set(&word_bytes());\n"),
    ("rsc_primitives/src/utf8.rt", "const WORD_BYTES_TO_7F: u128 = 0x07FF_FFFE_87FF_FFFE_03FF_0000_0000_0000;\n"),
    ("rsc_primitives/src/utf8.rt", "const WORD_BYTES_FROM_80: u128 = 0;\n"),
    ("rsc_search/src/pattern_set.rt", "    blocks: Vec<u64, A>,\n    capacity: usize,\n    count: usize,\n}"),
    # The rows of commands call `run` over bytes in memory.
    ("rsc_commands_tests/src/tests.rt", "    let mut reader = lines.as_bytes();\n    let mut writer = Vec::new(alloc);\n    run(alloc, &mut reader, &mut writer)?;\n"),
)

# The original's tests that are carried, and the tests of rows that are asked for: each stands once, as a test of its name, in its crate.
NAMED_TESTS = {
    "rsc_alphabet_tests": "byte_classes full_byte_classes elements_typical elements_singletons elements_empty representatives",
    "rsc_look_tests": "look_set look_set_iter look_set_debug look_matches_start_text look_matches_end_text look_matches_start_line look_matches_end_line "
                      "look_matches_word_ascii look_matches_word_ascii_negate look_matches_word_unicode look_matches_word_unicode_negate "
                      "look_matches_word_start_ascii look_matches_word_end_ascii look_matches_word_start_unicode look_matches_word_end_unicode "
                      "look_matches_word_start_half_ascii look_matches_word_end_half_ascii look_matches_word_start_half_unicode "
                      "look_matches_word_end_half_unicode",
    "rsc_commands_tests": "answers_ranges answers_classes_of_assertions answers_assertions_at_positions answers_groups answers_limited_groups "
                          "refuses_more_groups_than_the_limit answers_any_bytes_by_bad_line displays_errors errors_are_equal_to_themselves_alone "
                          "an_input_without_end_is_refused at_most_1048576_reads_are_made a_read_that_fails_once_writes_nothing "
                          "a_failed_write_leaves_what_was_written each_request_may_be_refused each_growth_of_a_long_input_may_be_refused",
}


def readme(shown, text):
    """Returns a README.md with a program as its first Rust code."""
    return re.sub(r"```rust\n.*?```", lambda _: f"```rust\n{shown}```", text, count=1, flags=re.S)


def with_quotes(text):
    """Returns README.md with the file as the Rust code below each line `<!-- quoted: FILE -->`."""
    code = r"(<!-- quoted: (\S+) -->\n```rust\n).*?```"
    return re.sub(code, lambda it: f"{it[1]}{(ROOT / it[2]).read_text(encoding='utf-8')}```", text, flags=re.S)


def by_hand(text):
    """Returns README.md with how much is taken without a proof, and what is proved by hand."""
    found = [it for it in sorted((ROOT / "crates").glob("*/**/*")) if it.suffix in (".antt", ".rt") and "out" not in it.parts]
    texts = [(it.suffix, re.sub(r"//.*|--.*", "", it.read_text(encoding="utf-8"))) for it in found]
    patterns = {"axioms": (".antt", r"\baxiom\b"), "holes": (".antt", r"(?<![\w`])\?(?=[\s),]|$)"), "`unsafe` blocks": (".rt", r"\bunsafe (?:\{|fn|impl|trait)")}
    counts = [f"{sum(len(re.findall(its, it, flags=re.M)) for suffix, it in texts if suffix == kind)} {name}" for name, (kind, its) in patterns.items()]
    hands = [f"`{'::'.join(it.parts[-3:-1])}`" for it in found if it.name == "Proof.antt"]
    said = f"{', '.join(counts)}; {len(hands)} proofs by hand ({', '.join(hands)})"
    return re.sub(r"<!-- by hand -->.*?<!-- end -->", lambda _: f"<!-- by hand -->{said}<!-- end -->", text, flags=re.S)


def examples(crate):
    """Returns the examples of a library's doc comments, by the items that they are of."""
    file = ROOT / "crates/rsc_docs/src/examples" / f"{crate.removeprefix('rsc_')}.rt"
    found, lines, fault = {}, None, None
    # Whether the line is in a test, and before its `Ok(())`.
    is_inside = False
    for number, line in enumerate(file.read_text(encoding="utf-8").splitlines() if file.exists() else (), 1):
        item = re.fullmatch(r"    // `(.*)`", line)
        if item:
            fault = f"a second example of `{item[1]}`" if item[1] in found else fault
            lines = found[item[1]] = []
        elif re.fullmatch(r"\s*//+\s*`?[A-Za-z_]\w*(?:::\w+)*`?\s*", line):
            fault = "a comment that names an item has four spaces before `// `, and the name in backquotes"
        elif line == "    Ok(())":
            lines, is_inside = None, False
        elif line.startswith("fn "):
            is_inside = True
        elif line == "}":
            fault = "an example ends with a line `    Ok(())`" if is_inside else fault
        elif lines is not None:
            lines.append(line.removeprefix("    "))
        elif is_inside and line.strip():
            fault = "a test begins with a comment that names an item"
        if fault:
            raise ValueError(f"{file.relative_to(ROOT)}:{number}: {fault}")
    return {item: "\n".join(lines).strip("\n").split("\n") for item, lines in found.items()}


def with_head(crate, text, quoted, missing):
    """Returns a crate's root file with the example in its head regenerated; takes it out of `missing`. Each head with an example has its test."""
    fence, parts = "//! ```\n", text.split("//! ```\n")
    if len(parts) == 3 and crate in quoted:
        missing.discard(crate)
        parts[1] = "".join(f"//! {it}".rstrip() + "\n" for it in quoted[crate])
    elif len(parts) > 1:
        raise ValueError(f"crates/{crate}/src/lib.rt: the head has an example that no test of crates/rsc_docs/src/examples has")
    return fence.join(parts)


def documented(text, quoted, missing):
    """Returns a source file with the examples in its doc comments regenerated; takes each that is quoted out of `missing`."""
    for line, name in reversed(source_of(text).items().items()):
        if name in quoted:
            first, indent = above(text, line), re.match(" *", text[line:])[0]
            fence = f"{indent}/// ```\n"
            parts = text[first:line].split(fence)
            if len(parts) == 3:
                missing.discard(name)
                parts[1] = "".join(f"{indent}/// {it}".rstrip() + "\n" for it in quoted[name])
                text = text[:first] + fence.join(parts) + text[line:]
    return text


def module_list(path):
    """Returns a Lib.antt in which each module has the first sentence of its head as its comment."""
    made = []
    for line in path.read_text(encoding="utf-8").splitlines():
        module = re.match(r"(?:pub )?mod (\w+)", line)
        text = (path.parent / f"{module[1]}.antt").read_text(encoding="utf-8")
        head = " ".join(it[3:] for it in itertools.takewhile(lambda it: it.startswith("-- "), text.splitlines()))
        sentence = re.match(r".*?(?=\.(?: |$)|$)", head)[0]
        is_plain = sentence[1:2].islower() or sentence[1:2] == " "
        made.append(f"{module[0]}  -- {sentence[0].lower() + sentence[1:] if is_plain else sentence}")
    return "\n".join(made) + "\n"


def pages():
    """Yields each page with what it should be."""
    for crate in LIBRARIES:
        quoted = examples(crate)
        missing = set(quoted)
        for path, text in sources(crate):
            text = with_head(crate, text, quoted, missing) if path.name == "lib.rt" else text
            yield ROOT / "crates" / crate / "src" / path, documented(text, quoted, missing)
        if missing:
            raise ValueError(f"{crate}: no doc comment has room for the example of {', '.join(sorted(missing))}")
        file = ROOT / "crates" / crate / "CALLING.md"
        yield file, page(crate, file.read_text(encoding="utf-8"))
        file = ROOT / "crates" / crate / "README.md"
        example = ROOT / "crates/rsc_docs/src/readmes" / f"{crate.removeprefix('rsc_')}.rt"
        yield file, readme(example.read_text(encoding="utf-8"), file.read_text(encoding="utf-8"))
    for file in sorted((ROOT / "crates").glob("*/*/Lib.antt")):
        yield file, module_list(file)
    file = ROOT / "README.md"
    yield file, by_hand(believed(with_quotes(file.read_text(encoding="utf-8"))))
    file = ROOT / "docs/DEFINITIONS.md"
    listed, left = definitions_page(file.read_text(encoding="utf-8"))
    if left:
        raise ValueError(f"docs/DEFINITIONS.md names no list of {', '.join(left)}")
    yield file, listed
    file = ROOT / "docs/DIFFERENCES.md"
    yield file, with_lacked_calls(file.read_text(encoding="utf-8"), LIBRARIES)
    yield ROOT / "docs/TRUSTED.md", trusted()
    yield ROOT / "docs/CALLS.md", calls(LIBRARIES)


def definition_faults():
    """Yields for each definition that a contract cites or docs/TRUSTED.md lists whether it is one of a `..Layout`, which docs/DEFINITIONS.md leaves out."""
    needed = [(crate, name, ", ".join(sorted(citing)[:3]) + " cites") for crate, names in sorted(cited().items()) for name, citing in sorted(names.items())]
    needed += [(crate, f"{module}.{it}", "docs/TRUSTED.md lists") for (crate, module), names in sorted(reached([*statement(False), *engine_statement()])[0].items()) for it in sorted(names)]
    for crate, name, why in needed:
        # Equality as a `bool` needs no trust: its laws tie it to equality.
        if name.rpartition(".")[2].startswith("same_"):
            continue
        yield [f"docs/DEFINITIONS.md leaves out `{name}` of {crate}, which {why}"] if "Layout" in name.rpartition(".")[0] else []


def named_bodies(text):
    """Returns docs/WRONG_BODIES.md with the function and the goal that each edit names, and the edits that aren't there."""
    refused = {}
    for path in (ROOT / "crates").glob("*/wrong-bodies/**/*.edits"):
        crate = path.relative_to(ROOT / "crates").parts[0]
        refused.update({f"{crate}/{name}": fields["refused"] for name, fields, _ in edits_in(path, ("refused", "apart", "also"))})
    missing = []

    def row(found):
        if found[2] not in refused:
            missing.append(found[2])
            return found[0]
        function, _, goal = refused[found[2]].removesuffix(":").rpartition(": ")
        return f"| {found[1]} | `{found[2]}` | `{function or goal}`" + (f", `{goal}` |" if function else " |")

    return re.sub(r"^\| (.*) \| `(rsc_\w+/\w+)` \| .*\|$", row, text, flags=re.M), missing


def phrases():
    """Returns for each page the phrases whose numbers other files decide."""
    source = "crates/rsc_captures/src/repeats.rt"
    table = int(re.search(r"^const TABLE: usize = (\d+);", (ROOT / source).read_text(encoding="utf-8"), flags=re.M)[1])
    count, mean, slower, *_ = re.search(r"^\| all \| (.*) \|$", (ROOT / "docs/PERFORMANCE.md").read_text(encoding="utf-8"), flags=re.M)[1].split(" | ")
    commands = (ROOT / "crates/rsc_compare/stdin").read_text(encoding="utf-8").splitlines()
    bodies = sum(len(re.findall(r"^== ", path.read_text(encoding="utf-8"), flags=re.M)) for path in (ROOT / "crates").glob("**/*.edits"))
    return {
        "docs/DECISIONS.md": (f"batches of {table:,} groups are sorted by name in a table of {4 * table // 1024} KiB", f"n²/{2 * table} look-ups"),
        "crates/rsc_captures_tests/src/tests/repeats.rt": (f"has room for {table:,} groups",),
        "README.md": (f"Over {count} workloads", f"takes {mean} of the original's time", f"{slower} are slower", f"replays {len(commands):,} commands",
                      f"(in {sum('_port' in it for it in commands)} the", f"each of some {bodies // 10 * 10} wrong bodies"),
    }


def number_faults(made):
    """Puts the numbers of these phrases into the pages that are made; yields for each page the phrases of which it lacks the rest."""
    number = r"\d[\d,.]*"
    for page, said in phrases().items():
        text, missing = made.get(ROOT / page) or (ROOT / page).read_text(encoding="utf-8"), []
        for phrase in said:
            # A phrase may go on in the next line.
            pattern = r"(\s+)".join(number.join(map(re.escape, re.split(number, it))) for it in phrase.split())
            text, count = re.subn(pattern, lambda it: "".join(itertools.chain(*itertools.zip_longest(phrase.split(), it.groups(), fillvalue=""))), text)
            missing += [] if count == 1 else [f"{page} has {count} times `{phrase}`, with whatever numbers"]
        made[ROOT / page] = text
        yield missing


def form_faults():
    """Yields for each form that is asked for, and for each source of a library, what is wrong with it."""
    for file, form in FORMS:
        count = (ROOT / "crates" / file).read_text(encoding="utf-8").count(form)
        yield [] if count == 1 else [f"{file} has {count} times the form that is asked for: {form.strip()!r}"]
    for crate in LIBRARIES:
        for path, text in sources(crate):
            yield [f"{crate}/src/{path} calls `{it}`: no number may wrap" for it in re.findall(r"\bwrapping_\w+", text)]
    for crate, names in NAMED_TESTS.items():
        tests = "\n".join(it.read_text(encoding="utf-8") for it in (ROOT / "crates" / crate / "src").glob("**/*.rt"))
        yield [f"{crate} lacks the test `{it}`" for it in names.split() if len(re.findall(rf"^#\[test\]\nfn {it}\(", tests, flags=re.M)) != 1]


def visibility_faults():
    """Yields for each source of a library the functions and types that say `pub` although the crate's root file brings them out nowhere."""
    for crate in LIBRARIES:
        root = (ROOT / "crates" / crate / "src/lib.rt").read_text(encoding="utf-8")
        brought = set(re.findall(r"\w+", " ".join(re.findall(r"^pub use \w+::([^;]*);", root, flags=re.M))))
        for path, text in sources(crate):
            inner = [it.name for it in source_of(text).functions if it.is_pub and not is_exported(crate, path, it)]
            if f"pub mod {path.parts[0].removesuffix('.rt')};" not in root:
                inner += set(re.findall(r"^pub (?:struct|enum|trait|const|static) (\w+)", text, flags=re.M)) - brought
            yield [f"{crate}/src/{path}: `{it}` isn't exported, so it is `pub(crate)`" for it in inner]


def is_there(path, folders):
    """Returns whether a path, or a module by its name, is in one of the folders."""
    return any((folder / f"{path}{end}").exists() for folder in folders for end in ("", ".antt", ".rt"))


def documents():
    """Yields each page with its text."""
    for page in sorted(ROOT.glob("**/*.md")):
        if "out" not in page.relative_to(ROOT).parts:
            yield page, page.read_text(encoding="utf-8")


def path_faults():
    """Yields for each page that is written by hand the files that it names in backquotes and that aren't there."""
    kinds = "bench|compare|crates|docs|gate|own|proofs|runs|specs|src"
    for page, text in documents():
        if page.name == "CALLING.md":
            continue
        named = re.findall(rf"`((?:{kinds})/(?!util)\w[\w/-]+(?:\.\w+)?)`", text)
        folders = [ROOT, page.parent, *(ROOT / "crates").iterdir()]
        missing = [it for it in named if "NAME" not in it and "XLemmas" not in it and not is_there(it, folders)]
        yield [f"{page.relative_to(ROOT)} names `{it}`, which isn't there" for it in missing]


def unknown_names():
    """Yields for each page the names in backquotes, by themselves, that no file of the repository has. Pages on the original, on times and on what wasn't built
    have others' names."""
    kinds = (".antt", ".edits", ".py", ".rs", ".rt", ".sh", ".txt")
    files = [it for it in ROOT.glob("**/*") if it.suffix in kinds and "out" not in it.relative_to(ROOT).parts]
    known = {word for it in files for word in re.findall(r"\w+", f"{it.stem} {it.read_text(encoding='utf-8')}")}
    for page, text in documents():
        if page.name in ("DIFFERENCES.md", "DECISIONS.md", "PERFORMANCE.md") or page.parent == ROOT / "bench":
            continue
        own = re.sub(r"```.*?```|^## What differs.*?(?=^## |\Z)", "", text.partition("<!-- callers: ")[0], flags=re.M | re.S)
        named = {name for whole in re.findall(r"`([\w:.]+)`", own) for name in re.findall(r"[A-Za-z]\w*", whole)}
        yield [f"{page.relative_to(ROOT)} names `{it}`, which stands nowhere" for it in sorted(named - known) if re.search(r"[a-z_]", it) and re.search("[A-Z_]", it)]


def anchors(page):
    """Returns the headings of a page, as a link names them."""
    heads = re.findall(r"^#+ (.*)$", re.sub(r"```.*?```", "", page.read_text(encoding="utf-8"), flags=re.S), flags=re.M)
    return {re.sub(r"[^\w\- ]", "", it.lower()).replace(" ", "-") for it in heads}


def link_faults():
    """Yields for each page the links to a file or a heading that isn't there."""
    for page, text in documents():
        links = re.findall(r"\]\((?!https?:)([^)\s#]*)(?:#([^)\s]*))?\)", re.sub(r"```.*?```|`[^`\n]*`", "", text, flags=re.S))
        missing = []
        for path, head in links:
            target = (page.parent / path).resolve() if path else page
            if not target.exists() or head and head not in anchors(target):
                missing.append(f"{path}#{head}" if head else path)
        yield [f"{page.relative_to(ROOT)} links to {it}, which isn't there" for it in missing]


def serves_nothing(crate, below):
    """Returns whether a file of proofs/ isn't named after the file of specs/ or src/ that its lemmas serve."""
    name = pathlib.Path(below[-1]).stem
    if below[0] != "proofs" or len(below) > 2 or name in ("Lib", "Prelude", "Examples", "CitedLaws"):
        return False
    subject, folder = name.removesuffix("Lemmas"), ROOT / "crates" / crate
    source = re.sub(r"(?<=[a-z])(?=[A-Z])", "_", subject).lower()
    return subject == name or not ((folder / f"specs/{subject}.antt").exists() or [*folder.glob(f"src/**/{source}.rt")])


def source_faults():
    """Yields for each source and proof its faults: another crate's private modules, too many columns, a file of lemmas that serves none."""
    for file in sorted((ROOT / "crates").glob("*/**/*")):
        crate, *below = file.relative_to(ROOT / "crates").parts
        if file.suffix not in (".antt", ".rt") or below[0] == "out":
            continue
        found, is_import = [], False
        for number, line in enumerate(file.read_text(encoding="utf-8").splitlines(), 1):
            for of, private in re.findall(r"use Rattle\.(rsc_\w+)\.(proofs|specs\.\w*Layout)\b", line):
                if of != crate:
                    found.append(f"{file.relative_to(ROOT)}:{number}: {private} of {of} is private to that crate")
            begins_import = re.match(r"\s*((pub |ghost )*use |#\[tactic\(auto, using\()", line) is not None
            is_literal = re.search(r'"[^"]{60,}|(\b\w+, ){12}', line)
            if len(line) > MOST_COLUMNS and not (is_import or begins_import or is_literal):
                found.append(f"{file.relative_to(ROOT)}:{number}: {len(line)} columns")
            # An import goes on in the next line only within its braces.
            is_import = "{" in line and "}" not in line if begins_import else is_import and "}" not in line
        if serves_nothing(crate, below):
            found.append(f"{file.relative_to(ROOT)} is named after no file of specs/ or src/")
        yield found


def main():
    try:
        made, failures, count = dict(pages()), [], 0
    except ValueError as fault:
        print(fault, "pages: 0 passed, 1 failed", sep="\n")
        return 1
    bodies = ROOT / "docs/WRONG_BODIES.md"
    made[bodies], missing = named_bodies(bodies.read_text(encoding="utf-8"))
    faults_of = [number_faults(made), *(it() for it in (source_faults, form_faults, visibility_faults, path_faults, unknown_names, link_faults, definition_faults, clause_faults, twice_named, name_faults, frozen_faults))]
    for faults in [*itertools.chain.from_iterable(faults_of), [f"docs/WRONG_BODIES.md names {it}, which isn't there" for it in missing]]:
        count += 1
        failures += faults
    for file, text in made.items():
        count += 1
        if text != file.read_text(encoding="utf-8"):
            if "--write" in sys.argv:
                file.write_text(text, encoding="utf-8")
            else:
                failures.append(f"{file.relative_to(ROOT)} is out of date; gate/pages.py --write regenerates it")
    print(*failures, f"pages: {count - len(failures)} passed, {len(failures)} failed", sep="\n")
    return 1 if failures else 0


if __name__ == "__main__":
    sys.exit(main())
