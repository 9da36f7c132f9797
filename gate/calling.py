"""Makes the lower part of a library's CALLING.md of its sources, its definitions and its callers in rsc_uses; and docs/CALLS.md, which has each public
call of the libraries, the names of its clauses, what calls it, and a wrong body that is refused for them. gate/pages.py imports it."""
import collections
import functools
import pathlib
import re

from defined import names_of_specs
from edits import edits_in
from heads import above, head, source_of
from typed import LIBRARIES, calls_of, files

ROOT = pathlib.Path(__file__).resolve().parent.parent


# The ghost items of a trait's impl that say what its methods promise.
PROMISES = "next_gives next_back_gives remaining eq cmp partial_cmp hash_input is_default output debug_output word_chars from_gives try_from_gives".split()
# The others: what is seen of a value, what the bytes and the cut of a haystack are, and proofs.
NO_PROMISES = "Value view invariant bytes cut_of laws inverse inverse_ok coded total matches_eq matches_partial_cmp respects_eq".split()


def promises(text):
    """Yields each impl of a trait in a file, with the ghost items that say what its methods promise.

    >>> [*promises("impl PartialEq for Span {\\n    ghost eq = { λ a b. True };\\n}\\n")]
    [('PartialEq for Span', ['eq = { λ a b. True }'])]
    """
    for it in source_of(text).owners:
        _, is_impl, of = it.name.rpartition(" for ")
        ghosts = re.findall(r"^    ghost (\w+) = (\{.*?\});$", text[it.start : it.end], flags=re.M | re.S) if is_impl else ()
        unknown = {name for name, _ in ghosts} - {*PROMISES, *NO_PROMISES}
        if unknown:
            raise ValueError(f"impl {it.name}: is `{unknown.pop()}` a promise? PROMISES or NO_PROMISES of gate/calling.py has to say it")
        kept = [f"{name} = {promise}" for name, promise in ghosts if name in PROMISES]
        if kept and not re.search(rf"pub\(crate\) (?:struct|enum) {head(of)}\b", text):
            yield it.name, kept


def sources(crate):
    """Yields each source file of a crate but its tests: its path below src, and its text."""
    for file in sorted((ROOT / "crates" / crate / "src").glob("**/*.rt")):
        if "tests" not in file.parts and file.name != "tests.rt":
            yield file.relative_to(ROOT / "crates" / crate / "src"), file.read_text(encoding="utf-8")


@functools.cache
def cited():
    """Returns, for each crate, each definition that a public function's clauses cite, or what a trait's methods promise, or that is what a contract sees of a
    value, with those functions or impls; and each of which a field of such a record speaks."""
    found = collections.defaultdict(lambda: collections.defaultdict(set))
    for crate in LIBRARIES:
        for path, text in sources(crate):
            imported = {}
            for of, module, names in re.findall(r"ghost use Rattle\.(rsc_\w+)\.specs\.([\w.]+)\.\{([^}]*)\}", text):
                if not module.startswith("declared"):
                    imported.update({it.strip(): (of, module) for it in names.split(",")})
            for it in source_of(text).functions:
                for name in set(re.findall(r"[\w-]+", it.signature)) & set(imported) if it.is_pub and is_exported(crate, path, it) else ():
                    of, module = imported[name]
                    found[of][f"{module}.{name}"].add("::".join(filter(None, (crate, head(it.owner.name), it.name))))
            for of, seen in re.findall(r"^impl.* Model for (\w+).*\{\n(?:(?:    .*)?\n)*?    ghost Value = \{(.*)\};$", text, flags=re.M):
                is_private = re.search(rf"pub\(crate\) (?:struct|enum) {of}\b", text)
                for name in () if is_private else set(re.findall(r"[\w-]+", seen)) & set(imported):
                    of, module = imported[name]
                    found[of][f"{module}.{name}"].add(f"what a contract sees of a value of {crate}/src/{path}")
            for impl, kept in promises(text):
                for name in set(re.findall(r"[\w-]+", " ".join(kept))) & set(imported):
                    of, module = imported[name]
                    found[of][f"{module}.{name}"].add(f"the impl of {impl} in {crate}")
    add_parts(found)
    return found


def add_parts(found):
    """Adds what the fields of cited records, and the constructors of cited data types, speak of: who takes a field of a record goes by it too."""
    todo = [(of, name) for of, names in found.items() for name in names]
    while todo:
        of, cited_name = todo.pop()
        module, _, name = cited_name.rpartition(".")
        text = (ROOT / "crates" / of / "specs" / f"{module.replace('.', '/')}.antt").read_text(encoding="utf-8")
        body = re.search(rf"^pub (?:record|data) {re.escape(name)} .*\n(?:  .*\n)*", text, flags=re.M)
        if body:
            own = {it: (of, module) for it in re.findall(r"^(?:abbrev |unfoldable )*pub (?:record |data )?(\S+)", text, flags=re.M)}
            for crate, other, names in re.findall(r"^use Rattle\.(rsc_\w+)\.specs\.([\w.]+)\.\{([^}]*)\}", text, flags=re.M):
                if not other.startswith("declared"):
                    own.update({it.strip(): (crate, other) for it in names.split(",")})
            for part in (set(re.findall(r"[\w-]+", body[0])) & set(own)) - {name}:
                its_crate, its_module = own[part]
                if f"{its_module}.{part}" not in found[its_crate]:
                    todo.append((its_crate, f"{its_module}.{part}"))
                found[its_crate][f"{its_module}.{part}"].add(f"a field of {cited_name}")


MARK = re.compile(r"<!-- callers: (.*) -->\n")
LAWS = """## Laws, and what else can be cited

A law is a public function of `{crate}::laws`, or of a module there, whose contract is the law; most do nothing. A function whose proof needs it calls it at its
beginning, as `laws::{law}();`: from there on the law is among the facts that the checker
searches. What the search doesn't find, as is common for laws with premises, a proof file states by hand.

A contract or a proof of yours may use the names of the first table below: a name `{module}.{name}` by
`ghost use Rattle.{crate}.specs.{module}.{{{name}}};`, and a struct or an enum `TYPE` of `src/FILE.rt` by
`ghost use Rattle.{crate}.specs.declared.FILE.TYPE.{{TYPE}};`. A proof may also cite the lemmas of `specs/..Laws`, which are about definitions
alone. What that table lacks of `specs/`, and `Rattle.{crate}.proofs`, may change in any version.
"""


def shortened(function):
    """Returns a function's signature as the page shows it: with its type before the name."""
    indent = re.match(r"\s*", function.signature)[0]
    lines = [it.removeprefix(indent) for it in function.signature.split("\n")]
    trait, _, of = function.owner.name.rpartition(" for ")
    prefix = f"<{of} as {trait}>::" if trait else f"{of}::" if of else ""
    lines[0] = re.sub(r"(?:pub )?((?:const )?fn )", lambda it: it[1] + prefix, lines[0], count=1)
    return "\n".join(lines)


def is_exported(crate, path, function):
    """Returns whether a crate above can name a function: its type, or without one the function or its module, is brought out by lib.rt."""
    text = (ROOT / "crates" / crate / "src/lib.rt").read_text(encoding="utf-8")
    names = set(re.findall(r"\w+", " ".join(re.findall(r"^pub use \w+::([^;]*);", text, flags=re.M))))
    if function.owner.name:
        return head(function.owner.name.rpartition(" for ")[2]) in names
    return function.name in names or f"pub mod {path.parts[0].removesuffix('.rt')};" in text


# What a law speaks of that says what a derived `Clone`, `Default` or `Hash` does. `laws/clones.rt` has such laws alone.
DERIVED = re.compile(r"⟦<[^⟧]* as (?:Clone|Default|Hash)>⟧")


def contracts(crate):
    what = ("`specs/` defines the names, and the `ghost use` lines of the quoted file say where; `sets` is `Rattle.std.specs.FinSet`. A line `impl<..> TYPE` has the "
            "bounds of that type's calls below it. Below `impl TRAIT for TYPE` is what its methods promise.")
    parts, last = ["## Contracts", "", f"Quoted from `crates/{crate}/src`; {what}", ""], []
    for path, text in sources(crate):
        shown, before = [], ""
        for it in source_of(text).functions:
            if it.is_public and is_exported(crate, path, it):
                shown += [it.owner.bounds] if it.owner.bounds not in ("", before) else []
                before = it.owner.bounds
                is_last = path.as_posix() == "laws/clones.rt" or path.stem == "laws" and DERIVED.search(it.signature)
                (last if is_last else shown).append(shortened(it))
        shown += ["\n    ".join([f"impl {of}", *kept]) for of, kept in promises(text)]
        if shown:
            parts += [f"### `{path}`", "", "```text", *shown, "```", ""]
    if last:
        parts += ["### Laws on clones, defaults and hashes", "", "```text", *last, "```", ""]
    return "\n".join(parts)


def items(crate):
    """Returns where each public item is imported from, and which types are `Copy`."""
    texts = {path.as_posix(): text for path, text in sources(crate)}
    roots, paths, types = [], [], []
    for module, names in re.findall(r"^pub (?:use \w+::|mod )(?:(\w+);|\{([^}]*)\};)", texts["lib.rt"], flags=re.M):
        if f"pub mod {module};" not in texts["lib.rt"]:
            roots += [it.strip() for it in (names or module).split(",") if it.strip()]
        elif module != "laws":
            found = [it for it in source_of(texts[f"{module}.rt"]).items().values() if "::" not in it]
            paths.append(f"`{crate}::{module}::{{{', '.join(found)}}}`")
            types += found
    paths, types = [f"`{crate}::{{{', '.join(roots)}}}`", *paths], roots + types
    every = "\n".join(texts.values())
    derived = {it: re.search(rf"((?:^#\[.*\]\n)*)^pub (?:struct|enum) {it}\b", every, flags=re.M) for it in types}
    copied = [f"`{it}`" for it, found in derived.items() if found and re.search(r"\bCopy\b", found[1])]
    others = [f"`{it}`" for it, found in derived.items() if found and not re.search(r"\bCopy\b", found[1])]
    lines = ["## Items", "", f"{', '.join(paths)}, and the laws in `{crate}::laws`.", ""]
    for it in types:
        body = re.search(rf"^pub enum {it}\b[^{{]*\{{\n(.*?)^\}}", every, flags=re.M | re.S)
        if body:
            variants = re.sub(r"\s*(///|#\[|//)[^\n]*", "", body[1])
            variants = re.findall(r"^ {4}(\w+(?:\([^)]*\)| \{[^}]*\})?)", variants, flags=re.M)
            lines += [f"`{it}` is " + ", ".join(f"`{re.sub(r',? *}', ' }', ' '.join(v.split()))}`" for v in variants) + ".", ""]
    lines += [f"`Copy`: {', '.join(copied)}. Not `Copy`: {', '.join(others)}." if copied else "No type is `Copy`.", ""]
    return "\n".join(lines)


def callers(path, names):
    """Returns what the section on callers says of some functions of a file of rsc_uses, after what they name of the same file, and says which have a proof file."""
    text = (ROOT / "crates/rsc_uses/src" / path).read_text(encoding="utf-8")
    lines = {name: line for line, name in source_of(text).items().items() if text.startswith(("pub fn ", "pub trait "), line)}
    shown = {}

    def add(name):
        quoted = text[above(text, lines[name]) : text.index("\n}", lines[name]) + 2]
        for other in lines:
            if other != name and other not in shown and re.search(rf"(?<![.\w]){other}\b", re.sub("^///.*$", "", quoted, flags=re.M)):
                add(other)
        shown.setdefault(name, quoted)

    for name in names:
        if name not in lines:
            raise ValueError(f"crates/rsc_uses/src/{path} has no public function {name}, which a line `<!-- callers: .. -->` names")
        add(name)
    quoted = "\n\n".join(shown.values())
    folder = f"crates/rsc_uses/proofs/{path.removesuffix('.rt')}"
    proved = [f"`{it}`" for it in shown if (ROOT / folder / it).exists()]
    others = "; the others need none" if len(proved) < len(shown) else ""
    files = f"Their proof files are in `{folder}`: {', '.join(proved)}{others}." if proved else "None needs a proof file."
    used = imports(path, quoted)
    own = " To copy one, copy its proof file, and what both name of `Rattle.rsc_uses`, too." if proved or "Rattle.rsc_uses." in used else ""
    specs = [ROOT / f"crates/rsc_uses/specs/{it}.antt" for it in re.findall(r"use Rattle\.rsc_uses\.specs\.(\w+)\.", used)]
    defined = "".join(f"\nTheir own definitions, `{it.relative_to(ROOT)}`:\n\n```text\n{without_imports(it)}```\n" for it in specs)
    first = f"From `crates/rsc_uses/src/{path}`, proved from the contracts below alone. {files}{own}"
    loops = [ROOT / folder / it / "Invariants.antt" for it in shown if (ROOT / folder / it / "Invariants.antt").exists()]
    invariants = "".join(f"\nThe invariant of a loop, `{it.relative_to(ROOT)}`:\n\n```text\n{it.read_text(encoding='utf-8')}```\n" for it in loops)
    # Of the functions that call a law the one with the shortest proof shows how a law is applied by hand.
    answers = [ROOT / folder / it / "Answers.antt" for it in shown if "laws::" in shown[it] and (ROOT / folder / it / "Answers.antt").exists()]
    shortest = min((it.read_text(encoding="utf-8") for it in answers), key=len, default="")
    by_hand = next((f"\nA law is applied by hand in `{it.relative_to(ROOT)}`:\n\n```text\n{shortest}```\n" for it in answers if it.read_text(encoding="utf-8") == shortest), "")
    return f"{first}\n\n```rust\n{used}\n\n{quoted}\n```\n{defined}{invariants}{by_hand}"


def without_imports(path):
    """Returns the definitions of a file of specs/."""
    return re.sub(r"\A--.*\n(?:use .*\n)*\n*", "", path.read_text(encoding="utf-8"))


def imports(path, quoted):
    """Returns what a file of rsc_uses brings in, without the names that the quoted callers don't use."""
    text = (ROOT / "crates/rsc_uses/src" / path).read_text(encoding="utf-8")
    quoted = re.sub(r"^///.*$", "", quoted, flags=re.M)
    kinds = {"ghost ": [], "": []}
    for kind, source, group, names, alias in re.findall(r"^(ghost |)use ([^{};]+?)(\{([^}]*)\}| as (\w+)|);$", text, flags=re.M):
        brought = names.replace("\n", " ").split(",") if group.startswith("{") else [alias or source.rpartition("::")[2]]
        used = [it.strip() for it in brought if it.strip() and re.search(mentioned(it), quoted)]
        if used:
            is_single = len(used) == 1 and not kind
            names = used[0] if is_single else f"{{{', '.join(used)}}}"
            kinds[kind].append(f"{kind}use {source}{names if group.startswith('{') else group};")
    return "\n".join([*kinds["ghost "], "", *kinds[""]])


def mentioned(name):
    """Returns a pattern of where a name is used: an operator by its first sign, another one as a whole.

    >>> [bool(re.search(mentioned(name), "a ≤ length b")) for name in ("◌≤◌", "◌<◌", "length", "leng")]
    [True, False, True, False]
    """
    here = name.split(" as ")[-1].strip()
    sign = here.replace("◌", " ").split()[0]
    return re.escape(sign) if here != sign and not sign.isalpha() else rf"(?<!\w){re.escape(sign)}(?!\w)"


NOTATION = """In a clause `x.now` is the value behind a `&`; `x.old` and `x.new` are that behind a `&mut`, before and after the call; `x.entry` is an argument as it was
passed. The pages that `rt doc` leads to have the rest.
"""


def page(crate, text):
    mark = MARK.search(text)
    if not mark:
        raise ValueError(f"crates/{crate}/CALLING.md lacks a line `<!-- callers: FILE FUNCTION ..; FILE FUNCTION .. -->`")
    laws = (ROOT / "crates" / crate / "src/laws.rt").read_text(encoding="utf-8")
    law = next(iter(source_of(laws).items().values()))
    listed = names_of_specs(crate, cited()[crate])
    module, name = re.search(r"^\| `(\w+)\.([^`]+)` \|", listed, flags=re.M).groups()
    laws = LAWS.format(crate=crate, law=law, module=module, name=name)
    quoted = "\n".join(callers(path, names) for path, *names in map(str.split, mark[1].split(";")))
    return text[: mark.end()] + "\n" + "\n".join([NOTATION, items(crate), "## Callers\n", quoted, laws, contracts(crate), listed])


HEAD = """# The public calls

Written by `gate/pages.py --write`. Each row is a public call, or an impl of a trait that promises something, with a link to its source file: the names of the
clauses of its contract (`ensures` for one without a name), which CALLING.md of the crate quotes; a test whose text makes the call, itself or by a function of
its crate that it calls (it need not be about that call); and a wrong body that the prover refuses in that very function (of several the first, with their number), or in one that it calls,
which is named then: at one of its goals at least, not at each clause. A law is a public function with an empty body, whose contract is a lemma; its wrong body
is another statement, or an edit of the constant or the impl that it speaks of.

`gate/typed.py` finds the test: of the crate's own tests, of `rsc_docs`, `rsc_uses_tests` or of other crates' tests, a `must-run` snippet among them. It names one only where the
text and the declared types of parameters and results tell which call it is, so an empty cell says that none was found so, not that there is none: tests that
show a value, or ask what a closure gets or a pattern takes out, are often left out. Where no test is found but a function of another crate makes the call,
itself or by one of its crate, that is named, as *proved* (maybe to be safe alone). Many laws are called by nothing here: they say what a derived trait does, or
are for proofs of yours.
"""


def callers_by_crate():
    """Returns for each crate the functions that may call a library: whether each is a test, where it stands, and its calls."""
    found = {}
    for crate in re.findall(r"^(rsc_\w+)", (ROOT / "crates.txt").read_text(encoding="utf-8"), flags=re.M):
        for file in files(crate):
            for it in file.functions:
                if it.is_test or it.start < it.end and not crate.endswith("_tests"):
                    where = "::".join([*(part for part in file.module if part != "tests" or file.module == ["tests"]), it.name])
                    found.setdefault(crate, []).append((it.is_test, f"{crate}: {where}", calls_of(it)))
    # Tests of time and memory come last.
    return {crate: sorted(them, key=lambda it: bool(re.search(r": (cost|memory|requests)::", it[1]))) for crate, them in found.items()}


def caller_of(crate, callers, call):
    """Returns the cell of a call: a test that makes it, of the library's own first, or else another crate's function."""
    others = [it for it in callers if it not in (crate, f"{crate}_tests", "rsc_uses", "rsc_uses_tests", "rsc_docs")]
    for is_test, mark in ((True, ""), (False, "*proved* ")):
        for of in (f"{crate}_tests", "rsc_docs", "rsc_uses_tests", "rsc_uses", *others):
            for tests, where, made in callers.get(of, ()):
                if tests == is_test and call in made:
                    return f"{mark}`{where}`"
    return ""


def bodies_of(crate):
    """Returns the names of a crate's wrong bodies by the function that is refused: its type and name, or for a trait's impl type, trait and name."""
    found = {}
    for path in sorted((ROOT / "crates" / crate / "wrong-bodies").glob("**/*.edits")):
        for name, fields, _ in edits_in(path, ("refused", "apart", "also")):
            function = re.match(r"[\w:]+(?=: )", fields["refused"])
            if function:
                found.setdefault("::".join(function[0].split("::")[-2:]), []).append(name)
    return found


def bodies_below(path, body, bodies):
    """Returns the wrong bodies of the first function that a body calls and that has some: of its own file, or of the one type with such a method."""
    for of, dot, name in re.findall(r"(?:\b(\w+)(?:::<[^()]*>)?::|(\.)|\b)(\w+)(?:::<[^()]*>)?\(", body):
        keys = [it for it in bodies if it.endswith(f"::{name}")] if dot else [f"{of or path.stem}::{name}"]
        if len(keys) == 1 and keys[0] in bodies:
            return [f"{it}` of `{keys[0]}" for it in bodies[keys[0]]]
    return []


# By this comment a body says why no other one has its type.
NONE = "// No wrong body: "


def rows(crate, callers):
    """Yields the row of each call of a crate, and of each impl that promises something."""
    bodies = bodies_of(crate)
    for path, text in sources(crate):
        for it in source_of(text).functions:
            if not it.is_pub or not is_exported(crate, path, it):
                continue
            owner = head(it.owner.name)
            call = f"{owner or path.stem}::{it.name}"
            clauses = [name or "ensures" for name in re.findall(r"^\s*ensures\*? (\w*) ?\{", it.signature, flags=re.M)]
            made = ("call", owner, it.name) if owner else ("fn", crate, it.name)
            refused = bodies.get(call) or (bodies_below(path, text[it.start : it.end], bodies) if path.stem != "laws" else [])
            if not refused and NONE not in text[it.start : it.end]:
                raise ValueError(f"{call} has no wrong body")
            yield row(crate, path, call.removeprefix("lib::"), clauses, caller_of(crate, callers, made), refused)
        for impl, kept in promises(text):
            trait, with_what, of = re.match(r"(?:\w+::)*(\w+)(?:<(.*)>)? for (\w+)", impl).groups()
            # The checker names an impl by its type, its trait and the types in their brackets, as `SpanFromRangeUsize`.
            other = re.match(r"(?:&'\w+ \[)?(\w+)", with_what)[1] if with_what else None
            prefix = rf"{of}\w*{trait}" + (rf"\w*{other[0].upper()}{other[1:]}" if other else "") + r"\w*::"
            found = [name for function, names in bodies.items() if re.match(prefix, function) for name in names]
            made = ("trait", trait, of, other) if other else ("trait", trait, of)
            if not found:
                raise ValueError(f"{impl} has no wrong body")
            yield row(crate, path, impl, [it.partition(" ")[0] for it in kept], caller_of(crate, callers, made), found)


def row(crate, path, call, clauses, caller, bodies):
    wrong = f"`{bodies[0]}`" + (f" (of {len(bodies)})" if len(bodies) > 1 else "") if bodies else ""
    return f"| [`{call}`](../crates/{crate}/src/{path.as_posix()}) | {', '.join(f'`{it}`' for it in clauses)} | {caller} | {wrong} |"


def calls(crates):
    """Returns docs/CALLS.md."""
    lines, callers = [HEAD], callers_by_crate()
    for crate in crates:
        found = [*rows(crate, callers)]
        laws = sum("`laws::" in it for it in found)
        untested = sum(it.split(" | ")[2].strip() == "" and "`laws::" not in it for it in found)
        lines += [f"## `{crate}`", "", f"{len(found)} rows, {laws} of them laws; for {untested} of the others no test was found.", ""]
        lines += ["| Call | Clauses | Test | Wrong body |", "|---|---|---|---|", *found, ""]
    return "\n".join(lines)
