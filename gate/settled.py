"""The names of clauses that are settled (CONTRIBUTING.md, 'What a new public call needs'): which names a clause may have by what it says. gate/pages.py imports
it."""
import collections
import re

from calling import ROOT, sources
from heads import source_of
from typed import LIBRARIES

# What a clause begins with, and the names that it may have if it isn't alone.
SETTLED = (
    (r"IfErr result ", ("refused", "fails")),
    (r"OnErr result \((\w+)\.new ≡ \1\.old\)|¬ \(IsTrue result\) → (\w+)\.new ≡ \2\.old|(\w+)\.new ≡ \3\.old", ("kept",)),
    (r"result ≡ (?!\S+ →)|(?:self|set)\.new ≡ sets\.", ("value", "added")),
    (r"\((\w+) : \w+\) → (?:\w+ < 256 → )?sets\.contains (?:result|self\.new|set\.new) \1 ≡ (?!true →)", ("members",)),
    (r"IsIndex (?:result|self\.now)$", ("within",)),
    (r"LastClassIsGreatest result$", ("bounded",)),
    (r"IsTrue result ↔", ("value", "accepted")),
    (r"(?:length )?captures\.new\.(?:groups|pattern|offsets) ≡ (?:length )?captures\.old\.", ("kept_groups", "kept_pattern", "kept_slots")),
    (r"IfOk result \(λ found\. IfNone found \(IsCleared ", ("cleared",)),
    (r"OnErr result \(IsCleared ", ("cleared_by_error",)),
    (r"(?:OnErr result \()?(\w+)_of self\.new ≡ \1_of self\.old", ("kept_groups", "kept_limit", "kept_patterns")),
)


def clauses_of(signature, kind="ensures"):
    """Returns the clauses of a kind of a signature: the name, or none, and what it says.

    >>> clauses_of("fn one()\\n    requires { a }\\n    ensures { b }\\n    ensures c { d\\n        e }")
    [('', 'b'), ('c', 'd e')]
    """
    found = [re.match(kind + r"\*? ?(\w*) \{ (.*) \}$", " ".join(it.split())) for it in re.split(r"\n +(?=ensures|requires)", signature.strip())[1:]]
    return [it.groups() for it in found if it]


def unsettled(signature):
    """Yields the names of clauses that say what has a settled name under another one, with that name.

    >>> [*unsettled("fn one()\\n    ensures it { result ≡ 1 }\\n    ensures most { result < 2 }"), *unsettled("fn one()\\n    ensures { result ≡ 1 }")]
    [('it', 'value or added')]
    """
    clauses = clauses_of(signature)
    for name, said in clauses:
        for begins, names in SETTLED:
            if re.match(begins, said) and name not in names and len(clauses) > 1:
                yield name, " or ".join(names)
                break


def clause_faults():
    """Yields for each source of a library the clauses of its functions that have another name than the settled one."""
    for crate in LIBRARIES:
        for path, text in sources(crate):
            found = [(it.name, *fault) for it in source_of(text).functions for fault in unsettled(it.signature)]
            yield [f"{crate}/src/{path}: a clause of `{it}` is called `{name}` instead of `{settled}`" for it, name, settled in found]


def twice_named():
    """Yields, in one list, for each clause that public functions of the libraries state to the letter under several names these names and the clause, of `ensures` and of
    `requires`."""
    found = collections.defaultdict(set)
    for crate in LIBRARIES:
        for _, text in sources(crate):
            for it in source_of(text).functions:
                for kind in ("ensures", "requires") if it.is_public else ():
                    clauses = clauses_of(it.signature, kind)
                    for name, said in clauses if len(clauses) > 1 else ():
                        found[kind, said].add(name)
    yield [f"{' and '.join(sorted(names))} are names of one clause: {kind} {said}" for (kind, said), names in found.items() if len(names) > 1]


def name_faults():
    """Yields for each crate with definitions the names that two files of its specs/ have."""
    for folder in sorted((ROOT / "crates").glob("*/specs")):
        found = collections.defaultdict(list)
        for file in sorted(folder.glob("**/*.antt")):
            for name in re.findall(r"^(?:abbrev |unfoldable )*pub (?:record |data )?(?!mod )([^\s:]+)", file.read_text(encoding="utf-8"), flags=re.M):
                found[name].append(file.stem)
        yield [f"{folder.parent.name}: {' and '.join(files)} have a definition called `{name}`" for name, files in found.items() if len(files) > 1]
