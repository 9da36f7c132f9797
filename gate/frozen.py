"""What released versions promise to keep: the calls and clauses of docs/CALLS.md, and the definitions that stay by each CALLING.md, with the fields of their
records. gate/pages.py imports it, and refuses what a version has, by its tag, and the repository lacks."""
import re
import subprocess

from calling import ROOT
from typed import LIBRARIES


def calls_promised(text):
    """Returns each clause of each call of docs/CALLS.md.

    >>> sorted(calls_promised("| [`Span::len`](../crates/rsc_search/src/span.rt) | `value`, `most` |  | `a_body` |\\n"))
    ['rsc_search: clause `most` of `Span::len`', 'rsc_search: clause `value` of `Span::len`']
    """
    rows = re.findall(r"^\| \[`([^`]+)`\]\(\.\./crates/(\w+)/[^)]*\) \| ([^|]*) \|", text, flags=re.M)
    return {f"{crate}: clause `{clause}` of `{call}`" for call, crate, clauses in rows for clause in re.findall(r"`(\w+)`", clauses)}


def definitions_promised(crate, text):
    """Returns each definition of the first table of a CALLING.md, and each field of its records.

    >>> page = "Contracts cite these.\\n\\n| `Ends.Ends` | two ends (a record: `start : ℕ`, `end`) |\\n\\nThese serve proofs.\\n\\n| `Laws.same` | a lemma |\\n"
    >>> sorted(definitions_promised("low", page))
    ['low: `Ends.Ends`', 'low: field `end` of `Ends.Ends`', 'low: field `start` of `Ends.Ends`']
    """
    rows = re.findall(r"^\| `(\S+)` \| (.*) \|$", re.split(r"^(?:Of these|These serve)", text, flags=re.M)[0], flags=re.M)
    fields = {(name, field) for name, said in rows for field in re.findall(r"`(\w+)(?: :[^`]*)?`", "".join(re.findall(r"\(a record: (.*)\)$", said)))}
    return {f"{crate}: `{name}`" for name, _ in rows} | {f"{crate}: field `{field}` of `{name}`" for name, field in fields}


def promised(read):
    """Returns what a version promises, by a function that reads its files."""
    pages = [definitions_promised(crate, read(f"crates/{crate}/CALLING.md")) for crate in LIBRARIES]
    return calls_promised(read("docs/CALLS.md")).union(*pages)


def git(*arguments):
    return subprocess.run(["git", "-C", ROOT, *arguments], capture_output=True, encoding="utf-8").stdout


def frozen_faults():
    """Yields for each tag of a version what it promises and the repository lacks."""
    now = promised(lambda path: (ROOT / path).read_text(encoding="utf-8"))
    for tag in git("tag", "--list", "v*", "--merged").split():
        yield [f"{it} is promised since {tag}" for it in sorted(promised(lambda path: git("show", f"{tag}:{path}")) - now)]
