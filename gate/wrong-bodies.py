#!/usr/bin/env python3
"""Tries the wrong bodies: each must be refused by the contract of the function that it changes, or a test must fail over it.

    gate/wrong-bodies.py [CRATE ..] [NAME ..]      # the edits of crates/CRATE/wrong-bodies, all crates without a name: a contract must refuse each
    gate/wrong-bodies.py --tested [CRATE ..]       # the edits of crates/CRATE/tested-bodies.edits, which no contract refuses: a test must fail over each
    gate/wrong-bodies.py --tested CRATE NAME ..    # those of them that have these names
    gate/wrong-bodies.py --both [CRATE ..]         # the edits of either kind, side by side
    gate/wrong-bodies.py --texts [CRATE ..]        # tries nothing: says in a second which edits of either kind don't fit the sources
    gate/wrong-bodies.py --after-ci [CRATE ..]     # takes the libraries as the `rt ci` before it left them, instead of building them by `rt lib`
    gate/wrong-bodies.py --beside=FILE ..          # begins beside an `rt ci` which writes to that file, and takes its libraries when they are proved
    gate/wrong-bodies.py --anew ..                 # tries those too that are kept

gate/edits.py explains the format of an edit.

wrong-bodies/FILE.edits has the edits of src/FILE.rt. The fields of an edit are

    refused: span::Span::len: returns    the function that must be refused, without the crate's name, and how the goal begins that must stay unproved
                                         (docs/WRONG_BODIES.md explains the names); several goals are joined by ` and `
    apart: extract_from                  if there: functions that this one calls, whose edits are put into other batches. Of a function that calls a refused
                                         one the checker reports no goal; the edit is then tried again alone, and this saves that second try
    also: set                            if there: functions besides the refused one that the edit changes

`rt ci` tries the edits of crates/CRATE/must-fail one by one, each for the price of a start of the checker, and takes any refusal. Here edits of
different functions are applied together to a copy, and one check of those functions judges them all: it goes on after a refused function. An edit that
isn't refused there is tried again alone. An edit passes only if its function is refused at a goal that begins as named (of a proof by hand, `by hand at `
and the name that is refused); a goal that is refused because a proof file names what the edit took away does not count. `rt ci` proves the crate itself as
it is. A crate's first batch is tried in a copy of the crate, over the libraries that stand in out/. The others are tried side by side, each in a copy of
that one, so what the first check kept of the functions and lemmas that stay as they are is checked once.

What passed whole is kept in out/ at the top, by the checksum of all that it rests on; later runs in that clone say so instead of trying it. (A crate's own
out/ is emptied by `rt ci`.)

A contract says nothing of whether memory is there, of the texts that only tests show, and of what a program reads and writes. gate/tested.py explains
how the edits of tested-bodies.edits are tried.
"""
import collections
import glob
import hashlib
import os
import pathlib
import re
import shutil
import subprocess
import sys
import tempfile

from edits import ROOT, below, crates, edits_in, fault, in_lanes, of_kit, replaced
from heads import source_of
from tested import misfits, tested_edits, tested_tasks, write

Edit = collections.namedtuple("Edit", "name file function goal pairs apart also")


def edits_of(crate, names=()):
    """Returns the edits of a crate, by the source files that they change: those of these names, or all."""
    folder, found = f"{ROOT}/crates/{crate}/wrong-bodies", []
    for path in sorted(glob.glob(f"{folder}/**/*.edits", recursive=True)):
        source = f"src/{os.path.relpath(path, folder).removesuffix('.edits')}.rt"
        for name, fields, pairs in edits_in(path, ("refused", "apart", "also")):
            function, _, goal = fields["refused"].rpartition(": ")
            if not names or name in names:
                found.append(Edit(name, source, function, goal, pairs, fields.get("apart", "").split(), fields.get("also", "").split()))
    return found


def apply(edit, texts, folder):
    """Returns the texts with the edit, or None where a text isn't once in its file."""
    text = replaced(texts.get(edit.file) or pathlib.Path(folder, edit.file).read_text(encoding="utf-8"), edit.pairs)
    return None if text is None else {**texts, edit.file: text}


def are_apart(one, other):
    """Says whether two edits are refused by different functions, neither of which is one on whose proof the other's rests. Two edits that one law refuses
    are not apart: what one changes may leave the other's clause unproved too."""
    ends = [it.function.rpartition("::")[2] for it in (one, other)]
    # The checker names some goals by their line alone, from which the function's last name is read.
    is_same = one.file == other.file and ends[0] == ends[1]
    return not is_same and one.function != other.function and ends[0] not in other.apart and ends[1] not in one.apart


def batches_of(edits, folder):
    """Groups the edits so that those of a group are apart and no two change one text; an edit that fits nowhere makes a group of its own."""
    batches = []
    for edit in edits:
        for batch in batches:
            texts = None if batch[1] is None else apply(edit, batch[1], folder)
            if texts is not None and all(are_apart(edit, it) for it in batch[0]):
                batch[0].append(edit)
                batch[1] = texts
                break
        else:
            batches.append([[edit], apply(edit, {}, folder)])
    return batches


def name_at(path, line, column):
    """Returns the name in a file at a line and a column, both counted from 1."""
    return re.match(r"\w*", pathlib.Path(path).read_text(encoding="utf-8").splitlines()[line - 1][column - 1 :])[0]


def refusals(crate, folder, said):
    """Returns the goals at which each function is refused, from what the checker said; of a proof by hand the name that is refused.

    >>> said = '''fn low::span::Span::len: no proof: expected answers in a file; `search` did not prove `returns-clause-len`, `returns-clause-room`
    ... fn low::span::Span::get: proved
    ... ./proofs/span/Span/get/Answers.antt:3:9: error: `returns-clause-some`: expected another type
    ... ./proofs/span/Span/cut/Answers.antt:3:9: error: `returns`: `c.gone` is not in scope
    ... ./proofs/tree/+part/Answers.antt:3:9: error: `group-returns`: expected another type'''
    >>> {function: sorted(goals) for function, goals in refusals("low", "", said).items()}
    {'span::Span::len': ['returns-clause-len', 'returns-clause-room'], 'span::Span::get': ['returns-clause-some'], 'tree::group': ['group-returns']}
    """
    found = collections.defaultdict(set)
    for line in said.splitlines():
        at_function = re.match(rf"fn {crate}::(\S+): (?:no proof|not proved)(.*)", line)
        if at_function:
            unproved = re.search(r"`search` did not prove ((?:`[^`]+`(?:, )?)+)", at_function[2])
            found[at_function[1]].update(re.findall(r"`([^`]+)`", unproved[1]) if unproved else [])
        in_file = re.match(r"(?:\./)?(proofs/(.+)/(Answers|Proof)\.antt):(\d+):(\d+): error: `([^`]+)`: (.*)", line)
        if in_file and not re.search(r"has no field|is not in scope|has no `|was not admitted|no module", in_file[7]):
            by_hand = in_file[3] == "Proof" and f"by hand at {name_at(f'{folder}/{in_file[1]}', int(in_file[4]), int(in_file[5]))}"
            # The file of a cycle of calls has the goals of all its functions, each below the function's name.
            names = re.sub(r"\+\w+$", in_file[6].partition("-")[0], in_file[2])
            found[names.replace("/", "::")].add(by_hand or in_file[6])
        # Where a proof file is refused too, the goals of the exits stand in notes of their own.
        at_exit = re.match(r"note: (src/\S+?):(\d+):\d+: it is not proved that [^(]*\(`([^`]+)`\)", line)
        if at_exit:
            found[at_exit[1], function_at_line(f"{folder}/{at_exit[1]}", int(at_exit[2]))].add(at_exit[3])
    return found


def function_at_line(path, line):
    """Returns the name of the function that a line of a source file is in, or is an attribute of, if there is one."""
    text = pathlib.Path(path).read_text(encoding="utf-8")
    lines = text.splitlines(keepends=True)
    start, end = sum(map(len, lines[: line - 1])), sum(map(len, lines[:line]))
    return next((it.name for it in reversed(source_of(text).functions) if it.begin < end and start <= it.end), "")


def rattle_check(crate, known, folder, functions):
    """Checks functions of a crate in a folder over the libraries in out/, as `rattle check --help` explains, which keeps there what it found of others."""
    kit = os.path.dirname(subprocess.run(["rt", "doc"], stdout=subprocess.PIPE, encoding="utf-8", check=True).stdout.strip())
    rlibs = {it: f"{kit}/rlibs/{it}.rlib" for it in ["std", *of_kit(crate)]} | {it: f"{ROOT}/crates/{it}/out/rlib/{it}.rlib" for it in known[crate]}
    options = [it for name, rlib in rlibs.items() for it in ("--extern", f"{name}={rlib}")]
    for path in sorted({f"{kit}/rlibs", *(f"{ROOT}/crates/{it}/out/rlib" for it in below(crate, known) - {crate})}):
        options += ["-L", f"dependency={path}"]
    options += ["--antt-project", f"{kit}/rattle/logic/antt-project.json", "--logic-built", f"{kit}/logic_built", "--incremental", "out/incremental"]
    options += [it for function in functions for it in ("--only", function)]
    # The first batch of the largest crate takes longest of all, and the others wait for it.
    jobs = "2" if len(functions) > 100 else "1"
    root = "src/main.rt" if os.path.exists(f"{folder}/src/main.rt") else "src/lib.rt"
    ran = subprocess.run([f"{kit}/bin/rattle", "check", "--crate-name", crate, *options, "--jobs", jobs, root], cwd=folder, stdin=subprocess.DEVNULL,
                         stdout=subprocess.PIPE, stderr=subprocess.STDOUT, encoding="utf-8", errors="replace")
    return ran.returncode, ran.stdout


def judge(crate, known, folder, batch, texts, is_told):
    """Checks the crate with a batch of edits, and returns for each whether it passed, and a line that says so; before them what the check said, if that is
    told."""
    if texts is None:
        return [(False, f"{crate}/{it.name}: BAD EDIT: an old text isn't once in {it.file}") for it in batch]
    kept = {path: pathlib.Path(folder, path).read_text(encoding="utf-8") for path in texts}
    write(folder, texts)
    status, said = rattle_check(crate, known, folder, [it.function for it in batch])
    found = refusals(crate, folder, said)
    if is_told:
        print(said)
    write(folder, kept)
    return [verdict(crate, it, status, said, found) for it in batch]


def verdict(crate, edit, status, said, found):
    """Returns whether an edit passed, and a line that says so, from the checker's status, what it said, and the refusals in that.

    >>> edit = Edit("half", "src/span.rt", "span::Span::len", "returns-clause-len", [], [], [])
    >>> verdict("low", edit, 1, "", {"span::Span::len": {"returns-clause-len"}})
    (True, 'low/half: refused by span::Span::len, returns-clause-len')
    >>> verdict("low", edit, 1, "", {"span::Span::len": {"returns-clause-room"}})
    (False, 'low/half: NOT REFUSED by span::Span::len at returns-clause-len; what that function leaves unproved: returns-clause-room')
    >>> verdict("low", edit, 0, "only=1 proved=1", {})
    (False, 'low/half: NOT REFUSED by span::Span::len at returns-clause-len; what that function leaves unproved: nothing')
    >>> verdict("low", edit, 1, "src/span.rt:3:1: error: expected a type", {})
    (False, 'low/half: NOT JUDGED, the check stopped before the proofs: src/span.rt:3:1: error: expected a type')
    """
    goals = sorted({*found.get(edit.function, ()), *found.get((edit.file, edit.function.rpartition("::")[2]), ())})
    if status == 1 and all(any(goal.startswith(wanted) for goal in goals) for wanted in edit.goal.split(" and ")):
        return True, f"{crate}/{edit.name}: refused by {edit.function}, {', '.join(goals)[:120]}"
    if status and not found:
        return False, f"{crate}/{edit.name}: NOT JUDGED, the check stopped before the proofs: {last_line(said)}"
    unproved = ", ".join(goals) or "nothing"
    return False, f"{crate}/{edit.name}: NOT REFUSED by {edit.function} at {edit.goal}; what that function leaves unproved: {unproved}"


def last_line(said):
    return (said.strip().splitlines() or ["no output"])[-1][:200]


def build(crate):
    """Builds a library for the crates above it, over what earlier checks kept, and returns why it can't, if so."""
    ran = subprocess.run(["rt", "lib"], cwd=f"{ROOT}/crates/{crate}", stdin=subprocess.DEVNULL, stdout=subprocess.PIPE, stderr=subprocess.STDOUT,
                         encoding="utf-8", errors="replace")
    return f"{crate}: NOT PROVED as it is: {last_line(ran.stdout)}" if ran.returncode else ""


def is_of_ci(crate):
    """Says whether the library in out/ is one that `rt ci` built: those of `rt lib` have a stamp."""
    out = f"{ROOT}/crates/{crate}/out/rlib"
    return os.path.isdir(f"{out}/{crate}.rlib") and not os.path.exists(f"{out}/stamp")


def try_batch(crate, known, batch, texts, room, number, is_told, fault):
    """Tries a batch of a crate's edits in a copy of the crate, to which the first one, number 0, leaves what it checked; returns the results, each with its
    line."""
    if fault:
        return [(False, f"{fault}, so {crate}/{it.name} isn't tried") for it in batch]
    results, first, folder = [], f"{room}/{crate}-0", f"{room}/{crate}-{number}"
    shutil.copytree(first if number else f"{ROOT}/crates/{crate}", folder, ignore=None if number else shutil.ignore_patterns("out", "wrong-bodies"))
    for it, result in zip(batch, judge(crate, known, folder, batch, texts, is_told)):
        # What another edit leaves unproved may hide that this one is refused, so it is tried again alone.
        alone = not result[0] and len(batch) > 1
        results.append(judge(crate, known, folder, [it], apply(it, {}, folder), is_told)[0] if alone else result)
    if number:
        shutil.rmtree(folder)
    return results


def faults(crate, names):
    """Yields a line for each of these edits of a crate that doesn't fit its source file."""
    for it in edits_of(crate, names):
        source = pathlib.Path(ROOT, "crates", crate, it.file)
        text = source.read_text(encoding="utf-8") if source.exists() else ""
        found = fault(text, it.pairs, [it.function.rpartition("::")[2], *it.also]) if it.goal else "names no goal"
        if found:
            yield f"{crate}/{it.name}: BAD EDIT of {it.file}: {found}"


def ready_beside(path):
    """Returns what says which tasks may begin beside `rt ci`, by what it writes to a file, in which `ended` is the last line: those over libraries that it
    has proved, or that it keeps from an earlier run. A test that fails by its time begins after it."""
    def ready():
        said = pathlib.Path(path).read_text(encoding="utf-8", errors="replace")
        if said.endswith("\nended\n"):
            return None
        proved = {*re.findall(r"^rt: (\w+) (?:proved$|is kept:)", said, flags=re.M)}
        return lambda key: key[0] == "wrong-bodies" or key[0] == "library" and key[1] in proved and is_of_ci(key[1])

    return ready


def refused_tasks(wanted, names, known, room):
    """Returns the tasks of the edits that a contract must refuse: those of libraries and of each crate's first batch, and those of the other batches."""
    needed = set().union(*(below(it, known) - {it} for it in wanted))
    if "--after-ci" in sys.argv and all(is_of_ci(it) for it in needed):
        needed = set()
    is_beside = any(it.startswith("--beside=") for it in sys.argv)
    first = {("library", it): ([("library", low) for low in known[it]], lambda given, it=it: "" if is_beside and is_of_ci(it) else build(it))
             for it in known if it in needed}
    libraries, others = set(first), {}
    # Those of the crates that take longest begin first.
    for crate in reversed(wanted):
        waits = [("library", it) for it in below(crate, known) if ("library", it) in libraries]
        for number, (batch, texts) in enumerate(batches_of(edits_of(crate, names), f"{ROOT}/crates/{crate}")):
            def call(given, its=(crate, known, batch, texts, room, number, bool(names)), waits=waits):
                return try_batch(*its, next(filter(None, map(given.get, waits)), ""))

            key = "wrong-bodies", crate, number
            (others if number else first)[key] = waits + [("wrong-bodies", crate, 0)] * (number > 0), call
    return first, others


def state_of(kind, crate, known, tested):
    """Returns a checksum of all that the edits of a kind of a crate rest on: the toolchain, the scripts that try them, the crate and those below it
    but their edits, and, of edits over which a test must fail, the crates of the tests."""
    others = {it[2]["tests"] for it in tested if it[0] == crate and "tests" in it[2]} if kind == "tested-bodies" else set()
    folders = sorted({low for it in {crate, *others} for low in below(it, known)})
    scripts = ("edits", "wrong-bodies", *(("tested", "stored-runs") if kind == "tested-bodies" else ("heads",)))
    found = hashlib.sha256(subprocess.run(["rt", "version"], stdout=subprocess.PIPE, check=True).stdout)
    files = [pathlib.Path(ROOT, "gate", f"{it}.py") for it in scripts]
    for folder in (pathlib.Path(ROOT, "crates", it) for it in folders):
        # What is tried of a crate below says nothing of this one.
        left_out = {"out"} | ({"wrong-bodies", "tested-bodies.edits"} if folder.name != crate else set())
        files += [it for it in sorted(folder.rglob("*")) if it.is_file() and not left_out & {*it.relative_to(folder).parts} and it.suffix != ".md"]
    for path in files:
        found.update(str(path.relative_to(ROOT)).encode() + b"\0" + path.read_bytes() + b"\0")
    return found.hexdigest()


def kept_file(kind, crate):
    """Returns the file that has the state in which all edits of the kind passed."""
    return pathlib.Path(ROOT, "out", f"{crate}-{kind}-passed")


def try_new(kinds, wanted, names, known, tested):
    """Tries the edits of these kinds but those of crates of which all have passed in this state; keeps a crate's state when all of a kind have passed; counts
    as `try_all` does."""
    its = {"wrong-bodies": {it: len(edits_of(it, names)) for it in wanted}, "tested-bodies": collections.Counter(it[0] for it in tested)}
    states = {(kind, crate): state_of(kind, crate, known, tested) for kind in kinds for crate in its[kind] if not names}
    kept = {it for it, state in states.items() if "--anew" not in sys.argv and kept_file(*it).exists() and kept_file(*it).read_text() == state}
    for kind, crate in sorted(kept):
        print(f"{crate}: {its[kind][crate]} {kind} have passed in this state")
    left = {(kind, crate): count for kind in kinds for crate, count in its[kind].items()}

    def told(kind, crate, is_well):
        left[kind, crate] -= is_well
        if not left[kind, crate] and (kind, crate) in states:
            kept_file(kind, crate).parent.mkdir(exist_ok=True)
            kept_file(kind, crate).write_text(states[kind, crate])

    others = [it for it in wanted if ("wrong-bodies", it) not in kept]
    counts = try_all(kinds, others, names, known, [it for it in tested if ("tested-bodies", it[0]) not in kept], told)
    for kind, crate in kept:
        counts[kind][0] += its[kind][crate]
    return counts


def try_all(kinds, wanted, names, known, tested, told):
    """Tries the edits of these kinds; prints a line for each, tells of each whether it passed, and counts those of each kind that passed and that failed."""
    counts = {kind: [0, 0] for kind in kinds}
    with tempfile.TemporaryDirectory(prefix="wrong-bodies-") as room:
        first, others = refused_tasks(wanted, names, known, room) if "wrong-bodies" in kinds else ({}, {})
        among = tested_tasks(tested, room) if "tested-bodies" in kinds else {}
        beside = [it.partition("=")[2] for it in sys.argv if it.startswith("--beside=")]
        for (kind, crate, *_), results in in_lanes(first | others | among, *map(ready_beside, beside)):
            for is_well, line in results if kind in kinds else ():
                print(line, flush=True)
                counts[kind][not is_well] += 1
                told(kind, crate, is_well)
    return counts


def main():
    known = crates()
    given = [it for it in sys.argv[1:] if not it.startswith("--")]
    named, names = [it for it in given if it in known], [it for it in given if it not in known]
    wanted = [it for it in known if (not named or it in named) and edits_of(it, names)]
    tested = tested_edits(named, names)
    if names and not (wanted or tested):
        sys.exit(f"no crate and no edit is called {names[0]}")
    unfit = {"wrong-bodies": [line for it in wanted for line in faults(it, names)], "tested-bodies": misfits(tested)}
    if any(unfit.values()) or "--texts" in sys.argv:
        for kind, count in (("wrong-bodies", sum(len(edits_of(it, names)) for it in wanted)), ("tested-bodies", len(tested))):
            print(*unfit[kind], f"{kind}: {count - len(unfit[kind])} fit, {len(unfit[kind])} failed", sep="\n")
        return 1 if any(unfit.values()) else 0
    kinds = ["wrong-bodies", "tested-bodies"] if "--both" in sys.argv else ["tested-bodies"] if "--tested" in sys.argv else ["wrong-bodies"]
    if given:
        kinds = [it for it in kinds if (wanted if it == "wrong-bodies" else tested)]
    if not kinds:
        sys.exit(f"no edits of this kind: {' '.join(given)}")
    counts = try_new(kinds, wanted, names, known, tested)
    for kind, (passed, failed) in counts.items():
        print(f"{kind}: {passed} passed, {failed} failed")
    return 1 if any(failed or not passed for passed, failed in counts.values()) else 0


if __name__ == "__main__":
    sys.exit(main())
