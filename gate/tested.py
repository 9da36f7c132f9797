"""Tries wrong bodies that no contract refuses: over each a test must fail, or a run of the program must go otherwise. gate/wrong-bodies.py calls it.

The edits stand in crates/CRATE/tested-bodies.edits; gate/edits.py explains the format. The fields of one are `file`, the source file that it changes, and

    tests: rsc_search_tests              the crate whose tests must fail
    modules: shown sizes::long_names     the test modules that are compiled and run, `tests` for what stands in tests.rt itself, or of a module some tests
                                         alone; without it all but those of cost, which take long
    snippet: memory lists_are_dropped    if there: a snippet of that crate's must-run, and its test that is run instead of the crate's
    refused: `x` does not live           if there: what the compiler must say of the snippet's test instead
    seconds: 240                         the time that each test has, 240 seconds unless it's there; without the edit it must pass within it, or on
                                         a busy machine within four times as long
    runs: looks Start -- ''              instead of tests: the arguments, with \\xHH for bytes, of a plain stored run (gate/stored-runs.py), which must write
                                         something else or end with another status; or files of runs/, as `looks.txt`, or `all`: one of these runs must
    runs: refused 3: calls               or the stored run of these arguments of which the third request for memory is refused
    also: src/span.rt: start: usize ⇒ pub(crate) start: usize      if there: a private field of another file that it needs

Each is compiled and run without a proof, in a copy of the repository. It passes if a test fails, or if the tests don't compile because a type lacks a
trait, or as it says. The compiler takes 20 seconds for the toolchain's library alone, so a crate's edits are compiled together: edit 3 of a part of those of
`rsc_search` as a crate `rsc_search_3`, with its tests in a module `v3`, and edits of a program as modules of one program, which writes to standard output
what they write to standard error. For each edit a stored run takes a quarter of a second, and more in a larger program, so an edit of a program with
many runs names the one that refuses it. Edits that give their tests less time are compiled together too, eight at once. The edits with a snippet or with
refused memory are tried alone: the first took longer together, and in a joined program other requests for memory would come before the one that is refused.
"""
import os
import pathlib
import queue
import re
import shlex
import shutil
import subprocess
import tempfile

from edits import ROOT, edits_in, replaced, run_unproved
from runs import answer_where_refused, goes_as_stored, refused_at, runs_of, unescaped

FIELDS = ("file", "tests", "modules", "snippet", "refused", "seconds", "runs", "also")
IN_ONE = 50
TIMED_IN_ONE = 8
UNTIMED = "240"


def tested_edits(wanted, names=()):
    """Returns the edits of these crates that a test must fail over, or of all crates, and of these names, or all: crate, name, fields and pairs."""
    found = []
    for crate in sorted(os.listdir(f"{ROOT}/crates")):
        path = f"{ROOT}/crates/{crate}/tested-bodies.edits"
        if os.path.exists(path) and (not wanted or crate in wanted):
            found += [(crate, *it) for it in edits_in(path, FIELDS) if not names or it[0] in names]
    return found


def changed(root, crate, fields, pairs):
    """Returns the texts of each source that an edit changes, as it was and as it becomes: None where an old text isn't once in it."""
    changes = [(fields["file"], pairs)]
    if "also" in fields:
        other, _, change = fields["also"].partition(": ")
        changes.append((other, [tuple(change.split(" ⇒ "))]))
    texts = {source: pathlib.Path(root, "crates", crate, source).read_text(encoding="utf-8") for source, _ in changes}
    return {source: (texts[source], replaced(texts[source], its_pairs)) for source, its_pairs in changes}


def misfits(wanted):
    """Returns a line for each edit that doesn't fit its sources."""
    found = []
    for crate, name, fields, pairs in wanted:
        bad = [source for source, (_, after) in changed(ROOT, crate, fields, pairs).items() if after is None]
        found += [f"{crate}/{name}: BAD EDIT: an old text isn't once in {source}" for source in bad]
        named = fields.get("runs", "")
        if named.startswith("refused ") and not stored_run(crate, named):
            found.append(f"{crate}/{name}: BAD EDIT: there isn't one stored run `{named}`")
    return found


def sources_of(crate, root=ROOT):
    """Returns the texts of a crate's sources, by their paths below src."""
    src = pathlib.Path(root, "crates", crate, "src")
    return {str(it.relative_to(src)): it.read_text(encoding="utf-8") for it in sorted(src.rglob("*.rt"))}


def write(folder, texts):
    for path, text in texts.items():
        pathlib.Path(folder, path).parent.mkdir(parents=True, exist_ok=True)
        pathlib.Path(folder, path).write_text(text, encoding="utf-8")


def with_tests(text, wanted):
    """Leaves of the tests of a text these alone, whose names are joined by `|`."""
    return re.sub(rf"^#\[test\]\nfn (?!(?:{wanted})\().*?^\}}\n", "", text, flags=re.M | re.S)


def with_modules(texts, wanted):
    """Leaves of a crate's sources the wanted test modules and tests alone, with the modules that they name, whose own tests are left out; without a list
    all but those of cost, which take long."""
    tests = {pathlib.PurePath(it).stem: it for it in texts if re.match(r"tests(\.rt|/)", it)}
    some = [it.split("::") for it in wanted if "::" in it]
    wanted = [it for it in wanted if "::" not in it] + [module for module, _ in some] if wanted else [it for it in tests if it != "cost"]
    only = {module: "|".join(test for its, test in some if its == module) for module, _ in some}
    kept = list(wanted)
    for module in kept:
        kept += [it for it in re.findall(r"\buse super::(\w+)::", texts[tests[module]]) if it in tests and it not in kept]
    left = {path: text for path, text in texts.items() if path not in tests.values()}
    for module, path in tests.items():
        kept_tests = only.get(module, "" if module in wanted else None)
        text = texts[path] if kept_tests == "" else with_tests(texts[path], kept_tests)
        if module == "tests":
            left[path] = re.sub(r"^(?:pub )?mod (\w+);\n", lambda it: it[0] if it[1] in kept else "", text, flags=re.M)
        elif module in kept:
            left[path] = text
    return left


def as_module(texts, root, number, names):
    """Returns a crate's sources as those of its module `vN`, with other names of crates. Root is the file that the module's own text comes from."""
    found = {}
    for path, text in texts.items():
        text = re.sub(r"\bcrate::", f"crate::v{number}::", re.sub(r"^#!\[.*\n", "", text, flags=re.M) if path == root else text)
        for name, other in names.items():
            text = re.sub(rf"\b{name}\b", other, text)
        found[f"v{number}.rt" if path == root else f"v{number}/{path}"] = text
    return found


def variant_of(copy, crate, number, fields, pairs):
    """Writes the crate with an edit as a crate of its own into a copy of the repository."""
    own = pathlib.Path(copy, "crates", f"{crate}_{number}")
    shutil.copytree(f"{copy}/crates/{crate}", own)
    for source, (_, after) in changed(copy, crate, fields, pairs).items():
        (own / source).write_text(after, encoding="utf-8")
    for path in [it for it in own.rglob("*") if it.suffix in (".rt", ".antt")]:
        path.write_text(re.sub(rf"\b{crate}\b", own.name, path.read_text(encoding="utf-8")), encoding="utf-8")


# The program of several programs, whose first argument says which of them is asked for. They get the others.
MAIN = """
use std::env;
use std::process::ExitCode;

fn main(rt: HostRuntime) -> ExitCode {{
    let asked = match env::args(&rt) {{
        Ok(mut arguments) => {{
            let _ = arguments.next();
            arguments.next()
        }}
        Err(_) => None,
    }};
    let Some(asked) = asked else {{
        return ExitCode::from(99);
    }};
{choices}    ExitCode::from(98)
}}
"""
CHOICE = "    if asked.as_str() == \"v{0}\" {{\n        return v{0}::main(rt);\n    }}\n"
REST = "env::args(&rt).map(|mut arguments| {\n        let _ = arguments.next();\n        arguments\n    })"


def write_together(copy, crate, tests, edits):
    """Writes edits of a crate, by their numbers, and the tests of each into a copy of the repository."""
    root = "main.rt" if tests == crate else "lib.rt"
    texts = sources_of(tests)
    heads = re.findall(r"^#!\[.*\n", texts[root], flags=re.M)
    main = MAIN.format(choices="".join(CHOICE.format(number) for number in edits)) if tests == crate else ""
    src = {root: "".join([*heads, "\n", *(f"mod v{number};\n" for number in edits), main])}
    for number, (_, fields, pairs) in edits.items():
        own = with_modules(texts, fields.get("modules", "").split())
        if tests == crate:
            own |= {source.removeprefix("src/"): after for source, (_, after) in changed(ROOT, crate, fields, pairs).items()}
            own = {path: text.replace("rt.eprintln(", "rt.println(") for path, text in own.items()}
            own[root] = re.sub(r"^fn main\b", "pub fn main", own[root].replace("env::args(&rt)", REST), flags=re.M)
        else:
            variant_of(copy, crate, number, fields, pairs)
        src |= as_module(own, root, number, {} if tests == crate else {crate: f"{crate}_{number}"})
    shutil.rmtree(f"{copy}/crates/{tests}/src")
    write(f"{copy}/crates/{tests}/src", src)
    if tests != crate:
        with open(f"{ROOT}/crates.txt", encoding="utf-8") as lines:
            listed = "".join(it.rstrip("\n") + "".join(f" {crate}_{n}" for n in edits) * it.startswith(f"{tests}:") + "\n" for it in lines)
        rests_on = re.search(rf"^{crate}:.*\n", listed, flags=re.M)[0]
        pathlib.Path(copy, "crates.txt").write_text(listed + "".join(rests_on.replace(crate, f"{crate}_{n}", 1) for n in edits), encoding="utf-8")


def reset(copy, *names):
    """Makes these crates of a copy as they are in the repository, and removes the crates that stand for edits."""
    for it in pathlib.Path(copy, "crates").iterdir():
        if it.name in names or not os.path.exists(f"{ROOT}/crates/{it.name}"):
            shutil.rmtree(it)
    for name in {*names}:
        shutil.copytree(f"{ROOT}/crates/{name}", f"{copy}/crates/{name}", ignore=LEFT_OUT)
    shutil.copy(f"{ROOT}/crates.txt", copy)


def written(folder, *options):
    """Returns what is written where a crate is compiled and run without a proof."""
    return "".join(run_unproved(folder, *options)[1:])


def run_together(copy, crate, tests, edits, run):
    """Compiles edits of a crate together with the unchanged crate, which is number 0, and runs them. Returns the edits that were compiled, by their numbers,
    what the run says, and whether each other edit passed, with a line that says so."""
    modules = [fields.get("modules", "") for _, fields, _ in edits]
    unchanged = "no edit", {"file": edits[0][1]["file"], "modules": " ".join(sorted({*" ".join(modules).split()})) if all(modules) else ""}, []
    left, results = dict(enumerate([unchanged, *edits])), []
    while len(left) > 1:
        try:
            write_together(copy, crate, tests, left)
            said = run()
        finally:
            reset(copy, crate, tests)
        if re.search(r"^(test result: |case=)", said, flags=re.M):
            del left[0]
            return left, said, results
        # Edits that the compiler refuses are judged by that; the others are tried once more.
        errors = {}
        for it in re.finditer(rf"(?:src/v|{crate}_)(\d+)[/.].*error.*", said):
            errors.setdefault(int(it[1]), it[0])
        if not errors or 0 in errors or errors.keys() - left.keys():
            why = said.strip().splitlines()[-1][:200] if said.strip() else "no output"
            return {}, "", results + [(False, f"{crate}/{name}: NOT JUDGED: {why}") for name, _, _ in [*left.values()][1:]]
        for number, error in errors.items():
            name = left.pop(number)[0]
            bound = re.search(r"error\[unsatisfied-bound\]: (.*)", error)
            results.append((True, f"{crate}/{name}: its tests don't compile: {bound[1]}") if bound else (False, f"{crate}/{name}: NOT JUDGED: {error[:200]}"))
    return {}, "", results


def judged(crate, left, failing):
    """Yields for each edit whether something fails over it, with a line that says which; over the unchanged crate nothing may."""
    for number, (name, _, _) in left.items():
        if failing[0]:
            yield False, f"{crate}/{name}: NOT JUDGED: without an edit {failing[0][0]} fails"
        elif failing[number]:
            yield True, f"{crate}/{name}: fails {', '.join(failing[number])[:150]}"
        else:
            yield False, f"{crate}/{name}: NOTHING FAILS"


def judge_together(copy, crate, tests, seconds, edits):
    """Tries edits of a crate together by the tests, each of which has that many seconds; four times as many if one fails over the unchanged crate, as it may
    on a busy machine."""
    for limit in (seconds, str(4 * int(seconds))):
        left, said, results = run_together(copy, crate, tests, edits, lambda: written(f"{copy}/crates/{tests}", "--test", "--seconds", limit))
        failing = {number: re.findall(rf"^test v{number}::(\S+) \.\.\. FAILED", said, flags=re.M) for number in [0, *left]}
        if not failing[0]:
            break
    return results + [*judged(crate, left, failing)]


def judge_programs(copy, crate, edits):
    """Tries edits of a program together by plain stored runs: each program is asked the runs that its edit names, and the unchanged one all of these."""
    with tempfile.TemporaryDirectory(prefix="cases-") as cases:
        subprocess.run([f"{ROOT}/gate/stored-runs.py", "--joined", crate, cases], check=True)
        for args in [*pathlib.Path(cases).glob("*.args")]:
            asked = [number for number, (_, fields, _) in enumerate(edits, 1) if is_asked(fields["runs"], crate, args)]
            for number in [0, *asked] if asked else []:
                own = f"v{number}-{args.stem}"
                shutil.copy(args.with_suffix(""), f"{cases}/{own}")
                shutil.copy(args.with_suffix(".stdout"), f"{cases}/{own}.stdout")
                pathlib.Path(cases, f"{own}.args").write_bytes(f"v{number}\n".encode() + args.read_bytes())
            for ending in ("", ".args", ".stdout"):
                args.with_suffix(ending).unlink()
        left, said, results = run_together(copy, crate, crate, edits, lambda: written(f"{copy}/crates/{crate}", "--cases", cases))
    answers = {number: dict(re.findall(rf"^case=v{number}-(\S+) (.*)", said, flags=re.M)) for number in [0, *left]}
    failing = {number: [it for it, answer in answers[number].items() if answer != answers[0].get(it)] for number in left}
    failing[0] = [name for name, answer in answers[0].items() if "output=expected" not in answer]
    return results + [*judged(crate, left, failing)]


def is_asked(runs, crate, args):
    """Says whether an edit's runs are all, or name a stored run by its file or by its arguments, which are a file too."""
    files = tuple(f"{crate}-{it.removesuffix('.txt')}-" for it in runs.split() if it.endswith(".txt"))
    return runs == "all" or args.stem.startswith(files) or args.read_bytes() == b"".join(it + b"\n" for it in arguments_of(runs))


def arguments_of(run):
    """Returns the arguments of a run, as a shell splits them, with bytes as in a stored run."""
    return [unescaped(it) for it in shlex.split(run)]


def stored_run(crate, named):
    """Returns the stored run that an edit names: `refused 3: calls`, the one of these arguments of which the third request for memory is refused."""
    number, _, arguments = named.removeprefix("refused ").partition(":")
    found = [it for it in runs_of(crate) if refused_at(it) == number and it.args == arguments_of(arguments)]
    return found[0] if len(found) == 1 else None


def judge_run(copy, crate, name, named):
    """Runs the program of a copy once, and returns whether it goes otherwise than the stored run, with a line that says how."""
    run = stored_run(crate, named)
    output, errors, status = answer_where_refused(f"{copy}/crates/{crate}", run)
    if status is None:
        return False, f"{crate}/{name}: NOT JUDGED: {b''.join(errors).decode()[:200]}"
    if goes_as_stored(run, output, errors, status):
        return False, f"{crate}/{name}: NOTHING FAILS"
    return True, f"{crate}/{name}: fails {run.name} ({b' '.join([*output, *errors]).decode()[:100]}, {status})"


def judge_tests(copy, crate, name, fields):
    """Runs the tests of a copy, and returns whether one fails, with a line that says which."""
    tests = pathlib.Path(copy, "crates", fields["tests"])
    # A program's tests are its own, so the copy's sources have the edit.
    texts = with_modules(sources_of(fields["tests"], copy), fields.get("modules", "").split())
    if "snippet" in fields:
        file, test = fields["snippet"].split()
        snippet = pathlib.Path(ROOT, "crates", fields["tests"], "must-run", f"{file}.snippet").read_text(encoding="utf-8")
        texts[snippet.splitlines()[0].removeprefix("// added to: src/")] += snippet
        texts = {path: with_tests(text, test) for path, text in texts.items()}
    shutil.rmtree(tests / "src")
    write(tests / "src", texts)
    said = written(str(tests), "--test")
    refused = [it for it in re.findall(r"error\[.*", said) if "refused" in fields and fields["refused"] in it]
    if refused:
        return True, f"{crate}/{name}: doesn't compile: {refused[0][:150]}"
    failed = re.findall(r"^test (\S+) \.\.\. FAILED", said, flags=re.M)
    if failed:
        return True, f"{crate}/{name}: fails {', '.join(failed)[:150]}"
    if re.search(r"^test result: ok", said, flags=re.M):
        return False, f"{crate}/{name}: NOTHING FAILS"
    last = said.strip().splitlines()
    return False, f"{crate}/{name}: NOT JUDGED: {last[-1][:200] if last else 'no output'}"


def judge_alone(copy, crate, name, fields, pairs):
    """Tries one edit in a copy, and returns whether a test or a run fails, with a line that says which."""
    try:
        for source, (_, after) in changed(copy, crate, fields, pairs).items():
            pathlib.Path(copy, "crates", crate, source).write_text(after, encoding="utf-8")
        if "runs" in fields:
            return judge_run(copy, crate, name, fields["runs"])
        return judge_tests(copy, crate, name, fields)
    finally:
        reset(copy, crate, *([fields["tests"]] if "tests" in fields else []))


LEFT_OUT = shutil.ignore_patterns("out", "wrong-bodies", "must-not-compile", "must-run", "runs")


def tested_tasks(wanted, room):
    """Returns the tasks that try the edits over which a test must fail, each in one of a lane's copies of the repository, which are made in a folder."""
    together, calls = {}, {}
    for crate, name, fields, pairs in wanted:
        if "snippet" in fields or fields.get("runs", "").startswith("refused "):
            calls[crate, name] = lambda copy, it=(crate, name, fields, pairs): [judge_alone(copy, *it)]
        else:
            together.setdefault((crate, fields.get("tests"), fields.get("seconds", UNTIMED)), []).append((name, fields, pairs))
    for (crate, tests, seconds), edits in together.items():
        most = IN_ONE if seconds == UNTIMED else TIMED_IN_ONE
        for at in range(0, len(edits), most):
            its = (crate, tests, seconds, edits[at : at + most])
            calls[crate, tests, seconds, at] = lambda copy, it=its: judge_together(copy, *it) if it[1] else judge_programs(copy, it[0], it[3])
    copies = queue.Queue()
    for lane in range(min(len(calls), len(os.sched_getaffinity(0)))):
        shutil.copytree(f"{ROOT}/crates", f"{room}/{lane}/crates", ignore=LEFT_OUT)
        for name in ("crates.txt", "HANDLES"):
            shutil.copy(f"{ROOT}/{name}", f"{room}/{lane}")
        copies.put(f"{room}/{lane}")

    def in_a_copy(call):
        copy = copies.get()
        try:
            return call(copy)
        finally:
            copies.put(copy)

    return {("tested-bodies", *key): ((), lambda _, it=call: in_a_copy(it)) for key, call in calls.items()}
