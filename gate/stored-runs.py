#!/usr/bin/env python3
"""Runs programs as people do, and compares what they write and their status with what is stored.

    gate/stored-runs.py [CRATE ..]         # by the programs that `rt ci` or `rt run` left in crates/CRATE/out; all crates that have runs without a name
    gate/stored-runs.py --unproved         # proves nothing: all tests, every program on its stored input, and the plain runs
    gate/stored-runs.py --joined CRATE DIR # writes the plain runs to DIR as `rt try --cases` takes them, with standard error after standard output

gate/runs.py explains how the runs of a crate are written.
"""
import concurrent.futures
import glob
import os
import pty
import resource
import shutil
import signal
import subprocess
import sys
import tempfile
import time
import tty

from edits import ROOT, run_unproved
from runs import FAILING, SHORT, UNREADABLE, answer_where_refused, goes_as_stored, lines_of, refused_at, runs_of, unescaped


def output_to(unusual):
    """Returns where a run writes to, and where what it writes can be read, or None."""
    if "@ output full" in unusual:
        return os.open("/dev/full", os.O_WRONLY), None
    if SHORT in unusual:
        return os.memfd_create("output"), None
    reader, writer = pty.openpty() if "@ terminal" in unusual else os.pipe()
    if "@ output closed" in unusual:
        os.close(reader)
        reader = None
    return writer, reader


def take_a_hundred_bytes():
    """Lets no file grow beyond a hundred bytes: a write of more is cut short, and the next one fails."""
    signal.signal(signal.SIGXFSZ, signal.SIG_IGN)
    resource.setrlimit(resource.RLIMIT_FSIZE, (100, 100))


def unended_input(run):
    """Returns what a run reads from whose input can't be read to its end: a folder, or a terminal whose other side is closed; or None."""
    if UNREADABLE in run.unusual:
        return os.open("/", os.O_RDONLY)
    if FAILING not in run.unusual:
        return None
    reader, writer = pty.openpty()
    tty.setraw(writer)
    os.write(writer, b"".join(part for _, part in run.stdin))
    os.close(writer)
    return reader


def read_to_end(file):
    """Returns what is written to a pipe or a terminal until it is closed."""
    parts = []
    while True:
        try:
            part = os.read(file, 65536)
        except OSError:  # a terminal that nobody writes to
            part = b""
        if not part:
            return b"".join(parts)
        parts.append(part)


def answer_of(program, run):
    with tempfile.TemporaryDirectory(prefix="run-") as folder:
        for name, text in run.files.items():
            with open(f"{folder}/{name}", "wb") as file:
                file.write(text)
        return answer_in(folder, program, run)


def answer_in(folder, program, run):
    writer, reader = output_to(run.unusual)
    variables = dict(unescaped(it[2:]).split(b"=", 1) for it in run.unusual if "=" in it)
    unended = unended_input(run)
    shown, errors = pty.openpty() if "@ error terminal" in run.unusual else os.pipe()
    child = subprocess.Popen([program, *run.args], cwd=folder, env=variables, stdout=writer, stderr=errors, stdin=subprocess.PIPE if unended is None else unended,
                             preexec_fn=take_a_hundred_bytes if SHORT in run.unusual else None)
    os.close(writer)
    os.close(errors)
    if unended is None:
        try:
            for is_late, part in run.stdin:
                if is_late:
                    time.sleep(0.2)
                child.stdin.write(part)
                child.stdin.flush()
            child.stdin.close()
        except BrokenPipeError:
            pass
    output = b"" if reader is None else read_to_end(reader).replace(b"\r\n", b"\n")
    errors = read_to_end(shown).replace(b"\r\n", b"\n")
    return lines_of(output), lines_of(errors), child.wait()


def judge(crate):
    """Runs each run of a crate, and returns how many passed and how many failed."""
    runs = runs_of(crate)
    refused = [it for it in runs if refused_at(it)]
    answers = [(it, answer_of(f"{ROOT}/crates/{crate}/out/{crate}", it)) for it in runs if it not in refused]
    with concurrent.futures.ThreadPoolExecutor(len(os.sched_getaffinity(0))) as pool:
        answers += zip(refused, pool.map(lambda it: answer_where_refused(f"{ROOT}/crates/{crate}", it), refused))
    failed = [(run, answer) for run, answer in answers if not goes_as_stored(run, *answer)]
    for run, (output, errors, status) in failed:
        print(f"{run.name}: status {status} for {run.args}")
        print(b"\n".join(output + [b"! " + it for it in errors]).decode(errors="replace"))
    return len(runs) - len(failed), len(failed)


# The programs whose stored run takes minutes where nothing is proved. Their plain runs are shorter.
LONG = ("rsc_engine_bench",)


def is_plain(run):
    """Returns whether a run has nothing unusual, so that `rt try --cases` can run it."""
    return not run.unusual and not run.files and b".." not in run.stdout and all(it.isascii() and b"\n" not in it for it in run.args)


def write_cases(crate, folder, is_joined=False):
    """Writes the plain runs of a crate as `rt try --cases` takes them."""
    os.makedirs(folder, exist_ok=True)
    for run in filter(is_plain, runs_of(crate)):
        written = run.stdout + run.stderr if is_joined else run.stdout
        path = os.path.join(folder, run.name.replace("/", "-").replace(".txt:", "-"))
        for ending, text in (("", b"".join(part for _, part in run.stdin)), (".args", b"".join(it + b"\n" for it in run.args)),
                             (".stdout", b"".join(it + b"\n" for it in written))):
            with open(path + ending, "wb") as file:
                file.write(text)


def crates_with_runs():
    return sorted(os.path.basename(os.path.dirname(it)) for it in glob.glob(f"{ROOT}/crates/*/runs"))


def unproved_jobs(folder):
    """Returns what is run without a proof: the name of each job, its crate's folder and its options."""
    found = {}
    for path in sorted(glob.glob(f"{ROOT}/crates/*")):
        crate, cases = os.path.basename(path), ("--cases",)
        sources = glob.glob(f"{path}/src/**/*.rt", recursive=True)
        if any("#[test]" in open(it, encoding="utf-8").read() for it in sources):
            found[f"{crate}-tests"] = path, "--test", "--seconds", "300"
        if os.path.exists(f"{path}/stdout") and crate not in LONG:
            os.makedirs(f"{folder}/{crate}-run")
            # A case is named by its input, which may be empty.
            open(f"{folder}/{crate}-run/stored", "wb").close()
            for name, ending in (("stdin", ""), ("stdout", ".stdout"), ("args", ".args")):
                if os.path.exists(f"{path}/{name}"):
                    shutil.copy(f"{path}/{name}", f"{folder}/{crate}-run/stored{ending}")
            found[f"{crate}-run"] = path, *cases, f"{folder}/{crate}-run"
        if os.path.isdir(f"{path}/runs"):
            write_cases(crate, f"{folder}/{crate}-runs")
            found[f"{crate}-runs"] = path, *cases, f"{folder}/{crate}-runs"
    return found


def try_unproved():
    """Runs all tests and programs without a proof, side by side, and says which failed."""
    failed = []
    with tempfile.TemporaryDirectory(prefix="unproved-") as folder, concurrent.futures.ThreadPoolExecutor(len(os.sched_getaffinity(0))) as pool:
        jobs = unproved_jobs(folder)
        running = {pool.submit(run_unproved, *job): name for name, job in jobs.items()}
        for it in concurrent.futures.as_completed(running):
            status, *written = it.result()
            print(f"{running[it]}: {'FAILED' if status else 'passed'}", flush=True)
            failed += [f"== {running[it]}", *"".join(written).splitlines()[-20:]] if status else []
    print(*failed, sep="\n", end="\n" if failed else "")
    failures = sum(it.startswith("== ") for it in failed)
    others = sum(not is_plain(run) for crate in crates_with_runs() for run in runs_of(crate))
    print(f"left out: proofs; wrong bodies; snippets; the long run of {', '.join(LONG)}; {others} stored runs (a terminal, a variable, files, an input or output "
          "that fails, refused memory), and what the others write on standard error and end with")
    print(f"{len(jobs) - failures} passed, {failures} failed")
    return 1 if failures or not jobs else 0


def main(arguments):
    if arguments[:1] == ["--joined"]:
        write_cases(*arguments[1:], is_joined=True)
        return 0
    if arguments == ["--unproved"]:
        return try_unproved()
    judged = [judge(it) for it in arguments or crates_with_runs()]
    passed, failed = (sum(it) for it in zip(*judged))
    print(f"stored-runs: {passed} passed, {failed} failed")
    return 1 if failed or not passed else 0


if __name__ == "__main__":
    sys.exit(main(sys.argv[1:]))
