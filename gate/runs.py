r"""Reads the stored runs of programs, and says whether a run goes as one of them.

The runs of a crate are in crates/CRATE/runs/*.txt, which read as a session does:

    # a comment
    $ CRATE looks StartLF -             the arguments, as a shell splits them; \xHH in them is a byte
    @ input a\n                         standard input, with \n and \xHH for bytes; a\{500} is 500 times the byte before it
    @ later b\n                         more of it, which comes a little later
    @ file a.txt a\n                    a file of that name where it runs, and its bytes
    @ terminal                          what is unusual: standard output is a terminal; `error terminal`, standard error is one; a variable NAME=VALUE;
                                        `output full`, which takes no byte; `output short`, which takes a hundred; `output closed`, which nobody reads;
                                        `input unreadable`; `input fails`, of which a read fails after the input that is given; `refused 3`, the third
                                        request for memory is refused (such a run is of the program as it is compiled without a proof)
    ..                                  any lines
    and all others                      standard output, a line each; \e is the escape character, and \# a `#`
    ! rsc_show: `a`: expected b         a line of standard error
    [2]                                 the exit status, if not 0
"""
import collections
import glob
import os
import re
import shlex

from edits import ROOT, run_unproved

UNREADABLE, FAILING = "@ input unreadable", "@ input fails"
SHORT = "@ output short"
Run = collections.namedtuple("Run", "name args unusual files stdin stdout stderr status")


def unescaped(text):
    """Returns the bytes of a text in which \\n, \\e and \\xHH are written so, and a byte before \\{N} stands N times."""
    found = re.split(rb"(\\n|\\e|\\x[0-9a-fA-F]{2}|\\\{\d+\})", text.encode())
    known = {b"\\n": b"\n", b"\\e": b"\x1b"}
    made = b""
    for it in found:
        if it[:2] == b"\\{":
            made += made[-1:] * (int(it[2:-1]) - 1)
        else:
            made += known.get(it) or (bytes([int(it[2:], 16)]) if it[:2] == b"\\x" else it)
    return made


def runs_of(crate):
    found = []
    for path in sorted(glob.glob(f"{ROOT}/crates/{crate}/runs/*.txt")):
        with open(path, encoding="utf-8") as lines:
            for number, line in enumerate(lines.read().splitlines(), 1):
                if re.match(rf"\$ {crate}( |$)", line):
                    args = [unescaped(it) for it in shlex.split(line)[2:]]
                    found.append(Run(f"{crate}/{os.path.basename(path)}:{number}", args, [], {}, [], [], [], [0]))
                elif line.startswith(("@ input ", "@ later ")) and line not in (UNREADABLE, FAILING):
                    found[-1].stdin.append((line[2:7] == "later", unescaped(line[8:])))
                elif line.startswith("@ file "):
                    name, _, text = line[7:].partition(" ")
                    found[-1].files[name] = unescaped(text)
                elif line.startswith("@ "):
                    found[-1].unusual.append(line)
                elif line.startswith("! "):
                    found[-1].stderr.append(line[2:].encode())
                elif re.fullmatch(r"\[\d+\]", line):
                    found[-1].status[0] = int(line[1:-1])
                elif not line.startswith("#"):
                    found[-1].stdout.append(line.replace("\\e", "\x1b").replace("\\#", "#").encode())
    return [it._replace(stdout=without_last_blank(it.stdout)) for it in found]


def without_last_blank(lines):
    """Returns the lines without the empty ones that part a run from the next one."""
    while lines and not lines[-1]:
        lines = lines[:-1]
    return lines


def lines_of(output):
    """Returns the lines of an output; a last one that has no end says so."""
    *lines, rest = output.split(b"\n")
    return lines + [rest + b" (with no end of line)"] if rest else lines


def agrees(lines, wanted):
    """Whether the lines are the wanted ones, among which `..` stands for any."""
    pattern = b"".join(b"(?:[^\n]*\n)*?" if it == b".." else re.escape(it) + b"\n" for it in wanted)
    return re.fullmatch(pattern, b"".join(it + b"\n" for it in lines)) is not None


def refused_at(run):
    """Returns the number of the request for memory that is refused in a run, as a text, or None."""
    return next((it.split()[2] for it in run.unusual if it.startswith("@ refused ")), None)


def answer_where_refused(folder, run):
    """Returns what the program in a crate's folder writes, and its status, in a run in which a request for memory is refused; without a status, that it
    isn't compiled."""
    arguments = [it.decode() for it in run.args]
    status, stdout, stderr = run_unproved(folder, "--fail-alloc", refused_at(run), arguments=arguments, given=b"".join(part for _, part in run.stdin))
    if not re.search(r"^run=ended ", stderr, flags=re.M):
        return [], lines_of(stderr.encode())[-1:], None
    # The other lines are of the tool that compiles and runs it.
    errors = [it for it in lines_of(stderr.encode()) if not re.match(rb"(allocations|interpreter|checked|races|run)[:=]", it)]
    return lines_of(stdout.encode()), errors, status


def goes_as_stored(run, output, errors, status):
    return agrees(output, run.stdout) and errors == run.stderr and status == run.status[0]
