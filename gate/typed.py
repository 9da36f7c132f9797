"""Finds which public calls of the libraries a function surely makes, by its text alone; gate/calling.py names the tests of docs/CALLS.md by it.

It reads each chain from left to right, as `GroupInfo::new(..)?.slot(..)`. A chain begins with `Type::name(..)`, `Type::Variant`, `name(..)` or
`module::name(..)`, where the file brings the type, the function or the module in from a library, or with a variable; then come `?` and methods, each of the
type that is declared for the result before it; of std it knows `clone`. A variable is known if it is a parameter, or bound by `let v` to such a chain alone,
and nothing else in the function binds that name to another type. A function of the same file, or one that the file brings in of its crate, makes its calls
where it is called. Of traits it knows `Type::default()`, `Type::from(..)` and `Type::try_from(..)` of a number with its type or of a chain, methods, and `==`
or `!=` after a chain.

A call is ("call", type, name), ("fn", crate, name), or for an impl of a trait ("trait", trait, type) with a third name for a conversion's other type. A type
is read from its beginning alone, so its text may go on after it; it is empty where it isn't known.
"""
import functools
import pathlib
import re

from heads import Source, head

CRATES = pathlib.Path(__file__).resolve().parent.parent / "crates"
LIBRARIES = ("rsc_primitives", "rsc_alphabet", "rsc_look", "rsc_search", "rsc_captures", "rsc_nfa", "rsc_engine", "rsc_replace")
# Where a pattern may bind names: in a closure, an arm, `matches!`, `let` and `for`; but not the `let` of one variable.
PATTERN = re.compile(r"(?<!\|)\|([^|=;]*)\|(?!\|)|^(?=([^\n]*)=>)|\bmatches!\([^,]*(,[^;]*)|\blet (?!(?:mut )?\w+ = )([^=]*)=|\bfor ([^={]*?) in ", flags=re.M)
CHAIN = re.compile(r"\blet (?:mut )?(\w+) = &?(?:mut )?|(?<![\w.:])(?=[A-Za-z_])")
PATH = re.compile(r"(?:\w+(?:::<[^<>]*>)?::)*\w+(?:::<[^<>]*>(?=\())?|")
STEP = re.compile(r"\?|\s*\.(\w+)(?:::<[^()]*>)?\(")


def typed(text, file, owner):
    """Returns a type without references, lifetimes and paths; a name that the file doesn't bring in from a library is `_`."""
    kept = {"Option", "Result", "u8", "u16", "u32", "u64", "usize", *(name for name, crate in file.uses.items() if crate in LIBRARIES)}
    text = re.sub(r"&|'\w+,? ?|\bmut |(?:\w+::)+(?=\w)", "", re.sub(r"\bSelf\b", head(owner.rpartition(" for ")[2]), text.strip()))
    return re.sub(r"\w+", lambda it: it[0] if file.crate in LIBRARIES or it[0] in kept else "_", text)


class File(Source):
    """A source file with its snippets of must-run: also what it brings in from which crate, and the types of parameters and results."""

    def __init__(self, path):
        self.crate, _, *self.module = path.relative_to(CRATES).with_suffix("").parts
        text = path.read_text(encoding="utf-8")
        for snippet in sorted((CRATES / self.crate).glob("must-run/*.snippet")):
            added = snippet.read_text(encoding="utf-8")
            text += added if added.startswith(f"// added to: {path.relative_to(CRATES / self.crate)}\n") else ""
        super().__init__(text)
        uses = re.findall(r"^(?:pub )?use (\w+)::(?:\w+::)*(?:\{([^}]*)\}|([^;{]*));", self.plain, flags=re.M)
        self.uses = {name: crate for crate, group, one in uses for name in re.findall(r"(\w+)\s*(?=,|$)", group or one)}
        for it in self.functions:
            it.file, it.calls = self, None
            params = re.findall(r"(\w+): (.*?)(?=,\s*(?:mut )?\w+: |$)", " ".join(self.plain[it.opens : it.closes].split()))
            it.params = {name: {typed(of, self, it.owner.name)} for name, of in params}
            it.result = typed(re.match(r" -> ([^{;]*)|", self.plain[it.closes + 1 :])[1] or "", self, it.owner.name)


@functools.cache
def files(crate):
    return [File(it) for it in sorted((CRATES / crate / "src").glob("**/*.rt"))]


@functools.cache
def library():
    """Returns each function of the libraries by its type, or its crate, and its name: as the call that it is, and its result's type."""
    known = {}
    for file in (it for crate in LIBRARIES for it in files(crate)):
        for it in file.functions:
            trait, _, of = it.owner.name.rpartition(" for ")
            if trait:
                known.setdefault((head(of), it.name), (("trait", re.search(r"(\w+)(?:<.*)?$", trait)[1], head(of)), it.result))
            else:
                known[head(of) or file.crate, it.name] = (("call", head(of), it.name) if of else ("fn", file.crate, it.name), it.result)
    return known


class Body:
    """Finds the calls of a function: `bound` has for each variable the types of what binds it."""

    def __init__(self, it):
        self.it, self.file, self.text, self.found, self.bound = it, it.file, it.file.plain, set(), dict(it.params)
        for found in PATTERN.finditer(self.text, it.start, it.end):
            self.bound.update({name: {""} for name in re.findall(r"\b[a-z_]\w*", found[found.lastindex])})
        for found in CHAIN.finditer(self.text, it.start, it.end):
            of, end = self.chain(found.end())
            if found[1]:
                self.bound[found[1]] = self.bound.get(found[1], set()) | {of if self.text[end] == ";" else ""}
            if of and re.match(r" [!=]= ", self.text[end : end + 4]):
                self.found.add(("trait", "PartialEq", head(of)))

    def chain(self, at):
        """Returns the type of the chain that begins there, and the chain's end."""
        path = PATH.match(self.text, at)
        parts, end = re.sub(r"<[^<>]*>|::(?=<)", "", path[0]).split("::"), path.end()
        owner = typed(parts[-2], self.file, self.it.owner.name) if len(parts) > 1 and parts[-2][0].isupper() else ""
        if self.text[end] == "(":
            of, end = self.called(owner, parts, end), self.file.ends[end] + 1
        elif len(parts) > 1:
            of = owner if re.match(r"[A-Z][a-z]", parts[-1]) else ""
        else:
            of = "".join(self.bound.get(parts[0], ())) if len(self.bound.get(parts[0], ())) == 1 else ""
        while head(of) and (step := STEP.match(self.text, end)):
            if step[1]:
                of, end = self.answer(head(of), step[1]), self.file.ends[step.end() - 1] + 1
            else:
                of, end = of.partition("<")[2] if head(of) in ("Option", "Result") else "", step.end()
        return of, end

    def called(self, owner, parts, at):
        """Returns the result of a function that is called by its path, and records it, or what it calls."""
        name, crate = parts[-1], self.file.uses.get(parts[0], parts[0])
        there = files(self.file.crate) if crate in ("crate", "super") else [self.file] if len(parts) == 1 else []
        own = [it for file in there for it in file.functions if it.name == name and not it.owner.name]
        if len(own) == 1 and name not in self.bound:
            self.found |= calls_of(own[0])
            return own[0].result
        if own or name in self.bound:
            return ""
        if name not in ("from", "try_from"):
            return self.answer(owner or crate, name)
        given, end = self.chain(at + 1)
        number = re.match(r"\d+_?([iu]\w+)\)", self.text[at + 1 :])
        return self.answer(owner, name, number[1] if number else head(given) if end == self.file.ends[at] else "")

    def answer(self, of, name, *other):
        """Returns the result of a library's function, and records it."""
        call, result = library().get((of, name), (None, f"Result<{of}" if name == "clone" else ""))
        if call:
            self.found.add((*call, *other))
        return result


def calls_of(it):
    """Returns the calls that a function makes, itself or by another function of its crate."""
    if it.calls is None:
        it.calls = set()
        it.calls = Body(it).found
    return it.calls
