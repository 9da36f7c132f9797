"""What the main statements rest on: the definitions that clauses reach, and docs/TRUSTED.md, which lists them. gate/pages.py imports it."""
import collections
import re

from calling import ROOT, is_exported, sources
from heads import head, source_of
from typed import LIBRARIES

# The types whose values the main statement speaks of.
SEEN = (("rsc_look", "matcher.rt", "LookMatcher"), ("rsc_alphabet", "byte_classes.rt", "ByteClasses"))


def imports_of(text, ghost):
    """Returns what the `use` lines of a source or a definition file bring in: each name or sign, with its module and the name there.

    >>> imports_of("use Rattle.low.specs.Sets as sets;\\nhas s n = sets.contains s n\\n", "")
    {'sets.contains': ('low.specs.Sets', 'contains')}

    >>> imports_of("ghost use Rattle.std.specs.Prelude.{◌≤◌, ℕ};\\nghost use Rattle.low.specs.Sets as sets;\\n", "ghost ")
    {'≤': ('std.specs.Prelude', '◌≤◌'), 'ℕ': ('std.specs.Prelude', 'ℕ')}
    """
    found = {}
    for module, names, alias in re.findall(rf"^\s*{ghost}use Rattle\.([\w.]+?)(?:\.\{{([^}}]*)\}}| as (\w+))", text, flags=re.M):
        # The names that are read through another name of their module, as `sets.contains`.
        for name in re.findall(rf"(?<![\w.]){alias}\.([\w-]+)", re.sub(r"--.*|//.*", "", text)) if alias else ():
            found[f"{alias}.{name}"] = (module, name)
        for name in filter(None, map(str.strip, names.split(","))):
            found[name.replace("◌", " ").split()[0] if name != "◌" else name] = (module, name)
    return found


def definitions(text):
    """Returns the definitions of a file of specs/, each with its text.

    >>> definitions("-- two ends\\npub record Ends : Type 0 where\\n  pub end : ℕ\\n\\nabbrev pub two : ℕ\\ntwo = 2\\n")
    {'Ends': 'pub record Ends : Type 0 where\\n  pub end : ℕ\\n', 'two': 'abbrev pub two : ℕ\\ntwo = 2\\n'}
    """
    found, name = {}, None
    for line in text.splitlines():
        begins = re.match(r"(?:  (?=abbrev ))?(?:abbrev |unfoldable )*(?:pub )?(?:record |data |class )?([^\s:({]+)", line)
        if re.match(r"  abbrev |\S", line) and not line.startswith(("--", "use ", "unfolding")):
            name = name if name and begins[1] == name else begins[1]
        if name and line.strip():
            found[name] = found.get(name, "") + line + "\n"
        elif not line.strip():
            name = None
    return found


def tokens(text):
    """Returns the words of a text, and the pairs of words with a dot between."""
    plain = re.sub(r"--.*", "", text)
    return set(re.findall(r"[^\s(){}\[\],;.]+", plain)) | set(re.findall(r"(?<![\w.])\w+\.[\w-]+", plain))


# The main statement: the clauses of these functions, what the two word predicates mean, and what a clause sees of a value.
MAIN = {"classes_of": "rsc_look/src/boundaries.rt", "matches": "rsc_look/src/matcher.rt"}
MEANT = (("rsc_look/src/word.rt", r"ghost word_chars = .*?;"), ("rsc_look/src/matcher.rt", r"impl<W: WordClass> Model for .*?^\}"),
         ("rsc_alphabet/src/byte_classes.rt", r"impl Model for ByteClasses .*?^\}"))


def clauses_of(file, name):
    """Returns the head of a public function of a source file, `new` or `Match::new`, and each of its clauses."""
    functions = source_of((ROOT / "crates" / file).read_text(encoding="utf-8")).functions
    return clauses_in(next(it for it in functions if it.is_pub and name in (it.name, f"{head(it.owner.name)}::{it.name}")))


def clauses_in(function):
    """Returns the head of a function, and each of its clauses."""
    return re.split(r"\n +(?=ensures|requires)", function.signature.strip())


def quoted_clauses(file, name):
    """Returns the clauses of a function that README.md quotes, which must be as in the source."""
    readme = (ROOT / "README.md").read_text(encoding="utf-8")
    shown = re.search(rf"^pub fn {name}[(<].*?(?=\n\n|\n```)", readme, flags=re.M | re.S)[0].split()
    first, *clauses = clauses_of(file, name)
    kept = [it for it in clauses if " ".join(it.split()) in " ".join(shown)]
    if " ".join([first, *kept]).split() != shown:
        raise ValueError(f"README.md quotes {name} otherwise than crates/{file} has it")
    return kept


def statement(is_quoted):
    """Yields each part of the main statement with its file: all clauses, or those alone that README.md quotes."""
    for name, file in MAIN.items():
        for it in quoted_clauses(file, name) if is_quoted else clauses_of(file, name)[1:]:
            yield file, it
    for file, pattern in MEANT:
        for it in re.findall(pattern, (ROOT / "crates" / file).read_text(encoding="utf-8"), flags=re.M | re.S):
            yield file, it


# What rsc_engine promises, and what a search is asked and answers: the clauses of all calls of the crate, and of these types of the port.
ENGINE = (("rsc_engine", None), ("rsc_captures", "Captures"), ("rsc_search", "Input"), ("rsc_search", "Match"))
ENGINE_MEANT = (("rsc_look/src/word.rt", r"ghost word_chars = .*?;"), ("rsc_engine/src/iterate.rt", r"impl<[^{]*Model for Matches.*?^\}"))
ENGINE_SEEN = (("rsc_engine", "program.rt", "Program"), ("rsc_engine", "dfa.rt", "Dfa"), ("rsc_engine", "cache.rt", "Cache"),
               ("rsc_engine", "iterate.rt", "Matches"), ("rsc_engine", "lines.rt", "Lines"), ("rsc_nfa", "nfa.rt", "Nfa"), ("rsc_look", "matcher.rt", "LookMatcher"), ("rsc_search", "input.rt", "Input"), ("rsc_search", "matches.rt", "Match"),
               ("rsc_captures", "captures.rt", "Captures"), ("rsc_captures", "group_info.rt", "GroupInfo"), ("rsc_captures", "shared_lists.rt", "SharedLists"),
               *(("rsc_primitives", f"primitives/{it}.rt", name) for it, name in
                 (("small_index", "SmallIndex"), ("pattern_id", "PatternID"), ("state_id", "StateID"), ("non_max", "NonMaxUsize"))))


# The statements that docs/TRUSTED.md counts singly: how each is called, and the functions whose clauses it is.
COUNTED = (("`find_part` of `rsc_uses`: where a part first goes in a text", "rsc_uses/src/parts.rt", "find_part"),
           ("`tokens_of_parts` of `rsc_uses`: the tokens of a text", "rsc_uses/src/lexer.rt", "tokens_of_parts"),
           ("`find`: the leftmost-first match", "rsc_engine/src/first.rt", "find"),
           ("`Matches::next`: the next match", "rsc_engine/src/iterate.rt", "next"),
           ("`Builder::build`: what a program matches", "rsc_engine/src/builder/build.rt", "build"),
           ("`Dfa::earliest_end`: the least end", "rsc_engine/src/dfa.rt", "earliest_end"))


def counted(file, name):
    """Returns the definitions that the clauses of a function reach, for any word predicate, and those of them that are about automata."""
    found = reached((file, it) for it in clauses_of(file, name)[1:])[0]
    automata = {it: names for it, names in found.items() if it[0] == "rsc_nfa" or it[1] in ("Runs", "Preferred", "Searches")}
    # A byte is within a range.
    return found, {it: names - {"is_between"} for it, names in automata.items()}


def engine_statement():
    """Yields each clause of the functions of ENGINE with its file, and what they mean besides."""
    for file, pattern in ENGINE_MEANT:
        yield from ((file, it) for it in re.findall(pattern, (ROOT / "crates" / file).read_text(encoding="utf-8"), flags=re.M | re.S))
    for crate, owner in ENGINE:
        for path, text in sources(crate):
            for it in source_of(text).functions:
                if it.is_pub and is_exported(crate, path, it) and owner in (None, head(it.owner.name)):
                    yield from ((f"{crate}/src/{path}", clause) for clause in clauses_in(it)[1:])


def reached(parts):
    """Returns the definitions that these parts of files reach, by their files, and the types and toolchain names that they use."""
    left, own, outside = [], collections.defaultdict(set), collections.defaultdict(set)
    for file, part in parts:
        brought = imports_of((ROOT / "crates" / file).read_text(encoding="utf-8"), "ghost ")
        left += [brought[it] for it in tokens(part) if it in brought]
    while left:
        module, name = left.pop()
        crate, _, rest = module.partition(".specs.")
        file = ROOT / "crates" / crate / "specs" / f"{rest}.antt"
        if not file.exists():
            outside[module].add(name)
        elif name not in own[crate, rest]:
            text = file.read_text(encoding="utf-8")
            found, brought = definitions(text), imports_of(text, "(?:pub )?")
            # A constructor stands for its type.
            name = name if name in found else next((it for it in found if re.search(rf"^  (?:pub )?{re.escape(name)} :", found[it], flags=re.M)), None)
            if not name:
                raise ValueError(f"{module} has no such definition")
            own[crate, rest].add(name)
            used = tokens(found[name])
            left += [brought[it] for it in used if it in brought] + [(module, it) for it in used if it in found and it not in brought]
    return own, outside


def sizes(own):
    """Returns how many definitions there are, and how many lines they have."""
    texts = {it: definitions((ROOT / "crates" / it[0] / "specs" / f"{it[1]}.antt").read_text(encoding="utf-8")) for it in own}
    return sum(map(len, own.values())), sum(len(texts[it][name].splitlines()) for it, names in own.items() for name in names)


def rows(own, *columns):
    """Yields for each file of definitions a row of a table: its lines, and in each column the definitions that are listed there."""
    for (crate, module), names in sorted(own.items(), key=lambda it: (LIBRARIES.index(it[0][0]), it[0][1])):
        found = definitions((ROOT / "crates" / crate / "specs" / f"{module}.antt").read_text(encoding="utf-8"))
        listed = (", ".join(f"`{it}`" for it in found if it in column[crate, module]) for column in columns)
        yield f"| `{crate}/specs/{module}.antt` | {sizes({(crate, module): names})[1]} | {' | '.join(listed)} |"


def trusted():
    """Returns docs/TRUSTED.md: what is to be believed for the main statement, definition by definition."""
    (own, outside), (quoted, _) = reached(statement(False)), reached(statement(True))
    lines = ["# What the main statements rest on", "", "## `rsc_look`", "",
             "Written by `gate/pages.py --write`: the definitions that the clauses of `classes_of` and `matches` of `rsc_look` reach, with all that these use, and the",
             "meaning of `AsciiWord` and `UnicodeWord`. The last column has what only clauses need which README.md doesn't quote. Whoever trusts the toolchain need only",
             "believe these, the clauses, and what they see of a value; [DEFINITIONS.md](DEFINITIONS.md) explains all.", "",
             "| File | Lines | Definitions of the quoted clauses | Of other clauses alone |", "|---|---|---|---|"]
    lines += rows(own, quoted, {it: names - quoted[it] for it, names in own.items()})
    lines += ["", "A clause speaks of what a contract sees of a value, by the type's `impl Model`:", "", *views(SEEN)]
    lines += ["", "The contracts of `LookMatcher::new` and `set_line_terminator` say which matcher a caller makes, and that of `ByteClasses::get` what it reads from "
              "the map. Of the word predicates `AsciiWord` has `word_chars = λ _ c. is_word_byte c`, and `UnicodeWord` `λ _ c. is_unicode_word c`.", ""]
    said = "The quoted clauses and the meaning of the two word predicates reach {} definitions, {} lines; all clauses {}, {} lines.".format(*sizes(quoted), *sizes(own))
    lines += [f"{said} They use types of the libraries, and names of the toolchain:", "", "| Module | Names |", "|---|---|"]
    lines += [f"| `{module}` | {', '.join(f'`{it}`' for it in sorted(names))} |" for module, names in sorted(outside.items())]
    lines += ["", "## `rsc_engine`", ""] + engine_trusted()
    return "\n".join(lines) + "\n"


def views(types):
    """Returns a table of what a contract sees of values."""
    lines = ["| Type | What is seen | Its type |", "|---|---|---|"]
    for crate, file, name in types:
        source = (ROOT / "crates" / crate / "src" / file).read_text(encoding="utf-8")
        model = re.search(rf"Model for {name}\b.*?ghost Value = {{ (.*?) }};.*?ghost view = {{ (.*?) }};\n", source, flags=re.S)
        lines.append(f"| `{crate}::{name}` | `{model[2]}` | `{model[1]}` |")
    return lines


def engine_trusted():
    """Returns the lines of docs/TRUSTED.md on what the answers of rsc_engine rest on."""
    own, outside = reached(engine_statement())
    count, all_lines = sizes(own)
    lines = ["What the clauses of single functions reach, for any word predicate:", "", "| Function | Definitions | Lines | About automata, their runs and searches |", "|---|---|---|---|"]
    for said, file, name in COUNTED:
        found, automata = counted(file, name)
        lines.append(f"| {said} | {' | '.join(map(str, sizes(found)))} | {sizes(automata)[0]} |")
    lines += ["", "The clauses of all public functions of `rsc_engine`, its laws among them, and of all calls of `Input`, `Match` and `Captures` reach "
              f"{count} definitions, {all_lines} lines:", "", "| File | Lines | Definitions |", "|---|---|---|", *rows(own, own)]
    lines += ["", "What is seen of a value; of a `Builder` and a `Part` clauses see the fields. `lists_held` and `from_le_bytes` say how the code holds lists and numbers, and "
              "aren't counted: the clauses of `GroupInfo::new` (`groups`) and of `NonMaxUsize::new` and `get` say what a caller sees.", "", *views(ENGINE_SEEN)]
    lines += ["", "They use types of the libraries, and names of the toolchain:", "", "| Module | Names |", "|---|---|"]
    return lines + [f"| `{module}` | {', '.join(f'`{it}`' for it in sorted(names))} |" for module, names in sorted(outside.items())]


def believed(text):
    """Returns README.md with how many definitions the clauses that it quotes reach, and how many all clauses."""
    (own, _), (quoted, _) = reached(statement(False)), reached(statement(True))
    (count, lines), (all_count, all_lines) = sizes(quoted), sizes(own)
    files = sum(map(bool, quoted.values()))
    said = f"{count} definitions ({lines} lines, in {files} files of `crates/*/specs`), all clauses of both functions on {all_count} ({all_lines} lines)"
    text = re.sub(r"<!-- believed -->.*?<!-- end -->", f"<!-- believed -->{said}<!-- end -->", text)
    _, file, name = COUNTED[0]
    quoted_clauses(file, name)
    found, automata = counted(file, name)
    if any(automata.values()):
        raise ValueError(f"README.md says that {name} rests on no definition about automata")
    said = "{} definitions ({} lines)".format(*sizes(found))
    return re.sub(r"<!-- believed of find_part -->.*?<!-- end -->", f"<!-- believed of find_part -->{said}<!-- end -->", text)
