"""Reads the heads of functions, of impls and of traits in source files. Every script of this folder that needs one imports this module."""
import functools
import re
import types

QUOTED = re.compile(r"""//[^\n]*|b?"(?:\\.|[^"\\])*"|b?'(?:\\x..|\\u\{[^}]*\}|\\.|[^'\\])'""", flags=re.S)
OWNER = re.compile(r"^(?:pub )?(impl|trait)\b(<[^\n]*?>)? ([^{\n]*?) *\{", flags=re.M)
FUNCTION = re.compile(r"((?:#\[.*\]\s*)*)(pub(?:\(\w+\))? )?(?:const )?fn (\w+)(?:<(?:[^()]|\([^()]*\))*?>)?\(")
# What may stand before a clause or a body, as a result's type with `[u8; 4]` in it.
BEFORE = r"(?:[^{;\[]|\[(?:[^\[\]]|\[[^\[\]]*\])*\])*"
CLAUSE = re.compile(BEFORE + r"\b(?:requires|ensures)\*?(?: \w+)? \{")
NO_OWNER = types.SimpleNamespace(name="", is_open=False, bounds="")


def head(of):
    """Returns the name that a type begins with."""
    return re.match(r"\w*", of)[0]


def above(text, line):
    """Returns the offset at which the doc comment and the attributes begin that are above a line."""
    for other in reversed(text[:line].splitlines(keepends=True)):
        if not other.lstrip().startswith(("///", "#[")):
            break
        line -= len(other)
    return line


class Source:
    """A source file: its text, the same without what is quoted, where each bracket ends, its impls and traits, and its functions.

    A function has its owner (by name `Half<W>`, or `Model for Half<W>` in an impl of a trait), its signature with its clauses, and offsets: of its
    attributes, its line, its parameters, its body and its end.

    >>> text = "impl<W: WordClass> Half<W> {\\n    pub fn one(&self) -> usize\\n        ensures { result ≡ 1 }\\n    {\\n        1\\n    }\\n}\\n\\nfn two() -> usize {\\n    2\\n}\\n"
    >>> [(it.owner.name, it.is_public, it.signature, it.owner.bounds) for it in Source(text).functions]
    [('Half<W>', True, '    pub fn one(&self) -> usize\\n        ensures { result ≡ 1 }', 'impl<W: WordClass> Half<W>'), ('', False, 'fn two() -> usize', '')]
    >>> Source("impl Half\\n{\\n    pub fn one() {}\\n}\\n")
    Traceback (most recent call last):
    ValueError: impl Half: a head of more than one line, which isn't read
    """

    def __init__(self, text):
        # Texts and comments keep their lengths alone.
        self.text, self.plain = text, QUOTED.sub(lambda it: ("_" if it[0][0] != "/" else " ") * len(it[0]), text)
        self.ends, opened = {}, []
        for found in re.finditer(r"[()\[\]{}]", self.plain):
            if found[0] in "([{":
                opened.append(found.start())
            elif opened:
                self.ends[opened.pop()] = found.start()
        split = re.search(r"^(?:pub )?(?:impl|trait)\b[^{\n]*$", self.plain, flags=re.M)
        if split:
            raise ValueError(f"{split[0]}: a head of more than one line, which isn't read")
        self.owners = [self.owner(it) for it in OWNER.finditer(self.plain)]
        self.functions = [self.function(it) for it in FUNCTION.finditer(self.plain)]

    def end(self, at):
        """Returns where a bracket ends: with the text, where an edit in parts has left it open."""
        return self.ends.get(at, len(self.text))

    def owner(self, found):
        """Returns an impl or a trait: its name, whether its functions are public without `pub`, its head if that has bounds, and its body."""
        name = found[3].partition(":")[0] if found[1] == "trait" else found[3]
        is_open = found[1] == "trait" or " for " in name
        bounds = f"impl{found[2]} {name}" if not is_open and ":" in (found[2] or "") else ""
        return types.SimpleNamespace(name=name, is_open=is_open, bounds=bounds, start=found.end() - 1, end=self.end(found.end() - 1))

    def function(self, found):
        owner = next((it for it in self.owners if it.start < found.start() < it.end), NO_OWNER)
        line, closes = self.text.rfind("\n", 0, found.start(3)) + 1, self.end(found.end() - 1)
        end, is_pub = closes, found[2] == "pub "
        while clause := CLAUSE.match(self.plain, end + 1):
            end = self.end(clause.end() - 1)
        start = re.compile(BEFORE).match(self.plain, end + 1).end()
        return types.SimpleNamespace(name=found[3], owner=owner, is_test="#[test]" in found[1], is_pub=is_pub, is_public=is_pub or owner.is_open,
                                     signature=self.text[line:start].rstrip(), begin=found.start(), line=line, opens=found.end(), closes=closes,
                                     start=start, end=self.ends.get(start, start))

    def items(self):
        """Returns the public types and functions by the offsets of their lines: `Half`, `Half::one`, `two`."""
        found = {it.start(): it[1] for it in re.finditer(r"^pub (?:struct|enum|trait) (\w+)", self.plain, flags=re.M)}
        found |= {it.line: "::".join(filter(None, (head(it.owner.name), it.name))) for it in self.functions if it.is_pub}
        return dict(sorted(found.items()))


source_of = functools.lru_cache(maxsize=512)(Source)
