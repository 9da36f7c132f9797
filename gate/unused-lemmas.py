#!/usr/bin/env python3
"""Lists the lemmas that nothing names: declarations of crates/*/proofs/*.antt and of specs/*Laws.antt that no other declaration, answer or source uses.

    gate/unused-lemmas.py [CRATE ..]      # all crates without a name; prints FILE:LINE: NAME, and exits with 1 if there is any

A lemma counts as used where another declaration that is used names it, in its own file or in one that imports it. A tactic may use what is imported
into a source without naming it, so such an import counts as a use. A file that passes names on (`pub use`) doesn't use them. Whether a lemma can go is for
a check from nothing to say.
"""
import glob
import os
import re
import sys

ROOT = os.path.dirname(os.path.dirname(os.path.realpath(__file__)))
TOKEN = re.compile(r"[^\s(){}\[\],.;:λ⟦⟧]+")
USING = re.compile(r"crate::proofs::(\w+)::([^\s,()]+)")
IMPORT = re.compile(r"^\s*(?:pub )?(?:ghost )?use ([\w.]+?)(?:\.\{([^}]*)\}| as (\w+)|);?$")


def crate_of(file):
    return os.path.relpath(file, f"{ROOT}/crates").split(os.sep)[0]


def path_of_module(path, crate):
    """Returns the file of a module that a file of a crate names, or None where it isn't this repository's."""
    parts = path.split(".")
    if parts[0] == "lib":
        parts = ["Rattle", crate, "proofs"] + parts[1:]
    found = f"{ROOT}/crates/{'/'.join(parts[1:])}.antt"
    return found if parts[0] == "Rattle" and os.path.isfile(found) else None


def declarations(lines):
    """Yields (name, first line, tokens) of each declaration, at the margin or in a `module`: its signature, its equations, and what is indented below them."""
    name, start, tokens, modules = None, 0, set(), []
    for number, line in enumerate(lines, 1):
        if not line.strip() or line.lstrip().startswith("--") or line.startswith(("use ", "pub use ", "pub mod ", "mod ")):
            continue
        found = TOKEN.findall(line)
        indent = len(line) - len(line.lstrip())
        while modules and indent < modules[-1][0]:
            modules.pop()
        if indent == (modules[-1][0] if modules else 0) and found and found[0] not in ("unfolding", "open"):
            head = next((it for it in found if it not in ("unfoldable", "abbrev", "record", "data", "pub")), found[0])
            if head != name:
                if name:
                    yield name, start, tokens
                name, start, tokens = head, number, {token for _, of_module in modules for token in of_module}
            if head == "module":
                modules.append((indent + 2, set(found)))
                name = None
        tokens.update(found)
    if name:
        yield name, start, tokens


def read(file):
    """Returns the imports of a file (name here: file and name there; None for a whole module) and its lines."""
    imports, modules = {}, {}
    with open(file, encoding="utf-8") as text:
        lines = text.read().splitlines()
    for line in lines:
        found = IMPORT.match(line)
        module = found and path_of_module(found[1], crate_of(file))
        if not module:
            continue
        if found[2] is None:
            modules[found[3] or found[1].split(".")[-1]] = module
        for item in (found[2] or "").split(","):
            there, _, here = item.strip().partition(" as ")
            imports[here or there] = (module, there)
    return imports, modules, lines


def is_lemma_file(file):
    below = os.path.relpath(file, f"{ROOT}/crates").split(os.sep)[1:]
    return len(below) == 2 and below[0] in ("proofs", "specs") and below[1] != "Lib.antt"


def is_law_file(file):
    return not file.endswith("/Examples.antt") and ("/proofs/" in file or file.endswith("Laws.antt"))


def unused_lemmas():
    """Returns the lemmas that nothing names, each by its file, line and name."""
    files = [it for kind in ("antt", "rt") for it in glob.glob(f"{ROOT}/crates/*/**/*.{kind}", recursive=True) if "/out/" not in it]
    named, first_lines, pending, passed = {}, {}, [], {}
    for file in files:
        imports, modules, lines = read(file)
        passed.update({(file, here): there for here, there in imports.items()})

        def targets(tokens, own):
            for token in tokens:
                if token in imports:
                    yield imports[token]
                elif (file, token) in own:
                    yield file, token
            for module in (modules[token] for token in tokens if token in modules):
                yield from ((module, token) for token in tokens)

        if not is_lemma_file(file):
            if file.endswith(".rt"):
                proofs = f"{ROOT}/crates/{crate_of(file)}/proofs"
                pending += list(imports.values()) + [(f"{proofs}/{it[0]}.antt", it[1]) for line in lines for it in USING.findall(line)]
            pending += targets({token for line in lines if not IMPORT.match(line) for token in TOKEN.findall(line)}, ())
            continue
        found = list(declarations(lines))
        own = {(file, name) for name, _, _ in found}
        for name, line, tokens in found:
            named[file, name] = named.get((file, name), set()) | set(targets(tokens, own))
            first_lines.setdefault((file, name), line)
    # Definitions are the contracts' vocabulary, and examples compute them: only lemmas and laws have to be used.
    pending += [it for it in named if not is_law_file(it[0])]
    used = set()
    while pending:
        it = pending.pop()
        while it in passed and it not in named:
            it = passed[it]
        if it in named and it not in used:
            used.add(it)
            pending += named[it]
    return sorted((file, line, name) for (file, name), line in first_lines.items() if (file, name) not in used)


def main():
    unused = [it for it in unused_lemmas() if not sys.argv[1:] or crate_of(it[0]) in sys.argv[1:]]
    for file, line, name in unused:
        print(f"{os.path.relpath(file, ROOT)}:{line}: {name}")
    sys.exit(1 if unused else 0)


if __name__ == "__main__":
    main()
