#!/usr/bin/env python3
"""Lists what nothing uses in crates/: functions, types, definitions and laws, imports, and functions that are public without need.

    python3 scripts/unused.py      # each finding in a line, and then exit status 1; two lines of figures

Used is what can be reached from a root: `main` of a program, a test, a function of the C interface, an `impl` or a trait, and a public name that a page of
promises has in code, as a theorem has that stands for itself. A function leads to what its text, its contract, its attributes and its proof name (a
call `x.f()` to every method f), a definition or a law to what its type and its body name, a ruleset to all of its laws: which of them a search takes
is not to be seen. Names are compared as they are imported, so a local
name that is spelled like a law counts as a use of it. What is public and has to be so for another reason than its uses is EXPLAINED.
"""
import re
import sys
from functools import lru_cache
from pathlib import Path

ROOT = Path(__file__).resolve().parent.parent
CRATES = ROOT / "crates"
PAGES = [ROOT / "docs" / "PROMISES.md", *ROOT.glob("docs/promises/*.md")]
EXPLAINED = {
    "viewer_of": "the making of a viewer, an operation of the scope: C takes making and look in one call, `look_once`",
    "look": "a look through a viewer, likewise",
    "mark_at": "the mark of a step, a promise of the page of lines",
    "bytes_into": "a list of any length, for who calls the library `notation`: the programs here have lists of a fixed capacity",
    "text_into": "a text of any length, likewise",
    "entries_into": "a list of 16-bit elements of any length, likewise",
}
PROOFS = ("Invariants.antt", "Answers.antt", "Proof.antt")  # of a function
NAME = r"[^\s(){}\[\],;:.=«»⌜⌝]+"
WORDS = r"((?:(?:abbrev|unfoldable|pub|record|data|ruleset) )*)"
SIGNATURE = re.compile(rf"{WORDS}({NAME}(?: {NAME})*) :(?= |$)")
NAMED = re.compile(rf"((?:pub )?(?:record|data|ruleset) )({NAME})")
ITEM = re.compile(r"^(?:#\[.*\]\n)*(?: +#\[.*\]\n)*( *)(pub(?:\(crate\))? )?(?:final )?(?:extern \"C\" )?(fn|struct|enum|const|trait|impl)\b(?: (\w+))?", re.M)
TOKEN = re.compile(r"\[\]|[^\s(){}\[\],;⌜⌝«»]+")  # of definitions and contracts
PATH = re.compile(r"\w+(?:::\w+)*")  # of code


class Declaration:
    """One item of a file, with the names in its text."""

    def __init__(self, path, line, names, words, kind):
        self.path, self.line, self.names, self.words, self.kind, self.lines = path, line, names, words, kind, []
        self.method = False

    def __str__(self):
        return f"{self.path.relative_to(ROOT)}:{self.line}: {' '.join(self.names)} ({self.kind})"

    @property
    def crate(self):
        return self.path.relative_to(CRATES).parts[0]

    @lru_cache(maxsize=None)
    def tokens(self):
        text, found = "\n".join(self.lines), set()
        for token in TOKEN.findall(text):
            parts = token.split(".")
            found |= {token, *parts, *map(".".join, zip(parts, parts[1:]))}
        if self.path.suffix == ".rt":
            for token in PATH.findall(text):
                found |= {token, *token.split("::")}
        return found

    def has(self, name):
        """Whether a name stands in the text, an operator by its parts too."""
        return name in self.tokens() or "◌" in (name[0], name[-1]) and self.tokens().issuperset(filter(None, name.split("◌")))


def leaves(module, text):
    """What `use` brings in by a path with braces: each name with its module, and its other name, if it has one."""
    head, braced, inside = text.strip().partition("{")
    if braced:
        parts = re.split(r",(?![^{]*\})", inside.rpartition("}")[0])
        return [leaf for part in parts if part.strip() for leaf in leaves(module + head, part)]
    path, _, alias = (module + head).partition(" as ")
    module, _, name = path.rpartition("::")
    return [(module, name, alias)] if name != "self" else [(*module.rpartition("::")[::2], alias)]


class File:
    """The items of a file, and what it imports: names, each with its module and its name there, and modules by another name."""

    def __init__(self, path):
        self.path, self.items, self.imports, self.modules = path, [], {}, {}
        (self.read_code if path.suffix == ".rt" else self.read_laws)(path.read_text())

    def take(self, text, line):
        module, names, alias = re.match(r"use (\S+?)(?:\.\{(.*)\})?(?: as (\S+))?$", text).groups()
        if alias:
            self.modules[alias] = (module, line)
        for name in filter(None, (names or "").split(", ")):
            name, _, alias = name.partition(" as ")
            self.imports[alias or name] = (module, name, line)

    def read_laws(self, text):
        levels, inside = [0], ""  # indents of the modules around a line; "head" within the head of one, "body" before its first line
        for number, line in enumerate(text.splitlines(), 1):
            line = re.sub(r"(^|\s)--(\s.*|$)", "", line).rstrip()
            indent, line = len(line) - len(line.lstrip()), line.strip()
            if not line:
                continue
            if inside == "body":
                levels.append(indent)
                inside = ""
            while indent < levels[-1]:
                levels.pop()
            begins = not inside and indent == levels[-1]
            if begins and line.startswith("use "):
                self.take(line, number)
                continue
            if begins and line.startswith(("pub mod ", "mod ", "infix")):
                continue
            if begins and line.startswith("module "):
                self.items.append(Declaration(self.path, number, [], "", "module"))
                inside = "head"
            elif begins and (match := NAMED.match(line) or SIGNATURE.match(line)):
                kind = next((kind for kind in ("record", "data", "ruleset") if kind in match[1]), "law" if match[1] in ("", "pub ") else "definition")
                self.items.append(Declaration(self.path, number, match[2].split(), match[1], kind))
            self.items[-1].lines.append(line)
            if inside == "head" and line.endswith("where"):
                inside = "body"

    def read_code(self, text):
        text = re.sub(r"//.*", "", text)
        for number, line in enumerate(text.splitlines(), 1):
            if line.startswith("ghost use "):
                self.take(line[len("ghost ") : -1], number)
        for match in re.finditer(r"^use ([^;]+);", text, re.M):
            for module, name, alias in leaves("", "".join(match[1].split("\n"))):
                self.imports[alias or name] = (module, name, text.count("\n", 0, match.start()) + 1)
        starts, given = list(ITEM.finditer(text)), False  # given: within a trait, or an `impl` of one, whose functions are called through it
        for match, end in zip(starts, [*(after.start() for after in starts[1:]), len(text)]):
            kind, whole = {"fn": "function"}.get(match[3], match[3]), text[match.start() : end]
            if kind in ("trait", "impl"):
                given = kind == "trait" or " for " in whole.partition("{")[0]
            inner = kind == "function" and match[1] != ""
            root = kind in ("trait", "impl") or "extern" in match[0] or "#[test]" in match[0] or match[4] == "main" or inner and given
            name = [] if kind in ("trait", "impl") else [match[4]]
            self.items.append(Declaration(self.path, text.count("\n", 0, match.start(3)) + 1, name, "exported" if root else (match[2] or ""), kind))
            self.items[-1].lines.append(whole)
            self.items[-1].method = inner


FILES = {path: File(path) for path in sorted([*CRATES.glob("*/specs/**/*.antt"), *CRATES.glob("*/proofs/**/*.antt"), *CRATES.glob("*/src/**/*.rt")])}
ITEMS = [item for file in FILES.values() for item in file.items]
INDEX = {(item.path, name): item for item in ITEMS for name in item.names}
METHODS = {}
for method in (item for item in ITEMS if item.method):
    METHODS.setdefault(method.names[0], []).append(method)
ON_PAGES = {name for page in PAGES for name in re.findall(r"(?<!`)`([^`\s]+)`(?!`)", page.read_text())}


@lru_cache(maxsize=None)
def file_of(module, crate):
    """The file of a module that a file of the crate names; None where it is the toolchain's or a generated one."""
    if match := re.match(r"Rattle\.(\w+)\.(.*)", module):
        path = CRATES / match[1] / (match[2].replace(".", "/") + ".antt")
    else:
        first, *parts = module.split("::")
        if not (CRATES / first).is_dir():
            first, parts = crate, [part for part in (first, *parts) if part != "crate"]
        if parts[:1] in (["specs"], ["proofs"]):
            path = CRATES / first / ("/".join(parts) + ".antt")
        else:
            path = CRATES / first / "src" / ("/".join(parts or ["lib"]) + ".rt")
    return path if path in FILES else None


def proofs_of(item):
    """What the proof of a function declares."""
    inner = [part for part in item.path.relative_to(CRATES / item.crate / "src").with_suffix("").parts if part not in ("lib", "main")]
    for path in (CRATES / item.crate / "proofs").joinpath(*inner).glob(f"**/{item.names[0]}/*.antt"):
        if path.name in PROOFS:
            yield from (proof for proof in FILES[path].items if "pub" in proof.words)


@lru_cache(maxsize=None)
def uses(item):
    file, found = FILES[item.path], []
    found += [INDEX.get((file_of(module, item.crate), name)) for here, (module, name, _) in file.imports.items() if item.has(here)]
    found += [other for other in file.items if any(item.has(name) for name in other.names)]
    for here, (module, _) in file.modules.items():
        found += [INDEX.get((file_of(module, item.crate), token[len(here) + 1 :])) for token in item.tokens() if token.startswith(here + ".")]
    for token in item.tokens() if item.path.suffix == ".rt" else ():
        module, _, name = token.rpartition("::")
        first, _, rest = module.partition("::")
        if first in file.imports:  # a module by its last name
            module = "::".join(filter(None, (*file.imports[first][:2], rest)))
        found.append(INDEX.get((file_of(module, item.crate), name)) if module else None)
        found += METHODS.get(name, []) if module or f".{name}(" in item.lines[0] or f".{name}::" in item.lines[0] else []
    return {other for other in found if other and other is not item} | ({*proofs_of(item)} if item.kind == "function" else set())


def reached():
    """What can be reached from the roots, and by which files."""
    users = {}
    todo = [item for item in ITEMS if item.words == "exported" or item.path.suffix == ".antt" and "pub" in item.words and ON_PAGES & {*item.names}]
    users = {item: set() for item in todo}
    while todo:
        item = todo.pop()
        for other in uses(item):
            if other not in users:
                users[other] = set()
                todo.append(other)
            users[other].add(item.path)
    return users


def findings():
    users = reached()
    yield from (f"{item} is not used" for item in ITEMS if item not in users and item.names)
    for file in FILES.values():
        names = [(name, line) for name, (*_, line) in file.imports.items() if not any(item.has(name) for item in file.items)]
        names += [(name, line) for name, (_, line) in file.modules.items() if not any(token.startswith(name + ".") for item in file.items for token in item.tokens())]
        yield from (f"{file.path.relative_to(ROOT)}:{line}: {name} (import) is not used" for name, line in names)
    for item, paths in users.items():
        if item.kind == "function" and "pub" in item.words and item.names[0] not in EXPLAINED:
            others = {path for path in paths if path.suffix == ".rt"} - {item.path}
            if not others:
                yield f"{item} is public for nobody"
            elif item.words == "pub " and all(path.is_relative_to(CRATES / item.crate) for path in others):
                yield f"{item} is public for its own crate alone"


def figures():
    kinds = {kind: sum(item.kind == kind for item in ITEMS) for kind in ("function", "law", "definition", "record", "data", "ruleset")}
    public = sum(item.kind == "function" and item.words in ("pub ", "exported") for item in ITEMS)
    lines = {part: sum(len(path.read_text().splitlines()) for path in FILES if path.relative_to(CRATES).parts[1] == part) for part in ("src", "specs", "proofs")}
    return "; ".join(
        (
            f"{kinds['function']} functions, {public} of them public",
            f"{kinds['law']} laws, {kinds['definition'] + kinds['record'] + kinds['data']} definitions, {kinds['ruleset']} rulesets",
            f"lines: {lines['src']} of code, {lines['specs']} of specs, {lines['proofs']} of proofs",
            f"{len([*CRATES.glob('*/must-fail/*.edit')])} edits",
        )
    )


def main():
    found = [*findings()]
    print(*found, sep="\n", end="\n" if found else "")
    print(figures())
    print(f"{len(found)} without a use, {len(EXPLAINED)} explained")
    return bool(found)


if __name__ == "__main__":
    sys.exit(main())
