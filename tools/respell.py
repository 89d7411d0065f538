#!/usr/bin/env python3
"""Brings the repository's own names in specs/, proofs/, clauses, edits and pages to today's spelling.

usage: python3 tools/respell.py        at the top, once, after port.py and before any edit by hand

Names are in snake case: countUpTo is count_up_to, and a field rank-high is rank_high. In a lemma's name a dash stays where it joins the names of two
functions, as in count-append; elsewhere it is an underscore. A lemma whose name would be a function's ends in _lem. Names of src/, exported C names, strings,
inputs and outputs keep their spelling, as do the names of today's library. Prints each old name beside its new one.
"""
import os
import re

HERE = os.path.dirname(os.path.dirname(os.path.realpath(__file__)))
NAME = re.compile(r"[^\W\d][\w'₀-₉]*(?:-[\w'₀-₉]+)*")
MADE = {"invariant-loop", "decreases-loop"}
# Lemmas that port.py brought to a function's name, since a library had their spelling.
FALLEN = ("entries_from", "first_cell", "first_run", "one_more", "row_from", "same_class", "same_from")
# Fields that would have a function's name.
CHOSEN = {"left-of": "left_over", "read-pair": "reads_pair", "read-runs": "reads_runs"}
# Words of the library's functions and constructors that a lemma's name can end in.
WORDS = set("append nil cons zero suc add mul sub div mod pow min max le lt eq ne true false and or not map length take drop set replicate reverse get_or "
            "eqb leb ltb none some count".split())


def files(ends, *folders):
    for top in folders:
        for folder, dirs, names in os.walk(os.path.join(HERE, top)):
            dirs[:] = sorted(d for d in dirs if d not in ("out", "target", ".git", "__pycache__"))
            for n in sorted(names):
                if n.endswith(ends):
                    yield os.path.join(folder, n)


def read(p):
    with open(p, encoding="utf-8") as f:
        return f.read()


def code_of(text):
    """A text of antt without its comments."""
    return re.sub(r"(?m)^\s*--.*$|\s--\s.*$", "", text)


def of_function(p):
    """Whether a file is the proof of a function of src/, which cites names that the toolchain makes."""
    return os.path.basename(p) in ("Proof.antt", "Answers.antt", "Invariants.antt")


def snake(word):
    word = re.sub(r"(?<=[a-z0-9])([A-Z])", r"_\1", word)
    word = re.sub(r"(?<=[A-Z])([A-Z])(?=[a-z])", r"_\1", word)
    return word.lower()


def imported(text):
    """The names that a file takes from the library."""
    got = set()
    for path, names in re.findall(r"use ([\w.'+-]+)\.\{([^}]*)\}", text):
        if not re.match(r"Rattle\.(?!std\b|core\b)", path):
            got |= {n.split(" as ")[0].strip() for n in names.split(",")}
    return got


def collected():
    """The old names, and which of them are functions of specs/ and which are fields or constructors."""
    names, functions, fields, plain = set(), set(), set(), set()
    for p in files(".antt", "crates"):
        text = read(p)
        code = code_of(text)
        outside = imported(text)
        made = of_function(p)
        code = re.sub(r"\buse [\w.'+-]+", "use", code)
        declared = set(re.findall(r"(?m)^\s*(?:(?:pub|abbrev|unfoldable|pattern|ruleset) )*([^\W\d][\w'₀-₉-]*)\s*(?=[:(=]| [^\s].* : )", code))
        bound = set(re.findall(r"(?:let|λ|\() ?([^\W\d][\w'₀-₉-]*)", code))
        for n in NAME.findall(code):
            if n in outside or n in MADE:
                continue
            if not n[0].islower():
                continue
            if "-" in n or re.search("[a-z0-9][A-Z]", n):
                if not made or n in declared or n in bound:
                    names.add(n)
            else:
                plain.add(n)
        if "/specs/" in p:
            functions |= set(re.findall(r"(?m)^(?:(?:pub|abbrev|unfoldable) )+([^\W\d][\w'₀-₉]*) :", code))
        for body in re.findall(r"(?ms)^(?:pub )?(?:record|data) .*? where\n((?:  .*\n|\n)*)", code):
            fields |= set(re.findall(r"(?m)^\s+(?:pub )?([^\W\d][\w'₀-₉-]*)", body))
    return names, functions, fields, plain


def main():
    for p in files(".antt", "crates"):
        if not of_function(p):
            text = read(p)
            t = re.sub(r"(?<![\w'.-])(" + "|".join(FALLEN) + r")(?![\w'-])", r"\1_lem", text)
            if t != text:
                open(p, "w", encoding="utf-8").write(t)
    names, functions, fields, plain = collected()
    known = {snake(f) for f in functions} | WORDS
    library = set()
    for p in files(".antt", "crates"):
        library |= imported(read(p))
    new = {}
    for n in sorted(names):
        if n in CHOSEN:
            new[n] = CHOSEN[n]
            continue
        if "-" not in n:
            new[n] = snake(n)
            continue
        parts = [snake(x) for x in n.split("-")]
        if n in fields or any(x not in known for x in parts):
            # A dash stays where both sides are names as a whole; else it is an underscore.
            whole = "_".join(parts)
            if n not in fields:
                for i in range(1, len(parts)):
                    a, b = "_".join(parts[:i]), "_".join(parts[i:])
                    if a in known and b in known:
                        whole = a + "-" + b
                        break
            new[n] = whole
        else:
            new[n] = "-".join(parts)
    taken = {}
    for n, t in new.items():
        taken.setdefault(t, []).append(n)
    for t, olds in taken.items():
        here = t in plain or t in library
        rank = sorted(olds, key=lambda o: ("-" in o, o))
        for o in rank[0 if here else 1:]:
            if "-" in o or not here:
                new[o] = t + "_lem"
                print(f"falls together: {o} is {t}_lem, since {t} is {'there' if here else rank[0]}")
            else:
                print(f"falls together: {o} and {t}: look")
    new = {o: t for o, t in new.items() if o != t}
    for o in sorted(new):
        print(f"{o}\t{new[o]}")

    def turn(text, outside, made, dashed=True):
        def one(m):
            w = m.group()
            if w[0] == '"' or w in outside or w in MADE or w not in new or ("-" in w and not dashed):
                return w
            return new[w]
        return re.sub(r'"(?:[^"\\\n]|\\.)*"|' + NAME.pattern, one, text)

    for p in files(".antt", "crates"):
        text = read(p)
        t = turn(text, imported(text), of_function(p))
        t = t.replace("′", "'")
        if t != text:
            open(p, "w", encoding="utf-8").write(t)
    for p in files(".rt", "crates"):
        text = read(p)
        out, clause = [], 0
        for line in text.split("\n"):
            s = line.strip()
            ghost = s.startswith(("ghost ", "requires", "ensures", "//")) or clause > 0
            if s.startswith(("requires", "ensures", "ghost ")) or clause > 0:
                clause += line.count("{") - line.count("}")
                clause = max(clause, 0)
            out.append(turn(line, set(), False, True) if ghost else line)
        t = "\n".join(out)
        if t != text:
            open(p, "w", encoding="utf-8").write(t)
    for p in files((".edit",), "crates"):
        text = read(p)
        outside = set()
        m = re.search(r"(?m)^file: (\S+)", text)
        target = os.path.join(os.path.dirname(os.path.dirname(p)), m.group(1)) if m else None
        if target and target.endswith(".antt") and os.path.exists(target):
            outside = imported(read(target))
        t = turn(text, outside, False).replace("′", "'")
        if t != text:
            open(p, "w", encoding="utf-8").write(t)
    for p in files((".md",), "docs", "bindings"):
        page(p, turn)
    page(os.path.join(HERE, "README.md"), turn)


def page(p, turn):
    """In a page the names stand between backticks."""
    text = read(p)
    fenced = re.sub(r"(?ms)^```antt.*?^```", lambda m: turn(m.group(), set(), False).replace("′", "'"), text)
    t = re.sub(r"`[^`\n]+`", lambda m: turn(m.group(), set(), False), fenced)
    if t != text:
        open(p, "w", encoding="utf-8").write(t)


if __name__ == "__main__":
    main()
