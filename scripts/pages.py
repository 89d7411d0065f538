#!/usr/bin/env python3
"""Holds the pages to the tree: README.md, CHANGELOG.md, those of docs/ and bindings/python/*.md; of docs/notes/*.md their links.

    python3 scripts/pages.py      # one line of figures; or each fault in a line, and exit status 1

What a path in backticks is, scripts/page_texts.py says; what scripts/promises.py holds promises to, that file. A name in backticks stands somewhere in the tree.
A block whose fence names a file has lines of that file, in its order, and each declaration to its end. Beside the pages: each text that an edit replaces is there, and the structs of the header
have the fields of the code's.
"""
import re
import sys
from pathlib import Path

sys.dont_write_bytecode = True

import header
import promises
from page_texts import CHANGES, CRATES, DESIGN, PORT, README, REQUESTS, ROOT, SCOPE, SUFFIXES, TESTS, code, find, notes, pages, paths, prose, rows, sections, titles, tree

SOURCES = (".antt", ".rt", ".py", ".h", ".c", ".rs", "")
ABSENT = {"memcpy", "memmove", "memset", "popleft", "LUCHTRAV_RANK", "tableau_of_word", "recording_of_word"}  # of C and Python, and what is said not to be here
CITATION = re.compile(r'document 01(?:\'s table)?,? \(?((?:"[^"]+"(?:, )?)+)')  # as in: document 01, "Lines", "The program"


def check_paths():
    for page in pages():
        for own, context in sections(page):
            for line in own.split("\n"):
                before = ""
                for path in paths(line):
                    if not find(path, page, context, before):
                        yield page, "no such file: " + path
                    before = path[:path.rfind("/") + 1] or before


def check_names():
    """A name in code stands in the tree, but in CHANGELOG.md, which says what was."""
    files = [file for file in tree("crates", "include", "scripts", "bindings", "bench") if file.suffix in SOURCES]
    text = "\n".join(file.read_text(errors="replace") for file in files)
    known = {file.name for file in CRATES.iterdir()} | {name for form in (r"\w+", r"[\w'-]+") for name in re.findall(form, text)} | ABSENT
    for page in [page for page in pages() if page != CHANGES]:
        yield from ((page, "no such name: " + span) for span in code(prose(page)) if re.fullmatch(r"[\w'-]+", span) and span not in known)


def check_old_texts():
    """Each text that an edit replaces stands once in its file, what it has replaced before taken into account."""
    for edit in sorted(CRATES.glob("*/must-fail/*.edit")):
        for file, changes in re.findall(r"^file: (.*)\n((?:old: .*\nnew: .*\n?)+)", edit.read_text(), re.M):
            text = (edit.parent.parent / file).read_text()
            for old, new in re.findall(r"^old: (.*)\nnew: (.*)$", changes, re.M):
                if text.count(old) != 1:
                    yield edit, f"stands {text.count(old)} times in {file}: {old}"
                text = text.replace(old, new)


def check_structs():
    """The fields of each reply stand in the header in the order of the code, which no contract fixes."""
    told = header.fields_of(re.sub(r"/\*.*?\*/", "", Path(header.HEADER).read_text(), flags=re.S))
    text = (CRATES / "structs/src/replies.rt").read_text()
    for name, body in re.findall(r"^#\[repr\(C\)\]\n#\[derive\([\w, ]+\)\]\npub struct (\w+)Reply \{\n(.*?)^\}", text, re.M | re.S):
        fields = re.findall(r"^    pub (\w+): (?:usize|u64),$", body, re.M)
        if told.pop("luchtrav_" + name.lower(), None) != fields:
            yield Path(header.HEADER), f"fields other than those of {name}Reply, {fields}"
    yield from ((Path(header.HEADER), "no struct of the code: " + name) for name in told)


def check_lengths():
    most = {README: 150, PORT: 300, DESIGN: 300}  # the first is read first, the others are records
    told = [(page, len(page.read_text().splitlines()), most.get(page, 250)) for page in pages() + notes()]
    yield from ((page, f"{lines} lines, more than {allowed}") for page, lines, allowed in told if lines > allowed)


def check_quotations():
    for page in pages():
        for path, block in re.findall(r"^```\S* (\S+)\n(.*?)^```$", page.read_text(), re.M | re.S):
            left, begun = (ROOT / path).read_text().split("\n") if (ROOT / path).exists() else [], False
            for line in block.split("\n"):  # the last is empty, and ends what was begun
                place = left.index(line) if line in left else len(left)
                passed = [other for other in left[:place] if not re.match(r"\s*(--|//)", other)]
                if place == len(left) or begun and passed and passed[0].startswith(" "):
                    yield page, f"not in {path}, or not in its order, or a declaration is cut off before: {line or 'the end'}"
                left, begun = left[place + 1:], True


def check_links():
    for page in pages() + notes():
        for target in re.findall(r"\]\(([^)\s]+)\)", prose(page)):
            path, _, anchor = target.partition("#")
            aim = page.parent / path if path else page
            anchors = [re.sub(r"[^\w -]", "", title.lower()).replace(" ", "-") for title in titles(aim)]
            if "://" not in target and (not aim.exists() or anchor and anchor not in anchors):
                yield page, "a link that leads nowhere: " + target


def cases(*lists, crates=("outcomes", "examples", "products", "changed_places", "ranks", "numbering", "letter_counts", "former_lines", "windows")):
    """How many computed cases some lists have."""
    text = "".join(file.read_text() for crate in crates for file in CRATES.glob(crate + "/specs/*.antt"))
    bodies = [re.search(rf"^{name} =(.*?)(?=^\S|\Z)", text, re.M | re.S).group(1) for name in lists]
    return sum(len(re.findall(r"^ *(?:∷ )?case\b", body, re.M)) for body in bodies)


# What pages say of the tree in figures: the words about a number, its count, and the only pages where these words mean that.
FIGURES = [
    ("# must-fail edits", len(promises.EDITS), None),
    ("# crates", len(list(CRATES.iterdir())), None),
    ("# (?:C )?functions", len(promises.EXPORTED), None),
    ("# files", len(list(CRATES.glob("cases/data/*"))), [README, TESTS]),
    ("# calls", sum(len(table.read_text().splitlines()) for table in CRATES.glob("*/data/table")), [README, TESTS]),
    ("# starred cases", cases("starred_cases"), None),
    ("# worked examples", cases("worked_cases"), None),
    ("# checked words", cases("refusal_cases"), None),
    ("# of products", cases("product_cases", "product_refusals", "product_limits"), [README, TESTS]),
    ("# of changed places", cases("place_cases"), [README, TESTS]),
    ("# of two ranks", cases("rank_cases"), [README, TESTS]),
    ("# of sizes and numbers", cases("number_cases"), [README, TESTS]),
    ("# of two tableaux", cases("tableaux_cases"), [README, TESTS]),
    ("# of former lines", cases("conversion_cases"), [README, TESTS]),
    ("# of windows", cases("departure_cases", "departure_refusals", "stream_cases"), [README, TESTS]),
    ("# of C lines", cases("writing_cases", "reading_cases", "refusal_cases", "conversion_cases", crates=["run_lines"]), [README, TESTS]),
    ("# of Young tableaux", cases("young_cases", "way_back_cases", "insert_young_cases", "young_refusals", crates=["plactic_outcomes"]), [README, TESTS]),
    ("# (?:more )?(?:cases|fix)", cases("order_cases", "value_cases", "count_cases", "line_cases", "shared_cases"), [README, TESTS]),
]


def check_figures():
    for words, count, only in FIGURES:
        form = words.replace("#", r"(?<![\d,])(\d+(?:,\d{3})*)")
        told = [(page, said) for page in only or pages() for said in re.findall(form, re.sub(r"\s+", " ", page.read_text()), re.I)]
        yield from ((page, f'"{words.replace("#", said)}", where the tree has {count}') for page, said in told if int(said.replace(",", "")) != count)
        if not told:
            yield (only or [README])[0], f'no page says how many: "{words}"'


def check_citations():
    """A part of document 01 that the tree cites is a heading of docs/SCOPE.md (more than five words are a sentence, not a heading), a request one of docs/REQUESTS.md."""
    files = [file for file in tree("crates", "include", "scripts", "bindings") if file.suffix in SUFFIXES]
    texts = [re.sub(r"\s+(?:--|//|#|\*)?\s*", " ", file.read_text()) for file in files]
    cited = {title for text in texts for quoted in CITATION.findall(text) for title in re.findall('"([^"]+)"', quoted)}
    yield from ((SCOPE, f'cited, and no heading: "{title}"') for title in sorted(cited - set(titles(SCOPE))) if len(title.split()) <= 5)
    asked = {name for text in texts for name in re.findall(r"document 02, (N\d+)", text)}
    told = {title.split(".")[0] for title in titles(REQUESTS)}
    yield from ((REQUESTS, "cited, and no heading: " + name) for name in sorted(asked - told))


def check_version():
    """The first heading of CHANGELOG.md has the header's version."""
    if not re.search(rf"\A[^#]*# [^#]*## {re.escape(header.version())} ", CHANGES.read_text()):
        yield CHANGES, "the first version is not the header's, " + header.version()


def main():
    checks = [check for module in (globals(), vars(promises)) for name, check in module.items() if name.startswith("check_")]
    faults = [f"{page.relative_to(ROOT)}: {fault}" for check in checks for page, fault in check()]
    told = len(promises.all_rows()), len(promises.functions()), len(promises.EDITS)
    print("\n".join(faults) or "%d pages, %d rows, %d functions, %d edits" % (len(pages()), *told))
    sys.exit(1 if faults else 0)


if __name__ == "__main__":
    main()
