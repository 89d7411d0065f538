"""The pages as text: sections, rows of tables, names in code and paths. For scripts/pages.py and scripts/promises.py.

A path in backticks has a slash or one of SUFFIXES. It is looked for below the root, crates/, crates/hypoplactic/, the page's directory, each
directory that its section or one around it names in backticks with a slash at the end, and the directory of the path before it in its line; what is
MADE is not. A crate and a name are also a must-fail edit: `lines/one_line_for_all`.
"""
import re
from pathlib import Path

ROOT = Path(__file__).resolve().parent.parent
CRATES = ROOT / "crates"
README, CHANGES = ROOT / "README.md", ROOT / "CHANGELOG.md"
PORT, DESIGN, LOOK, PROMISES, REQUESTS, SCOPE, TESTS = (
    ROOT / "docs" / name
    for name in ("PORT.md", "DESIGN-PASS.md", "LOOK-BACK.md", "PROMISES.md", "REQUESTS.md", "SCOPE.md", "TESTS.md")
)
SUFFIXES = (".antt", ".rt", ".py", ".md", ".h", ".txt")
MADE = r"target/|crates/\w+/out/|PREFIX/|luchtrav/native/"  # built or installed


def pages():
    """All pages but the notes, docs/PORT.md, docs/DESIGN-PASS.md and docs/LOOK-BACK.md, which say what was."""
    names = "README.md", "CHANGELOG.md", "docs/*.md", "docs/decisions/*.md", "docs/promises/*.md", "bindings/python/*.md"
    return [page for name in names for page in sorted(ROOT.glob(name)) if page not in (PORT, DESIGN, LOOK)]


def tree(*tops):
    """The files below some directories, but what is made there."""
    found = [file for top in tops for file in sorted((ROOT / top).rglob("*"))]
    return [file for file in found if file.is_file() and not re.match(MADE, file.relative_to(ROOT).as_posix())]


def promises():
    """docs/PROMISES.md and the pages that it leads to."""
    return [page for page in pages() if page == PROMISES or page.parent.name == "promises"]


def notes():
    return [*sorted(ROOT.glob("docs/notes/*.md")), PORT, DESIGN, LOOK]


def prose(page):
    """A page without its blocks of code."""
    return re.sub(r"(?ms)^```.*?^```$|^    [^\n]*", "", page.read_text())


def sections(page):
    """Each section: its own text, and that text below what the headings around it say first."""
    around = []
    for part in re.split(r"^(?=#+ )", prose(page), flags=re.M):
        level = len(re.match("#*", part).group())
        around = [(above, text) for above, text in around if above < level] + [(level, part)]
        yield part, "\n".join(text for _, text in around)


def titles(page):
    return re.findall(r"^#+ +(.*)$", prose(page), re.M) if page.suffix == ".md" and page.exists() else []


def rows(text):
    """The rows of tables that have a column of files, each as its cells."""
    tables = re.findall(r"^\|.*\| file \|\n\|[-|]+\n((?:\|.*\n?)+)", text, re.M)
    return [row.strip("| ").split(" | ") for table in tables for row in table.splitlines()]


def code(text):
    return re.findall(r"`([^`\n]+)`", text)


def paths(text):
    return [span for span in code(text) if ("/" in span or span.endswith(SUFFIXES)) and not re.match(MADE + r"|/|.*[\s(<]", span)]


def find(path, page, context, before=""):
    """The files of a path, in which a `*` stands for any name."""
    bases = [ROOT, CRATES, CRATES / "hypoplactic", page.parent]
    named = [directory for directory in [*paths(context), before] if directory.endswith("/")]
    bases += [found for directory in named for base in bases for found in base.glob(directory.rstrip("/"))]
    edit = CRATES.glob(re.sub(r"^(\w+)/(\w+)$", r"\1/must-fail/\2.edit", path))
    return sorted({found.resolve() for base in bases for found in base.glob(path.rstrip("/"))} | {found.resolve() for found in edit})


def search(form, name, text):
    return re.search(form.replace("NAME", re.escape(name)), text, re.M | re.S)
