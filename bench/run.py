#!/usr/bin/env python3
"""Builds the benchmark, runs it under callgrind and prints instructions a letter as Markdown.

    bench/run.py            prints
    bench/run.py write      writes the same into docs/SPEED-TABLES.md, from its mark on

It needs rustc, valgrind and target/library/libluchtrav.a; its own files go to target/bench/.
"""

import subprocess
import sys
from contextlib import redirect_stdout
from pathlib import Path

ROOT = Path(__file__).resolve().parent.parent
LIBRARY = ROOT / "target" / "library" / "libluchtrav.a"
PLACE = ROOT / "target" / "bench"
PAGE = ROOT / "docs" / "SPEED-TABLES.md"
MARK = "<!-- From here on as `bench/run.py write` writes it. -->\n\n"
FLAGS = ["--edition=2021", "-Copt-level=3", "-Ccodegen-units=1"]

RANKS = (4, 16, 64)
LETTERS = (256, 512, 1024)
FEW = (5, 10, 20)
TOLERANCE = 0.1
LARGE = 1.2


def run(command):
    """Runs a command, and ends with it where it fails: it has said why."""
    if subprocess.run(command).returncode:
        sys.exit(1)


def build():
    """The benchmark's program."""
    if not LIBRARY.exists():
        sys.exit(f"no {LIBRARY}: scripts/library makes it")
    PLACE.mkdir(parents=True, exist_ok=True)
    program = PLACE / "bench"
    source = ROOT / "bench" / "bench.rs"
    run(["rustc", *FLAGS, f"-Clink-arg={LIBRARY}", "-o", program, source])
    return program


def measure(program):
    """The instructions of each call, without those of counting itself."""
    out = PLACE / "callgrind.out"
    run(
        [
            "valgrind",
            "--tool=callgrind",
            f"--callgrind-out-file={out}",
            "--combine-dumps=yes",
            f"--log-file={PLACE / 'callgrind.log'}",
            program,
        ]
    )
    found, units, name = {}, {}, None
    for line in out.read_text().splitlines():
        if line.startswith("desc: Trigger: Client Request: "):
            name = line.rsplit(" ", 1)[1].split(",")
        elif line.startswith("totals: ") and name:
            operation, rank, letters, per, kind = name
            found[operation, int(rank), int(letters), kind] = int(line.split()[1])
            units[operation, int(rank), int(letters)] = int(per)
            name = None
    itself = found.pop(("nothing", 0, 0, "nothing"))
    return Counts({key: count - itself for key, count in found.items()}, units)


def table(head, rows):
    """A Markdown table; every column but the first is of numbers."""
    print("| " + " | ".join(head) + " |")
    print("|---|" + "---:|" * (len(head) - 1))
    for cells in rows:
        print("| " + " | ".join(str(cell) for cell in cells) + " |")
    print()


def sizes(kind, numbers=LETTERS):
    return [f"{kind} {letters:,}" for letters in numbers]


class Counts:
    """The counts of one run, in the order of the operations: those on many letters, and those on the words of a class."""

    def __init__(self, found, units):
        self.found = found
        self.units = units
        self.operations = list(dict.fromkeys(key[0] for key in found if key[2] in LETTERS))
        self.of_classes = list(dict.fromkeys(key[0] for key in found if key[2] in FEW))

    def has(self, operation, kind):
        return (operation, RANKS[0], LETTERS[0], kind) in self.found

    def numbers(self, operation):
        """How many letters an operation was measured on."""
        return FEW if operation in self.of_classes else LETTERS

    def totals(self, operation, rank, kind):
        return [self.found[operation, rank, n, kind] for n in self.numbers(operation)]

    def costs(self, operation, rank, kind):
        """Instructions for each unit."""
        totals = self.totals(operation, rank, kind)
        return [
            total / self.units[operation, rank, n] for total, n in zip(totals, self.numbers(operation))
        ]

    def ratios(self, operation, rank, kind, base):
        totals = self.totals(operation, rank, kind)
        return [a / b for a, b in zip(totals, self.totals(operation, rank, base))]


def print_figures(counts, operations, *columns, numbers=LETTERS):
    """A table of operations. A column is its heading, a kind of call, the kind that it is set over or None for the cost of a unit, and how many digits."""

    def cells(operation, rank):
        for _, kind, base, digits in columns:
            figures = counts.ratios(operation, rank, kind, base) if base else counts.costs(operation, rank, kind)
            yield from (f"{figure:,.{digits}f}" for figure in figures)

    rows = [[f"`{operation}`", rank, *cells(operation, rank)] for operation in operations for rank in RANKS]
    table(["operation", "rank", *(size for heading, *_ in columns for size in sizes(heading, numbers))], rows)


def print_costs(counts):
    print("## Instructions a letter\n")
    print_figures(counts, counts.operations, ("kernel", "kernel", None, 2), ("Rust", "plain", None, 2), ("ratio", "kernel", "plain", 2))
    print(
        "`same_class` and `compare_weights`: for each letter of both words, or cell of both tableaux; `same_class:64` has"
        " the second word at rank 64. `product`: for each cell of both factors together. `insert_letter` and"
        " `remove_oldest`: for each cell of the pair before the call; `remove_oldest` takes the first cell out,"
        " `remove_oldest:last` the last. `read_run_line`: for each item of the line. `write_refusal_line`: for the whole"
        " call.\n"
    )


def print_classes(counts):
    print("## Words of a class: instructions a call\n")
    columns = ("kernel", "kernel", None, 0), ("Rust", "plain", None, 0), ("ratio", "kernel", "plain", 2)
    print_figures(counts, counts.of_classes, *columns, numbers=FEW)


def print_beside(counts, kind, title, *columns):
    """The operations that have figures of another way to do the same."""
    print(f"## {title}\n")
    print_figures(counts, [operation for operation in counts.operations if counts.has(operation, kind)], *columns)


def print_others(counts):
    """Plain insertion; the two ribbons of a word in one call, and by two calls of plain Rust, each for one of them; a departure, and the same by the way
    back to the word and the pair of its other letters."""
    print_beside(counts, "insertion", "Plain insertion", ("insertion", "insertion", None, 0), ("ratio to kernel", "insertion", "kernel", 0))
    columns = ("kernel", "kernel", None, 2), ("Rust", "plain", None, 2), ("Rust, two calls", "apart", None, 2)
    print_beside(counts, "apart", "The pair in one call, and its two ribbons apart", *columns)
    columns = ("kernel", "kernel", None, 2), ("two calls", "afresh", None, 2), ("ratio to kernel", "afresh", "kernel", 2)
    print_beside(counts, "afresh", "A departure, and the window made afresh", *columns)


def print_growth(counts):
    """Where the kernel's instructions do not grow as the letters do."""
    rows = []
    for operation in counts.operations:
        for rank in RANKS:
            if 2 * counts.units[operation, rank, LETTERS[0]] > counts.units[operation, rank, LETTERS[-1]]:
                continue
            few, some, many = counts.totals(operation, rank, "kernel")
            growth = (many - some) / (some - few)
            if abs(growth / 2 - 1) > TOLERANCE:
                rows.append([f"`{operation}`", rank, *(f"{total:,}" for total in (few, some, many)), f"{growth:.2f}"])
    print("## Growth\n")
    print(
        "What 512 more letters cost, over what 256 more cost before them, is 2"
        f" within {TOLERANCE:.0%}{', except:' if rows else ' everywhere.'}\n"
    )
    if rows:
        table(["operation", "rank", *sizes("kernel"), "growth"], rows)


def print_large(counts):
    """The operations to be looked into."""
    print(f"## Above {LARGE} times plain Rust\n")
    largest = {
        operation: max(
            ratio
            for rank in RANKS
            for ratio in counts.ratios(operation, rank, "kernel", "plain")
        )
        for operation in counts.operations + counts.of_classes
    }
    large = {operation: ratio for operation, ratio in largest.items() if ratio > LARGE}
    for operation, ratio in large.items():
        print(f"- `{operation}`: up to {ratio:.2f}")
    if not large:
        print("None.")


def print_all(counts):
    print_costs(counts)
    print_classes(counts)
    print_others(counts)
    print_growth(counts)
    print_large(counts)


def main():
    counts = measure(build())
    if sys.argv[1:] != ["write"]:
        return print_all(counts)
    prose = PAGE.read_text().split(MARK)[0]
    with PAGE.open("w") as page, redirect_stdout(page):
        print(prose, MARK, sep="", end="")
        print_all(counts)


if __name__ == "__main__":
    main()
