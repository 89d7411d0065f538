#!/usr/bin/env python3
"""Prints what each function, file of definitions and file of theorems costs the gate: the seconds of its check, and these times how often the gate checks it.

    python3 scripts/prices.py              # every crate, and the 30 dearest
    python3 scripts/prices.py NAME ..      # these crates, whole

A crate is checked from nothing over an incremental folder, where the checker leaves a file for each module as soon as it is done. The time since the file
before it is the module's; a module that is the first to need another crate bears the loading of it. The gate checks a crate once, and once more for each of its
must-fail edits. What stands below a crate has to be proved already (`rt check`), and the machine should do nothing else. A function's modules are
summed up: `Lts` among them has a table of the locals for each statement of the compiled function, and takes more than half of the time.
"""
import shutil
import subprocess
import sys
from pathlib import Path

ROOT = Path(__file__).resolve().parent.parent
CRATES = ROOT / "crates"
DEAREST = 30


def owner(module):
    """The function that a module was made for, or the file of definitions or theorems that it is; what other crates see of a crate is one row."""
    if module.startswith("Rattle"):
        return "passed on"
    names = module.split(".")
    if names[0] == "proofs" and names[1:2] != ["Theory"]:
        while len(names) > 2 and names[-1][0].isupper():
            names.pop()
        names.pop(0)
    return ".".join(names)


def prices(crate):
    """Seconds of each function and file of a crate, checked from nothing."""
    folder = CRATES / crate / "out" / "incremental"
    shutil.rmtree(folder, ignore_errors=True)
    checked = subprocess.run(["rt", "check", "--jobs", "1"], cwd=CRATES / crate, capture_output=True, text=True)
    if checked.returncode:
        sys.exit(checked.stdout[-2000:] + checked.stderr[-2000:])
    done = sorted((file.stat().st_mtime_ns, file.stem) for file in folder.glob("*/*.oantt"))
    seconds = {}
    for (before, _), (after, module) in zip(done, done[1:]):
        name = owner(module.removeprefix(f"Rattle-{crate}-"))
        seconds[name] = seconds.get(name, 0) + (after - before) / 1e9
    return seconds


def main(named):
    crates = named or [line.split(":")[0].split()[0] for line in (ROOT / "crates.txt").read_text().splitlines() if ":" in line]
    found = []
    for crate in crates:
        times = 1 + len([*(CRATES / crate / "must-fail").glob("*.edit")])
        found += [(once * times, once, f"{crate} {name}") for name, once in prices(crate).items()]
    shown = sorted(found, reverse=True)[: None if named else DEAREST]
    print("  in all    once")
    for whole, once, name in shown:
        print(f"{whole:8.2f}{once:8.2f}  {name}")
    print(f"{sum(row[0] for row in found):8.1f}{sum(row[1] for row in found):8.1f}  {len(found)} functions and files of {len(crates)} crates")


if __name__ == "__main__":
    main(sys.argv[1:])
