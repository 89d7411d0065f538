"""Inputs and expected output of the program crates cases and operations.

    python3 scripts/expected.py write    makes them: in crates/cases/ {data/*,args,stdout}, in crates/operations/ {args,stdout}, from the calls in data/table
    python3 scripts/expected.py check    makes them in memory and says whether what stands in the repository is the same (exit status 1 if not), and halves
    python3 scripts/expected.py halves   whether the program's P lines are its former T and N lines (crates/cases/former), and all else as it was

The output comes from the plain Python beside this file (replies.py and what it imports), which follows the documents and their open points and calls no code
of the kernel. No file of Rattle is made here.
"""
import os
import sys

sys.dont_write_bytecode = True

from former_lines import halves
from header import ROOT
from lines import program
from operation_calls import came_of, table_of
from program_inputs import program_inputs


def files_of_cases():
    """Every input under its name, the names as arguments, and for each its name and what the program prints."""
    inputs = program_inputs()
    files = {"crates/cases/data/" + name: text for name, text in inputs.items()}
    files["crates/cases/args"] = "".join(name + "\n" for name in inputs).encode()
    files["crates/cases/stdout"] = b"".join(name.encode() + b"\n" + program(text) for name, text in inputs.items())
    return files


def files_of_calls():
    """The name of the table as the argument, and each of its lines with what came of it."""
    return {"crates/operations/args": b"table\n", "crates/operations/stdout": "".join(map(came_of, table_of())).encode()}


def standing():
    """The files that stand in the repository where expected ones belong."""
    names = ["crates/%s/%s" % (crate, name) for crate in ("cases", "operations") for name in ("args", "stdout")]
    names += ["crates/cases/data/" + name for name in sorted(os.listdir(os.path.join(ROOT, "crates/cases/data")))]
    found = {}
    for name in names:
        if os.path.exists(os.path.join(ROOT, name)):
            with open(os.path.join(ROOT, name), "rb") as file:
                found[name] = file.read()
    return found


def write(expected):
    """Makes the files, and removes those that are expected no more."""
    for name in standing().keys() - expected.keys():
        os.remove(os.path.join(ROOT, name))
    for name, content in expected.items():
        os.makedirs(os.path.dirname(os.path.join(ROOT, name)), exist_ok=True)
        with open(os.path.join(ROOT, name), "wb") as file:
            file.write(content)
    print("%d files written" % len(expected))


def check(expected):
    """Says which files differ, are missing or stand there for nothing, and answers whether there are none."""
    found = standing()
    wrong = sorted(name for name in expected.keys() | found.keys() if expected.get(name) != found.get(name))
    for name in wrong:
        print("not as expected: " + name)
    print("%d files, %d not as expected" % (len(expected), len(wrong)))
    return not wrong


def main():
    expected = {**files_of_cases(), **files_of_calls()}
    if sys.argv[1:] == ["write"]:
        write(expected)
    elif sys.argv[1:] == ["check"]:
        sys.exit(0 if check(expected) & halves() else 1)
    elif sys.argv[1:] == ["halves"]:
        sys.exit(0 if halves() else 1)
    else:
        sys.exit(__doc__)


main()
