"""The commands of README.md, run as they are written.

    python3 scripts/readme.py              README.md of the repository; exit status 1 where something is not as the page says
    python3 scripts/readme.py PAGE         another page

By the language that a fenced block of the page names:

    sh        Its lines are run, in one shell that ends at the first failure, in the root of the repository. The environment has PATH, LANG and a HOME
              of its own below target/, and nothing else. Lines of SKIPPED are not run.
    text      Directly after a block of sh (nothing but empty lines between): the last lines that this block prints, where all of it is run. Elsewhere
              it is a picture.
    c         The text of bindings/c/example.c, byte for byte.
    python    Lines at the prompt: all of the page together, one after the other, are run as a doctest, with the package as it lies in
              bindings/python.

Other blocks are left alone. The blocks are taken in the order of the page, so a block finds what those before it made; Python comes last.
"""
import os
import re
import subprocess
import sys
from collections import namedtuple

ROOT = os.path.dirname(os.path.dirname(os.path.abspath(__file__)))
SCRATCH = os.path.join(ROOT, "target", "readme")
EXAMPLE = os.path.join(ROOT, "bindings", "c", "example.c")

# Lines that begin so are not run, and why.
SKIPPED = {
    ".ci/run": "the gate, which takes long and is run by itself",
    "scripts/packages": "it runs this script",
    "bench/run.py": "it needs rustc and valgrind, and takes long",
    "python3 bench/": "it needs rustc and valgrind, and takes long",
    "python3 scripts/drawn": "scripts/packages runs it, after this script",
    "python3 scripts/wrong_kernels.py": "it takes long, and tests the tests",
}

Block = namedtuple("Block", "language line text follows")


def blocks_of(page):
    """The fenced blocks of a page: language, line of the fence, text, and whether only empty lines part it from the block before."""
    blocks, end = [], None
    for fence in re.finditer(r"^```(\w+)\n(.*?)^```$\n?", page, re.M | re.S):
        follows = end is not None and not page[end : fence.start()].strip()
        blocks.append(Block(fence[1], page.count("\n", 0, fence.start()) + 1, fence[2], follows))
        end = fence.end()
    return blocks


def environment():
    return {"PATH": os.environ["PATH"], "LANG": "C.UTF-8", "HOME": SCRATCH}


def ran(arguments, **more):
    """The status of a command, and what it printed, errors among it."""
    came = subprocess.run(
        arguments, cwd=ROOT, env={**environment(), **more}, stdin=subprocess.DEVNULL, stdout=subprocess.PIPE, stderr=subprocess.STDOUT,
        universal_newlines=True,
    )
    return came.returncode, came.stdout


# ---- blocks


def runnable(block):
    """The lines of a block of sh that are run; all of them are printed."""
    lines = []
    for line in block.text.splitlines():
        reason = next((why for start, why in SKIPPED.items() if line.startswith(start)), None)
        print("    " + ("not run: %s (%s)" % (line, reason) if reason else line), flush=True)
        lines += [] if reason else [line]
    return lines


def shell(lines, expected):
    """What is wrong with lines of sh and what they print at the end, or nothing."""
    status, printed = ran(["sh", "-e", "-c", "\n".join(lines)])
    if status != 0:
        return "status %d\n%s" % (status, printed)
    if not ("\n" + printed).endswith("\n" + expected):
        return "it does not end in\n%sbut printed\n%s" % (expected, printed)
    return None


def example(block):
    """What is wrong with a block of C, or nothing."""
    with open(EXAMPLE) as file:
        return None if file.read() == block.text else "it is not the text of bindings/c/example.c"


def prompt(blocks):
    """What is wrong with the Python of the page, at one prompt, or nothing."""
    if not all(">>> " in block.text for block in blocks):
        return "a block without a prompt"
    path = os.path.join(SCRATCH, "prompt.txt")
    with open(path, "w") as file:
        file.write("\n".join(block.text for block in blocks))
    status, printed = ran([sys.executable, "-B", "-m", "doctest", path], PYTHONPATH=os.path.join(ROOT, "bindings", "python"))
    return printed or "status %d" % status if status != 0 else None


def main():
    path = sys.argv[1] if len(sys.argv) > 1 else os.path.join(ROOT, "README.md")
    with open(path) as file:
        blocks = blocks_of(file.read())
    os.makedirs(SCRATCH, exist_ok=True)
    came = []

    def judge(block, wrong):
        came.append(wrong)
        print("line %d, %s: %s" % (block.line, block.language, wrong or "as the page says"), flush=True)

    for block, after in zip(blocks, blocks[1:] + [None]):
        if block.language == "sh":
            lines = runnable(block)
            held = after and after.language == "text" and after.follows and len(lines) == block.text.count("\n")
            if lines:
                judge(block, shell(lines, after.text if held else ""))
        elif block.language == "c":
            judge(block, example(block))
    python = [block for block in blocks if block.language == "python"]
    if python:
        judge(python[0], prompt(python))
    failed = sum(map(bool, came))
    print("%d tried, %d failed" % (len(came), failed))
    sys.exit(1 if failed or not came else 0)


if __name__ == "__main__":
    main()
