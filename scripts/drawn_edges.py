"""Drawn inputs at the edge of memory: whether a function of include/luchtrav.h touches what it need not, or what it was not lent.

    python3 scripts/drawn_edges.py                         200,000 inputs of seed 1
    python3 scripts/drawn_edges.py --count N --seed S      others
    python3 scripts/drawn_edges.py --again "(..)"          one call once more, as a failure prints it; a pair is a buffer and its claimed count

Every buffer lies alone at the edge of a page that can be neither read nor written (fenced_memory.py). A third of the inputs are those of drawn.py, valid
and broken. In a third one buffer or more is claimed to have far more elements than its memory: where that makes the input one that 1, 2 or 3 refuses, or
where it is an output that needs no more, the reply and all memory must be as the plain Python says, and nothing beyond may have been touched. In a third
no buffer has any memory, whatever its count: the numbers alone decide, and nothing may be touched at all.

Each function is called in a process of its own. One that the library ends is a failure of that function, printed with the call; so is a difference. The
others go on, and the exit status is 1. It is 1 too when a reply that claimed buffers must bring about never came.
"""
import argparse
import ast
import mmap
import os
import pickle
import signal
import sys
import traceback
from collections import Counter

sys.dont_write_bytecode = True

import header
from drawn import called
from drawn_inputs import drawn_input
from drawn_values import Draw
from fenced_memory import Claimed, Fenced, NotThere, count_of, memory_of
from replies import plain_reply

# Counts above every limit; some are small ones when cut to 8, 16 or 32 bits, or when doubled.
HUGE = [1025, 1026, 4097, 65536 + 4, 10**8, 2**31, 2**32 + 4, 2**62 + 3, 2**63, 2**63 + 4, 2**64 - 4, 2**64 - 1]

# Longer than any part needs, in seconds.
PATIENCE = 900


# The functions of a window, which take so many used cells of longer buffers.
WINDOWS = ("insert_letter", "remove_oldest")

# The kinds of inputs.
KINDS = AS_LENT, CLAIMED, HIDDEN = "as lent", "claimed", "hidden"


# ---- buffers that are claimed to be longer


def claimable(function, fixed=False):
    """The places of the buffers that can be claimed to be longer, or hidden, letter counts among them. A text is read as far as it is a line; only the
    program's answer stops at a length."""
    return [at for at, p in enumerate(function.parameters) if p.size and p.fixed <= 64 * fixed and (not p.name.endswith("text") or function.name == "answer")]


def claim(draw, arguments, places):
    """One buffer, some or all with larger counts, each its own or one for all."""
    choice, count = draw.below(3), draw.one_of(HUGE)
    if choice == 0:
        places = [draw.one_of(places)]
    elif choice == 1:
        places = [at for at in places if draw.below(2)] or places
    for at in places:
        count = draw.one_of(HUGE) if choice == 1 else count
        if count > len(arguments[at]):
            arguments[at] = Claimed(arguments[at], count)


def hide(draw, function, arguments):
    """No memory for any buffer, with its own count or a larger one; of letter counts with their own, as the library is told none."""
    for at in claimable(function, fixed=True):
        larger = draw.below(2) and not function.parameters[at].fixed
        arguments[at] = Claimed([], draw.one_of(HUGE) if larger else len(arguments[at]))


def claim_sum(draw, arguments):
    """Two factors, letters and marks alike, with more than 2^64 cells together: a sum that is cut to 64 bits is 0 to 1,024."""
    first = draw.one_of([1, 2, 3, 512, 1024] + HUGE)
    counts = [first, 2**64 - first + draw.below(min(first, 1025))]
    for at, count in zip((1, 4), counts if draw.below(2) else reversed(counts)):
        for part in (at, at + 1):
            arguments[part] = Claimed(memory_of(arguments[part])[:count], count)


def edge_input(draw, function, kind):
    """An input of drawn.py, its buffers as they are or with larger counts or no memory, so that the plain Python can answer from the memory that is there."""
    while True:
        arguments = drawn_input(draw, function)[1]
        if kind == AS_LENT:
            return arguments
        if kind == CLAIMED:
            claim(draw, arguments, claimable(function))
        else:
            hide(draw, function, arguments)
        if function.name == "product" and draw.below(4) == 0:
            claim_sum(draw, arguments)
        try:
            said = plain_reply(function, [copied(argument) for argument in arguments])
        except NotThere:
            continue
        if any(isinstance(argument, Claimed) for argument in arguments) and answerable(function, arguments, said[0]):
            return arguments


def answerable(function, arguments, number):
    """Whether no element is needed that is not there: arrival and departure may read the used cells and the counts once 1, 2 and 3 have passed, a look at a
    cell its marks and letter."""
    if function.name in WINDOWS and number not in (1, 2, 3):
        *cells, counts = arguments[-4:]
        return all(len(memory_of(buffer)) >= arguments[1] for buffer in cells) and not isinstance(counts, Claimed)
    if function.name == "cell_at":
        return arguments[2] >= count_of(arguments[0])
    return True


def copied(argument):
    if isinstance(argument, Claimed):
        return Claimed(argument.memory, argument.count)
    return list(argument) if isinstance(argument, list) else argument


def wanted(function):
    """The replies that must come: 1, 2 and 3 where inputs are claimed or hidden; 0 where an output is claimed, a window's cells, or a cell to look for."""
    in_place = function.name.startswith(("raise", "lower"))
    inputs = [p for p in function.parameters if p.size and not p.name.endswith("text") and (in_place or not p.lent)]
    outputs = [p for p in function.parameters if p.lent and not in_place]
    by_numbers = [number for number in function.refusals if number <= 3 and (inputs or function.name in WINDOWS)]
    given = [(CLAIMED, 0)] if outputs or function.name == "cell_at" else []
    return given + [(kind, number) for kind in (CLAIMED, HIDDEN) for number in by_numbers]


# ---- calls in a process of their own


def calls(function, seed, count, note):
    """So many calls of one function: how often what came, and the first difference."""
    draw = Draw("%s edges %s" % (seed, function.name))
    memory, came = Fenced(draw), Counter()
    for at in range(count):
        kind = draw.one_of(KINDS)
        expected, differs = called(function, memory, edge_input(draw, function, kind), note=note)
        if differs:
            return came, differs
        came[kind, expected[0]] += 1
    return came, None if memory.as_expected() else "luchtrav_%s wrote far from its buffers" % function.name


def apart(function, work):
    """What some work answers in a process of its own, or what the library ended it with: a counter, and the failure or None. The work is handed a function
    that notes the call to be made, so that it is known when it does not come back."""
    noted = mmap.mmap(-1, 1 << 20)

    def note(call):
        text = call.encode()
        noted[: 8 + len(text)] = len(text).to_bytes(8, "little") + text

    inward, outward = os.pipe()
    child = os.fork()
    if child == 0:
        os.close(inward)
        signal.alarm(PATIENCE)
        status = 1
        try:
            with os.fdopen(outward, "wb") as file:
                pickle.dump(work(note), file)
            status = 0
        except BaseException:
            traceback.print_exc()
        finally:
            os._exit(status)
    os.close(outward)
    with os.fdopen(inward, "rb") as file:
        answer = file.read()
    status = os.waitpid(child, 0)[1]
    if status == 0:
        return pickle.loads(answer)
    if not os.WIFSIGNALED(status):
        sys.exit("a call of luchtrav_%s could not be made" % function.name)
    size = int.from_bytes(noted[:8], "little")
    ended = "luchtrav_%s ended the program by %s\n" % (function.name, signal.Signals(os.WTERMSIG(status)).name)
    return Counter(), ended + noted[8 : 8 + size].decode()


# ---- many calls


def run(arguments):
    functions = list(header.functions_of(arguments.library).values())
    (of_each, more), failed = divmod(arguments.count, len(functions)), 0
    print("%-27s" % "function" + "".join("%9s" % kind for kind in KINDS) + "   replies where claimed; where hidden")
    for at, function in enumerate(functions):
        came, failure = apart(function, lambda note: calls(function, arguments.seed, of_each + (at < more), note))
        counts = [sum(count for (kind, _), count in came.items() if kind == which) for which in KINDS]
        replies = [", ".join("%d: %d" % (number, count) for (kind, number), count in sorted(came.items()) if kind == which) for which in (CLAIMED, HIDDEN)]
        print("%-27s%9d%9d%9d   %s" % (function.name, *counts, "; ".join(replies)), flush=True)
        never = ["%s %d" % reply for reply in wanted(function) if not came[reply]]
        if failure or never:
            print(failure or "never came: " + ", ".join(never), flush=True)
        failed += bool(failure or never)
    print("%d inputs, seed %s: %d of %d functions failed" % (arguments.count, arguments.seed, failed, len(functions)))
    sys.exit(1 if failed else 0)


def run_again(arguments):
    """One call, with its buffers at the ends of their pieces and at the beginnings."""
    name, values = ast.literal_eval(arguments.again)
    function = header.functions_of(arguments.library)[name]
    values = [Claimed(*value) if isinstance(value, tuple) else value for value in values]

    def work(note, at_end):
        return called(function, Fenced(Draw(0), at_end), [copied(value) for value in values], note=note)

    failures = [failure for at_end in (True, False) for failure in [apart(function, lambda note: work(note, at_end))[1]] if failure]
    print("\n".join(failures) or "%s: as expected" % name)
    sys.exit(1 if failures else 0)


def main():
    parser = argparse.ArgumentParser(description=__doc__, formatter_class=argparse.RawDescriptionHelpFormatter)
    parser.add_argument("--seed", default="1")
    parser.add_argument("--count", type=int, default=200000)
    parser.add_argument("--library", default=header.LIBRARY)
    parser.add_argument("--again")
    arguments = parser.parse_args()
    if arguments.again:
        run_again(arguments)
    else:
        run(arguments)


if __name__ == "__main__":
    main()
