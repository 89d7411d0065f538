"""Drawn inputs: the shared library against the plain Python, over every function of include/luchtrav.h.

    python3 scripts/drawn.py                         1,000,000 inputs of seed 1
    python3 scripts/drawn.py --count N --seed S      others
    python3 scripts/drawn.py --jobs 2                the same inputs, in two processes
    python3 scripts/drawn.py --spoil 1000            so many replies or bytes spoiled after the call: each must be found
    python3 scripts/drawn.py --again "(..)"          one call once more, as a difference prints it
    python3 scripts/drawn.py --trace | tail -1       the last call, where the library ended the program

Compared are every field of the reply and every byte of lent memory, guard bytes and `const` buffers included. The first difference is printed as a call
that can be repeated, and the exit status is 1. It is 1 too when a refusal number that the header lists for a function never came.
"""
import argparse
import ast
import struct
import sys
from collections import Counter

sys.dont_write_bytecode = True

import header
from drawn_inputs import drawn_input
from drawn_values import Draw
from lent_memory import Memory
from replies import FEW, few_names, few_value, plain_reply

PART = 10000
NUMBERS = range(21)
TRACE = (lambda call: print(call, flush=True)) if "--trace" in sys.argv else None


# ---- one call


def shown(function, values):
    return "\n".join("    %s = %s" % (parameter.name, value) for parameter, value in zip(function.parameters, values))


def again(function, values, script):
    return 'again: python3 scripts/%s --again "%r"' % (script, (function.name, values))


def difference(function, laid, reply, held, expected, after):
    """What to print: the call, what came, what was expected, and the call to repeat."""
    names, parameters = function.fields, function.parameters
    before = laid.values(parameters, laid.image)
    said = struct.unpack("<%dQ" % len(names), reply)
    places = [at for at, (is_now, must_be) in enumerate(zip(held, after)) if is_now != must_be]
    buffers = {p.name: (is_now, must_be) for p, is_now, must_be in zip(parameters, laid.values(parameters, held), laid.values(parameters, after))}
    lines = ["luchtrav_%s differs" % function.name, shown(function, before)]
    lines.append("  replied  " + ", ".join("%s %d" % pair for pair in zip(names, said)))
    lines.append("  expected " + ", ".join("%s %d" % pair for pair in zip(names, expected)))
    lines += ["  %s holds %s, expected %s" % (name, *both) for name, both in buffers.items() if both[0] != both[1]]
    lines.append("  bytes of memory that differ: %s; buffers at %s" % (places or "none", [span for span in laid.spans if span]))
    lines.append(again(function, before, laid.script))
    return "\n".join(lines)


def called(function, memory, arguments, spoil=None, note=None):
    """The reply that is expected of a call, and the difference, or None. `note` is told the call before it is made."""
    laid = memory.lay(function, arguments)
    if note:
        note(again(function, laid.values(function.parameters, laid.image), laid.script))
    reply = bytearray(function.call(*laid.passed))
    if spoil:
        spoil(laid, reply)
    held = memory.held(laid)
    expected = plain_reply(function, arguments)
    after = laid.after(function.parameters, arguments)
    memory.expect(laid, after)
    if held == after and reply == struct.pack("<%dQ" % len(expected), *expected):
        return expected, None
    return expected, difference(function, laid, reply, held, expected, after)


# ---- many calls


def run_part(part):
    """One part of the inputs, drawn from a seed of its own: how often what came, and the first difference."""
    library, seed, number, count = part
    functions = list(header.functions_of(library).values())
    draw = Draw("%s part %d" % (seed, number))
    memory, came = Memory(draw), Counter()
    for at in range(count):
        function = functions[at % len(functions)]
        breaks, arguments = drawn_input(draw, function)
        expected, differs = called(function, memory, arguments, note=TRACE)
        if differs:
            return came, "input %d of part %d, seed %s: %s" % (at, number, seed, differs)
        came.update([("drawn", breaks[0] if len(breaks) == 1 else "two breaks"), (function.name, expected[0])])
        if function.name in FEW and expected[0] == 0:
            value = few_value(function, expected, arguments)
            came.update((name, "value", value) for name in few_names(function, arguments))
    return came, None if memory.as_expected() else "part %d, seed %s: a call wrote far from its buffers" % (number, seed)


def parts_of(arguments):
    for number in range((arguments.count + PART - 1) // PART):
        yield arguments.library, arguments.seed, number, min(PART, arguments.count - number * PART)


def all_parts(arguments):
    if arguments.jobs == 1:
        yield from map(run_part, parts_of(arguments))
    else:
        import multiprocessing

        with multiprocessing.Pool(arguments.jobs) as pool:
            yield from pool.imap(run_part, parts_of(arguments))


def table(came, functions):
    """How often each function replied each number; a point where the number is none of the function's."""
    lines = ["%-27s" % "function" + "".join("%7d" % number for number in NUMBERS)]
    for name, function in functions.items():
        listed = [0] + function.refusals
        lines.append("%-27s" % name + "".join("%7s" % (came[name, number] if number in listed else ".") for number in NUMBERS))
    for name, (field, values) in FEW.items():
        lines.append("%s: %s" % (name, ", ".join("%s %d %d times" % (field, value, came[name, "value", value]) for value in values)))
    return "\n".join(lines)


def missing(came, functions):
    """Replies that never came, and numbers that came though the header does not list them."""
    listed = [(name, number) for name, function in functions.items() for number in [0] + function.refusals]
    few = [(name, "value", value) for name, (_, values) in FEW.items() for value in values]
    never = ["%s %d" % (reply[0], reply[-1]) for reply in listed + few if not came[reply]]
    other = ["%s %d" % reply for reply in came if reply[0] in functions and len(reply) == 2 and reply not in listed]
    return ["never came: " + ", ".join(never)] * bool(never) + ["not listed: " + ", ".join(other)] * bool(other)


def run(arguments):
    came = Counter()
    for of_part, differs in all_parts(arguments):
        came.update(of_part)
        if differs:
            print(differs)
            sys.exit(1)
    functions = header.functions_of(None)
    print("%d inputs, seed %s" % (arguments.count, arguments.seed))
    print(table(came, functions))
    print("drawn by break: " + ", ".join("%s %d" % (key[1], count) for key, count in sorted(came.items(), key=str) if key[0] == "drawn"))
    wrong = missing(came, functions)
    print("\n".join(wrong + ["0 differ"]))
    sys.exit(1 if wrong else 0)


# ---- the comparison itself


def run_spoiled(arguments):
    """Each call's reply or memory is spoiled, and the comparison has to find it."""
    functions = list(header.functions_of(arguments.library).values())
    draw = Draw("%s spoiled" % arguments.seed)
    memory, kinds = Memory(draw), Counter()
    for at in range(arguments.spoil):
        function = functions[at % len(functions)]

        def spoil(laid, reply):
            if draw.below(2):
                place = draw.below(len(reply))
                reply[place] ^= 1 + draw.below(255)
                kinds["reply: " + function.fields[place // 8]] += 1
                return
            place = draw.below(len(laid.image))
            memory.spoil(laid, place, 1 + draw.below(255))
            inside = [p for p, span in zip(function.parameters, laid.spans) if span and span[0] <= place < span[1]]
            kinds["memory: " + ("lent buffer" if inside[0].lent else "const buffer") if inside else "memory: guard"] += 1

        if called(function, memory, drawn_input(draw, function)[1], spoil)[1] is None:
            sys.exit("a spoiled call of %s was not found" % function.name)
    print("\n".join("%-24s %d" % pair for pair in sorted(kinds.items())))
    print("%d calls spoiled, all found" % arguments.spoil)


def run_again(arguments):
    name, values = ast.literal_eval(arguments.again)
    function = header.functions_of(arguments.library)[name]
    expected, differs = called(function, Memory(Draw(0)), values)
    print(differs or "%s: %s, as expected" % (name, ", ".join("%s %d" % pair for pair in zip(function.fields, expected))))
    sys.exit(1 if differs else 0)


def main():
    parser = argparse.ArgumentParser(description=__doc__, formatter_class=argparse.RawDescriptionHelpFormatter)
    parser.add_argument("--seed", default="1")
    parser.add_argument("--count", type=int, default=1000000)
    parser.add_argument("--jobs", type=int, default=1)
    parser.add_argument("--library", default=header.LIBRARY)
    parser.add_argument("--spoil", type=int, nargs="?", const=1000)
    parser.add_argument("--again")
    parser.add_argument("--trace", action="store_true")
    arguments = parser.parse_args()
    if arguments.again:
        run_again(arguments)
    elif arguments.spoil:
        run_spoiled(arguments)
    else:
        run(arguments)


if __name__ == "__main__":
    main()
