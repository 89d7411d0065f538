"""Whole inputs by chance, for every function of the header: valid, broken at one place or at two, or nothing but random bytes.

Outputs are a little longer than needed, exactly as long, or (the break called "room") too short: what is needed says the plain Python's 13. Letter counts
are those of the letters, whatever is broken in these, unless they are broken themselves (the breaks called "counts" and "both counts").
"""
from checks import letter_counts
from drawn_breaks import BREAKS, break_counts
from drawn_texts import BYTES, TEXT_BREAKS, TEXTS
from drawn_valid import (
    draw_class, draw_class_word, draw_factors, draw_few_letters, draw_insertion, draw_look, draw_pair, draw_refusal, draw_run_tableau, draw_run_word,
    draw_runs, draw_tableau, draw_tableau_move, draw_tableaux, draw_window, draw_word, draw_word_move, draw_words,
)
from drawn_values import FAR
from lent_memory import unpacked
from replies import plain_reply

# ---- by function: how a valid input is drawn, and what can be broken in it

WORD = ["rank", "length", "letter"]
TABLEAU = WORD + ["parts", "falling letter", "mark"]
PAIR = TABLEAU + ["entry", "step"]
COUNTED = TABLEAU + ["counts"]
BOTH = COUNTED + ["both factors", "both counts"]
TEXT = list(TEXT_BREAKS)
RUNS = ["rank", "L above 1,024", "item's letter", "item", "item", "item's step", "sum", "sum", "many items"]

INPUTS = {
    "check_word": (draw_word, WORD),
    "pair_of_word": (draw_word, WORD + ["room", "room"]),
    "junctions": (draw_word, WORD),
    "raise_word": (draw_word_move, WORD + ["index"]),
    "lower_word": (draw_word_move, WORD + ["index"]),
    "raise_count_word": (draw_word_move, WORD + ["index"]),
    "lower_count_word": (draw_word_move, WORD + ["index"]),
    "same_class": (draw_words, WORD),
    "compare_weights": (draw_words, WORD),
    "check_tableau": (draw_tableau, TABLEAU),
    "check_counted_tableau": (draw_tableau, COUNTED + ["counts"]),
    "column_reading": (draw_tableau, COUNTED + ["room"]),
    "raise_tableau": (draw_tableau_move, COUNTED + ["index"]),
    "lower_tableau": (draw_tableau_move, COUNTED + ["index"]),
    "raise_count_tableau": (draw_tableau_move, COUNTED + ["index"]),
    "lower_count_tableau": (draw_tableau_move, COUNTED + ["index"]),
    "same_class_of_tableaux": (draw_tableaux, BOTH),
    "compare_weights_of_tableaux": (draw_tableaux, BOTH),
    "look": (draw_look, TABLEAU),
    "cell_at": (draw_look, ["length", "letter", "parts", "falling letter", "mark"]),
    "product": (draw_factors, BOTH + ["room"]),
    "class_size": (draw_class, COUNTED + ["many cells"]),
    "class_word": (draw_class_word, COUNTED + ["many cells", "number past the last", "room"]),
    "class_number": (draw_few_letters, WORD + ["many cells"]),
    "check_pair": (draw_pair, PAIR),
    "check_counted_pair": (draw_pair, PAIR + ["counts", "counts"]),
    "insert_letter": (draw_insertion, PAIR + ["counts", "counts", "full", "room"]),
    "remove_oldest": (draw_window, PAIR + ["counts", "counts", "empty"]),
    "word_of_pair": (draw_pair, PAIR + ["counts", "counts", "room"]),
    "tableau_line_of_word": (draw_word, WORD + ["room"]),
    "run_line_of_word": (draw_run_word, WORD + ["room"]),
    "write_word_line": (draw_word, WORD + ["room"]),
    "write_tableau_line": (draw_tableau, TABLEAU + ["room"]),
    "write_run_line": (draw_run_tableau, TABLEAU + ["room"]),
    "write_pair_line": (draw_pair, PAIR + ["room"]),
    "write_junction_line": (draw_word, WORD + ["room"]),
    "write_refusal_line": (draw_refusal, ["room"]),
    "read_word_line": (draw_word, WORD + ["room"] + TEXT),
    "read_tableau_line": (draw_tableau, WORD + ["falling letter", "mark", "room"] + TEXT),
    "read_run_line": (draw_runs, RUNS + ["room"] + TEXT),
    "read_pair_line": (draw_pair, PAIR + ["room"] + TEXT),
    "convert_lines": (draw_pair, PAIR + ["one length", "room"] + TEXT),
    "tableau_to_runs": (draw_run_tableau, WORD + ["falling letter", "mark", "room"] + TEXT),
    "runs_to_tableau": (draw_runs, RUNS + ["room"] + TEXT),
    "answer": (draw_word, WORD + ["room"] + TEXT),
}


# ---- whole inputs


def random_values(draw, parameter):
    """Any number, any elements: few of them, of all values or of small ones."""
    if not parameter.size:
        return draw.one_of((draw.below(6), draw.below(70), draw.one_of(FAR)))
    if parameter.fixed:
        return [0] * parameter.fixed if draw.below(2) else any_counts(draw, parameter)
    count = draw.below(9)
    if parameter.name.endswith("text"):
        return [draw.one_of(BYTES) for _ in range(3 * count)] if draw.below(2) else list(draw.bytes(3 * count))
    top = draw.one_of((2, 4, 256 if parameter.size == 1 else 65536))
    return [draw.below(top) for _ in range(count)]


def any_counts(draw, parameter):
    """As many elements as a parameter always has, with whatever they hold."""
    return unpacked(parameter.size, draw.bytes(parameter.size * parameter.fixed))


def output(draw, parameter, count):
    """Memory for an output, with whatever it holds."""
    return [draw.below(256) if parameter.size == 1 else draw.below(65536) for _ in range(count)] if count < 64 else [draw.below(256)] * count


def longer(draw, needed):
    """Room enough: exactly as much, or some more."""
    return needed + draw.one_of((0, 0, 1, 1 + draw.below(6), 1 + draw.below(6), draw.one_of((1, 70, 1000))))


def with_outputs(draw, function, arguments, short):
    """The arguments, with memory for the outputs that are missing in them."""
    outputs = [at for at, argument in enumerate(arguments) if argument is None]
    if not outputs:
        return arguments
    said = plain_reply(function, [[] if argument is None else list(argument) if isinstance(argument, list) else argument for argument in arguments])
    needed = said[1] if said[0] == 13 else 0 if said[0] == 0 else draw.below(20)
    counts = [longer(draw, needed) for _ in outputs]
    if short and needed:
        counts[draw.below(len(counts))] = needed - 1 if draw.below(2) else draw.below(needed)
    for at, count in zip(outputs, counts):
        arguments[at] = output(draw, function.parameters[at], count)
    return arguments


def with_cells_beyond(draw, function, input, short):
    """The three buffers go on after the used cells, each by itself: in insertion by one at least, unless short."""
    needed = 1 if function.name == "insert_letter" else 0
    counts = [longer(draw, needed) for _ in range(3)]
    if short:
        counts[draw.below(3)] = 0
    for parameter, count in zip(function.parameters[-4:-1], counts):
        if len(input[parameter.name]) >= input["used"]:
            input[parameter.name] += output(draw, parameter, count)


def with_counts(draw, function, input, broken):
    """The counts of each tableau that is given; of one that is an output, whatever its memory holds. Broken are those of one tableau, or of both."""
    counts = [parameter for parameter in function.parameters if parameter.fixed]
    given = [parameter for parameter in counts if parameter.name.replace("counts", "letters") in input]
    spoiled = [] if not broken or not given else given if "both counts" in broken else [draw.one_of(given)]
    for parameter in counts:
        letters = input.get(parameter.name.replace("counts", "letters"))
        if letters is None:
            input[parameter.name] = any_counts(draw, parameter)
            continue
        used = letters[: input.get("used", len(letters))]
        input[parameter.name] = letter_counts(used)
        if parameter in spoiled:
            break_counts(draw, used, input[parameter.name], input)
            input[parameter.name] = [count % 65536 for count in input[parameter.name]]


def drawn_input(draw, function):
    """What was drawn, as a list of breaks, and the arguments in the header's order."""
    if draw.below(20) == 0:
        return ["random"], [random_values(draw, parameter) for parameter in function.parameters]
    make, breaks = INPUTS[function.name]
    input = make(draw)
    chosen = [draw.one_of(breaks) for _ in range(draw.one_of((0, 0, 0, 1, 1, 1, 1, 1, 2)))]
    for name in chosen:
        if name in BREAKS:
            BREAKS[name](draw, input)
    if function.name in TEXTS:
        texts = {name: bytearray(make(input)) for name, make in TEXTS[function.name].items()}
        for name in chosen:
            if name in TEXT_BREAKS:
                TEXT_BREAKS[name](draw, draw.one_of(list(texts.values())))
        input = {name: list(text) for name, text in texts.items()}
    if "used" in input:
        with_cells_beyond(draw, function, input, "room" in chosen)
    with_counts(draw, function, input, [name for name in chosen if name in ("counts", "both counts")])
    arguments = [input.get(parameter.name) for parameter in function.parameters]
    return chosen or ["none"], with_outputs(draw, function, [a % 2**64 if isinstance(a, int) else a for a in arguments], "room" in chosen)
