"""Texts by chance: lines of drawn values, which may be broken, and breaks of a text."""
from lines import line, recording_line, word_line

# ---- lines


def word_text(input):
    return word_line(input["rank"], input["word"])


def cells_of(input):
    """The T items of any letters and marks; a mark that is none is a step down."""
    return [value for letter, mark in zip(input["letters"], input["marks"]) for value in ("d" if mark else "r", letter)][1:]


def ribbon_text(kind, input, items):
    """A T line, or a P line with its entries: L is the number of cells."""
    cells = cells_of(input)
    return line(kind, [input["rank"], (len(cells) + 1) // 2] + cells + items)


def tableau_text(input):
    return ribbon_text("T", input, [])


def pair_text(input):
    return ribbon_text("P", input, input["entries"])


def runs_text(input):
    items = [["rd"[step]] * (place in input["stepped"]) + [letter, count] for place, (letter, count, step) in enumerate(input["runs"])]
    return line("C", [input["rank"], input["length"]] + [value for item in items for value in item])


def recording_text(input):
    return recording_line(input["entries"])


TEXTS = {
    "read_word_line": {"text": word_text},
    "read_tableau_line": {"text": tableau_text},
    "read_pair_line": {"text": pair_text},
    "convert_lines": {"tableau_text": tableau_text, "recording_text": recording_text},
    "read_run_line": {"text": runs_text},
    "tableau_to_runs": {"text": tableau_text},
    "runs_to_tableau": {"text": runs_text},
    "answer": {"text": word_text},
}

# ---- breaks

# What a field may be exchanged for.
FIELDS = ["", "0", "00", "03", "1", "2", "9", "64", "65", "255", "256", "257", "1024", "1025", "9999", "10000", "12345", " 3", "3 ", "+3", "-3", "r", "d", "x"]
BYTES = b"WTCNPJEwtcnprd,,,00123456789\n\n\r \0;\"-+.\xff"


def change_byte(draw, text):
    if text:
        text[draw.below(len(text))] = draw.one_of(BYTES)


def change_kind(draw, text):
    """The letter of another kind of line."""
    if text:
        text[0] = draw.one_of(b"WTCNPJEwtcnp")


def delete_byte(draw, text):
    if text:
        del text[draw.below(len(text))]


def insert_byte(draw, text):
    text.insert(draw.below(len(text) + 1), draw.one_of(BYTES))


def cut_text(draw, text):
    """The text ends early, or goes on after its end."""
    if draw.below(3):
        del text[draw.below(len(text) + 1) :]
    else:
        text += draw.one_of((b"\n", b"0", b",", b"\0", bytes(text)))


def change_field(draw, text):
    """One field becomes another text."""
    end = text[-1:] if text[-1:] == b"\n" else b""
    fields = bytes(text[: len(text) - len(end)]).split(b",")
    fields[draw.below(len(fields))] = draw.one_of(FIELDS).encode()
    text[:] = b",".join(fields) + end


def lengthen_text(draw, text):
    """About as many bytes as the program reads, or many more."""
    length = draw.one_of((4095, 4096, 4097, 4098, 10001))
    text += draw.one_of((b"\n", b"0", b"W,1,")) * length
    del text[length:]


TEXT_BREAKS = {
    "byte changed": change_byte, "byte deleted": delete_byte, "byte inserted": insert_byte, "kind changed": change_kind, "text cut": cut_text,
    "field changed": change_field, "text long": lengthen_text,
}
