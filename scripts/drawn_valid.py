"""Valid inputs by chance, each a dict from the names of the header's parameters to numbers and lists."""
from class_numbers import size_of
from drawn_values import FAR, Draw
from run_lines import cells_of


def draw_word(draw, length=Draw.length):
    rank = draw.rank()
    return {"rank": rank, "word": draw.word(rank, length(draw))}


def draw_few_letters(draw):
    return draw_word(draw, Draw.few)


def draw_word_move(draw):
    input = draw_word(draw)
    return {"index": draw.index(input["rank"], input["word"]), **input}


def draw_words(draw):
    """Three times in five of one rank; else of two, the larger of them first or second."""
    ranks = [draw.rank()] * 2 if draw.below(5) < 3 else draw.two_ranks()
    word = draw.word(ranks[0], draw.length())
    words = [word, draw.second_word(ranks[1], word) if ranks[0] == ranks[1] else draw.word_above(*ranks, word)]
    if ranks[0] < ranks[1] and draw.below(2):
        ranks, words = ranks[::-1], words[::-1]
    return {"first_rank": ranks[0], "first": words[0], "second_rank": ranks[1], "second": words[1]}


def draw_tableau(draw, length=Draw.length):
    rank = draw.rank()
    letters, marks = draw.tableau(rank, length(draw))
    return {"rank": rank, "letters": letters, "marks": marks}


def draw_tableau_move(draw):
    input = draw_tableau(draw)
    return {"index": draw.index(input["rank"], input["letters"]), **input}


def draw_look(draw):
    input = draw_tableau(draw)
    return {"place": draw.place(len(input["letters"])), **input}


def draw_factors(draw):
    rank = draw.rank()
    (first_letters, first_marks), (second_letters, second_marks) = draw.factors(rank)
    return {
        "rank": rank, "first_letters": first_letters, "first_marks": first_marks, "second_letters": second_letters, "second_marks": second_marks,
    }


def draw_tableaux(draw):
    """Two tableaux, of the ranks and classes of two words that are compared."""
    input = draw_words(draw)
    for name in ("first", "second"):
        input[name + "_letters"], input[name + "_marks"], _ = draw.pair_of(input.pop(name))
    return input


def draw_class(draw):
    return draw_tableau(draw, Draw.few)


def draw_class_word(draw):
    input = draw_class(draw)
    return {"number": draw.number(size_of(input["letters"], input["marks"])), **input}


def draw_pair(draw):
    rank = draw.rank()
    letters, marks, entries = draw.pair(rank, draw.length())
    return {"rank": rank, "letters": letters, "marks": marks, "entries": entries}


def draw_insertion(draw):
    input = draw_pair(draw)
    return {"used": len(input["letters"]), "letter": 1 + draw.below(input["rank"]), **input}


def draw_window(draw):
    input = draw_pair(draw)
    return {"used": len(input["letters"]), **input}


def draw_runs(draw):
    """The values of a C line: L beside the items, and which of these have a step before them."""
    rank = draw.rank()
    runs = draw.runs(rank)
    return {"rank": rank, "length": sum(count for _, count, _ in runs), "runs": runs, "stepped": set(range(1, 3000))}


def draw_run_tableau(draw):
    """A tableau, half of the time of runs."""
    if draw.below(2):
        return draw_tableau(draw)
    rank = draw.rank()
    letters, marks = cells_of(draw.runs(rank))
    return {"rank": rank, "letters": letters, "marks": marks}


def draw_run_word(draw):
    """A word, now and then of runs, with counts of up to three digits."""
    if draw.below(8):
        return draw_word(draw)
    rank = draw.rank()
    return {"rank": rank, "word": draw.run_word(draw.runs(rank, 200))}


def draw_refusal(draw):
    return {"number": draw.one_of((draw.below(15), draw.below(15), draw.one_of(FAR))), "place": draw.place(draw.one_of((12, 1024, 99999)))}
