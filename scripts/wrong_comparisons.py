"""Edits of wrong_kernels.py: junction sets, class and weights of two words. Those of two tableaux are in wrong_counts.py."""
from wrong_checks import SMALLER


def counts_to(top):
    """How the counts of two words are compared, where the letters above one are left out."""
    return "sorted(a for a in first if a <= %s) == sorted(a for a in second if a <= %s)" % (top, top)


SAME_COUNTS = "sorted(first) == sorted(second)"
OF_WORDS = "    return of_one_class(first, second)\n"


def class_to(top):
    """The class of two words, where the counts of letters above one are left out."""
    return "    return [int(%s and junction_set(first) == junction_set(second))]\n" % counts_to(top)


WEIGHTS_OF_WORDS = "    return weights(first, second)\n"
EVERY_SUM = "range(1, 65)] for word"

EDITS = [
    ("a row of the empty word", "comparisons", "return 0 if not word else bin", "return bin"),
    (
        "junctions of neighbouring letters only", "comparisons",
        "if a in word[word.index(larger):]:",
        "if larger == a + 1 and a in word[word.index(larger):]:",
    ),
    ("one class only where the ranks are equal", "comparisons", OF_WORDS, OF_WORDS.replace("return", "return [0] if first_rank != second_rank else")),
    ("one class by counts up to the smaller rank", "comparisons", OF_WORDS, class_to(SMALLER)),
    ("one class by counts up to the first word's rank", "comparisons", OF_WORDS, class_to("first_rank")),
    ("one class by counts up to the second word's rank", "comparisons", OF_WORDS, class_to("second_rank")),
    ("one class by counts alone", "comparisons", " and junction_set(first) == junction_set(second)", ""),
    ("one class by length and junctions", "comparisons", SAME_COUNTS, "len(first) == len(second)"),
    ("lower and higher exchanged", "comparisons", "(True, False): 1, (False, True): 2", "(True, False): 2, (False, True): 1"),
    ("weights without the letter 64", "comparisons", EVERY_SUM, "range(1, 64)] for word"),
    ("weights to the first word's rank", "comparisons", WEIGHTS_OF_WORDS, "    return weights(first, [a for a in second if a <= first_rank])\n"),
    ("weights: sums begun anew at each letter", "comparisons", "if letter <= k)", "if letter == k)"),
    ("weights: compared before the next counts are added", "comparisons", EVERY_SUM, "range(max(first + second, default=0))] for word"),
    ("weights: the second sum fed the first word's counts", "comparisons", "for word in (first, second)]\n    at_most", "for word in (first, first)]\n    at_most"),
]

RIGHT = [
    (
        "one class by tableaux, whatever the ranks", "comparisons",
        SAME_COUNTS + " and junction_set(first) == junction_set(second)",
        "pair_of(first)[:2] == pair_of(second)[:2]",
    ),
]

EDGES = [
    (
        "junctions: the letter after the last read", "comparisons",
        "def junctions(rank, word):\n    check_word(rank, word)\n",
        "def junctions(rank, word):\n    check_word(rank, word)\n    word[len(word)]\n",
    ),
]
