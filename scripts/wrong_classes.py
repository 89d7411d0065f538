"""Edits of wrong_kernels.py: the words of a class by number."""
from wrong_ribbons import COUNTED

EDITS = [
    ("classes: 21 cells counted", "class_numbers", "count > 20", "count > 21"),
    ("classes: 20 cells refused", "class_numbers", "count > 20", "count >= 20"),
    ("classes: 15 with the cells as its place", "class_numbers", "Refused(15, 0)", "Refused(15, count)"),
    ("classes: 16 with the size as its place", "class_numbers", "Refused(16, 0)", "Refused(16, size)"),
    ("classes: the last number refused", "class_numbers", "number >= size:", "number + 1 >= size:"),
    (
        "classes: the size taken for the last number", "class_numbers",
        "    check_number(number, size_of(letters, marks))\n",
        "    check_number(number, size_of(letters, marks) + 1)\n    number = min(number, size_of(letters, marks) - 1)\n",
    ),
    (
        "classes: the number of a word cut to 32 bits", "class_numbers",
        "    check_number(number, size_of(letters, marks))\n",
        "    number %= 2**32\n    check_number(number, size_of(letters, marks))\n",
    ),
    (
        "classes: 13 before 16", "class_numbers",
        "    check_number(number, size_of(letters, marks))\n    check_room(len(letters), word)\n",
        "    check_room(len(letters), word)\n    check_number(number, size_of(letters, marks))\n",
    ),
    (
        "classes: 15 before 4 of a tableau", "class_numbers",
        "    %s\n    check_small(len(letters))\n    return" % COUNTED,
        "    if 1 <= rank <= 64 and len(letters) == len(marks) <= 1024:\n        check_small(len(letters))\n    %s\n    return" % COUNTED,
    ),
    (
        "classes: 15 before 4 of a word", "class_numbers",
        "    check_word(rank, word)\n    check_small(len(word))\n",
        "    if 1 <= rank <= 64 and len(word) <= 1024:\n        check_small(len(word))\n    check_word(rank, word)\n",
    ),
    ("classes: a size cut to 32 bits", "class_numbers", "return [size_of(letters, marks)]", "return [size_of(letters, marks) % 2**32]"),
    ("classes: the empty class without a word", "class_numbers", "return [size_of(letters, marks)]", "return [size_of(letters, marks) if letters else 0]"),
    ("classes: numbers from 1", "class_numbers", "return [number_of(word)]", "return [number_of(word) + 1]"),
    ("classes: words by their letters alone", "class_numbers", "[:2] == (list(letters), list(marks))]", "[0] == list(letters)]"),
    ("classes: words in falling order", "class_numbers", "sorted(set(permutations(letters)))", "sorted(set(permutations(letters)), reverse=True)"),
    (
        "classes: dictionary order from the last letter", "class_numbers",
        "sorted(set(permutations(letters)))",
        "sorted(set(permutations(letters)), key=lambda word: word[::-1])",
    ),
    ("classes: down counted as free", "class_numbers", "(1, -1) if down", "(1, 0) if down"),
    ("classes: a sum without signs", "class_numbers", "(1, -1) if down", "(1, 1) if down"),
    ("classes: steps right and down exchanged", "class_numbers", "(1, -1) if down else (0, 1)", "(0, 1) if down else (1, -1)"),
    ("classes: of a word always its own letter counted", "class_numbers", "if smaller < letter", "if smaller <= letter"),
]
