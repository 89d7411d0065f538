"""All words of length 4 over 1 to 4 by the T line of their tableau: one row a class, then four checks, the last with the same words at another rank.

    python3 bindings/python/classes.py
"""
from itertools import product

from luchtrav import Refusal, check_tableau, same_class, tableau_line_of_word

RANK, LENGTH, OTHER_RANK = 4, 4, 6
words = list(product(range(1, RANK + 1), repeat=LENGTH))

# What to store: one T line for a whole class.
classes = {}
for word in words:
    classes.setdefault(tableau_line_of_word(RANK, word), []).append(word)

for line in sorted(classes):
    print("| `%s` | %s |" % (line.decode().rstrip("\n"), " ".join("".join(map(str, word)) for word in classes[line])))


def is_tableau(letters, marks):
    try:
        check_tableau(RANK, letters, marks)
        return True
    except Refusal:
        return False


def unranked(line):
    """A line without its rank field."""
    kind, rank, rest = line.split(b",", 2)
    return kind + b"," + rest


line_of = {word: line for line, members in classes.items() for word in members}
tableaux = sum(is_tableau(letters, marks) for letters in words for marks in product((0, 1), repeat=LENGTH))
wrong = sum(same_class(RANK, v, RANK, w) != (line_of[v] == line_of[w]) for v in words for w in words)
other = {word: unranked(tableau_line_of_word(OTHER_RANK, word)) for word in words}
across = sum(same_class(RANK, v, OTHER_RANK, w) != (unranked(line_of[v]) == other[w]) for v in words for w in words)
print("%d words, %d classes, %d quasi-ribbon tableaux" % (len(words), len(classes), tableaux))
print("%d pairs of words, %d on which the lines and same_class differ" % (len(words) ** 2, wrong))
print("%d pairs of ranks %d and %d, %d on which the lines without rank and same_class differ" % (len(words) ** 2, RANK, OTHER_RANK, across))
assert len(classes) == tableaux and wrong == across == 0
