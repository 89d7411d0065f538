"""Junction sets, and class and weights of two words or of two tableaux, on plain lists (document 01; document 02, N5 and N6). Two tableaux are compared by
their column readings, as words."""
from checks import check_tableaux, check_word, check_words
from ribbons import reading


def junction_set(word):
    """Bit a - 1: a occurs, a larger letter occurs, and the next larger that occurs stands left of some a."""
    occurring = sorted(set(word))
    bits = 0
    for a, larger in zip(occurring, occurring[1:]):
        if a in word[word.index(larger):]:
            bits |= 1 << (a - 1)
    return bits


def rows(word):
    return 0 if not word else bin(junction_set(word)).count("1") + 1


def junctions(rank, word):
    check_word(rank, word)
    return [junction_set(word), rows(word)]


def of_one_class(first, second):
    """1 for yes, 0 for no."""
    same = sorted(first) == sorted(second) and junction_set(first) == junction_set(second)
    return [1 if same else 0]


def weights(first, second):
    """0 equal, 1 lower, 2 higher, 3 neither."""
    sums = [[sum(1 for letter in word if letter <= k) for k in range(1, 65)] for word in (first, second)]
    at_most = all(a <= b for a, b in zip(*sums))
    at_least = all(a >= b for a, b in zip(*sums))
    return [{(True, True): 0, (True, False): 1, (False, True): 2, (False, False): 3}[at_most, at_least]]


def same_class(first_rank, first, second_rank, second):
    """Each rank bounds its own word's letters, and has no part in the class (document 02, N5)."""
    check_words(first_rank, first, second_rank, second)
    return of_one_class(first, second)


def compare_weights(first_rank, first, second_rank, second):
    check_words(first_rank, first, second_rank, second)
    return weights(first, second)


def same_class_of_tableaux(first_rank, first_letters, first_marks, first_counts, second_rank, second_letters, second_marks, second_counts):
    """As for the column readings (document 02, N6)."""
    check_tableaux(first_rank, first_letters, first_marks, first_counts, second_rank, second_letters, second_marks, second_counts)
    return of_one_class(reading(first_letters, first_marks), reading(second_letters, second_marks))


def compare_weights_of_tableaux(first_rank, first_letters, first_marks, first_counts, second_rank, second_letters, second_marks, second_counts):
    """As for the column readings."""
    check_tableaux(first_rank, first_letters, first_marks, first_counts, second_rank, second_letters, second_marks, second_counts)
    return weights(reading(first_letters, first_marks), reading(second_letters, second_marks))
