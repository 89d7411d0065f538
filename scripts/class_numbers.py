"""The words of a class and their numbers (document 02, N4), on plain lists: how large a class is, which word has a number, which number a word has.

Classes of up to six cells are listed: every order of the letters, in dictionary order, whose tableau by insertion is the one asked for. Longer ones are
counted, by the alternating sum of Theorem 8.2 carried on to the words that begin in a given way. Nothing of this is the kernel's way, which takes the cells
of a ribbon out one by one and adds up rows of counts: here are no rows, the terms have signs, and integers have any size.

    python3 scripts/class_numbers.py          holds the two ways to each other, on every tableau of up to six cells over 1 to 4, and the sums to 4^length
"""
from functools import lru_cache
from itertools import combinations_with_replacement, permutations, product
from math import comb

from checks import Refused, check_counted_tableau, check_room, check_word
from ribbons import pair_of, put

# So many cells are listed.
LISTED = 6


def check_small(count):
    if count > 20:
        raise Refused(15, 0)


def check_number(number, size):
    if number >= size:
        raise Refused(16, 0)


# ---- by listing


@lru_cache(64)
def listed(letters, marks):
    """The words of a class, in dictionary order."""
    return [word for word in sorted(set(permutations(letters))) if pair_of(word)[:2] == (list(letters), list(marks))]


# ---- by Theorem 8.2
#
# A word has the tableau exactly when it has its letters and, of each two neighbours a < b among the different letters, some b stands left of some a where
# the first b is a step down, and none does where it is a step right. "None does" means that the letters of a and b rise; of letters that are joined so to
# blocks, the words are counted by a multinomial coefficient. A step down is "no condition" less "none does": the sum over all ways to join blocks, with
# a sign for each join. So many words begin with a given word: the same sum over the letters left, where a step down that the beginning has met, or is sure
# to meet, is cut, and nothing is counted where it has broken a step right.


def steps_of(letters, marks):
    """The different letters, and whether the step into each but the first is down."""
    places = [place for place, letter in enumerate(letters) if place == 0 or letter != letters[place - 1]]
    return [letters[place] for place in places], [marks[place] == 1 for place in places[1:]]


def joins_of(different, downs, begun, left):
    """By step, the factors of a cut and of a join: 1 and 0 where it is met, 1 and -1 where it is open, 0 and 1 for a step right; None where that is broken."""
    joins = []
    for a, b, down in zip(different, different[1:], downs):
        met = b in begun and (left[a] > 0 or a in begun[begun.index(b) :])
        if met and not down:
            return None
        joins.append((1, 0) if met else (1, -1) if down else (0, 1))
    return joins


@lru_cache(4096)
def alternating(counts, joins):
    """The sum over all ways to cut the counts into blocks: the multinomial coefficient of the blocks, with the factors of cuts and joins."""
    sums = [1]
    for end in range(1, len(counts) + 1):
        together, block, factor, ways = sum(counts[:end]), 0, 1, 0
        for start in reversed(range(end)):
            block += counts[start]
            cut, join = joins[start - 1] if start else (1, 0)
            ways += factor * cut * comb(together, block) * sums[start]
            factor *= join
            if factor == 0:
                break
        sums.append(ways)
    return sums[-1]


def beginning_with(letters, marks, begun):
    """How many words of the class begin with a given word, which has no letter too many."""
    different, downs = steps_of(letters, marks)
    left = {letter: letters.count(letter) - begun.count(letter) for letter in different}
    joins = joins_of(different, downs, begun, left)
    return 0 if joins is None else alternating(tuple(left.values()), tuple(joins))


# ---- sizes, words, numbers


def size_of(letters, marks):
    return len(listed(tuple(letters), tuple(marks))) if len(letters) <= LISTED else beginning_with(letters, marks, [])


def counted_word(letters, marks, number):
    """The word with a number below the size: letter by letter, past the words that begin with a smaller one."""
    word = []
    for _ in letters:
        for letter in sorted({letter for letter in letters if word.count(letter) < letters.count(letter)}):
            ways = beginning_with(letters, marks, word + [letter])
            if number < ways:
                break
            number -= ways
        word.append(letter)
    return word


def counted_number(word):
    """The number of a word: the words of its class that begin as it does and then have a smaller letter."""
    letters, marks, _ = pair_of(word)
    return sum(
        beginning_with(letters, marks, word[:place] + [smaller])
        for place, letter in enumerate(word)
        for smaller in set(word[place:])
        if smaller < letter
    )


def word_of(letters, marks, number):
    return list(listed(tuple(letters), tuple(marks))[number]) if len(letters) <= LISTED else counted_word(letters, marks, number)


def number_of(word):
    if len(word) > LISTED:
        return counted_number(list(word))
    letters, marks, _ = pair_of(word)
    return listed(tuple(letters), tuple(marks)).index(tuple(word))


# ---- the operations


def class_size(rank, letters, marks, counts):
    check_counted_tableau(rank, letters, marks, counts)
    check_small(len(letters))
    return [size_of(letters, marks)]


def class_word(rank, letters, marks, counts, number, word):
    check_counted_tableau(rank, letters, marks, counts)
    check_small(len(letters))
    check_number(number, size_of(letters, marks))
    check_room(len(letters), word)
    return put(word_of(letters, marks, number), word)


def class_number(rank, word):
    check_word(rank, word)
    check_small(len(word))
    return [number_of(word)]


# ---- the two ways held to each other


def tableaux_of(rank, length):
    """All tableaux of a rank with so many cells: rising letters, and a step right or down wherever they rise."""
    for letters in combinations_with_replacement(range(1, rank + 1), length):
        steps = [(0,) if place == 0 or letter == letters[place - 1] else (0, 1) for place, letter in enumerate(letters)]
        yield from ((letters, marks) for marks in product(*steps))


def main():
    classes = words = 0
    for length in range(LISTED + 1):
        sizes = 0
        for letters, marks in tableaux_of(4, length):
            members = listed(letters, marks)
            letters, marks = list(letters), list(marks)
            assert beginning_with(letters, marks, []) == len(members), (letters, marks)
            for number, word in enumerate(members):
                assert counted_word(letters, marks, number) == list(word) and counted_number(list(word)) == number, (letters, marks, number)
            classes, sizes = classes + 1, sizes + len(members)
        assert sizes == 4**length, (length, sizes)
        words += sizes
    print("%d classes with %d words: listed and counted alike" % (classes, words))


if __name__ == "__main__":
    main()
