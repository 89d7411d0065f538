"""Values by chance: ranks, lengths, words, tableaux, runs and pairs. All are valid; drawn_breaks.py breaks them."""
import random

from ribbons import reading
from run_lines import cells_of

# Ranks and other numbers that are out of bounds, some of them good ones that a cut to 8, 16 or 32 bits would leave.
FAR = [65, 66, 128, 255, 256, 257, 260, 65535, 65540, 2**32, 2**32 + 1, 2**32 + 4, 2**63, 2**63 + 4, 2**64 - 4, 2**64 - 1]


class Draw:
    """Where chance comes from: the same seed draws the same values."""

    def __init__(self, seed):
        self.random = random.Random(seed)

    def below(self, limit):
        """0 to limit - 1."""
        return int(self.random.random() * limit)

    def one_of(self, values):
        return values[int(self.random.random() * len(values))]

    def bytes(self, count):
        return self.random.getrandbits(8 * count).to_bytes(count, "little") if count else b""

    # ---- numbers

    def rank(self):
        return self.one_of((1 + self.below(6), 1 + self.below(6), 2 + self.below(11), 1 + self.below(64), self.one_of((1, 2, 63, 64))))

    def two_ranks(self):
        """A smaller and a larger one, often neighbours."""
        small = min(63, self.rank())
        return [small, self.one_of((small + 1, small + 1 + self.below(64 - small), 64))]

    def length(self):
        """Mostly 0 to 12; about one in 100 is long."""
        if self.below(100):
            return self.below(13)
        return self.one_of((1024, 1023, self.below(1025), 13 + self.below(200), 13 + self.below(200)))

    def lengths(self):
        """Of two factors, at most 1,024 together; about one time in 50 nearly as many or exactly so."""
        if self.below(50):
            first, second = self.length(), self.length()
            return first, min(second, 1024 - first)
        together = self.one_of((1024, 1024, 1023, 1022))
        first = self.one_of((0, 1, together - 1, together, self.below(together + 1), self.below(together + 1)))
        return first, together - first

    def few(self):
        """Cells or letters of a class that can be counted, at most 20; more often few."""
        return self.one_of((self.below(7), self.below(13), self.below(21), 20))

    def number(self, size):
        """A number below a size, the first or the last among them."""
        return self.one_of((0, size - 1, self.random.randrange(size), self.random.randrange(size)))

    def place(self, count):
        """A place, most often one of the first `count` or not far behind them."""
        return self.below(count + 3) if self.below(8) else self.one_of((count, count + self.below(2000), self.one_of(FAR)))

    def index(self, rank, letters):
        """A good index, most often one that a letter has to do with. There is none at rank 1."""
        if letters and self.below(4):
            letter = self.one_of(letters) - self.below(2)
            if 1 <= letter < rank:
                return letter
        return 1 + self.below(rank - 1) if rank > 1 else 1

    # ---- words and ribbons

    def word(self, rank, length):
        """Letters of the whole rank, of a few neighbours or of two letters; in any order, rising or falling."""
        kind = self.below(4)
        if kind == 0:
            letters = range(1, rank + 1)
        elif kind == 1:
            letters = (1 + self.below(rank), 1 + self.below(rank))
        else:
            least = 1 + self.below(rank)
            letters = range(least, min(rank, least + 1 + self.below(4)) + 1)
        word = self.random.choices(letters, k=length)
        order = self.below(6)
        return sorted(word, reverse=order == 1) if order < 2 else word

    def tableau(self, rank, length):
        """Rising letters, and a step down at some of the places where they rise."""
        return self.stepped(self.word(rank, length))

    def stepped(self, word):
        letters = sorted(word)
        of_four = self.below(5)
        marks = [int(place > 0 and letter > letters[place - 1] and self.below(4) < of_four) for place, letter in enumerate(letters)]
        return letters, marks

    def runs(self, rank, most=1024):
        """Rising letters, each with its count and the step into it: few or many, the counts mostly of one digit. About one time in 30 there are as many cells
        as there may be most."""
        letters = sorted(self.random.sample(range(1, rank + 1), self.below(min(rank, self.one_of((1, 2, 4, 8, 64))) + 1)))
        longest, of_four, left = self.one_of((1, 2, 3, 3, 12, 12, 120, 1024)), self.below(5), most - len(letters)
        runs = []
        for place, letter in enumerate(letters):
            more = self.below(min(longest, left + 1))
            left -= more
            runs.append([letter, 1 + more, int(place > 0 and self.below(4) < of_four)])
        if runs and self.below(30) == 0:
            self.one_of(runs)[1] += left
        return runs

    def run_word(self, runs):
        """A word of their letters: a column reading, rising, or in any order."""
        letters, marks = cells_of(runs)
        kind = self.below(3)
        return reading(letters, marks) if kind == 0 else letters if kind == 1 else self.random.sample(letters, len(letters))

    def factors(self, rank):
        """Two tableaux: of a word, by themselves, or the second of letters near to those of the first; now and then both the same."""
        first_length, second_length = self.lengths()
        first = self.factor(rank, first_length, [])
        if self.below(16) == 0 and first_length <= 512:
            return first, ([*first[0]], [*first[1]])
        return first, self.factor(rank, second_length, first[0])

    def factor(self, rank, length, others):
        kind = self.below(4)
        if kind == 0:
            return self.pair(rank, length)[:2]
        if kind == 1 or not others:
            return self.tableau(rank, length)
        return self.stepped([min(rank, max(1, self.one_of(others) - 1 + self.below(3))) for _ in range(length)])

    def pair(self, rank, length):
        return self.pair_of(self.word(rank, length))

    def pair_of(self, word):
        """The pair of a word: its letters sorted, equal ones as they stand; each entry a place from 1; a step down where the entry falls."""
        places = sorted(range(len(word)), key=word.__getitem__)
        marks = [int(cell > 0 and place < places[cell - 1]) for cell, place in enumerate(places)]
        return [word[place] for place in places], marks, [place + 1 for place in places]

    def second_word(self, rank, word):
        """A word for comparison with another: itself, its column reading, its letters shuffled, one letter away from it, or any."""
        kind = self.below(8)
        if kind == 0:
            return list(word)
        if kind == 1:
            return self.read(word)
        if kind == 2:
            return self.random.sample(word, len(word))
        if kind > 5:
            return self.word(rank, len(word) if kind == 6 else self.length())
        return self.near(rank, word)

    def word_above(self, small, large, word):
        """A word of a larger rank for comparison with one of a smaller: as of one rank; or of its class, its column reading or itself; or such a
        word with a letter more that the smaller rank does not have, most often the last, so that no junction tells."""
        kind = self.below(5)
        if kind == 0:
            return self.second_word(large, word)
        other = self.read(word) if self.below(3) else list(word)
        if kind > 2 and len(other) < 1024:
            place = len(other) if self.below(4) else self.below(len(other) + 1)
            other.insert(place, self.one_of((small + 1, small + 1 + self.below(large - small), large)))
        return other

    def near(self, rank, word):
        """A word with two neighbours exchanged, or with one letter less, more or changed; a new one is often the largest."""
        place = self.below(len(word) + 1)
        front, back = word[:place], word[place:]
        kind = self.below(4)
        if kind == 0:
            return front[:-1] + back[:1] + front[-1:] + back[1:]
        if kind == 1:
            return front + back[1:]
        return front + [rank if self.below(2) else 1 + self.below(rank)] + back[kind - 2 :]

    def read(self, word):
        """A word of the same class: its cells, each column turned round."""
        places = sorted(range(len(word)), key=word.__getitem__)
        columns = []
        for cell, place in enumerate(places):
            if cell > 0 and place < places[cell - 1]:
                columns[-1].insert(0, word[place])
            else:
                columns.append([word[place]])
        return [letter for column in columns for letter in column]
