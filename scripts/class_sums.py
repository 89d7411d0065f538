#!/usr/bin/env python3
"""Sizes of classes, added up: every word has one tableau, so over all tableaux of a rank and a length the sizes must add up to rank^length.

    python3 scripts/class_sums.py                  # rank 4, 12 letters: 4^12 = 16,777,216
    python3 scripts/class_sums.py RANK LENGTH..    # another rank from 1 to 64, each length from 0 to 20

Each size is asked of the library, target/library/libluchtrav.so, through the Python binding. The tableaux are all ways to write rising letters and, wherever
they rise, to step right or down; they grow fast in number with the rank. Beside the sum this prints how many classes there are and how large the largest
is. The exit status is 1 where a sum is another.
"""
import os
import sys

sys.dont_write_bytecode = True
sys.path.insert(0, os.path.join(os.path.dirname(os.path.dirname(os.path.abspath(__file__))), "bindings", "python"))

from class_numbers import tableaux_of
from luchtrav import class_size


def sums_up(rank, length):
    """Whether the sizes add up."""
    classes = total = largest = 0
    for letters, marks in tableaux_of(rank, length):
        size = class_size(rank, letters, marks)
        classes, total, largest = classes + 1, total + size, max(largest, size)
    print("rank %d, length %d: %d classes, the largest of %d words, together %d; %d^%d is %d"
          % (rank, length, classes, largest, total, rank, length, rank**length), flush=True)
    return total == rank**length


def main():
    numbers = [int(number) for number in sys.argv[1:]] or [4, 12]
    if len(numbers) < 2 or not 1 <= numbers[0] <= 64 or not all(0 <= length <= 20 for length in numbers[1:]):
        sys.exit(__doc__)
    wrong = [length for length in numbers[1:] if not sums_up(numbers[0], length)]
    sys.exit(1 if wrong else 0)


if __name__ == "__main__":
    main()
