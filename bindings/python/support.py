"""What the tests share: the package under test, the pair of 4323, and a test case that expects refusals.

The package is the repository's, or, where the environment variable LUCHTRAV_INSTALLED is set, the one that this Python has installed.
"""
import os
import subprocess
import sys
import unittest
from typing import Any, Callable, List

sys.dont_write_bytecode = True

HERE = os.path.dirname(os.path.abspath(__file__))

path = sys.path
if os.environ.get("LUCHTRAV_INSTALLED"):
    sys.path = [place for place in path if os.path.abspath(place) != HERE]
    # The search for tests looks into every package that it passes.
    for name in [name for name in sys.modules if name.split(".")[0] == "luchtrav"]:
        del sys.modules[name]
import luchtrav as lu

sys.path = path

__all__ = ["ENTRIES", "HERE", "LETTERS", "MARKS", "PACKAGES", "PAIR", "TABLEAU", "Case", "lu", "run_python", "word_of"]

# The folder that the package under test lies in.
PACKAGES = os.path.dirname(os.path.dirname(os.path.abspath(lu.__file__)))

# The pair of 4323 at rank 4.
LETTERS, MARKS, ENTRIES = [2, 3, 3, 4], [0, 1, 0, 1], [3, 2, 4, 1]
TABLEAU, PAIR = lu.Tableau(LETTERS, MARKS), lu.Pair(LETTERS, MARKS, ENTRIES)


def word_of(digits: str) -> List[int]:
    return [int(digit) for digit in digits]


def run_python(code: str, folder: str = PACKAGES, **variables: str) -> "subprocess.CompletedProcess[str]":
    """A Python of its own, with the package under test, or the one in another folder."""
    return subprocess.run(
        [sys.executable, "-B", "-c", code], cwd=folder, env={**os.environ, **variables}, stdout=subprocess.PIPE, stderr=subprocess.PIPE,
        universal_newlines=True,
    )


class Case(unittest.TestCase):
    def refusal(self, function: Callable[..., Any], *arguments: Any) -> lu.Refusal:
        """The refusal that a call must end in."""
        with self.assertRaises(lu.Refusal) as raised:
            function(*arguments)
        self.assertEqual(raised.exception.function, function.__qualname__)
        return raised.exception

    def refuses(self, number: int, place: int, function: Callable[..., Any], *arguments: Any) -> None:
        self.assertEqual(self.refusal(function, *arguments), lu.Refusal(number, place))
