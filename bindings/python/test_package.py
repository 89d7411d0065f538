"""Tests of the package as such: every function of the header, its version, where its library comes from, and the examples of its pages.

    python3 bindings/python/test_package.py
"""
import doctest
import inspect
import os
import re
import shutil
import tempfile
import unittest

from support import HERE, PACKAGES, Case, lu, run_python

from luchtrav import classes, lines, pairs, places, runs, tableaux, two_tableaux, window, words
from luchtrav.library import FUNCTIONS


class Package(Case):
    def test_every_function_of_the_header(self) -> None:
        with open(places.HEADER) as file:
            text = re.sub(r"/\*.*?\*/", "", file.read(), flags=re.S)
        declared = {name: inside.count(",") + 1 for name, inside in re.findall(r"luchtrav_\w+ luchtrav_(\w+)\(([^)]*)\);", text)}
        self.assertEqual(len(declared), 45)
        self.assertEqual(declared, {name: len(parameters) for name, (_, parameters) in FUNCTIONS.items()})
        offered = {name for name in lu.__all__ if name[0].islower()}
        self.assertEqual(set(declared), offered)
        for name in offered:
            self.assertTrue(getattr(lu, name).__doc__, name)
            self.assertIn("return", getattr(lu, name).__annotations__, name)

    def test_order_of_parameters(self) -> None:
        """As in C: what is no memory first, in the same order."""
        self.assertEqual(list(inspect.signature(lu.insert_letter).parameters), ["rank", "letter", "letters", "marks", "entries"])
        self.assertEqual(list(inspect.signature(lu.remove_oldest).parameters), ["rank", "letters", "marks", "entries"])
        self.assertEqual(list(inspect.signature(lu.product).parameters)[:3], ["rank", "first", "second"])

    def test_examples(self) -> None:
        """Those that docstrings have."""
        for module, count in ((words, 5), (lines, 2), (runs, 3), (tableaux, 3), (two_tableaux, 3), (classes, 3), (pairs, 1), (window, 5)):
            failed, tried = doctest.testmod(module, extraglobs={"luchtrav": lu})
            self.assertEqual((failed, tried), (0, count))

    def test_version(self) -> None:
        with open(places.HEADER) as file:
            self.assertIn('#define LUCHTRAV_VERSION "%s"\n' % lu.__version__, file.read())
        self.assertRegex(lu.__version__, r"^\d+\.\d+\.\d+$")

    def test_whose_library(self) -> None:
        """An installed package has its own header and library; in the repository they are the repository's."""
        installed = bool(os.environ.get("LUCHTRAV_INSTALLED"))
        self.assertEqual(PACKAGES != HERE, installed)
        own = os.path.join(PACKAGES, "luchtrav", "native") + os.sep
        for path in (places.HEADER, places.OWN_LIBRARY):
            self.assertEqual(path.startswith(own), installed)

    def test_named_library(self) -> None:
        came = run_python("import luchtrav; print(luchtrav.answer(b'W,4,0\\n'))", LUCHTRAV_LIBRARY=places.LIBRARY)
        self.assertEqual((came.returncode, came.stdout), (0, "b'P,4,0\\nW,4,0\\nJ,0,0\\n'\n"))

    def test_no_such_library(self) -> None:
        for path, says in (("/nowhere/libluchtrav.so", "no library at /nowhere/libluchtrav.so"),
                           (places.HEADER, "no library at " + places.HEADER),
                           ("libc.so.6", "the library at libc.so.6 has no function luchtrav_check_word")):
            came = run_python("import luchtrav", LUCHTRAV_LIBRARY=path)
            self.assertEqual(came.returncode, 1)
            self.assertIn("\nImportError: luchtrav: " + says, came.stderr)
            self.assertIn("scripts/library", came.stderr)

    def test_copied_without_header(self) -> None:
        with tempfile.TemporaryDirectory() as folder:
            shutil.copytree(os.path.join(PACKAGES, "luchtrav"), os.path.join(folder, "luchtrav"), ignore=shutil.ignore_patterns("native"))
            came = run_python("import luchtrav", folder, LUCHTRAV_LIBRARY=places.LIBRARY)
            self.assertIn("\nImportError: luchtrav: no header at ", came.stderr)

    def test_pages(self) -> None:
        for page, least in (("README.md", 25), ("ARGUMENTS.md", 3)):
            failed, tried = doctest.testfile(os.path.join(HERE, page), module_relative=False)
            self.assertGreater(tried, least)
            self.assertEqual(failed, 0)
        with open(os.path.join(HERE, "CLASSES.md")) as file:
            rows = [line.strip() for line in file]
        came = run_python("import runpy; runpy.run_path(%r)" % os.path.join(HERE, "classes.py"))
        self.assertEqual(came.returncode, 0, came.stderr)
        printed = came.stdout.splitlines()
        self.assertEqual([row for row in rows if row.startswith("| `T,")], printed[:-3])
        self.assertEqual(rows[-3:], printed[-3:])


if __name__ == "__main__":
    unittest.main()
