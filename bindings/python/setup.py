"""The package: scripts/library, then pip install ./bindings/python.

The version stands in the header, the package carries the shared library, and all that is built goes below target/: the repository must lie around
this folder. The wheel is for every Python 3 on the library's platform: py3-none-linux_x86_64.

Name and contents stand here and not in pyproject.toml, since a setuptools below 61, as Python 3.8 and 3.9 bring it, would not find them there.
"""
import os
import runpy
import shutil
import sys

from setuptools import Distribution, setup
from setuptools.command.build_py import build_py

sys.dont_write_bytecode = True
HERE = os.path.dirname(os.path.abspath(__file__))
sys.path.insert(0, HERE)
from small_wheel import SmallWheel

# Not imported from the package, which would open the library.
PLACES = runpy.run_path(os.path.join(HERE, "luchtrav", "places.py"))
HEADER, LIBRARY = PLACES["HEADER"], PLACES["OWN_LIBRARY"]
BUILT = os.path.join(PLACES["ROOT"], "target", "python")


class WithLibrary(Distribution):
    """Not for every platform, though there is no extension to compile."""

    def has_ext_modules(self):
        return True


class BuildWithLibrary(build_py):
    """The modules, and beside them in native/ the shared library and its header."""

    def run(self):
        if not os.path.isfile(LIBRARY):
            sys.exit("luchtrav: no %s. Make it first: scripts/library, in the repository." % LIBRARY)
        package = os.path.join(self.build_lib, "luchtrav")
        shutil.rmtree(package, ignore_errors=True)
        super().run()
        if not getattr(self, "editable_mode", False):
            native = os.path.join(package, "native")
            self.mkpath(native)
            for file in (LIBRARY, HEADER):
                self.copy_file(file, os.path.join(native, os.path.basename(file)))


def wheel_command():
    """The command that makes wheels: setuptools' own from 70.1 on, else that of the package `wheel`, and where there is neither a small one."""
    try:
        from setuptools.command.bdist_wheel import bdist_wheel
    except ImportError:
        try:
            from wheel.bdist_wheel import bdist_wheel
        except ImportError:
            return SmallWheel

    class AnyPython(bdist_wheel):
        def get_tag(self):
            return ("py3", "none", super().get_tag()[2])

    return AnyPython


os.makedirs(BUILT, exist_ok=True)
with open(os.path.join(HERE, "README.md"), encoding="utf-8") as file:
    README = file.read()
setup(
    name="luchtrav",
    version=PLACES["version_in"](HEADER),
    description="Quasi-ribbon words: the proved kernel of the hypoplactic monoid",
    long_description=README,
    long_description_content_type="text/markdown",
    python_requires=">=3.8",
    packages=["luchtrav"],
    package_data={"luchtrav": ["py.typed"]},
    distclass=WithLibrary,
    cmdclass={"build_py": BuildWithLibrary, "bdist_wheel": wheel_command()},
    options={"build": {"build_base": BUILT}, "egg_info": {"egg_base": BUILT}},
)
