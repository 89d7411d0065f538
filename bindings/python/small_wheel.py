"""A command that makes a wheel, for a setuptools below 70.1 without the package `wheel`, as a fresh virtual environment of Python 3.11 has it.

It writes what the package needs and no more: one platform, no scripts, no dependencies.
"""
import base64
import hashlib
import os
import shutil
import sysconfig
import zipfile

from setuptools import Command

WHEEL = """\
Wheel-Version: 1.0
Generator: luchtrav
Root-Is-Purelib: false
Tag: %s
"""


def files_below(folder):
    """Paths and contents of all files, in order."""
    for place, folders, names in os.walk(folder):
        folders.sort()
        for name in sorted(names):
            path = os.path.join(place, name)
            with open(path, "rb") as file:
                yield os.path.relpath(path, folder), file.read()


def recorded(path, content):
    """A file's row in RECORD."""
    digest = base64.urlsafe_b64encode(hashlib.sha256(content).digest()).rstrip(b"=").decode()
    return "%s,sha256=%s,%d\n" % (path, digest, len(content))


class SmallWheel(Command):
    description = "make a wheel"
    user_options = [("dist-dir=", "d", "folder for the wheel")]

    def initialize_options(self):
        self.dist_dir = None

    def finalize_options(self):
        self.dist_dir = self.dist_dir or os.path.join(self.get_finalized_command("build").build_base, "dist")

    def egg2dist(self, egg_info, dist_info):
        """Metadata as wheels have it, from those of setuptools, which calls this when it is asked for metadata alone."""
        os.makedirs(dist_info, exist_ok=True)
        shutil.copy(os.path.join(egg_info, "PKG-INFO"), os.path.join(dist_info, "METADATA"))

    def run(self):
        self.run_command("build")
        self.run_command("egg_info")
        metadata = self.distribution.metadata
        name = "%s-%s" % (metadata.get_name(), metadata.get_version())
        tag = "py3-none-" + sysconfig.get_platform().replace("-", "_").replace(".", "_")

        info = name + ".dist-info/"
        with open(os.path.join(self.get_finalized_command("egg_info").egg_info, "PKG-INFO"), "rb") as file:
            described = file.read()
        contents = dict(files_below(self.get_finalized_command("build").build_lib))
        contents[info + "METADATA"] = described
        contents[info + "WHEEL"] = (WHEEL % tag).encode()
        rows = [recorded(path, content) for path, content in contents.items()]
        contents[info + "RECORD"] = "".join(rows + [info + "RECORD,,\n"]).encode()

        os.makedirs(self.dist_dir, exist_ok=True)
        with zipfile.ZipFile(os.path.join(self.dist_dir, "%s-%s.whl" % (name, tag)), "w", zipfile.ZIP_DEFLATED) as wheel:
            for path, content in contents.items():
                # Without the time of its making, so that equal contents make equal wheels.
                entry = zipfile.ZipInfo(path)
                entry.external_attr = 0o644 << 16
                wheel.writestr(entry, content, zipfile.ZIP_DEFLATED)
