"""Where the shared library and its header lie: in native/ of an installed package, else in the repository that this file lies in."""
import os
import re

NATIVE = os.path.join(os.path.dirname(os.path.abspath(__file__)), "native")
ROOT = os.path.dirname(os.path.dirname(os.path.dirname(os.path.dirname(NATIVE))))
INSTALLED = os.path.isdir(NATIVE)

HEADER = os.path.join(NATIVE, "luchtrav.h") if INSTALLED else os.path.join(ROOT, "include", "luchtrav.h")
OWN_LIBRARY = os.path.join(NATIVE, "libluchtrav.so") if INSTALLED else os.path.join(ROOT, "target", "library", "libluchtrav.so")
LIBRARY = os.environ.get("LUCHTRAV_LIBRARY") or OWN_LIBRARY


def version_in(header: str) -> str:
    """LUCHTRAV_VERSION of a header, the one place that states it."""
    try:
        with open(header) as file:
            found = re.search(r'^#define LUCHTRAV_VERSION "(.*)"$', file.read(), re.M)
    except OSError as error:
        raise ImportError("luchtrav: no header at %s (%s): the package was copied without it." % (header, error)) from error
    if not found:
        raise ImportError("luchtrav: the header at %s states no LUCHTRAV_VERSION." % header)
    return found[1]
