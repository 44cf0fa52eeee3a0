"""Installs the package over an installed library, found by YURKIJE_PREFIX or pkg-config, and stores
that path in `_prefix.py`."""
import os
import re
import subprocess
import sys

from setuptools import setup
from setuptools.command.build_py import build_py


def prefix():
    """Returns the prefix of the installed library."""
    if "YURKIJE_PREFIX" in os.environ:
        return os.path.abspath(os.environ["YURKIJE_PREFIX"])
    try:
        ran = subprocess.run(["pkg-config", "--variable=prefix", "yurkije"], capture_output=True, text=True)
        found = ran.stdout.strip()
    except OSError:
        found = ""
    if not found:
        sys.exit("yurkije is not found: set YURKIJE_PREFIX to the folder that tools/install filled, or PKG_CONFIG_PATH to its lib/pkgconfig")
    return found


def version(folder):
    """Returns the version of the library installed there."""
    with open(f"{folder}/lib/pkgconfig/yurkije.pc", encoding="utf-8") as file:
        return re.search(r"(?m)^Version: *(\S+)$", file.read())[1]


class Build(build_py):
    def run(self):
        super().run()
        with open(os.path.join(self.build_lib, "yurkije", "_prefix.py"), "w", encoding="utf-8") as file:
            file.write(f'"""Where the library was installed when this package was."""\nPREFIX = {prefix()!r}\n')


setup(version=version(prefix()), cmdclass={"build_py": Build})
