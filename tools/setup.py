"""Installs the module `committees` as a package, since only a package can carry `py.typed`. If a wheel is made with the
program, that lies beside this file, and so does a folder `share` with the man pages, documents and licences."""
import os

from setuptools import setup
from setuptools.command.build_py import build_py
from distutils.command.build_scripts import build_scripts  # setuptools has it, also where Python has it no longer

PROGRAM, SHARE = "committees", "share"

# `python3 -m` runs this file of a package.
START = """\
import sys

from committees import main

sys.exit(main())
"""


class Build(build_py):
    def run(self) -> None:
        super().run()
        if getattr(self, "editable_mode", False):
            return
        package = os.path.join(self.build_lib, "committees")
        self.mkpath(package)
        os.replace(os.path.join(self.build_lib, "committees.py"), os.path.join(package, "__init__.py"))
        with open(os.path.join(package, "py.typed"), "w"):
            pass
        with open(os.path.join(package, "__main__.py"), "w") as start:
            start.write(START)


class BuildScripts(build_scripts):
    """Also takes the program, which is not text as the scripts that pyproject.toml lists are."""

    def run(self) -> None:
        super().run()
        if os.path.exists(PROGRAM):
            self.copy_file(PROGRAM, self.build_dir)


data = [(folder, [os.path.join(folder, name) for name in names]) for folder, _, names in os.walk(SHARE) if names]
setup(cmdclass={"build_py": Build, "build_scripts": BuildScripts}, data_files=sorted(data))
