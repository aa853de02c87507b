"""Tests of `pip install ./tools`, in a fresh virtual environment and without a network."""
import os
import shutil
import subprocess
import sys
import tempfile
import unittest

HERE = os.path.dirname(os.path.realpath(__file__))
TOP = os.path.dirname(HERE)
sys.path.insert(0, HERE)
from committees import __version__, _program  # noqa: E402

BOARD = os.path.join(TOP, "examples", "board.cat")
WINNERS = f"from committees import elect; print([sorted(winner) for winner in elect({BOARD!r}, 'pav', 3)])"
TYPED = """
from typing import Dict, FrozenSet, Tuple
from committees import Answers, Check, check, elect, share

winners: Answers[FrozenSet[int]] = elect("board.cat", "pav", 3, limit=2, timeout=60)
named: Answers[Tuple[str, ...]] = elect("board.cat", "pav", 3, names=True)
votes: Answers[Tuple[int, ...]] = share([1, 2], "adams", 3)
seats: Answers[Dict[str, int]] = share({"Greens": 1}, "adams", 3)
report: Check[FrozenSet[int]] = check(b"", "jr", {1})
"""
MISTYPED = [
    'elect("b.cat", "pav", 3, setsise=2)',
    'elect("b.cat", "pav", 3, setsize="2")',
    'check("b.cat", "jr", [], limit=1)',
]


def run(*words, **options):
    return subprocess.run(words, capture_output=True, text=True, **options)


def has_modules(python):
    return os.path.exists(python) and run(python, "-c", "import setuptools, pip, venv, wheel").returncode == 0


class Installed(unittest.TestCase):
    """Everything runs in a folder of its own, so that no import finds this checkout."""

    @classmethod
    def setUpClass(cls):
        pythons = [python for python in (sys.executable, "/usr/bin/python3") if has_modules(python)]
        if not pythons:
            raise unittest.SkipTest("no Python here has pip, setuptools, venv and wheel")
        room = tempfile.TemporaryDirectory()
        cls.addClassCleanup(room.cleanup)
        cls.room, cls.bin = room.name, os.path.join(room.name, "environment", "bin")
        # Its pip, setuptools and wheel are those of the machine.
        run(pythons[0], "-m", "venv", "--without-pip", "--system-site-packages", os.path.dirname(cls.bin), check=True)
        copy = os.path.join(cls.room, "tools")
        shutil.copytree(HERE, copy, symlinks=True, ignore=shutil.ignore_patterns("build", "*.egg-info", "__pycache__"))
        environment = {name: value for name, value in os.environ.items() if name != "PYTHONPATH"}
        cls.options = {"cwd": cls.room, "env": {**environment, "PATH": f"{cls.bin}:/usr/bin:/bin"}}
        pip = [os.path.join(cls.bin, "python"), "-m", "pip", "--disable-pip-version-check", "install", "--no-index"]
        done = run(*pip, "--no-build-isolation", copy, **cls.options)
        if done.returncode:
            raise AssertionError(done.stdout + done.stderr)
        # The sources are gone, as they may be for a user.
        shutil.rmtree(copy)

    def ran(self, program, *words, errors="", **options):
        done = run(os.path.join(self.bin, program), *words, **{**self.options, **options})
        self.assertEqual(done.returncode, 0, done.stderr)
        self.assertRegex(done.stderr, f"^{errors}")
        self.assertEqual(done.stderr == "", errors == "")
        return done.stdout

    def test_the_program_on_the_path(self):
        self.assertIn(self.room, self.ran("python", "-c", "import committees; print(committees.__file__)"))
        folder = os.path.join(self.room, "programs")
        os.mkdir(folder)
        os.symlink(_program(None), os.path.join(folder, "committees"))
        with_program = {**self.options["env"], "PATH": f"{folder}:{self.options['env']['PATH']}"}
        self.assertEqual(self.ran("python", "-c", WINNERS, env=with_program), "[[1, 2, 3]]\n")
        self.assertIn("<svg", self.ran("draw_committee", "--rule=pav", "--size=3", BOARD, env=with_program))
        shown = self.ran("python", "-m", "committees", "elect", "--rule=pav", "--size=3", BOARD, env=with_program)
        self.assertEqual(shown, '{"rule":"pav","size":3,"score":"77/6","committees":[[1,2,3]],"more":false}\n')

    def test_the_version(self):
        words = (
            "import committees, importlib.metadata as data; print(data.version('committees'), committees.__version__)"
        )
        self.assertEqual(self.ran("python", "-c", words), f"{__version__} {__version__}\n")

    def test_the_program_by_its_path(self):
        program = repr(os.path.realpath(_program(None)))
        self.assertEqual(self.ran("python", "-c", WINNERS.replace("3)", f"3, program={program})")), "[[1, 2, 3]]\n")

    def test_no_program(self):
        if shutil.which("committees", path="/usr/bin:/bin"):
            self.skipTest("the program is installed on this machine")
        done = run(os.path.join(self.bin, "python"), "-c", WINNERS, **self.options)
        self.assertIn("NoProgram: there is no program `committees`", done.stderr)

    def test_the_scripts(self):
        self.assertIn(
            "2: {1},{2}\n", self.ran("table_to_cat", input="Ada,Ben\nx,\nx,\n", errors="table_to_cat: 2 voters")
        )
        self.assertIn("usage: draw_committee", self.ran("draw_committee", "--help"))

    def test_types(self):
        mypy = shutil.which("mypy")
        if not mypy:
            self.skipTest("there is no mypy")
        words = [mypy, "--strict", "--python-executable", os.path.join(self.bin, "python"), "user.py"]
        for last, errors in [("", 0), *((line, 1) for line in MISTYPED)]:
            with open(os.path.join(self.room, "user.py"), "w") as file:
                file.write(f"{TYPED}{last}\n")
            done = run(*words, **self.options)
            self.assertEqual(done.returncode, errors, done.stdout)
            self.assertEqual(done.stdout.count(": error: "), errors, done.stdout)


if __name__ == "__main__":
    unittest.main()
