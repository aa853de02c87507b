"""Tests of docs/definitions, on a small tree of its own."""
import os
import pathlib
import shutil
import subprocess
import sys
import tempfile
import textwrap
import unittest

TOP = pathlib.Path(os.path.realpath(__file__)).parent.parent
# The definitions of a file that a run rests on.
SHOWN = """\
-- a profile; its field is not the definition `size`
pub record Profile : Type 0 where
  pub size : ℕ
  pub rows : List ℕ

-- a comment that names unused
abbrev pub total : Profile → ℕ
total profile = profile.size + each_row profile.rows

-- named only by the one above
each_row : List ℕ → ℕ
each_row [] = 0
each_row (row ∷ rows) = row + each_row rows
"""
TREE = {
    "crates.txt": """
        # NAME: what it stands on
        votes:
        vote_cli: votes
        """,
    "crates/votes/specs/Count.antt": f"""\
-- What is counted
-- (a public source).
use Rattle.std.specs.Prelude.{{◌+◌, ℕ, List}}

{SHOWN}
-- what is not named
abbrev pub unused : ℕ
unused = total 1
""",
    "crates/votes/specs/Size.antt": """
        -- What only has the name of a field.
        abbrev pub size : ℕ
        size = 1
        """,
    "crates/vote_cli/specs/Steps/Run.antt": """
        -- What a run leaves.
        use Rattle.votes.specs.Count.{Profile, total as sum, unused as total}
        use Rattle.votes.specs.Size.{size}

        module _ (old : Profile) where
          abbrev pub IsRight : ℕ → Type 0
          IsRight result = result ≡ sum old + old.size -- total
        """,
    "crates/vote_cli/src/run_request.rt": """
        ghost use Rattle.vote_cli.specs.Steps.Run.{IsRight as MayPrint};
        ghost use Rattle.votes.specs.Count.{unused};
        use votes::size;

        fn other() -> u8
            ensures { unused }
        {
        }

        pub fn run(words: Words) -> u8
            ensures { MayPrint words.size }
        {
            unused
        }
        """,
    "crates/vote_cli/src/status.rt": "",
    "crates/text_output/src/device.rt": "",
    "crates/request_words/src/words.rt": "",
}
NAMES = """
    votes Count Profile
    votes Count total
    votes Count each_row
    vote_cli Steps.Run IsRight
    """
TABLE = """
    | File of specs/ | What it defines, and its source | Definitions |
    |---|---|---|
    | votes, Count | What is counted (a public source). | `Profile`, `total`, `each_row` |
    | vote_cli, Steps.Run | What a run leaves. | `IsRight` |
    """
TEXT = f"""\
-- ==== votes, Count

{SHOWN}
-- ==== vote_cli, Steps.Run

  abbrev pub IsRight : ℕ → Type 0
  IsRight result = result ≡ sum old + old.size -- total

"""


def plain(text):
    return textwrap.dedent(text.lstrip("\n"))


class Definitions(unittest.TestCase):
    @classmethod
    def setUpClass(cls):
        room = tempfile.TemporaryDirectory()
        cls.addClassCleanup(room.cleanup)
        cls.script = pathlib.Path(room.name, "docs", "definitions")
        cls.script.parent.mkdir()
        shutil.copy(TOP / "docs" / "definitions", cls.script)
        for name, text in TREE.items():
            file = pathlib.Path(room.name, name)
            file.parent.mkdir(parents=True, exist_ok=True)
            file.write_text(plain(text), encoding="utf-8")

    def ran(self, *words):
        # In the plain locale, and in another folder than that of the tree.
        done = subprocess.run([sys.executable, self.script, *words], capture_output=True, cwd="/", env={"LC_ALL": "C"})
        return done.returncode, done.stdout.decode(), done.stderr.decode()

    def test_names(self):
        self.assertEqual(self.ran("--names"), (0, plain(NAMES), ""))

    def test_table(self):
        self.assertEqual(self.ran("--table"), (0, plain(TABLE), ""))

    def test_text(self):
        self.assertEqual(self.ran(), (0, plain(TEXT), ""))

    def test_other_words(self):
        for words in (["--nmaes"], ["--names", "--table"], ["votes"]):
            status, shown, said = self.ran(*words)
            self.assertEqual((status, shown), (2, ""))
            self.assertIn("usage: definitions", said)


if __name__ == "__main__":
    unittest.main()
