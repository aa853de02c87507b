"""Tests of docs/facts: faults that are planted in a copy of the documents, one at a time, are noticed."""
import contextlib
import io
import os
import pathlib
import shutil
import sys
import tempfile
import unittest

TOP = pathlib.Path(os.path.realpath(__file__)).parent.parent
sys.path[:0] = [str(TOP / "tools"), str(TOP / "docs")]
from test_tables import module_of  # noqa: E402

PROGRAM = TOP / "crates/committees/out/committees"
PAGES = ["README.md", "CONTRIBUTING.md", "crates.txt", "packages/make_packages", "packages/debian/control"]
# A page, what stands there, what is planted in its place, and a part of the complaint.
FAULTS = """
README.md | 3 ǀ the ballots were refused | 3 ǀ the request does not fit the ballots | README.md: status 3
README.md | 64 candidates or parties | 640 candidates or parties | does not say '64 candidates
README.md | 10,000 seats | 100,000 seats | 10,000 seats
README.md | glibc 2.34 | glibc 2.17 | README.md has glibc 2.17
README.md | `geom2`, `geom3` | `geom2`, `geom5` | README.md, --rule, has geom5
README.md | `saintelague` (Webster) | `saintelague` (Jefferson) | README.md calls saintelague Jefferson
CONTRIBUTING.md | crates and | crates and 1 | CONTRIBUTING.md does not say
crates.txt | group_check: ballot_base | groups_check: ballot_base | docs/ARCHITECTURE.md has group_check
packages/debian/control | libc6 (>= 2.34) | libc6 (>= 2.31) | packages/debian/control has glibc 2.31
docs/RULES.md | 1 + 1/2 + .. + 1/x | 1 + 1/3 + .. + 1/x | docs/RULES.md: pav adds
docs/RULES.md | 1 + 1/2 + .. + 1/x | 1 + 1/4 + .. + 1/x^2 | docs/RULES.md: pav adds
docs/RULES.md | p = 2, 3, 4 | p = 2, 4, 3 | docs/RULES.md: geom3 adds
docs/RULES.md | 1 if x ≥ 1 | 1 if x ≥ 2 | docs/RULES.md: cc adds
docs/RULES.md | score of `pav` least | score of `pav` most | docs/RULES.md: revseqpav
docs/RULES.md | starts with all candidates | starts with no candidate | docs/RULES.md: revseqpav
docs/RULES.md | the smallest maximum distance | the largest minimum distance | docs/RULES.md: minimax
docs/RULES.md | v / (2s + 1) | v / (2s + 2) | docs/RULES.md: saintelague gives
docs/RULES.md | `ejrplus` | `ejrminus` | docs/RULES.md, --property, lacks ejrplus
docs/RULES.md | D'Hondt, Jefferson | D'Hondt, Webster | calls dhondt Jefferson
docs/FORMATS.md | p^(K-1) | p^K | docs/FORMATS.md: D of geom2
docs/FORMATS.md | d(s) = 2s + 1 | d(s) = s + 2 | docs/FORMATS.md: saintelague gives
docs/FORMATS.md | 1 to 40. Required | 1 to 64. Required | docs/FORMATS.md: --size takes 1 to 40
docs/FORMATS.md | `NUMBER ALTERNATIVES` is above 64 | `NUMBER ALTERNATIVES` is above 63 | TooManyCandidates has
docs/FORMATS.md | 5 ǀ `committees: memory` | 6 ǀ `committees: memory` | docs/FORMATS.md, statuses, lacks 5
docs/FORMATS.md | `toc` or `toi`. It | `toc` or `tok`. It | docs/FORMATS.md, --kind, has tok
docs/MESSAGES.md | Status 5: out of memory | Status 6: out of memory | docs/MESSAGES.md, statuses, lacks 5
docs/MESSAGES.md | more than 64 numbers | more than 40 numbers | docs/MESSAGES.md: TooManyParties
docs/MESSAGES.md | GLIBC_2.34 | GLIBC_2.28 | docs/MESSAGES.md has glibc 2.28
docs/HOSTILE_USE.md | output closed ǀ 6 | output closed ǀ 5 | docs/HOSTILE_USE.md: status 5
docs/ARCHITECTURE.md | ǀ `tie_walk` ǀ | ǀ `tie_run` ǀ | docs/ARCHITECTURE.md lacks tie_walk
docs/FAQ.md | More than 64 candidates | More than 60 candidates | docs/FAQ.md does not say
docs/LIBRARIES.md | winners by `sav` | winners by `sov` | docs/LIBRARIES.md has sov
docs/FAQ.md | ǀ `minimax` ǀ | ǀ `maximin` ǀ | docs/FAQ.md, comparison, lacks minimax
docs/committees.bash | words="hamilton dhondt | words="webster hamilton dhondt | --method, has webster
docs/committees.bash | seqcc revseqpav" | seqcc" | --rule, lacks revseqpav
docs/committees.1 | 1 to 10,000 | 1 to 100,000 | docs/committees.1: --seats takes 1 to 10,000
docs/committees.1 | than 1,048,576 bytes | than 1,000,000 bytes | docs/committees.1: LongLine
docs/committees.1 | .B 4 | .B 3 | docs/committees.1, statuses, lacks 4
docs/committees.1 | approves at least L members | approves at least one member | docs/committees.1: ejr is not
docs/committees.1 | score of pav most | score of pav least | docs/committees.1: seqpav
docs/committees.1 | v / s. | v / (s + 1). | docs/committees.1: adams gives
"""


@unittest.skipUnless(PROGRAM.exists(), "the program is not built")
class Facts(unittest.TestCase):
    @classmethod
    def setUpClass(cls):
        room = tempfile.TemporaryDirectory()
        cls.addClassCleanup(room.cleanup)
        cls.folder = pathlib.Path(room.name)
        for page in [*PAGES, *(str(path.relative_to(TOP)) for path in TOP.glob("docs/*") if path.is_file())]:
            (cls.folder / page).parent.mkdir(parents=True, exist_ok=True)
            shutil.copy(TOP / page, cls.folder / page)
        cls.facts = module_of("../docs/facts")

    def complaints(self):
        with contextlib.redirect_stderr(io.StringIO()) as said, contextlib.redirect_stdout(io.StringIO()) as shown:
            status = self.facts.main([str(self.folder)])
        return status, shown.getvalue(), said.getvalue()

    def test_the_documents_are_right(self):
        status, shown, said = self.complaints()
        self.assertEqual((status, said), (0, ""))
        self.assertRegex(shown, r"\A[1-9]\d\d facts, 0 complaints\n\Z")

    def test_planted_faults(self):
        for line in FAULTS.strip().splitlines():
            page, right, planted, complaint = (part.replace("ǀ", "|") for part in line.split(" | "))
            file = self.folder / page
            text = file.read_text(encoding="utf-8")
            with self.subTest(page=page, planted=planted):
                changed = text.replace("\\-", "-").replace(right, planted, 1)
                self.assertNotEqual(changed, text.replace("\\-", "-"))
                file.write_text(changed, encoding="utf-8")
                status, shown, said = self.complaints()
                self.assertEqual(status, 1)
                self.assertIn(complaint, said)
                self.assertNotIn(" 0 complaints", shown)
            file.write_text(text, encoding="utf-8")


if __name__ == "__main__":
    unittest.main()
