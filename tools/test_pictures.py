"""Tests of draw_committee, with real runs of the program."""
import os
import pathlib
import re
import signal
import subprocess
import sys
import tempfile
import unittest
from xml.etree import ElementTree

HERE = os.path.dirname(os.path.realpath(__file__))
TOP = os.path.dirname(HERE)
sys.path.insert(0, HERE)
import committees  # noqa: E402
from test_answers import pid_of, program_that  # noqa: E402

EXAMPLES = os.path.join(TOP, "examples")
BOARD = os.path.join(EXAMPLES, "board.cat")
LABEL = re.compile("([0-9,]+) voters?(, [0-9,]+ ballots)?")
MOST_VOTERS = 2**32


def run(*words, text=b""):
    """The status of draw_committee, and what it writes to its two streams."""
    command = [sys.executable, os.path.join(HERE, "draw_committee"), *words]
    done = subprocess.run(command, input=text, capture_output=True)
    return done.returncode, done.stdout, done.stderr.decode()


class Shown:
    """What a reader of a picture sees."""

    def __init__(self, *words, text=b""):
        status, svg, said = run(*words, text=text)
        assert (status, said) == (0, ""), said
        root = ElementTree.fromstring(svg)
        name = "{http://www.w3.org/2000/svg}"
        self.height = int(root.get("height"))
        self.width = int(root.get("width"))
        self.size = len(svg)
        self.title = root.find(f"{name}title").text
        self.description = root.find(f"{name}desc").text
        self.style = root.find(f"{name}style").text
        self.texts = [element.text for element in root.iter(f"{name}text")]
        self.bold = [element.text for element in root.iter(f"{name}text") if element.get("font-weight")]
        self.turned = [element.text for element in root.iter(f"{name}text") if element.get("transform")]
        boxes = list(root.iter(f"{name}rect"))
        self.outlines = [box for box in boxes if box.get("stroke-dasharray") == "7 4"]
        self.cells = [box for box in boxes if box.get("stroke-opacity")]
        self.filled = [box for box in boxes if box.get("class") == "yes"][:-1]  # the last one is of the legend
        self.bars = [float(box.get("height")) for box in boxes if box.get("class") == "yes bar"]
        self.columns = [box for box in boxes if box.get("fill-opacity")]
        self.labels = [text for text in self.texts if LABEL.fullmatch(text)]
        self.voters = sum(int(LABEL.fullmatch(text)[1].replace(",", "")) for text in self.labels)


def counts(path, kind, voters):
    """Whether the program counts this number of voters in a file: it takes only as many more as make 2^32 together."""
    text = pathlib.Path(path).read_bytes()
    order = re.findall(rb"^[ \t]*[0-9]+[ \t]*:(.*)", text, re.MULTILINE)[-1].rstrip(b"\r")

    def takes(more):
        try:
            committees.elect(text + b"\n%d:%s\n" % (more, order), "av", 1, kind=kind).close()
        except committees.InputRefused as error:
            assert error.fault == "TooManyVoters", error
            return False
        return True

    return takes(MOST_VOTERS - voters) and not takes(MOST_VOTERS - voters + 1)


def at(box):
    return box.get("x"), box.get("y")


class Elections(unittest.TestCase):
    def test_a_winner(self):
        shown = Shown(BOARD, "--rule", "pav", "--size", "3")
        # Those who are left out come first, within one outline, and the largest group of them first of all.
        self.assertEqual(shown.labels, ["2 voters", "1 voter", "7 voters"])
        self.assertEqual(shown.bold, ["Ada", "1", "Ben", "2", "Cleo", "3"])
        self.assertEqual(shown.title, "The candidates that each voter approves, and the committee Ada, Ben, Cleo")
        self.assertEqual(len(shown.columns), 3)
        self.assertEqual(len(shown.cells), 18)
        # three by the first group, two by the second, one by the third
        self.assertEqual(len(shown.filled), 6)
        self.assertEqual(len(shown.outlines), 1)
        first, second = shown.cells[0], shown.cells[6]
        bottom = float(second.get("y")) + float(second.get("height"))
        self.assertEqual(float(shown.outlines[0].get("y")), float(first.get("y")) - 2)
        self.assertEqual(float(shown.outlines[0].get("height")), bottom - float(first.get("y")) + 4)
        self.assertIn("pav, 3 seats: Ada, Ben and Cleo with the score 77/6.", shown.texts)
        self.assertIn("3 of 10 voters approve no member of the committee.", shown.texts)
        self.assertIn("3 of 10 voters approve no member of the committee.", shown.description)

    def test_bars_of_approvals(self):
        shown = Shown(BOARD, "--rule", "pav", "--size", "3")
        self.assertEqual(shown.bars, [60, 60, 60, 17.14, 17.14, 8.571])  # 7, 2 and 1 of 7
        at_end = shown.texts[shown.texts.index("approvals") :]
        self.assertEqual(at_end[1:7], ["7", "7", "7", "2", "2", "1"])
        empty = Shown("--rule", "av", "--size", "1", text=b"# DATA TYPE: cat\n# NUMBER ALTERNATIVES: 2\n1: {}\n")
        self.assertEqual(empty.bars, [])
        # Numbers that are wider than a column are turned.
        text = b"# DATA TYPE: cat\n# NUMBER ALTERNATIVES: 64\n1234567: 2\n1: 1\n"
        self.assertIn("1,234,567", Shown("--rule", "av", "--size", "1", text=text).turned)

    def test_the_dark(self):
        style = Shown(BOARD, "--rule", "pav", "--size", "3").style
        self.assertIn("@media screen and (prefers-color-scheme: dark)", style)
        for name in ("ink", "paper", "cell", "yes", "seat", "out"):
            self.assertIn(f".{name} {{", style)

    def test_heights_are_shares(self):
        shown = Shown(BOARD, "--rule", "pav", "--size", "3")
        heights = [float(cell.get("height")) for cell in shown.cells[::6]]
        self.assertEqual([round(height / heights[1]) for height in heights], [2, 1, 7])
        tops = [float(cell.get("y")) for cell in shown.cells[::6]]
        self.assertTrue(all(top + height < below for top, height, below in zip(tops, heights, tops[1:])))

    def test_ties(self):
        words = [BOARD, "--rule", "cc", "--size", "2"]
        first = Shown(*words)
        self.assertEqual(first.bold, ["Ada", "1", "Dan", "4"])
        self.assertIn("6 committees tie; this is the first.", first.texts)
        last = Shown(*words, "--committee", "3,5")
        self.assertEqual(last.bold, ["Cleo", "3", "Eve", "5"])
        self.assertIn("6 committees tie; this is the one asked for.", last.texts)
        for committee in ("1,2", "1,6", "4,5", "1", "1,4,6", "9,10"):
            status, svg, said = run(*words, "--committee", committee)
            self.assertEqual((status, svg, said.count("\n")), (1, b"", 1), said)
        many = Shown("--rule", "av", "--size", "4", text=b"# DATA TYPE: cat\n# NUMBER ALTERNATIVES: 8\n1: {}\n")
        self.assertIn("More than 50 committees tie; this is the first.", many.texts)
        for candidates, number in [(50, "50"), (51, "More than 50")]:
            text = b"# DATA TYPE: cat\n# NUMBER ALTERNATIVES: %d\n1: {}\n" % candidates
            shown = Shown("--rule", "av", "--size", "1", text=text)
            self.assertIn(f"{number} committees tie; this is the first.", shown.texts)

    def test_the_tie_that_is_asked_for(self):
        text = b"# DATA TYPE: cat\n# NUMBER ALTERNATIVES: 5\n1: {}\n"
        for committee in ("1,2,5", "2,3,4"):
            shown = Shown("--rule", "av", "--size", "3", "--committee", committee, text=text)
            self.assertEqual(shown.bold, committee.split(","))
            self.assertIn("10 committees tie; this is the one asked for.", shown.texts)

    def test_rules_without_a_score(self):
        self.assertIn("seqpav, 1 seat: Ada.", Shown(BOARD, "--rule", "seqpav", "--size", "1", "--committee", "1").texts)
        text = b"# DATA TYPE: cat\n# NUMBER ALTERNATIVES: 2\n1: {1}\n1: {1,2}\n"
        shown = Shown("--rule", "MinimaxAV", "--size", "1", text=text)
        self.assertIn("MinimaxAV, 1 seat: 1 at a distance of 1.", shown.texts)


class Checks(unittest.TestCase):
    def test_a_group_that_is_left_out(self):
        shown = Shown(BOARD, "--property", "pjr", "--committee", "1,4,6")
        self.assertEqual(shown.bold, ["Ada", "1", "Dan", "4", "Finn", "6"])
        self.assertEqual(len(shown.outlines), 1)
        self.assertIn("7 of 10 voters approve Ada and Ben: they deserve 2 of 3 seats.", shown.texts)
        self.assertIn("Of the committee they approve only Ada.", shown.texts)
        ejr = Shown(BOARD, "--property", "EJR", "--committee", "6,4,1")
        self.assertIn("None of them approves 2 members of the committee.", ejr.texts)
        self.assertTrue(ejr.title.endswith("the committee Ada, Dan, Finn"), ejr.title)
        jr = Shown(BOARD, "--property", "jr", "--committee", "4,5,6")
        self.assertIn("7 of 10 voters approve Ada: they deserve 1 of 3 seats.", jr.texts)
        self.assertIn("None of them approves a member of the committee.", jr.texts)

    def test_what_holds(self):
        shown = Shown(BOARD, "--property", "jr", "--committee", "1,2,3")
        self.assertEqual(shown.outlines, [])
        self.assertIn("The committee has the property jr: no group of voters is left out.", shown.texts)


class Ballots(unittest.TestCase):
    CAT = (
        b"\xef\xbb\xbf# DATA TYPE: cat\r\n# NUMBER ALTERNATIVES: 3\r\n# ALTERNATIVE NAME 1: Ada\r\n"
        b"7 :\t{ 1 ,\t2 }\r\n\t2:{3},{1, 2}\n# a comment\n\n 3 : { } , 1\n1:\n1: 03 , 1\r"
    )

    def test_blanks_and_ends_of_lines(self):
        shown = Shown("--rule", "av", "--size", "1", text=self.CAT)
        # Two ballots without an approval, {3} twice, and {1, 2}. Candidate 1 wins.
        self.assertEqual(shown.labels, ["4 voters", "3 voters", "7 voters"])
        self.assertEqual(len(shown.filled), 3)
        self.assertIn("Ada", shown.texts)

    def test_the_five_types(self):
        soi = os.path.join(EXAMPLES, "songs.soi")
        for words, fills in [
            ([soi], 4),
            ([soi, "--classes", "2"], 2 + 2 + 1 + 2),
            ([soi, "--setsize", "3"], 2 + 3 + 1 + 3),
            ([os.path.join(EXAMPLES, "walks.soc")], 4),
            ([BOARD, "--category", "2"], 3 + 4 + 5),
        ]:
            shown = Shown(*words, "--rule", "av", "--size", "1")
            self.assertEqual(len(shown.filled), fills, words)
        text = b"# NUMBER ALTERNATIVES: 4\n2: {},{1,2},3,4\n3: {3,4},{1,2}\n"
        for kind in ("toi", "toc"):
            self.assertEqual(len(Shown("--kind", kind, "--rule", "av", "--size", "1", text=text).filled), 4)
            empty = Shown("--kind", kind, "--rule", "av", "--size", "1", "--classes", "1", text=text)
            self.assertEqual(len(empty.filled), 2)
            both = Shown("--kind", kind, "--rule", "av", "--size", "1", "--setsize", "3", text=text)
            self.assertEqual(len(both.filled), 3 + 4)

    def test_voters_are_those_that_the_program_counts(self):
        with tempfile.TemporaryDirectory() as room:
            path = os.path.join(room, "blanks.cat")
            pathlib.Path(path).write_bytes(self.CAT)
            self.assertTrue(counts(path, "cat", 14))
            self.assertFalse(counts(path, "cat", 13) or counts(path, "cat", 15))
            for name in sorted(os.listdir(EXAMPLES)) + [path]:
                file = os.path.join(EXAMPLES, name)
                shown = Shown(file, "--rule", "av", "--size", "1")
                self.assertTrue(counts(file, name.rpartition(".")[2], shown.voters), name)

    def test_the_type_by_the_extension(self):
        with tempfile.TemporaryDirectory() as room:
            path = os.path.join(room, "votes.SOI")
            pathlib.Path(path).write_text("# NUMBER ALTERNATIVES: 3\n2: 2,1\n")
            self.assertEqual(len(Shown(path, "--rule", "av", "--size", "1").filled), 1)
            plain = os.path.join(room, "soi")
            os.rename(path, plain)
            self.assertIn("line 2: NoKind", run(plain, "--rule", "av", "--size", "1")[2])

    def test_a_ballot_that_is_not_read_is_an_error(self):
        answer = "printf 'rule av\\nsize 1\\nscore 1/1\\n1\\nend\\n'"
        for ballot in (b"1 2: {1}", b"1: {1 2}", b"1: {1},", b"1: {1", b"Ada: {1}", b"1, {1}", b"1: {1};2"):
            with program_that(answer) as program:
                text = b"# DATA TYPE: cat\n# NUMBER ALTERNATIVES: 2\n1: {1}\n" + ballot
                status, svg, said = run("--rule=av", "--size=1", "--program", program, text=text)
                self.assertEqual((status, svg), (1, b""))
                self.assertEqual(said, "draw_committee: standard input: line 4: the ballot is not understood\n")

    def test_an_answer_that_is_not_that_of_the_ballots(self):
        text = b"# DATA TYPE: cat\n# NUMBER ALTERNATIVES: 2\n1: {1}\n"
        # The second run has another score.
        script = "printf 'rule av\\nsize 1\\nscore %s/1\\n1\\nend\\n' $(echo >>$0.runs; wc -l <$0.runs)"
        with program_that(script) as program:
            status, svg, said = run("--rule=av", "--size=1", "--program", program, text=text)
        self.assertEqual((status, svg), (1, b""))
        self.assertIn("were not read as the program reads them", said)

    def test_a_report_that_is_not_that_of_the_ballots(self):
        text = b"# DATA TYPE: cat\n# NUMBER ALTERNATIVES: 2\n1: {1}\n"
        report = "violated jr\\nlevel 1\\ncandidates 1\\nvoters 1 of %s\\n1: 1\\n"
        second = "[ $(echo >>$0.runs; wc -l <$0.runs) = 2 ]"
        words = ["--property=jr", "--committee=2"]
        for script, is_drawn in [
            (f"printf '{report % 1}'; exit 1", True),
            # The second run has another answer; both have more voters than there are.
            (f"{second} && echo holds && exit 0; printf '{report % 1}'; exit 1", False),
            (f"printf '{report % 7}'; exit 1", False),
        ]:
            with program_that(script) as program:
                status, svg, said = run(*words, "--program", program, text=text)
            self.assertEqual((status, svg != b""), (0, True) if is_drawn else (1, False))
            self.assertEqual("were not read as the program reads them" in said, not is_drawn)


class Shapes(unittest.TestCase):
    def many(self, voters, candidates, names=()):
        """Voter n approves the candidates whose places are those of the digits 1 of n in base 2."""
        lines = ["# DATA TYPE: cat", f"# NUMBER ALTERNATIVES: {candidates}"]
        lines += [f"# ALTERNATIVE NAME {number}: {name}" for number, name in enumerate(names, 1)]
        for voter in range(1, voters + 1):
            yes = [str(place + 1) for place in range(candidates) if voter >> place & 1]
            lines.append(f"1: {{{','.join(yes)}}}")
        return "\n".join(lines).encode()

    def test_many_voters(self):
        shown = Shown("--rule", "av", "--size", "2", text=self.many(800, 10))
        self.assertEqual(shown.voters, 800)
        # 800 ballots, none twice, so none has a row of its own. The committee is 1 and 2, so voters 4, 8, 12, .. are
        # left out, and come first. 400 approve one member, and 3, 7, 11, .. both.
        rows = ["200 voters, 200 ballots", "400 voters, 400 ballots", "200 voters, 200 ballots"]
        self.assertEqual(shown.labels, rows)
        self.assertEqual(len(shown.outlines), 1)
        self.assertLess(shown.height, 1600)
        self.assertLess(shown.size, 200_000)
        self.assertIn("In a row of several ballots, blue is the share of the voters who approve.", shown.texts)
        words = "Ballots of few voters share a row if they approve equally many members of the committee."
        self.assertIn(words, shown.description)
        equal = Shown("--rule", "av", "--size", "1", text=b"# DATA TYPE: cat\n# NUMBER ALTERNATIVES: 2\n800: 1\n1: 2\n")
        self.assertEqual(equal.labels, ["1 voter", "800 voters"])
        self.assertEqual([float(cell.get("height")) for cell in equal.cells[::2]], [14, 439.5])
        self.assertLess(equal.height, 700)

    def test_small_groups_share_a_row(self):
        # Of 42 groups of 1 to 42 voters, those of one and of two share a row. All voters approve candidate 7.
        lines = [f"{n}: {{{''.join(f'{place + 1},' for place in range(6) if n >> place & 1)}7}}" for n in range(1, 43)]
        text = "\n".join(["# DATA TYPE: cat", "# NUMBER ALTERNATIVES: 7", *lines]).encode()
        shown = Shown("--rule", "av", "--size", "1", text=text)
        self.assertEqual(shown.labels, [*(f"{n} voters" for n in range(42, 2, -1)), "3 voters, 2 ballots"])
        row = shown.cells[-7:]
        widths = [
            [
                round(float(box.get("width")) / float(cell.get("width")), 2)
                for box in shown.filled
                if at(box) == at(cell)
            ]
            for cell in row
        ]
        self.assertEqual(widths, [[0.33], [0.67], [], [], [], [], [1]])

    def test_many_candidates_with_long_names(self):
        names = [f"Candidate {number} of a party with a very long name" for number in range(64)]
        shown = Shown("--rule", "av", "--size", "40", text=self.many(3, 64, names))
        self.assertEqual(len(shown.turned), 64)
        self.assertLessEqual(max(map(len, shown.turned)), 28)
        names = ["Ada of the House of Elsewhere", "Ben of the House of Elsewher"]
        two = Shown("--rule", "av", "--size", "1", text=self.many(3, 2, names))
        self.assertEqual(two.turned, ["Ada of the House of Elsewh..", "Ben of the House of Elsewher"])
        self.assertLessEqual(shown.width, 1100)
        # The sentences are wrapped.
        self.assertLessEqual(max(len(text) for text in shown.texts) * 7.5, 1100)
        self.assertEqual(Shown(BOARD, "--rule", "av", "--size", "1").turned, [])
        # A column is 78 wide, and a letter 8.4.
        for name, turned in [("Adelaide", []), ("Alexandra", ["Alexandra"])]:
            self.assertEqual(Shown("--rule", "av", "--size", "1", text=self.many(1, 1, [name])).turned, turned)

    def test_names_that_are_missing_or_odd(self):
        shown = Shown("--rule", "av", "--size", "1", text=self.many(3, 3))
        self.assertEqual(shown.texts[:3], ["1", "2", "3"])
        self.assertEqual(len(shown.cells), 9)
        odd = Shown("--rule", "av", "--size", "1", text=self.many(3, 3, ["<b>&\x1b[31m", "", '"Ödön"\'']))
        self.assertEqual(odd.texts[:5], ["<b>&\ufffd[31m", "1", "2", '"Ödön"\'', "3"])


class Refusals(unittest.TestCase):
    def test_errors_are_one_line(self):
        for words, text, why in [
            ([], b"", "required"),
            (["--rule=av"], b"", "--rule needs --size"),
            (["--rule=av", "--size=x"], b"", "invalid int value"),
            (["--property=jr"], b"", "--property needs --committee"),
            (["--property=jr", "--committee=1", "--size=1"], b"", "--size is for --rule"),
            (["--property=jr", "--rule=av", "--size=1"], b"", "not allowed with"),
            (["--property=jr", "--committee=1,,2"], b"", "is not a list of numbers"),
            (["--property=quota", "--committee=1", BOARD], b"", "invalid value 'quota'"),
            (["--rule=quota", "--size=1", BOARD], b"", "invalid value 'quota'"),
            (["--rule=av", "--size=7", BOARD], b"", f"{BOARD}: request: SizeTooLarge"),
            (["--rule=av", "--size=1", "--classes=2", BOARD], b"", f"{BOARD}: input line 22: PickMisfit"),
            (["--property=jr", "--committee=9", BOARD], b"", "CommitteeMisfit"),
            (["--rule=av", "--size=1", "--committee=9", BOARD], b"", "9 is not a winning committee of 1"),
            (["--rule=av", "--size=1", "no-such-file.cat"], b"", "no-such-file.cat: No such file or directory"),
            (["--rule=av", "--size=1", EXAMPLES], b"", "Is a directory"),
            (["--rule=av", "--size=1"], b"", "standard input: input: NoAlternatives"),
            (["--rule=av", "--size=1"], b"# NUMBER ALTERNATIVES: 2\n1: 1\n", "input line 2: NoKind"),
            (["--rule=av", "--size=1"], b"# DATA TYPE: cat\n# NUMBER ALTERNATIVES: 2\n1: 1 2\n", "line 3: BadBallot"),
            (["--rule=av", "--size=1", "--program=/no/such/program", BOARD], b"", "could not be started"),
        ]:
            status, svg, said = run(*words, text=text)
            self.assertIn(status, (1, 2), words)
            self.assertEqual((svg, said.count("\n")), (b"", 1), said)
            self.assertTrue(said.startswith("draw_committee: ") and why in said, said)

    def test_a_wrong_option_is_not_a_fault_of_the_file(self):
        said = run("--rule=quota", "--size=1", BOARD)[2]
        self.assertEqual(said, "draw_committee: invalid value 'quota' for '--rule <RULE>'\n")

    def test_an_interrupt(self):
        with program_that("echo $$ >$0.pid; exec sleep 60") as program:
            words = [sys.executable, os.path.join(HERE, "draw_committee"), BOARD, "--rule=av", "--size=1"]
            process = subprocess.Popen([*words, "--program", program], stderr=subprocess.PIPE)
            pid = pid_of(program)
            process.send_signal(signal.SIGINT)
            self.assertEqual((process.communicate(timeout=20)[1], process.returncode), (b"", 130))
            self.assertFalse(os.path.exists(f"/proc/{pid}"))

    def test_a_reader_that_is_gone(self):
        words = [sys.executable, os.path.join(HERE, "draw_committee"), BOARD, "--rule=av", "--size=1"]
        process = subprocess.Popen(words, stdout=subprocess.PIPE, stderr=subprocess.PIPE)
        process.stdout.close()
        self.assertEqual(process.stderr.read(), b"draw_committee: standard output: Broken pipe\n")
        process.stderr.close()
        self.assertEqual(process.wait(), 1)

    def test_help(self):
        status, out, said = run("--help")
        self.assertEqual((status, said), (0, ""))
        self.assertLessEqual(max(map(len, out.decode().splitlines())), 79)

    def test_output_that_is_not_taken(self):
        words = [sys.executable, os.path.join(HERE, "draw_committee"), BOARD, "--rule=av", "--size=1"]
        with open("/dev/full", "wb") as full:
            done = subprocess.run(words, stdout=full, stderr=subprocess.PIPE)
        self.assertEqual(done.stderr, b"draw_committee: standard output: No space left on device\n")
        self.assertEqual(done.returncode, 1)


if __name__ == "__main__":
    unittest.main()
