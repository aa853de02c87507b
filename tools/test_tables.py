"""Tests of table_to_cat, with real runs of the program: python3 -m unittest discover tools"""
import importlib.machinery
import importlib.util
import io
import os
import re
import shutil
import subprocess
import sys
import tempfile
import unittest
import zipfile
from xml.sax.saxutils import escape

HERE = os.path.dirname(os.path.realpath(__file__))
sys.path.insert(0, HERE)
from committees import InputRefused, check, elect  # noqa: E402


def module_of(tool):
    """A tool as a module."""
    loader = importlib.machinery.SourceFileLoader(tool, os.path.join(HERE, tool))
    module = importlib.util.module_from_spec(importlib.util.spec_from_loader(loader.name, loader))
    # dataclasses look their module up
    sys.modules[loader.name] = module
    loader.exec_module(module)
    return module


tool = module_of("table_to_cat")

# -S: the packages of the machine are not looked for, which takes half of the time
TOOL = [sys.executable, "-S", os.path.join(HERE, "table_to_cat")]
FIVE = 'Choice\n"Ada,Ben"\n"Ada,Ben,Cleo"\nDan\nDan\n"Dan,Cleo"\n'
FIVE_BALLOTS = ["1: {1,2},{3,4}", "1: {1,2,3},{4}", "2: {4},{1,2,3}", "1: {3,4},{1,2}"]


def names_in(ballot_file):
    return re.findall(r"^# ALTERNATIVE NAME \d+: (.*)$", ballot_file, re.MULTILINE)


class TableTest(unittest.TestCase):
    def made(self, table, *words, **options):
        """The status and what is printed, by a run of the tool."""
        data = table if isinstance(table, bytes) else table.encode()
        run = subprocess.run([*TOOL, *words], input=data, capture_output=True, **options)
        return run.returncode, run.stdout.decode(), run.stderr.decode()

    def taken(self, table, *words):
        """The ballot file and the summary."""
        options = tool.options_of(words)
        data = tool.bytes_of(options.file) if options.file else table if isinstance(table, bytes) else table.encode()
        return tool.converted(data, options)

    def ballots(self, table, *words):
        return [line for line in self.taken(table, *words)[0].splitlines() if not line.startswith("#")]

    def names(self, table, *words):
        return names_in(self.taken(table, *words)[0])

    def summary(self, table, *words):
        """The lines of the summary with single blanks."""
        return [" ".join(line.split()) for line in self.taken(table, *words)[1].splitlines()]

    def refused(self, why, table, *words):
        with self.assertRaises(tool.Refused) as refusal:
            self.taken(table, *words)
        said = str(refusal.exception)
        self.assertIn(why, said)
        self.assertEqual(len(said.splitlines()), 1, said)
        return said

    def with_file(self, text, call):
        with tempfile.TemporaryDirectory() as room:
            path = os.path.join(room, "file.cat")
            with open(path, "w", encoding="utf-8") as file:
                file.write(text)
            return call(path)

    def winners(self, table, *words, rule="av", size=1):
        """The winners by name, and their score, from the program."""
        out, _ = self.taken(table, *words)
        names = names_in(out)

        def run(path):
            answers = elect(path, rule, size)
            return [{names[number - 1] for number in committee} for committee in answers], answers.score

        return self.with_file(out, run)


class OneColumnForEachCandidate(TableTest):
    def test_separators_ends_of_lines_and_quotes(self):
        want = ["2: {1},{2,3}", "1: {2,3},{1}"]
        for separator in ",;\t|":
            for end in ("\n", "\r\n"):
                rows = ["Ada,Ben,Cleo", "x,,", "X,,", ",x,x"]
                self.assertEqual(self.ballots(end.join(rows).replace(",", separator) + end), want)
        names = self.names('"Lovelace, Ada";"Ben ""the Big""";Cleo\nx;;\n')
        self.assertEqual(names, ["Lovelace, Ada", 'Ben "the Big"', "Cleo"])

    def test_the_separator_is_the_one_that_fits_all_rows(self):
        self.assertEqual(self.names("Lovelace, Ada;Babbage, Charles\nx;\n;x\n"), ["Lovelace, Ada", "Babbage, Charles"])
        self.assertEqual(self.winners("Time;Ada, if she can, or Zoe;Ben\n9;x;x\n9;;x\n", "--skip=1"), ([{"Ben"}], 2))
        self.refused("write a first line such as sep=;", "Ada,a;Ben\nx\n")

    def test_a_first_line_that_names_the_separator(self):
        for line in ("sep=;", '"sep=;"', "SEP=;"):
            self.assertEqual(self.winners(f"{line}\r\nAda;Ben, jr.\r\nx;\r\n;x\r\n;x\r\n"), ([{"Ben, jr."}], 2))
        self.refused("row 2: 'x' stands in column 3", "sep=;\nAda;Ben\n;;x\n")

    def test_encodings(self):
        for coding in ("utf-8", "utf-8-sig", "utf-16"):
            self.assertEqual(self.names("Ödön,B\nx,\n".encode(coding)), ["Ödön", "B"])
        self.refused("is not UTF-8", "Ödön,B\nx,\n".encode("latin-1"))
        self.refused("is not UTF-8", "A,B\nx,\n".encode("utf-16-le"))

    def test_shapes(self):
        self.assertEqual(self.ballots("A,B,,\n,x,,\n\nx\n"), ["1: {2},{1}", "1: {1},{2}"])
        self.assertEqual(self.ballots("Time,A,B\n9:00,x,\n9:05,,x\n", "--skip", "1"), ["1: {1},{2}", "1: {2},{1}"])
        self.assertEqual(self.ballots("A\nx\n"), ["1: {1},{}"])
        no_time = "Time,A,B\n,yes,no\n9:05,yes,yes\n"
        self.assertEqual(self.ballots(no_time, "--skip=1", "--yes=yes"), ["1: {1},{2}", "1: {1,2},{}"])
        self.refused("row 3: 'x' stands in column 3, and the first row names 2", "A,B\nx,\nx,,x\n")
        self.refused("column 2 has no name", "A,,B\nx,,\n")
        self.refused("column 3 repeats the name 'A'", "A,B,A\nx,,\n")
        self.refused("column 2 repeats the name 'A'", "A,A\nx,\n")
        self.refused("column 1 has 'A b', and column 2 has 'a B'", "A b,a  B\nx,\n")
        self.refused("names no candidate", "A,B\nx,\n", "--skip=2")
        self.refused("the table is empty", "")
        self.refused("no voter", "A,B\n")
        self.refused("row 2 has malformed quotes", 'A,B\n"x,\n')

    def test_a_first_row_that_is_repeated(self):
        self.refused("row 4 repeats the first row", "Id,A,B\n1,x,\n2,,x\nId,A,B\n3,,x\n", "--skip=1", "--yes=x")
        self.refused("row 3 repeats the first row", "Id,Who\n1,Ada\nId,Who\n2,Ada\n", "--list=2")
        self.refused("the cells hold that name too", "Who\nAda\nWho\nBen\n", "--list=1")
        self.assertEqual(self.ballots("Ada,Ben\nAda,Ben\n,Ben\n"), ["1: {1,2},{}", "1: {2},{1}"])

    def test_more_than_64_candidates(self):
        heading = ",".join(f"c{number}" for number in range(1, 65))
        self.assertEqual(self.winners(f"{heading}\n{',' * 63}x\n"), ([{"c64"}], 1))
        said = self.refused("there are 65 candidates", f"{heading},c65\n{',' * 64}x\n")
        self.assertIn("at most 64: leave out what is not a candidate", said)
        names = ";".join(f"c{number}" for number in range(1, 66))
        self.refused("there are 65 candidates", f'Choice\n"{names}"\n', "--list=1")


class Marks(TableTest):
    def test_which_are_a_yes(self):
        self.refused("2 different marks ('no', 'yes')", "A,B\nyes,no\n")
        self.assertEqual(self.ballots("A,B\nyes,no\nYes,YES\n", "--yes", "yes"), ["1: {1},{2}", "1: {1,2},{}"])
        self.assertEqual(self.ballots("A,B\n1,0\n0,1\n", "--yes=1"), ["1: {1},{2}", "1: {2},{1}"])
        self.assertEqual(self.ballots("A,B\nx,ok\n", "--yes=x", "--yes=ok"), ["1: {1,2},{}"])
        self.assertEqual(self.ballots("A;B\n1,00;0,00\n", "--yes=1,00", "--no=0,00"), ["1: {1},{2}"])

    def test_a_misspelt_mark_is_not_a_no(self):
        table = "Ada,Ben\nyes,no\nyess,yes\nyess,no\n"
        said = self.refused("'no' (row 2, column 2), 'yess' (row 3, column 1)", table, "--yes=yes")
        self.assertIn("--no MARK", said)
        self.refused("'yess'", table, "--yes=yes", "--no=no")
        self.assertEqual(self.winners(table, "--yes=yes", "--yes=yess"), ([{"Ada"}], 3))

    def test_several_marks_are_a_no_if_each_is_named(self):
        table = "Ada,Ben\nyes,no\nmaybe,yes\nmaybe,yes\n"
        self.refused("'no' (row 2, column 2), 'maybe' (row 3, column 1)", table, "--yes=yes")
        self.refused("'maybe'", table, "--yes=yes", "--no=no")
        for words in (["--yes=yes", "--no=no", "--no=maybe"], ["--no=no", "--no=maybe"]):
            self.assertEqual(self.winners(table, *words), ([{"Ben"}], 2))

    def test_marks_that_no_cell_has(self):
        self.refused("no cell is marked 'y', which --yes names", "A,B\nx,x\n", "--yes=y")
        self.refused("no cell is marked 'y', which --yes names", "A,B\nx,x\n", "--yes=x", "--yes=y")
        self.refused("no cell is marked 'n', which --no names", "A,B\nx,o\n", "--yes=x", "--no=n")
        self.refused("both --yes and --no name 'x'", "A,B\nx,o\n", "--yes=x", "--no=X")

    def test_an_only_mark_that_means_no(self):
        words = ("no", "0", "-", "–", "N", "false", "Nein", "falsch", "non", "faux", "nee", "nej")
        for mark in (*words, "Not selected", "❌"):
            self.refused(f"say whether '{mark}' is a yes or a no", f"A,B\n{mark},{mark}\n")
            self.refused(f"say whether '{mark}' is a yes or a no", f"A,B\n{mark},?\n", "--no=?")
        self.assertEqual(self.ballots("A,B\n0,0\n", "--no=0"), ["1: {},{1,2}"])
        self.assertEqual(self.ballots("A,B\n0,0\n", "--yes=0"), ["1: {1,2},{}"])

    def test_the_name_of_another_column(self):
        table = "Ada,Ben\nx,\nBen,x\n"
        for words in ([], ["--yes=ben"], ["--yes=ben", "--yes=x"]):
            said = self.refused("row 3, column 1 ('Ada'): 'Ben' is the name of column 2", table, *words)
            self.assertIn("--list COLUMN", said)

    def test_the_name_of_its_own_column_is_a_yes(self):
        table = "Ada,Ben,Cleo\nAda,,\nAda,,Cleo\n,,cleo\n"
        self.assertEqual(self.ballots(table), ["1: {1},{2,3}", "1: {1,3},{2}", "1: {3},{1,2}"])
        self.refused("'x'", "Ada,Ben\nAda,x\n")
        self.assertEqual(self.ballots("Ada,Ben\nAda,x\n", "--no=x"), ["1: {1},{2}"])
        self.assertEqual(self.ballots("Ada,Ben\nAda,x\n", "--yes=x"), ["1: {1,2},{}"])

    def test_names_in_one_cell_lead_to_the_list(self):
        split = "Choice,,,\nAda,Ben,,\nAda,Ben,Cleo,\nDan,,,\nDan,,,\nDan,Cleo,,\n"
        every = ["--yes=ada", "--yes=ben", "--yes=cleo", "--yes=dan"]
        joined = ["--yes=ada,ben", "--yes=ada,ben,cleo", "--yes=dan", "--yes=dan,cleo"]
        for table in (FIVE, FIVE.replace(",", ", "), FIVE.replace(",", ";"), FIVE.replace(",", "|")):
            said = self.refused("--list 1", table)
            self.assertNotIn("--yes", said)
        for cell in ("Ada, Ben", "Ada;"):
            self.refused("--list 2", f'Time,Choice\n9,"{cell}"\n9,"{cell}"\n', "--skip=1")
        for words in (every, joined):
            self.assertNotIn("--yes", self.refused("--list 1", FIVE, *words))
        self.refused("'Ben' stands in column 2", split, *every)
        for words in ([], every):
            said = self.refused("'Dan' is the name of column 4", split.replace("Choice,,,", "Ada,Ben,Cleo,Dan"), *words)
            self.assertNotIn("--yes", said)
        self.refused("--list", FIVE.replace('"Ada,Ben"\n"Ada,Ben,Cleo"\n', "Ada\nBen\n").replace('"Dan,Cleo"', "Cleo"))


class OneColumnOfNames(TableTest):
    def test_joiners(self):
        for joiner in (",", ", ", ";", "; ", " ;", "|", " | ", "\n", "\r\n", "\u2028"):
            table = FIVE.replace(",", joiner)
            self.assertEqual(self.winners(table, "--list=1"), ([{"Dan"}], 3), repr(joiner))
            self.assertEqual(self.ballots(table, "--list=1"), FIVE_BALLOTS)
        self.assertEqual(self.names(FIVE, "--list=1"), ["Ada", "Ben", "Cleo", "Dan"])

    def test_empty_pieces_and_names_twice(self):
        table = 'sep=,\nChoice\n"Ada;Ben;"\n";Ada;;Ben; Cleo ;"\n"Dan; ;"\nDan\n"Dan;Cleo;"\n'
        self.assertEqual(self.ballots(table, "--list=1"), FIVE_BALLOTS)
        said = self.refused("row 4: a cell has the name 'Dan' twice", table.replace("Dan; ;", "Dan;Dan"), "--list=1")
        self.assertIn("--candidates FILE", said)
        twice = "Who\nLovelace, Ada, Lovelace, Bob\n"
        self.refused("row 2: a cell has the name 'Lovelace' twice", f"sep=;\n{twice}", "--list=1")

    def test_ballots_that_name_candidates_in_another_order(self):
        names = [f"c{number}" for number in range(1, 41)]
        table = f"sep=,\nWho\n{';'.join(names)}\nc33;c1\nc1;c33\n"
        self.assertTrue(self.ballots(table, "--list=1")[1].startswith("2: {1,33},{2,"))

    def test_columns(self):
        table = "Time,Why,Who\n9,x,Ada\n9,,Ben\n9,y,Ben\n"
        for column in ("3", "Who", "who"):
            self.assertEqual(self.winners(table, "--list", column), ([{"Ben"}], 2))
        for column in ("4", "0", "-1", "Whom", ""):
            said = self.refused("fits no column", table, "--list", column)
            self.assertIn("column 3 ('Who')", said)
        self.refused("fits column 1 ('2') and column 2 ('Who')", "2,Who\n9,Ada\n", "--list=2")
        self.assertEqual(self.names("Who,Who\n9,Ada\n", "--list=2"), ["Ada"])
        self.refused("'Ben' stands in column 3", "Time,Who\n9,Ada,Ben\n", "--list=2")
        self.refused("no cell of column 2 ('Who') has a name", "Time,Who\n9,\n", "--list=2")
        self.refused("column 2 ('Ada;Ben'): the cells hold that name too", '1,"Ada;Ben"\n2,Ben\n3,Ada\n', "--list=2")

    def test_names_that_look_alike(self):
        for pair in ("O'Ben;O’Ben", "Anne-Marie;Anne‑Marie"):
            self.refused("differ only in case, in blanks", f"sep=,\nWho\n{pair}\n", "--list=1")
        for other in ("ada Byron", "Ada  Byron", "Ada\u00a0Byron", "AdaByron", "Ada By\u200bron", "Ada Byro\u0301n"):
            name = "Ada Byrón" if "\u0301" in other else "Ada Byron"
            said = self.refused("differ only in case, in blanks", f'Who\n"{name};Ben"\nBen\n{other}\n', "--list=1")
            self.assertIn("row 2 has", said)
            self.assertIn("row 4 has", said)
        self.assertEqual(self.names('Who\n"Weiss;Weiß"\n', "--list=1"), ["Weiss", "Weiß"])

    def test_other_joiners(self):
        for joiner in ("/", " / ", "+", "&", "、", "┋", " and ", " und ", " - "):
            said = self.refused("holds the name 'Dan'", FIVE.replace(",", joiner), "--list=1")
            self.assertIn("--candidates FILE", said)
        names = ["Anna-Lena", "Anna", "Anna (chair)", "R&B", "O'Ben", "Ben", "Bread and Butter", "Ben-Ada"]
        self.assertEqual(self.names(f"Who\n{';'.join(names)}\n".replace("Who", "sep=,\nWho"), "--list=1"), names)

    def test_two_kinds_of_joiners(self):
        table = 'Who\n"Lovelace, Ada;Ben;"\n"Lovelace, Ada;"\n"Ben"\n"Lovelace, Ada;"\n'
        said = self.refused("has `,` and `;`", table, "--list=1")
        self.assertIn("--candidates FILE", said)
        for candidates in ("Ben\nLovelace, Ada\n", "Lovelace, Ada\nBen"):
            won = self.with_file(candidates, lambda path: self.winners(table, "--list=1", "--candidates", path))
            self.assertEqual(won, ([{"Lovelace, Ada"}], 3))
        self.refused("has `;` and `|`", 'Who\n"Ada|Ben"\n"Ada;Ben"\n', "--list=1")

    def test_a_voter_who_ticks_nobody(self):
        table = 'Time,Who\n9,"Ada, Ben"\n9,\n9," , "\n,\n'
        self.assertEqual(self.ballots(table, "--list=2"), ["1: {1,2},{}", "2: {},{1,2}"])

    def test_options_that_do_not_fit(self):
        for words in (["--list=1", "--skip=0"], ["--list=1", "--yes=x"], ["--list=1", "--no=x"], ["--candidates=x"]):
            status, out, said = self.made(FIVE, *words)
            self.assertEqual((status, out), (2, ""))
            self.assertIn("--list", said)


class ListedCandidates(TableTest):
    def winners_of(self, candidates, table):
        return self.with_file(candidates, lambda path: self.winners(table, "--list=1", "--candidates", path))

    def refused_of(self, why, candidates, table):
        return self.with_file(candidates, lambda path: self.refused(why, table, "--list=1", "--candidates", path))

    def test_names_with_commas(self):
        table = 'Who\n"Lovelace, Ada, Ben"\n"Ben, Babbage, Charles"\n"Babbage, Charles"\n'
        want = ([{"Babbage, Charles"}, {"Ben"}], 2)
        self.assertEqual(self.winners_of("Lovelace, Ada\nBabbage, Charles\nBen\n", table), want)

    def test_the_longest_name_that_fits(self):
        table = 'Who\n"Ada, Countess, Ada"\n"Ada, Countess"\n"Ada , Ben"\n'
        self.assertEqual(self.winners_of("Ada\nAda, Countess\nBen\n", table), ([{"Ada"}, {"Ada, Countess"}], 2))
        self.assertEqual(self.winners_of("Ada\nAdam\n", 'Who\n"Adam;Ada"\nAdam\n'), ([{"Adam"}], 2))

    def test_a_candidate_whom_nobody_ticked(self):
        def convert(path):
            return self.taken("Who\nAda\n", "--list=1", "--candidates", path)

        out, said = self.with_file("Ada\r\n\r\nZoe\r\nBen", convert)
        self.assertEqual(out.splitlines()[-1], "1: {1},{2,3}")
        self.assertIn("  1  for Ada\n  0  for Zoe\n  0  for Ben\n", said)

    def test_what_is_refused(self):
        self.refused_of("row 3: no name in", "Ada\nBen\n", 'Who\nAda\n"Ada, Bob"\n')
        self.refused_of("the name 'Ada' twice; delete one of them", "Ada\nBen\n", 'Who\n"Ada, Ben, Ada"\n')
        self.refused_of("fits 'Adam'", "Ada\n", "Who\nAdam\n")
        self.refused_of("fits 'ada'", "Ada\n", "Who\nada\n")
        self.refused_of("fits 'Ada\\xa0B'", "Ada B\n", "Who\nAda\u00a0B\n")
        self.refused_of("repeats the name 'Ada'", "Ada\nBen\nAda\n", "Who\nAda\n")
        self.refused_of("differ only in case", "Ada\nada\n", "Who\nAda\n")
        self.refused_of("has no name", "\n", "Who\nAda\n")
        self.refused("No such file", "Who\nAda\n", "--list=1", "--candidates=/no/such/file")


class Counts(TableTest):
    def test_a_row_stands_for_many_voters(self):
        table = "Votes,Ada,Ben,Cleo\n12,x,,x\n12,,x,\n1,x,,\n0007,,x,\n"
        for column in ("1", "votes"):
            self.assertEqual(self.winners(table, "--count", column), ([{"Ben"}], 19))
        self.assertEqual(self.ballots("Ada,Ben,N\nx,,3\n,x,4\nx,,2\n", "--count=n"), ["5: {1},{2}", "4: {2},{1}"])
        self.assertEqual(self.ballots("Id,N,Ada\na,3,x\nb,4,\n", "--count=N", "--skip=2"), ["3: {1},{}", "4: {},{1}"])

    def test_with_names_in_one_column(self):
        table = 'N,Who\n2,"Ada, Ben"\n1,Dan\n5,"Dan, Ben"\n3,\n'
        self.assertEqual(self.winners(table, "--count=N", "--list=Who"), ([{"Ben"}], 7))
        self.assertEqual(self.ballots(table, "--count=1", "--list=2")[-1], "3: {},{1,2,3}")
        self.refused("--list and --count", table, "--count=1", "--list=1")

    def test_what_is_refused(self):
        for count in ("0", "-1", "1.5", "+1", "1e3", "1 000", "x", "", "²", "٣"):
            for words, cell in ((["--count=1"], "x"), (["--count=1", "--list=2"], "Ada")):
                self.refused("row 3: the count", f"N,Who\n1,{cell}\n{count},{cell}\n", *words)
        self.refused("fits no column", "N,Ada\n1,x\n", "--count=M")

    def test_the_total(self):
        self.assertEqual(self.winners("N,Ada,Ben\n1,x,\n4294967295,,x\n", "--count=1"), ([{"Ben"}], 4294967295))
        for count in ("4294967295", "4294967297", "10000000000", "9" * 5000):
            table = f"N,Ada\n1,x\n1,\n{count},x\n"
            self.refused("row 4: with this row there are more than 4294967296", table, "--count=1")


class BlankRows(TableTest):
    def voters(self, table, *words):
        return int(re.search(r"NUMBER VOTERS: (\d+)", self.taken(table, *words)[0])[1])

    def test_in_a_table_of_votes(self):
        table = "Ada,Ben,Cleo\nx,,\n,x,\n,,\n,,x\n,,x\n,,\n"
        out, said = self.taken(table)
        # two of four voters deserve one of two seats, and two of six do not
        self.assertFalse(self.with_file(out, lambda path: check(path, "jr", [1, 2]).holds))
        self.assertIn("  2  blank rows, not counted\n", said)
        out, said = self.taken(table, "--blank-votes")
        self.assertTrue(self.with_file(out, lambda path: check(path, "jr", [1, 2]).holds))
        self.assertIn("  2  blank rows, counted\n", said)
        self.assertEqual((self.voters(table), self.voters(table, "--blank-votes")), (4, 6))
        self.assertEqual(self.voters("Ada,Ben\n\nx,\n\n\n", "--blank-votes"), 1)
        self.refused("no voter", "Ada,Ben\n,\n")

    def test_beside_other_columns(self):
        marks, names = "Time,Ada,Ben\n9,x,\n9,,\n,,\n,,\n", "Time,Who\n9,Ada\n9,\n,\n,\n"
        for table, words in ((marks, "--skip=1"), (names, "--list=2")):
            self.assertEqual(self.voters(table, words), 2)
            self.assertIn("2 blank rows, not counted", self.summary(table, words))
            self.assertIn("1 for no candidate (row 3)", self.summary(table, words))
            self.refused("--blank-votes is for tables that hold only votes", table, words, "--blank-votes")
        self.assertEqual(self.voters("N,Ada\n3,x\n4,\n,\n", "--count=1"), 7)

    def test_in_a_table_with_one_column(self):
        for table, words in (("Ada\nx\n\nx\n", []), ("Who\nAda\n\nAda\n", ["--list=1"])):
            self.assertEqual((self.voters(table, *words), self.voters(table, *words, "--blank-votes")), (2, 3))

    def test_cells_that_look_empty(self):
        self.assertEqual(self.voters("Time,Ada,Ben\n9,x,\n9,,\u200b\n\u00a0,,\n", "--skip=1"), 2)


class Summaries(TableTest):
    def test_marks(self):
        table = "Time,Ada,Ben\n9,yes,no\n9,no,no\n9,yes,Yes\n9,no,\n,,\n"
        said = self.taken(table, "--skip=1", "--yes=yes")[1]
        self.assertEqual(
            said,
            "table_to_cat: 4 voters, 2 candidates\n"
            "  2  for Ada\n"
            "  1  for Ben\n"
            "  2  for no candidate (rows 3, 5)\n"
            "  3  'yes', taken as a yes\n"
            "  4  'no', taken as a no\n"
            "  1  blank row, not counted\n"
            "  not read: column 1 (Time)\n",
        )

    def test_names_and_counts(self):
        said = self.taken('N;Who\n100;"Ada; Ben"\n7;\n5;Ben\n', "--count=N", "--list=Who")[1]
        self.assertEqual(
            said,
            "table_to_cat: 112 voters, 2 candidates\n"
            "  100  for Ada\n"
            "  105  for Ben\n"
            "    7  for no candidate (row 3)\n"
            "  read: column 2 (Who)\n",
        )
        counted = self.summary("N,Ada,Ben\n10,yes,no\n5,no,no\n", "--count=N", "--yes=yes")
        self.assertEqual(counted[-2:], ["10 'yes', taken as a yes", "20 'no', taken as a no"])
        own = ["15 for Ada", "5 for Ben", "0 for no candidate", "20 the name of the column, taken as a yes"]
        self.assertEqual(self.summary("N,Ada,Ben\n10,ADA,\n5,Ada,Ben\n", "--count=N")[1:], own)

    def test_names_cannot_write_to_the_terminal(self):
        self.assertIn("1 for 'Ada\\x1b[2J'", self.summary("Ada\x1b[2J,Ben\nx,\n"))


class WebForms(TableTest):
    """Five voters in the shapes that makers of web forms export. Dan has 3 approvals, and the others have 2 each."""

    TICKED = (("Ada", "Ben"), ("Ada", "Ben", "Cleo"), ("Dan",), ("Dan",), ("Dan", "Cleo"))

    def exported(self, heading, row, end):
        """A table with these rows of headings, and the row of each voter, made of its number and its names."""
        rows = [row(number, names) for number, names in enumerate(self.TICKED, 1)]
        return end.join([*heading, *rows]) + end

    def dan_wins(self, table, *words):
        self.assertEqual(self.winners(table, *words), ([{"Dan"}], 3))
        self.assertEqual(self.winners(table, *words, rule="cc", size=2), ([{"Ada", "Dan"}, {"Ben", "Dan"}], 5))
        said = self.summary(table, *words)
        self.assertEqual(sorted(said[1:6]), ["0 for no candidate", "2 for Ada", "2 for Ben", "2 for Cleo", "3 for Dan"])

    def test_google_forms(self):
        def sheet(number, names):
            cell = ", ".join(names)
            return f"11/20/2026 19:4{number}:10," + (f'"{cell}"' if "," in cell else cell)

        question = "Which candidates do you approve of?"
        table = self.exported([f"Timestamp,{question}"], sheet, "\r\n").rstrip("\r\n")
        self.dan_wins(table, "--list", question)
        self.refused("--list 2", table, "--skip=1")
        self.refused("--list 2", table)

        def download(number, names):
            return f'"2026/11/20 7:4{number}:10 PM GMT+1","{";".join(names)}"'

        self.dan_wins(self.exported([f'"Timestamp","{question}"'], download, "\n"), "--list=2")

    def test_microsoft_forms(self):
        def row(number, names):
            return f"{number},11/20/26 19:40:02,11/20/26 19:42:10,anonymous,,{';'.join(names)};"

        heading = "ID,Start time,Completion time,Email,Name,Which candidates do you approve of?\u00a0"
        table = self.exported([heading], row, "\r\n").encode("utf-8-sig")
        self.dan_wins(table, "--list=6")
        self.dan_wins(table, "--list=which candidates do you approve of?")

        def with_semicolons(number, names):
            return f'{number};20.11.26 19:40;20.11.26 19:42;anonymous;;"{";".join(names)};"'

        self.dan_wins(self.exported([heading.replace(",", ";")], with_semicolons, "\r\n"), "--list=6")

    def test_limesurvey(self):
        names = ("Ada", "Ben", "Cleo", "Dan")

        def table(headings, yes, no):
            def row(number, ticked):
                cells = [number, "2026-11-20 19:42:10", 1, "en", 1850245432]
                cells += [yes if name in ticked else no for name in names]
                return ",".join(f'"{cell}"' for cell in cells)

            first = ["id", "submitdate", "lastpage", "startlanguage", "seed", *headings]
            return self.exported([",".join(f'"{cell}"' for cell in first)], row, "\n").encode("utf-8-sig")

        codes = [f"Q1[SQ00{number}]" for number in range(1, 5)]
        self.assertEqual(self.winners(table(codes, "Y", ""), "--skip=5"), ([{"SQ004"}], 3))
        full = table([f"Whom do you approve? [{name}]" for name in names], "Yes", "No")
        self.dan_wins(full, "--skip=5", "--yes=yes")
        self.assertIn("the names are the parts in brackets", self.taken(full, "--skip=5", "--yes=yes")[1])
        self.dan_wins(table(names, "Yes", "No"), "--skip=5", "--yes=Yes")
        self.assertIn("11 'No', taken as a no", self.summary(full, "--skip=5", "--yes=yes"))

    def test_surveymonkey(self):
        first = (
            "Respondent ID,Collector ID,Start Date,End Date,IP Address,Email Address,First Name,Last Name,"
            "Custom Data 1,Which candidates do you approve of?,,,"
        )
        second = ",,,,,,,,,Ada,Ben,Cleo,Dan"

        def row(number, ticked):
            cells = ",".join(name if name in ticked else "" for name in ("Ada", "Ben", "Cleo", "Dan"))
            return f"1187654320{number},412345678,11/20/2026 07:40:02 PM,11/20/2026 07:42:10 PM,,,,,,{cells}"

        table = self.exported([first, second], row, "\n")
        self.dan_wins(table, "--skip=9")
        self.dan_wins(self.exported([second], row, "\n"), "--skip=9")
        self.refused("column 11 repeats the name 'x'", "\n".join([first, ",,,,,,,,,x,x,,"]), "--skip=9")
        for heading in (first, first.replace("?,,,", "?,,,Comment")):
            said = self.refused("column 11", self.exported([heading, "1" + second], row, "\n"), "--skip=9")
            self.assertIn("if a lower row names the columns, delete the rows above it", said)

    def test_nextcloud_forms(self):
        def row(number, names):
            return f'"voter{number}","Voter {number}","2026-11-20T19:4{number}:10+01:00","{"; ".join(names)}"'

        heading = '"User ID","User display name","Timestamp","Which candidates do you approve of?"'
        self.dan_wins(self.exported([heading], row, "\n"), "--list=4")

    def test_jotform(self):
        def row(number, names):
            cell = "\n".join(names)
            return f'"Nov {number}, 2026","{cell}"'

        self.dan_wins(self.exported(['"Submission Date","Which candidates do you approve of?"'], row, "\n"), "--list=2")

    def test_google_grids(self):
        def row(number, names):
            cells = ("Approve" if name in names else "" for name in ("Ada", "Ben", "Cleo", "Dan"))
            return f"11/20/2026 19:4{number}:10,{','.join(cells)}"

        heading = "Timestamp," + ",".join(f"Vote [{name}]" for name in ("Ada", "Ben", "Cleo", "Dan"))
        self.dan_wins(self.exported([heading], row, "\r\n"), "--columns=2-5")

    def test_typeform(self):
        def row(number, names):
            cells = ",".join(name if name in names else "" for name in ("Ada", "Ben", "Cleo", "Dan"))
            return f"k{number}x,{cells},,completed,2026-11-20 19:40:02,,2026-11-20 19:42:10,8f3e,"

        heading = (
            "#,Ada,Ben,Cleo,Dan,Other,Response Type,Start Date (UTC),Stage Date (UTC),Submit Date (UTC),Network ID,Tags"
        )
        self.dan_wins(self.exported([heading], row, "\n"), "--columns=2-5")

    def test_qualtrics(self):
        before = ("StartDate", "EndDate", "Status", "IPAddress", "Progress", "ResponseId")

        def headings(codes, texts):
            ids = [f'"{{""ImportId"":""{code}""}}"' for code in (*before, *codes)]
            return [",".join((*before, *codes)), ",".join((*before, *texts)), ",".join(ids)]

        def row(number, cells):
            return f"2026-11-20 12:40:02,2026-11-20 12:42:10,IP Address,127.0.0.1,100,R_{number}abc,{cells}"

        def one(number, names):
            return row(number, f'"{",".join(names)}"')

        table = self.exported(headings(["Q1"], ["Which do you approve? - Selected Choice"]), one, "\n")
        self.dan_wins(table, "--list=Q1", "--header-rows=3")

        def split(number, names):
            return row(number, ",".join(name if name in names else "" for name in ("Ada", "Ben", "Cleo", "Dan")))

        codes = [f"Q1_{number}" for number in range(1, 5)]
        table = self.exported(headings(codes, [f"Which? - {code}" for code in codes]), split, "\n")
        self.dan_wins(table, "--list=7-10", "--header-rows=3")

    def test_framadate(self):
        def row(number, names):
            cells = (
                "Yes" if name in names else ("No", "Under reserve")[number % 2]
                for name in ("Ada", "Ben", "Cleo", "Dan")
            )
            return f'"Voter {number}",{",".join(cells)},'

        table = self.exported(['"",Ada,Ben,Cleo,Dan,'], row, "\n")
        self.dan_wins(table, "--columns=2-5", "--yes=Yes", "--no=No", "--no=Under reserve")
        self.refused("say whether each of these marks is a yes or a no", table, "--columns=2-5", "--yes=Yes")

    def test_drupal(self):
        def row(number, names):
            cells = ",".join("X" if name in names else "" for name in ("Ada", "Ben", "Cleo", "Dan"))
            return f"{number},10{number},Ballot,11/20/2026 - 19:40,11/20/2026 - 19:42,Anonymous,127.0.0.1,{cells}"

        heading = "Serial number,SID,Submitted to,Created,Completed,Submitted by,IP address,Ada,Ben,Cleo,Dan"
        self.dan_wins(self.exported([heading], row, "\n"), "--columns=8-11")


class SeveralColumnsOfNames(TableTest):
    DROP_DOWNS = "Time,C1,C2\n9:01,Ada,Ben\n9:02,Ada,\n9:03,Cleo,Ben\n"

    def test_lists_are_joined(self):
        for words in (["--list=C1", "--list=C2"], ["--list=2-3"], ["--list=2,3"], ["--list=2", "--list=c2"]):
            self.assertEqual(self.winners(self.DROP_DOWNS, *words), ([{"Ada"}, {"Ben"}], 2))
            self.assertEqual(self.ballots(self.DROP_DOWNS, *words), ["1: {1,2},{3}", "1: {1},{2,3}", "1: {2,3},{1}"])

    def test_a_column_that_is_left_out_is_noticed(self):
        said = self.summary(self.DROP_DOWNS, "--list=C1")
        self.assertNotIn("2 cells of column 3 (C2) hold names of candidates", said)
        said = self.summary(self.DROP_DOWNS.replace("9:02,Ada,", "9:02,Ben,Ada"), "--list=C1")
        self.assertIn("3 cells of column 3 (C2) hold names of candidates", said)
        self.assertEqual(said[-2:], ["read: column 2 (C1)", "not read: columns 1 (Time), 3 (C2)"])

    def test_cells_that_a_separator_split(self):
        table = "Time,Who,,\n9,Ada,Ben,Cleo\n9,Ben,,\n"
        self.assertEqual(self.winners(table, "--list=2-4"), ([{"Ben"}], 2))
        self.assertIn(
            "by --list", self.refused("'Ben' stands in column 3, and the first row names 2", table, "--list=2")
        )

    def test_columns_with_the_name_of_a_candidate_or_nothing(self):
        table = "Q1_1,Q1_2,Q1_3\nAda,,Cleo\n,Ben,Cleo\n,,\n"
        self.assertEqual(self.winners(table, "--list=1-3"), ([{"Cleo"}], 2))
        self.assertEqual(self.names(table, "--list=1-3"), ["Ada", "Cleo", "Ben"])

    def test_an_own_answer_is_one_more_column(self):
        table = "Ada,Ben,Other\nAda,Ben,\n,Ben,Zoe\nAda,,Zoe\n,,Zoe\n"
        named = table.replace("Ada,Ben,Other", "Q [1],Q [2],Q [3]")
        self.assertEqual(self.winners(named, "--list=1-3"), ([{"Zoe"}], 3))

    def test_a_name_in_two_cells_counts_once(self):
        table = "Time,C1,C2\n9:01,Ada,Ada\n9:02,Ben,Ada\n9:03,Ben,\n9:04,Ben,Ben\n"
        self.assertEqual(self.winners(table, "--list=2-3"), ([{"Ben"}], 3))
        self.assertIn("a name in two cells counts once: rows 2, 5", self.summary(table, "--list=2-3"))

    def test_names_with_a_comma(self):
        table = 'C1,C2\n"Lovelace, Ada","Babbage, Charles"\n"Lovelace, Ada",\n,Ben\n'
        said = self.refused("it is not certain whether it separates names", table, "--list=1-2")
        self.assertIn("--candidates FILE", said)

        def won(path):
            return self.winners(table, "--list=1-2", "--candidates", path)

        listed = "Lovelace, Ada\nBabbage, Charles\nBen\n"
        self.assertEqual(self.with_file(listed, won), ([{"Lovelace, Ada"}], 2))
        one = 'C1\n"Lovelace, Ada"\n"Babbage, Charles"\n'
        self.assertIn("cells with a `,` may hold one name with a `,` each", self.taken(one, "--list=1")[1])
        for certain in (FIVE, 'Who\n"Ada,"\n"Ben,"\n', 'Who\n"Ada, Ben, Cleo"\n"Ada, Dan, Ben"\n'):
            self.assertNotIn("may hold one name", self.taken(certain, "--list=1")[1])
        both = 'C1,C2\n"Ada, Ben",Cleo\n"Ben, Cleo",\n'
        self.assertEqual(self.winners(both, "--list=1-2"), ([{"Ben"}, {"Cleo"}], 2))
        for pairs in ('"Lovelace, Ada","Turing, Alan"\n"Byron, Ada",\n', '"Ada, Ben","Cleo, Dan"\n'):
            self.refused("it is not certain whether it separates names", f"C1,C2\n{pairs}", "--list=1-2")
            self.assertIn("may hold one name", self.taken(f"C1,C2\n{pairs}", "--list=1")[1])

    def test_a_column_twice(self):
        self.refused("--list gives column 2 ('C1') twice", self.DROP_DOWNS, "--list=2", "--list=C1")
        self.refused("--list gives column 2 ('C1') twice", self.DROP_DOWNS, "--list=1-2,2-3")


class NotRead(TableTest):
    def test_columns(self):
        table = "Nr,Ada,Ben,Why\n7,x,,a\n8,x,x,b\n9,,x,\n"
        self.assertEqual(self.summary(table, "--columns=2-3")[-1], "not read: columns 1 (Nr), 4 (Why)")
        self.assertNotIn("not read", self.taken("Ada,Ben\nx,\n")[1])
        self.assertNotIn("not read", self.taken("N,Mail,Ada\n2,a,x\n3,b,\n", "--count=1", "--once=2")[1])
        self.assertEqual(self.summary("A\x1bB,Ada\n1,x\n", "--skip=1")[-1], "not read: column 1 ('A\\x1bB')")
        self.assertEqual(self.summary(",Ada\n1,x\n,\n", "--skip=1")[-1], "not read: column 1")
        self.assertNotIn("not read", self.taken(",Ada\n,x\n,\n", "--skip=1")[1])

    def test_one_column_too_many_is_skipped(self):
        table = "Nr,Ada,Ben\n1,x,\n2,x,x\n3,,x\n"
        self.assertEqual(self.winners(table, "--skip=2"), ([{"Ben"}], 2))
        noticed = ["2 cells of column 2 (Ada) hold marks that count elsewhere", "not read: columns 1 (Nr), 2 (Ada)"]
        self.assertEqual(self.summary(table, "--skip=2")[-2:], noticed)
        self.assertEqual(self.summary(table, "--skip=1")[-1], "not read: column 1 (Nr)")
        digits = "Nr,Ada,Ben\n1,1,0\n2,1,1\n3,0,1\n"
        noticed = ["3 cells of column 2 (Ada) hold marks that count elsewhere", "not read: columns 1 (Nr), 2 (Ada)"]
        self.assertEqual(self.summary(digits, "--skip=2", "--yes=1")[-2:], noticed)
        self.assertEqual(
            self.summary(digits, "--skip=1", "--yes=1")[-2:], ["2 '0', taken as a no", "not read: column 1 (Nr)"]
        )
        own = "Nr,Ada,Ben\n1,Ben,\n2,Ada,Ben\n3,,Ben\n"
        noticed = "1 cell of column 2 (Ada) holds the name of a candidate"
        self.assertIn(noticed, self.summary(own, "--skip=2"))

    def test_a_name_that_a_separator_cut_off(self):
        table = 'Time,Who,Comment\n9:01,Ada, Ben\n9:02,"Ada, Ben",\n9:03,Cleo,fine\n9:04,Cleo,"Ben;Ada, please"\n'
        said = self.summary(table, "--list=2")
        self.assertIn("2 cells of column 3 (Comment) hold names of candidates", said)
        self.assertIn("not read: columns 1 (Time), 3 (Comment)", said)
        self.assertEqual(said[-1], "cells after names begin with a blank, as if a separator had cut them off: row 2")
        unknown = "Time,Choice,Comment\n9:01,Ada, Ben\n9:02,Ada\n9:03,Cleo,nice\n"
        said = self.summary(unknown, "--list=2")
        self.assertIn("cells after names begin with a blank, as if a separator had cut them off: row 2", said)
        self.assertIn("fewer cells than the first row: row 3", said)
        said = self.summary("Choose two, please\nAda, Ben\nAda, Cleo\nDan\n", "--list=1")
        cut = "cells after names begin with a blank, as if a separator had cut them off"
        self.assertEqual(said[-1], f"{cut}: rows 2, 3")
        tabs, both = "Time\tWho\tWhy\n9\tAda\t because\n", "C1,C2\nAda, Ben\n"
        for table, words in ((tabs, "--list=2"), (both, "--list=1-2")):
            self.assertNotIn(cut, self.taken(table, words)[1])

    def test_a_cell_in_quotes_that_was_cut(self):
        for first, last in ("''", '""', "‘’"):
            for blank in (" ", "") if first != '"' else (" ",):
                table = f"Time,Who,Comment\n9:00,Ben,\n9:01,{blank}{first}Ada, Ben{last}\n"
                said = self.refused("row 3: ", table, "--list=2")
                self.assertIn("in column 2 begins with a quote", said)
                self.assertIn("in column 3 ('Comment') ends with one", said)
        names = ["'t Hooft", "O'Ben", "Ben Jones'", 'Ben "the Big"']
        quoted = [name.replace('"', '""') for name in names]
        table = "Who,Why\n" + "".join(f'"{name}",because\n' for name in quoted)
        self.assertEqual(self.names(table, "--list=1"), names)
        for name, why in (("'Ada'", "the voters'"), ("'t Hooft", "'because'"), ("'t Hooft", "")):
            self.assertEqual(self.names(f"Who,Why\n{name},{why}\n", "--list=1"), [name])

    def test_names_with_and_without_quotes(self):
        for other in ("'Ada'", "'Ada", "“Ada”", '"Ada"'):
            table = "Who\nAda\n" + '"' + other.replace('"', '""') + '"\n'
            self.refused("the names differ only in case, in blanks, in quotes", table, "--list=1")


class RowsOfOtherWidths(TableTest):
    def test_a_row_with_more_cells_than_the_first_row(self):
        table = "Voter,Note,Ada,Ben,Cleo\nX,ok,,x,,\nY,,,x,\nZ,,x,,x\n"
        said = self.refused("row 2 has 6 cells, and the first row 5", table, "--columns=3-5")
        self.assertIn("double quotes", said)
        for table in ("A,B,\nx,,\n", "A,B\nx,,\n,x,\n"):
            self.assertEqual(self.ballots(table)[0], "1: {1},{2}")
        self.refused("row 3 has 3 cells, and the first row 2", "A,B\nx,\n,x,\n")

    def test_rows_with_fewer_cells(self):
        table = "Time,Ada,Ben,Cleo\n9:01,,x,\n9:02,,x\n9:03,x\n"
        self.assertEqual(self.summary(table, "--skip=1")[-1], "fewer cells than the first row: rows 3, 4")
        self.assertNotIn("fewer cells", self.taken("A,B\nx,\n,x\n")[1])
        two = "Id,Whom?\n,Ada,Ben,Cleo\n1,x,,x\n2,x\n"
        self.assertEqual(self.summary(two, "--columns=2-4")[-1], "fewer cells than the first row: row 4")

    def test_the_separator_of_rows_with_other_widths(self):
        table = "Time;Choose two, please;Comment\n9:01;Ada, Ben\n9:02;Ada, Cleo\n9:03;Ada, Dan\n"
        self.refused("it is not certain what separates the columns", table, "--list=2")
        self.assertEqual(self.winners(f"sep=;\n{table}", "--list=2"), ([{"Ada"}], 3))
        tabs = "Time\tWho, please?\n9:01\tAda, Ben\n9:02\tDan, Ben\n"
        for table in (tabs, f"sep=\\t\n{tabs}", f"sep=\t\n{tabs}"):
            self.assertEqual(self.winners(table, "--list=2"), ([{"Ben"}], 2))
        self.refused("the first line 'sep=;;' has more than the sign", "sep=;;\nAda;Ben\nx;\n")

    def test_lines_without_cells(self):
        said = self.summary("Ada,Ben\nx,\n\n,x\n", "--blank-votes")
        self.assertIn("1 line without cells, not counted", said)
        self.assertIn("2 lines without cells, not counted", self.summary("Ada,Ben\nx,\n\n\n"))

    def test_rows_that_a_quote_joined(self):
        line = "cells hold lines like rows, as if a quote had joined them: row"
        ditto = 'Time\tChoice\tRemark\n9:01\tAda\tby post\n9:02\tBen\t"\n9:03\tCleo\t"\n9:04\tAda\t\n'
        self.assertIn(f"{line} 3", self.summary(ditto, "--list=2"))
        first = 'Remark\tChoice\nby post\tAda\n"\tBen\n"\tAda\n\tAda\n'
        self.assertIn(f"{line} 3", self.summary(first, "--list=2"))
        comment = 'Time,Choice,Comment\n9:01,Ada,"I like her\n9:02,Ben,fine\n9:03,Cleo,really"\n9:04,Ada,\n'
        self.assertIn(f"{line} 2", self.summary(comment, "--list=2"))
        lines = 'Time,Choice,Comment\n9:01,"Ada\nBen","well,\nfine"\n'
        self.assertNotIn(line, self.taken(lines, "--list=2")[1])
        names = 'Time,Choice\n9:01,"Lovelace, Ada\nBen"\n'
        words = ("--list=2", "--candidates")
        said = self.with_file("Lovelace, Ada\nBen\n", lambda path: self.taken(names, *words, path)[1])
        self.assertNotIn(line, said)


class RefusedRows(TableTest):
    def test_a_first_row_that_is_a_voter(self):
        for table in ('"Ada, Zoe"\nAda\n"Ada, Ben"\nBen\n', "Ben\nAda\nBen\n"):
            self.refused("the cells hold that name too", table, "--list=1")
        listing = 'Time,"Vote (Ada, Ben, Cleo, Dan)"\n9:01,"Ada, Ben"\n9:02,Cleo\n9:03,Dan\n'
        self.assertEqual(self.names(listing, "--list=2"), ["Ada", "Ben", "Cleo", "Dan"])
        question = '"Which of Ada, Ben, Cleo do you approve?"\nAda\nBen\n'
        self.assertEqual(
            self.summary(question, "--list=1")[-1], "read: column 1 (Which of Ada, Ben, Cleo do you approve?)"
        )
        self.assertEqual(self.summary("Zoe\nAda\nBen\n", "--list=1")[-1], "read: column 1 (Zoe)")

    def test_a_first_row_with_a_name_for_each_column(self):
        monkey = "Id,Your name,Which candidates?,,\n,Open-Ended Response,Ada,Ben,Cleo\n1,Ann,Ada,,Cleo\n2,Bob,,Ben,\n"
        codes = "Id,Q1_1,Q1_2,Q1_3\nResponse ID,Ada,Ben,Cleo\n1,Ada,,Cleo\n2,,Ben,\n3,Ada,Ben,\n"
        for table, words, want in ((monkey, "--list=3-5", 1), (codes, "--list=2-4", 2)):
            self.refused("row 2 may name the columns, or be a voter", table, words)
            self.assertEqual(self.winners(table, words, "--header-rows=2")[1], want)
            lower = table.replace("\n", "\n,,,,\n", 1) if table == monkey else table.replace("\n", "\n,,,\n", 1)
            self.assertIn("--header-rows 3,", self.refused("row 3 may name the columns", lower, words))
            self.assertEqual(self.winners(table, words, "--header-rows=1")[1], want + 1)
        self.assertEqual(self.winners("C1,C2\nAda,Ben\nBen,\n", "--list=1-2"), ([{"Ben"}], 2))

    def test_own_names_beside_other_names(self):
        table = "T,Ada,Ben,Other\n1,Ada,,\n2,,Ben,Zoe\n3,Ada,Ben,\n"
        self.assertIn("give this column by --list", self.refused("'Zoe' is not a mark", table, "--columns=2-4"))
        self.assertEqual(self.winners(table, "--list=2-4"), ([{"Ada"}, {"Ben"}], 2))
        self.refused("the cells hold that name too", "Ada\nAda\nAda\n", "--list=1")

    def test_a_second_row_of_headings_that_differs(self):
        rows = "9:01,Ada,,Cleo\n9:02,,Ben,\n{}\n9:05,Ada,,\n"
        for row in ("Timestamp,Ada,Ben,Cleo", ",Ada,Ben,Cleo"):
            table = "Time,Ada,Ben,Cleo\n" + rows.format(row)
            said = self.refused("row 4 has the names of all columns of the votes", table, "--columns=2-4")
            self.assertIn("no number in column 1 ('Time')", said)
        full = "Time,Ada,Ben,Cleo\n" + rows.format("9:03,Ada,Ben,Cleo")
        self.assertEqual(self.winners(full, "--columns=2-4"), ([{"Ada"}], 3))
        told = "Time,Ada,Ben,Why\n9:01,Ada,,1 yes\n9:02,Ada,Ben,because\n9:03,,Ben,2 no\n"
        self.assertEqual(self.winners(told, "--columns=2-3"), ([{"Ada"}, {"Ben"}], 2))
        self.assertEqual(self.winners("Time,Ada\n9:01,Ada\n9:02,Ada\nlate,Ada\n", "--columns=2"), ([{"Ada"}], 3))
        named = "Voter,Ada,Ben\nX,Ada,\nY,Ada,Ben\nZ,,Ben\n"
        self.assertEqual(self.winners(named, "--columns=2-3"), ([{"Ada"}, {"Ben"}], 2))

    def test_codes_of_qualtrics(self):
        table = 'Q1,Q2\nWhom?,Why?\n"{""ImportId"":""QID1""}","{""ImportId"":""QID2_TEXT""}"\n"Ada,Ben",x\nBen,y\n'
        self.refused("row 3 has codes of Qualtrics", table, "--list=1")
        self.assertIn("--header-rows 3", self.refused("row 3", table, "--list=1", "--header-rows=2"))
        self.assertEqual(self.winners(table, "--list=1", "--header-rows=3"), ([{"Ben"}], 2))

    def test_codes_of_web_pages(self):
        for code, sign in (("&#39;", "'"), ("&amp;", "&"), ("&quot;", '"'), ("&#x27;", "'"), ("&uuml;", "ü")):
            said = self.refused(f"row 3: 'O{code}Ben", f"Who\nAda\nO{code}Ben;Ada\n", "--list=1")
            self.assertIn(f"{code}, which stands for {sign!r}", said)
            self.refused(f"column 2: 'O{code}Ben'", f"Ada,O{code}Ben\nx,\n")
            self.with_file(
                f"O{code}Ben\n", lambda path: self.refused("line 1", "Who\nx\n", "--list=1", "--candidates", path)
            )
        self.assertEqual(self.names("sep=,\nWho\nAT&T;R&D;Q&A\n", "--list=1"), ["AT&T", "R&D", "Q&A"])

    def test_a_row_of_totals_by_its_word(self):
        for word in (
            "Total",
            "TOTALS",
            "Sum",
            "Summe:",
            "Somme",
            "Grand total",
            "Total (votes)",
            "Sum of all votes",
            "Gesamt",
            "Count",
        ):
            self.refused("row 4 looks like totals", f"Name,Ada,Ben\na,x,\nb,x,\n{word},2,0\n", "--skip=1")
            self.refused("row 3 looks like totals", f"Name,Ada\na,x\n{word},1\n", "--skip=1", "--no=1")
            self.refused("row 4 looks like", f"Name,N,Ada\na,2,x\nb,2,\n{word},4,2\n\n,,\n", "--count=2", "--skip=1")
        table = "Name,Who\na,Ada\nTotal,1\n"
        self.refused("row 3 looks like totals", table, "--list=2")
        table = "Name,Ada,Ben\nann,1,\nbob,,1\nTotal A,1,1\ncyd,1,\ndan,,1\n"
        self.refused("row 4 looks like totals", table, "--skip=1")
        self.assertEqual(self.winners(table.replace("Total A", "Tom"), "--skip=1"), ([{"Ada"}, {"Ben"}], 3))
        for pivot in ("Grand Total", "Gesamtergebnis", "Totale complessivo"):
            table = f'Choice,Votes\n"Ada, Ben",3\nDan,2\nBen,1\n{pivot},6\n'
            self.refused("row 5 looks like totals", table, "--list=1", "--count=2")
        for word in ("Suma Rao", "Count Olaf", "Totally", "Summer", "in sum I say no", "sum.total@example.org"):
            self.assertEqual(self.ballots(f"Name,Ada,Ben\na,x,\n{word},,x\n", "--skip=1")[1], "1: {2},{1}")

    def test_names_that_are_words_for_totals(self):
        self.assertEqual(self.winners("Who\nTotal\nShell\nTotal\n", "--list=1"), ([{"Total"}], 2))
        self.assertEqual(self.winners("Who\nShell\nDim Sum\n", "--list=1"), ([{"Shell"}, {"Dim Sum"}], 1))
        self.assertEqual(self.ballots("Total,Ada\nTotal,\n"), ["1: {1},{2}"])
        self.refused("row 4 looks like totals", "Who\nAda\nBen\nTotal\n", "--list=1")

    def test_a_row_of_totals_by_its_sums(self):
        digits = "Name,Ada,Ben\na,1,0\nb,1,1\n"
        for words in (["--yes=1"], ["--yes=1", "--no=0"], ["--yes=1", "--no=2", "--no=0"]):
            self.refused("row 4 looks like totals ('2', '1')", digits + ",2,1\n", "--skip=1", *words)
            said = self.refused("row 4", digits + "Ergebnis,2,1\n", "--skip=1", *words)
            self.assertNotIn("--no", said)
        for mark, no in (("x", ""), ("yes", "no")):
            table = f"Name,Ada,Ben\na,{mark},{no}\nb,{mark},{mark}\nc,{mark},{no}\n,3,1\n"
            self.refused("row 5 looks like totals", table, "--skip=1", f"--yes={mark}")
        weighted = "N,Ada,Ben\n5,x,\n7,x,x\n12,12,7\n"
        self.refused("row 4 looks like totals", weighted, "--count=1", "--yes=x")
        self.refused("row 4 looks like totals", weighted.replace("12,7", "2,1"), "--count=1", "--yes=x")
        self.refused("row 4 looks like", "N,Who\n5,Ada\n7,Ben\n12,\n", "--count=1", "--list=2")
        self.refused("row 4 looks like", "Time,Who\n9,Ada\n9,Ben\n,2\n", "--list=2")

    def test_a_first_row_of_totals(self):
        for table in ("Name,Ada,Ben\nTotal,2,0\na,x,\nb,x,\n", "Name,Ada,Ben\n,2,0\na,x,\nb,x,\n"):
            self.refused("row 2 looks like totals", table, "--skip=1", "--yes=x")

    def test_a_voter_who_looks_like_sums(self):
        last = ["1: {1},{2}", "1: {1,2},{}"]
        one = "Ada,Ben\nx,x\n1,1\n"
        self.assertEqual(self.ballots(one, "--yes=x", "--no=1"), ["1: {1,2},{}", "1: {},{1,2}"])
        self.assertEqual(self.ballots("Ada,Ben\n1,0\n0,0\n1,1\n", "--yes=1")[-1], last[1])
        self.assertEqual(self.ballots("Ada,Ben\n1,0\n1,1\n", "--yes=1"), last)
        self.assertEqual(self.ballots("N,Ada,Ben\n3,x,\n4,,x\n8,x,x\n", "--count=1")[-1], "8: {1,2},{}")
        for table in ("Choice\n1\n2\n3\n", "Time,Choice\n9,1\n9,2\n9,2\n9,3\n"):
            self.assertEqual(self.names(table, "--list=Choice"), ["1", "2", "3"])
        for count in (2, 6, 8):
            table = f"N,Who\n3,Ada\n4,Ben\n{count},\n"
            self.assertEqual(self.ballots(table, "--count=1", "--list=2")[-1], f"{count}: {{}},{{1,2}}")

    def test_a_candidate_named_no(self):
        table = "Time,Ada,No\n9,yes,no\n9,yes,no\n"
        self.refused("column 3 ('No'): its cells hold that word", table, "--skip=1", "--yes=yes")
        self.assertEqual(self.winners(table, "--columns=Ada", "--yes=yes"), ([{"Ada"}], 2))
        self.assertEqual(self.ballots("Yes,No\nyes,\n,no\n"), ["1: {1},{2}", "1: {2},{1}"])


class SaidInALine(TableTest):
    def test_each_row_names_all(self):
        line = "each row names all candidates: if the question asked for a ranking, its order is lost"
        self.assertIn(line, self.summary("Who\nAda;Ben\nBen;Ada\n".replace("Who", "sep=,\nWho"), "--list=1"))
        self.assertIn(line, self.summary("Ada,Ben\nx,x\nx,x\n"))
        for table in ("Who\nAda;Ben\n", "Who\nAda\nAda\n", "Who\nAda;Ben\nAda\n"):
            self.assertNotIn(line, self.summary(f"sep=,\n{table}", "--list=1"))

    def test_an_own_answer(self):
        for heading in ("Other", "Other (please specify)", "Whom? [Other]", "Andere", "Autre :", "Sonstiges"):
            ada, ben = ("Whom? [Ada]", "Whom? [Ben]") if "[" in heading else ("Ada", "Ben")
            for yes, words in (("yes", ["--yes=yes"]), ("x", []), ("yes", [])):
                table = f"{ada},{ben},{heading}\n{yes},,\n,{yes},Zoe\n"
                said = self.refused("row 3, column 3", table, *words)
                self.assertIn("'Zoe' is not a mark of other columns", said)
                self.assertIn("give this column by --list", said)
                self.assertNotIn("--yes", said)
        named = "Ada,Ben,Other\nAda,,Zoe\n,Ben,Yves\n"
        self.assertNotIn("--yes", self.refused("'Zoe' is not a mark of other columns", named))
        self.assertEqual(self.ballots(named, "--columns=1-2"), ["1: {1},{2}", "1: {2},{1}"])
        shared = "Ada,Ben,Other\nyes,no,\nno,maybe,maybe\n"
        self.refused("say whether each of these marks is a yes or a no", shared, "--yes=yes")
        self.assertEqual(self.ballots("Ada,Other\nx,\n,x\n"), ["1: {1},{2}", "1: {2},{1}"])
        self.assertEqual(self.ballots("Ada,Other\n,x\n"), ["1: {2},{1}"])


class ChosenColumns(TableTest):
    TABLE = "Time,Ada,Ben,Why,Cleo\n9,x,,because,x\n9,x,x,,\n"

    def test_numbers_and_names(self):
        for words in (
            ["2,3,5"],
            ["2-3,5"],
            ["2-3", "5"],
            ["Ada", "Ben", "Cleo"],
            ["ada", " 3 , 5 "],
            ["2 - 3", "cleo"],
        ):
            words = [word for column in words for word in ("--columns", column)]
            self.assertEqual(self.ballots(self.TABLE, *words), ["1: {1,3},{2}", "1: {1,2},{3}"])
        self.assertEqual(self.names(self.TABLE, "--columns=5,2"), ["Cleo", "Ada"])
        self.assertEqual(self.ballots(self.TABLE, "--columns=5,2"), ["1: {1,2},{}", "1: {2},{1}"])

    def test_what_fits_no_column(self):
        for words in ("6", "0", "4-6", "0-3", "3-2", "2,6", "Zoe", "2-", "", ","):
            self.refused("fits no column", self.TABLE, "--columns", words)
        self.refused("--columns gives column 2 ('Ada') twice", self.TABLE, "--columns=2-3", "--columns=Ada")
        self.refused("and numbers of columns: rename it", "2-3,Ada,Ben\n9,x,\n", "--columns=2-3")
        self.refused("--columns and --count give the same column", "N,Ada\n2,x\n", "--columns=1-2", "--count=N")
        self.refused("--columns and --once give the same column", "N,Ada\n2,x\n", "--columns=1-2", "--once=N")
        self.refused("--count and --once give the same column", "N,Ada\n2,x\n", "--count=N", "--once=N")
        self.refused("column 3 has no name", "N,Ada,\n2,x,x\n", "--columns=2-3")

    def test_a_heading_with_a_comma(self):
        table = '"Ada, Countess","Ben, Lord",N\nx,,1\nx,x,2\n'
        self.assertEqual(self.names(table, "--columns=Ada, Countess", "--columns=2"), ["Ada, Countess", "Ben, Lord"])

    def test_names_in_brackets(self):
        table = "T,Vote [Ada Lovelace],Vote [Ben],Vote  [Cleo [chair]],Why [q]\n9,Yes,No,Yes,a\n9,Yes,Yes,No,b\n"
        said = self.summary(table, "--columns=2-4", "--yes=yes")
        self.assertIn("2 for Ada Lovelace", said)
        self.assertIn("1 for Cleo [chair]", said)
        self.assertIn("the names are the parts in brackets after Vote", said)
        self.assertEqual(self.names(table, "--columns=Vote [Ada Lovelace]", "--yes=yes"), ["Ada Lovelace"])
        self.refused("4 different marks", table, "--skip=1")
        self.assertEqual(self.names("Ada [chair],Ben [chair]\nx,\n"), ["Ada [chair]", "Ben [chair]"])
        self.assertEqual(self.names("Vote [Ada],Ben\nx,\n"), ["Vote [Ada]", "Ben"])
        question = "Which [two] do you want? [Ada],Which [two] do you want? [Ben]\nx,\n"
        self.assertEqual(self.names(question), ["Ada", "Ben"])
        self.assertEqual(self.names("[Ada],[Ben]\nx,\n"), ["Ada", "Ben"])
        for odd in ("Ada],Ben]", "Vote [],Vote []x", "Vote [],Vote [b]", "[Ada] now,[Ben] now"):
            self.assertEqual(self.names(f"{odd}\nx,\n"), odd.split(","))
        self.refused("column 2 repeats the name 'Ada'", "Vote [Ada],Vote [Ada]\nx,\n")
        own = "Vote [Ada],Vote [Ben]\nAda,\n,Vote [Ben]\n"
        self.assertEqual(self.ballots(own), ["1: {1},{2}", "1: {2},{1}"])

    def test_a_second_row_with_the_names(self):
        table = "Id,Whom?,,\n,Ada,Ben,Cleo\n1,x,,x\n2,,,x\n"
        for words in (["--skip=1"], ["--columns=2-4"]):
            self.assertEqual(self.winners(table, *words), ([{"Cleo"}], 2))
            self.assertIn("row 2 has the names of the candidates", self.summary(table, *words))
        voter = "Time,Ada,Ben,,Comment\n,Ada,Ben,,hello\n9:01,Ada,,,\n"
        self.assertEqual(self.winners(voter, "--columns=2-3"), ([{"Ada"}], 2))
        spacer = "Voter,Ada,Ben,Cleo,,Remarks\n,x,,x,,\nB,,x,,,\n"
        self.assertEqual(self.ballots(spacer, "--columns=2-4"), ["1: {1,3},{2}", "1: {2},{1,3}"])
        for words in (["--list=2-4"], ["--list=2"], ["--list=whom?"]):
            self.refused("row 2 may name the columns, or be a voter", table, *words)
        own = "Id,Whom?,,\n,Ada,Ben,Other\n1,Ada,,Zoe\n2,,,Zoe\n"
        self.assertEqual(self.winners(own, "--list=2-4", "--header-rows=2"), ([{"Zoe"}], 2))
        split = "Time,Whom?\n,Ada,Ben\n9,Ben,\n"
        self.refused("row 2 may name the columns, or be a voter", split, "--list=2-3")
        self.assertEqual(self.winners(split, "--list=2-3", "--header-rows=1"), ([{"Ben"}], 2))

    def test_options_that_do_not_fit(self):
        rows = (
            ["--columns=1", "--skip=0"],
            ["--list=1", "--columns=1"],
            ["--skip=1", "--skip=1"],
            ["--count=1", "--count=1"],
            ["--once=1", "--once=1"],
            ["--sheet=a", "--sheet=a"],
            ["--header-rows=1", "--header-rows=1"],
            ["--list=1", "--candidates=a", "--candidates=a"],
            ["--blank-votes", "--blank-votes"],
            ["--header-rows=0"],
            ["--header-rows=x"],
            ["--skip=-1"],
            ["--skip=1.5"],
        )
        for words in rows:
            status, out, said = self.made(self.TABLE, *words)
            self.assertEqual((status, out), (2, ""), words)
            self.assertIn(words[-1].partition("=")[0], said)


class Once(TableTest):
    def test_a_voter_who_stands_twice(self):
        for other in ("ada@example.org", "ADA@Example.org", " ada@example.org\u00a0", "ada@example.org\u200b"):
            table = f"Mail,Ada,Ben\nada@example.org,x,\nb,,x\n{other},x,x\n"
            said = self.refused("the rows 2 and 4 have the same voter", table, "--once=Mail", "--columns=2-3")
            self.refused("the rows 2 and 4", table, "--once=1")
            self.assertEqual(len(said.splitlines()), 1)
        names = "Mail,Who\na,Ada\nb,Ben\nA,Ada\n"
        self.refused("the rows 2 and 4 have the same voter 'A'", names, "--once=1", "--list=2")
        self.assertEqual(self.winners(names.replace("A,Ada", "c,Ben"), "--once=1", "--list=2"), ([{"Ben"}], 2))

    def test_blanks_within(self):
        self.assertEqual(len(self.ballots("Name,Ada\nAnn A,x\nAnnA,\n", "--once=1")), 2)
        for first, other in (("Ann A", "Ann  A"), ("Ann A", "Ann\u00a0A"), ("Ann A", "Ａnn A"), ("STRASSE", "Straße")):
            self.refused("the rows 2 and 3 have the same voter", f"Name,Ada\n{first},x\n{other},\n", "--once=1")

    def test_a_row_without_a_voter(self):
        table = "Mail,Ada,Ben\na,x,\n,x,\n"
        self.refused("row 3: column 1 ('Mail') is empty", table, "--once=1")
        self.assertIn("1 blank row, not counted", self.summary("Mail,Ada,Ben\na,x,\n,,\n", "--once=1"))


class HeaderRows(TableTest):
    TABLE = "Ada,Ben\nWhom do you approve? - Ada,Whom? - Ben\nyes,no\nno,yes\n"

    def test_rows_of_headings(self):
        self.assertEqual(self.ballots(self.TABLE, "--header-rows=2", "--yes=yes"), ["1: {1},{2}", "1: {2},{1}"])
        self.assertEqual(self.summary(self.TABLE, "--header-rows=2", "--yes=yes")[-1], "not read: row 2")
        self.assertEqual(self.summary("A,B\n1,2\n3,4\nx,\n", "--header-rows=3")[-1], "not read: rows 2, 3")
        self.assertEqual(self.ballots("A,B\nx,\n", "--header-rows=1"), ["1: {1},{2}"])

    def test_too_many(self):
        self.refused("no voter", self.TABLE, "--header-rows=4")
        self.refused("the table has fewer than 5 rows", self.TABLE, "--header-rows=5")


PARTS = "http://schemas.openxmlformats.org/package/2006"
OFFICE = "http://schemas.openxmlformats.org/officeDocument/2006/relationships"
CELLS = "http://schemas.openxmlformats.org/spreadsheetml/2006/main"
STYLES = f"""<styleSheet xmlns="{CELLS}"><numFmts count="6">
<numFmt numFmtId="174" formatCode="_-* #,##0_-;\\-* #,##0_-"/><numFmt numFmtId="175" formatCode="[$-409]0;-0"/>
<numFmt numFmtId="170" formatCode="0 &quot;votes&quot;"/><numFmt numFmtId="171" formatCode=";;;"/>
<numFmt numFmtId="172" formatCode="000"/><numFmt numFmtId="173" formatCode="0,"/></numFmts>
<fonts count="1"><font/></fonts><fills count="1"><fill><patternFill/></fill></fills>
<borders count="1"><border/></borders><cellStyleXfs count="1"><xf/></cellStyleXfs>
<cellXfs count="9"><xf/><xf numFmtId="14"/><xf numFmtId="9"/><xf numFmtId="170"/><xf numFmtId="171"/>
<xf numFmtId="172"/><xf numFmtId="173"/><xf numFmtId="174"/><xf numFmtId="175"/></cellXfs></styleSheet>"""
# The styles of the cells of a workbook.
DATE, PERCENT, VOTES, HIDDEN, TOKEN, THOUSANDS, PADDED, LOCAL = "12345678"


def number(value, style="0"):
    return f'<c r="{{}}" s="{style}"><v>{value}</v></c>'


def formula(value=None):
    return '<c r="{}"><f>A1</f>' + ("" if value is None else f"<v>{value}</v>") + "</c>"


def error(text):
    return f'<c r="{{}}" t="e"><v>{text}</v></c>'


def cell_of(value, place):
    """The XML of a cell: of a text, a number or a boolean, or as it is given."""
    if isinstance(value, bool):
        return f'<c r="{place}" t="b"><v>{int(value)}</v></c>'
    if isinstance(value, int):
        return number(value).format(place)
    if value.startswith("<c "):
        return value.format(place)
    return f'<c r="{place}" t="inlineStr"><is><t xml:space="preserve">{escape(value)}</t></is></c>' if value else ""


def sheet_xml(rows, merged, hidden):
    lines = []
    for at, row in enumerate(rows, 1):
        cells = "".join(cell_of(value, f"{chr(65 + column)}{at}") for column, value in enumerate(row))
        lines.append(f'<row r="{at}" hidden="{int(at in hidden)}">{cells}</row>')
    areas = f'<mergeCells count="1"><mergeCell ref="{merged}"/></mergeCells>' if merged else ""
    return f'<worksheet xmlns="{CELLS}"><sheetData>{"".join(lines)}</sheetData>{areas}</worksheet>'


def workbook(*sheets, merged="", hidden=(), hidden_sheet=False):
    """An .xlsx file. Its sheets are called Form1, Form2 and so on; only the first has merged cells or is hidden."""
    kind = "application/vnd.openxmlformats-officedocument.spreadsheetml"
    numbers = range(1, len(sheets) + 1)
    states = ("hidden" if hidden_sheet else "visible", "visible")
    parts = {
        "[Content_Types].xml": f'<Types xmlns="{PARTS}/content-types"><Default Extension="rels"'
        ' ContentType="application/vnd.openxmlformats-package.relationships+xml"/>'
        f'<Override PartName="/xl/workbook.xml" ContentType="{kind}.sheet.main+xml"/>'
        f'<Override PartName="/xl/styles.xml" ContentType="{kind}.styles+xml"/>'
        + "".join(f'<Override PartName="/xl/s{n}.xml" ContentType="{kind}.worksheet+xml"/>' for n in numbers)
        + "</Types>",
        "_rels/.rels": f'<Relationships xmlns="{PARTS}/relationships"><Relationship Id="r0"'
        f' Type="{OFFICE}/officeDocument" Target="xl/workbook.xml"/></Relationships>',
        "xl/_rels/workbook.xml.rels": f'<Relationships xmlns="{PARTS}/relationships">'
        + "".join(f'<Relationship Id="r{n}" Type="{OFFICE}/worksheet" Target="s{n}.xml"/>' for n in numbers)
        + f'<Relationship Id="r0" Type="{OFFICE}/styles" Target="styles.xml"/></Relationships>',
        "xl/workbook.xml": f'<workbook xmlns="{CELLS}" xmlns:r="{OFFICE}"><sheets>'
        + "".join(f'<sheet name="Form{n}" sheetId="{n}" r:id="r{n}" state="{states[n > 1]}"/>' for n in numbers)
        + "</sheets></workbook>",
        "xl/styles.xml": STYLES,
    }
    for n, rows in zip(numbers, sheets):
        parts[f"xl/s{n}.xml"] = sheet_xml(rows, *((merged, hidden) if n == 1 else ("", ())))
    made = io.BytesIO()
    with zipfile.ZipFile(made, "w", zipfile.ZIP_DEFLATED) as file:
        for name, text in parts.items():
            file.writestr(name, text)
    return made.getvalue()


def python_with(module):
    """An interpreter that has this module, or None."""
    for python in (sys.executable, shutil.which("python3", path=os.defpath)):
        if python and subprocess.run([python, "-c", f"import {module}"], capture_output=True).returncode == 0:
            return python
    return None


class OtherSpreadsheets(TableTest):
    """What is known of a file without openpyxl."""

    def test_an_xlsx_file_without_openpyxl(self):
        status, out, said = self.made(workbook([["Ada"], ["x"]]))
        self.assertEqual((status, out), (1, ""))
        self.assertIn("no openpyxl to read it: save it as CSV in UTF-8, or install openpyxl", said)

    def named(self, ending, data):
        with tempfile.TemporaryDirectory() as room:
            path = os.path.join(room, f"votes{ending}")
            with open(path, "wb") as file:
                file.write(data)
            return path, self.made("", path)

    def zipped(self, *names):
        made = io.BytesIO()
        with zipfile.ZipFile(made, "w") as file:
            for name in names:
                file.writestr(name, "x")
        return made.getvalue()

    def test_kinds_that_are_not_read(self):
        old = b"\xd0\xcf\x11\xe0\xa1\xb1\x1a\xe1" + bytes(100)
        for data, kind in (
            (old, ".xls"),
            (self.zipped("mimetype", "content.xml"), ".ods"),
            (self.zipped("Index/Document.iwa"), ".numbers"),
            (self.zipped("Index.zip"), ".numbers"),
        ):
            said = self.refused(f"the table is an {kind} file", data)
            self.assertIn("which is not read: save it as .xlsx", said)
            self.assertIn("or as CSV in UTF-8", said)
        for ending in (".xls", ".ods", ".numbers", ".XLS"):
            _, (status, out, said) = self.named(ending, b"Ada,Ben\nx,\n")
            self.assertEqual((status, out), (1, ""))
            self.assertIn(f"the table is an {ending.lower()} file", said)

    def test_files_that_are_not_whole(self):
        for data in (b"Ada,Ben\nx,\n", b"", workbook([["Ada"], ["x"]])[:-30]):
            _, (status, out, said) = self.named(".xlsx", data)
            self.assertEqual((status, out), (1, ""))
            self.assertIn("the table is not a whole .xlsx file", said)
        for data in (self.zipped("a.txt"), workbook([["Ada"], ["x"]])[:200]):
            self.refused("the table is not a whole .xlsx file", data)
        self.refused("--sheet is for a workbook", "Ada\nx\n", "--sheet=Form1")
        self.assertEqual(self.ballots("PK,Ada\n,x\n"), ["1: {2},{1}"])


class Workbooks(TableTest):
    @classmethod
    def setUpClass(cls):
        cls.python = python_with("openpyxl")
        if not cls.python:
            raise unittest.SkipTest("no interpreter has openpyxl")

    def made(self, table, *words, **options):
        run = subprocess.run([self.python, TOOL[-1], *words], input=table, capture_output=True, **options)
        return run.returncode, run.stdout.decode(), run.stderr.decode()

    def taken(self, table, *words):
        status, out, said = self.made(table, *words)
        self.assertEqual(status, 0, said)
        return out, said

    def refused(self, why, table, *words):
        status, out, said = self.made(table, *words)
        self.assertEqual((status, out), (1, ""), said)
        self.assertEqual(len(said.splitlines()), 1, said)
        self.assertIn(why, said)
        return said

    def test_texts_numbers_and_booleans(self):
        day = number(46000, DATE)
        rows = [["Time", "Ada", "Ben"], [day, 1, 0], [day, 1, 1], [day, number("1.0"), number("0.0")]]
        self.assertEqual(self.ballots(workbook(rows), "--skip=1", "--yes=1"), ["2: {1},{2}", "1: {1,2},{}"])
        rows = [["Ada", "Ben"], [True, False], [True, True]]
        self.assertEqual(self.ballots(workbook(rows), "--yes=TRUE"), ["1: {1},{2}", "1: {1,2},{}"])
        self.assertEqual(self.ballots(workbook([["Ada", "Ben"], ["Yes ", "no"]]), "--yes=yes"), ["1: {1},{2}"])
        rows = [["Who", "N"], ["Ada;Ben;", 12], ["Ben;", 30], ["", 5]]
        said = self.summary(workbook(rows), "--list=1", "--count=N")
        self.assertEqual(said[1:], ["12 for Ada", "42 for Ben", "5 for no candidate (row 4)", "read: column 1 (Who)"])
        self.assertEqual(self.names(workbook([["Day", 3, 4], ["a", "x", ""]]), "--skip=1"), ["3", "4"])
        self.assertEqual(self.names(workbook([["Who"], ["Ada_x000D_\nBen"], ["Ada"]]), "--list=1"), ["Ada", "Ben"])

    def test_a_file_and_a_pipe(self):
        table = workbook([["Ada", "Ben"], ["x", ""]])
        with tempfile.TemporaryDirectory() as room:
            path = os.path.join(room, "votes.csv")
            with open(path, "wb") as file:
                file.write(table)
            self.assertEqual(self.ballots(b"", path), self.ballots(table))

    def test_kept_values_of_formulas(self):
        self.assertEqual(self.ballots(workbook([["Ada", "Ben"], [formula(1), 0]]), "--yes=1"), ["1: {1},{2}"])
        table = workbook([["Why", "Ada", "Ben"], [formula(), 1, ""], [formula(), formula(), 1]])
        self.refused("cell B3 has a formula without a value", table, "--skip=1")
        self.assertEqual(self.ballots(table, "--columns=3"), ["1: {},{1}", "1: {1},{}"])
        empty = '<c r="{}" t="str"><f>A1</f><v></v></c>'
        text = '<c r="{}" t="str"><f>A1</f><v>x</v></c>'
        self.assertEqual(self.ballots(workbook([["Ada", "Ben"], [text, empty]])), ["1: {1},{2}"])

    def test_what_is_no_text_or_whole_number(self):
        cases = (
            (number("0.5"), "cell C3 has the fractional number 0.5"),
            (number(46000, DATE), "cell C3 has a date or a time"),
            (number(1, PERCENT), "cell C3 shows a number in the format 0%"),
            (number(1, VOTES), "cell C3 shows a number in the format 0"),
            (number(1, HIDDEN), "cell C3 shows a number in the format ;;;"),
            (number(7, TOKEN), "cell C3 shows a number in the format 000"),
            (number(3000, THOUSANDS), "cell C3 shows a number in the format 0,"),
            (error("#N/A"), "cell C3 has the error #N/A"),
        )
        for cell, why in cases:
            table = workbook([["Why", "Ada", "Ben"], ["a", "x", ""], [cell, "x", cell]])
            self.refused(why, table, "--skip=1")
            self.refused(why.replace("C3", "A3"), table, "--list=1")
            self.assertEqual(self.ballots(table, "--columns=2"), ["2: {1},{}"])
        for form in (PADDED, LOCAL):
            self.assertEqual(self.ballots(workbook([["Ada", "Ben"], [number(1, form), ""]])), ["1: {1},{2}"])
        self.assertEqual(self.names(workbook([["Who"], ["Ada_xD83D_"], ["_x005F_"]]), "--list=1"), ["Ada_xD83D_", "_"])
        self.refused("cell B1 has a date", workbook([["Why", number(46000, DATE)], ["a", "x"]]), "--skip=1")
        left_out = workbook([["Ada"], [number("0.5")], ["x"]])
        self.assertEqual(self.ballots(left_out, "--header-rows=2"), ["1: {1},{}"])

    def test_merged_cells(self):
        for merged in ("A1:B1", "B3:B4"):
            table = workbook([["Why", "Ada"], ["a", "x"], ["b", "x"], ["c", ""]], merged=merged)
            self.refused(f"the cells {merged} are merged", table, "--skip=1")

    def test_sheets(self):
        table = workbook([["Ada"], ["x"]], [["Ben"], ["x"]], [["Cleo"], ["x"]])
        self.assertEqual(self.names(table), ["Ada"])
        self.assertEqual(self.summary(table)[-1], "not read: sheets 'Form2', 'Form3'")
        self.assertEqual(self.names(table, "--sheet=Form2"), ["Ben"])
        said = self.refused(
            "there is no sheet 'form2'; the workbook has 'Form1', 'Form2', 'Form3'", table, "--sheet=form2"
        )
        self.assertEqual(len(said.splitlines()), 1)
        hidden = workbook([["Ada"], ["x"]], [["Ben"], ["x"]], hidden_sheet=True)
        self.assertEqual(self.names(hidden), ["Ben"])
        self.assertEqual(self.summary(hidden)[-1], "not read: sheet 'Form1'")
        self.refused("the table is empty", workbook([]))
        self.refused("the table is empty", workbook([[""], [" "]]))

    def test_rows(self):
        rows = [["Name", "Ada"], ["a", "x"], [], ["b", "x"], ["", ""], []]
        self.assertIn("1 blank row, not counted", self.summary(workbook(rows), "--skip=1"))
        said = self.summary(workbook(rows, hidden=(2, 6)), "--skip=1")
        self.assertIn("1 hidden row, read like the others", said)
        shaped = '<c r="{}" s="1"/>'
        table = workbook([["Ada"], ["x"], [], ["x"], [shaped], [shaped]])
        self.assertEqual(self.ballots(table, "--blank-votes"), ["2: {1},{}", "1: {},{1}"])
        self.assertIn("2 blank rows at the end of the sheet, not counted", self.summary(table, "--blank-votes"))
        wide = workbook([["Ada"], ["x", '<c r="XFD2" s="1"/>'], *[["x"]] * 400])
        self.refused("the sheet has the cells A1:XFD402, too many", wide)
        self.refused("row 4: 'x' stands in column 3", workbook([["A", "B"], ["x"], [], ["", "", "x"]]))

    def test_a_damaged_sheet(self):
        whole = workbook([["Ada"], ["x"]])
        made = io.BytesIO()
        with zipfile.ZipFile(io.BytesIO(whole)) as parts, zipfile.ZipFile(made, "w") as file:
            for name in parts.namelist():
                text = parts.read(name)
                file.writestr(name, text[: len(text) // 2] if name == "xl/s1.xml" else text)
        self.refused("the .xlsx file cannot be read", made.getvalue())


class LargeTables(TableTest):
    def test_100000_rows(self):
        rows = "".join(f"{at},{'x' * (at % 2)},{'x' * (at % 3 > 0)},,x\n" for at in range(100_000))
        # Prints the kilobytes that the tool took, as a process that has no other child.
        script = (
            "import resource, subprocess, sys; subprocess.run(sys.argv[1:], check=True);"
            "print(resource.getrusage(resource.RUSAGE_CHILDREN).ru_maxrss)"
        )
        words = [sys.executable, "-c", script, *TOOL, "--skip=1"]
        run = subprocess.run(words, input=f"Time,Ada,Ben,Cleo,Dan\n{rows}".encode(), capture_output=True)
        sums = b"   50000  for Ada\n   66666  for Ben\n       0  for Cleo\n  100000  for Dan\n"
        self.assertIn(sums, run.stderr)
        self.assertLess(int(run.stdout.split()[-1]), 200_000)


class CommandLine(TableTest):
    def test_a_refusal_ends_a_pipe_without_an_answer(self):
        status, out, _ = self.made("A,B\nyes,no\n")
        self.assertNotEqual(status, 0)
        with self.assertRaises(InputRefused):
            self.with_file(out, lambda path: next(elect(path, "av", 1)))

    def test_help_has_79_columns(self):
        for columns in ("40", "79", "200"):
            status, out, _ = self.made("", "--help", env={**os.environ, "COLUMNS": columns})
            self.assertEqual(status, 0)
            self.assertLessEqual(max(map(len, out.splitlines())), 79)

    def test_files_and_devices(self):
        self.assertEqual(self.with_file("A,B\nx,\n", lambda path: self.ballots("", path)), ["1: {1},{2}"])
        self.refused("/no/such/file: No such file", "", "/no/such/file")
        if os.path.exists("/dev/full"):
            with open("/dev/full", "wb") as full:
                run = subprocess.run(TOOL, input=b"A,B\nx,\n", stdout=full, stderr=subprocess.PIPE)
            said = b"table_to_cat: standard output: No space left on device\n"
            self.assertEqual((run.returncode, run.stderr), (1, said))


if __name__ == "__main__":
    unittest.main()
