"""Tests of report_election, with real runs of the program; test_recounts.py counts the numbers again."""
import hashlib
import html
import os
import pathlib
import re
import shutil
import signal
import subprocess
import sys
import tempfile
import time
import unittest
from html.parser import HTMLParser

HERE = os.path.dirname(os.path.realpath(__file__))
TOP = os.path.dirname(HERE)
sys.path.insert(0, HERE)
import committees  # noqa: E402
from test_answers import pid_of, program_that  # noqa: E402
from test_tables import FIVE, module_of, python_with  # noqa: E402

TOOL = [sys.executable, os.path.join(HERE, "report_election")]
EXAMPLES = os.path.join(TOP, "examples")
BOARD = os.path.join(EXAMPLES, "board.cat")
PARTIES = os.path.join(EXAMPLES, "parties.cat")
PAGES = os.path.join(TOP, "tests", "pages")
EXPORT = os.path.join(PAGES, "export.csv")
# The stored pages, and how each is made.
STORED = {
    "board.html": ["--rule", "pav", "--size", "3", "--date", "29 November 2026", BOARD],
    "export.html": ["--table", "--list", "Choice", "--once", "E-mail", "--rule", "av", "--rule", "pav", "--rule", "cc"]
    + ["--size", "2", "--title", "Two <delegates> & friends", EXPORT],
    "parties.html": ["--method", "dhondt", "--seats", "7", PARTIES],
}
DIGEST = re.compile(r"(<tr><th scope=\"row\">SHA-256 of the program</th><td><code>)[0-9a-f]{64}")
VOID = {"meta", "br", "link", "img", "rect"}


def run(*words, text=b"", **options):
    """The status of report_election, and what it writes to its two streams."""
    done = subprocess.run([*TOOL, *words], input=text, capture_output=True, **options)
    return done.returncode, done.stdout.decode(), done.stderr.decode()


def cat(names, *ballots):
    """The text of a ballot file."""
    lines = ["# DATA TYPE: cat", f"# NUMBER ALTERNATIVES: {len(names)}"]
    lines += [f"# ALTERNATIVE NAME {number}: {name}" for number, name in enumerate(names, 1)]
    return "\n".join([*lines, *ballots, ""]).encode()


class Sound(HTMLParser):
    """Collects what makes a page unsound: ids that are met twice, links that lead nowhere, headings out of order, tables
    without a caption, cells of headings without a scope, pictures without a title, and anything that is loaded."""

    def __init__(self, page):
        super().__init__()
        self.ids, self.links, self.faults, self.level, self.open = [], [], [], 0, []
        self.feed(page)
        self.close()
        self.faults += [f"id {name} twice" for name in {*self.ids} if self.ids.count(name) > 1]
        self.faults += [f"{link} leads nowhere" for link in self.links if link[1:] not in self.ids or link[0] != "#"]
        self.faults += [f"<{tag}> is not closed" for tag in self.open]

    def handle_decl(self, declaration):
        self.is_html5 = declaration == "DOCTYPE html"

    def handle_starttag(self, tag, pairs):
        attributes = dict(pairs)
        if "id" in attributes:
            self.ids.append(attributes["id"])
        self.look_for_what_is_loaded(tag, attributes)
        if re.fullmatch("h[1-6]", tag):
            if int(tag[1]) > self.level + 1:
                self.faults.append(f"{tag} after h{self.level}")
            self.level = int(tag[1])
        if self.open[-1:] == ["table"] and tag != "caption" and not self.has_caption:
            self.faults.append("a table without a caption")
        self.has_caption = tag == "caption" or (tag != "table" and getattr(self, "has_caption", False))
        if self.open[-1:] == ["svg"] and tag != "title" and not self.has_title:
            self.faults.append("a picture without a title at its start")
        self.has_title = tag in ("title", "desc") or (tag != "svg" and getattr(self, "has_title", False))
        if tag == "th" and attributes.get("scope") not in ("row", "col"):
            self.faults.append("a heading of a table without a scope")
        if tag == "svg":
            self.links += [f"#{name}" for name in attributes["aria-labelledby"].split()]
        if tag == "html" and attributes.get("lang") != "en":
            self.faults.append("no language")
        if tag not in VOID:
            self.open.append(tag)

    def look_for_what_is_loaded(self, tag, attributes):
        if tag in (
            "script",
            "link",
            "img",
            "iframe",
            "object",
            "embed",
            "base",
            "form",
            "image",
            "use",
            "video",
            "audio",
        ):
            self.faults.append(f"<{tag}>")
        for name, value in attributes.items():
            if name in ("src", "srcset", "background", "action", "data", "poster", "xlink:href") or name.startswith(
                "on"
            ):
                self.faults.append(f"{name}={value}")
            if name == "href":
                self.links.append(value)
            if name == "style":
                self.look_in_style(value)

    def look_in_style(self, style):
        self.faults += re.findall(r"url\(|@import|expression|http", style)

    def handle_startendtag(self, tag, pairs):
        self.handle_starttag(tag, pairs)
        if tag not in VOID:
            self.open.pop()

    def handle_endtag(self, tag):
        if self.open.pop() != tag:
            self.faults.append(f"</{tag}> closes another element")

    def handle_data(self, data):
        if "style" in self.open:
            self.look_in_style(data)


class ReportTest(unittest.TestCase):
    maxDiff = None

    def made(self, *words, text=b"", **options):
        """A page, which is sound."""
        status, page, said = run(*words, text=text, **options)
        self.assertEqual((status, said), (0, ""))
        sound = Sound(page)
        self.assertTrue(sound.is_html5)
        self.assertEqual(sound.faults, [])
        return page

    def assert_no_page(self, status, said, *words, text=b"", **options):
        self.assertEqual(run(*words, text=text, **options), (status, "", said))


class StoredPages(ReportTest):
    def test_stored_pages(self):
        for name, words in STORED.items():
            with self.subTest(page=name):
                page = self.made(*words)
                self.assertEqual(len(DIGEST.findall(page)), 1)
                stored = pathlib.Path(PAGES, name).read_text(encoding="utf-8")
                self.assertEqual(DIGEST.sub(r"\g<1>", page), DIGEST.sub(r"\g<1>", stored))

    def test_the_checksums(self):
        page = self.made(*STORED["export.html"])
        program = pathlib.Path(committees._program(None)).read_bytes()
        self.assertIn(f"SHA-256 of the program</th><td><code>{hashlib.sha256(program).hexdigest()}<", page)
        table = pathlib.Path(EXPORT).read_bytes()
        self.assertIn(f"SHA-256 of the table</th><td><code>{hashlib.sha256(table).hexdigest()}<", page)
        tool = module_of("table_to_cat")
        ballots, summary = tool.converted(table, tool.options_of(["--list", "Choice", "--once", "E-mail", EXPORT]))
        self.assertIn(f"SHA-256 of the ballots</th><td><code>{hashlib.sha256(ballots.encode()).hexdigest()}<", page)
        self.assertIn(summary, html.unescape(page))

    def test_the_same_ballots_make_the_same_bytes(self):
        page = self.made("--size=2", "--rule=cc", "--rule=pav", BOARD)
        for seed in ("1", "2"):
            environment = {**os.environ, "PYTHONHASHSEED": seed, "TZ": "Asia/Tokyo", "LC_ALL": "C"}
            with tempfile.TemporaryDirectory() as room:
                shutil.copy(BOARD, room)
                again = self.made("--size=2", "--rule=cc", "--rule=pav", "board.cat", cwd=room, env=environment)
            self.assertEqual(page, again)
        self.assertNotIn(HERE, page)

    def test_the_commands_print_the_same(self):
        for name, words in STORED.items():
            page = self.made(*words)
            commands = html.unescape(re.findall("<pre>(.*?)</pre>", page, re.DOTALL)[-1]).splitlines()
            self.assertGreaterEqual(len(commands), 2)
            with tempfile.TemporaryDirectory() as room:
                for file in (BOARD, PARTIES, EXPORT):
                    shutil.copy(file, room)
                os.symlink(os.path.realpath(committees._program(None)), os.path.join(room, "committees"))
                environment = {**os.environ, "PATH": f"{room}:{HERE}:{os.environ['PATH']}"}
                for command in commands:
                    done = subprocess.run(
                        command, shell=True, cwd=room, env=environment, capture_output=True, text=True
                    )
                    is_check = command.startswith("committees check")
                    self.assertIn(done.returncode, (0, 1) if is_check else (0,), command + done.stderr)
                    if is_check:
                        self.assertEqual(done.stdout == "holds\n", done.returncode == 0)
            self.assertEqual(done.stdout, page)


class Pages(ReportTest):
    HARD = ["<script>alert(1)</script>", "Smith & Sons", "a\"b'c", "\u05d0\u05d1\u05d2", "x" * 60, "", "Ada", "Ada"]

    def test_names_are_escaped(self):
        ballots = ["3: {1,2}", "2: {3,4,5}", "1: {6,7}", "1: {8}", "1: {}"]
        page = self.made("--size=2", "--rule=pav", "--rule=av", text=cat([*self.HARD, "\u202eevil\x07\x85!"], *ballots))
        self.assertNotIn("<script", page)
        self.assertIn("<bdi>&lt;script&gt;alert(1)&lt;/script&gt;</bdi>", page)
        self.assertIn("<bdi>Smith &amp; Sons</bdi>", page)
        self.assertIn("<bdi>\ufffdevil\ufffd\ufffd!</bdi>", page)
        self.assertIn("candidate 6", page)
        self.assertIn("<bdi>Ada</bdi> (7)", page)
        # In a picture, and only there, letters from right to left are kept apart by signs.
        self.assertIn("\u2068\u05d0\u05d1\u05d2\u2069</text>", page)

    def test_titles(self):
        self.assertIn("<title>Board of the club</title>", self.made("--size=1", BOARD))
        page = self.made("--size=1", '--title=<b>Board</b> & "more"', "--date=</p><script>", BOARD)
        self.assertIn("<h1>&lt;b&gt;Board&lt;/b&gt; &amp; &quot;more&quot;</h1>", page)
        self.assertIn('<p class="date">&lt;/p&gt;&lt;script&gt;</p>', page)
        page = self.made("--size=1", "--title= ", text=cat(["A"], "1: 1"))
        self.assertIn("<title>Election of a committee</title>", page)
        self.assertIn("<td>ballots.cat (from standard input)</td>", page)
        self.assertIn("<title>Seats for parties</title>", self.made("--method=adams", "--seats=2", "--votes=1,2"))

    def test_rules(self):
        page = self.made("--size=2", BOARD)
        self.assertIn("Approval voting (av).", page)
        page = self.made("--size=2", "--rule=MinimaxAV", "--rule=minimax", BOARD)
        self.assertIn("Minimax approval voting (minimax).", page)
        self.assertEqual(page.count("The maximum distance of a voter"), 1)
        tool = module_of("report_election")
        for word, found in (("rule", tool.RULES), ("property", tool.PROPERTIES), ("method", tool.METHODS)):
            self.assertEqual((*found,), committees.OWN_NAMES[word])
        words = [word for rule in committees.OWN_NAMES["rule"] for word in ("--rule", rule)]
        page = self.made("--size=3", *words, BOARD)
        self.assertEqual(page.count("<h3>By "), 11)

    def test_the_limit_of_ties(self):
        text = cat([f"C{number}" for number in range(1, 41)], "5: {}")
        page = self.made("--size=3", text=text)  # 9,880 committees
        self.assertIn("<strong>9,880 committees tie.</strong> Each of them has the score 0.", page)
        self.assertIn("<caption>In how many of the 9,880 committees each candidate sits</caption>", page)
        page = self.made("--size=3", "--limit=9880", text=text)
        self.assertIn("<strong>9,880 committees tie.</strong>", page)
        page = self.made("--size=3", "--limit=9879", text=text)
        self.assertIn("<strong>More than 9,879 committees tie.</strong>", page)
        self.assertNotIn("In how many of the", page)
        self.assertIn("<caption>The first 20 of more than 9,879 committees that tie</caption>", page)
        self.assertIn("committees elect --rule av --size 3 --limit 9879 --names ballots.cat", page)
        page = self.made("--size=10", text=text)
        self.assertIn("<strong>More than 10,000 committees tie.</strong>", page)
        page = self.made("--size=1", "--rule=av", "--rule=cc", "--limit=39", text=text)
        self.assertIn('<th scope="row">Committees</th><td class="rule">more than 39</td>', page)
        self.assertIn('<td class="rule">not counted</td>', page)

    def test_a_committee_of_those_that_tie(self):
        page = self.made("--rule=cc", "--size=2", "--committee=5,3", BOARD)
        self.assertIn("<h3><bdi>Cleo</bdi> and <bdi>Eve</bdi></h3>", page)
        self.assertEqual(page.count("How many members of the committee"), 1)
        self.assertIn("6 committees tie; this is the one asked for.", page)
        self.assertIn("--committee 3,5 board.cat", page)
        for committee in ("1,2", "1", "1,1", "0,1", "1,9", "1,4,5"):
            shown = ",".join(sorted(committee.split(",")))
            said = f"report_election: {shown} is not a winning committee of 2\n"
            self.assert_no_page(1, said, "--rule=cc", "--size=2", f"--committee={committee}", BOARD)
        # It wins by one of the rules, and is not among the first twenty.
        text = cat([""] * 12, "1: {}")
        page = self.made("--rule=av", "--rule=seqcc", "--size=2", "--committee=11,12", text=text)
        self.assertIn("The committee wins by av and seqcc.", page)
        page = self.made("--rule=av", "--limit=3", "--size=2", "--committee=11,12", text=text)
        self.assertIn("The committee wins by av.", page)
        page = self.made("--rule=cc", "--rule=av", "--size=2", "--committee=1,2", BOARD)
        self.assertIn("The committee wins by av.", page)

    def test_how_ballots_were_read(self):
        def way(file, *words):
            page = self.made("--size=1", *words, os.path.join(EXAMPLES, file))
            return re.search("Ballots</th><td>(.*?)</td>", page)[1]

        self.assertTrue(way("board.cat").endswith("Those in category 1 (Yes) are approved."))
        self.assertTrue(way("board.cat", "--category=2").endswith("Those in category 2 (No) are approved."))
        self.assertTrue(way("songs.soi").endswith("may leave some out. The first class is approved."))
        self.assertTrue(way("songs.soi", "--classes=1").endswith("The top class is approved."))
        self.assertTrue(way("walks.soc", "--classes=2").endswith("The top 2 classes are approved."))
        reach = "The top classes are approved, as many as it takes to reach 2 candidates. A tied class is never cut."
        self.assertTrue(way("books.toi", "--setsize=2").endswith(reach))
        self.assertTrue(way("dishes.toc").startswith("Each voter ranks all candidates, and some may be tied."))
        page = self.made("--size=1", "--setsize=2", os.path.join(EXAMPLES, "songs.soi"))
        self.assertIn("committees elect --rule av --size 1 --names --setsize 2 songs.soi\n", page)
        with tempfile.TemporaryDirectory() as room:
            shutil.copy(BOARD, os.path.join(room, "-my board.cat"))
            page = self.made("--size=1", "--", "-my board.cat", cwd=room)
        self.assertIn("committees elect --rule av --size 1 --names -- '-my board.cat'\n", page)


class Tables(ReportTest):
    def test_one_command_from_an_export(self):
        page = self.made("--table", "--list=Choice", "--size=2", text=FIVE.encode())
        self.assertIn("table_to_cat --list Choice table.csv &gt;table.cat\n", page)
        self.assertIn("report_election --rule av --size 2 --table --list Choice table.csv\n", page)
        self.assertIn("<pre>table_to_cat: 5 voters, 4 candidates\n", page)
        with tempfile.TemporaryDirectory() as room:
            path = os.path.join(room, "votes of May.csv")
            pathlib.Path(path).write_text("Time,Ada,Ben\n1,x,\n2,x,-\n")
            words = ["--table", "--skip=1", "--yes=x", "--no=-", "--once=Time", "--size=1", path]
            page = self.made(*words)
            converted = "table_to_cat --yes x --no=- --skip 1 --once Time 'votes of May.csv' &gt;'votes of May.cat'\n"
            self.assertIn(converted, page)
            page = self.made("--table", "--skip=1", "--yes=x", "--no=-", "--title=-1-", "--size=1", path)
            self.assertIn("report_election --rule av --size 1 --title=-1- --table --yes x --no=- --skip 1 ", page)
            names = os.path.join(room, "names.txt")
            pathlib.Path(names).write_text("Ada\nBen\nCleo\nDan\nZoe\n")
            page = self.made("--table", "--list=1", "--candidates", names, "--size=1", text=FIVE.encode())
        self.assertIn("SHA-256 of the names", page)
        self.assertIn("--candidates names.txt", page)

    def test_five_exports(self):
        """The same five voters as makers of forms write them: Dan and one of Ada and Ben are a committee by `cc`."""
        google = 'Timestamp,Which?\n1,"Ada, Ben"\n2,"Ada, Ben, Cleo"\n3,Dan\n4,Dan\n5,"Dan, Cleo"\n'
        microsoft = "ID,Name,Which?\xa0\n1,,Ada;Ben;\n2,,Ada;Ben;Cleo;\n3,,Dan;\n4,,Dan;\n5,,Dan;Cleo;\n"
        names = ("Ada", "Ben", "Cleo", "Dan")
        ticked = ("1100", "1110", "0001", "0001", "0011")
        lime = ",".join(["id", *(f"Which? [{name}]" for name in names)])
        lime += "".join(
            f"\n{at},{','.join('No Yes'.split()[int(bit)] for bit in row)}" for at, row in enumerate(ticked)
        )
        codes = '"{""ImportId"":""date""}","{""ImportId"":""Q1""}"'
        qualtrics = google.replace("Timestamp,Which?", f"StartDate,Q1\nStart Date,Which?\n{codes}")
        poll = "\n".join([",".join(["", *names]), *(f"Voter {row},{row.replace('', ',')[1:-1]}" for row in ticked)])
        for table, words in [
            (google, ["--list=2"]),
            (microsoft, ["--list=3"]),
            (lime, ["--skip=1", "--yes=Yes"]),
            (qualtrics, ["--list=Q1", "--header-rows=3"]),
            (poll, ["--columns=2-5", "--yes=1"]),
        ]:
            page = self.made("--table", *words, "--rule=cc", "--size=2", text=table.encode())
            self.assertIn("<strong>2 committees tie.</strong> Each of them has the score 5.", page)
            for winner in ("Ada", "Ben"):
                self.assertIn(f"<bdi>{winner}</bdi> and <bdi>Dan</bdi></td>", page)

    def test_seats_from_a_table(self):
        page = self.made("--table", "--list=1", "--method=dhondt", "--seats=3", text=b"Party\nGreens\nBlues\nGreens\n")
        self.assertIn("committees share --method dhondt --seats 3 --names table.cat\n", page)

    def test_refusals(self):
        table = b'Choice\nAda\n"Ada;Ben,Cleo"\n'
        status, page, said = run("--table", "--list=1", "--size=1", text=table)
        self.assertEqual((status, page, said.count("\n")), (1, "", 1))
        self.assertIn("report_election: standard input: the column of names has `,` and `;`", said)
        for words, why in [
            (["--table", "--list=1", "--columns=1", "--size=1"], "--columns, --skip, --yes and --no are for columns"),
            (["--table", "--kind=cat", "--size=1"], "--kind is for a ballot file"),
            (["--list=1", "--size=1"], "--list is for a table: add --table"),
            (["--blank-votes", "--size=1"], "--blank-votes is for a table: add --table"),
            (["--table", "--skip=x", "--size=1"], "is not a whole number"),
        ]:
            status, page, said = run(*words, text=table)
            self.assertEqual((status, page, said.count("\n")), (2, "", 1), said)
            self.assertIn(why, said)


class Seats(ReportTest):
    def test_ties(self):
        page = self.made("--method=adams", "--seats=2", "--votes=5,3,3")
        self.assertIn("<strong>2 allocations tie.</strong>", page)
        self.assertIn("Party 2: 0 and Party 3: 1", page)
        self.assertIn("committees share --method adams --seats 2 --votes 5,3,3\n", page)
        self.assertIn("report_election --method adams --seats 2 --votes 5,3,3\n", page)

    def test_the_limit_of_ties(self):
        votes = ",".join(["1"] * 30)
        page = self.made("--method=dhondt", "--seats=15", "--limit=50", f"--votes={votes}")
        self.assertIn("<strong>More than 50 allocations tie.</strong>", page)
        self.assertIn("Seats in the first allocation", page)
        self.assertIn("The first 20 of the allocations that tie", page)

    def test_words_that_do_not_fit(self):
        for words, why in [
            ([], "--size is required"),
            (["--seats=2"], "--method is required, as seats are shared out"),
            (["--method=adams"], "--seats is required, as seats are shared out"),
            (["--method=adams", "--seats=2", "--size=1"], "--size is for an election, and --method shares out seats"),
            (["--votes=1", "--rule=av", "--method=adams", "--seats=2"], "--rule is for an election"),
            (["--method=adams", "--seats=2", "--votes=1,2", BOARD], "--votes is in the place of a file"),
            (["--method=adams", "--seats=2", "--votes=1,,2"], "is not a list of numbers such as 1,4,6"),
            (["--method=adams", "--seats=2", "--votes=1,2", "--kind=cat"], "--kind is for a ballot file"),
            (["--size=x"], "invalid int value"),
            (["--timeout=nan", "--size=1"], "is not a number of seconds from 0 to 1,000,000"),
            (["--colour=red", "--size=1"], "unrecognized arguments: --colour=red"),
        ]:
            status, page, said = run(*words)
            self.assertEqual((status, page, said.count("\n")), (2, "", 1), said)
            self.assertTrue(said.startswith("report_election: ") and why in said, said)


class BadInput(ReportTest):
    def test_the_lines_of_the_program(self):
        many = b"# DATA TYPE: cat\n# NUMBER ALTERNATIVES: 65\n1: 1\n"
        for words, text, status, line in [
            (["--size=1"], many, 3, "committees: input line 2: TooManyCandidates\n"),
            (
                ["--size=1"],
                b"# DATA TYPE: cat\n# NUMBER ALTERNATIVES: 2\n1: 3\n",
                3,
                "committees: input line 3: NoSuchCandidate\n",
            ),
            (["--size=1"], b"", 3, "committees: input: NoAlternatives\n"),
            (["--size=7", BOARD], b"", 4, "committees: request: SizeTooLarge\n"),
            (["--method=adams", "--seats=2", BOARD], b"", 4, "committees: request: ManyApproved\n"),
            (["--method=adams", "--seats=2", "--votes=0,0"], b"", 4, "committees: request: NoVotes\n"),
        ]:
            self.assert_no_page(status, line, *words, text=text)

    def test_the_words_of_the_parser(self):
        for words, option in [
            (["--size=41", BOARD], "--size <SIZE>"),
            (["--size=2", "--rule=quota", BOARD], "--rule <RULE>"),
            (["--size=2", "--limit=0", BOARD], "--limit <N>"),
            (["--method=quota", "--seats=2", PARTIES], "--method <METHOD>"),
        ]:
            status, page, said = run(*words)
            self.assertEqual((status, page), (2, ""))
            self.assertTrue(said.startswith("error: invalid value ") and option in said, said)

    def test_files_that_are_not_there(self):
        self.assert_no_page(6, "report_election: no-such.cat: No such file or directory\n", "--size=1", "no-such.cat")
        self.assert_no_page(6, f"report_election: {EXAMPLES}: Is a directory\n", "--size=1", EXAMPLES)
        said = "report_election: /no/program could not be started: No such file or directory\n"
        self.assert_no_page(1, said, "--size=1", "--program=/no/program", BOARD)

    def test_a_search_that_does_not_end(self):
        with program_that("echo $$ >$0.pid; exec sleep 60") as program:
            start = time.monotonic()
            said = "report_election: the program had not ended after 0.5 seconds, so there is no page\n"
            self.assert_no_page(1, said, "--size=1", "--timeout=0.5", "--program", program, BOARD)
            self.assertLess(time.monotonic() - start, 20)
            self.assertFalse(os.path.exists(f"/proc/{pid_of(program)}"))

    def test_answers_that_are_not_those_of_the_ballots(self):
        text = cat(["A", "B"], "1: {1}")
        # The second run has another score.
        script = "printf 'rule av\\nsize 1\\nscore %s/1\\n1\\nend\\n' $(echo >>$0.runs; wc -l <$0.runs)"
        said = "report_election: the ballots were not read as the program reads them; this is a fault of the tool\n"
        with program_that(script) as program:
            self.assert_no_page(1, said, "--size=1", "--program", program, text=text)
        # A program that shares out seats unfairly.
        with program_that("printf 'method dhondt\\nseats 2\\n0,2\\nend\\n'") as program:
            self.assert_no_page(1, said, "--method=dhondt", "--seats=2", "--votes=9,1", "--program", program)

    def test_output_that_is_cut_off(self):
        with program_that("printf 'rule av\\nsize 1\\nscore 1/1\\n1\\n'") as program:
            said = "report_election: the output ended before its last line\n"
            self.assert_no_page(1, said, "--size=1", "--program", program, BOARD)

    def test_output_that_is_full_or_closed(self):
        words = [*TOOL, "--size=1", BOARD]
        with open("/dev/full", "wb") as full:
            done = subprocess.run(words, stdout=full, stderr=subprocess.PIPE)
        self.assertEqual(
            (done.returncode, done.stderr), (6, b"report_election: standard output: No space left on device\n")
        )
        done = subprocess.run(["sh", "-c", '"$@" >&-', "sh", *words], capture_output=True)
        self.assertEqual(
            (done.returncode, done.stderr), (6, b"report_election: standard output: Bad file descriptor\n")
        )
        # Without standard error, nothing of a refusal goes to standard output.
        for refused in (["--size=7", BOARD], ["--size=1", "no-such.cat"]):
            done = subprocess.run(["sh", "-c", '"$@" 2>&-', "sh", *TOOL, *refused], stdout=subprocess.PIPE)
            self.assertEqual((done.returncode > 0, done.stdout), (True, b""))
        process = subprocess.Popen(words, stdout=subprocess.PIPE, stderr=subprocess.PIPE)
        process.stdout.close()
        self.assertEqual(process.stderr.read(), b"report_election: standard output: Broken pipe\n")
        process.stderr.close()
        self.assertEqual(process.wait(), 6)

    def test_an_interrupt(self):
        for sign in (signal.SIGINT, signal.SIGTERM):
            with program_that("echo $$ >$0.pid; exec sleep 60") as program:
                process = subprocess.Popen([*TOOL, BOARD, "--size=1", "--program", program], stderr=subprocess.PIPE)
                pid = pid_of(program)
                process.send_signal(sign)
                self.assertEqual((process.communicate(timeout=20)[1], process.returncode), (b"", 128 + sign))
                self.assertFalse(os.path.exists(f"/proc/{pid}"))

    def test_help(self):
        status, out, said = run("--help")
        self.assertEqual((status, said), (0, ""))
        self.assertLessEqual(max(map(len, out.splitlines())), 79)


class Validity(ReportTest):
    """HTML as other programs see it: those that are not there are left out, with a word."""

    def pages(self):
        yield from (self.made(*words) for words in STORED.values())
        ballots = ["3: {1,2}", "2: {3,4,5}", "1: {6,7}", "1: {8}"]
        yield self.made("--size=2", "--rule=pav", "--rule=av", text=cat(Pages.HARD, *ballots))
        yield self.made(
            "--size=40", text=cat([f"\u05d0 & {number} <b>" for number in range(64)], "2: {1,64}", "1: {2}")
        )

    def test_chromium(self):
        chromium = next(filter(None, map(shutil.which, ("chromium", "chromium-browser", "google-chrome"))), None)
        if not chromium:
            self.skipTest("there is no Chromium here")
        names = ["x" * 60, *(f"Candidate {number} of a party with a long name" for number in range(2, 65))]
        page = self.made("--size=40", "--rule=av", "--rule=seqcc", text=cat(names, "5: {1,2,64}", "3: {3}", "1: {}"))
        with tempfile.TemporaryDirectory() as room:
            start = [chromium, "--headless", "--no-sandbox", "--disable-gpu", f"--user-data-dir={room}/user"]
            # A frame, since a window has at least 500 pixels. A script compares the page with it.
            script = (
                "const frame = document.querySelector('iframe');"
                "frame.onload = () => { const page = frame.contentDocument.documentElement;"
                "document.title = `${page.scrollWidth - page.clientWidth} too wide` }"
            )
            pathlib.Path(room, "page.html").write_text(page, encoding="utf-8")
            framed = html.escape(page)

            def browse(file, *words):
                done = subprocess.run([*start, *words, file], cwd=room, capture_output=True, timeout=300)
                self.assertEqual(done.returncode, 0, done.stderr)
                return done.stdout.decode()

            browse("page.html", "--print-to-pdf=page.pdf", "--no-pdf-header-footer")
            printed = pathlib.Path(room, "page.pdf").read_bytes()
            self.assertTrue(printed.startswith(b"%PDF"))
            boxes = {tuple(map(float, box.split())) for box in re.findall(rb"/MediaBox \[([^]]*)\]", printed)}
            self.assertEqual([(round(width), round(height)) for _, _, width, height in boxes], [(595, 842)])
            for width in (400, 1200):
                browse("page.html", f"--window-size={width},3000", f"--screenshot={width}.png", "--hide-scrollbars")
                picture = pathlib.Path(room, f"{width}.png").read_bytes()
                self.assertEqual(picture[:8], b"\x89PNG\r\n\x1a\n")
                self.assertEqual(int.from_bytes(picture[16:20], "big"), width)
                frame = f'<iframe width="{width}" height="3000" style="border: 0" srcdoc="{framed}"></iframe>'
                wide = f"<title>?</title>{frame}<script>{script}</script>"
                pathlib.Path(room, "wide.html").write_text(wide, encoding="utf-8")
                shown = browse("wide.html", "--window-size=1300,3000", "--dump-dom")
                # Tables and pictures that are wider are moved sideways, and the page is not.
                self.assertEqual(re.findall("<title>(.*?)</title>", shown)[0], "0 too wide")

    def test_html5lib(self):
        python = python_with("html5lib")
        if not python:
            self.skipTest("no Python here has html5lib (python3-html5lib in Debian)")
        script = "import html5lib, sys; html5lib.HTMLParser(strict=True).parse(sys.stdin.buffer.read().decode())"
        for page in self.pages():
            done = subprocess.run([python, "-c", script], input=page.encode(), capture_output=True)
            self.assertEqual((done.returncode, done.stderr.decode()), (0, ""))


def store():
    """Makes the stored pages again."""
    for name, words in STORED.items():
        status, page, said = run(*words)
        assert status == 0, said
        pathlib.Path(PAGES, name).write_text(page, encoding="utf-8")


if __name__ == "__main__":
    if sys.argv[1:] == ["store"]:
        store()
    else:
        unittest.main()
