"""Tests of `python3 -m committees`, which prints what the program answers as one JSON object."""
import json
import os
import pathlib
import shutil
import signal
import subprocess
import sys
import tempfile
import threading
import unittest

HERE = os.path.dirname(os.path.realpath(__file__))
sys.path.insert(0, HERE)
import committees  # noqa: E402
from test_answers import BOARD, pid_of, program_that  # noqa: E402

PARTIES = os.path.join(os.path.dirname(BOARD), "parties.cat")
SONGS = os.path.join(os.path.dirname(BOARD), "songs.soi")
PROGRAM = os.path.realpath(committees._program(None))
COMMAND = [sys.executable, "-m", "committees"]


def run(*words, text=b"", module=HERE, **options):
    """The status, what is printed on standard output, and what is printed on standard error."""
    environment = {**os.environ, "PYTHONPATH": module, "PYTHONDONTWRITEBYTECODE": "1"}
    done = subprocess.run([*COMMAND, *words], input=text, capture_output=True, cwd="/", env=environment, **options)
    return done.returncode, done.stdout.decode(), done.stderr.decode()


class Objects(unittest.TestCase):
    def assert_printed(self, words, expected, status=0, text=b""):
        self.assertEqual(run(*words.split(), text=text), (status, f"{expected}\n", ""))

    def test_elections(self):
        pav = '{"rule":"pav","size":3,"score":"77/6","committees":[[1,2,3]],"more":false}'
        self.assert_printed(f"elect --rule pav --size 3 {BOARD}", pav)
        self.assert_printed("elect --rule pav --size 3", pav, text=pathlib.Path(BOARD).read_bytes())
        self.assert_printed(f"elect --size=+03 {BOARD} --rule=pav", pav)
        page = '{"rule":"cc","size":2,"score":"9/1","committees":[[1,5],[2,4]],"more":true}'
        self.assert_printed(f"elect --rule cc --size 2 --after 1,4 --limit 2 -- {BOARD}", page)
        none = '{"rule":"cc","size":2,"score":"9/1","committees":[],"more":false}'
        self.assert_printed(f"elect --rule cc --size 2 --after 3,5 {BOARD}", none)
        minimax = '{"rule":"minimax","size":1,"distance":3,"committees":[[2]],"more":true}'
        self.assert_printed(f"elect --rule minimax --size 1 --after 1 --limit 1 {BOARD}", minimax)
        sequential = '{"rule":"seqpav","size":3,"committees":[[1,2,3]],"more":false}'
        self.assert_printed(f"elect --rule seqpav --size 3 {BOARD}", sequential)
        self.assert_printed(
            f"elect --rule av --size 2 --setsize 2 {SONGS}",
            '{"rule":"av","size":2,"score":"11/1","committees":[[2,5]],"more":false}',
        )

    def test_names(self):
        pav = '{"rule":"pav","size":3,"score":"77/6","committees":[["Ada","Ben","Cleo"]],"more":false}'
        self.assert_printed(f"elect --rule pav --size 3 --names {BOARD}", pav)
        self.assert_printed(f"elect --names --rule pav --size 3 -- {BOARD}", pav)
        self.assert_printed("elect --rule pav --size 3 --names", pav, text=pathlib.Path(BOARD).read_bytes())
        text = b'# DATA TYPE: cat\n# NUMBER ALTERNATIVES: 4\n# ALTERNATIVE NAME 1: A; B\tC "d" \\\n'
        text += b"# ALTERNATIVE NAME 2: \xff\n# ALTERNATIVE NAME 4: \xc3\x96d\xc3\xb6n\n1: {1,2,3,4}\n"
        status, printed, said = run("elect", "--rule=av", "--size=4", "--names", text=text)
        self.assertEqual((status, said), (0, ""))
        self.assertIn("Ödön", printed)
        self.assertEqual(json.loads(printed)["committees"], [['A; B\tC "d" \\', "\ufffd", "3", "Ödön"]])

    def test_names_from_a_pipe(self):
        with tempfile.TemporaryDirectory() as room:
            path = os.path.join(room, "votes.soi")
            os.mkfifo(path)
            text = b"# NUMBER ALTERNATIVES: 2\n# ALTERNATIVE NAME 2: Ben\n2: 2,1\n"
            for words in (["--rule=av", "--names", path], ["--names", "--rule", "av", "--kind", "soc", path]):
                threading.Thread(target=pathlib.Path(path).write_bytes, args=[text], daemon=True).start()
                printed = '{"rule":"av","size":1,"score":"2/1","committees":[["Ben"]],"more":false}\n'
                self.assertEqual(run("elect", "--size", "1", *words), (0, printed, ""))

    def test_checks(self):
        pjr = '{"property":"pjr","holds":false,"level":2,"candidates":[1,2],"within":[1],"group":7,"voters":10,'
        self.assert_printed(
            f"check --property pjr --committee 1,4,6 {BOARD}", pjr + '"rows":[{"ballot":[1,2,3],"voters":7}]}', 1
        )
        names = '{"property":"ejr","holds":false,"level":2,"candidates":["Ada","Ben"],"group":7,"voters":10,'
        names += '"rows":[{"ballot":["Ada","Ben","Cleo"],"voters":7}]}'
        self.assert_printed(f"check --property=ejr --names --committee 1,4,6 {BOARD}", names, 1)
        self.assert_printed(f"check --property jr --committee 1,4,6 {BOARD}", '{"property":"jr","holds":true}')
        within = run(
            "check", "--property=pjr", "--committee=2", text=b"# NUMBER ALTERNATIVES: 2\n# DATA TYPE: cat\n1: 1\n"
        )
        self.assertIn('"within":[],', within[1])

    def test_shares(self):
        adams = '{"method":"adams","seats":2,"allocations":[[1,0,1],[1,1,0]],"more":false}'
        self.assert_printed("share --method adams --seats 2 --votes 5,3,3", adams)
        dhondt = (
            '{"method":"dhondt","seats":3,"parties":["Greens","Blues","Greys"],"allocations":[[2,1,0]],"more":false}'
        )
        self.assert_printed(f"share --method dhondt --seats 3 --names {PARTIES}", dhondt)
        numbers = '{"method":"adams","seats":2,"parties":["1","2"],"allocations":[[1,1]],"more":false}'
        self.assert_printed("share --method adams --seats 2 --names --votes 5,3", numbers)
        # Votes on the command line: no input is read.
        words = [*COMMAND, "share", "--method=adams", "--seats=2", "--names", "--votes=5,3"]
        process = subprocess.Popen(words, stdin=subprocess.PIPE, stdout=subprocess.PIPE, cwd=HERE)
        self.assertEqual(process.wait(20), 0)
        self.assertEqual(process.communicate()[0].decode(), f"{numbers}\n")
        none = '{"method":"adams","seats":2,"parties":[],"allocations":[],"more":false}'
        self.assert_printed("share --method adams --seats 2 --names --votes=5,3 --after 2,0", none)


class Refusals(unittest.TestCase):
    def test_each_refusal_is_that_of_the_program(self):
        for words in (
            "elect --rule borda --size 2",
            "elect --size 2",
            "elect --rule",
            "elect --names --names --rule av --size 1",
            "elect --rule av --size 1 a.cat b.cat",
            "elect --rule av --size 1 --setsize 1 --classes 1",
            "check --property pjr --committee 1,,2 --names",
            "share --method adams --seats 2 --votes 5,3 votes.cat",
            "elect --rule av --size 1",
            "elect --rule av --size 1 --kind cat --names",
            "elect --rule av --size 1 no-such-file.cat",
            "elect --rule av --size 1 --names no-such-file.cat",
            f"elect --rule av --size 1 {HERE}",
            f"elect --rule av --size 9 {BOARD}",
            f"check --property jr --committee 4,1 {BOARD}",
            "share --method adams --seats 2 --votes 0",
        ):
            own = subprocess.run([PROGRAM, *words.split()], input=b"", capture_output=True, cwd="/")
            self.assertIn(own.returncode, (2, 3, 4, 6), words)
            self.assertEqual(run(*words.split()), (own.returncode, "", own.stderr.decode()), words)

    def test_help_is_that_of_the_program(self):
        for words in (["--help"], ["elect", "--help"], ["check", "-h"], ["help", "share"]):
            own = subprocess.run([PROGRAM, *words], capture_output=True)
            self.assertEqual(run(*words), (0, own.stdout.decode(), ""))
        for words in ([], ["count"]):
            own = subprocess.run([PROGRAM, *words], capture_output=True)
            self.assertEqual(run(*words), (2, own.stdout.decode(), own.stderr.decode()))

    def test_input_that_cannot_be_read(self):
        environment = {**os.environ, "PYTHONPATH": HERE}
        for names in ([], ["--names"]):
            words = [*COMMAND, "elect", "--rule=av", "--size=1", *names]
            with open("/proc/self/mem", "rb") as unreadable:
                done = subprocess.run(words, stdin=unreadable, capture_output=True, env=environment)
            self.assertEqual((done.returncode, done.stdout, done.stderr), (6, b"", b"committees: read failed\n"))

    def test_output_that_is_not_taken(self):
        environment = {**os.environ, "PYTHONPATH": HERE}
        with open("/dev/full", "wb") as full:
            words = [*COMMAND, "elect", "--rule=av", "--size=1", BOARD]
            done = subprocess.run(words, stdout=full, stderr=subprocess.PIPE, env=environment)
        self.assertEqual((done.returncode, done.stderr), (6, b"committees: write failed\n"))


class Programs(unittest.TestCase):
    """Runs of a copy of the module, which finds another program on the PATH."""

    def setUp(self):
        room = tempfile.TemporaryDirectory()
        self.addCleanup(room.cleanup)
        self.module = os.path.join(room.name, "module")
        os.mkdir(self.module)
        shutil.copy(os.path.join(HERE, "committees.py"), self.module)

    @staticmethod
    def environment(module, folder):
        return {**os.environ, "PYTHONPATH": module, "PATH": f"{folder}:/usr/bin:/bin"}

    def ran(self, script, *words):
        with program_that(script) as program:
            folder = os.path.dirname(program)
            os.rename(program, os.path.join(folder, "committees"))
            environment = self.environment(self.module, folder)
            done = subprocess.run([*COMMAND, *words], capture_output=True, cwd="/", env=environment, input=b"")
            os.rename(os.path.join(folder, "committees"), program)
        return done.returncode, done.stdout.decode(), done.stderr.decode()

    def test_nothing_is_printed_of_an_output_that_is_cut_off(self):
        header = "rule av\\nsize 1\\nscore 7/1\\n1\\n"
        words = ["elect", "--rule=av", "--size=1"]
        self.assertEqual(
            self.ran(f"printf '{header}end\\n'", *words),
            (0, '{"rule":"av","size":1,"score":"7/1","committees":[[1]],"more":false}\n', ""),
        )
        cut = "the output ended before its last line\n"
        self.assertEqual(self.ran(f"printf '{header}'", *words), (125, "", cut))
        self.assertEqual(self.ran(f"printf '{header}'; kill -9 $$", *words), (137, "", cut))
        write = f"printf '{header}'; echo 'committees: write failed' >&2; exit 6"
        self.assertEqual(self.ran(write, *words), (6, "", "committees: write failed\n"))
        self.assertEqual(self.ran("echo 'committees: memory' >&2; exit 5", *words), (5, "", "committees: memory\n"))

    def test_no_program(self):
        status, printed, said = run("elect", "--rule=av", "--size=1", module=self.module)
        if shutil.which("committees", path=os.environ["PATH"]):
            self.skipTest("the program is installed on this machine")
        self.assertEqual((status, printed), (125, ""))
        self.assertEqual(
            said, "there is no program `committees` here or on the PATH; the variable COMMITTEES may name one\n"
        )

    def test_an_interrupt_ends_the_program(self):
        with program_that("echo $$ >$0.pid; exec sleep 60") as path:
            folder = os.path.dirname(path)
            program = os.path.join(folder, "committees")
            os.rename(path, program)
            words = [*COMMAND, "elect", "--rule=av", "--size=1"]
            options = {"cwd": "/", "stdin": subprocess.DEVNULL}
            process = subprocess.Popen(words, env=self.environment(self.module, folder), **options)
            pid = pid_of(program)
            process.send_signal(signal.SIGINT)
            self.assertEqual(process.wait(20), 130)
            self.assertFalse(os.path.exists(f"/proc/{pid}"))


if __name__ == "__main__":
    unittest.main()
