"""Runs of the program in folders of their own, for tests of it, and what it says of files that it refuses."""
import os
import subprocess
import sys
import tempfile
import threading
import unittest

TOP = os.path.dirname(os.path.dirname(os.path.abspath(__file__)))
BUILT = os.path.join(TOP, "crates", "rstore", "out", "rstore")
NOT_A_STORE = "rstore: fail 21 NotAStore\n"
UNCLOSED = (
    "rstore: fail 20 NotClosed: the run that made FILE was cut short before it closed anything: put back "
    "FILE-journal if there was one, else remove FILE and make it anew\n"
)
NO_JOURNAL = (
    "FILE-journal is missing, or is no journal: put back the FILE-journal of the run that was cut short "
    '(docs/COMMANDS.md, "A journal that is lost", has the last resort)'
)

FIRST = """# first run
create a 2 4
insert a 1 0 0 10 10
insert a 2 20 20 30 30
window a 5 5 25 25
window a 11 11 19 19
"""


class Runs(unittest.TestCase):
    """Runs of a program in a folder of their own."""

    program = BUILT
    within = None  # where the folder is made, if it matters

    def setUp(self):
        folder = tempfile.TemporaryDirectory(dir=self.within)
        self.addCleanup(folder.cleanup)
        self.folder = folder.name

    def path(self, name):
        return os.path.join(self.folder, name)

    def write(self, name, data):
        with open(self.path(name), "wb") as file:
            file.write(data)

    def files(self):
        """The bytes of each file of the folder."""
        found = {}
        for name in os.listdir(self.folder):
            if os.path.isfile(self.path(name)):
                with open(self.path(name), "rb") as file:
                    found[name] = file.read()
        return found

    def run_on(self, stdin, words, **ways):
        """A run with these words, as a list or in one text with blanks between them."""
        words = words.split() if isinstance(words, str) else words
        ways = {"stdout": subprocess.PIPE, "stderr": subprocess.PIPE, "timeout": 300, **ways}
        return subprocess.run([self.program, *words], stdin=stdin, cwd=self.folder, **ways)

    def result(self, words, given, **ways):
        """The status of a run, its replies, what it said, and how many bytes it read of what it was given."""
        with tempfile.TemporaryFile() as text:
            text.write(given if isinstance(given, bytes) else given.encode())
            text.seek(0)
            run = self.run_on(text, words, **ways)
            read = os.lseek(text.fileno(), 0, os.SEEK_CUR)
        return run.returncode, (run.stdout or b"").decode(), (run.stderr or b"").decode(), read

    def ends(self, status, words, given, replies, said, **ways):
        """A run ends with this status, and has written just these replies and said just this."""
        with self.subTest(words=words, given=given[:200]):
            self.assertEqual(self.result(words, given, **ways)[:3], (status, replies, said))

    def answers(self, words, given, replies=""):
        """A run goes well, and says nothing."""
        self.ends(0, words, given, replies, "")

    def refuses(self, status, words, said, **ways):
        """A run reads nothing, answers nothing and says just this, and the files are as they were."""
        before = self.files()
        with self.subTest(words=words):
            self.assertEqual(self.result(words, FIRST, **ways), (status, "", said, 0))
            self.assertTrue(self.files() == before, "a file was changed, made or removed")

    def unopens(self, words, why, **ways):
        """The same of a run whose file, the last of the words, can't be opened."""
        self.refuses(1, words, f"rstore: {why} (FILE is {words.split()[-1]})\n", **ways)

    def held(self, words, given, replies):
        """A run that has given these replies to that, and waits for more."""
        pipes = {"stdin": subprocess.PIPE, "stdout": subprocess.PIPE, "stderr": subprocess.DEVNULL}
        run = subprocess.Popen([self.program, *words.split()], cwd=self.folder, **pipes)
        self.addCleanup(run.wait)
        self.addCleanup(run.stdout.close)
        self.addCleanup(run.stdin.close)
        self.addCleanup(run.kill)
        limit = threading.Timer(60, run.kill)  # of a run that gives fewer
        limit.start()
        run.stdin.write(given.encode())
        run.stdin.flush()
        told = b"".join(run.stdout.readline() for _ in replies.splitlines())
        limit.cancel()
        self.assertEqual(told.decode(), replies)
        return run

    def kill(self, words, given, replies):
        """A run that is killed when it has given these replies, and has no time to do anything."""
        run = self.held(words, given, replies)
        run.kill()
        run.wait()


def main():
    """Tests the programs that `rt ci` made, by both compilers; where there is none, one is made."""
    if not os.access(BUILT, os.X_OK):
        made = [os.path.join(TOP, "rstore")]
        subprocess.run(made, stdin=subprocess.DEVNULL, stdout=subprocess.DEVNULL, check=True)
    for program in (BUILT, BUILT + ".by-rattle"):
        if os.access(program, os.X_OK):
            Runs.program = program
            if not unittest.main(verbosity=0, exit=False).result.wasSuccessful():
                sys.exit(f"tests/{os.path.basename(sys.argv[0])}: {program} goes wrong")
