#!/usr/bin/env python3
"""Runs tools/build on small repositories of its own: in which order crates are begun and by how many jobs, that
nothing is proved twice and no change is missed, what is said of a failure, an interrupt, a crate that is killed, a full
disk, little memory and no `rt`, and that the next call goes on. In all but the last test, which proves two crates, a
script plays the kit's compiler.

build.py [WORDS OF unittest]
"""
import json
import os
import pty
import shutil
import signal
import subprocess
import sys
import tempfile
import time
import unittest

TOP = os.path.dirname(os.path.dirname(os.path.realpath(__file__)))
BUILD = f"{TOP}/tools/build"
# A compiler that takes as many tenths of a second as the crate's source says, and then does what that says.
COMPILER = r'''#!/usr/bin/env python3
import json
import os
import signal
import sys
import time

def after(flag):
    return words[words.index(flag) + 1] if flag in words else None

def note(*what):
    with open(os.environ["FAKE_LOG"], "a") as log:
        log.write(json.dumps(what) + "\n")

words = sys.argv[1:]
name, made = after("--crate-name"), after("-o")
with open(next(it for it in words if it.startswith("src/"))) as it:
    text = it.read()
note("begin", name, int(after("--jobs")), after("--cpu"))
below = [it.partition("=")[2] for it in words if "/crates/" in it and it.endswith(".rlib") and "=" in it]
if not all(os.path.exists(f"{it}/format") for it in below):
    sys.exit("error: a library is missing")
tenths, _, what = text.partition(" ")
time.sleep(int(tenths) / 10)
for _ in range(600 if what.startswith("meet") else 0):
    with open(os.environ["FAKE_LOG"]) as it:
        if sum(json.loads(line)[0] == "begin" for line in it) > 1:
            break
    time.sleep(0.1)
if what.startswith("refuse"):
    print("fn f: not proved\nlogic=not-proved")
    sys.exit(1)
if what.startswith("kill") and after("--jobs") != "1":
    os.kill(os.getpid(), signal.SIGKILL)
if what.startswith("full"):
    print("error: rlib: No space left on device (os error 28)")
    sys.exit(2)
if made.endswith(".rlib"):
    os.makedirs(made, exist_ok=True)
    made += "/format"
with open(made, "w") as it:
    it.write(what)
note("end", name)
'''
LARGE = " " * 60_000  # what makes a crate one that several jobs gain by
LINKER = "#!/bin/sh\nwhile [ \"$1\" != -o ]; do shift; done\ncp \"$3\" \"$2\"\nchmod +x \"$2\"\n"


class Builds(unittest.TestCase):
    """A repository and a kit in a folder of their own."""

    def setUp(self):
        room = tempfile.TemporaryDirectory()
        self.addCleanup(room.cleanup)
        self.room, self.top, self.calls = room.name, f"{room.name}/repository", 0
        tools = {"rt": f"#!/bin/sh\necho {self.room}/kit/START\n", "rattle": COMPILER, "rattle-link": LINKER}
        for file, text in tools.items():
            self.write(f"{self.room}/kit/bin/{file}", text)
            os.chmod(f"{self.room}/kit/bin/{file}", 0o755)
        self.write(f"{self.room}/kit/WHAT", "a kit")
        self.path = f"{self.room}/kit/bin:{os.environ['PATH']}"

    def write(self, file, text):
        os.makedirs(os.path.dirname(file), exist_ok=True)
        with open(file, "w") as it:
            it.write(text)

    def crate(self, name, text, kind="lib"):
        self.write(f"{self.top}/crates/{name}/src/{kind}.rt", text)

    def repository(self, lines, **texts):
        """Crates of these lines of crates.txt, each of which takes a tenth of a second."""
        self.write(f"{self.top}/crates.txt", lines)
        for line in lines.splitlines():
            name = line.partition(":")[0].split()[0]
            self.crate(name, texts.get(name, f"1 {name}"), "main" if name == "top" else "lib")

    def begin(self, *words, **how):
        self.calls += 1
        self.log = f"{self.room}/log{self.calls}"
        self.write(self.log, "")
        env = {**os.environ, "PATH": self.path, "FAKE_LOG": self.log}
        how = {"stdout": subprocess.PIPE, "stderr": subprocess.PIPE, "text": True, "env": env, **how}
        return subprocess.Popen([BUILD, "--top", self.top, *words], **how)

    def build(self, *words):
        """The status of a call, what it said, and which crates it began."""
        ran = self.begin(*words)
        said = ran.communicate(timeout=300)[1]
        return ran.returncode, said, [it[1] for it in self.logged() if it[0] == "begin"]

    def logged(self):
        with open(self.log) as it:
            return [json.loads(line) for line in it]

    def assertBuilds(self, names, *words):
        status, said, begun = self.build(*words)
        self.assertEqual((status, sorted(begun)), (0, sorted(names)), said)


class Order(Builds):
    def test_a_crate_is_begun_once_all_below_it_are_proved(self):
        self.repository("low:\nleft: low\nright: low\nmid: left\ntop: mid right low\n")
        self.assertBuilds(["low", "left", "right", "mid", "top"], "--jobs", "3", "top")
        ended = set()
        below = {"low": [], "left": ["low"], "right": ["low"], "mid": ["left", "low"], "top": ["mid", "right", "low"]}
        for what, name, *_ in self.logged():
            self.assertLessEqual({*below[name]}, ended)
            ended |= {name} if what == "end" else set()

    def test_the_longest_chain_is_first_and_has_all_processors(self):
        texts = {"low": f"0 meet short{LARGE}", "short": f"1 short{LARGE}"}
        self.repository("short:\nlow:\nmid: low\nlong: mid\ntop: long short\n", **texts)
        self.build("--jobs", "4", "top")
        begun = [it[1:3] for it in self.logged() if it[0] == "begin"]
        self.assertEqual(sorted(begun[:2]), [["low", 4], ["short", 2]])
        self.assertIn(["mid", 1], begun)  # a small one

    def test_as_many_run_side_by_side_as_there_are_processors(self):
        names = "abcdef"
        self.repository("".join(f"{it}:\n" for it in names), a="0 meet another")
        self.assertBuilds(names, "--jobs", "2", *names)
        most = now = 0
        for what, *_ in self.logged():
            now += 1 if what == "begin" else -1
            most = max(most, now)
        self.assertEqual(most, 2)

    def test_only_what_a_target_stands_on_is_proved(self):
        self.repository("low:\nother:\nleft: low\n")
        self.assertBuilds(["low", "left"], "left")

    def test_a_line_that_stands_too_low_is_refused(self):
        self.repository("left: low\nlow:\n")
        self.assertIn("low must be a library, and stand above left", self.build("left")[1])

    def test_a_program_is_built_for_the_processor_that_is_named(self):
        self.repository("top:\n")
        self.build("--cpu", "x86-64-v2", "top")
        self.assertEqual(self.logged()[0][3], "x86-64-v2")


class Stamps(Builds):
    LINES = "low:\nleft: low\nright: low\ntop: left right low\n"

    def setUp(self):
        super().setUp()
        self.repository(self.LINES)
        self.build("top")

    def test_what_stands_is_not_proved_again(self):
        self.assertBuilds([], "top")
        os.utime(f"{self.top}/crates/low/src/lib.rt")  # times count for nothing
        self.assertBuilds([], "top")

    def test_a_change_is_noticed_and_all_that_stands_on_it_is_proved_again(self):
        self.crate("left", "1 other")
        self.assertBuilds(["left", "top"], "top")
        self.crate("low", "1 changed")
        os.utime(f"{self.top}/crates/low/src/lib.rt", (0, 0))
        self.assertBuilds(["low", "left", "right", "top"], "top")

    def test_a_proof_a_new_file_a_line_and_the_kit_count(self):
        self.write(f"{self.top}/crates/left/proofs/Lib.antt", "")
        self.assertBuilds(["left"], "left")
        os.remove(f"{self.top}/crates/left/proofs/Lib.antt")
        self.assertBuilds(["left"], "left")
        self.write(f"{self.top}/crates.txt", self.LINES.replace("right: low", "right:"))
        self.assertBuilds(["right"], "right")
        self.write(f"{self.room}/kit/WHAT", "another kit")
        self.assertBuilds(["low", "left"], "left")

    def test_what_is_proved_anew_and_comes_to_the_same_changes_nothing_above(self):
        self.crate("low", "2 low")
        self.assertBuilds(["low"], "top")

    def test_a_library_that_was_replaced_does_not_stand(self):
        self.write(f"{self.top}/crates/low/out/rlib/low.rlib/format", "of another hand")
        self.assertBuilds(["low"], "top")

    def test_a_source_that_changes_meanwhile_is_proved_once_more(self):
        self.crate("low", "10 slow")
        ran = self.begin("low")
        while not self.logged():
            time.sleep(0.05)
        self.crate("low", "1 quick")
        self.assertIn("low was changed: once more", ran.communicate(timeout=300)[1])
        with open(f"{self.top}/crates/low/out/rlib/low.rlib/format") as it:
            self.assertEqual(it.read(), "quick")

    def test_a_program_is_made_newer_than_its_sources(self):
        os.utime(f"{self.top}/crates/top/src/main.rt")
        self.assertBuilds([], "top")
        made, source = (os.stat(f"{self.top}/crates/top/{it}").st_mtime for it in ("out/top", "src/main.rt"))
        self.assertGreaterEqual(made, source)


class BadCases(Builds):
    LINES = "low:\nleft: low\nright: low\ntop: left right low\n"

    def test_a_failure_names_crate_cause_and_log_and_the_next_call_goes_on(self):
        self.repository(self.LINES, left="1 refuse", right="5 right")
        status, said, _ = self.build("top")
        self.assertEqual(status, 1)
        self.assertIn(f"left failed; all that was said is in {self.top}/crates/left/out/build.log", said)
        self.assertIn("fn f: not proved", said)
        self.crate("left", "1 mended")
        self.assertBuilds(["left", "top"], "top")

    def test_an_interrupt_ends_all_and_the_next_call_goes_on(self):
        for number in (signal.SIGINT, signal.SIGTERM):
            self.repository(self.LINES, left="600 left", right="1 right")
            shutil.rmtree(f"{self.top}/crates/low/out", ignore_errors=True)
            shutil.rmtree(f"{self.top}/crates/right/out", ignore_errors=True)
            ran = self.begin("--jobs", "2", "top")
            while not os.path.exists(f"{self.top}/crates/right/out/rlib/right.stamp"):
                time.sleep(0.05)
            ran.send_signal(number)
            self.assertIn("interrupted: what was proved so far is kept", ran.communicate(timeout=300)[1])
            self.assertEqual(ran.returncode, 130)
            told = subprocess.run(["ps", "-e", "-o", "args"], capture_output=True, text=True).stdout
            self.assertNotIn(f"{self.room}/kit/bin/rattle", told)
            self.crate("left", "1 left")
            self.assertBuilds(["left", "top"], "top")
            shutil.rmtree(f"{self.top}/crates/top/out")

    def test_a_crate_that_is_killed_is_tried_once_more_alone(self):
        self.repository(self.LINES, right=f"1 kill{LARGE}")
        status, said, _ = self.build("--jobs", "2", "top")
        self.assertEqual(status, 0, said)
        self.assertIn("right was killed, perhaps for want of memory: once more", said)
        self.assertIn(["begin", "right", 1, None], self.logged())

    def test_a_full_disk(self):
        self.repository(self.LINES, left="1 full")
        status, said, _ = self.build("top")
        self.assertEqual(status, 1)
        self.assertIn("the disk is full: free some room, and call again", said)

    @unittest.skipUnless(os.geteuid() == 0, "a small disk needs root")
    def test_a_disk_that_is_really_full(self):
        os.makedirs(self.top)
        small = ["mount", "-t", "tmpfs", "-o", "size=256k", "none", self.top]
        if subprocess.run(small, capture_output=True).returncode:
            self.skipTest("nothing can be mounted here")
        try:
            self.repository(self.LINES)
            with open(f"{self.top}/filler", "wb") as it:
                it.write(bytes(1 << 16))
            with self.assertRaises(OSError), open(f"{self.top}/more", "wb", buffering=0) as it:
                while True:
                    if it.write(bytes(4096)) < 4096:
                        raise OSError
            status, said, _ = self.build("top")
            self.assertNotEqual(status, 0)
            self.assertIn("free some room, and call again", said)
            self.assertNotIn("Traceback", said)
            os.remove(f"{self.top}/more")
            self.assertEqual(self.build("top")[0], 0)
        finally:
            subprocess.run(["umount", "-l", self.top], check=True)

    def test_no_rt(self):
        self.repository(self.LINES)
        self.path = "/usr/bin:/bin"
        status, said, _ = self.build("top")
        self.assertEqual(status, 2)
        self.assertEqual(said, 'build: the Rattle kit\'s rt is not on the PATH (README.md, "Build it")\n')

    def test_no_memory_for_two_checks(self):
        self.repository("a:\nb:\ntop: a b\n", a="3 a", b="3 b")
        script = f"import importlib.machinery as m, sys; it = m.SourceFileLoader('build', {BUILD!r}).load_module(); "
        script += "it.free_memory = lambda: 2e9; sys.exit(it.main())"
        env = {**os.environ, "PATH": self.path, "FAKE_LOG": f"{self.room}/log"}
        self.write(f"{self.room}/log", "")
        self.log = f"{self.room}/log"
        words = [sys.executable, "-c", script, "--top", self.top, "--jobs", "4", "top"]
        ran = subprocess.run(words, env=env, capture_output=True, text=True, timeout=300)
        self.assertEqual(ran.returncode, 0, ran.stderr)
        self.assertIn("1.8 GB of memory are free, room for one check at a time", ran.stderr)
        self.assertEqual([it[0] for it in self.logged()], ["begin", "end"] * 3)

    def test_a_crate_that_is_not_there(self):
        self.repository(self.LINES)
        self.assertIn("crates.txt has no line of a crate nowhere", self.build("nowhere")[1])

    def test_two_calls_at_once_prove_nothing_twice(self):
        self.repository(self.LINES, low="10 low")
        first = self.begin("top")
        while not self.logged():
            time.sleep(0.05)
        status, said, begun = self.build("top")
        self.assertEqual((status, begun), (0, []), said)
        self.assertIn("waiting for it", said)
        first.communicate()
        self.assertEqual(first.returncode, 0)


class Wrapper(Builds):
    """The script rstore, in a repository of its own."""

    def setUp(self):
        super().setUp()
        self.repository("rstore:\n")
        os.rename(f"{self.top}/crates/rstore/src/lib.rt", f"{self.top}/crates/rstore/src/main.rt")
        for file in ("rstore", "tools/build", "docs/help.txt"):
            os.makedirs(os.path.dirname(f"{self.top}/{file}"), exist_ok=True)
            shutil.copy(f"{TOP}/{file}", f"{self.top}/{file}")
        self.crate("rstore", "1 #!/bin/sh\necho the program has $1; cat\n", "main")

    def run_it(self, *words):
        self.log = f"{self.room}/log"
        self.write(self.log, "")
        env = {**os.environ, "PATH": self.path, "FAKE_LOG": self.log}
        return subprocess.run([f"{self.top}/rstore", *words], env=env, input="a line\n", capture_output=True, text=True)

    def test_help_is_there_at_once(self):
        for words in (("--help",), ("-h", "more")):
            ran = self.run_it(*words)
            with open(f"{TOP}/docs/help.txt") as it:
                self.assertEqual((ran.returncode, ran.stdout, ran.stderr), (0, it.read(), ""))
            self.assertEqual(self.logged(), [])

    def test_the_first_call_tells_what_to_do_meanwhile_and_then_runs_the_program(self):
        ran = self.run_it("--create")
        self.assertEqual((ran.returncode, ran.stdout), (0, "the program has --create\na line\n"), ran.stderr)
        self.assertIn("rt try <../../examples/first.txt", ran.stderr)
        self.assertRegex(ran.stderr, "build: crates to prove: 1, in about [0-9]+ min on ")
        ran = self.run_it("--help")
        self.assertEqual((ran.stdout, ran.stderr, self.logged()), ("the program has --help\na line\n", "", []))

    def test_a_source_that_is_newer_is_proved_first(self):
        self.run_it()
        later = os.stat(f"{self.top}/crates/rstore/out/rstore").st_mtime + 5
        self.crate("rstore", "1 #!/bin/sh\necho another\n", "main")
        os.utime(f"{self.top}/crates/rstore/src/main.rt", (later, later))
        ran = self.run_it()
        self.assertEqual((ran.stdout, len(self.logged())), ("another\n", 2), ran.stderr)
        self.assertNotIn("rt try", ran.stderr)


class Terminal(Builds):
    def test_one_line_is_rewritten(self):
        self.repository("low:\nleft: low\n", low="15 low", left="15 left")
        ours, theirs = pty.openpty()
        ran = self.begin("left", stdout=theirs, stderr=theirs)
        os.close(theirs)
        said = b""
        while True:
            try:
                more = os.read(ours, 4096)
            except OSError:
                break
            said += more
        self.assertEqual(ran.wait(), 0)
        text = said.decode()
        self.assertIn("\r\x1b[Kbuild: 0 of 2 crates, 0 min gone, about ", text)
        self.assertIn("\r\x1b[Kbuild: 1 of 2 crates, 0 min gone, about ", text)
        self.assertEqual(text.count("\n"), 1)  # what it says before it begins
        self.assertTrue(text.endswith("\r\x1b[K"))


LOW = """#![tactic(auto)]

ghost use Rattle.std.specs.Prelude.{◌≤◌};

/// The greater of both.
pub fn greater(a: u32, b: u32) -> u32
    ensures { b ≤ result }
{
    if a < b { b } else { a }
}
"""
ABOVE = """#![tactic(auto)]

ghost use Rattle.std.specs.Prelude.{◌≤◌};

/// Seven, or more.
pub fn seven(a: u32) -> u32
    ensures { 7 ≤ result }
{
    low::greater(a, 7)
}
"""


class WithTheKit(Builds):
    def test_a_right_crate_is_proved_and_a_wrong_one_refused(self):
        self.path = os.environ["PATH"]
        self.repository("low:\nabove: low\n", low=LOW, above=ABOVE)
        for status, text, said in ((0, ABOVE, ""), (1, ABOVE.replace("a, 7", "7, a"), "fn above::seven: no proof")):
            self.crate("above", text)
            ran = self.begin("above")
            told = ran.communicate(timeout=3000)[1]
            self.assertEqual(ran.returncode, status, told)
            self.assertIn(said, told)
            self.assertEqual(os.path.exists(f"{self.top}/crates/above/out/rlib/above.stamp"), status == 0)


if __name__ == "__main__":
    unittest.main()
