#!/usr/bin/env python3
"""Pastes what README.md shows, block after block, into a shell, the shell of SQLite and Python, in one folder that is
empty at first, and compares what each prints with what is shown; then the strict session and the backup of
docs/COMMANDS.md, over README's file. In the folder `./rstore` is a link to the program, `library/lib` one to the library,
and `examples` one to the examples. A command may end with a comment behind two blanks and `#`. A line `...` stands for
lines that are left out; in SQL and Python a comment that begins with `prints` shows what is printed. What reads examples/first.txt is compared with examples/first.out, too. Some commands are
not run: `rt try`, of which the lines are compared, the gate, and what installs packages, which package/test.sh tests. It
tests the programs that `rt ci` made, by both compilers; where there is none, one is made.

readme.py [WORDS OF unittest]

RSTORE_LIB names the folder of the library (library/lib where it is left out). Blocks that need what isn't built there
are left out, and a line says so.
"""
import os
import re
import shlex
import shutil
import subprocess
import sys

from runs import TOP, Runs, main

LIB = os.path.abspath(os.environ.get("RSTORE_LIB") or os.path.join(TOP, "library", "lib"))
TRIED = "(cd crates/rstore && rt try <../../examples/first.txt)"
RT_SAYS = "run=ended status=0 runners=1 proved=no"  # the last line of `rt try`, which is rt's own
NOT_RUN = r"(sudo apt|pip) install \S+|\.ci/run"
BACKUP = "    echo dump | ./rstore --read-only map.rst"
HAS_PYTHON = os.path.exists(os.path.join(LIB, "librstore.so")) and os.path.isdir(os.path.join(LIB, "rstore"))
HAS_SQL = os.path.exists(os.path.join(LIB, "rstore_sqlite.so")) and bool(shutil.which("sqlite3"))
for has, block, why in (
    (HAS_PYTHON, "Python", "library/build.sh makes the library"),
    (HAS_SQL, "SQL", "library/sqlite/build.sh makes the extension, and it wants the shell sqlite3"),
):
    if not has:
        print(f"tests/readme.py: the block in {block} is left out: {why}", file=sys.stderr)


def text_of(file):
    """A file of the repository."""
    with open(os.path.join(TOP, file), encoding="utf-8") as it:
        return it.read()


def fenced(text):
    """The blocks of a document between fences: the language of each, and its lines."""
    found = re.findall(r"^```(\w*)\n(.*?)^```$", text, re.M | re.S)
    return [(language, body.splitlines()) for language, body in found]


def indented(text, start):
    """The lines of the block of a document that begins so and is indented by four blanks."""
    block = text[text.index("\n" + start) + 1 :]
    return [line[4:] for line in re.match(r"(?:    .*\n)+", block)[0].splitlines()]


def sessions(lines):
    """The commands of a session, each with the lines that it is shown to print."""
    found, end = [], None
    for line in lines:
        if end is not None:  # what a command is given, up to this word
            found[-1][0].append(line)
            end = None if line == end else end
        elif line.startswith("$ "):
            found.append(([line[2:]], []))
            given = re.search(r"<<'(\w+)'", line)
            end = given and given[1]
        else:
            found[-1][1].append(line)
    return [("\n".join(command), shown) for command, shown in found]


def printed_by(lines, comment):
    """What the comments of a program that begin with `prints` show, a line each."""
    shown = [line.split(comment + " prints ", 1)[1] for line in lines if comment + " prints " in line]
    return "".join(line + "\n" for line in shown)


class Pasted(Runs):
    """What the documents show, pasted."""

    def setUp(self):
        super().setUp()
        os.symlink(self.program, self.path("rstore"))
        os.symlink(os.path.join(TOP, "examples"), self.path("examples"))
        os.mkdir(self.path("library"))
        os.symlink(LIB, self.path("library/lib"))
        self.more = {"RSTORE_LIBRARY": os.path.join(LIB, "librstore.so"), "PYTHONPATH": LIB}

    def pasted(self, words, text=None):
        """The status of a command over this input, and what it prints, as a terminal shows it."""
        ways = {"stdout": subprocess.PIPE, "stderr": subprocess.STDOUT, "timeout": 60, "cwd": self.folder}
        env = {**os.environ, **self.more, "PYTHONDONTWRITEBYTECODE": "1"}
        run = subprocess.run(words, input=(text or "").encode(), env=env, **ways)
        return run.returncode, run.stdout.decode()

    def prints(self, shown, told):
        """These lines are what was printed."""
        kept = "".join("(?:.*\n)*" if line == "..." else re.escape(line) + "\n" for line in shown)
        if not re.fullmatch(kept, told):
            self.assertEqual(told.splitlines(), shown)

    def shell(self, lines):
        """A session for the shell."""
        self.assertTrue(lines and lines[0].startswith("$ "), f"nothing runs this block: {lines}")
        for command, shown in sessions(lines):
            with self.subTest(command=command):
                run = re.sub(r"  +# .*$", "", command)
                if re.fullmatch(NOT_RUN, run):
                    self.assertEqual(shown, [])
                elif run == TRIED:
                    self.assertEqual(shown.pop(), RT_SAYS)
                    self.prints(shown, text_of("examples/first.out"))
                else:
                    told = self.pasted(["bash", "-c", command])[1]
                    self.prints(shown, told)
                    if run.endswith("<examples/first.txt"):
                        self.assertEqual(told, text_of("examples/first.out"))

    def python(self, lines):
        """A program in Python."""
        if HAS_PYTHON:
            self.assertEqual(self.pasted([sys.executable, "-"], "\n".join(lines)), (0, printed_by(lines, "#")))

    def sql(self, lines):
        """A session for the shell of SQLite."""
        if HAS_SQL:
            told = self.pasted(["sqlite3", "-bail", ":memory:"], "\n".join(lines) + "\n")
            self.assertEqual(told, (0, printed_by(lines, "--")))

    def test_the_blocks_of_the_readme_and_those_over_its_file(self):
        by_language = {"": self.shell, "sql": self.sql, "python": self.python}
        blocks = fenced(text_of("README.md"))
        self.assertEqual({language for language, _ in blocks}, set(by_language))
        for language, lines in blocks:
            by_language[language](lines)

        commands = text_of("docs/COMMANDS.md")
        self.shell(indented(commands, "    $ printf 'insert parks"))
        self.assertEqual(self.pasted(["bash", "-c", "\n".join(indented(commands, BACKUP))]), (0, ""))
        dumps = [self.pasted(shlex.split(f"sh -c 'echo dump | ./rstore {file}'")) for file in ("map.rst", "new.rst")]
        self.assertEqual(dumps[0], dumps[1])
        self.assertIn("create parks 2 100\n", dumps[0][1])


main()
