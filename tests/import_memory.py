#!/usr/bin/env python3
"""Imports to which memory is refused: each call of malloc in turn (no_memory.c, which is preloaded). Such a run ends as
without that, or with status 1 and a line that says why; and then the file has the table that it had. It tests the
programs that `rt ci` made, by both compilers; where there is none, one is made.

import_memory.py [WORDS OF unittest, as the name of a class or Class.test]
"""
import os
import subprocess
import tempfile

from imports import Imports
from runs import TOP, main

# What is said of a run to which memory is refused: as it reads, as the file is opened, and in the store.
NO_MEMORY = "rstore: fail 16 Memory\n"
WHYS = (
    NO_MEMORY,
    "rstore: cannot open FILE (FILE is store)\n",
    "rstore: no memory (FILE is store)\n",
    "rstore: fail 19 StoreFailed 16\n",
)
UNENDED = "rstore: the last run did not end; what changed after its last closing is lost\n"
MOST = 10_000  # calls of malloc

POINT = '{{"type":"Feature","geometry":{{"type":"Point","coordinates":[{}]}}}}\n'
CSV = "id,x,y,tag\n1,2,3,4\n5,6.5,7,8\n"
FEATURES = POINT.format("1,2") + POINT.format("3,4")


class Memory(Imports):
    """Each import is refused each growth in turn."""

    @classmethod
    def setUpClass(cls):
        super().setUpClass()
        folder = tempfile.TemporaryDirectory()
        cls.addClassCleanup(folder.cleanup)
        cls.code = os.path.join(folder.name, "no_memory.so")
        source = os.path.join(TOP, "tests", "no_memory.c")
        subprocess.run(["cc", "-shared", "-fPIC", "-O2", "-o", cls.code, source], check=True)

    # How an import ends whose call number `nth` of malloc fails, and whether there was such a call.
    def refused(self, nth, words, text):
        env = {**os.environ, "LD_PRELOAD": self.code, "NTH": str(nth)}
        result = self.result(f"--import a --scale 1 {words} store", text, env=env)[:3]
        was_refused = "refused" in self.files()
        if was_refused:
            os.remove(self.path("refused"))
        return result, was_refused

    # The import ends so, or for want of memory, and some do each. The file then has this dump, or no layer.
    def ends_or_has_no_memory(self, words, text, wanted, dump="ok 0\n"):
        self.answers("--create store", "")
        before, seen = self.store(), set()
        for nth in range(1, MOST):
            self.write("store", before)
            result, was_refused = self.refused(nth, words, text)
            seen.add(result)
            has_journal = "store-journal" in self.files()
            left = self.result("store", "dump\n")
            with self.subTest(words=words, nth=nth):
                self.assertFalse(result[0] == 0 and has_journal, "a journal behind status 0")
                self.assertIn(result, [wanted, *((1, "", why) for why in WHYS)])
                self.assertEqual(left[:2], (0, dump if result == wanted else "ok 0\n"))
                self.assertIn(left[2], ("", UNENDED))
            if not was_refused:
                break
        self.assertEqual(result, wanted)
        self.assertIn((1, "", NO_MEMORY), seen)

    def test_objects(self):
        well = (0, "", "")
        rows = "ok 3\ncreate a 2 100\ninsert a 1 2 3 2 3 tag 4\ninsert a 5 6 7 7 7 tag 8\n"
        self.ends_or_has_no_memory("", CSV, well, rows)
        self.write("store", b"")
        rows = "ok 3\ncreate a 2 100\ninsert a 1 1 2 1 2\ninsert a 2 3 4 3 4\n"
        self.ends_or_has_no_memory("--geojson", FEATURES, well, rows)

    def test_texts_that_are_refused(self):
        why = 'rstore: line 3, column y: "b" is no number\n'
        self.ends_or_has_no_memory("", CSV.replace("7", "b"), (3, "", why))
        self.write("store", b"")
        why = 'rstore: line 1, member coordinates: "true]}}" is no position\n'
        self.ends_or_has_no_memory("--geojson", POINT.format("1,true"), (3, "", why))

    # Each call of malloc fails in turn in a run with these words: where it is refused, both files stay.
    def test_refused_starts(self):
        self.kill("--create store", "create a 2 4\nreopen\n", "ok\nok\n")
        files = self.files()
        for words in ("--format 2", "--create"):
            for nth in range(1, MOST):
                env = {**os.environ, "LD_PRELOAD": self.code, "NTH": str(nth)}
                with self.subTest(words=words, nth=nth):
                    self.assertEqual(self.result(f"{words} store", "", env=env)[:2], (1, ""))
                    left = self.files()
                    was_refused = left.pop("refused", None) is not None
                    self.assertTrue(left == files, "a file was changed, made or removed")
                for name, data in files.items():
                    self.write(name, data)
                if not was_refused:
                    break
                os.remove(self.path("refused"))


main()
