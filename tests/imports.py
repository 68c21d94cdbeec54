"""Imports into the layer of a file, and what they put in, for tests of the program (docs/COMMANDS.md, "Import")."""
import os

from blocks import RunsOver

LAYER = "a"
CURES = {  # what the program says behind a refusal that its words can do something about
    "no column": ": --columns LIST names the columns",
    "is no whole number": ": --scale N multiplies coordinates, --scale 1 widens them to whole numbers",
}


def with_cure(why):
    return why + "".join(cure for begin, cure in CURES.items() if why.startswith(begin) or why.endswith(begin))


class Imports(RunsOver):
    """Imports into a file that is made for each."""

    def imports(self, words, text, *objects):
        """An import with these words, a list, puts in just these objects. They are given as the rows of a `dump`, by
        identifier, and have two axes if there is none."""
        self.write("store", b"")
        self.ends(0, ["--create", "--import", LAYER, *words, "store"], text, "", "")
        axes = len(objects[0].split(" tag ")[0].split()) // 2 if objects else 2
        rows = [f"create {LAYER} {axes} 100", *(f"insert {LAYER} {row}" for row in objects), ""]
        dump = f"ok {len(objects) + 1}\n" + "\n".join(rows)
        with self.subTest(words=words, text=text[:200]):
            self.assertEqual(self.result("store", "dump\ncheck\n"), (0, dump + "ok\n", "", 11))
        os.remove(self.path("store"))

    def refuses_text(self, words, text, why):
        """An import with these words is refused for what its text says, and no file is made."""
        self.ends(3, ["--create", "--import", LAYER, *words, "store"], text, "", f"rstore: {with_cure(why)}\n")
        self.assertEqual(self.files(), {})
