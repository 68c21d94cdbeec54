#!/usr/bin/env python3
"""Writes the man pages rstore.1 and rstore.3 into a folder: of the program from docs/help.txt (which is what --help
prints) and the table of commands in docs/COMMANDS.md, of the library from library/rstore.h.

    package/man.py FOLDER VERSION DATE
"""
import os
import re
import sys

TOP = os.path.dirname(os.path.dirname(os.path.realpath(__file__)))
FILES = """FILE-journal lies beside FILE while a run has not ended, and belongs to it: after a kill do not copy, move or
remove one without the other until FILE was opened once for writing."""


def text_of(name):
    with open(f"{TOP}/{name}") as it:
        return it.read()


def roff(text):
    """Text as roff has it, with `code` in bold."""
    text = text.replace("\\", "\\e").replace("-", "\\-")
    text = re.sub(r"`([^`]*)`", r"\\fB\1\\fP", text).replace("\\\\-", "\\-")
    return re.sub(r"(?m)^([.'])", r"\\&\1", text)


def paragraphs(text):
    return "".join(f".PP\n{roff(' '.join(it.split()))}\n" for it in re.split(r"\n\s*\n", text.strip()))


def code(lines):
    return ".PP\n.nf\n.RS\n" + "\n".join(roff(it) for it in lines) + "\n.RE\n.fi\n"


def term(name, text):
    return f'.TP\n.B {roff(name)}\n{roff(" ".join(text.split()))}\n'


def section(name, body):
    return f".SH {name}\n{body}"


def head(name, number, version, date):
    return f'.TH {name} {number} "{date}" "Yilgazan {version}" "Yilgazan"\n'


def options(lines):
    found = []
    for line in lines:
        name = re.match(r"  +(-.*?|\[FILE\])  +(\S.*)$", line)
        if name:
            found.append([name[1], name[2]])
        elif line.strip() and found:
            found[-1][1] += " " + line.strip()
    return "".join(term(*it) for it in found)


def rows(heading, cells):
    """The rows of the table below a heading of docs/COMMANDS.md."""
    part = re.search(rf"\n## {heading}\n(.*?)\n## ", text_of("docs/COMMANDS.md"), re.S)[1]
    table = re.search(r"\n" + r"\|---" * cells + r"\|\n(.*?)\n\n", part, re.S)[1]
    return [[it.strip() for it in row.strip("|").split("|")] for row in table.split("\n")]


def commands():
    told = [term(line.replace("`", ""), f"{what}. Reply: {reply}.") for line, what, reply in rows("Commands", 3)]
    words = [term(word, f"{what}.") for word, what in rows("Lines", 2)]
    parts = [paragraphs("Each is a line of the input, and gets one reply."), *told]
    return "".join([*parts, paragraphs("The words of a line:"), *words])


def program(version, date):
    told = text_of("docs/help.txt")
    about, rest = told.split("\n\nUsage: ", 1)
    usage, rest = rest.split("\n\nArguments:\n", 1)
    words, rest = rest.split("\n\nOptions:\n", 1)
    asked, rest = rest.split("\n\n", 1)
    about_files, status, last = rest.strip().split("\n\n", 2)
    about_import, examples = last.rsplit(" Examples:", 1)
    return head("RSTORE", 1, version, date) + "".join(
        [
            section("NAME", "rstore \\- a verified spatial store in one file\n"),
            section("SYNOPSIS", f".B {roff(usage)}\n"),
            section("DESCRIPTION", paragraphs(about) + paragraphs(about_files) + paragraphs(about_import)),
            section("OPTIONS", options(words.split("\n")) + options(asked.split("\n"))),
            section("COMMANDS", commands()),
            section("FILES", paragraphs(FILES)),
            section("EXIT STATUS", paragraphs(status)),
            section("EXAMPLES", code(it.strip() for it in examples.strip().split("\n"))),
            section("SEE ALSO", ".BR rstore (3),\nCOMMANDS.md and FORMAT.md in /usr/share/doc/rstore\n"),
        ]
    )


def parts_of(body):
    """The parts of the header between empty lines: the comment before each, and the lines of code."""
    for part in re.split(r"\n\n+", body.strip()):
        comment, lines = re.match(r"(?:/\*(.*?)\*/\n?)?(.*)", part, re.S).groups()
        yield re.sub(r"(?m)^ \* ?", "", comment or "").strip(), lines.strip("\n").split("\n") if lines else []


def declared(body):
    """What the header declares, by its sections; the errors have one of their own."""
    for comment, lines in parts_of(body):
        if comment.startswith("----"):
            name, _, more = comment.strip("- ").partition(". ")
            yield f".SS {roff(name.capitalize())}\n" + paragraphs(more)
        elif not any("RSTORE_OK" in it for it in lines):
            yield (code(lines) if lines else "") + paragraphs(comment)


def errors(body):
    """Each error with its message, and what the header says beyond that."""
    texts = re.findall(r"static const char \*const \w+\[\] = \{(.*?)\};", text_of("library/rstore.c"), re.S)
    refusals, own = (re.findall(r'"([^"]*)"', it) for it in texts)
    told = re.search(r"enum \{\n    RSTORE_OK.*?\};", body, re.S)[0]
    for name, number, why in re.findall(r"(RSTORE_\w+) = (\d+),? *(?:/\*(.*?)\*/)?\n", told):
        message = refusals[int(number)] if int(number) <= 100 else own[int(number) - 101]
        more = why.strip()
        yield term(f"{name} ({number})", message if more in message else f"{message} ({more})")


def library(version, date):
    header = text_of("library/rstore.h")
    about = re.match(r"/\*(.*?)\*/", header, re.S)[1]
    parts = re.split(r"\n\n", re.sub(r"(?m)^ \* ?", "", about).strip())
    body = re.search(r'extern "C" \{\n#endif\n(.*)\n#ifdef __cplusplus', header, re.S)[1]
    return head("RSTORE", 3, version, date) + "".join(
        [
            section("NAME", "rstore \\- a verified spatial store in one file, from C and C++\n"),
            section("SYNOPSIS", code(["#include <rstore.h>", "", "cc ... $(pkg-config --cflags --libs rstore)"])),
            section("DESCRIPTION", "".join(paragraphs(it) for it in parts[1:])),
            section("TYPES AND FUNCTIONS", "".join(declared(body))),
            section("ERRORS", paragraphs("Each with the message of rstore_errstr.") + "".join(errors(body))),
            section("SEE ALSO", ".BR rstore (1),\nLIBRARY.md in /usr/share/doc/librstore\\-dev\n"),
        ]
    )


def main():
    folder, version, date = sys.argv[1:]
    for name, page in (("rstore.1", program(version, date)), ("rstore.3", library(version, date))):
        with open(f"{folder}/{name}", "w") as it:
            it.write(page)


main()
