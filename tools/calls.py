"""Reads the text of crates: which lines are code and which are contract, what functions there are, and what each
calls. Nothing is compiled: names are looked up as a reader does. tools/readers.py counts by it.

How a call is resolved:
- a path by the `use` lines of its file, through what lib.rt files give on, to the function of that name;
- a method by the type of what it is called on, where that is written: of `self`, of a field, of an argument, of what a
  function answers; on a type parameter it is the trait's, whose implementations are not walked into;
- else a method by its name, among those of the caller's crate and the public ones of the crates that it stands on: if
  several types have it, the caller's file comes before its crate, and its crate before others. A name that types of the
  standard library have is then none of the house.
- A function that is handed on by its name is called, and a conversion that `?` makes is not.
"""
import os
import re

import layers  # of tools/

TOP = layers.TOP
QUIET = re.compile(r"//[^\n]*|/\*.*?\*/|\"(?:\\.|[^\"\\])*\"|b?'(?:\\[^']*|[^'\\])'", re.S)
TOKEN = re.compile(r'"+|\w+|::|->|=>|\.\.=?|&&|\|\||[-+*/%&|^=!]=|\S')
OPEN, CLOSE = "([{", ")]}"
CLAUSES = ("requires", "ensures")
OF_TESTS = ["#", "[", "cfg", "(", "test", ")", "]"]
BOXES = ("Box", "Rc", "Arc", "Reverse", "RefMut", "Ref", "Drain")  # what is called on them is called on what they hold
LISTS = ("[]", "Vec", "ArrayVec", "BinaryHeap", "VecDeque")
SAME = set("as_ref as_mut as_deref clone iter iter_mut as_slice as_mut_slice into_iter rev map_err take copied cloned "
           "skip enumerate drain to_owned borrow borrow_mut by_ref".split())
INNER = set("unwrap expect unwrap_or unwrap_or_else unwrap_or_default into_inner".split())
ONE = set("get get_mut first last pop next peek first_mut last_mut swap_remove remove".split())
BEFORE_VALUE = ("=", "(", "{", ";", ",", "return", "=>", "&&", "||", "!", "match", "in", "if")
# methods of the standard library, which are not looked for by their name alone
PLAIN = SAME | INNER | ONE | set(
    "abs add all any as_bytes as_str append capacity chain checked_add checked_mul checked_sub chunks clear cmp "
    "collect contains count copy_from_slice count_ones eq extend fill filter find flush fold insert into is_empty "
    "is_err is_none is_ok is_some len lock map max min ne ok ok_or ok_or_else or_else parse position pow push "
    "push_str read read_exact replace reserve resize retain reverse saturating_add saturating_mul saturating_sub "
    "seek set_len sort sort_unstable sort_unstable_by split split_at split_at_mut split_off starts_with sum swap "
    "then to_be_bytes trailing_zeros truncate try_from try_into try_push wrapping_add wrapping_mul wrapping_sub "
    "write write_all zip".split())


def quieted(text):
    """A text without its comments, and with the letters of its literals as quotation marks; each line stays one."""
    return QUIET.sub(lambda m: re.sub(r"[^\n]", " " if m[0].startswith("/") else '"', m[0]), text)


class Type:
    """A type as it is written in a file: its path, and its arguments."""

    def __init__(self, file, path, args=()):
        self.file, self.path, self.args = file, tuple(path), list(args)
        self.head = self.path[-1] if self.path else ""


class Function:
    """A function: where it is, of what type, how it is called, and where its body is among the tokens of its file."""

    def __init__(self, file, name, owner, start):
        self.file, self.name, self.owner, self.start = file, name, owner, start
        self.public = self.private = self.test = self.is_method = self.of_trait = False
        self.generics, self.params, self.answer, self.body, self.clauses = {}, [], None, None, 0

    def __repr__(self):
        return f"{self.file.crate}/{self.file.name}:{self.owner.head + '::' if self.owner else ''}{self.name}"


class Source:
    """A file of a crate's src/, taken apart."""

    def __init__(self, crate, name, text):
        self.crate, self.name, self.text = crate, name, quieted(text)
        parts = name[: -len(".rt")].split("/")
        self.module = tuple(parts if parts != ["lib"] else [])
        self.kinds = bytearray(len(self.text))  # of each letter: 0 code, 1 contract, 2 import, 3 test
        self.clause_places, self.uses, self.functions, self.types, self.modules_of_tests = [], {}, [], {}, set()
        self.given_on = []  # what `pub use PATH::*` gives on
        self.split()
        self.items()

    def end(self, tokens, i):
        """The place of the bracket that ends the one at i."""
        depth = 0
        for j in range(i, len(tokens)):
            depth += (tokens[j][0] in OPEN) - (tokens[j][0] in CLOSE)
            if depth == 0:
                return j
        raise ValueError(f"{self.crate}/{self.name}: a bracket has no end")

    def split(self):
        """Marks imports and contracts, and keeps the tokens of the code."""
        tokens = [(m[0], m.start()) for m in TOKEN.finditer(self.text)] + [("", len(self.text))]
        self.tokens, i = [], 0
        while i < len(tokens) - 1:
            word, at = tokens[i]
            before = tokens[i - 1][0] if i else ";"
            last, kind = None, 1
            if word == "ghost" and tokens[i + 1][0] == "use" or word == "use" and before in ";}{])pub":
                last, kind = i, 2
                while tokens[last][0] != ";":
                    last += 1
                self.note_use([t for t, _ in tokens[i + 1:last]] if word == "use" else [])
            elif word == "mod" and tokens[i + 2][0] == ";":
                last, kind = i + 2, 2
            elif word == "#" and "tactic" in (tokens[i + 2][0], tokens[i + 3][0]):
                last = self.end(tokens, i + (1 if tokens[i + 1][0] == "[" else 2))
            elif (word in CLAUSES or word == "ghost") and before not in (".", "::", "fn"):
                last = i + 1
                while True:
                    while tokens[last][0] != "{":
                        last += 1
                    last = self.end(tokens, last)
                    if tokens[last + 1][0] not in ("by", "="):
                        break
                if tokens[last + 1][0] in (";", ",") and word == "ghost":
                    last += 1
                if word == "ghost" and before == "pub":
                    at = self.tokens.pop()[1]
                if word in CLAUSES:
                    self.clause_places.append(at)
            if last is None:
                self.tokens.append(tokens[i])
                i += 1
                continue
            if kind == 2:  # with the words in front, as `pub`
                while self.tokens and self.tokens[-1][0] not in (";", "}", "{", "]"):
                    at = self.tokens.pop()[1]
                if [t for t, _ in self.tokens[-7:]] == OF_TESTS:
                    self.modules_of_tests.add(tokens[i + 1][0])
                    at = self.tokens[-7][1]
                    del self.tokens[-7:]
            for k in range(at, tokens[last][1] + len(tokens[last][0])):
                self.kinds[k] = kind
            i = last + 1

    def note_use(self, words, front=()):
        """The names that a `use` brings in, each with its path."""
        groups, depth, part = [], 0, []
        for word in words + [","]:
            depth += (word == "{") - (word == "}")
            if word == "," and depth == 0:
                groups.append(part)
                part = []
            else:
                part.append(word)
        for part in groups:
            if "{" in part:
                k = part.index("{")
                self.note_use(part[k + 1:-1], front + tuple(w for w in part[:k] if w != "::"))
            elif part:
                name = part[-1]
                path = front + tuple(w for w in part[: part.index("as") if "as" in part else None] if w != "::")
                if path[-1] == "self":
                    path = path[:-1]
                    name = path[-1] if name == "self" else name
                if name == "*":
                    self.given_on.append(path[:-1])
                self.uses[name] = path

    def type_of(self, words):
        """The type that some words say."""
        words = list(words)
        while words and (words[0] in ("&", "mut", "dyn", "impl", "*", "const", "&&") or words[0] == "'"):
            words = words[2 if words[0] == "'" else 1:]
        if not words:
            return None
        if words[0] in ("[", "("):
            parts = self.comma_parts(words[1:-1])
            if words[0] == "[":
                parts = [parts[0][: parts[0].index(";")] if ";" in parts[0] else parts[0]] if parts else []
            return Type(self, ["[]" if words[0] == "[" else "()"], [self.type_of(p) for p in parts])
        path, i = [], 0
        while i < len(words) and (re.match(r"\w", words[i]) or words[i] == "::"):
            path += [words[i]] if words[i] != "::" else []
            i += 1
        args = []
        if i < len(words) and words[i] == "<":
            inside, depth = [], 0
            for word in words[i:]:
                depth += (word == "<") - (word == ">")
                if depth == 0:
                    break
                inside.append(word)
            args = [self.type_of(p) for p in self.comma_parts(inside[1:]) if p and p[0] != "'"]
        return Type(self, path, args)

    @staticmethod
    def comma_parts(words):
        """Words, parted by the commas that stand in no bracket."""
        parts, part, depth = [], [], 0
        for word in words:
            depth += (word in "([{<") - (word in ")]}>")
            if word == "," and depth == 0:
                parts.append(part)
                part = []
            else:
                part.append(word)
        return parts + [part] if part else parts

    def bounds_in(self, words):
        """The traits of type parameters, from `A: One + Two, B` or a `where`."""
        found = {}
        for part in self.comma_parts(words):
            if part and part[0] == "const":
                continue
            if ":" in part:
                k = part.index(":")
                traits, depth, trait = [], 0, []
                for word in part[k + 1:] + ["+"]:
                    depth += (word in "(<") - (word in ")>")
                    if word == "+" and depth == 0:
                        traits.append(self.type_of(trait))
                        trait = []
                    else:
                        trait.append(word)
                found.setdefault("".join(part[:k]), []).extend(t for t in traits if t)
            elif part:
                found.setdefault(part[0], [])
        return found

    def angles(self, i):
        """What stands in the angles at i, and the place behind them; nothing where there are none."""
        words = self.words
        if i >= len(words) or words[i] != "<":
            return [], i
        depth, j = 0, i
        while True:
            depth += (words[j] == "<") - (words[j] == ">")
            j += 1
            if depth == 0:
                return words[i + 1:j - 1], j

    def items(self):
        """The functions and types of the file."""
        self.words = [word for word, _ in self.tokens]
        words = self.words
        blocks, i = [], 0  # blocks: (end, owner, generics, whether its functions are a trait's)
        while i < len(words):
            while blocks and i >= blocks[-1][0]:
                blocks.pop()
            word, before = words[i], words[i - 1] if i else ";"
            if word in ("impl", "trait") and before in (";", "}", "{", "]", "pub", ")", "unsafe"):
                inside, j = self.angles(i + 1)
                head = []
                if word == "trait":
                    name = words[i + 1]
                    inside, j = self.angles(i + 2)
                while words[j] != "{":
                    head.append(words[j])
                    j += 1
                bounds = self.bounds_in(inside)
                if "where" in head:
                    bounds.update(self.bounds_in(head[head.index("where") + 1:]))
                    head = head[: head.index("where")]
                if word == "trait":
                    above = self.bounds_in(["Self"] + head) if head else {}
                    self.types[name] = {"fields": {}, "variants": {}, "above": above.get("Self", []), "trait": True}
                    owner, of_trait = Type(self, [name]), True
                else:
                    of_trait = "for" in head
                    owner = self.type_of(head[head.index("for") + 1:] if of_trait else head)
                blocks.append((self.end(self.tokens, j), owner, bounds, of_trait))
                i = j + 1
                continue
            if word in ("struct", "enum") and re.match(r"\w", words[i + 1]):
                i = self.note_type(i)
                continue
            if word == "type" and before in (";", "}", "{", "]", "pub", ")") and "=" in words[i:i + 40]:
                j = words.index("=", i)
                if not blocks and ";" in words[j:]:
                    self.types[words[i + 1]] = {"alias": self.type_of(words[j + 1: words.index(";", j)])}
            if word == "fn" and re.match(r"[a-z_]", words[i + 1]):
                i = self.note_function(i, blocks[-1] if blocks else None)
                continue
            i += 1

    def note_type(self, i):
        """A struct or an enum, with its fields and variants."""
        words = self.words
        is_enum, name = words[i] == "enum", words[i + 1]
        _, j = self.angles(i + 2)
        while words[j] not in ("{", "(", ";"):
            j += 1
        known = {"fields": {}, "variants": {}, "trait": False}
        self.types[name] = known
        if words[j] == ";":
            return j
        last = self.end(self.tokens, j)
        for k, part in enumerate(self.comma_parts(words[j + 1:last])):
            while part and part[0] == "#":
                depth = 0
                for n, word in enumerate(part):
                    depth += (word == "[") - (word == "]")
                    if word == "]" and depth == 0:
                        break
                part = part[n + 1:]
            if part and part[0] == "pub":
                part = part[4 if part[1:2] == ["("] else 1:]
            if not part:
                continue
            if is_enum:
                inside = part[2:-1] if len(part) > 1 else []
                if len(part) > 1 and part[1] == "{":
                    fields = {p[0]: self.type_of(p[2:]) for p in self.comma_parts(inside)}
                    known["variants"][part[0]] = fields
                else:
                    known["variants"][part[0]] = [self.type_of(p) for p in self.comma_parts(inside)]
            elif words[j] == "(":
                known["fields"][str(k)] = self.type_of(part)
            else:
                known["fields"][part[0]] = self.type_of(part[2:])
        return last + 1

    def note_function(self, i, block):
        """A function, from its `fn` on; the place behind what was read of it."""
        words = self.words
        function = Function(self, words[i + 1], block[1] if block else None, i)
        front, k = [], i - 1
        while k >= 0 and words[k] not in (";", "}", "{"):
            front.append(words[k])
            k -= 1
        function.of_trait = bool(block and block[3])
        seen = "pub" in front  # the words stand from behind
        function.public = function.of_trait or seen and front[front.index("pub") - 1:][:1] != ["("]
        function.private = not function.of_trait and not seen
        function.test = any(front[n:n + 4] == ["]", "test", "[", "#"] for n in range(len(front)))
        inside, j = self.angles(i + 2)
        function.generics = {**(block[2] if block else {}), **self.bounds_in(inside)}
        last = self.end(self.tokens, j)
        for part in self.comma_parts(words[j + 1:last]):
            if "self" in part[:5] and ":" not in part[: part.index("self")]:
                function.is_method = True
            elif ":" in part:
                k = part.index(":")
                function.params.append((part[:k], self.type_of(part[k + 1:])))
        j = last + 1
        if words[j] == "->":
            k = j + 1
            while words[k] not in ("{", ";", "where"):
                k = self.end(self.tokens, k) + 1 if words[k] in "([" else k + 1
            function.answer = self.type_of(words[j + 1:k])
            j = k
        if words[j] == "where":
            k = j
            while words[k] not in ("{", ";"):
                k += 1
            for name, traits in self.bounds_in(words[j + 1:k]).items():
                function.generics.setdefault(name, []).extend(traits)
            j = k
        if words[j] == "{":
            function.body = (j, self.end(self.tokens, j))
        first, stop = self.tokens[i][1], self.tokens[j][1]
        function.clauses = sum(first < at < stop for at in self.clause_places)
        if function.test:
            begin = self.tokens[i - len(front)][1] if front else first
            for k in range(begin, self.tokens[function.body[1]][1] + 1):
                self.kinds[k] = 3
        self.functions.append(function)
        return j + 1

    def lines(self):
        """How many lines of code and of contract there are. A line with both is of contract."""
        code = contract = at = 0
        for line in self.text.split("\n"):
            kinds = {self.kinds[at + k] for k, letter in enumerate(line) if not letter.isspace()}
            code += 0 in kinds and 1 not in kinds
            contract += 1 in kinds
            at += len(line) + 1
        return code, contract


def sources(crate):
    """The files of a crate's src/, without those of tests."""
    top, found = os.path.join(TOP, "crates", crate, "src"), []
    for folder, below, names in os.walk(top):
        below.sort()
        for name in sorted(names):
            with open(os.path.join(folder, name), encoding="utf-8") as file:
                found.append(Source(crate, os.path.relpath(os.path.join(folder, name), top), file.read()))
    tests = {(*file.module, name) for file in found for name in file.modules_of_tests}
    return [file for file in found if not any(file.module[: len(test)] == test for test in tests)]


class House:
    """All crates that are no tests: their files, and what each function calls."""

    def __init__(self):
        self.stands_on = {name: below for name, below in layers.crates().items() if name not in layers.TESTS.split()}
        self.files = {crate: sources(crate) for crate in self.stands_on}
        self.at = {(crate, file.module): file for crate, files in self.files.items() for file in files}
        self.methods, self.by_name = {}, {}
        self.guessed = {}  # what was called by its name alone, by caller and name
        self.calls = {}
        for file in [file for files in self.files.values() for file in files]:
            for function in file.functions:
                if function.owner:
                    self.methods.setdefault((self.type_key(file, function.owner), function.name), []).append(function)
                if function.is_method and not function.test:
                    self.by_name.setdefault(function.name, []).append(function)

    def look_up(self, file, path, seen=()):
        """What a path means in a file: a file and a name in it, or None where it is none of the house."""
        path = tuple(path)
        if not path or (file, path) in seen:
            return None
        seen = seen + ((file, path),)
        first, rest = path[0], path[1:]
        if first in ("crate", "self", "super"):
            module = file.module
            if first == "crate":
                module = ()
            while path and path[0] in ("crate", "self", "super"):
                module = module[:-1] if path[0] == "super" else module
                path = path[1:]
            return self.inside(file.crate, module, path, seen)
        if not rest and (first in file.types or any(f.name == first and not f.owner for f in file.functions)):
            return file, first
        if first in file.uses:
            return self.look_up(file, file.uses[first] + rest, seen) if file.uses[first] != path else \
                self.outside(path, seen)
        if rest and (file.crate, file.module + (first,)) in self.at:
            return self.inside(file.crate, file.module, path, seen)
        return self.outside(path, seen) if rest else None

    def outside(self, path, seen):
        """What a path means that begins with a crate."""
        return self.inside(path[0], (), path[1:], seen) if path[0] in self.files else None

    def inside(self, crate, module, path, seen):
        """What a path means below a module."""
        while len(path) > 1 and (crate, module + path[:1]) in self.at:
            module, path = module + path[:1], path[1:]
        file = self.at.get((crate, module))
        if file is None or not path:
            return None
        return self.look_up(file, path, seen)

    def type_key(self, file, kind, generics=()):
        """The file and name where a type of the house is defined, or None."""
        if kind is None or not kind.path or kind.head in generics:
            return None
        found = self.look_up(kind.file, kind.path)
        if found and found[1] in found[0].types and "alias" in found[0].types[found[1]]:
            return self.type_key(found[0], found[0].types[found[1]]["alias"])
        return found if found and found[1] in found[0].types else None

    def plain(self, kind):
        """A type without aliases and boxes."""
        for _ in range(8):
            if kind is None:
                return None
            found = self.look_up(kind.file, kind.path)
            if found and "alias" in found[0].types.get(found[1], {}):
                kind = found[0].types[found[1]]["alias"]
            elif kind.head in BOXES and kind.args:
                kind = kind.args[0]
            else:
                return kind
        return kind

    def calls_of(self, function):
        """The functions that one calls."""
        if function not in self.calls:
            self.calls[function] = set()
            if function.body:
                self.calls[function] = Body(self, function).called
        return self.calls[function]

    def walk(self, crate, owner, name):
        """All functions that can be reached from a public one, which is among them."""
        start = [f for file in self.files[crate] for f in file.functions
                 if f.name == name and f.public and f.owner and f.owner.head == owner]
        assert len(start) == 1, (crate, owner, name, start)
        reached, left = set(start), list(start)
        while left:
            for function in self.calls_of(left.pop()):
                if function not in reached:
                    reached.add(function)
                    left.append(function)
        return reached


class Body:
    """The body of a function, read from its first token to its last."""

    def __init__(self, house, function):
        self.house, self.function, self.file = house, function, function.file
        self.words, self.called = function.file.words, set()
        self.known = {}  # the types of names
        self.later = []  # (place, pattern, type): names that are known from a place on
        for pattern, kind in function.params:
            self.bind(pattern, kind)
        i, last = function.body
        while i < last:
            for one in [one for one in self.later if one[0] <= i]:
                self.later.remove(one)
                self.bind(one[1], one[2])
            i += 1
            self.read(i)

    def end(self, i):
        return self.file.end(self.file.tokens, i)

    def after(self, i):
        """The place behind the word, the bracket or the `::<..>` at i."""
        if self.words[i] in OPEN:
            return self.end(i) + 1
        return self.file.angles(i + 1)[1] if self.words[i:i + 2] == ["::", "<"] else i + 1

    def read(self, i):
        """Looks at the token at i: a pattern that begins there, or a call."""
        words = self.words
        word, before = words[i], words[i - 1]
        if word in ("let", "for"):
            j, mark = i + 1, "=" if word == "let" else "in"
            while words[j] not in (mark, ";"):
                j = self.after(j)
            pattern, kind = words[i + 1:j], None
            if word == "let" and ":" in pattern and pattern[-1] != ")" and pattern[-1] != "}":
                k = pattern.index(":")
                pattern, kind = pattern[:k], self.file.type_of(pattern[k + 1:])
            if words[j] == ";":
                self.bind(pattern, kind)
                return
            found, stop = self.value(j + 1)
            kind = kind or found
            if word == "for":
                kind = kind.args[0] if kind and kind.head in LISTS and kind.args else None
            self.later.append((max(stop, j + 1), pattern, kind))
        elif word == "match":
            kind, j = self.value(i + 1)
            while words[j] != "{":
                j = self.after(j)
            self.arms(j, kind)
        elif word == "|" and before in ("(", ",", "=", "move", "{", "return") or word == "||" and before == "(":
            if word == "|":
                j = i + 1
                while words[j] != "|":
                    j += 1
                for part in self.file.comma_parts(words[i + 1:j]):
                    k = part.index(":") if ":" in part else len(part)
                    self.bind(part[:k], self.file.type_of(part[k + 1:]))
        elif re.match(r"[A-Za-z_]", word) and before not in (".", "::", "fn"):
            self.value(i)
        elif word == "(" and words[self.end(i) + 1] in (".", "?") or word == "<" and before in BEFORE_VALUE:
            self.value(i)

    def arms(self, i, kind):
        """The patterns of a match whose arms stand in the braces at i."""
        words, stop, j = self.words, self.end(i), i + 1
        while j < stop:
            first = j
            while words[j] != "=>":
                j = self.after(j)
            pattern = words[first:j]
            guard = pattern.index("if") if "if" in pattern else len(pattern)
            self.later.append((first + guard, pattern[:guard], kind))
            j += 1
            if words[j] == "{":
                j = self.end(j) + 1
                j += words[j] == ","
                continue
            while j < stop and words[j] != ",":
                j = self.after(j)
            j += 1

    def bind(self, pattern, kind):
        """The names of a pattern get their types."""
        pattern = list(pattern)
        while pattern and pattern[0] in ("&", "mut", "ref", "|"):
            pattern = pattern[1:]
        if not pattern:
            return
        if len(pattern) == 1:
            if re.match(r"[a-z_]", pattern[0]):
                self.known[pattern[0]] = kind
            return
        if pattern[0] in ("(", "["):
            inner = self.file.comma_parts(pattern[1:-1])
            for k, part in enumerate(inner):
                one = None
                if kind and kind.head == "()" and k < len(kind.args):
                    one = kind.args[k]
                self.bind(part, one)
            return
        opened = next((k for k, word in enumerate(pattern) if word in "({"), None)
        if "|" in pattern and (opened is None or pattern.index("|") < opened):
            return
        if opened is None:
            return
        path = [word for word in pattern[:opened] if word != "::"]
        parts = self.file.comma_parts(pattern[opened + 1: self.last_of(pattern, opened)])
        types = self.pattern_types(path, kind)
        for k, part in enumerate(parts):
            if pattern[opened] == "(":
                self.bind(part, types[k] if isinstance(types, list) and k < len(types) else None)
            else:
                colon = part.index(":") if ":" in part else None
                name = part[0] if part[0] not in ("mut", "ref") else part[1]
                one = types.get(name) if isinstance(types, dict) else None
                self.bind(part[colon + 1:] if colon else part, one)

    @staticmethod
    def last_of(pattern, opened):
        depth = 0
        for k in range(opened, len(pattern)):
            depth += (pattern[k] in OPEN) - (pattern[k] in CLOSE)
            if depth == 0:
                return k
        return len(pattern)

    def pattern_types(self, path, kind):
        """The types of what a constructor has."""
        kind = self.house.plain(kind)
        args = kind.args if kind else []
        if path[-1:] in (["Some"], ["Ok"]):
            return args[:1]
        if path[-1:] == ["Err"]:
            return args[1:2]
        if path[0] == "Self" and self.function.owner:
            path = list(self.function.owner.path) + path[1:]
        found = self.house.look_up(self.file, path)
        if found and found[1] in found[0].types:
            return found[0].types[found[1]].get("fields")
        if len(path) > 1:
            key = self.house.type_key(self.file, Type(self.file, path[:-1]))
            if key:
                return key[0].types[key[1]].get("variants", {}).get(path[-1])
        return None

    def value(self, i):
        """The type of the expression that begins at i, as far as it is a chain of names, calls and fields, and the
        place behind it. The calls in the chain are noted."""
        words = self.words
        while words[i] in ("&", "mut", "*", "!", "-", "&&") or words[i] == "'":
            i += 2 if words[i] == "'" else 1
        word = words[i]
        if word == "(":
            j, kinds = self.end(i), []
            k = i + 1
            while k < j:
                kinds.append(self.value(k)[0])
                while k < j and words[k] != ",":
                    k = self.after(k)
                k += 1
            kind = kinds[0] if len(kinds) == 1 and words[j - 1] != "," else Type(self.file, ["()"], kinds)
            return self.behind(kind, j + 1)
        if word == "[":
            kind, _ = self.value(i + 1) if words[i + 1] != "]" else (None, 0)
            return self.behind(Type(self.file, ["[]"], [kind]), self.end(i) + 1)
        if word == "<" and words[i - 1] in BEFORE_VALUE and "as" in words[i + 1:i + 9]:  # <Type as Trait>::name
            inside, j = self.file.angles(i)
            k = inside.index("as") if "as" in inside else 0
            if k and words[j] == "::" and words[j + 2] == "(":
                kind, trait = self.file.type_of(inside[:k]), self.file.type_of(inside[k + 1:])
                found = self.method(kind, words[j + 1]) or self.of_trait(trait, words[j + 1])
                return self.behind(self.answer_of(found) if found else None, self.end(j + 2) + 1)
        if not re.match(r"[A-Za-z_]", word) or word in ("if", "match", "return", "loop", "while", "move", "unsafe"):
            if word == "match":
                return self.matched(i), i + 1
            return None, i + 1
        path, j = [word], i + 1
        while words[j] == "::":
            if words[j + 1] == "<":
                _, j = self.file.angles(j + 1)
            else:
                path.append(words[j + 1])
                j += 2
        if words[j] == "!":  # a macro
            return None, j + 1
        if path == ["self"]:
            return self.behind(self.function.owner, j)
        if words[j] == "(":
            return self.behind(self.called_by(path, j), self.end(j) + 1)
        if len(path) == 1 and word in self.known:
            return self.behind(self.known[word], j)
        if words[j] == "{" and re.match(r"[A-Z]", path[-1]) and words[i - 1] not in ("match", "in", "if", "while"):
            kind = self.function.owner if path == ["Self"] else Type(self.file, path)
            return self.behind(kind, self.end(j) + 1)
        if words[i - 1] in ("(", ",", "=") and words[j] in (")", ",", ";") and path[-1][0].islower():
            self.find(path)  # handed on by its name
        if len(path) > 1 and path[-1][0].isupper():
            return self.behind(Type(self.file, path[:-1]), j)
        return self.behind(None, j)

    def matched(self, i):
        """The type of the first arm's value of a match at i, where it is a name that the arm's pattern binds."""
        words = self.words
        kind, j = self.value(i + 1)
        while words[j] != "{":
            j = self.after(j)
        stop, saved = self.end(j), dict(self.known)
        self.arms(j, kind)
        found, j = None, j + 1
        while j < stop and found is None:
            first = j
            while words[j] != "=>":
                j = self.after(j)
            pattern = words[first:j]
            guard = pattern.index("if") if "if" in pattern else len(pattern)
            self.bind(pattern[:guard], kind)
            found = self.value(j + 1)[0] if words[j + 1] not in ("return", "{") else None
            if words[j + 1] == "{":
                j = self.end(j + 1) + 1
                j += words[j] == ","
                continue
            while j < stop and words[j] != ",":
                j = self.after(j)
            j += 1
        self.known = saved
        return found

    def called_by(self, path, i):
        """Notes the call of a path whose arguments stand in the brackets at i; the type of what it answers."""
        if path[-1] in ("Ok", "Some", "Err"):
            kind = self.value(i + 1)[0] if self.words[i + 1] != ")" else None
            args = [None, kind] if path[-1] == "Err" else [kind, None]
            return Type(self.file, ["Option" if path[-1] == "Some" else "Result"], args)
        if path[-1][0].isupper():
            if len(path) > 1:
                return Type(self.file, path[:-1])
            return self.function.owner if path == ["Self"] else Type(self.file, path)
        if len(path) == 1 and path[0] in self.known:
            return None
        found = self.find(path)
        if found is None or found.answer is None:
            return None
        return self.answer_of(found)

    def find(self, path):
        """The function of the house that a path names, which is noted as called."""
        house = self.house
        target = house.look_up(self.file, path)
        if target:
            for function in target[0].functions:
                if function.name == target[1] and not function.owner:
                    self.called.add(function)
                    return function
        if len(path) > 1:
            kind = self.function.owner if path[:-1] == ["Self"] else Type(self.file, path[:-1])
            return self.method(kind, path[-1])
        return None

    def answer_of(self, function):
        """The type that a function answers."""
        kind = function.answer
        if kind and kind.head == "Self" and function.owner:
            return function.owner
        if kind and any(arg and arg.head == "Self" for arg in kind.args):
            return Type(kind.file, kind.path, [function.owner if a and a.head == "Self" else a for a in kind.args])
        return kind

    def method(self, kind, name):
        """The method of a type, which is noted as called; None where the type has none of the house."""
        house = self.house
        kind = house.plain(kind)
        if kind is None:
            return None
        if len(kind.path) == 1 and kind.head in self.function.generics or kind.head == "Self":
            for trait in self.function.generics.get(kind.head, []):
                found = self.of_trait(trait, name)
                if found:
                    return found
            return None
        key = house.type_key(kind.file, kind)
        found = house.methods.get((key, name), []) if key else []
        self.called.update(found)  # more than one where a trait is there for several of its arguments
        return found[0] if found else None

    def of_trait(self, trait, name):
        """The method of a trait, or of one that it is of."""
        key = self.house.type_key(trait.file, trait)
        if not key:
            return None
        for function in self.house.methods.get((key, name), [])[:1]:
            self.called.add(function)
            return function
        for above in key[0].types[key[1]].get("above", []):
            found = self.of_trait(above, name)
            if found:
                return found
        return None

    def behind(self, kind, i):
        """The type of a chain that goes on at i, behind a part of that type, and the place behind it."""
        words, house = self.words, self.house
        while True:
            kind = house.plain(kind)
            if words[i] == "?":
                kind = kind.args[0] if kind and kind.args and kind.head in ("Result", "Option") else None
                i += 1
            elif words[i] == "[":
                j = self.end(i)
                if kind and kind.head in LISTS and kind.args:
                    kind = kind if ".." in words[i:j] or "..=" in words[i:j] else kind.args[0]
                else:
                    kind = None
                i = j + 1
            elif words[i] == "." and words[i + 1].isdigit():
                kind = self.field(kind, words[i + 1])
                i += 2
            elif words[i] == ".":
                name, j = words[i + 1], i + 2
                if words[j] == "::":
                    _, j = self.file.angles(j + 1)
                if words[j] == "(":
                    kind = self.method_call(kind, name)
                    i = self.end(j) + 1
                else:
                    kind = self.field(kind, name)
                    i = j
            else:
                return kind, i

    def field(self, kind, name):
        """The type of a field."""
        if kind is None:
            return None
        if kind.head == "()":
            return kind.args[int(name)] if name.isdigit() and int(name) < len(kind.args) else None
        key = self.house.type_key(kind.file, kind)
        return key[0].types[key[1]].get("fields", {}).get(name) if key else None

    def method_call(self, kind, name):
        """Notes the call of a method on something of a type; the type of what it answers."""
        found = self.method(kind, name)
        if found:
            return self.answer_of(found)
        if kind is not None:
            return self.of_library(kind, name)
        found = self.by_name(name)
        return self.answer_of(found) if found else None

    @staticmethod
    def of_library(kind, name):
        """What a method of the standard library answers, where that has a type of the house in it."""
        if name in SAME:
            return kind
        if name in INNER:
            return kind.args[0] if kind.args and kind.head in ("Option", "Result") else None
        if name in ONE and kind.head in LISTS and kind.args:
            return Type(kind.file, ["Option"], kind.args[:1])
        if name in ("ok_or", "ok_or_else", "ok"):
            return Type(kind.file, ["Result" if name != "ok" else "Option"], kind.args[:1])
        return None

    def by_name(self, name):
        """The method that a name alone means."""
        if name in PLAIN:
            return None
        crate = self.function.file.crate
        below = self.house.stands_on[crate]
        seen = [f for f in self.house.by_name.get(name, [])
                if f is not self.function and (f.file.crate == crate or f.file.crate in below and f.public)]
        for near in (lambda f: f.file is self.file, lambda f: f.file.crate == crate, lambda f: True):
            chosen = [f for f in seen if near(f)]
            if chosen:
                self.house.guessed.setdefault((self.function, name), chosen)
                self.called.update(chosen)
                return chosen[0]
        return None
