"""exports.py CRATES: writes the C declarations of the functions that crates/rstore_c exports, from its source as rt fmt
lays it out, with asserts that C's structs lie in memory as those of crates/c_rows do. build.sh makes rstore_c.h by it."""

import re
import sys
from pathlib import Path

STRUCTS = {"Row": "rstore_row", "Near": "rstore_near", "Pair": "rstore_pair", "Layer": "rstore_layer",
           "NodeRow": "rstore_node"}
NUMBERS = {"u8": "uint8_t", "u32": "uint32_t", "u64": "uint64_t", "i32": "int32_t", "usize": "size_t", "bool": "bool"}
NOTHING = {"Global", "Stdin", "Stdout"}
SIZES = {"u8": 1, "u32": 4, "i32": 4, "u64": 8}
C_NAMES = {"dims": "axes"}  # where a field of C's is called otherwise


def parameter(name: str, kind: str) -> str:
    """A parameter of Rattle's as C has it: a slice is a pointer and a length."""
    if kind in NOTHING:
        return ""
    if kind in NUMBERS:
        return f"{NUMBERS[kind]} {name}"
    if kind == "&mut Handle":
        return f"rstore *{name}"
    if kind == "&mut *mut u8":
        return f"void **{name}"
    if match := re.fullmatch(r"&(mut )?\[(\w+)\]", kind):
        c = NUMBERS.get(match[2]) or STRUCTS[match[2]]
        return f"{'' if match[1] else 'const '}{c} *{name}, size_t {name}_len"
    if match := re.fullmatch(r"&mut (\w+)", kind):
        return f"{NUMBERS.get(match[1]) or STRUCTS[match[1]]} *{name}"
    raise SystemExit(f"exports.py: no C type is known for {name}: {kind}")


def declarations(source: str) -> list[str]:
    """The exports of a file."""
    found = re.findall(r'pub extern "C" fn (\w+)\((.*?)\) -> (\w+)', source, re.S)
    if len(found) != source.count("no_mangle"):
        raise SystemExit("exports.py: an export is not laid out as it must be")
    made = []
    for name, parameters, result in found:
        parts = [p.strip().split(": ", 1) for p in parameters.split(",") if p.strip()]
        arguments = ", ".join(filter(None, (parameter(*part) for part in parts)))
        made.append(f"extern {NUMBERS[result]} {name}({arguments});")
    return made


def asserts(source: str) -> list[str]:
    """Where the fields of the structs of a file lie."""
    made = []
    for name, body in re.findall(r"#\[repr\(C\)\]\n(?:#[^\n]*\n)*pub struct (\w+) \{(.*?)\n\}", source, re.S):
        at, most = 0, 1
        for field, element, count in re.findall(r"pub (\w+): \[?(\w+)(?:; (\d+)\])?,", body):
            size = SIZES[element]
            at, most = -(-at // size) * size, max(most, size)
            made.append(f"_Static_assert(offsetof({STRUCTS[name]}, {C_NAMES.get(field, field)}) == {at}, \"{name}\");")
            at += size * int(count or 1)
        made.append(f"_Static_assert(sizeof({STRUCTS[name]}) == {-(-at // most) * most}, \"{name}\");")
    return made


def main(crates: Path) -> None:
    """Writes all of it."""
    exports = sorted((crates / "rstore_c" / "src" / "exports").glob("*.rt"))
    rows = sorted((crates / "c_rows" / "src").glob("*.rt"))
    print("/* Written by exports.py. */")
    for line in [d for path in exports for d in declarations(path.read_text())] + [
        a for path in rows for a in asserts(path.read_text())
    ]:
        print(line)


if __name__ == "__main__":
    main(Path(sys.argv[1]))
