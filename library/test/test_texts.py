"""test_texts.py [PROGRAM]: files of CSV and of GeoJSON as rstore.dask reads them in parts of any size, beside what the
program's `--import` makes of them, where that is given: columns by names and lists, numbers of many digits at scales of
many kinds, rows without identifiers, geometries, and what is refused, with its line. The program opens the shards of a
sharded layer. Wants numpy, and with the program Dask. RSTORE_LIBRARY names librstore.so."""

from __future__ import annotations

import json
import os
import random
import subprocess
import sys
import tempfile
from pathlib import Path

sys.path.insert(0, str(Path(__file__).resolve().parent.parent))

import rstore
from rstore import _texts

QUICK = bool(os.environ.get("RSTORE_QUICK"))
POINT = '"geometry":{"type":"Point","coordinates":[1,2]},"type":"Feature"'
HEADERS = ["id,minx,miny,maxx,maxy", "ID,Min_X,Ymin,MAXX,y_max,Tag", "a,id,x,y", "x,y,note", "tag,x,y,id"]
THREE = ["id,minx,miny,minz,maxx,maxy,maxz,tag", "x,y,z", "z,id,y,x"]
#: rows that are refused below a header of id, minx, miny, maxx and maxy, at the scale 10
BAD_ROWS = [
    '1,1,2,"12,5",4', "1,1,2,3e10,4", "-1,1,2,3,4", "18446744073709551616,1,2,3,4", "1,5,2,3,4", "1,1,4.3,3,4.2",
    "1,1,2,3", "1,1,2,3,4,5",
    "1,nan,2,3,4", "1,1_0,2,3,4", "1,1,2,inf,4", "1,,2,3,4", "1,1 1,2,3,4", ",1,2,3,4", "1,1,2,1e1000,4",
    "1,0x1,2,3,4", "1,1,2,3,1e", "1.0,1,2,3,4", "1,--1,2,3,4",
]
BAD_LINES = [
    "[1]", "{", "{}", '{"type":"Feature"}', '{"type":"Feature","geometry":null}x', '{"a":[1,]}',
    "{" + POINT + ',"id":1.0}',
    "{" + POINT + ',"id":"a1"}', "{" + POINT + ',"properties":{"t":4294967296}}', "{" + POINT + ',"geometry":null}',
    '{"type":"Feature","geometry":{"type":"Circle","coordinates":[1,2]}}', "{" + POINT + ',"type":"Feature"}',
    '{"type":"Feature","geometry":{"type":"Point","coordinates":[[1,2]]}}',
    '{"type":"Feature","geometry":{"type":"LineString","coordinates":[[1,2],[3]]}}',
    '{"type":"Feature","geometry":{"type":"Point","coordinates":[1e10,2]}}',
    '{"type":"Feature","geometry":{"type":"Point","coordinates":["1",2]}}',
    '{"type":"Feature","geometry":{"type":"Point","coordinates":[NaN,2]}}',
    '{"type":"Feature","geometry":{"type":"GeometryCollection","geometries":[],"coordinates":[]}}',
]


class Case:
    """A text, and the words of an import."""

    def __init__(self, text: str, name: str, dims: int, scale, columns) -> None:
        self.text, self.name, self.dims, self.scale, self.columns = text, name, dims, scale, columns

    def words(self) -> "list[str]":
        words = [] if self.scale is None else ["--scale", str(self.scale)]
        words += [] if self.columns is None else ["--columns", self.columns]
        return words + (["--geojson", "--axes", str(self.dims)] if self.name.endswith("json") else [])

    def read(self, folder: str, size) -> "list[str]":
        """The objects by the package, each as a line, by identifier."""
        path, found, before = os.path.join(folder, self.name), [], 0
        Path(path).write_text(self.text, encoding="utf-8", newline="")
        for part in _texts.parts_of(path, size, self.columns):
            part, dims = part._replace(before=before), self.dims
            for row in _texts.rows_of_text(part, dims, self.scale):
                numbers = [row["id"], *row["low"][:dims], *row["high"][:dims]]
                tag = f" tag {row['tag']}" if row["tag"] else ""
                found.append((int(row["id"]), " ".join(map(str, numbers)) + tag))
            if _texts.is_numbered(path, self.columns):
                before += _texts.count(part)
        return [line for _, line in sorted(found)]

    def imported(self, folder: str, program: str) -> "tuple[list[str], str]":
        """The objects by the program, or why it refuses them."""
        path = os.path.join(folder, "imported.rst")
        if os.path.exists(path):
            os.unlink(path)
        words = [program, "--create", "--import", "boxes", *self.words(), path]
        done = subprocess.run(words, input=self.text.encode(), capture_output=True, check=False)
        if done.returncode:
            return [], done.stderr.decode()
        whole = " ".join(["-2147483648"] * self.dims + ["2147483647"] * self.dims)
        asked = subprocess.run(
            [program, "--read-only", path], input=f"window boxes {whole}\n".encode(), capture_output=True, check=True
        )
        return asked.stdout.decode().splitlines()[1:], ""


def number(dice: random.Random, scale) -> str:
    """A decimal number that is in range."""
    digits = dice.choice([0, 0, 1, 3, 7, 9, 12, 16, 20]) if scale is not None else 0
    whole = dice.randrange(10 ** dice.randrange(1, 4))
    text = str(whole) + ("." + "".join(dice.choice("0123456789") for _ in range(digits)) if digits else "")
    if dice.random() < 0.05 and scale is not None:
        text += f"e-{dice.randrange(4)}"
    elif dice.random() < 0.02:
        text = "00" + text + ("." if "." not in text else "")
    return dice.choice(["", "", "-", "+"]) + text


def csv_case(dice: random.Random) -> Case:
    dims = dice.choice([2, 2, 3])
    header = dice.choice(HEADERS if dims == 2 else THREE)
    names, rows, scale = header.split(","), [], dice.choice([None, 1, 10, 1000, 128, 3, 10**6])
    for k in range(dice.randrange(40)):
        lows, highs = {}, {}
        for axis in "xyz":
            both = sorted([number(dice, scale), number(dice, scale)], key=float)
            lows[axis], highs[axis] = both
        fields = []
        for name in (name.lower().replace("_", "") for name in names):
            axis = name.strip("minax") or "x" if name[:3] in ("min", "max") else name[0]
            tag = dice.choice(["", "7", " 4294967295"])
            text = {"id": str(k + 5), "tag": tag, "a": '"b, ""c"""', "note": "é"}.get(name)
            if text is None:
                text = (highs if "max" in name else lows)[axis if axis in "xyz" else "x"]
            fields.append(f' "{text}"'.strip() if dice.random() < 0.1 and '"' not in text else text)
        rows.append(",".join(fields) + dice.choice(["\n", "\n", "\r\n", "\n \n"]))
    return Case(header + "\n" + "".join(rows), "a.csv", dims, scale, None)


def positions(dice: random.Random, scale, deep: int):
    if deep == 0:
        return "[" + ",".join(number(dice, scale).lstrip("+0.") or "0" for _ in range(3)) + "]"
    return "[" + ",".join(positions(dice, scale, deep - 1) for _ in range(dice.randrange(1, 4))) + "]"


def json_case(dice: random.Random) -> Case:
    scale, lines = dice.choice([None, 10, 10**6, 7]), []
    for k in range(dice.randrange(30)):
        kind, deep = dice.choice([("Point", 0), ("LineString", 1), ("Polygon", 2), ("MultiPolygon", 3)])
        text = positions(dice, scale, deep)
        try:
            json.loads(text)
        except ValueError:  # a number that is none of JSON
            text, kind = "[1,2,3]", "Point"
        id = dice.choice(["", f'"id":{k + 1000},', f'"id":"{k + 1000}",', '"id":null,'])
        tag = dice.choice(["", f'"properties":{{"kind":{k}}},', '"properties":null,', '"properties":{"other":[1]},'])
        lines.append(f'{{{id}{tag}"geometry":{{"type":"{kind}","coordinates":{text}}},"type":"Feature"}}')
        if dice.random() < 0.1:
            lines.append("")
    return Case("\n".join(lines), "a.geojson", dice.choice([2, 3]), scale, ",kind")


def compare(case: Case, folder: str, program: str, sizes) -> int:
    """What is read in parts of each size is what is read at once, and what the program imports."""
    try:
        whole, refused = case.read(folder, None), ""
    except rstore.Error as error:
        whole, refused = [], str(error)
    for size in sizes:
        try:
            assert case.read(folder, size) == whole and not refused, (size, case.text)
        except rstore.Error as error:
            assert str(error) == refused or '"' in case.text, (str(error), refused, case.text)
    if program:
        found, why = case.imported(folder, program)
        assert (found, bool(why)) == (whole, bool(refused)), (case.words(), case.text, found, whole, why, refused)
        if why and "line" in why:
            assert why.split("line ")[1].split(",")[0] == refused.split("line ")[1].split(",")[0], (why, refused)
    return 1 + len(sizes)


def listed(folder: str, program: str) -> int:
    """Columns by lists, and what is refused."""
    cases = [
        Case("t,d,c,b,a,id\n9,4,3,2,1,8\n", "a.csv", 2, None, "id,a,b,c,d,t"),
        Case("9,4,3,2,1,8\n", "a.csv", 2, None, "6,5,4,3,2,1"),
        Case("8,1,2\n7,3,4\n", "a.csv", 2, None, "1,2,3"),
        Case("id,LON,LAT,k\n8,1,2,3\n", "a.csv", 2, None, " 1 , lon,lat,lon , lat,4"),
        Case("4,5,6\n", "a.csv", 3, None, ",1,2,3"),
        Case("1,2,3,4,5,6,7,8", "a.csv", 3, None, "1,2,3,4,5,6,7,8"),
        Case('id,x,y\n1,"2\n",3\n2,4,5\n3,a,6\n', "a.csv", 2, None, None),
    ]
    cases += [Case("id,minx\n1,2\n", "a.csv", 2, None, None), Case("x,y,X\n1,2,3\n", "a.csv", 2, None, None)]
    for list_of in ("id,a,b", "a,b,x", "a,b,0", "a,b", "", "1,2,3,4,5,6,7,8,9", "a,b,b", "a,a,b", "a,b,,c", "c,a,b"):
        cases.append(Case("a,b,c,C\n1,2,3,4\n", "a.csv", 2, None, list_of))
    for row in BAD_ROWS:
        cases.append(Case(f"id,minx,miny,maxx,maxy\n7,1,1,2,2\n\n{row}\n9,1,1,0,0\n", "a.csv", 2, 10, None))
    for line in BAD_LINES:
        cases.append(Case(f"{{{POINT}}}\n\n{line}\n", "a.geojson", 2, 1, ",t"))
    cases.append(Case("id,x,y\n1,0.5,2\n", "a.csv", 2, None, None))
    cases.append(Case(f"\ufeff\n\x1e{{{POINT}}}\r\n\t\n {{{POINT}}} ", "a.geojson", 2, None, None))
    return sum(compare(case, folder, program, (1, 40)) for case in cases)


def opens_shards(folder: str, program: str) -> None:
    """The program opens each shard of a sharded layer."""
    import rstore.dask

    objects, found = [(k, (k, k, k + 1, k + 1), k % 5) for k in range(1000)], 0
    s = rstore.dask.build(objects, folder + "/shards", shards=3)
    for entry in s.manifest["shards"]:
        words = [program, "--read-only", os.path.join(s.folder, entry["path"])]
        told = subprocess.run(words, input=b"count objects\ncheck\n", capture_output=True, check=True).stdout.decode()
        assert told == f"ok 1\n{entry['count']}\nok\n", told
        found += entry["count"]
    assert found == 1000
    s.check()


def main() -> None:
    program, dice = sys.argv[1] if len(sys.argv) > 1 else "", random.Random(3)
    with tempfile.TemporaryDirectory() as folder:
        tried = listed(folder, program)
        if program:
            opens_shards(folder, program)
        for _ in range(15 if QUICK else 100):
            for case in (csv_case(dice), json_case(dice)):
                tried += compare(case, folder, program, (1, 30, 200))
    print(f"{tried} texts read in parts" + (", and imported by the program" if program else ""))


if __name__ == "__main__":
    main()
