#!/usr/bin/env python3
"""Lines of GeoJSON that are imported (docs/COMMANDS.md, "Import"): the box of each geometry, identifiers and tags,
which line is which, and what is told of a line that is no feature. The objects and the refusals were worked out by
hand. It tests the programs that `rt ci` made, by both compilers; where there is none, one is made.

import_features.py [WORDS OF unittest, as the name of a class or Class.test]
"""
from imports import Imports
from runs import main

# Geometries, and their boxes in tenths.
GEOMETRIES = [
    ('{"type":"Point","coordinates":[1.5,-2]}', "15 -20 15 -20"),
    ('{"coordinates":[[1,2],[-3,4.01]],"type":"MultiPoint"}', "-30 20 10 41"),
    ('{"type":"LineString","coordinates":[[1e1,2],[3,4]]}', "30 20 100 40"),
    ('{"type":"MultiLineString","coordinates":[[[1,2],[3,4]],[[5,-6,7]]]}', "10 -60 50 40"),
    ('{"type":"Polygon","bbox":[0,0,9,9],"coordinates":[[[0,0],[4,0],[4,5.55],[0,0]],[]]}', "0 0 40 56"),
    ('{"type":"MultiPolygon","coordinates":[[[[0,0],[1,1]]],[[[2,2],[-0.05,3]]]]}', "-1 0 20 30"),
    (
        '{"type":"GeometryCollection","geometries":[{"type":"Point","coordinates":[1,2]}, '
        '{"type":"GeometryCollection","geometries":[]},{"type":"GeometryCollection","geometries":[ '
        '{"type":"LineString","coordinates":[[7,8],[5,6]]}]},{"type":"Polygon","coordinates":[]}]}',
        "10 20 70 80",
    ),
]

POINT = '"geometry":{"type":"Point","coordinates":[1,2]},"type":"Feature"'

# Members of a feature, its identifier, and its tag by the property `kind`.
NAMED = [
    ('"id":42,', "42", ""),
    ('"id":"43",', "43", ""),
    ('"id":null,', "1", ""),
    ('"properties":{"kind":7,"osm":5},', "1", " tag 7"),
    (r'"properties":{"k\u0069nd":"8"},', "1", " tag 8"),
    ('"properties":{"kind":null},"id":18446744073709551615,', "18446744073709551615", ""),
    ('"properties":null,', "1", ""),
]

# Lines, and what is told of them where `t` names the tag.
BAD_FEATURES = [
    ("[1]", r'member feature: "[1]" is no JSON'),
    ("{", r'member feature: "" is no JSON'),
    ("{}", r'member type: "{}" is no feature'),
    ('{"type":"FeatureCollection"}', r'member type: "\"FeatureCollection\"}" is no feature'),
    ('{"type":"Feature"}', r'member geometry: "{\"type\":\"Feature\"}" has no position'),
    ('{"type":"Feature","geometry":null}x', r'member feature: "x" is no JSON'),
    ('{"a":[1,]}', r'member a: "[1,]}" is no JSON'),
    ('{"a":{"b":tru}}', r'member a: "{\"b\":tru}}" is no JSON'),
    ('{"a":01}', r'member a: "01}" is no JSON'),
    (r'{"a":"\x"}', r'member a: "\"\\x\"}" is no JSON'),
    ('{"id":1.0}', r'member id: "1.0" is no identifier'),
    ('{"id":"a1"}', r'member id: "\"a1\"" is no identifier'),
    ('{"properties":{"t":4294967296}}', r'member t: "4294967296" is no tag'),
    ('{"geometry":{"type":"Circle"}}', r'member type: "\"Circle\"}}" is no geometry'),
    (
        '{"geometry":{"type":"Point","coordinates":[[1,2]]}}',
        r'member geometry: "{\"type\":\"Point\",\"coordinates\":[[1,2]]}}" is no geometry',
    ),
    ('{"geometry":{"coordinates":[[1,2],[[3,4]]]}}', r'member coordinates: "[3,4]]]}}" is no position'),
    ('{"geometry":{"coordinates":[1e10,2]}}', r'member coordinates: "1e10" is out of range'),
    ('{"geometry":{"coordinates":["1",2]}}', r'member coordinates: "\"1\",2]}}" is no position'),
]


def points(kind, coordinates):
    return f'{{"type":"Feature","geometry":{{"type":"{kind}","coordinates":{coordinates}}}}}'


class Features(Imports):
    """Lines are objects, or refused."""

    def imports_lines(self, words, text, *objects):
        self.imports(["--geojson", *words], text, *objects)

    def refuses_lines(self, words, text, why):
        self.refuses_text(["--geojson", *words], text, why)

    def test_each_geometry_has_its_least_box(self):
        for geometry, box in GEOMETRIES:
            text = f'{{"type":"Feature","properties":{{"a":[{{}},"}}"]}},"geometry":{geometry}}}'
            self.imports_lines(["--scale", "10"], text, f"1 {box}")

    def test_three_axes_want_three_coordinates(self):
        words = ["--axes", "3"]
        self.imports_lines(words, points("MultiPoint", "[[1,2,3],[4,5,-6,7]]"), "1 1 2 -6 4 5 3")
        why = 'line 1, member coordinates: "4,5]]}}" is no position'
        self.refuses_lines(words, points("MultiPoint", "[[1,2,3],[4,5]]"), why)

    def test_identifiers_and_tags(self):
        for members, ident, tag in NAMED:
            self.imports_lines(["--columns", ",kind"], "{" + members + POINT + "}", f"{ident} 1 2 1 2{tag}")
        text = f'{{"id":1,"properties":{{"stra\\u00dfe":9}},{POINT}}}\n\n\x1e{{{POINT}}}'
        self.refuses_lines(["--columns", "straße"], text, "line 3, member straße: is missing")
        self.imports_lines(["--columns", "straße"], text.splitlines()[0], "9 1 2 1 2")

    def test_lines_are_counted(self):
        text = (
            b'\xef\xbb\xbf\n\x1e{"type":"Feature","geometry":{"type":"Point","coordinates":[1,2]}}\r\n'
            b'\t\n {"geometry" : { "type" : "Point" , "coordinates" : [ 3 , 4 ] } , "type" : "Feature" } '
        )
        self.imports_lines([], text, "2 1 2 1 2", "4 3 4 3 4")

    def test_what_is_no_feature_is_told(self):
        for line, why in BAD_FEATURES:
            self.refuses_lines(["--columns", ",t", "--scale", "1"], line, f"line 1, {why}")
        why = 'line 1, member coordinates: "55.95" is no whole number'
        self.refuses_lines([], points("Point", "[-3.0,55.95]"), why)


main()
