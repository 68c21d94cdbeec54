#!/usr/bin/env python3
"""Rows of CSV that are imported (docs/COMMANDS.md, "Import"): which columns are read, by the names of a header or by a
list, and by which line and column a bad row is told. The objects and the refusals were worked out by hand. It tests the
programs that `rt ci` made, by both compilers; where there is none, one is made.

import_rows.py [WORDS OF unittest, as the name of a class or Class.test]
"""
from imports import Imports
from runs import main

# What `--columns` lists, a text, and the objects that it is then.
LISTED = [
    ("id,a,b,c,d,t", "t,d,c,b,a,id\n9,4,3,2,1,8\n", ["8 1 2 3 4 tag 9"]),
    ("6,5,4,3,2,1", "9,4,3,2,1,8\n", ["8 1 2 3 4 tag 9"]),
    ("1,2,3", "8,1,2\n7,3,4\n", ["7 3 4 3 4", "8 1 2 1 2"]),
    (" 1 , lon,lat,lon , lat,4", "id,LON,LAT,k\n8,1,2,3\n", ["8 1 2 1 2 tag 3"]),
    (",1,2,3", "4,5,6\n", ["1 4 5 6 4 5 6"]),
    ("1,2,3,4,5,6,7,8", "1,2,3,4,5,6,7,8", ["1 2 3 4 5 6 7 tag 8"]),
]

# Rows below a header of id, minx, miny, MaxX and maxy, and what is told of them at the scale 10.
BAD_ROWS = [
    ('1,1,2,"12,5",4', 'line 2, column MaxX: "12,5" is no number'),
    ('1,1,2,3,4\n\n"2",1,2,3,4.5.6', 'line 4, column maxy: "4.5.6" is no number'),
    ('1,1,2,3,4\n2,"\n",2,3,4', 'line 3, column minx: "" is no number'),
    ("1,1,2,3e10,4", 'line 2, column MaxX: "3e10" is out of range'),
    ("-1,1,2,3,4", 'line 2, column id: "-1" is no identifier'),
    ("18446744073709551616,1,2,3,4", 'line 2, column id: "18446744073709551616" is no identifier'),
    ("+1,1,2,3,4", 'line 2, column id: "+1" is no identifier'),
    ("1,5,2,3,4", 'line 2, column minx: "5" is above its high'),
    ("1,1,4.3,3,4.2", 'line 2, column miny: "4.3" is above its high'),
    ("1,1,2,3", "line 2, column maxy: is missing"),
    ("1,1,2,3,4,5", 'line 2, column 6: "5" is a field too many'),
    ("1,1,2,\x1b[31m,4", 'line 2, column MaxX: "\\u{1b}[31m" is no number'),
]

# Headers of which a column lacks, or is given twice.
BAD_HEADERS = [
    ("id,minx,miny,maxx", "no column maxy"),
    ("id,minx,miny,maxx,maxy,maxz", "no column minz"),
    ("id,x", "no column y"),
    ("id,a,b", "no column minx"),
    ("", "no column minx"),
    ("x,y,X", "column X is given twice"),
    ("x,y,id,_id", "column _id is given twice"),
]

# The same of lists, where the header is a, b, c and C.
BAD_LISTS = [
    ("id,a,b", "no column id"),
    ("a,b,x", "no column x"),
    ("a,b,0", "no column 0"),
    ("a,b", '"a,b" is no list of columns'),
    ("", '"" is no list of columns'),
    ("1,2,3,4,5,6,7,8,9", '"1,2,3,4,5,6,7,8,9" is no list of columns'),
    ("a,b,b", "column b is given twice"),
    ("a,a,b", "column a is given twice"),
    ("a, 1,b", "column 1 is given twice"),
    (",a,b,a,b,b", "column b is given twice"),
    ("1,2,3,4,2", "column 2 is given twice"),
    ("a,b,,c", "no column "),
    ("c,a,b", "column c is given twice"),
]


class Rows(Imports):
    """Rows are objects, or refused."""

    def test_boxes_are_read_by_their_names(self):
        text = (
            "name,ID,MinX,min_y,xmax,y_max,Tag\r\n"
            "a,7,-1.26,2,3.01,4,5\r\n"
            '"b, ""c""", 18446744073709551615 ,0,"0", 0.1 ,-0,\r\n'
        )
        self.imports(["--scale", "10"], text, "7 -13 20 31 40 tag 5", "18446744073709551615 0 0 1 0")

    def test_points_and_rows_without_identifiers(self):
        text = b"\xef\xbb\xbfx,y,z\n1,2,3\n\n  \n1.5,-2.5,0\n"
        self.imports(["--scale", "1"], text, "1 1 2 3 1 2 3", "2 1 -3 0 2 -2 0")

    def test_three_axes(self):
        self.imports([], "id,minx,miny,minz,maxx,maxy,maxz,x\n3,1,2,3,4,5,6,9\n", "3 1 2 3 4 5 6")

    def test_columns_are_read_by_a_list(self):
        for columns, text, objects in LISTED:
            self.imports(["--columns", columns], text, *objects)

    def test_a_bad_row_is_told_by_its_line_and_column(self):
        for row, why in BAD_ROWS:
            self.refuses_text(["--scale", "10"], f"id,minx,miny,MaxX,maxy\n{row}\n", why)
        self.refuses_text([], "id,x,y,tag\n1,2,3,4294967296", 'line 2, column tag: "4294967296" is no tag')
        self.refuses_text(["--columns", "1,2,3"], "1,2,3\n1,a,3\n", 'line 2, column 2: "a" is no number')
        degrees = "id,lon,lat\n1,-3,55.00\n2,-0.1276,51.5\n"
        why = 'line 3, column lon: "-0.1276" is no whole number'
        self.refuses_text(["--columns", "id,lon,lat"], degrees, why)

    def test_columns_that_lack_or_are_given_twice(self):
        for header, why in BAD_HEADERS:
            self.refuses_text([], header, why)
        self.refuses_text([], "x\n", "no column y")
        for columns, why in BAD_LISTS:
            self.refuses_text(["--columns", columns], "a,b,c,C\n", why)

    def test_a_text_that_ends_early_is_no_fault(self):
        self.imports([], "id,x,y\n1,2,3", "1 2 3 2 3")
        self.imports(["--columns", "1,2,3"], "")

    def test_the_objects_are_put_in_by_the_order_of_their_rows(self):
        self.answers("--create store", "create a 2 4\ninsert a 7 0 0 0 0\ninsert a 8 0 0 0 0\n", "ok\n" * 3)
        for first, second in ((7, 8), (8, 7)):
            text = f"id,x,y\n{first},1,1\n{second},1,1\n"
            self.ends(1, "--import a store", text, "", f"rstore: object {first}: fail 9 Duplicate\n")


main()
