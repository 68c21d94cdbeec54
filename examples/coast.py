#!/usr/bin/env python3
"""Writes the coast of the world, or its rivers, as CSV to standard output: a box for each line between two points, with an
identifier in the order of the file, the corners in 1/32768 of a degree, and the kind of the line as its tag.

usage: coast.py coast|rivers

The lines are those of GSHHG (Wessel and Smith, 1996), high resolution: Debian's gmt-gshhg-high, read by ncdump of
netcdf-bin. Its points lie in bins of two degrees, counted from the south-west corner of each.
"""
import re
import subprocess
import sys

FILES = {"coast": "binned_GSHHS_h.nc", "rivers": "binned_river_h.nc"}
BIN = 65536  # two degrees
ROW = 180  # bins in a row, from 0 degrees eastwards; the rows from the north


def path_of(name):
    listed = subprocess.run(["dpkg", "-L", "gmt-gshhg-high"], capture_output=True, text=True)
    found = [line for line in listed.stdout.split() if line.endswith(name)]
    if not found:
        sys.exit("coast.py: needs Debian's gmt-gshhg-high and netcdf-bin: apt-get install gmt-gshhg-high netcdf-bin")
    return found[0]


def numbers(path, variable):
    """The numbers of a variable; what the file leaves out is as netCDF's short says it, -32767."""
    text = subprocess.run(["ncdump", "-v", variable, path], capture_output=True, text=True, check=True).stdout
    body = text.split("data:", 1)[1].split("=", 1)[1].rsplit(";", 1)[0]
    return [-32767 if number == "_" else int(number) for number in re.findall(r"-?\d+|_", body)]


def main():
    if sys.argv[1:] not in ([name] for name in FILES):
        sys.exit(__doc__)
    path = path_of(FILES[sys.argv[1]])
    levels = "Embedded_npts_levels_exit_entry_for_a_segment" if sys.argv[1] == "coast" else "Hierarchial_level_of_a_segment"
    first, count = numbers(path, "Id_of_first_segment_in_a_bin"), numbers(path, "N_segments_in_a_bin")
    begins, kinds = numbers(path, "Id_of_first_point_in_a_segment"), numbers(path, levels)
    east = numbers(path, "Relative_longitude_from_SW_corner_of_bin")
    north = numbers(path, "Relative_latitude_from_SW_corner_of_bin")
    begins.append(len(east))
    identifier, lines = 0, ["id,minx,miny,maxx,maxy,tag"]
    for place in range(len(first)):
        row, column = divmod(place, ROW)
        x = (column if column < ROW // 2 else column - ROW) * BIN
        y = (ROW // 4 - 1 - row) * BIN
        for segment in range(first[place], first[place] + count[place]):
            # of a coast: 1 land, 2 lake, 3 island in a lake, 4 pond; of a river: from 1, the large ones, up
            kind = (kinds[segment] >> 6) & 7 if sys.argv[1] == "coast" else kinds[segment]
            points = [(x + (east[k] & 65535), y + (north[k] & 65535)) for k in range(begins[segment], begins[segment + 1])]
            for (a, b), (c, d) in zip(points, points[1:]):
                identifier += 1
                lines.append(f"{identifier},{min(a, c)},{min(b, d)},{max(a, c)},{max(b, d)},{kind}")
        if len(lines) > 100_000:
            print("\n".join(lines))
            lines.clear()
    print("\n".join(lines))


main()
