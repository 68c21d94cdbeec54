#!/usr/bin/env python3
"""Runs a program over files of command lines, one after the other through one pipe, and times each of them: from when the
program begins with it until it waits for more. A second run keeps the least times.

usage: phases.py TIMES REPLIES STORE FILE.. -- PROGRAM WORD..
    TIMES gets a line for each FILE: its processor seconds, or those that are there already where they are fewer, a tab, and
    the bytes of the program's files then, which are all whose names begin with STORE. REPLIES gets all replies.
"""
import ctypes
import fcntl
import glob
import itertools
import math
import os
import struct
import subprocess
import sys
import termios
import time


def clock_of(process):
    """The clock of the processor time of another process."""
    clock = ctypes.c_int()
    if ctypes.CDLL(None).clock_getcpuclockid(process.pid, ctypes.byref(clock)) != 0:
        sys.exit("phases.py: no clock of another process")
    return clock.value


def is_waiting(process):
    """Whether the program has read all and sleeps, which it does nowhere but in a read of its input."""
    left = struct.unpack("i", fcntl.ioctl(process.stdin, termios.FIONREAD, bytes(4)))[0]
    with open(f"/proc/{process.pid}/stat") as file:
        return left == 0 and file.read().rpartition(")")[2].split()[0] in "SZ"


def feed(process, path):
    with open(path, "rb") as file:
        while piece := file.read(1 << 20):
            process.stdin.write(piece)
    while not is_waiting(process):
        time.sleep(0.001)


def run(replies, store, paths, program):
    """The seconds and bytes of each file of lines."""
    with open(replies, "wb") as out:
        process = subprocess.Popen(program, stdin=subprocess.PIPE, stdout=out, bufsize=0)
    fcntl.fcntl(process.stdin, fcntl.F_SETPIPE_SZ, 1 << 20)
    clock = clock_of(process)
    for path in paths:
        begun = time.clock_gettime(clock)
        feed(process, path)
        yield time.clock_gettime(clock) - begun, sum(map(os.path.getsize, glob.glob(store + "*")))
    process.stdin.close()
    if process.wait() != 0:
        sys.exit(f"phases.py: {program[0]} ended with status {process.returncode}")


def main():
    split = sys.argv.index("--")
    times, replies, store, *paths = sys.argv[1:split]
    before = []
    if os.path.exists(times):
        with open(times) as file:
            before = [float(line.split()[0]) for line in file]
    measured = list(run(replies, store, paths, sys.argv[split + 1 :]))
    with open(times, "w") as file:
        for (seconds, size), earlier in itertools.zip_longest(measured, before, fillvalue=math.inf):
            print(min(seconds, earlier), size, sep="\t", file=file)


if __name__ == "__main__":
    main()
