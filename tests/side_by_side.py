#!/usr/bin/env python3
"""Runs the commands of its standard input, a line each, in the repository's folder, as many side by side as there are
processors. What a command prints is printed once it has ended, with the seconds that it took. Where one fails no other
is begun, and the status is 1.

    tests/side_by_side.py <<'TESTS'
    tests/status.sh
    tests/program.py
    TESTS
"""
import concurrent.futures
import os
import signal
import subprocess
import sys
import threading
import time

TOP = os.path.realpath(os.path.join(os.path.dirname(__file__), ".."))
failed, printing = [], threading.Lock()
# What a shell begins in the background ignores an interrupt, and so would the commands.
signal.signal(signal.SIGINT, signal.default_int_handler)


def run(command):
    if failed:
        return
    begun = time.monotonic()
    done = subprocess.run(command, shell=True, cwd=TOP, stdin=subprocess.DEVNULL, stdout=subprocess.PIPE,
                          stderr=subprocess.STDOUT)
    with printing:
        if done.returncode:
            failed.append(command)
        print(done.stdout.decode(errors="replace"), end="")
        print(f"{command}: {time.monotonic() - begun:.0f} s{', FAILED' if done.returncode else ''}", flush=True)


with concurrent.futures.ThreadPoolExecutor(len(os.sched_getaffinity(0))) as jobs:
    list(jobs.map(run, [line.strip() for line in sys.stdin if line.strip()]))
sys.exit(1 if failed else 0)
