#!/usr/bin/env python3
"""Compares what `view` writes with the model: python3 tests/comparisons/view.py target/bin/view.

It is tried on the sessions of `vectors` and on random ones, and without its colours.
"""
import pathlib
import re
import subprocess
import sys

sys.path.insert(0, str(pathlib.Path(__file__).resolve().parents[1]))
from makers.forms import stored                         # noqa: E402
from makers.sessions import PARTS, random_session       # noqa: E402
from model.view import view                             # noqa: E402

def run(program, *arguments, given=b""):
    done = subprocess.run([program, *arguments], input=given, stdout=subprocess.PIPE, stderr=subprocess.PIPE, check=True)
    return done.stdout.decode(), done.stderr.decode()

def check_colors(program):
    plain, (colored, _) = view(stored()), run(program, "--color", given=stored())
    assert "\x1b" in colored and re.sub("\x1b\\[[0-9]*m", "", colored) == plain

def compare(program):
    check_colors(program)
    sessions = [given for part in PARTS for given in part()] + [random_session(seed) for seed in range(20000, 20500)]
    differ = 0
    for given in sessions:
        if run(program, given=given) != (view(given), ""):
            differ += 1
            print("differs:", given.hex() if len(given) < 600 else f"{len(given)} bytes")
    print(f"{len(sessions)} sessions, {differ} differ")
    sys.exit(differ != 0)

if __name__ == "__main__":
    compare(*sys.argv[1:])
