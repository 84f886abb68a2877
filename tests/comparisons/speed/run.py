#!/usr/bin/env python3
"""Counts instructions and takes the time of the replay and of the judge, beside the reference: run.py [--bin FOLDER] [--runs N].

Instructions are those that valgrind's callgrind counts for a whole run of the program, less those of a run on an empty file, which
are the start of the process, the reading of the name and the writing of the last record. The reference is built with opt-level 3
and without checks of overflow. Seconds are those of N runs in a row, each a process of its own; the empty file's tell how
much of that is the start. What is measured is the folder's `replay` and `judge`, and the library behind the wrapper ("library").
Every transcript and verdict is compared first.
"""
import argparse
import os
import pathlib
import re
import subprocess
import sys
import time

from loads import LOADS, load

HERE = pathlib.Path(__file__).resolve().parent
ROOT = HERE.parents[2]

# instructions a session byte of a plain hand-written C replay; packets loaded have none
GOALS = {"1-wire-writes": 377, "1-wire-reads": 86, "i2c-writes": 165, "exchanges": 45, "registers": 75}
# the most bytes that the program `judge` takes
LONGEST_SCRIPT = 65_535
# items from the factory start and from the turn's own end: every interface, operands of every number
TURN = ("01 07 20 22 5A 23 21 02 40 05 42 00 4C 01 23 45 67 89 AB CD EF 42 09 44 AA 01 46 4A 03 60 61 A5 62 65 10 20 30 40 50 60 "
        "70 80 90 66 0C 13 FF 14 1D 0E 10 1D 0F 1A 04 06")

def script(size):
    """Orderly bytes: whole turns, then 1A up to the size."""
    turn = bytes.fromhex(TURN)
    whole = turn * (size // len(turn))
    return whole + b"\x1a" * (size - len(whole))

def build(crate, folder, **more):
    """The crate's program, built for release in a folder of its own."""
    subprocess.run(["cargo", "build", "--quiet", "--offline", "--release", "--jobs", "1", "--target-dir", folder],
                   cwd=crate, check=True, env={**os.environ, "CARGO_PROFILE_RELEASE_OPT_LEVEL": "3", **more})
    return folder / "release" / crate.name

def output(command):
    return subprocess.run(command, stdout=subprocess.PIPE, check=False).stdout

def instructions(command):
    run = subprocess.run(["valgrind", "--tool=callgrind", "--callgrind-out-file=/dev/null", *command],
                         stdout=subprocess.DEVNULL, stderr=subprocess.PIPE, text=True, check=False)
    return int(re.search(r"Collected : (\d+)", run.stderr)[1])

def seconds(command, runs):
    start = time.perf_counter()
    for _ in range(runs):
        subprocess.run(command, stdout=subprocess.DEVNULL, check=False)
    return time.perf_counter() - start

def measure(programs, name, size, path, starts, runs, goal=None):
    """One row for each program; `starts` holds the instructions of each on an empty file."""
    for program, command in programs.items():
        count = instructions([*command, path]) - starts[program]
        rate = count / size
        aim = f"{goal:5} {rate / goal:6.2f}" if goal else " " * 12
        print(f"{name:14} {size:8} {program:10} {count:12,} {rate:9.1f} {aim} {seconds([*command, path], runs):8.3f}", flush=True)

def table(title, programs, empty, runs):
    """The head, and for each program the instructions on an empty file."""
    print(f"\n{title}\n{'load':14} {'bytes':>8} {'program':10} {'instructions':>12} {'per byte':>9} {'goal':>5} {'ratio':>6} "
          f"{f's/{runs} runs':>8}")
    starts = {}
    for program, command in programs.items():
        starts[program] = instructions([*command, empty])
        print(f"{'(empty)':14} {0:8} {program:10} {starts[program]:12,} {'':9} {'':12} {seconds([*command, empty], runs):8.3f}")
    return starts

def same(programs, path):
    """Stops if two programs don't write the same."""
    outputs = {program: output([*command, path]) for program, command in programs.items()}
    if len(set(outputs.values())) > 1:
        sys.exit(f"{path.name}: " + ", ".join(f"{program} writes {len(out)} bytes" for program, out in outputs.items())
                 + ", and not the same")

def main():
    arguments = argparse.ArgumentParser(description=__doc__.splitlines()[0])
    arguments.add_argument("--bin", type=pathlib.Path, default=ROOT / "target/bin", help="where `replay` and `judge` are")
    arguments.add_argument("--runs", type=int, default=100, help="runs for the time of each")
    given = arguments.parse_args()
    work = ROOT / "target/speed"
    files = work / "files"
    files.mkdir(parents=True, exist_ok=True)
    empty = files / "empty"
    empty.write_bytes(b"")
    reference = build(HERE.parent / "reference", work / "reference", CARGO_PROFILE_RELEASE_OVERFLOW_CHECKS="false")
    library = pathlib.Path(os.environ.get("BRIDGE_LIB", ROOT / "target/staticlib")) / "libexport.a"
    wrapper = build(HERE, work / "wrapper") if library.exists() else None
    if not wrapper:
        print(f"no {library}: the library is left out")

    replays = {"replay": [given.bin / "replay"], "reference": [reference, "replay"]}
    if wrapper:
        replays["library"] = [wrapper, "replay"]
    starts = table("Replay", replays, empty, given.runs)
    for name, parts in LOADS.items():
        path = files / f"{name}.session"
        path.write_bytes(load(*parts))
        same(replays, path)
        measure(replays, name, path.stat().st_size, path, starts, given.runs, GOALS.get(name))

    short, long = files / "short.script", files / "long.script"
    short.write_bytes(script(LONGEST_SCRIPT))
    long.write_bytes(script(1_000_000))
    judges = {"judge": [given.bin / "judge"], "reference": [reference, "judge"]}
    same(judges, short)
    if wrapper:
        judges["library"] = [wrapper, "judge"]
        if output([*judges["library"], long]) != b"Ok(Whole)\n" or output([reference, "judge", long]) != b"whole\n":
            sys.exit("long.script is not whole")
    starts = table("Judge", judges, empty, given.runs)
    measure(judges, "script", LONGEST_SCRIPT, short, starts, given.runs)
    del judges["judge"]
    measure(judges, "script", 1_000_000, long, starts, given.runs)

if __name__ == "__main__":
    main()
