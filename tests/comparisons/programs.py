#!/usr/bin/env python3
"""Compares the programs in a folder with the model where no contract can speak: python3 tests/comparisons/programs.py target/bin.

Their arguments and files that can't be read, then what `replay` and `judge` write of random input, from a file and from standard input.
"""
import pathlib
import random
import subprocess
import sys
import tempfile

sys.path.insert(0, str(pathlib.Path(__file__).resolve().parents[1]))
from makers.sessions import random_bytes, random_session     # noqa: E402
from makers.streams import every_item                        # noqa: E402
from model.judge import Context, verdict                     # noqa: E402
from model.replay import replay                              # noqa: E402

# each program, and its option if it has one
PROGRAMS = {"assemble": "", "replay": "", "view": "--color", "vcd": "--pull-up", "judge": ""}

def run(program, *words, given=b""):
    done = subprocess.run([program, *words], input=given, stdout=subprocess.PIPE, stderr=subprocess.PIPE, check=True)
    return done.stdout, done.stderr

def check_arguments(program, option):
    usage, error = run(program, "--help")
    assert usage.startswith(f"usage: {program.name} {f'[{option}] ' if option else ''}[FILE]\n".encode()) and not error, program
    known = [option] if option else []
    for words, wrong in ((["-x"], "-x"), (["-"], "-"), (["a", "b"], "b"), ([*known, "-x", "-y"], "-x"), ([*known, "a", "b", "c"], "b")):
        assert run(program, *words) == (b"", f"{wrong}: unknown argument\n".encode() + usage), (program, words)
    for unread in ("no such file", "/"):
        text, error = run(program, *known, unread)
        assert not text and error.startswith(f"{unread}: ".encode()) and error.count(b"\n") == 1, (program, unread)

def random_stream(seed):
    """A front part of orderly bytes and then any, so that the first wrong byte stands anywhere."""
    rng, orderly = random.Random(seed), every_item() * 3
    return orderly[:rng.randrange(len(orderly))] + random_bytes(rng, rng.randrange(4))

def compare(program, given, wanted):
    with tempfile.NamedTemporaryFile() as file:
        file.write(given)
        file.flush()
        same = run(program, file.name) == run(program, given=given) == (wanted, b"")
    if not same:
        print(f"{program.name} differs: {given.hex() if len(given) < 600 else f'{len(given)} bytes'}")
    return same

def main(folder):
    folder = pathlib.Path(folder).resolve()
    for name, option in PROGRAMS.items():
        check_arguments(folder / name, option)
    sessions = [random_session(seed) for seed in range(30000, 30500)]
    streams = [random_stream(seed) for seed in range(500)]
    results = [compare(folder / "replay", given, replay(given)) for given in sessions]
    results += [compare(folder / "judge", given, verdict(Context(), given).encode() + b"\n") for given in streams]
    print(f"the arguments of {len(PROGRAMS)} programs, {len(sessions)} sessions, {len(streams)} streams, {results.count(False)} differ")
    sys.exit(not all(results))

if __name__ == "__main__":
    main(*sys.argv[1:])
