#!/usr/bin/env python3
"""Compares what sigrok decodes from the waveforms of sessions with the bytes that the sessions sent and read.

Each script is assembled, its waveform is made by 'vcd --pull-up' and decoded by sigrok-cli. What has to be decoded comes from the
session's command bytes and from the replies of the model in tests/model, never from the waveform.

    python3 tests/comparisons/waves/run.py [--assemble COMMAND] [--vcd COMMAND] [--keep FOLDER]
"""
import argparse
import pathlib
import shlex
import subprocess
import sys
import tempfile

from expected import wanted
from exchanges import spi_scripts

ROOT = pathlib.Path(__file__).resolve().parents[3]
STORED = sorted((ROOT / "tests/comparisons/waves").glob("*.script")) + sorted((ROOT / "examples").glob("*.script"))
PRESENT = ("Presence: true", "Slave presence detected")

def run(command, *words):
    try:
        done = subprocess.run([*shlex.split(command), *map(str, words)], capture_output=True)
    except FileNotFoundError:
        sys.exit(f"{command} is missing")
    if done.returncode != 0:
        sys.exit(f"{command} {words[-1]}: status {done.returncode}\n{done.stderr.decode(errors='replace')}")
    return done.stdout

def scripts():
    """The name and the text of every script."""
    return [(path.stem, path.read_text()) for path in STORED] + spi_scripts()

def decoded(waveform, decoder, rows):
    """What sigrok says of the waveform, for each row of annotations."""
    said = []
    for row in rows:
        out = run("sigrok-cli", "-P", decoder, "-A", row, "-I", "vcd", "-i", waveform).decode()
        said += [plain(line) for line in out.splitlines()]
    return [line for line in said if line]

def plain(line):
    text = line.split(": ", 1)[1]
    if text in ("Write", "Read"):       # said of an address again, with its byte, in the next line
        return None
    return "Presence: true" if text in PRESENT else text

def compare(name, text, folder, given):
    script, session, waveform = (folder / f"{name}.{kind}" for kind in ("script", "session", "vcd"))
    script.write_text(text)
    session.write_bytes(run(given.assemble, script))
    waveform.write_bytes(run(given.vcd, "--pull-up", session))
    decoder, rows, want = wanted(session.read_bytes())
    said = decoded(waveform, decoder, rows)
    same = said == want and len(want) > 0
    print(f"{name:30} {decoder.split(':')[0]:13} {len(want):4} wanted {len(said):4} decoded, {'same' if same else 'DIFFER'}")
    if not same:
        print(f"  wanted:  {', '.join(want)}\n  decoded: {', '.join(said)}")
    return same

def programs(about, *more):
    """The programs named on the command line, or those in target/bin; more are further options that take a word."""
    given = argparse.ArgumentParser(description=about.splitlines()[0])
    given.add_argument("--assemble", default=str(ROOT / "target/bin/assemble"), help="the program that makes a session of a script")
    given.add_argument("--vcd", default=str(ROOT / "target/bin/vcd"), help="the program that makes a waveform of a session")
    for option, meaning in more:
        given.add_argument(option, help=meaning)
    return given.parse_args()

def main():
    given = programs(__doc__, ("--keep", "a folder for the sessions and the waveforms"))
    with tempfile.TemporaryDirectory() as passing:
        folder = pathlib.Path(given.keep or passing)
        folder.mkdir(parents=True, exist_ok=True)
        results = [compare(name, text, folder, given) for name, text in scripts()]
    print(f"{len(results)} sessions, {results.count(False)} differ")
    return 0 if all(results) else 1

if __name__ == "__main__":
    sys.exit(main())
