#!/usr/bin/env python3
"""Sessions near 32,768 bytes, one for each load whose speed is measured: python3 loads.py FOLDER."""
import pathlib
import sys

sys.path.insert(0, str(pathlib.Path(__file__).resolve().parents[2]))
from model.replay import BYTES, LONGEST_BODY, LONGEST_SESSION, SAMPLES, record       # noqa: E402

# name: the bytes before, the bytes of one turn, and the samples that a turn uses
LOADS = {
    "1-wire-writes": ("03 07", "61 A5", 0),
    "1-wire-reads": ("03 07", "62", 8),
    "i2c-writes": ("01 07", "22 5A", 1),
    "exchanges": ("02 07 40 05 42 00", "4C 01 23 45 67 89 AB CD EF", 64),
    "registers": ("03 07", "0C 13 FF 14 1A 04 06 65 10 20 30 40 50 60 70 80 90 66", 0),
    # packets loaded high bit first, N 1, 12 and 64
    "packets-1": ("02 07 40 04 42 01", "44 01", 0),
    "packets-12": ("02 07 40 04 42 0C", "44 34 12", 0),
    "packets-64": ("02 07 40 04 42 00", "44 01 23 45 67 89 AB CD EF", 0),
}

def load(before, turn, need):
    """Turns in records as long as may be, each record of bytes after the samples that it uses."""
    before, turn = bytes.fromhex(before), bytes.fromhex(turn)
    out = record(BYTES, before)
    while True:
        left = LONGEST_SESSION - len(out) - 8
        turns = min(LONGEST_BODY // max(len(turn), need), left // (len(turn) + need))
        if turns < 1:
            return out
        if need:
            out += record(SAMPLES, bytes(k % 3 * 127 for k in range(turns * need)))
        out += record(BYTES, turn * turns)

def main(folder):
    for name, parts in LOADS.items():
        path = pathlib.Path(folder) / f"{name}.session"
        path.write_bytes(load(*parts))
        print(path.name, path.stat().st_size)

if __name__ == "__main__":
    main(*sys.argv[1:])
