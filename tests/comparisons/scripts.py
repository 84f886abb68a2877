#!/usr/bin/env python3
"""Compares what `assemble` writes of 500 random scripts with the second assembler: scripts.py PROGRAM [--seed N]."""
import argparse
import pathlib
import subprocess
import sys

sys.path.insert(0, str(pathlib.Path(__file__).resolve().parents[1]))
from makers.scripts import random_script        # noqa: E402
from model.assembler import assembled           # noqa: E402

def compare(program, seed):
    texts = [random_script(1000 * seed + k) for k in range(500)]
    differ = 0
    for text in texts:
        run = subprocess.run([program], input=text, capture_output=True, check=False)
        session, wrong = assembled(text)
        if (run.stdout, run.stderr) != (session, wrong):
            differ += 1
            print(f"{text!r}:\n  {len(run.stdout)} bytes, {run.stderr!r}\n  {len(session)} bytes, {wrong!r}")
    print(f"{len(texts)} scripts, {differ} differ")
    return differ

def main():
    given = argparse.ArgumentParser(description=__doc__.splitlines()[0])
    given.add_argument("program")
    given.add_argument("--seed", type=int, default=1)
    given = given.parse_args()
    sys.exit(compare(given.program, given.seed) > 0)

if __name__ == "__main__":
    main()
