#!/usr/bin/env python3
"""Makes what the programs are given in the gate, and what they must write, anew from the model: python3 tests/makers/stored.py.

It says which files of crates/ were changed by that. With --compare it changes none, and says which differ.
"""
import pathlib
import sys

sys.path.insert(0, str(pathlib.Path(__file__).resolve().parents[1]))
from makers import cases, events, forms, scripts, sessions, streams     # noqa: E402

CRATES = pathlib.Path(__file__).resolve().parents[2] / "crates"
MAKERS = {"drive": events, "vectors": sessions, "view and replay": forms, "judge": streams, "scripts": scripts, "cases": cases}

def differing(files):
    """Those of the files that are not stored so."""
    return {name: data for name, data in files.items() if not (CRATES / name).is_file() or (CRATES / name).read_bytes() != data}

def main(words):
    if words not in ([], ["--compare"]):
        sys.exit(__doc__)
    made = {name: data for maker in MAKERS.values() for name, data in maker.files().items()}
    changed = differing(made)
    for name, data in changed.items():
        print(f"crates/{name}: {'differs' if words else 'changed'}")
        if not words:
            (CRATES / name).parent.mkdir(exist_ok=True)
            (CRATES / name).write_bytes(data)
    print(f"{len(made)} files, {len(changed)} {'differ' if words else 'changed'}")
    sys.exit(bool(words and changed))

if __name__ == "__main__":
    main(sys.argv[1:])
