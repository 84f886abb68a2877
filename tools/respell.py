#!/usr/bin/env python3
"""Respells the repository's own definitions, lemmas and fields in snake case: tools/respell.py [--look]

A name that begins with a small letter and has a capital or a dash inside becomes words joined by `_`, in .rt, .antt and .edit files.
Only names that an .antt file of the repository declares are respelled, and none that a file imports from a library.
With --look nothing is written, and what would fall together is listed.
"""
import pathlib
import re
import sys

ROOT = pathlib.Path(__file__).resolve().parent.parent
WORD = re.compile(r"[^\s(){}\[\],;.:@\"«»/|&+*%=<>?!^~`#$\\]+")
# what the check names itself
MADE = re.compile(r"^((invariant|decreases)-loop|returns-\d|Need-)")
# of two names that would fall together the lemma's gets `_lem`; these are fields or stand in other crates
PLAIN = {"actions-fit", "body-step", "one-wire", "one-wire-selected", "spi-selected", "size-register", "reply-count", "no-action"}
LEMMAS = {"low-bytes": "low_bytes_lem", "keep-d": "keep_d_lem"}
# .. and in these files alone
IN_FILES = {
    "crates/packet/proofs/Moves.antt": {"bits_up": "bits_up_lem"},
    "crates/decisions/proofs/Bounds.antt": {"reply-count": "reply_count_lem"},
    "crates/settings/proofs/Good.antt": {"good-registers": "good_registers_lem", "good-tail": "good_tail_lem"},
}
KEYWORDS = {"abbrev", "pub", "unfoldable", "data", "record", "use", "mod", "where", "let", "unfolding", "in", "private", "ruleset", "open"}
DECLARED = [
    re.compile(r"^(?:pub )?(?:(?:abbrev|unfoldable|ruleset) )?(?:pub )?([a-z][^\s:(){}]*)(?: [^:]*)? :(?:\s|$)"),
    re.compile(r"^\s+(?:pub )?([a-z][^\s:(){};=]*)(?: [a-z][^\s:(){};=]*)* : "),
    re.compile(r"^\s+([a-z][^\s:(){};=]*) (?:[^:=]*)= "),
]


def folders():
    return [p for p in sorted((ROOT / "crates").iterdir()) if p.is_dir()]


def files(*ends):
    for folder in folders():
        for p in sorted(folder.rglob("*")):
            if p.is_file() and p.suffix in ends and "out" not in p.relative_to(folder).parts:
                yield p


def snake(name):
    name = name.replace("-", "_")
    name = re.sub(r"(?<=[a-z'])(?=[A-Z])", "_", name)
    name = re.sub(r"(?<=[0-9])(?=[A-Z][a-z])", "_", name)
    name = re.sub(r"(?<=[A-Z])(?=[A-Z][a-z])", "_", name)
    return re.sub(r"_+", "_", name.lower())


def code_lines(text):
    return [l for l in text.splitlines() if not l.lstrip().startswith("--")]


def plain(name):
    return re.fullmatch(r"[a-z][A-Za-z0-9'₀-₉-]*(?:[-_][A-Za-z0-9'₀-₉]+)*", name) is not None


def imported():
    """Names that files import from libraries, and names of our own crates' generated modules."""
    found = set()
    for p in files(".antt", ".rt"):
        text = p.read_text()
        for m in re.finditer(r"use ([A-Za-z][^\s;]*?)\.\{([^}]*)\}", text):
            if not re.match(r"Rattle\.\w+\.(specs|proofs)\b", m[1]) or re.match(r"Rattle\.(std|core|io|check|bytes)\b", m[1]):
                found |= {w.strip().split(" as ")[0] for w in m[2].split(",")}
    return found


def declared():
    names = {}
    for p in files(".antt"):
        for line in code_lines(p.read_text()):
            for pattern in DECLARED:
                m = pattern.match(line)
                if m and m[1] not in KEYWORDS:
                    names.setdefault(m[1], set()).add(p)
            for m in re.finditer(r" as ([a-z][^\s,}]*)", line):
                if line.lstrip().startswith(("use", "pub use")):
                    names.setdefault(m[1], set()).add(p)
    return names


def main():
    look = "--look" in sys.argv
    theirs = imported()
    known = declared()
    turned = {}
    for name, places in known.items():
        if not plain(name) or name in theirs or MADE.match(name) or snake(name) == name:
            continue
        turned[name] = snake(name)
    both = {}
    for old, new in turned.items():
        both.setdefault(new, []).append(old)
    for new, olds in both.items():
        if len(olds) > 1:
            turned.update({o: new + "_lem" for o in olds if "-" in o and o not in PLAIN})
    turned.update({o: n for o, n in LEMMAS.items() if o in turned})
    back = {}
    for old, new in turned.items():
        back.setdefault(new, []).append(old)
    if look:
        for new, olds in sorted(back.items()):
            if len(olds) > 1:
                print("falls together:", new, "<-", ", ".join(olds))
            if new in theirs:
                print("is a library's:", new, "<-", olds[0])
    count = 0
    pages = [ROOT / "README.md", *sorted((ROOT / "docs").rglob("*.md"))]
    for p in [*files(".antt", ".rt", ".edit"), *(p for p in pages if not p.name.startswith("PORT"))]:
        text = p.read_text()
        words = set(WORD.findall(text))
        if look and p.suffix not in (".edit", ".md"):
            for new, olds in back.items():
                if new in words and any(o in words for o in olds):
                    print(f"{p.relative_to(ROOT)}: {new} stands beside {', '.join(o for o in olds if o in words)}")
        # port.py has respelled some names in .rt and .antt files alone
        older = {w: snake(w) for w in words if plain(w) and w not in turned and snake(w) in known} if p.suffix in (".md", ".edit") else {}
        here = turned | older
        if any(w in turned for w in words):
            here |= IN_FILES.get(str(p.relative_to(ROOT)), {})
        made = "\n".join(respelled(line, here, p.suffix, p.name == "Proof.antt") for line in text.split("\n"))
        if made != text:
            count += 1
            if not look:
                p.write_text(made)
    print(f"{len(turned)} names, {count} files")


def respelled(line, turned, suffix, is_proof):
    def turn(m):
        new = turned.get(m[0], m[0])
        # a step of a proof's context is named after a function
        return snake(m[0]) if is_proof and new != m[0] and line[m.start() - 1 : m.start()] == "." else new

    comment = re.match(r"\s*(--|//)", line)
    if suffix == ".md" or comment:
        # prose: a name stands in backquotes, or has a capital inside
        parts = re.split(r"(`[^`]*`)", line)
        for i, part in enumerate(parts):
            if i % 2:
                parts[i] = WORD.sub(turn, part)
            elif comment:
                parts[i] = WORD.sub(lambda m: m[0] if "-" in m[0] else turn(m), part)
        return "".join(parts)
    parts = re.split(r'("(?:[^"\\]|\\.)*")', line) if suffix != ".antt" else [line]
    for i in range(0, len(parts), 2):
        parts[i] = WORD.sub(turn, parts[i])
    return "".join(parts)


main()
