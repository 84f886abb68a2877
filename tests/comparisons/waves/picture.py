#!/usr/bin/env python3
"""Draws a Value Change Dump as a picture (SVG).

    picture.py [--from US] [--to US] [--strips N] [--width PX] [--notes NAME=FILE]... [VCD] > SVG

The window of time is cut into strips, one below the other. A line that is released is drawn at mid height in another tone. A register
is a row of boxes with its value in hex. What keeps one value in the whole window is left out. A file of notes is what sigrok-cli
writes with --protocol-decoder-samplenum; its row has a box for each note.
"""
import argparse
import html
import re
import sys

# px: around, for the names, a row, its signal, the axis above a strip, between strips, a letter of a box
EDGE, NAMES, ROW, HIGH, AXIS, GAP, LETTER = 16, 64, 34, 20, 26, 14, 6.4
STYLE = ("text{font:12px sans-serif;fill:#222}.t{font-size:11px;fill:#666}.m{text-anchor:middle}.v{font-size:11px;text-anchor:middle}"
         ".g{stroke:#e2e2e2}.s{fill:none;stroke:#1b5e9c;stroke-width:1.6}.f{fill:none;stroke:#d08a2a;stroke-width:1.6}"
         ".b{fill:#eaf2f9;stroke:#1b5e9c}.n{fill:#f4f0e6;stroke:#a89468}")
LEGEND = (("s", "driven or sampled"), ("f", "released"))

# ---- reading ----

class Wave:
    """A line or a register: its name, its bits, and its values with the times from which they hold."""

    def __init__(self, name, bits):
        self.name, self.bits, self.changes = name, bits, []

    def put(self, time, value):
        if self.changes and self.changes[-1][0] == time:
            self.changes.pop()
        if not self.changes or self.changes[-1][1] != value:
            self.changes.append((time, value))

    def spans(self, start, end):
        """What it is in a window: from, to, value."""
        ends = [time for time, _ in self.changes[1:]] + [end]
        found = [(max(time, start), min(till, end), value) for (time, value), till in zip(self.changes, ends)]
        return [span for span in found if span[0] < span[1]]

def read_waves(text):
    """The waves in the file's order, and the time of its end."""
    head, _, body = text.partition("$enddefinitions $end")
    waves, time = {}, 0
    for words in map(str.split, head.splitlines()):
        if words[:1] == ["$var"]:
            waves[words[3]] = Wave(words[4], int(words[2]))
    for line in body.splitlines():
        if line.startswith("#"):
            time = int(line[1:])
        elif line.startswith("b"):
            value, name = line[1:].split()
            waves[name].put(time, value)
        elif line and not line.startswith("$"):
            waves[line[1:]].put(time, line[0])
    return list(waves.values()), time

def read_notes(given):
    """A row's name and its notes: from, to, text."""
    name, _, path = given.partition("=")
    with open(path, encoding="utf-8") as file:
        found = [re.match(r"(\d+)-(\d+) \S+: (.*)", line) for line in file]
    notes = [(int(m[1]), int(m[2]), m[3]) for m in found if m]
    return name, [note for note in notes if note[2] not in ("Read", "Write")]   # the address says it too

# ---- drawing ----

class Strip:
    """A part of the time, as wide as the picture, and where its moments and rows are."""

    def __init__(self, start, end, width, top):
        self.start, self.end, self.top = start, end, top
        self.scale = (width - NAMES - 2 * EDGE) / (end - start)

    def x(self, time):
        return round(EDGE + NAMES + (time - self.start) * self.scale, 1)

    def row(self, place):
        """The top of a row's signal."""
        return self.top + AXIS + place * ROW + (ROW - HIGH) // 2

    def ticks(self):
        """Times for the axis: steps of 1, 2 or 5 with zeros, at least 70 px apart."""
        step = next(s * 10 ** k for k in range(12) for s in (1, 2, 5) if s * 10 ** k * self.scale >= 70)
        return range(-(-self.start // step) * step, self.end + 1, step)

def axis(strip, rows):
    top, bottom = strip.top + AXIS - 6, strip.top + AXIS + rows * ROW
    yield f'<text class="t" x="{EDGE}" y="{top - 5}">µs</text>'
    for time in strip.ticks():
        x = strip.x(time)
        yield f'<path class="g" d="M{x} {top}V{bottom}"/><text class="t m" x="{x}" y="{top - 5}">{time:,}</text>'

def label(strip, place, name):
    return f'<text x="{EDGE}" y="{strip.row(place) + 14}">{html.escape(name)}</text>'

def level_y(top, value):
    return top + {"0": HIGH, "1": 0}.get(value, HIGH // 2)

def line(strip, place, spans):
    """A path for what is driven or sampled, with all edges, and one for what is released."""
    paths, last = {"f": "", "s": ""}, None
    for start, end, value in spans:
        y = level_y(strip.row(place), value)
        if last not in (None, y):
            paths["s"] += f"M{strip.x(start)} {last}V{y}"
        paths["s" if value in "01" else "f"] += f"M{strip.x(start)} {y}H{strip.x(end)}"
        last = y
    return "".join(f'<path class="{name}" d="{path}"/>' for name, path in paths.items() if path)

def box(strip, place, start, end, text, tone):
    x, wide, top = strip.x(start), round((end - start) * strip.scale, 1), strip.row(place)
    fitting = [t for t in (text, text.rpartition(": ")[2]) if len(t) * LETTER + 4 <= wide]
    shown = f'<text class="v" x="{round(x + wide / 2, 1)}" y="{top + 14}">{html.escape(fitting[0])}</text>' if fitting else ""
    return f'<rect class="{tone}" x="{x}" y="{top}" width="{wide}" height="{HIGH}"/>{shown}'

def wave_row(strip, place, wave):
    spans = wave.spans(strip.start, strip.end)
    yield label(strip, place, wave.name)
    if wave.bits == 1:
        yield line(strip, place, spans)
    else:
        yield from (box(strip, place, start, end, f"{int(value, 2):02X}", "b") for start, end, value in spans)

def note_row(strip, place, name, notes):
    """A note of no length, such as a start, is its first word alone."""
    yield label(strip, place, name)
    for (start, end, text), after in zip(notes, [*notes[1:], None]):
        end = min(end, free_until(strip, after))
        if start == end and strip.start <= start < strip.end:
            yield f'<text class="v" x="{strip.x(start)}" y="{strip.row(place) + 14}">{html.escape(text.split()[0])}</text>'
        elif start < strip.end and strip.start < end:
            yield box(strip, place, max(start, strip.start), min(end, strip.end), text, "n")

def free_until(strip, note):
    """Where the boxes before a note have to end: sigrok's notes may overlap."""
    if note is None:
        return strip.end
    start, end, text = note
    return start - (len(text.split()[0]) * LETTER / 2 / strip.scale if start == end else 0)

def legend(width, y):
    x = width - EDGE - 220
    for tone, text in LEGEND:
        yield f'<path class="{tone}" d="M{x} {y - 4}h20"/><text class="t" x="{x + 26}" y="{y}">{text}</text>'
        x += 136

def picture(waves, notes, window, count, width):
    start, end = window
    shown = [wave for wave in waves if len(wave.spans(start, end)) > 1]
    rows, part = len(shown) + len(notes), -(-(end - start) // count)
    tall = AXIS + rows * ROW + GAP
    height = EDGE + count * tall + EDGE
    yield (f'<svg xmlns="http://www.w3.org/2000/svg" width="{width}" height="{height}" viewBox="0 0 {width} {height}">'
           f'<style>{STYLE}</style><rect width="100%" height="100%" fill="#fff"/>')
    for k in range(count):
        strip = Strip(start + k * part, min(start + (k + 1) * part, end), width, EDGE + k * tall)
        yield from axis(strip, rows)
        for place, wave in enumerate(shown):
            yield from wave_row(strip, place, wave)
        for place, (name, listed) in enumerate(notes, len(shown)):
            yield from note_row(strip, place, name, listed)
    yield from legend(width, height - EDGE + 4)
    yield "</svg>"

def arguments():
    given = argparse.ArgumentParser(description=__doc__.splitlines()[0])
    given.add_argument("vcd", nargs="?", type=argparse.FileType(), default=sys.stdin)
    given.add_argument("--from", dest="start", metavar="US", type=int, default=0, help="first microsecond of the window")
    given.add_argument("--to", dest="end", metavar="US", type=int, help="end of the window")
    given.add_argument("--strips", metavar="N", type=int, default=1, help="parts of the window, one below the other")
    given.add_argument("--width", metavar="PX", type=int, default=1600, help="of the picture")
    given.add_argument("--notes", metavar="NAME=FILE", type=read_notes, action="append", default=[], help="a row of sigrok's notes")
    return given.parse_args()

def main():
    asked = arguments()
    waves, last = read_waves(asked.vcd.read())
    end = last if asked.end is None else min(asked.end, last)
    if not 0 <= asked.start < end or not 1 <= asked.strips <= end - asked.start:
        sys.exit(f"nothing to draw from {asked.start} to {end} in {asked.strips} strips")
    print("\n".join(picture(waves, asked.notes, (asked.start, end), asked.strips, asked.width)))

if __name__ == "__main__":
    main()
