"""The stored sessions with line faults: between commands, where each makes the bridge drop a byte, and inside items.

Text in quotes in the comments is from 01, or from 02 where a request is named.
"""
import itertools

from makers.events import LOOK, noise
from makers.words import CONTEXTS, DEEP_LOOK, PORTS, WAYS, operands, session
from model.replay import BYTES, FAULTS, SAMPLES, record

ITEMS = [("00", "1A"), ("00", "0B 5A"), ("00", "15 A5"), ("00", "1D 0A"), ("00", "1D 0E 44"), ("01", "20"), ("01", "22 C3"),
         ("01", "24"), ("02", "40 06"), ("02", "42 09"), ("02 40 03 42 0C", "44 34 12"), ("02", "44"), ("02", "41"),
         ("02 40 04 42 0C", "4C 34 12"), ("02 40 02 42 0C", "4B"), ("03", "61 A5"), ("03", "63 01"), ("03", "67 0F"),
         ("03", "62"), ("03", "65 01 02 03 04 05 06 07 08 09")]
# several in a row: all alike, and each other
ROWS = ("!81", "!82", "!83", "!81 !81", "!81 !82", "!83 !82", "!82 !82 !82", "!81 !82 !83", "!83 !81 !82 !82")

def faults():       # "A fault returns its code; the byte it came with is lost, any wait stays."; two 04, since one may be dropped
    for reports, (context, item), fault in itertools.product(WAYS, ITEMS, FAULTS):
        item, words, mark = item.split(), "", f" !{fault:X} "
        front = f"{reports} {context} :{noise(16, 9)} "
        for place in range(len(item) + 1):
            words += front + " ".join(item[:place]) + mark + " ".join(item[place:]) + " 04 04 "
        everywhere = mark.join(["", *item, ""])     # each byte of the item is dropped here, and LOOK's first
        yield session(f"{words} {front} {mark.join(item)} {LOOK} {front} {everywhere} {LOOK} {mark}")
    yield from (session(f"!{fault:X} !{fault:X} 07 !{fault:X} 04") for fault in FAULTS)

# ---- 02, Ask 2: "Between commands, then, a fault also makes the bridge drop the next good byte without a code." ----

def dropped_bytes():            # any byte, "even a 00", "ends the drop and does nothing else": 04 still sends the fault's code
    for reports, context in itertools.product(WAYS, CONTEXTS.values()):
        each = (f"!{FAULTS[byte % 3]:X} {byte:02X} 04" for byte in range(256))
        yield session(f"{reports} {context} {PORTS} {' '.join(each)} {DEEP_LOOK}")
    # the byte after it is read as ever: a command, an operand's, one of no name; then a drop again
    for reports, fault, byte in itertools.product(WAYS, FAULTS, (0x00, 0x02, 0x04, 0x0B, 0x1D, 0xFF)):
        for then in ("04", "00", "02", "FF", "0B 3C 0C", "1D 0F"):
            yield session(f"{reports} 01 {PORTS} 20 !{fault:X} {byte:02X} {then} 04 1A !{fault:X} {byte:02X} {then} {LOOK}")

def rows_of_faults():           # "Several faults in a row drop one byte."
    for reports, row, byte in itertools.product(WAYS, ROWS, ("00", "02", "04", "1A", "1D", "FF")):
        yield session(f"{reports} 03 {PORTS} {row} {byte} 1A 04 04 {row} {byte} | {byte} {DEEP_LOOK} {DEEP_LOOK}")
        yield session(f"{reports} 02 40 05 42 0C {row} 44 34 12 45 04 FF {row}")    # a row at the end: not waiting

OPEN = [(context, f"{byte:02X} {operands(byte)}") for context, byte in
        (*(("00", byte) for byte in (0x0B, 0x0D, 0x0F, 0x11, 0x13, 0x15)), ("01", 0x22), ("02", 0x40), ("02", 0x42),
         ("02 40 03 42 0C", 0x44), ("02 40 04 42 0C", 0x4C), ("03", 0x61), ("03", 0x63), ("03", 0x67), ("03", 0x65))]
OPEN += [("00", "1D 0A"), ("00", "1D 00 0A"), ("00", "1D 0E 44")]

def inside_items():             # "Inside an item the rule of 01 stays: that byte is lost, the wait goes on."
    for reports, (context, item), row in itertools.product(WAYS, OPEN, (*ROWS[:3], "!83 !81 !82")):
        item = item.split()
        front = f"{reports} {context} :{noise(16, 7)}"
        for place in range(1, len(item)):
            yield session(f"{front} {' '.join(item[:place])} {row} {' '.join(item[place:])} 1A 04 04 {DEEP_LOOK}")
        yield session(f"{front} {' '.join(item[:-1])} {row}")      # the end: waiting

def drops_in_files():           # the drop lasts from record to record; samples and empty records don't end it
    for fault, byte in itertools.product(FAULTS, ("00", "04", "17", "FF")):
        front, rest = session(f"07 {PORTS} :5A !{fault:X}"), session(f"{byte} 17 04 {LOOK}")
        for between in (b"", record(BYTES, b""), record(SAMPLES, b"\xA5"), record(SAMPLES, b""), record(BYTES, b"") * 2 + session(":A5")):
            yield front + between + rest
        yield front + b"\x01"                           # 5 to 9 are given as ever
        yield front + record(9, b"")
        yield front + record(2, b"\x84") + rest
    for need in ("17", "23", "60", "46"):               # the byte dropped uses no sample; the next of its kind lacks them
        for front in ("00", "01", "02 40 00 42 0C", "03"):
            yield session(f"07 {front} !82 {need} 1A {need} 1A")
