"""The stored sessions of the program `vectors` and their transcripts, made with the model, 01's whole case first.

Each is written as the session's length (16 bits, little-endian), the transcript's length (32 bits,
little-endian), the session and the transcript. Text in quotes in the comments is from 01.
"""
import itertools
import random
import struct

from makers.events import LOOK, noise, spi_round
from makers.faults import drops_in_files, dropped_bytes, faults, inside_items, rows_of_faults
from makers.words import CONTEXTS, DEEP_LOOK, NAMED, PORTS, WAYS, hexes, operands, session
from model.common import COMMON, DROPPED, SEEN
from model.interfaces import TABLES
from model.replay import BYTES, END, FAULT, FAULTS, LONGEST_BODY, LONGEST_SESSION, REFUSAL, SAMPLES, WHOLE_CASE, record, replay

ALL_OPEN = ("0B", "0D", "0F", "11", "13", "15", "1D", "1D 0E", "1D 00")

def whole_case():
    yield WHOLE_CASE[0]

# ---- commands ----

def every_command():            # each after a code, so that the look shows whether it stored its own
    for reports, context, byte in itertools.product(WAYS, CONTEXTS.values(), NAMED):
        command = f"{byte:02X} {operands(byte)}"
        yield session(f"{reports} {context} {PORTS} FF :{noise(40, byte)} {command} {DEEP_LOOK}")

def unnamed_bytes():            # "An interface command without its interface selected, and any other byte: 80."
    for reports, context in itertools.product(WAYS, CONTEXTS.values()):
        yield session(f"{reports} {context} " + hexes(b for b in range(256) if b not in NAMED) + LOOK)

def extended_bytes():           # "after 1D a bad byte leaves the wait"
    for byte in range(256):
        yield session(f"07 {PORTS} 1D {byte:02X} 0F 3C 10 12 14 16 1A 04")
    for reports in WAYS:
        yield session(f"{reports} {PORTS} " + " ".join(f"1D {byte:02X} 04 0F 04" for byte in range(256)))

def open_ends():                # "last 0104 with one byte, 1 if waiting"
    for context, byte, n in (("01", 0x22, 1), ("02", 0x40, 1), ("02", 0x42, 1), ("02 40 01 42 14", 0x44, 20),
                             ("02 40 06 42 00", 0x44, 64), ("02 40 07 42 11", 0x4C, 17), ("03", 0x61, 1),
                             ("03", 0x63, 1), ("03", 0x65, 1), ("03", 0x67, 1)):
        given = operands(byte, n).split()
        for count in range(len(given) + 1):
            yield session(f"{context} :{noise(64, count)} {byte:02X} " + " ".join(given[:count]))
    yield from map(session, ALL_OPEN)

# ---- packets: every N, both bit orders, all four clock modes ----

PAIRS = set()                   # (configuration, N) of every packet exchanged

def packets():
    for k in range(64):
        words = f"{WAYS[k % 2]} 02 "
        for config in range(8):
            n = (k + 9 * config) % 64 + 1
            PAIRS.add((config, n))
            operand = (n + 64 * (k % 4)) % 256      # "register = (operand + 63) mod 64"
            words += spi_round(config, operand, 64 * k + config)
        yield session(words)

# ---- samples ----

NEEDS = [("01", "23", 8), ("01", "24", 8), ("01", "22 C3", 1), ("01", "27", 1), ("02 40 00 42 0C", "46", 12),
         ("02 40 05 42 0C", "4B", 12), ("02 40 06 42 0C", "4C 34 12", 12), ("02 40 03 42 40", "46", 64), ("02 40 04", "46", 1),
         ("02", "49", 1), ("03", "62", 8), ("03", "64", 1), ("03", "60", 1), ("00", "17", 1), ("00", "18", 1), ("00", "19", 1)]

def running_out():              # "2 | fewer samples are left than the event uses"
    for context, item, need in NEEDS:
        for k in range(need + 2):
            lent, before = noise(k, k + need), "1A " * (k % 5) + "| 04 " * (k % 3)
            yield session(f"07 {context} {before} :{lent} {item} 1A {item} 1A | !81 0C")

def replacing():                # "3 samples (replacing those unread)"
    for context, item, need in NEEDS:
        more, same, fewer = noise(need + 5, 11), noise(need, 12), noise(need - 1, 13)
        for first, then in ((more, same), (more, fewer), (fewer, same), (same, more), (more, "")):
            yield session(f"07 {context} :{first} 04 :{then} {item} 1A :{first} :{same} {item} {item} 1A")
        yield session(f"07 {context} :{same * 3} {item} {item} | {item} 1A :{more} {item} 1A {item}")

# ---- records that can't be taken ----

FRONTS = ["", "07 1A", "07 01 | !82 :00FF 27", "0B", "02 40 05 42 11 44 12 | 34", "03 :00 60 04 06 | !83 1D :01"]
GOOD_END = session("07 1A")
UNKNOWN = (0, 4, 0x0100, 0x0101, 0x0102, 0x0104, 0x01FF, 0x0201, 0x0300, 0xFFFF)
BAD_FAULTS = ("", "00", "01", "80", "84", "FF", "81 81", "82 83 81", "00 81", "81 00")

def bad_records():
    for left in ("01", "01 00", "01 00 01", "FF FF FF", "00", "00 10 02"):      # 5
        yield bytes.fromhex(left)
    for length, kind in itertools.product((4097, 0x8000, 0xFFFF), (1, 2, 3, 0, 0xFFFF)):    # 6, body or not
        yield struct.pack("<HH", length, kind) + bytes([0x1A]) * (kind % 4)
    for kind in (BYTES, FAULT, SAMPLES, *UNKNOWN[:3]):                          # 7
        yield from (record(kind, b"\x1A" * 9)[:-cut] for cut in (1, 4, 8, 9))
        yield struct.pack("<HH", LONGEST_BODY, kind) + b"\x1A"
    yield struct.pack("<HH", 1, FAULT)
    for kind in UNKNOWN:                                                        # 8
        yield from (record(kind, body) + GOOD_END for body in (b"", b"\x81", bytes(30)))
    for body in BAD_FAULTS:                                                     # 9
        yield record(FAULT, bytes.fromhex(body)) + GOOD_END

def refusals():
    return (session(front) + bad for front in FRONTS for bad in bad_records())

def bodies():                   # 4,096 bytes and 4,097, in records of every kind
    front = session("07 1A")
    for kind, byte, more in itertools.product((BYTES, FAULT, SAMPLES, 4), (0x1A, 0x81), (0, 1)):
        yield front + record(kind, bytes([byte]) * (LONGEST_BODY + more)) + session("17 1A")
        yield record(kind, bytes([byte]) * (LONGEST_BODY + more))[:-1]

def empty_records():            # also an empty file
    for front, kind in itertools.product(["", *FRONTS], (BYTES, FAULT, SAMPLES, 4)):
        yield session(front) + record(kind, b"") + session("04 17 1A")
    yield b""
    yield record(BYTES, b"") * 3 + record(SAMPLES, b"") * 2

def long_sessions():            # "10 | session over 32,768 bytes"
    full = record(SAMPLES, b"\x5A" * LONGEST_BODY) * 7
    full += record(SAMPLES, b"\xA5" * (LONGEST_SESSION - len(full) - 4 - 7)) + session("07 17 1A")
    assert len(full) == LONGEST_SESSION
    yield from (full, full[1:], full[:-1], full + b"\x1A", b"\xFF" * (LONGEST_SESSION + 1), b"\xFF" * 0xFFFF)

# ---- random sessions of records that can be taken, and the same with one flaw ----

def random_bytes(rng, count):
    choice = rng.choice((range(256), NAMED, range(0x6B), *(list(COMMON) + 3 * list(TABLES[i]) for i in (1, 2, 4))))
    return bytes(rng.choices([byte for byte in choice if byte > 3 or rng.random() < 0.3], k=count))

def random_faults(rng):         # one or several in a row; now and then a byte follows that would do much if it were not dropped
    many = b"".join(record(FAULT, bytes([rng.choice(FAULTS)])) for _ in range(rng.choice((1, 1, 2, 3))))
    return many + record(BYTES, bytes([rng.choice((0x00, 0x00, 0x02, 0x04, 0x1D, 0xFF))])) * (rng.random() < 0.4)

def random_record(rng):
    kind = rng.choices((BYTES, FAULT, SAMPLES), (6, 1.5, 3))[0]
    if kind == FAULT:
        return random_faults(rng)
    if kind == SAMPLES:
        return record(SAMPLES, bytes(rng.choices((0, 0, 0, 1, 0x80, 0xFF, 0x5A), k=rng.randrange(300))))
    return record(BYTES, random_bytes(rng, rng.randrange(30)))

def random_session(seed):
    rng = random.Random(seed)
    opening = rng.choice(("", *CONTEXTS.values(), f"02 40 {seed % 8:02X} 42 {seed % 256:02X}"))
    front = f":{noise(rng.randrange(400), seed)} {rng.choice(WAYS)} {opening}"
    return session(front) + b"".join(random_record(rng) for _ in range(rng.randrange(2, 12)))

def flawed(seed):
    rng, given = random.Random(seed + 5000), random_session(seed + 5000)
    place = rng.randrange(len(given))
    return given[:place] + (b"" if seed % 2 else bytes([rng.randrange(256)]) + given[place + 1:])

def random_sessions():
    yield from (random_session(seed) for seed in range(400))
    yield from (flawed(seed) for seed in range(200))

# ---- the file ----

SOUND = (whole_case, every_command, unnamed_bytes, extended_bytes, open_ends, packets, faults, dropped_bytes, rows_of_faults,
         inside_items)          # none may be refused
PARTS = (*SOUND, drops_in_files, running_out, replacing, refusals, bodies, empty_records, long_sessions, random_sessions)

def ending(transcript):         # the kind of the last record, and the number in it if it is a refusal
    place = kind = 0
    while place < len(transcript):
        length, kind = struct.unpack_from("<HH", transcript, place)
        place += 4 + length
    return kind, (struct.unpack_from("<H", transcript, place - 6)[0] if kind == REFUSAL else 0)

def files():
    SEEN.clear()
    out, endings = [], {}
    for part in PARTS:
        for given in part():
            transcript = replay(given)
            end = ending(transcript)
            assert end == (END, 0) or part not in SOUND, (part.__name__, given.hex())
            endings[end[1]] = endings.get(end[1], 0) + 1
            out.append(struct.pack("<HI", len(given), len(transcript)) + given + transcript)
    commands = {(table, byte) for table in TABLES for byte in TABLES[table]}
    assert SEEN == commands | {(DROPPED, byte) for byte in range(256)} and len(PAIRS) == 512
    assert set(endings) == {0, 2, 5, 6, 7, 8, 9, 10} and len(out) >= 400
    whole = b"".join(out)
    assert len(whole) < 4_000_000, len(whole)
    return {"vectors/data/sessions.bin": whole, "vectors/stdout": b"%d run, 0 differ\n" % len(out)}
