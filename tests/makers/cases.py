"""The stored cases of the program `cases` and the lines that it must write, made with the model.

A case is its kind (1 judge, 2 switch-on, 3 replay), its length (16 bits, little-endian) and its body, as crates/cases says. Text in
quotes in the comments is from 01, or from 02 where a request is named.
"""
import struct

from makers.events import events
from makers.streams import every_item
from makers.words import session
from model.common import State
from model.interfaces import step
from model.judge import Context, verdict
from model.replay import FACTORY, WHOLE_CASE, packed, record, replay, switch_on

# ---- the image of a state, as include/bridge.h lays it out ----

def image(state, wait=0, left=0, drops=None):
    return bytes([state.flags, state.error, *state.ports, state.config, state.configured, state.size, *state.packet.to_bytes(8, "big"),
                  *state.times, *state.eprom, state.iog, state.version, *state.serial, wait, left, *bytes(9),
                  state.drops if drops is None else drops])

# ---- the judge ----

def after(text):
    """The factory start after these events, which must wait for nothing."""
    state = State()
    for event in events(text):
        state = step(state, *event)[0]
    assert not state.waits()
    return state

def stepped(state, data):
    """The judge's line by what the model's calls for the bytes return, without the grammar (demand 3)."""
    for place, byte in enumerate(data):
        state.error = None      # so that it tells whether this byte returns a code
        state = step(state, 0, byte, bytes(64))[0]
        if state.error in (0x80, 0x84, 0x40):       # 02, Ask 1: "a rejected byte now returns one of the three"
            return f"wrong at {place} ({state.error:02x})"
    return "open" if state.waits() else "whole"

def verdicts():
    def judged(front, text):
        state, data = after(front), bytes.fromhex(text)
        assert not state.drops, front           # 02, Ask 2: "Demand 3 starts with no drop pending"
        line = verdict(Context(state.flags & 7, state.configured, state.bits()), data)
        assert stepped(after(front), data) == line, (front, text)
        return image(state) + data, line

    # "P8 empty: whole. P9 ... whole; without the last 01 open. P10 ... wrong at 1. P11 ... whole. P12 ... wrong at 5."; 02, Ask 1: "with
    # SPI selected 40 stays"
    edges = {"": "whole", "02 40 04 42 09 44 AA 01": "whole", "02 40 04 42 09 44 AA": "open", "02 44": "wrong at 1 (40)",
             "02 40 04 01 02 46": "whole", "02 40 04 00 02 46": "wrong at 5 (40)"}
    for text, line in edges.items():
        assert judged("", text)[1] == line, text
        yield judged("", text)
    whole = every_item()
    yield from (judged("", whole[:size].hex()) for size in range(len(whole) + 1))   # every front part of every item
    yield from (judged("", f"{byte:02X}") for byte in range(256))
    yield from (judged("", f"1D {byte:02X}") for byte in (*range(32), 0x20, 0x41, 0x6A, 0x80, 0xFF))
    # 02, Ask 1: the first and last commands of each interface and the bytes beside them, with each interface selected
    for byte in (0x1F, 0x20, 0x27, 0x28, 0x3F, 0x40, 0x41, 0x4C, 0x4D, 0x5F, 0x60, 0x6A, 0x6B):
        yield from (judged(front, f"{byte:02X}") for front in ("01", "02", "03"))
    # "The context is the interface, configured or not, and N, at first the start state's."
    for front in ("01", "02", "02 40 01", "02 40 04 42 00", "02 40 05 42 0C", "02 40 07 01", "03", "02 40 00 42 11 03"):
        for text in ("22 5A", "22", "20 40", "40", "41", "46", "44 01", "44 01 02", "44" + " 55" * 8, "4C" + " 55" * 9, "02 44", "02 46",
                     "02 44 01 02 03", "65" + " 11" * 9, "65" + " 11" * 8, "00 02 41", "02 42 09 46", "1D 0E", "1D 0E FF 04"):
            yield judged(front, text)
    # 02, Ask 2: "the byte ends the drop and does nothing else": the context is that before the fault
    for front, text in (("02 40 05 42 0C !81 00", "44 01 02"), ("!82 !83 02", "40"), ("01 !83 04", "20"), ("0B !82 5A", "04")):
        yield judged(front, text)

ONE_OPERAND = range(1, 14)      # of the image's waits; 8 is of I2C, 9 and 10 of SPI, 11 to 13 of 1-Wire
EXTENDED, PACKET, EXCHANGE, TIMINGS = range(14, 18)
OWN = {8: "01", 9: "02", 10: "02", 11: "03", 12: "03", 13: "03"}

def with_registers(front, **registers):
    state = after(front)
    for name, value in registers.items():
        setattr(state, name, value)
    return image(state)

def ports(register, value):
    return [value if k == register else 0 for k in range(6)]

def starts_out_of_range():      # "1 | the state breaks its ranges:"
    yield from (with_registers("", flags=flags) for flags in (3, 5, 6, 7))                      # "two interfaces"
    yield from (with_registers("", flags=flags) for flags in (0x20, 0x40, 0x80))                # "flag bits 5 to 7 set"
    yield from (with_registers("02", size=size) for size in (64, 255))                          # "size register over 63"
    yield from (with_registers("02", config=config) for config in (8, 255))                     # "SPI configuration over 7"
    for register, bits in ((2, (6, 7)), (3, (6, 7)), (4, (0, 1)), (5, (0, 1))):                 # "protected port bits set"
        yield from (with_registers("", ports=ports(register, 1 << bit)) for bit in bits)
    for wait, own in OWN.items():                                       # "a wait of an interface not selected"
        yield from (image(after(other), wait) for other in ("", "01", "02", "03") if other != own)
    for wait in (PACKET, EXCHANGE):                 # "a packet wait unconfigured or not for 1 to ceil(N/8) bytes"
        yield from (image(after(front), wait, 1) for front in ("", "02 40 00 01", "02 40 00 03", "02", "02 42 09"))
        yield from (image(after("02 40 00 42 09"), wait, left) for left in (0, 3, 255))
        yield from (image(after("02 40 00 42 00"), wait, left) for left in (0, 9))
    yield from (image(after(front), TIMINGS, 1) for front in ("", "01", "02"))
    yield from (image(after("03"), TIMINGS, left) for left in (0, 10, 255))                     # "a timing wait not for 1 to 9"

def waits_in_range():           # every wait, where it may be
    yield from ((OWN.get(wait, ""), wait, 0) for wait in (*ONE_OPERAND, EXTENDED))
    yield from (("02 40 00 42 09", wait, 2) for wait in (PACKET, EXCHANGE))
    yield "03", TIMINGS, 9

def drops_out_of_range():       # 02, Ask 2: "1 also for a drop beside a wait"
    yield from (image(after(front), wait, left, 1) for front, wait, left in waits_in_range())
    yield from (image(after("01"), drops=byte) for byte in (2, 255))                            # no state
    yield image(after("03"), 11, 0, 2)
    yield from (with_registers(front, flags=flags) for front, flags in (("!81", 3), ("01 !82", 0x21)))      # where 12 would apply
    yield with_registers("02 !83", size=64)
    yield image(after("01"), 11, 0, 1)                                  # with "a wait of an interface not selected" too

def starts_that_drop():         # 02, Ask 2: "12 also for a pending drop"
    yield from (image(after(front)) for front in ("!81", "!82", "!83", "01 !81", "02 40 04 42 09 !82 !83 !81", "03 !83"))

def starts_that_wait():         # "12 | judge's start waits for something"
    yield from (image(after(OWN.get(wait, "")), wait) for wait in ONE_OPERAND)
    yield image(after(""), EXTENDED)
    for wait in (PACKET, EXCHANGE):
        yield from (image(after("02 40 00 42 09"), wait, left) for left in (1, 2))
        yield from (image(after("02 40 00 42 00"), wait, left) for left in (1, 8))
    yield from (image(after("03"), TIMINGS, left) for left in (1, 9))

def refused_starts():           # "The lowest number that applies is given"
    for number, starts in ((1, starts_out_of_range()), (1, drops_out_of_range()), (12, starts_that_wait()), (12, starts_that_drop())):
        yield from ((start + b"\xFF", f"refused {number}") for start in starts)

# ---- switch-on ----

GIVEN = 0x37, 0x12, (0xA1, 0xB2, 0xC3, 0xD4)        # IOG count, version, serial number
BEFORE = 0xA5                                       # what the buffer holds
GOOD = {"none": "18 11 22 33 14 F4 E8 FF FF FF", "I2C": "19 11 22 33 14 F4 E8 FF FF FF", "SPI": "1A 11 22 33 14 F4 E8 07 3F 08",
        "SPI unconfigured": "12 11 22 33 14 F4 E8 00 00 00", "1-Wire": "1C 11 22 33 14 F4 E8 FF FF FF"}
OTHER = "02 81 82 03 04 84 88 05 0B 08"             # a factory image that no stored one here is equal to

def changed(text, place, byte):
    data = bytearray.fromhex(text)
    data[place] = byte
    return bytes(data)

def bad_images():
    for text in (GOOD["none"], GOOD["SPI"]):        # "ten bytes"
        yield from (bytes.fromhex(text)[:size] for size in (0, 1, 9))
        yield bytes.fromhex(text) + b"\xFF"
    for flags in (0x38, 0x58, 0x98, 0x1B, 0x1D, 0x1E, 0x1F):    # "flag bits 5 to 7 zero, at most one interface"
        yield changed(GOOD["none"], 0, flags)
        yield changed(GOOD["SPI"], 0, flags)
    for place, bits in ((3, (6, 7)), (4, (6, 7)), (5, (0, 1)), (6, (0, 1))):        # "C bits 6, 7 and D bits 0, 1 zero"
        yield from (changed(text, place, 1 << bit) for text in GOOD.values() for bit in bits)
    for place in (7, 8, 9):                         # "a tail that is FF FF FF without SPI"
        yield from (changed(GOOD[kind], place, byte) for kind in ("none", "I2C", "1-Wire") for byte in (0x00, 0x08, 0xFE))
    for place, byte in ((7, 8), (7, 255), (8, 64), (8, 255), (9, 1), (9, 9), (9, 255)):     # "<= 7, <= 63, 00 or 08"
        yield changed(GOOD["SPI"], place, byte)

def switched(stored, factory, room=40, mark=4):
    number, state, settings, actions = switch_on(stored, factory, *GIVEN, room - mark)
    written, buffer = packed(actions), bytes([BEFORE]) * room
    if written:
        buffer = buffer[:mark] + written + buffer[mark + len(written):]
    body = struct.pack("<BBBBB4B", room, mark, len(stored), *GIVEN[:2], *GIVEN[2]) + stored + factory
    line = (f"refused {number}" if number else "on") + f", actions {len(actions)}, buffer {buffer.hex()}, "
    return body, line + f"state {image(state).hex()}, settings {settings.hex()}"

def switch_ons():
    good, other = [bytes.fromhex(text) for text in GOOD.values()], bytes.fromhex(OTHER)
    for stored in good:
        yield switched(stored, other)                                       # "the stored, if good with AUTOLOAD_EN set"
        yield switched(bytes([stored[0] & ~0x10]) + stored[1:], other)      # "else the factory one"
        yield switched(b"", stored)
        yield switched(other, stored)
        for fit in (24, 28):                                                # "3 | the actions do not fit"
            yield from (switched(stored, other, room, mark) for room, mark in
                        ((fit, 0), (fit - 1, 0), (fit + 7, 7), (fit + 6, 7), (0, 0), (fit, fit), (fit, fit + 1), (fit, 255), (64, 0)))
    for bad in bad_images():
        yield switched(bad, other)
        yield switched(good[2], bad)                                        # "11 | factory image not good"
        yield switched(bad, bad, 0, 0)                                      # "11 before 3"
    yield switched(good[0], FACTORY)

# ---- the replay ----

# 02, Ask 2: a byte dropped after each fault and after two and three, and the byte after it; a dropped 00, 02, 04, 1D and FF, with reports
# and without; faults inside a wait for an operand, the byte after 1D, packet and timing bytes; an end with a drop, and with a wait
DROPS = """07 !81 1A 1A | 07 !82 1A 1A | 07 !83 1A 1A | 07 !81 !82 1A 04 1A | 07 !83 !81 !82 1A 1A 04 | 07 01 !81 00 1A 04
    | 01 !81 00 1A 04 | 07 !83 02 1A 04 | 07 !82 04 04 04 | !82 04 04 04 | 07 !81 FF 04 04 | !81 FF 04 04 | 07 !83 1D 0C 04
    | 07 0B !81 5A 0C 04 | 07 1D !82 !83 0F 04 | 1D 0E !83 44 1D 0F 04 | 02 40 00 42 09 44 !81 AA !82 01 45 04
    | 03 65 01 02 03 04 !83 05 06 07 08 09 66 04 | !81 | 0B !81"""

def transcripts():
    assert replay(WHOLE_CASE[0]) == WHOLE_CASE[1]
    given = [WHOLE_CASE[0], b"", session("07 0B"), session("07 17"), session("07") + b"\x01", session("07") + b"\x01\x10\x01\x00",
             session("07 1A")[:-1], session("07") + record(9, b""), session("07") + record(2, b"\x80"), *map(session, DROPS.split("|"))]
    yield from ((data, f"transcript {replay(data).hex()}") for data in given)

# ---- the file ----

KINDS = ((1, verdicts), (1, refused_starts), (2, switch_ons), (3, transcripts))

def files():
    data, lines = b"", []
    for kind, cases in KINDS:
        for body, line in cases():
            data += struct.pack("<BH", kind, len(body)) + body
            lines.append(line)
    for word in ("whole", "open", "wrong", "refused 1", "refused 12", "on,", "refused 11,", "refused 3,", "transcript"):
        assert sum(f"{line} ".startswith(word + " ") for line in lines) > 2, word
    assert len(data) < 65536, len(data)
    return {"cases/data/cases.bin": data, "cases/args": b"cases.bin\n", "cases/stdout": "\n".join([*lines, ""]).encode()}
