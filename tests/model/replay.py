"""Switch-on and the replay of a session file, written from 01 alone on top of the model.

python3 -m model.replay SESSION TRANSCRIPT, in tests, reads the one and writes the other; with no names it only checks itself.
Text in quotes in the comments is from 01.
"""
import pathlib
import struct
import sys

from model.common import AUTOLOAD, I2C, ONE_WIRE, SPI, State, Turn
from model.interfaces import step

# "Start is factory, 00 seven times and FF three, IOG count FF, version and serial 0"
FACTORY, IOG, VERSION, SERIAL = bytes(7) + b"\xFF" * 3, 0xFF, 0, (0, 0, 0, 0)
# "Kinds: 1 bytes, 2 fault, 3 samples (replacing those unread)."
BYTES, FAULT, SAMPLES = 1, 2, 3
# "Output per event: kind 0102 actions, then 0101 replies"; "last 0104"; "kind 01FF in place of 0104"
REPLIES, ACTIONS, END, REFUSAL = 0x0101, 0x0102, 0x0104, 0x01FF
# "6 | record length over 4,096"; "10 | session over 32,768 bytes"
LONGEST_BODY, LONGEST_SESSION = 4096, 32768
FAULTS = (0x81, 0x82, 0x83)     # "81 frame, 82 overrun, 83 parity"

# ---- switch-on ----

def good(image):
    # "An image is good if it has ten bytes, flag bits 5 to 7 zero, at most one interface, C bits 6, 7
    # and D bits 0, 1 zero"
    if len(image) != 10:
        return False
    flags, _, _, ddrc, portc, ddrd, portd = image[:7]
    if flags & 0xE0 or flags & 7 not in (0, I2C, SPI, ONE_WIRE):
        return False
    return not (ddrc | portc) & 0xC0 and not (ddrd | portd) & 0x03 and good_tail(flags, *image[7:])

def good_tail(flags, config, size, mark):
    # "a tail that is FF FF FF without SPI ..., and with SPI selected <= 7, <= 63, 00 or 08"
    if flags & SPI:
        return config <= 7 and size <= 63 and mark in (0x00, 0x08)
    return (config, size, mark) == (0xFF, 0xFF, 0xFF)

def zero_state():
    # "switch-on's 3 and 11 give an all-zero state"
    state = State()
    state.eprom, state.times, state.iog = [0] * 10, [0] * 9, 0
    return state

def start_state(stored, factory, image, iog, version, serial):
    # "ERROR and the packet register start at 0, timings at their defaults, no wait; IOG count, version
    # and serial are given." The model's own start has these, and "configuration 0, N 1, unconfigured".
    state = State(version, serial)
    state.iog, state.flags = iog, image[0]
    # "EPROM holds the stored image if it has ten bytes, else the factory one."
    state.eprom = list(stored if len(stored) == 10 else factory)
    if state.flags & SPI:
        state.config, state.size, state.configured = image[7], image[8], image[9] == 0x08
    return state

def switch_on(stored, factory, iog, version, serial, room=2048):
    """Gives the number of the refusal or 0, the state, the image used and the actions."""
    # "11 | factory image not good"; 11 is checked "before 3"
    if not good(factory):
        return 11, zero_state(), factory[:0], []
    # "The settings used are a part of one of two lent images: the stored, if good with AUTOLOAD_EN set,
    # else the factory one."
    image = stored if good(stored) and stored[0] & AUTOLOAD else factory
    turn = Turn(start_state(stored, factory, image, iog, version, serial), b"")
    # "Actions: as reinit with the image's values, then CS or SS high."
    for register in range(6):
        turn.set_port(register, image[1 + register])
    turn.do(*{I2C: ["CS high"], SPI: ["SS high"]}.get(image[0] & 7, []))
    # "3 | the actions do not fit"; "the empty front part of the factory image"
    if len(turn.actions) * 4 > room:
        return 3, zero_state(), factory[:0], []
    return 0, turn.state, image, turn.actions

# ---- records ----

def record(kind, body):
    # "Records: body length (16 bits), kind (16 bits), little-endian, then the body."
    return struct.pack("<HH", len(body), kind) + body

def unless_empty(kind, body):
    # "none if empty"
    return record(kind, body) if body else b""

def packed(actions):
    # "An action is four bytes: verb, line, value (16 bits, little-endian)"
    return b"".join(struct.pack("<BBH", *action) for action in actions)

def fault_body(body):
    # "9 | a fault body is not one byte of 81, 82, 83 hex"
    return len(body) == 1 and body[0] in FAULTS

def reason(session, place):
    """The number that keeps the record at this place from being taken, or 0."""
    # "The lowest number that applies is given"
    left = len(session) - place
    if left < 4:                        # "5 | 1 to 3 bytes left where a record header should be"
        return 5
    length, kind = struct.unpack_from("<HH", session, place)
    if length > LONGEST_BODY:           # "6 | record length over 4,096"
        return 6
    if length > left - 4:               # "7 | record body passes the end"
        return 7
    if kind not in (BYTES, FAULT, SAMPLES):     # "8 | unknown kind"
        return 8
    if kind == FAULT and not fault_body(session[place + 4:place + 4 + length]):
        return 9
    return 0

# ---- the replay ----

class Ended(Exception):     # carries the number of a refusal and its place
    pass

class Run:
    """The bridge in the middle of a session: its state, the samples unread, what is written so far."""

    def __init__(self):
        # "switch-on's actions are not written". No image is stored, so EPROM holds the factory one.
        number, self.state, _, _ = switch_on(b"", FACTORY, IOG, VERSION, SERIAL)
        assert number == 0
        self.samples, self.out = b"", b""

    def event(self, kind, byte, place):
        self.state, number, used, replies, actions = step(self.state, kind, byte, self.samples)
        if number:                      # "2 | fewer samples are left than the event uses"
            raise Ended(number, place)  # "place (32 bits; the event byte, ...)"
        self.samples = self.samples[used:]      # "They are used from the front."
        # "Output per event: kind 0102 actions, then 0101 replies, none if empty"
        self.out += unless_empty(ACTIONS, packed(actions)) + unless_empty(REPLIES, bytes(replies))

    def take(self, session, place):
        """Takes the record at this place and gives the place after it."""
        number = reason(session, place)
        if number:                      # "A record that can't be taken ends the run there"
            raise Ended(number, place)  # "or the header for 5 to 9"
        length, kind = struct.unpack_from("<HH", session, place)
        start, end = place + 4, place + 4 + length
        if kind == SAMPLES:             # "3 samples (replacing those unread)"
            self.samples = session[start:end]
        else:                           # "An event is a received byte, or a line fault"
            for at in range(start, end):
                self.event(int(kind == FAULT), session[at], at)
        return end

def refused(number, place):
    # "kind 01FF in place of 0104: number (16 bits), place (32 bits ...)"
    return record(REFUSAL, struct.pack("<HI", number, place))

def replay(session):
    """The transcript of a session file."""
    # "10 is checked before any record"; its place is "0 for 10"
    if len(session) > LONGEST_SESSION:
        return refused(10, 0)
    run, place = Run(), 0
    try:
        while place < len(session):
            place = run.take(session, place)
    except Ended as end:                # "In a replay, earlier output stays."
        return run.out + refused(*end.args)
    # "last 0104 with one byte, 1 if waiting"; a pending drop (02, Ask 2) is no wait
    return run.out + record(END, bytes([run.state.waits()]))

# ---- checks ----

# "Whole case": a session and what it writes
WHOLE_CASE = bytes.fromhex("03 00 01 00 07 01 1A"), bytes.fromhex(
    "01 00 01 01 00  1C 00 02 01"
    "05 10 00 00 06 10 00 00 05 11 00 00 06 11 00 00 05 12 00 00 06 12 00 00 02 02 00 00"
    "01 00 01 01 00  01 00 01 01 09  01 00 04 01 00")

def check_switch_on():
    given = (0x12, 0x34, (1, 2, 3, 4))
    stored = bytes.fromhex("1A 01 02 03 04 FC FC 05 3F 08")
    number, state, image, actions = switch_on(stored, FACTORY, *given)
    assert (number, image, state.bits(), state.configured) == (0, stored, 64, True)
    assert packed(actions[-2:]) == bytes.fromhex("06 12 FC 00 02 06 00 00")
    for unused in ("0A 01 02 03 04 FC FC 05 3F 08", "1A 01 02 43 04 FC FC 05 3F 08", "18 00 00 00 00 00 00 05 00 08"):
        number, state, image, _ = switch_on(bytes.fromhex(unused), FACTORY, *given)
        assert (number, image, bytes(state.eprom)) == (0, FACTORY, bytes.fromhex(unused))
    assert bytes(switch_on(stored[:9], FACTORY, *given)[1].eprom) == FACTORY
    assert [switch_on(stored, FACTORY, *given, room)[0] for room in (27, 28)] == [3, 0]
    assert switch_on(stored, FACTORY[:9], *given, 0)[0] == 11

assert replay(WHOLE_CASE[0]) == WHOLE_CASE[1]
check_switch_on()

if __name__ == "__main__" and len(sys.argv) == 3:
    pathlib.Path(sys.argv[2]).write_bytes(replay(pathlib.Path(sys.argv[1]).read_bytes()))
