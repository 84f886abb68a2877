"""What `view` must write, from the model alone. Text in quotes in the comments is from 01, or from 02 where a request is named."""
from model import interfaces
from model.common import (COMMON, DIRECTION, DROPPED, I2C, LATCH, LINES, ONE_WIRE, PORT_LINE, SAMPLE, SAMPLE_PORT, SPI, WAIT_IOG,
                          WAIT_MS, WAIT_US, Turn)
from model.interfaces import TABLES
from model.replay import Ended, LONGEST_SESSION, Run

# the names of the list 001, in the order of their codes
NAMES = {
    "common": (range(0x1F), """
        ResetDevice InterfaceChoiceI2C InterfaceChoiceSPI InterfaceChoice1W ReadError SaveToEPROM ReadFromEPROM
        EnableReports DisableReports EnableAutoLoad DisableAutoLoad DDRBSetup DDRBRead PORTBSetup PORTBRead DDRCSetup
        DDRCRead PORTCSetup PORTCRead DDRDSetup DDRDRead PORTDSetup PORTDRead PINBRead PINCRead PINDRead
        ReadCommonConfig ReadVersion SetIOG DoExtendedCommand ReadSerialNumber"""),
    "extended": ((0x01, 0x02, 0x03, *range(0x08, 0x10)), """
        GivePagelPosPulse_HVAVR GiveXTALPosPulse_HVAVR GiveWRNegPulse_HVAVR GiveWR250NegPulse_HVAVR
        GiveWR20NegPulse_HVAVR SetPort_PG ClearPort_PG SetDDR_PG ClearDDR_PG LoadIOGTime ReadIOGTime"""),
    I2C: (range(0x20, 0x28), """
        SendStart_I2C SendStop_I2C SendByte_I2C ReadByteA_I2C ReadByte_I2C ClearCS_I2C SetCS_I2C ReadCS_I2C"""),
    SPI: (range(0x40, 0x4D), """
        LoadConfig_SPI ReadConfig_SPI LoadPaketSize_SPI ReadPaketSize_SPI LoadPaket_SPI ReadPaket_SPI StartChange_SPI
        ClearSS_SPI SetSS_SPI ReadSS_SPI ReadSignPaket_SPI FastReadPaket_SPI FastSendPaket_SPI"""),
    ONE_WIRE: (range(0x60, 0x6B), """
        SendReset_1W SendByte_1W ReadByte_1W SendBit_1W ReadBit_1W LoadTimes_1W ReadTimes_1W SendByteSTRPU_1W
        ClearSTRPU_1W Get580usPulse_1W Get110msPulse_1W"""),
}
NAME = {(table, byte): name for table, (codes, text) in NAMES.items() for byte, name in zip(codes, text.split(), strict=True)}
assert set(NAME) == {(table, byte) for table in TABLES if table for byte in TABLES[table]}

# "00 none, 20 no I2C acknowledge, 40 no SPI configuration, 60 no presence, 80 unknown command, 81 frame, 82 overrun, 83 parity"; 02, Ask
# 1: "Wrong interface is not unknown .. the new device code 84"
CODES = {0x00: "none", 0x20: "no acknowledge", 0x40: "no SPI configuration", 0x60: "no presence", 0x80: "unknown command",
         0x81: "frame", 0x82: "overrun", 0x83: "parity", 0x84: "wrong interface"}
# "Refusal numbers", those that a session can end with
REASONS = {2: "fewer samples are left than the event uses", 5: "1 to 3 bytes left where a record header should be",
           6: "record length over 4,096", 7: "record body passes the end", 8: "unknown kind",
           9: "a fault body is not one byte of 81, 82, 83 hex", 10: "session over 32,768 bytes"}
UNITS = {WAIT_US: "µs", WAIT_MS: "ms", WAIT_IOG: "IOG cycles"}

class Noted(Turn):
    """A turn that notes which of its replies are codes; the latest can be looked at."""
    latest = None
    def __init__(self, *given):
        super().__init__(*given)
        self.codes, Noted.latest = set(), self
    def returns(self, code):
        before = len(self.replies)
        super().returns(code)
        self.codes.update(range(before, len(self.replies)))

def plural(count, thing):
    return f"{count} {thing}" + "s" * (count != 1)

class Viewed(Run):
    """A replay that tells what it does."""
    def __init__(self):
        super().__init__()
        self.text, self.opened, self.counts = [], None, [0, 0, 0]

    def say(self, line):
        self.text.append(line)

    def waits(self):
        if self.state.extended:
            return "waits for an extended command"
        if not self.state.due:
            return "drops the next byte" if self.state.drops else "idle"
        table, byte = self.opened
        if (table, byte) == (ONE_WIRE, 0x65):
            return "waits for " + plural(self.state.due, "timing byte")
        if table == SPI and byte in (0x44, 0x4C):
            return "waits for " + plural(self.state.due, "packet byte") + ", then exchanges" * (byte == 0x4C)
        return f"waits for the operand of {NAME[self.opened]}"

    def command(self, byte):
        """What a byte is to the bridge as it stands, and which row's, if it is a command."""
        s = self.state
        if s.drops:             # 02, Ask 2: "the byte ends the drop and does nothing else"
            return DROPPED, None
        if s.extended:
            return NAME.get(("extended", byte), "unknown"), ("extended", byte)
        if s.due:
            wait = self.waits()
            what = [kind for kind in ("packet byte", "timing byte") if kind in wait] or [wait[len("waits for the "):]]
            return what[0], None
        table = "common" if byte in COMMON else {1: I2C, 2: SPI, 3: ONE_WIRE}.get(byte >> 5)
        name = NAME.get((table, byte), "unknown")
        return name + " without its interface" * (name != "unknown" and table not in ("common", s.flags & 7)), (table, byte)

    def action(self, action, samples):
        verb, line, value = action
        name = LINES[line] if line < PORT_LINE else "port " + "BCD"[line - PORT_LINE]
        if verb in UNITS:
            return f"wait {value} {UNITS[verb]}"
        if verb in (DIRECTION, LATCH):
            return f"{name} {'latch' if verb == LATCH else 'direction'} {value:02x}"
        if verb == SAMPLE_PORT:
            return f"sample {name}: {next(samples):02x}"
        if verb == SAMPLE:      # "for a line, 0 is low and anything else high"
            return f"sample {name}: {'high' if next(samples) else 'low'}"
        return f"{name} {('released', 'low', 'high')[verb]}"

    def event(self, kind, byte, place):
        what, row = ({0x81: "fault frame", 0x82: "fault overrun", 0x83: "fault parity"}[byte], None) if kind else self.command(byte)
        self.say(f"{place}: {what}" if kind else f"{place}: {byte:02x} {what}")
        lent, unconfigured = iter(self.samples), not self.state.configured
        super().event(kind, byte, place)
        turn = Noted.latest
        if row in (("common", 0x04), (SPI, 0x41)) and (row[1] == 0x04 or unconfigured):     # what these send is a code
            turn.codes.add(0)
        words = [self.action(action, lent) for action in turn.actions]
        for k in range(0, len(words), 6):
            self.say("    " + ", ".join(words[k:k + 6]))
        if turn.replies:
            shown = (f" {r:02x}" + (f" ({CODES[r]})" if k in turn.codes else "") for k, r in enumerate(turn.replies))
            self.say("    reply" + "".join(shown))
        if self.state.error:
            self.say(f"    ERROR {self.state.error:02x} ({CODES[self.state.error]})")
        if row and not self.state.extended and self.state.due:
            self.opened = row
        self.say("    " + self.waits())
        for k, more in enumerate((1, len(turn.replies), len(turn.actions))):
            self.counts[k] += more

def view(session):
    shown, place = Viewed(), 0
    number, at = (10, 0) if len(session) > LONGEST_SESSION else (0, 0)
    while not number and place < len(session):
        try:
            place = shown.take(session, place)
        except Ended as ended:
            number, at = ended.args
    if number:
        shown.say("    " * (number == 2) + f"refusal {number} at {at}: {REASONS[number]}")
    events, replies, actions = shown.counts
    shown.say(f"{plural(events, 'event')}, {plural(replies, 'reply byte')}, {plural(actions, 'action')}; "
              + (f"refusal {number} at {at}" if number else shown.waits()))
    return "\n".join(shown.text) + "\n"

interfaces.Turn = Noted         # `step` makes its turns by this name
