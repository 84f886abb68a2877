"""A second assembler, which follows the description of the format in docs/SCRIPTS.md, with the command list 001, the
grammar of 01 and the drop of 02, Ask 2, as it needs them.
"""
import collections
import re
import struct

LONGEST_BODY, LONGEST_SESSION = 4096, 32768
BYTES, FAULT, SAMPLES = 1, 2, 3
FAULTS = {b"frame": 0x81, b"overrun": 0x82, b"parity": 0x83}

# ---- the commands of the list 001, sections 2.1 to 2.2.3, from their first code on ----

COMMON = """ResetDevice InterfaceChoiceI2C InterfaceChoiceSPI InterfaceChoice1W ReadError SaveToEPROM ReadFromEPROM EnableReports
    DisableReports EnableAutoLoad DisableAutoLoad DDRBSetup DDRBRead PORTBSetup PORTBRead DDRCSetup DDRCRead PORTCSetup PORTCRead
    DDRDSetup DDRDRead PORTDSetup PORTDRead PINBRead PINCRead PINDRead ReadCommonConfig ReadVersion SetIOG DoExtendedCommand
    ReadSerialNumber"""
EXTENDED = """EnterProgMode_HVAVR GivePagelPosPulse_HVAVR GiveXTALPosPulse_HVAVR GiveWRNegPulse_HVAVR ExecuteVppFirstAlg_PIC
    ExecuteVddFirstAlg_PIC ExecuteVppLastAlg_PIC ExecuteVddLastAlg_PIC GiveWR250NegPulse_HVAVR GiveWR20NegPulse_HVAVR SetPort_PG
    ClearPort_PG SetDDR_PG ClearDDR_PG LoadIOGTime ReadIOGTime"""
I2C = "SendStart_I2C SendStop_I2C SendByte_I2C ReadByteA_I2C ReadByte_I2C ClearCS_I2C SetCS_I2C ReadCS_I2C"
SPI = """LoadConfig_SPI ReadConfig_SPI LoadPaketSize_SPI ReadPaketSize_SPI LoadPaket_SPI ReadPaket_SPI StartChange_SPI ClearSS_SPI
    SetSS_SPI ReadSS_SPI ReadSignPaket_SPI FastReadPaket_SPI FastSendPaket_SPI"""
ONE_WIRE = """SendReset_1W SendByte_1W ReadByte_1W SendBit_1W ReadBit_1W LoadTimes_1W ReadTimes_1W SendByteSTRPU_1W ClearSTRPU_1W
    Get580usPulse_1W Get110msPulse_1W"""
LEFT_OUT = (0x00, 0x04, 0x05, 0x06, 0x07)       # of the extended ones
ONE = {0x0B, 0x0D, 0x0F, 0x11, 0x13, 0x15, 0x1D, 0x22, 0x40, 0x42, 0x61, 0x63, 0x67}

NINE, PACKETS = {0x65}, {0x44, 0x4C}
CONFIGURED = {0x41, 0x44, 0x46, 0x4B, 0x4C}     # SPI's that need it configured
CYCLES = 0x0E                                   # the extended one with an operand

def operands(code, bits):       # how many operands a command has, where a packet is of so many bits
    return (bits + 7) // 8 if code in PACKETS else 9 if code in NINE else 1 if code in ONE else 0

def extended_operands(code):
    return 1 if code == CYCLES else 0

COMMANDS, NO_COMMANDS = {}, []
for names, first in ((COMMON, 0x00), (I2C, 0x20), (SPI, 0x40), (ONE_WIRE, 0x60)):
    for code, name in enumerate(names.split(), first):
        COMMANDS[name.encode()] = bytes([code])
for code, name in enumerate(EXTENDED.split()):
    if code in LEFT_OUT:
        NO_COMMANDS.append(name.encode())
    else:
        COMMANDS[name.encode()] = bytes([0x1D, code])
KNOWN = {opening[0] for opening in COMMANDS.values()}

class Stream:                   # where bytes and faults lead from the factory start; a rejected byte changes nothing
    def __init__(self):
        self.interface, self.configured, self.bits = 0, False, 1
        self.extended, self.command, self.left = False, None, 0
        self.drops = False      # after a fault between items, until a byte comes

    def fault(self):            # 02, Ask 2: "Several faults in a row drop one byte. Inside an item the rule of 01 stays"
        if not self.extended and not self.left:
            self.drops = True

    def take(self, byte):
        if self.drops:          # 02, Ask 2: "the byte ends the drop and does nothing else"
            self.drops = False
            return
        if self.left:
            self.left -= 1
        elif self.extended:
            if byte in LEFT_OUT or byte >= len(EXTENDED.split()):
                return
            self.extended, self.command, self.left = False, None, extended_operands(byte)
        elif byte == 0x1D:
            self.extended = True
            return
        else:
            if byte not in KNOWN or byte >= 0x20 and byte >> 5 != self.interface or byte in CONFIGURED and not self.configured:
                return
            self.command, self.left = byte, operands(byte, self.bits)
        if not self.left:
            self.end(byte)

    def follow(self, said):     # what a line says; samples lead nowhere
        kind, body = said or (SAMPLES, b"")
        if kind == FAULT:
            self.fault()
        for byte in body if kind == BYTES else b"":
            self.take(byte)

    def end(self, last):        # of an item, with its last byte
        if self.command == 0x00:
            self.interface, self.configured, self.bits = 0, False, 1
        elif self.command in (0x01, 0x02, 0x03):
            self.interface = self.command
        elif self.command == 0x40:
            self.configured = True
        elif self.command == 0x42:
            self.bits = (last + 63) % 64 + 1

def takes(name, stream):        # how many operands a command has where the stream stands
    opening = COMMANDS[name]
    return extended_operands(opening[1]) if opening[1:] else operands(opening[0], stream.bits)

# ---- the assembler ----

STATEMENT = "send, samples, fault or a command's name"
BYTE = "a byte in two hex digits"
COUNT = "a count from 1 to 99999"
FAULT_NAME = "frame, overrun or parity"
LINE_END = "the line's end"
ROOM = "no more than 32,768 bytes in all"

def operands_said(count):
    return {0: "no operand", 1: "one operand"}.get(count, f"{count} operands")

Word = collections.namedtuple("Word", "text start end")

class Wrong(Exception):
    def __init__(self, column, expected):       # a column from 0, and what was expected there
        super().__init__(column, expected)
        self.column, self.expected = column, expected

def list_of(words, before, end, room):          # the bytes of a list behind a word, in a line whose text ends at a place
    out, k = b"", 0
    while k < len(words):
        item, count = words[k], 1
        if not re.fullmatch(rb"[0-9A-Fa-f]{2}", item.text):
            raise Wrong(item.start, BYTE)
        last = item
        if k + 1 < len(words) and words[k + 1].text == b"x":
            if k + 2 == len(words):
                raise Wrong(end, COUNT)
            last = words[k + 2]
            if not re.fullmatch(rb"0*[1-9][0-9]{0,4}", last.text):
                raise Wrong(last.start, COUNT)
            count, k = int(last.text), k + 2
        if len(out) + count > room:
            raise Wrong(before, ROOM)
        out += bytes([int(item.text, 16)]) * count
        before, k = last.end, k + 1
    return out

def statement(line, stream):    # the kind and the bytes of a line's statement, or none
    text = line.split(b"#")[0]
    words = [Word(m.group(), m.start(), m.end()) for m in re.finditer(rb"[^ \t\r]+", text)]
    if not words:
        return None
    first, rest = words[0], words[1:]
    if first.text in (b"send", b"samples"):
        body = list_of(rest, first.end, len(text), LONGEST_SESSION)
        if not body:
            raise Wrong(first.end, BYTE)
        return BYTES if first.text == b"send" else SAMPLES, body
    if first.text == b"fault":
        if not rest or rest[0].text not in FAULTS:
            raise Wrong(rest[0].start if rest else len(text), FAULT_NAME)
        if rest[1:]:
            raise Wrong(rest[1].start, LINE_END)
        return FAULT, bytes([FAULTS[rest[0].text]])
    if first.text not in COMMANDS:
        raise Wrong(first.start, STATEMENT)
    opening, wanted = COMMANDS[first.text], takes(first.text, stream)
    given = list_of(rest, first.end, len(text), LONGEST_SESSION - len(opening))
    if len(given) != wanted:
        raise Wrong(first.start, operands_said(wanted))
    return BYTES, opening + given

def assembled(text):            # the session, and the line that says what is wrong
    out, stream = b"", Stream()
    for number, line in enumerate(text.split(b"\n"), 1):
        try:
            said = statement(line, stream)
            if said:
                stream.follow(said)
                kind, body = said
                for place in range(0, len(body), LONGEST_BODY):
                    part = body[place:place + LONGEST_BODY]
                    out += struct.pack("<HH", len(part), kind) + part
                if len(out) > LONGEST_SESSION:
                    raise Wrong(0, ROOM)
        except Wrong as wrong:
            return b"", f"line {number}, column {wrong.column + 1}: expected {wrong.expected}\n".encode()
    return out, b""
