"""The judge, written from 01's section "Grammar" and 02's Ask 1 on top of the model's tables. Text in quotes in the comments is from
01, or from 02 where a request is named."""
from typing import NamedTuple

from model.common import COMMON, EXTENDED, I2C, ONE_WIRE, SPI
from model.interfaces import TABLES, rejection

NEED_CONFIGURED = (0x41, 0x44, 0x46, 0x4B, 0x4C)    # "41, 44, 46, 4B, 4C need configured."
# "returns 00, then one operand", in the order of the sections
ONE_OPERAND = (0x0B, 0x0D, 0x0F, 0x11, 0x13, 0x15, 0x22, 0x40, 0x42, 0x61, 0x63, 0x67)

class Context(NamedTuple):
    # "The context is the interface, configured or not, and N, at first the start state's."
    interface: int = 0
    configured: bool = False
    bits: int = 1

    def legal(self, byte):      # "a command legal in its context (common, or of its interface)"
        named = byte in COMMON or byte in TABLES[self.interface]
        return named and (self.configured or byte not in NEED_CONFIGURED)

    def code(self, byte):       # 02, Ask 1: "with SPI selected 40 stays"
        return 0x40 if byte in TABLES[self.interface] else rejection(self.interface, byte)

    def operands(self, byte):   # "none, one, nine (65) or ceil(N/8) (44, 4C)"
        return {0x65: 9, 0x44: -(-self.bits // 8), 0x4C: -(-self.bits // 8)}.get(byte, int(byte in ONE_OPERAND))

    def after(self, byte, last):
        # "00 clears the context to none, unconfigured, N = 1; 01 to 03 change the interface; 40 configures; 42 sets N.
        # Nothing else changes it."
        if byte == 0x00:
            return Context()
        if byte in (0x01, 0x02, 0x03):
            return self._replace(interface={0x01: I2C, 0x02: SPI, 0x03: ONE_WIRE}[byte])
        if byte == 0x42:        # "register = (operand + 63) mod 64"
            return self._replace(bits=(last + 63) % 64 + 1)
        return self._replace(configured=True) if byte == 0x40 else self

def verdict(context, data):
    """The line that the judge's answer is: "whole", "open" or "wrong at place k", with the code there (02, Ask 1)."""
    at = 0
    while at < len(data):
        if not context.legal(data[at]):
            return f"wrong at {at} ({context.code(data[at]):02x})"
        end = at + 1 + context.operands(data[at])
        if data[at] == 0x1D:    # "for 1D, an extended byte that its rules above define, and that byte's operand if it has one"
            if data[at + 1:] and data[at + 1] not in EXTENDED:
                return f"wrong at {at + 1} ({rejection('extended', data[at + 1]):02x})"
            end = at + 2 + (data[at + 1:at + 2] == b"\x0E")
        if end > len(data):
            return "open"
        context, at = context.after(data[at], data[end - 1]), end
    return "whole"
