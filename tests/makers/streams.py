"""The stored command bytes of the program `judge` and the line that it must write, made with the model.

Every command with its operands, each interface's after the bytes that select it, then one that is not legal.
"""
from model.common import COMMON, EXTENDED, I2C, ONE_WIRE, SPI
from model.interfaces import TABLES
from model.judge import Context, verdict

SELECTING = {0: b"", I2C: b"\x01", SPI: b"\x02\x40\x05\x42\x13", ONE_WIRE: b"\x03"}
PASSED_OVER = (0x00, 0x01, 0x02, 0x03, 0x1D)        # they change the interface, or open an extended command

def every_item():
    given = b"".join(b"\x1D" + bytes([byte]) + b"\x31" * (byte == 0x0E) for byte in sorted(EXTENDED))
    for interface, selecting in SELECTING.items():
        given += selecting
        context = Context(interface, interface == SPI, 19)
        for byte in sorted(TABLES[interface] if interface else COMMON):
            if byte not in PASSED_OVER:
                given += bytes([byte, *range(0x31, 0x31 + context.operands(byte))])
                context = context.after(byte, given[-1])
    return given

def files():
    given = every_item()
    assert verdict(Context(), given) == "whole"
    given += b"\x20\x04"        # I2C's start, where 1-Wire is selected
    return {"judge/stdin": given, "judge/stdout": verdict(Context(), given).encode() + b"\n"}
