"""Sessions in words, and the contexts, looks and operands that they share. Text in quotes in the comments is from 01."""
import itertools

from makers.events import LOOK
from model.interfaces import TABLES
from model.replay import BYTES, FAULT, SAMPLES, record

# ---- sessions in words: "22" a byte, "17:5A" one after a record of samples, ":5A" a record of samples
# alone, "!81" a record of a fault, "|" the end of a record of bytes ----

def pieces(text):
    for word in text.split():
        data, colon, samples = word.partition(":")
        if word[0] in "!|":
            yield (FAULT if word[0] == "!" else 0), bytes.fromhex(word[1:])
            continue
        if colon:
            yield SAMPLES, bytes.fromhex(samples)
        if data:
            yield BYTES, bytes.fromhex(data)

def session(text):
    out = b""
    for kind, group in itertools.groupby(pieces(text), key=lambda piece: piece[0]):
        bodies = [body for _, body in group]
        if kind == BYTES:       # bytes in a row are one record
            bodies = [b"".join(bodies)]
        out += b"".join(record(kind, body) for body in bodies if kind)
    return out

def hexes(values):
    return " ".join(f"{value:02X}" for value in values)

CONTEXTS = {"none": "00", "I2C": "01", "SPI unconfigured": "02", "SPI": "02 40 05 42 0C 44 34 12", "1-Wire": "03",
            "1-Wire with other timings": "03 65 10 25 47 C4 86 CC F9 BF BC"}
WAYS = ("08", "07")             # "07/08 set/clear reports"
NAMED = sorted(byte for name, table in TABLES.items() if name != "extended" for byte in table)
PORTS = "0B 5A 0D A5 0F 2A 11 15 13 94 15 68 "
DEEP_LOOK = LOOK + "02 41 43 45 4A 03 66 1D 0F 04"     # also the SPI settings, packet, timings and IOG count

def operands(byte, n=12):       # "none, one, nine (65) or ceil(N/8) (44, 4C)"
    count = {0x65: 9, 0x44: (n + 7) // 8, 0x4C: (n + 7) // 8}.get(byte)
    if count is None:           # 1D's one byte is a bad one here; its wait ends at a good one in the look
        count = int(byte in (0x0B, 0x0D, 0x0F, 0x11, 0x13, 0x15, 0x1D, 0x22, 0x40, 0x42, 0x61, 0x63, 0x67))
    return hexes((0xA5 + 0x17 * k) % 256 for k in range(count))
