"""What sigrok has to decode from a session: worked out from its command bytes and the replies of the model."""
import pathlib
import struct
import sys

sys.path.insert(0, str(pathlib.Path(__file__).resolve().parents[2]))
from model.common import State                      # noqa: E402
from model.interfaces import step                   # noqa: E402
from model.replay import BYTES, FAULT, SAMPLES, reason  # noqa: E402

# ---- the session as commands ----

class Command:
    """A command byte with its operands, and all that was replied to them."""

    def __init__(self, byte):
        self.byte, self.operands, self.replies = byte, [], []

def records(session):
    place = 0
    while place < len(session):
        assert reason(session, place) == 0, f"no record at {place}"
        length, kind = struct.unpack_from("<HH", session, place)
        yield kind, session[place + 4:place + 4 + length]
        place += 4 + length

def note(found, state, byte):
    """A byte that the bridge does not drop is a command's first or its next."""
    if state.due or state.extended:
        found[-1].operands.append(byte)
    elif not state.drops:
        found.append(Command(byte))

def commands(session):
    state, samples, found = State(), b"", []
    for kind, body in records(session):
        if kind == SAMPLES:
            samples = body
            continue
        for byte in body:
            if kind == BYTES:
                note(found, state, byte)
            state, refusal, used, replies, _ = step(state, int(kind == FAULT), byte, samples)
            assert refusal == 0, f"refusal {refusal} at {byte:02X}"
            samples = samples[used:]
            if kind == BYTES and replies:
                found[-1].replies += replies
    return found

# ---- I2C: reports have to be on, since a code tells the acknowledge ----

def i2c(listed):
    said, running, address = [], False, None
    for c in listed:
        if c.byte == 0x20:                  # start; the next byte is an address
            said, running, address = said + ["Start repeat" if running else "Start"], True, None
        elif c.byte == 0x21:
            said, running = said + ["Stop"], False
        elif c.byte == 0x22:                # the last reply is 00, or 20 without acknowledge
            byte = c.operands[0]
            said += [i2c_byte(address, byte), "NACK" if c.replies[-1] else "ACK"]
            address = byte if address is None else address
        elif c.byte in (0x23, 0x24):        # read with acknowledge, and without
            said += [i2c_byte(address, c.replies[-1]), "ACK" if c.byte == 0x23 else "NACK"]
    return "i2c:scl=SCL:sda=SDA:address_format=unshifted", ["i2c=addr-data"], said

def i2c_byte(address, byte):
    kind = "read" if (byte if address is None else address) & 1 else "write"
    return f"{'Address' if address is None else 'Data'} {kind}: {byte:02X}"

# ---- SPI: one configuration a session; each exchange is loaded before and read after it ----

def spi(listed):
    config, bits, selected, out, sent, received = 0, 1, False, [], [], []
    for c in listed:
        if c.byte == 0x40:
            config = c.operands[0] % 8
        elif c.byte == 0x42:
            bits = c.operands[0] or 64
        elif c.byte in (0x47, 0x48):
            selected = c.byte == 0x47
        elif c.byte in (0x44, 0x4C):
            out = c.operands
        if selected and c.byte in (0x46, 0x4B, 0x4C):
            sent += words(out, config, bits)
        if selected and c.byte in (0x4A, 0x4B):
            received += words(c.replies[-len(out):], config, bits)
    assert len(sent) == len(received), "an exchange was not read"
    return spi_decoder(config, bits), ["spi=mosi-data", "spi=miso-data"], sent + received

def words(data, config, bits):
    """The words on the line in their order: bytes, or the packet as one word if its bits are no whole bytes."""
    if bits % 8:
        return [f"{int.from_bytes(bytes(data), 'little') % (1 << bits):02X}"]
    return [f"{byte:02X}" for byte in (reversed(data) if config & 4 else data)]

def spi_decoder(config, bits):
    order = "msb-first" if config & 4 else "lsb-first"
    return (f"spi:clk=SCK:miso=MISO:mosi=MOSI:cs=SS:cs_polarity=active-low:cpol={config >> 1 & 1}:cpha={config & 1}"
            f":bitorder={order}:wordsize={bits if bits % 8 else 8}")

# ---- 1-Wire: reports have to be on, since a code tells the presence ----

def one_wire(listed):
    said = []
    for c in listed:
        if c.byte == 0x60:
            said += ["Reset", "Presence: false" if c.replies[-1] else "Presence: true"]
        elif c.byte in (0x61, 0x67):
            said += wire_bits(c.operands[0], 8)
        elif c.byte == 0x63:
            said += wire_bits(c.operands[0], 1)
        elif c.byte == 0x62:
            said += wire_bits(c.replies[-1], 8)
        elif c.byte == 0x64:                # 0F or 8F
            said += wire_bits(c.replies[-1] >> 7, 1)
    return "onewire_link:owr=DQ", ["onewire_link=bits"], said

def wire_bits(byte, count):
    return [f"Bit: {byte >> k & 1}" for k in range(count)]

INTERFACES = {0x01: i2c, 0x02: spi, 0x03: one_wire}

def wanted(session):
    """sigrok's decoder with its options, the rows of annotations, and what they have to say."""
    listed = commands(session)
    interface = next(c.byte for c in listed if c.byte in INTERFACES)
    return INTERFACES[interface](listed)
