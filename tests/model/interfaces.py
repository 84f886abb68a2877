"""The model's I2C, SPI and 1-Wire commands, and one event.

Text in quotes in the comments is from 01, or from 02 where a request is named.
"""
from model.common import (COMMON, DROPPED, EXTENDED, I2C, ONE_WIRE, SEEN, SPI, WAIT_MS, WAIT_US, Refused, State, Turn, awaits, done,
                          just, lines, read_line, sends)

# ---- I2C ----

def i2c_write_bit(t, bit):      # "each bit is SDA low or release, SCL release, SCL low"
    t.do("SDA release" if bit else "SDA low", "SCL release", "SCL low")

def i2c_read_bit(t):            # "SDA release, SCL release, sample SDA, SCL low"
    t.do("SDA release", "SCL release")
    bit = t.sample("SDA")
    t.do("SCL low")
    return bit

def i2c_send(t, data):          # "22: 00, then one operand, high bit first; ... returns 00 if low, else 20."
    for place in range(7, -1, -1):
        i2c_write_bit(t, data[0] >> place & 1)
    t.returns(0x20 if i2c_read_bit(t) else 0x00)

def i2c_read(t, last):          # "eight times ...; then a bit of the first form, low for 23, release for
    byte = 0                    # 24; sends the byte, first sample highest."
    for _ in range(8):
        byte = byte << 1 | i2c_read_bit(t)
    i2c_write_bit(t, last)
    t.send(byte)
I2C_TABLE = {
    # "20: SDA release, SCL release, SDA low, SCL low; 00. 21: SDA low, SCL release, SDA release; 00."
    0x20: lines("SDA release", "SCL release", "SDA low", "SCL low"),
    0x21: lines("SDA low", "SCL release", "SDA release"),
    0x22: awaits(i2c_send), 0x23: just(i2c_read, 0), 0x24: just(i2c_read, 1),
    # "25/26: CS low/high; 00."
    0x25: lines("CS low"), 0x26: lines("CS high"), 0x27: just(read_line, "CS")}

# ---- SPI ----

def load_config(t, data):       # "40: 00, then operand mod 8 is CONFIG_SPI, configured is marked; 00."
    t.state.config, t.state.configured = data[0] % 8, True

def read_config(t):             # "41 sends CONFIG_SPI; unconfigured, it returns 40, which is sent once,
    if not t.state.configured:  # reports or not (H)."
        t.state.error = 0x40
    t.send(t.state.config if t.state.configured else 0x40)

def load_size(t, data):         # "42: 00, then register = (operand + 63) mod 64; 00."
    t.state.size = (data[0] + 63) % 64

def configured(command):        # "44, 46, 4B, 4C (H) unconfigured return 40."
    return lambda t: command(t) if t.state.configured else t.returns(0x40)

def load_packet(t, data):       # "ceil(N/8) bytes, lowest first; the low N bits are kept, the rest zero;
    n = t.state.bits()          # with bit 2 of CONFIG_SPI they move up by 64 - N." "only at the last byte"
    t.state.packet = int.from_bytes(bytes(data), "little") % (1 << n)
    if t.state.config & 4:
        for _ in range(64 - n):                 # request 3: "what as many moves by one bit give"
            t.state.packet <<= 1

def exchange(t):                # "46: SCK to CPOL (bit 1), then N bits, from bit 63 down with bit 2 set,
    s, n, received = t.state, t.state.bits(), 0                                 # else from bit 0 up."
    t.do("SCK high" if s.config & 2 else "SCK low")
    for k in range(n):
        bit = exchange_bit(t, s.packet >> (63 - k if s.config & 4 else k) & 1)
        # "the first one at bit N - 1 with bit 2 set, else at bit 0"
        received |= bit << (n - 1 - k if s.config & 4 else k)
    s.packet = received         # "then holds the N bits received at bits N - 1 to 0, rest zero"; "00"

def exchange_bit(t, out):       # "Lines are driven."
    back, away = ("SCK high", "SCK low") if t.state.config & 2 else ("SCK low", "SCK high")
    mosi = "MOSI high" if out else "MOSI low"
    if t.state.config & 1:      # "CPHA 1: SCK away, MOSI, SCK back, sample."
        t.do(away, mosi, back)
        return t.sample("MISO")
    t.do(mosi, away)            # "CPHA (bit 0) 0: MOSI, SCK away, sample MISO, SCK back."
    bit = t.sample("MISO")
    t.do(back)
    return bit

def send_low(t):                # "4A sends the low ceil(N/8) bytes, lowest first."
    t.send(*t.state.packet.to_bytes(8, "little")[:t.state.packet_bytes()])

def fast_read(t):               # "4B is 46, then 4A.": 46's 00 is returned, then the bytes are sent
    done(exchange)(t)
    send_low(t)

def fast_send(t, data):         # "4C is 44, then 46 after the last byte, both codes returned (H)."
    done(load_packet)(t, data)
    done(exchange)(t)

SPI_TABLE = {
    0x40: awaits(done(load_config)), 0x41: read_config, 0x42: awaits(done(load_size)),
    0x43: sends(lambda s: [s.bits()]),                              # "43 sends N."
    0x44: configured(awaits(done(load_packet), State.packet_bytes)),
    0x45: sends(lambda s: s.packet.to_bytes(8, "big")),             # "45 sends REG0 to REG7 (H)."
    0x46: configured(done(exchange)), 0x4A: send_low, 0x4B: configured(fast_read),
    0x47: lines("SS low"), 0x48: lines("SS high"), 0x49: just(read_line, "SS"),     # "SS, as 25/26/27"
    0x4C: configured(awaits(fast_send, State.packet_bytes))}

# ---- 1-Wire ----

def slot(t, group, *steps):     # three steps, each followed by its wait
    # "For a group (a, b, c) the waits are b - a, c - b, 255 - c, a negative one counting 0 (H), in
    # 8 us for the first group, 1 us for the others. Even a wait of 0 is written."
    a, b, c = t.state.times[3 * group:3 * group + 3]
    level = None
    for what, wait in zip(steps, (b - a, c - b, 255 - c)):
        if what == "sample":
            level = t.sample("DQ")
        else:
            t.do("DQ " + what)
        t.act(WAIT_US, 0, max(wait, 0) * (8 if group == 0 else 1))
    return level

def wire_reset(t):              # "60: DQ low, wait, release, wait, sample, wait; low returns 00, else 60."
    t.returns(0x60 if slot(t, 0, "low", "release", "sample") else 0x00)

def wire_write(t, count, end, data):    # "Write bit: low, wait, release or low, wait, release, wait."
    for k in range(count):              # "Bytes go low bit first. 61, 63: ... all or its low bit; 00."
        level = "release" if data[0] >> k & 1 else "low"
        slot(t, 1, "low", level, end if k == count - 1 else "release")

def wire_read_bit(t):           # "Read bit: low, wait, release, wait, sample, wait."
    return slot(t, 2, "low", "release", "sample")

def load_times(t, data):        # "65: 00, nine bytes, 00, all stored at the ninth."
    t.state.times = data

def wire_pulse(t, verb, length):        # "69/6A: PB7 low, 580 us / 110 ms, high; 00."
    t.do("PB7 low")
    t.act(verb, 0, length)
    t.do("PB7 high")

WIRE_TABLE = {
    0x60: wire_reset, 0x61: awaits(done(wire_write, 8, "release")),
    0x63: awaits(done(wire_write, 1, "release")),
    0x67: awaits(done(wire_write, 8, "high")),  # "as 61, but the last bit's fifth action drives high"
    0x62: lambda t: t.send(sum(wire_read_bit(t) << k for k in range(8))),   # "62 sends a byte read"
    0x64: lambda t: t.send(0x8F if wire_read_bit(t) else 0x0F),             # "64 one bit as 0F/8F"
    0x65: awaits(done(load_times), lambda s: 9), 0x66: sends(lambda s: s.times),    # "66 sends nine."
    0x68: lines("DQ release"), 0x69: done(wire_pulse, WAIT_US, 580), 0x6A: done(wire_pulse, WAIT_MS, 110)}

TABLES = {"common": COMMON, "extended": EXTENDED, 0: {}, I2C: I2C_TABLE, SPI: SPI_TABLE, ONE_WIRE: WIRE_TABLE}

# ---- one event ----

def rejection(table, byte):
    """The code for a byte that stands where this table's rows may stand, and is none of them."""
    # 02, Ask 1: "A command that 01 lists for an interface not selected returns the new device code 84, every other byte that 01 answers
    # with 80, and any such after 1D, keeps 80"
    listed = any(byte in TABLES[interface] for interface in (I2C, SPI, ONE_WIRE))
    return 0x84 if listed and table != "extended" else 0x80

def carry_out(t, table, byte):
    # "of the state it touches only ERROR, so after 1D a bad byte leaves the wait (H)"
    if byte not in TABLES[table]:
        return t.returns(rejection(table, byte))
    SEEN.add((table, byte))
    t.state.extended = False
    return TABLES[table][byte](t)

def fault(t, code):
    # "A fault returns its code; the byte it came with is lost, any wait stays." 02, Ask 2: "Between commands, then, a fault also makes
    # the bridge drop the next good byte without a code. Several faults in a row drop one byte. Inside an item the rule of 01 stays"
    t.returns(code)
    if not t.state.waits():
        t.state.drops = True

def receive(t, byte):
    s = t.state
    if s.drops:         # 02, Ask 2: "the byte ends the drop and does nothing else", "even a 00"
        SEEN.add((DROPPED, byte))
        s.drops = False
    elif s.extended:
        carry_out(t, "extended", byte)
    elif s.due == 0:
        carry_out(t, "common" if byte in COMMON else s.flags & 7, byte)
    else:
        s.due -= 1
        s.gathered.append(byte)
        if s.due == 0:
            s.finish(t, s.gathered)

def step(state, kind, value, samples):      # gives new state, outcome, samples used, replies, actions
    t = Turn(state, samples)
    try:            # "An event is a received byte, or a line fault carrying which of three it was."
        (fault if kind == 1 else receive)(t, value)
    except Refused as refusal:              # "Each returns what it was given, with zero counts"
        return state, refusal.args[0], 0, [], []
    assert len(t.actions) * 4 <= 2048 and len(t.replies) <= 64      # so 3 and 4 do not arise
    return t.state, 0, t.used, t.replies, t.actions
