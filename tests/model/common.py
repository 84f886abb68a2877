"""A model of the bridge, written from 01 and 02 alone: the state, an event's turn, and the common and extended commands.

It shares no line with the definitions. Text in quotes in the comments is from 01, or from 02 where a request is named.
"""
import copy

# "Verbs: 0 release, 1 drive low, 2 drive high, 3 sample line, 4 wait us, 5 direction, 6 latch,
# 7 sample port, 8 wait ms, 9 wait IOG cycles."
VERBS = {"release": 0, "low": 1, "high": 2}
SAMPLE, WAIT_US, DIRECTION, LATCH, SAMPLE_PORT, WAIT_MS, WAIT_IOG = range(3, 10)
# "Lines: 0 SCL, 1 SDA, 2 CS, 3 SCK, 4 MOSI, 5 MISO, 6 SS, 7 DQ, 8 PB7, 16 to 18 ports B, C, D."
LINES, PORT_LINE = ("SCL", "SDA", "CS", "SCK", "MOSI", "MISO", "SS", "DQ", "PB7"), 16
# "COMMON_FLAGS: bit 0 I2C, 1 SPI, 2 1-Wire, 3 REPORTS_EN, 4 AUTOLOAD_EN"
I2C, SPI, ONE_WIRE, REPORTS, AUTOLOAD = 1, 2, 4, 8, 16
DDRB, PORTB, DDRC, PORTC, DDRD, PORTD = range(6)
PROTECTED = (0x00, 0x00, 0xC0, 0xC0, 0x23, 0x23)    # "Protected bits ...: C 6, 7; D 0, 1, 5."
DROPPED = "dropped"
SEEN = set()        # (table, byte) of every command carried out, (DROPPED, byte) of every byte dropped, to show that none is left out

class State:
    # "Start is factory, 00 seven times and FF three, IOG count FF, version and serial 0"
    def __init__(self, version=0, serial=(0, 0, 0, 0)):
        self.flags, self.ports, self.eprom = 0, [0] * 6, [0x00] * 7 + [0xFF] * 3
        self.config, self.size, self.configured = 0, 0, False   # "configuration 0, N 1, unconfigured"
        self.error, self.packet = 0, 0          # "ERROR and the packet register start at 0"
        self.times = list(bytes.fromhex("86C4CC BCBFF9 BCBFC7"))    # "timings at their defaults"
        self.iog, self.version, self.serial = 0xFF, version, list(serial)
        self.extended = False                                   # the wait of 1D
        self.due, self.finish, self.gathered = 0, None, []      # every other wait
        self.drops = False                      # 02, Ask 2: "The state remembers the drop until that byte .. comes"
    def bits(self):                             # "N ... the size in bits, 1 to 64 (register + 1)"
        return self.size + 1
    def packet_bytes(self):                     # "ceil(N/8)"
        return (self.bits() + 7) // 8
    def waits(self):                            # "for one named operand, or for so many more packet or timing bytes"
        return self.extended or self.due > 0

class Refused(Exception):      # carries the number of the refusal
    pass

class Turn:
    """One event: its own copy of the state, the samples lent, what it sends and does."""
    def __init__(self, state, samples):
        self.state, self.samples, self.used = copy.deepcopy(state), samples, 0
        self.replies, self.actions = [], []
    def send(self, *data):
        self.replies += data
    def returns(self, code):    # "stored in ERROR and, if REPORTS_EN is set after the command, also sent"
        self.state.error = code
        if self.state.flags & REPORTS:
            self.send(code)
    def act(self, verb, line=0, value=0):       # "verb, line, value ...; unused fields are 0"
        self.actions.append((verb, line, value))
    def do(self, *steps):                       # such as "SDA low"
        for line, verb in map(str.split, steps):
            self.act(VERBS[verb], LINES.index(line))
    def take(self):     # "used from the front"; "2 | fewer samples are left than the event uses"
        if self.used == len(self.samples):
            raise Refused(2)
        self.used += 1
        return self.samples[self.used - 1]
    def sample(self, line):                     # "for a line, 0 is low and anything else high"
        self.act(SAMPLE, LINES.index(line))
        return int(self.take() != 0)
    def set_port(self, register, value):        # "carry the port's whole new register"
        self.state.ports[register] = value
        self.act(LATCH if register % 2 else DIRECTION, PORT_LINE + register // 2, value)
    def set_bit(self, register, bit, level):
        self.set_port(register, self.state.ports[register] & ~(1 << bit) | level << bit)

# ---- makers of commands ----

def sends(data):                # "Commands that send data return none and leave ERROR."
    return lambda t: t.send(*data(t.state))

def just(work, *given):
    return lambda t, *data: work(t, *given, *data)

def done(work, *given):         # work that ends with "; 00"
    def command(t, *data):
        work(t, *given, *data)
        t.returns(0x00)
    return command

def awaits(finish, count=lambda s: 1):          # "00, then" count bytes, which finish takes
    def command(t):
        t.returns(0x00)
        t.state.due, t.state.finish, t.state.gathered = count(t.state), finish, []
    return command

def lines(*steps):
    return done(Turn.do, *steps)

def read_line(t, line):         # "27: samples CS, sends 0F low or 8F high."
    t.send(0x8F if t.sample(line) else 0x0F)

# ---- common ----

def reinit(t):      # "all directions and latches 0; six actions, direction then latch, for B, C, D"
    for register in range(6):
        t.set_port(register, 0)

def reset(t):       # "00 clears common flags but bits 3 and 4, SPI configuration, configured mark,
    s = t.state     # size and ERROR; reinit; returns 00. Packet register, timings and EPROM stay."
    s.flags &= REPORTS | AUTOLOAD
    s.config, s.configured, s.size, s.error = 0, False, 0, 0
    reinit(t)

def choose(t, interface, *steps):   # "01, 02, 03 clear the same common flags, set their own; reinit,
    t.state.flags = t.state.flags & (REPORTS | AUTOLOAD) | interface    # then CS (01) or SS (02)
    reinit(t)                                                           # high; 00. SPI settings stay."
    t.do(*steps)

def read_error(t):  # "04 sends ERROR, then zeroes it."
    t.send(t.state.error)
    t.state.error = 0

def save(t):        # "05 stores ten bytes: COMMON_FLAGS, DDRB, PORTB, DDRC, PORTC, DDRD, PORTD (order
    s = t.state     # H), then CONFIG_SPI, PAKET_SIZE and 08 or 00 for configured, or FF FF FF if SPI
    settings = [s.config, s.size, 0x08 if s.configured else 0x00]           # isn't selected; 00."
    s.eprom = [s.flags] + s.ports + (settings if s.flags & SPI else [0xFF] * 3)

def set_flag(t, flag, on):      # "07/08 set/clear reports, 09/0A autoload; each returns 00 (for 08 H)."
    t.state.flags = t.state.flags & ~flag | (flag if on else 0)

def write_port(t, register, data):  # "one operand is written with one action and no code (H).
    kept = PROTECTED[register]      # Protected bits keep their old bits"
    t.set_port(register, t.state.ports[register] & kept | data[0] & ~kept)

def read_pins(t, port):         # "17, 18, 19 sample port B, C, D and send."; "the byte is taken whole"
    t.act(SAMPLE_PORT, PORT_LINE + port)
    t.send(t.take())

def set_iog(t):                 # "1C: PD4 latched 1, wait IOG cycles, PD3 latched 1; 00."
    t.set_bit(PORTD, 4, 1)
    t.act(WAIT_IOG, 0, t.state.iog)
    t.set_bit(PORTD, 3, 1)

def start_extended(t):          # "1D returns 00; the next byte is extended."
    t.state.extended = True

COMMON = {
    0x00: done(reset), 0x01: done(choose, I2C, "CS high"), 0x02: done(choose, SPI, "SS high"),
    0x03: done(choose, ONE_WIRE), 0x04: read_error, 0x05: done(save),
    0x06: sends(lambda s: s.eprom),             # "06 sends the ten."
    0x07: done(set_flag, REPORTS, True), 0x08: done(set_flag, REPORTS, False),
    0x09: done(set_flag, AUTOLOAD, True), 0x0A: done(set_flag, AUTOLOAD, False),
    0x17: just(read_pins, 0), 0x18: just(read_pins, 1), 0x19: just(read_pins, 2),
    # "1A sends COMMON_FLAGS, 1B version (one byte, H), 1E serial number (four bytes, low first, H)."
    0x1A: sends(lambda s: [s.flags]), 0x1B: sends(lambda s: [s.version]),
    0x1C: done(set_iog), 0x1D: done(start_extended), 0x1E: sends(lambda s: s.serial)}

for _r in range(6):     # "0B, 0D, 0F, 11, 13, 15"; "0C, 0E, 10, 12, 14, 16 send those registers."
    COMMON[0x0B + 2 * _r] = awaits(just(write_port, _r))
    COMMON[0x0C + 2 * _r] = sends(lambda s, register=_r: [s.ports[register]])

def pulse(t, register, bit, level, verb, length):   # "Each edge is a latch action, and PORTC or PORTD
    t.set_bit(register, bit, level)                 # keeps the last level."
    t.act(verb, 0, length)                          # "waits [carry] their length"
    t.set_bit(register, bit, 1 - level)

def load_iog(t, data):          # "0E returns 00, then one operand becomes the IOG count, no code (H)."
    t.state.iog = data[0]

EXTENDED = {
    0x01: done(pulse, PORTC, 5, 1, WAIT_US, 1),     # "01: PC5 up, 1 us, down."
    0x02: done(pulse, PORTD, 3, 1, WAIT_US, 1),     # "02: the same on PD3."
    0x03: done(pulse, PORTD, 4, 0, WAIT_US, 1),     # "03, 08, 09: PD4 down, 1 us / 25 ms / 2 ms, up."
    0x08: done(pulse, PORTD, 4, 0, WAIT_MS, 25), 0x09: done(pulse, PORTD, 4, 0, WAIT_MS, 2),
    # "0A/0B set/clear PORTD bit 5, 0C/0D DDRD bit 5, one action."
    0x0A: done(Turn.set_bit, PORTD, 5, 1), 0x0B: done(Turn.set_bit, PORTD, 5, 0),
    0x0C: done(Turn.set_bit, DDRD, 5, 1), 0x0D: done(Turn.set_bit, DDRD, 5, 0),
    0x0E: awaits(load_iog), 0x0F: sends(lambda s: [s.iog])}         # "0F sends it."
