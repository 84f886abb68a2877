"""The stored events and answers of the program `drive`, made with the model.

Text in quotes in the comments is from 01, or from 02 where a request is named.
"""
import random
import struct

from model.common import COMMON, DROPPED, EXTENDED, I2C, ONE_WIRE, SEEN, SPI, WAIT_US, State
from model.interfaces import TABLES, step

# ---- the events, in words: "22" a received byte, "17:5A" one with samples lent, "!81" a fault ----

def events(text):
    for word in text.split():
        value, _, samples = word.lstrip("!").partition(":")
        yield int(word[0] == "!"), int(value, 16), bytes.fromhex(samples)

def noise(n, seed, choice=(0, 0x01, 0, 0x80, 0, 0xFF, 0, 0x10)):    # n bytes of the choice, in hex
    out = random.Random(seed).choices(choice, k=n)
    levels = [x != 0 for x in out]
    return noise(n, seed + 1000) if n > 7 and levels == levels[::-1] else bytes(out).hex()  # not symmetric

NAMELESS = "1F 20 27 28 3F 40 41 4C 4D 5F 60 6A 6B 7F 80 FF"
LOOK = " 04 06 0C 0E 10 12 14 16 1A 1B 1E 04 "
PORTS = "0B FF 0C 0D FF 0E 0F FF 10 11 FF 12 13 FF 14 15 FF 16 "
# 02, Ask 2: "Several faults in a row drop one byte", "even a 00": what is dropped leaves ports, flags and the fault's code to the look
DROPS = ("0B 5A !81 00 0C 1A 04 !82 02 1A 04 !83 04 04 04 !81 !82 FF 04 04 !83 !83 !81 1D 0E 04 !82 17:77 04 "
         "!81 0D !82 00 04 0E FF !83 1F 04")
PULSES = "1D 01 12 1D 02 16 1D 03 16 1D 08 16 1D 09 16 1D 0A 16 1D 0C 14 "
COMMON_WORDS = f"""{LOOK} 05 06 FF 0C 1A 06 1E 17:55 18:66 19:77 1B 04 FF 05 04 04 {PULSES} 1C 16 {PORTS}
    {PULSES} {PORTS} 13 00 14 15 00 16 0F 00 10 1D 0B 16 1D 0D 14 {PORTS} 05 06 0B 5A 0D A5 0F 3C 11 C3
    13 96 15 69 {LOOK} 05 06 09 1A 05 06 09 0A 1A 17:00 17:5AFF 18:A5 19:80 1A:0102 1F:FF 04
    17 17:77 18 18:88 19 19:99 15 00 1C 16 1D 0E 37 1C 16 1D 0F 1D 0E 00 15 41 1C 16 1D 0F 1D 0E FF
    1D 00 04 07 10 FF 1D 01 12 04 1D 05 06 0E 1D 1D 0F 1D 80 02 04 1D 04 0F 04 {DROPS}
    0B !81 5A 0C 04 11 !82 !83 3C 12 04 1D !81 !82 0F 04 1D 00 !83 0E !82 44 04 1D 0F 04 !83:FF 1A 04 04
    09 01 1A 02 1A 03 1A 00 1A 06 0A 01 02 03 00 """
I2C_WORDS = f"""01 {LOOK} 05 06 20 04 21 04 25 26 0E 27:00 27:01 27:80 27:FF 27 27:00 27:{'01' * 255}
    22 A5:00 04 22 A5:01 04 22 00:80 04 22 FF:FF 04 22 01:00 22 80:0001 22 5A 5A:10 04 22 !82 C3:00 04
    22 5A:00 !81 FF FF !82 22 04 23:0100800000FF1000 04 24:{noise(8, 5)} 23:{noise(12, 6)} 23:{noise(7, 7)}
    23:{noise(8, 7)} 24 24:{noise(8, 8)} 22 00 22 22:01 23 04 1C 1D 02 26 {PORTS}"""

WIRE_SLOTS = f"""66 60:00 04 60:01 04 60:80 04 60:FF 04 61 A5 04 61 1B 63 00 63 01 04 63 FE 63 FF
    62:{noise(8, 9)} 62:0100800000FF1000 64:00 64:01 64:80 64:FF00 67 5A 67 A5 04 68 04 """

WIRE_WORDS = f"""03 {LOOK} 05 06 {WIRE_SLOTS} 69 04 6A 04 0E 60 60:00 62:{noise(7, 3)} 62:{noise(8, 3)} 64
    64:01 61 !81 0F 04 63 !82 01 04 67 !83 F0 04 65 01 02 03 !81 04 00 !82 06 07 08 !83 09 66 04 60:FF !81
    62 04 !82 65 62 FF 62:{noise(8, 4)} 04 65 10 25 47 81 93 C7 05 55 FE {WIRE_SLOTS} 65 C4 86 CC F9 BF BC FF 00 FF
    00 02 01 03 {WIRE_SLOTS} 65 00 FF 00 80 80 80 FF FF FF 66 60:00 63 01 64:01
    65 86 C4 CC BC BF F9 BC BF C7 66 {PORTS} """

UNCONFIGURED = f"""00 02 {LOOK} 41 04 44 04 46 04 46:FF 4B 4B:0101 04 4C 04 41 FF 41 44 1A 43 45 4A 04 47 04
    48 04 49:00 49:01 49:80 49 49:FF 05 06 42 0C 43 46 05 06 41 04 """

def spi_round(config, operand, seed):       # load, exchange and read back packets of one size
    n = (operand + 63) % 64 + 1
    load = " ".join(noise(1, seed + k, range(256)) for k in range((n + 7) // 8))
    look = "43 45 4A 04"
    return f"""40 {config:02X} 41 42 {operand:02X} 04 44 {load} {look} 46:{noise(n, seed)} {look}
        4B:{noise(n, seed + 1)} {look} 4C {load}:{noise(n, seed + 2)} {look} """

SPI_EDGES = f"""40 FD 41 42 0C 44 34 12 45 05 06 01 02 41 43 45 03 02 41 43 45 02 41 43 45
    46:{noise(11, 1)} 46:{noise(12, 1)} 45 4B:{noise(11, 2)} FF 4B:{noise(14, 2)} 04 4C AB CD:{noise(11, 3)}
    CD:{noise(12, 3)} 45 04 44 !81 00 !82 FF 45 04 4C !83 12 !81 34:{noise(12, 4)} 45 04 40 !82 0E 41
    42 !83 09 43 !81 42 04 43 4A 44 00 00 45 44 FF FF 45 42 14 4A 46:{noise(20, 5)} 45 40 01 46:{noise(20, 6)} 45
    42 0C 44 34 12 01 04 41 03 45 05 06 00 {LOOK} 41 04 02 41 43 45 4A 04 44 46 04 05 06 {PORTS} """

def spi_words():
    rounds = [f"0{8 - config % 2} {spi_round(config, 12, 40 + config)}" for config in range(8)]
    on = [spi_round(4, operand, 101 + operand) for operand in (1, 8, 9, 63, 64)]
    off = [spi_round(3, operand, 83 + operand) for operand in (65, 8, 9, 255, 0)]   # the same N
    return " ".join(["08", UNCONFIGURED, "07", UNCONFIGURED, *rounds, "07", *on, "08", *off, SPI_EDGES,
                     "07 02", SPI_EDGES])

def after_a_code(byte):     # 80, the command (with operands, all 04), then 04: did it store its code?
    return f"FF {byte:02X}:{noise(8, byte)} " + f"04:{noise(4, byte)} " * (10 if byte == 0x65 else 2)

def table_words():          # every command after a code; every byte that its table does not name
    words = ""
    for chosen, table in (("00", "common"), ("01", I2C), ("02", SPI), ("03", ONE_WIRE)):
        good = [after_a_code(byte) for byte in TABLES[table] if byte != 0x1D]
        bad = [f"{byte:02X}" for byte in range(256) if byte not in COMMON and byte not in TABLES[table]]
        some = [byte for byte in NAMELESS.split() if byte in bad]
        words += f"08 {chosen} {''.join(good)} {chosen} {' 04 '.join(some)} 04 07 {' '.join(bad)} 04 "
    words += "08 " + "".join(f"1D 00 {byte:02X} 04 04 " for byte in EXTENDED)
    bad = [f"{byte:02X}" for byte in range(256) if byte not in EXTENDED]
    return words + f"07 1D {' '.join(bad)} 0F 04 "

# ---- the two files ----

def run(state, rows):
    answers = []
    for row in rows:
        state, *answer = step(state, *row)
        answers.append(answer)
    return state, answers

def packed(actions):        # "An action is four bytes: verb, line, value (16 bits, little-endian)"
    return b"".join(struct.pack("<BBH", *action) for action in actions)

def check_01():             # the "Whole case", and P1 to P7 as far as they show outside
    def record(kind, body):
        return struct.pack("<HH", len(body), kind) + body if body else b""
    def sent(text):
        return [byte for answer in run(State(), events(text))[1] for byte in answer[2]]
    state, answers = run(State(), events("07 01 1A"))
    whole = b"".join(record(0x0102, packed(a)) + record(0x0101, bytes(r)) for _, _, r, a in answers)
    assert whole + record(0x0104, bytes([state.waits()])) == bytes.fromhex(
        "01000101 00 1C000201 05100000 06100000 05110000 06110000 05120000 06120000 02020000"
        "01000101 00 01000101 09 01000401 00"), "Whole case"
    assert sent("02 42 00 43") == [64], "P1 size operand 0 gives N 64."
    assert sent("02 42 41 43") == [1], "P2 65 gives 1."
    assert sent("02 40 00 42 09 44 1A 1A 1A") == [2], "P3 N 9 takes two bytes."
    assert sent("02 40 04 42 0C 44 34 12 45") == [0x23, 0x40] + [0] * 6, "P4 high first"
    assert sent("02 40 00 42 0C 44 34 12 45") == [0] * 6 + [0x02, 0x34], "P5 low first"
    assert sent("13 FF 14") == [0xDC], "P6 DDRD written FF from 00 is DC."
    waits = [a[2] for a in run(State(), events("03 60:00"))[1][1][3] if a[0] == WAIT_US]
    assert waits == [496, 64, 408], "P7 default reset waits 496, 64, 408 us."

def files():
    check_01()
    SEEN.clear()
    words = [COMMON_WORDS, "08 07 07 08 08 07 ", COMMON_WORDS, "08 ", I2C_WORDS, " 07 ", I2C_WORDS, " 08 ",
             WIRE_WORDS, "07 ", WIRE_WORDS, spi_words(), table_words(), "04 00", LOOK]
    rows = list(events("".join(words)))
    _, answers = run(State(0x12, (0xA1, 0xB2, 0xC3, 0xD4)), rows)
    assert SEEN >= {(table, byte) for table in TABLES for byte in TABLES[table]}    # none left out
    assert SEEN >= {(DROPPED, byte) for byte in (0x00, 0x02, 0x04, 0x0D, 0x17, 0x1D, 0x22, 0x42, 0x65, 0xFF)}
    given = b"".join(bytes([kind, value, len(lent)]) + lent for kind, value, lent in rows)
    wanted = b"".join(struct.pack("<BBBH", outcome, used, len(replies), len(actions)) + bytes(replies)
                      + packed(actions) for outcome, used, replies, actions in answers)
    assert len(given) < 16384 and len(wanted) < 65536
    return {"drive/stdin": given, "drive/stdout": wanted}
