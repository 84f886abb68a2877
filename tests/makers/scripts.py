"""The stored scripts of the program `scripts` and the lines that it must write, made with the second assembler.

Each is written as its length (16 bits, little-endian) and its text.
"""
import collections
import pathlib
import random
import struct

from model.assembler import (BYTE, COMMANDS, COUNT, FAULT_NAME, FAULTS, LINE_END, NO_COMMANDS, ROOM, STATEMENT, Stream, Wrong,
                             assembled, operands_said, statement, takes)

SAMPLE = pathlib.Path(__file__).resolve().parents[2] / "crates/assemble/stdin"     # a script written by hand

def line_of(text):              # what the program `scripts` writes
    session, wrong = assembled(text)
    return wrong or b"good %d %d\n" % (len(session), sum(k * byte for k, byte in enumerate(session, 1)) % 65536)

# ---- scripts by hand ----

def listed(count, first=0xA1):
    return b" ".join(b"%02X" % ((first + 7 * k) % 256) for k in range(count))

def every_command():
    for name in COMMANDS:
        count = takes(name, Stream())
        yield name + b" " + listed(count) + b"\n"
        yield b"\n  " + name + b"\t" + listed(count + 1)
        if count:
            yield b"send 00\n\t" + name + b" # " + listed(count)
    yield b"\n".join(name + b" " + listed(takes(name, Stream())) for name in COMMANDS if name != b"LoadPaketSize_SPI")
    yield from (b"send 01\n " + name + b"\n" for name in NO_COMMANDS)

SIZES = (b"InterfaceChoiceSPI\nLoadPaketSize_SPI %02X\n", b"send 02 40 04 42 %02X\n", b"send 02 42\nfault frame\nsend %02X\n",
         b"send 02\nsend FF 42 %02X 22\n")

def packets():                  # of many sizes, with an operand less, as many as they take, and one more
    for size in range(0, 256, 5):
        right = (size + 63) % 64 // 8 + 1
        for count in (right - 1, right, right + 1):
            yield SIZES[size % 4] % size + (b"LoadPaket_SPI ", b"FastSendPaket_SPI ")[size % 2] + listed(count) + b"\n"

# 02, Ask 2: what stands before a packet, and how many bytes the packet then has. A fault between items, or several, drop a byte: of the
# size command, of the interface's, of a packet's own statement, of a reset, of 1D; a fault inside an item drops none.
DROPS = r"""
2 send 02 42 10|1 send 02\nfault frame\nsend 42 10|1 InterfaceChoiceSPI\nfault parity\nLoadPaketSize_SPI 10
|2 InterfaceChoiceSPI\nfault frame\nfault overrun\nfault parity\nResetDevice\nLoadPaketSize_SPI 10|1 fault frame\nsend 02 42 10
|2 send 02 42 10\nfault overrun\nsend 00|1 send 02 42 10\nfault overrun\nsend 00 00|2 send 02 42 10\nfault frame
|2 send 02 42 10\nfault frame\nfault frame|2 send 02 42 10\nfault frame\nsamples 00 00\n# 00\nResetDevice
|2 InterfaceChoiceSPI\nLoadConfig_SPI 04\nLoadPaketSize_SPI 10\nfault parity\nLoadPaket_SPI 42 09\nfault frame\nsend 42 11
|1 send 02 40 04 42 10\nfault parity\nFastSendPaket_SPI 00 02|3 send 02 40 04 42 10\nfault parity\nsend 4C 42 14
|2 send 02 FF\nfault frame\nsend 42 42 10|2 send 02\nfault frame\nLoadIOGTime 42\nsend 10|1 send 02 1D\nfault frame\nsend 42 10 0A
|2 send 02 1D\nfault frame\nsend 0A 42 10|2 send 02 1D 00\nfault frame\nsend 42 0A 42 10|2 send 02 1D 0E\nfault parity\nsend 42 42 10
|2 send 02 42\nfault frame\nfault parity\nsend 10|3 send 02 42 10 40\nfault frame\nsend 42 42 14
|2 send 02 42 10 0B\nfault parity\nResetDevice|2 send 02 40 04 42 10 44\nfault frame\nResetDevice\nfault overrun\nResetDevice
|2 send 02 40 04 42 10 44 01\nfault frame\nsend 00
|1 send 02 40 04 42 10 44 01\nfault frame\nsend 02 00|3 send 03 65 01 02\nfault frame\nsend 03 04 05 06 07 08 09 02 42 18
|4 send 02\nfault frame\nsend 42\nfault parity\nsend 42 42 20|2 send 02 42 10 22\nfault frame\nInterfaceChoice1W"""

GOOD = r"""
|\n|\n\n\n| |\t\r \r\n|# a comment|#|##\n#\n|  # a comment\n\n|send 00|send 00\n|send 00 01 fF Aa|send\t0A\r\n
|\r\nsend  0a  \t 0B \r\n|samples 00|samples 00 x 64|samples 00 x 1 01 x 2 FF x 3|send 5A x 1|send 5A x 99 00
|send 5A x 00000000000000000003|send 5A x 4096|send 5A x 4097|send 5A x 4095 01|send 5A x 4096 01|samples 5A x 8192
|samples 5A x 8193|send 5A x 32736|samples 5A x 20000 A5 x 12736|fault frame|fault overrun\n|\tfault\tparity\t\r\n
|fault frame#x|fault frame # x|send 00#x|send 00 # FF|send 00 #\x00\xff\xc3\xa4\n|ReadError|ReadError#|ReadError # 00
|send 02 42 00\nLoadPaket_SPI 00 x 8|LoadTimes_1W 01 x 9|SendByte_I2C 01 x 1|SendByte_I2C A0 x 001
|fault frame\nfault overrun\nfault parity\n|send 00 x 28672\nsend 00 x 4064|send 00 x 28672\nsend 00 x 4059\nReadError
|send 00 x 28672\nsend 00 x 4060\n\n# full\n|samples 01\nsend 22 A0\n\n  # none\n SendStop_I2C
|send 42 10\nLoadPaket_SPI 00|send 02 42 10 01\nLoadPaket_SPI 00 00|send 02 42 10 00\nLoadPaket_SPI 00
|send 02 0B\nLoadPaketSize_SPI 10\nLoadPaket_SPI 00|samples 02 42 10\nLoadPaket_SPI 00|send 02 1D 00 42 10 01\nLoadPaket_SPI 00
|InterfaceChoiceSPI\nLoadPaketSize_SPI 40\nLoadPaketSize_SPI 09\nResetDevice\nInterfaceChoiceSPI\nFastSendPaket_SPI 00"""

WRONG = r"""
|send|send |send  \t \n|samples|samples \r\n|\n\nsend # 00|samples#00|send#\n|send\n00|send 0|send 000|send 0g|send G0
|send 00 1|send 00  1 01|send x|send x 2|send 00 x|send 00 x |send 00 x\t# 2|send 00 x#2|send 00 x 0|send 00 x 00000
|send 00 x 100000|send 00 x 099999 x|send 00 x 1a|send 00 x -1|send 00 x +1|send 00 x 1.0|send 00 x x|send 00 x 2 x 2
|send 00 X 2|send 00x2|send 00 x2|send 00 x 9999999999999999999999|send 00 x 0x2|send 00 x 99999|send 00 x 099999
|send 00 x 32769|samples  00  x  32769|send 00 x 32768|send 00 x 32737|send 00 x 32767 01 02|send 00 x 32768  01
|send 00 x 32768\t 01 # y|\n  send 00 x 32737|# y\n\tsend 00 x 32768 00|send 00 x 99999 zz|send zz 00 x 99999
|send 00 x 40000 x|send 00 x 32768 00 x 0|send 00 x 32768 zz|fault|fault |fault\t# frame|fault#frame|fault Frame
|fault frames|fault fram|fault frame frame|fault  parity  00|fault overrun x|fault 81|fault frame\nfault none|Send 00
|SEND 00|sends 00|send: 00|sample 00|faults frame|00|x|\xff|\x00|send \xff|send \x00\x00|send 00 \xc3\xa4|\xc3\xa4 00
|send 00\x0b01|send 00\x0c|send\xa000|  nothing|\n\n\n   \tnothing # here|readerror|ReadErro|ReadErrors|READERROR
|IntefaceChoiceSPI|GiveWR250NegPulse_HVAVR_|GiveWR250NegPulse_HVAVRGiveWR250NegPulse_HVAVR|ReadError 00|ReadError x
|ReadError 00 x|ReadError zz|SendByte_I2C|SendByte_I2C A0 A1|SendByte_I2C A0 x 2|SendByte_I2C x|SendByte_I2C A0 x
|SendByte_I2C A|SendByte_I2C A0 x 32767|SendByte_I2C A0 x 32768|LoadIOGTime A0 x 32766|LoadIOGTime A0 x 32767
|  LoadIOGTime  A0  B0 x 32766|LoadPaket_SPI|LoadPaket_SPI 00 x 9|FastSendPaket_SPI 00 x 4 01 x 5|LoadTimes_1W 00 x 8
|LoadTimes_1W 00 x 10|LoadTimes_1W|DoExtendedCommand|send 00 x 28672\nsend 00 x 4065
|send 00 x 28672\nsend 00 x 4060\n\tReadError|send 00 x 28672\nsend 00 x 4060\nfault frame
|samples 00 x 32736\n  fault none|samples 00 x 32000\n \n  samples 00 x 733 # y
|send 00 x 30000\nsend 00 x 30000\nnothing|send 00\nsend 0\nsend
|send 02 42 10\nLoadPaket_SPI 01|send 02 42 10 01\nLoadPaket_SPI 00|send 02 42 10 00\nLoadPaket_SPI 00 00
|send 02 1D 42 10\nLoadPaket_SPI 00 00"""

def read(word):
    return word.encode("ascii").decode("unicode_escape").encode("latin-1")

def drops():                    # each with an operand less, as many as it takes, and one more
    for word in DROPS.replace("\n", "").split("|"):
        right, front = int(word[0]), read(word[2:]) + b"\n"
        for count in (right - 1, right, right + 1):
            text = front + b"LoadPaket_SPI " + listed(count)
            assert line_of(text).startswith(b"good") == (count == right), text
            yield text

def by_hand():
    for words, good in ((GOOD, True), (WRONG, False)):
        for word in words.strip("\n|").replace("\n", "").split("|") + [""] * good:
            text = read(word)
            assert line_of(text).startswith(b"good") == good, text
            yield text

def long_lists():               # written out
    for count in (4095, 4096, 4097):
        yield b"send " + listed(count) + b"\nReadError\n"
    yield b"samples " + listed(5000) + b" 0\n"
    yield b"# " + b"y" * 3000 + b"\n" * 300 + b" " * 1000 + b"nothing"

# ---- random scripts, and some of them with a flaw ----

BLANKS = (b" ", b" ", b" ", b"  ", b"\t", b" \t ", b"\r ")
ODD = (b"x", b"X", b"0", b"000", b"0g", b"send", b"frame", b"parity", b"100000", b"\xc3\xa4", b"\x00", b"-1", b"#", b"# y",
       b"x 0", b"1 x 2", *NO_COMMANDS)
COUNTS = ("1", "2", "3", "007", "8", "9", "64", "255", "4095", "4096", "4097", "9999", "10000", "32736", "32768", "32769", "99999")

def random_list(rng, count):
    words = []
    while count > 0:
        words.append(rng.choice((b"%02X", b"%02x")) % rng.randrange(256))
        if rng.random() < 0.15:
            words += [b"x", b"1"]
        count -= 1
    return words

def random_line(rng, stream):
    kind = rng.randrange(12)
    if kind < 4:
        name = rng.choice(list(COMMANDS))
        words = [name] + random_list(rng, takes(name, stream) + (rng.random() < 0.03))
    elif kind < 7:
        words = [rng.choice((b"send", b"samples"))] + random_list(rng, rng.randrange(1, 12))
        if rng.random() < 0.3:
            weight = [12] * 8 + [2] * 4 + [1] * 5
            words += [b"%02X" % rng.randrange(256), b"x", rng.choices(COUNTS, weight)[0].encode()]
    elif kind < 8 or kind == 10:
        words = [b"fault", rng.choice(list(FAULTS))]
    elif kind < 9:
        words = [b"send", b"02", b"42", b"%02X" % rng.randrange(256)][:rng.choice((3, 4, 4))]   # now and then the size is still to come
    elif kind < 10:
        name = rng.choice((b"LoadPaket_SPI", b"FastSendPaket_SPI"))
        words = [name] + random_list(rng, takes(name, stream) + (rng.random() < 0.1))
    else:
        words = []
    if rng.random() < 0.04:
        words.insert(rng.randrange(len(words) + 1), rng.choice(ODD))
    if rng.random() < 0.02 and words:
        words.pop(rng.randrange(len(words)))
    line = rng.choice((b"", b"", b" ", b"\t")) + b"".join(word + rng.choice(BLANKS) for word in words)
    line = line if rng.random() < 0.3 else line.rstrip()
    return line + rng.choice((b"", b"", b"", b"# send", b" # \xe9 y", b"\r"))

def random_script(seed):
    rng, lines, stream = random.Random(seed), [], Stream()
    for _ in range(rng.randrange(1, 16)):
        lines.append(random_line(rng, stream))
        try:
            stream.follow(statement(lines[-1], stream))
        except Wrong:
            pass
    text = b"\n".join(lines)
    if rng.random() < 0.4 and text:             # one byte lost, changed or more
        place, byte = rng.randrange(len(text)), bytes([rng.choice((*b" \t\r\n#x0Fg", rng.randrange(256)))])
        text = text[:place] + rng.choice((b"", byte, byte + text[place:place + 1])) + text[place + 1:]
    return text + rng.choice((b"", b"\n"))

def stored():
    yield from every_command()
    yield from packets()
    yield from drops()
    yield from by_hand()
    yield from long_lists()
    yield from map(random_script, range(100))

# ---- what the program is given ----

def files():
    texts = list(stored())
    whole = b"".join(struct.pack("<H", len(text)) + text for text in texts)
    assert len(whole) < 262144, len(whole)
    said = [line_of(text) for text in texts]
    expected = collections.Counter(line.split(b"expected ")[-1].strip().decode() for line in said if not line.startswith(b"good"))
    assert set(expected) == {STATEMENT, BYTE, COUNT, FAULT_NAME, LINE_END, ROOM, *map(operands_said, range(10))}, expected
    session, wrong = assembled(SAMPLE.read_bytes())
    assert not wrong
    return {"scripts/data/scripts.bin": whole, "scripts/stdout": b"".join(said), "assemble/stdout": session}
