"""The stored sessions of `view` and `replay` and what the two must write, made with the model.

Every form of a line, and a record of an unknown kind at the end.
"""
from makers.words import session
from model.replay import record, replay
from model.view import view

FORMS = """
    FF 04 07 0B F0 15 BC 0E :5A 17 1C 1D 04 08 1D 0E 40 1D 0F 23 !81 !82 !83 04 04 !81 00 !82 42 04
    01 20 :01 22 A0 :010000010100FF01 23 :00 27 25 26 22 !82 :00 50 21 1D !83 0F 04
    02 41 44 40 05 42 0A 44 34 12 45 :0100010001000100FF01 46 4A 47 :01 49 48 42 04 :0100010001000101 4B 4C 09 43
    03 :01 60 :00 60 61 A5 67 01 63 01 65 86 C4 CC BC BF F9 BC BF C7 66 :0001 64 64 68 69 6A :01 08 60"""

CHUNK = 16384                   # the bytes of the buffer that the program `replay` fills at a time

def stored(times=1):
    return session(FORMS) * times + record(9, b"\x07")

def files():
    many = stored(20)
    assert len(replay(many)) > 2 * CHUNK        # more than two buffers full
    return {"view/data/forms.session": stored(), "view/stdout": view(stored()).encode(),
            "replay/stdin": many, "replay/stdout": replay(many)}
