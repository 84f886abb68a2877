#!/usr/bin/env python3
"""Makes the session file, the view and the waveform picture of each sample in examples/, with notes that sigrok decodes.

    python3 tests/comparisons/waves/examples.py [--assemble COMMAND] [--vcd COMMAND] [--into FOLDER]
"""
import pathlib
import subprocess
import sys
import tempfile

from run import ROOT, programs, run

I2C = "i2c:scl=SCL:sda=SDA:address_format=unshifted"
SPI = "spi:clk=SCK:miso=MISO:mosi=MOSI:cs=SS"
WIRE = "onewire_link:owr=DQ"
# the strips of the picture, and for each row of notes its name, the decoder and the annotations
EXAMPLES = {
    "eeprom": (3, [("I2C", I2C, "i2c=addr-data")]),
    "line_fault": (1, [("I2C", I2C, "i2c=addr-data")]),
    "ds18b20": (6, [("Bits", WIRE, "onewire_link=bits"), ("1-Wire", WIRE + ",onewire_network", "onewire_network=text")]),
    "flash": (1, [("Sent", SPI, "spi=mosi-data"), ("Received", SPI, "spi=miso-data")])}

def notes(folder, waveform, name, decoder, row):
    path = folder / f"{name}.notes"
    path.write_bytes(run("sigrok-cli", "--protocol-decoder-samplenum", "-P", decoder, "-A", row, "-I", "vcd", "-i", waveform))
    return f"--notes={name}={path}"

def make(name, folder, given):
    strips, rows = EXAMPLES[name]
    into = pathlib.Path(given.into or ROOT / "examples")
    session, shown, decoded = into / f"{name}.session", folder / "shown.vcd", folder / "decoded.vcd"
    session.write_bytes(run(given.assemble, ROOT / f"examples/{name}.script"))
    (into / f"{name}.view").write_bytes(run(str(ROOT / "target/bin/view"), session))
    shown.write_bytes(run(given.vcd, session))
    decoded.write_bytes(run(given.vcd, "--pull-up", session))
    words = [f"--strips={strips}", *(notes(folder, decoded, *row) for row in rows), shown]
    draw = [sys.executable, ROOT / "tests/comparisons/waves/picture.py", *words]
    (into / f"{name}.svg").write_bytes(subprocess.run(draw, stdout=subprocess.PIPE, check=True).stdout)

def main():
    given = programs(__doc__, ("--into", "a folder for the files, in place of examples/"))
    for name in EXAMPLES:
        with tempfile.TemporaryDirectory() as folder:
            make(name, pathlib.Path(folder), given)
        print(f"{name}.session, {name}.view, {name}.svg")

if __name__ == "__main__":
    main()
