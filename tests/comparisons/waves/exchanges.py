"""Scripts made by rule: SPI exchanges in the four modes and both bit orders."""

ROUNDS = 3

def spi_scripts():
    return [spi_script(config, unselected) for unselected in (True, False) for config in range(8)]

def spi_script(config, unselected):
    """Exchanges of 16 bits, with one before them while SS is high or without."""
    order = "high" if config & 4 else "low"
    lines = ["EnableReports", "InterfaceChoiceSPI", f"LoadConfig_SPI {config:02X}", "LoadPaketSize_SPI 10"]
    lines += ["samples 00 x 16", "StartChange_SPI"] * unselected + ["ClearSS_SPI"]
    for k in range(ROUNDS):
        lines += exchange(config, k)
    name = f"spi_mode{config & 3}_{order}_first" + "_at_once" * (not unselected)
    return name, "\n".join(lines + ["SetSS_SPI", ""])

def exchange(config, k):
    out, level = [mixed(config, k, place) for place in (0, 1)], mixed(config, k, 2) << 8 | mixed(config, k, 3)
    samples = " ".join(f"{level >> place & 1:02X}" for place in range(16))
    return [f"LoadPaket_SPI {out[0]:02X} {out[1]:02X}", f"samples {samples}", "FastReadPaket_SPI"]

def mixed(config, k, place):
    """A byte that depends on the configuration, the exchange and the place."""
    return (0x35 + 0x4F * config + 0x1D * k + 0x67 * place) % 256
