//! I2C commands, 20 to 27.

use crate::actions::{Line, Lines};
use crate::state::{Operand, State, Wait, NO_ACKNOWLEDGE, NO_ERROR, UNKNOWN_COMMAND};

pub fn command(state: &mut State, byte: u8, lines: &mut Lines) {
    match byte {
        // "20: SDA release, SCL release, SDA low, SCL low; 00."
        0x20 => {
            lines.release(Line::Sda);
            lines.release(Line::Scl);
            lines.drive(Line::Sda, false);
            lines.drive(Line::Scl, false);
        }
        // "21: SDA low, SCL release, SDA release; 00."
        0x21 => {
            lines.drive(Line::Sda, false);
            lines.release(Line::Scl);
            lines.release(Line::Sda);
        }
        0x22 => state.begin(Wait::One(Operand::I2cByte)),
        0x23 => return read_byte(false, lines),
        0x24 => return read_byte(true, lines),
        0x25 => lines.drive(Line::Cs, false),
        0x26 => lines.drive(Line::Cs, true),
        0x27 => {
            let high = lines.sample(Line::Cs);
            return lines.send_level(high);
        }
        _ => return lines.returns(state, UNKNOWN_COMMAND),
    }
    lines.returns(state, NO_ERROR);
}

/// "each bit is SDA low or release, SCL release, SCL low"
fn write_bit(high: bool, lines: &mut Lines) {
    lines.low_or_release(Line::Sda, high);
    lines.release(Line::Scl);
    lines.drive(Line::Scl, false);
}

/// "SDA release, SCL release, sample SDA, SCL low"
fn read_bit(lines: &mut Lines) -> bool {
    lines.release(Line::Sda);
    lines.release(Line::Scl);
    let high = lines.sample(Line::Sda);
    lines.drive(Line::Scl, false);
    high
}

/// The operand of 22, "high bit first"; "returns 00 if low, else 20".
pub fn send_byte(state: &mut State, byte: u8, lines: &mut Lines) {
    for place in (0..8).rev() {
        write_bit(byte >> place & 1 == 1, lines);
    }
    let high = read_bit(lines);
    lines.returns(state, if high { NO_ACKNOWLEDGE } else { NO_ERROR });
}

/// "then a bit of the first form, low for 23, release for 24; sends the byte, first sample highest"
fn read_byte(last: bool, lines: &mut Lines) {
    let byte = (0..8).fold(0, |byte, _| byte << 1 | u8::from(read_bit(lines)));
    write_bit(last, lines);
    lines.send(byte);
}
