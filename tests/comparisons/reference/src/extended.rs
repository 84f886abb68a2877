//! The extended commands, after 1D.

use crate::actions::Lines;
use crate::state::{Operand, Register, State, Wait, NO_ERROR, UNKNOWN_COMMAND};

const PC5: u8 = 1 << 5;
const PD3: u8 = 1 << 3;
const PD4: u8 = 1 << 4;
const PD5: u8 = 1 << 5;

pub fn command(state: &mut State, byte: u8, lines: &mut Lines) {
    match byte {
        0x01 => pulse(state, Register::Portc, PC5, true, |lines| lines.wait_microseconds(1), lines),
        0x02 => pulse(state, Register::Portd, PD3, true, |lines| lines.wait_microseconds(1), lines),
        0x03 => pulse(state, Register::Portd, PD4, false, |lines| lines.wait_microseconds(1), lines),
        0x08 => pulse(state, Register::Portd, PD4, false, |lines| lines.wait_milliseconds(25), lines),
        0x09 => pulse(state, Register::Portd, PD4, false, |lines| lines.wait_milliseconds(2), lines),
        // "0A/0B set/clear PORTD bit 5, 0C/0D DDRD bit 5, one action."
        0x0A => lines.write_bits(state, Register::Portd, PD5, true),
        0x0B => lines.write_bits(state, Register::Portd, PD5, false),
        0x0C => lines.write_bits(state, Register::Ddrd, PD5, true),
        0x0D => lines.write_bits(state, Register::Ddrd, PD5, false),
        // "0E returns 00, then one operand becomes the IOG count, no code (H)."
        0x0E => {
            state.begin(Wait::One(Operand::IogCount));
            return lines.returns(state, NO_ERROR);
        }
        0x0F => {
            state.end_wait();
            return lines.send(state.iog);
        }
        // "after 1D a bad byte leaves the wait (H)"
        _ => return lines.returns(state, UNKNOWN_COMMAND),
    }
    state.end_wait();
    lines.returns(state, NO_ERROR);
}

/// "Each edge is a latch action, and PORTC or PORTD keeps the last level."
fn pulse(state: &mut State, latch: Register, mask: u8, high: bool, wait: fn(&mut Lines), lines: &mut Lines) {
    lines.write_bits(state, latch, mask, high);
    wait(lines);
    lines.write_bits(state, latch, mask, !high);
}
