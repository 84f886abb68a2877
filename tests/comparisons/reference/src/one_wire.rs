//! 1-Wire commands, 60 to 6A, and their timings.

use crate::actions::{Line, Lines};
use crate::state::{Operand, State, Wait, NO_ERROR, NO_PRESENCE, UNKNOWN_COMMAND};

/// The groups of the timings: "reset, write bit, read bit, three bytes each".
const RESET: usize = 0;
const WRITE_BIT: usize = 1;
const READ_BIT: usize = 2;

pub fn command(state: &mut State, byte: u8, lines: &mut Lines) {
    match byte {
        0x60 => {
            let high = read_slot(&state.timings, RESET, lines);
            return lines.returns(state, if high { NO_PRESENCE } else { NO_ERROR });
        }
        0x61 => state.begin(Wait::One(Operand::OneWireByte)),
        0x62 => return read_byte(state, lines),
        0x63 => state.begin(Wait::One(Operand::OneWireBit)),
        0x64 => {
            let high = read_slot(&state.timings, READ_BIT, lines);
            return lines.send_level(high);
        }
        0x65 => state.begin(Wait::Timings { left: 9 }),
        0x66 => return lines.send_all(&state.timings),
        0x67 => state.begin(Wait::One(Operand::OneWireByteStrong)),
        0x68 => lines.release(Line::Dq),
        0x69 => pulse(|lines| lines.wait_microseconds(580), lines),
        0x6A => pulse(|lines| lines.wait_milliseconds(110), lines),
        _ => return lines.returns(state, UNKNOWN_COMMAND),
    }
    lines.returns(state, NO_ERROR);
}

/// "the waits are b - a, c - b, 255 - c, a negative one counting 0 (H), in 8 µs for the first
/// group, 1 µs for the others"
fn waits(timings: &[u8; 9], group: usize) -> [u16; 3] {
    let [a, b, c] = [timings[3 * group], timings[3 * group + 1], timings[3 * group + 2]];
    let unit = if group == RESET { 8 } else { 1 };
    [b.saturating_sub(a), c.saturating_sub(b), 255 - c].map(|wait| u16::from(wait) * unit)
}

/// A reset or a read bit: "low, wait, release, wait, sample, wait".
fn read_slot(timings: &[u8; 9], group: usize, lines: &mut Lines) -> bool {
    let [first, second, third] = waits(timings, group);
    lines.drive(Line::Dq, false);
    lines.wait_microseconds(first);
    lines.release(Line::Dq);
    lines.wait_microseconds(second);
    let high = lines.sample(Line::Dq);
    lines.wait_microseconds(third);
    high
}

/// "Write bit: low, wait, release or low, wait, release, wait." With the strong pull-up, the fifth
/// action drives high.
fn write_slot(timings: &[u8; 9], high: bool, strong: bool, lines: &mut Lines) {
    let [first, second, third] = waits(timings, WRITE_BIT);
    lines.drive(Line::Dq, false);
    lines.wait_microseconds(first);
    lines.low_or_release(Line::Dq, high);
    lines.wait_microseconds(second);
    if strong {
        lines.drive(Line::Dq, true);
    } else {
        lines.release(Line::Dq);
    }
    lines.wait_microseconds(third);
}

/// "Bytes go low bit first."
fn bit_places() -> [u32; 8] {
    if cfg!(feature = "broken") {
        [7, 6, 5, 4, 3, 2, 1, 0]
    } else {
        [0, 1, 2, 3, 4, 5, 6, 7]
    }
}

/// The operand of 61 or 67; "67: as 61, but the last bit's fifth action drives high".
pub fn send_byte(state: &mut State, byte: u8, strong: bool, lines: &mut Lines) {
    for (n, place) in bit_places().into_iter().enumerate() {
        write_slot(&state.timings, byte >> place & 1 == 1, strong && n == 7, lines);
    }
    lines.returns(state, NO_ERROR);
}

/// The operand of 63, of which only the low bit is sent.
pub fn send_bit(state: &mut State, byte: u8, lines: &mut Lines) {
    write_slot(&state.timings, byte & 1 == 1, false, lines);
    lines.returns(state, NO_ERROR);
}

fn read_byte(state: &State, lines: &mut Lines) {
    let mut byte = 0;
    for place in bit_places() {
        byte |= u8::from(read_slot(&state.timings, READ_BIT, lines)) << place;
    }
    lines.send(byte);
}

/// "65: 00, nine bytes, 00, all stored at the ninth."
pub fn timing_byte(state: &mut State, byte: u8, left: u8, lines: &mut Lines) {
    state.held[usize::from(9 - left)] = byte;
    if left > 1 {
        state.wait = Wait::Timings { left: left - 1 };
        return;
    }
    state.timings = state.held;
    state.end_wait();
    lines.returns(state, NO_ERROR);
}

/// "PB7 low, 580 µs / 110 ms, high"
fn pulse(wait: fn(&mut Lines), lines: &mut Lines) {
    lines.drive(Line::Pb7, false);
    wait(lines);
    lines.drive(Line::Pb7, true);
}
