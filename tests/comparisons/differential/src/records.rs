//! Sessions: records of bytes that the bridge has a use for, of faults and of samples, some of them broken.

use crate::dice::Dice;
use crate::random::{likely_byte, samples};
use reference::actions::Lines;
use reference::{Event, Fault, State};

const LONGEST_BODY: usize = 4_096;

fn record(out: &mut Vec<u8>, kind: u16, body: &[u8]) {
    out.extend((body.len() as u16).to_le_bytes());
    out.extend(kind.to_le_bytes());
    out.extend(body);
}

/// Bytes for a state, which they change, and the samples that they use.
fn bytes_for(dice: &mut Dice, state: &mut State, count: usize) -> (Vec<u8>, usize) {
    let mut used = 0;
    let bytes = (0..count).map(|_| {
        let byte = likely_byte(dice, state);
        let mut lines = Lines::new(&[]);
        reference::step::take(state, Event::Byte(byte), &mut lines);
        used += lines.used();
        byte
    });
    (bytes.collect(), used)
}

/// One fault or several in a row, which change the state.
fn faults(dice: &mut Dice, state: &mut State, out: &mut Vec<u8>) {
    for _ in 0..dice.pick(&[1, 1, 1, 2, 3]) {
        let fault = dice.pick(&[Fault::Frame, Fault::Overrun, Fault::Parity]);
        reference::step::take(state, Event::Fault(fault), &mut Lines::new(&[]));
        record(out, 2, &[fault.code()]);
    }
}

/// A record that can't be taken, of any sort, or what is left of one.
fn broken(dice: &mut Dice, out: &mut Vec<u8>) {
    match dice.below(8) {
        0 => {
            let left = dice.between(1, 3);
            out.extend(dice.bytes(left));
        }
        1 => {
            let length = if dice.one_in(2) { 4_097 } else { dice.between(4_097, 65_535) } as u16;
            out.extend(length.to_le_bytes());
            out.extend(dice.pick(&[0u16, 1, 2, 3, 0x0100]).to_le_bytes());
        }
        2 => {
            let length = dice.between(1, LONGEST_BODY);
            out.extend((length as u16).to_le_bytes());
            out.extend(dice.pick(&[0u16, 1, 2, 3, 0x0201]).to_le_bytes());
            let present = if dice.one_in(2) { length - 1 } else { dice.below(length) };
            out.extend(dice.bytes(present));
        }
        3 | 4 => {
            let kind = dice.pick(&[0, 4, 5, 0x0100, 0x0101, 0x0102, 0x0103, 0x0200, 0x0300, 0xFFFF]);
            let length = dice.below(5);
            record(out, kind, &dice.bytes(length));
        }
        5 => record(out, 2, &[dice.pick(&[0x00, 0x80, 0x84, 0xFF])]),
        6 => record(out, 2, &[]),
        _ => record(out, 2, &[0x81, 0x82]),
    }
}

pub fn session(dice: &mut Dice) -> Vec<u8> {
    let aim = match dice.below(400) {
        0 => dice.pick(&[32_760, 32_767, 32_768, 32_769, 33_000, 40_000]),
        1..=8 => dice.below(9_000),
        9..=20 => 0,
        _ => dice.below(400),
    };
    // Few sessions break off, so that many get to their end.
    let (breaks, lacks) = (dice.one_in(6), dice.one_in(6));
    let mut state = reference::factory_start();
    let mut out = Vec::new();
    while out.len() < aim {
        let sort = dice.below(16);
        if sort == 0 {
            faults(dice, &mut state, &mut out);
        } else if sort == 1 && breaks {
            broken(dice, &mut out);
        } else if sort == 2 {
            let count = dice.below(20);
            record(&mut out, 3, &samples(dice, count));
        } else {
            let count = if dice.one_in(40) { dice.between(1, 700) } else { dice.below(40) };
            let (bytes, used) = bytes_for(dice, &mut state, count);
            let lent = if lacks && dice.one_in(8) { dice.below(used + 1) } else { used + dice.below(3) };
            // What one record can't hold is not lent, and the session ends there.
            if used > 0 || dice.one_in(4) {
                record(&mut out, 3, &samples(dice, lent.min(LONGEST_BODY)));
            }
            record(&mut out, 1, &bytes);
        }
    }
    if aim >= 32_760 {
        fill(&mut out, aim);
    } else if breaks && dice.one_in(3) {
        out.truncate(dice.below(out.len() + 1));
    }
    out
}

/// Cuts a session at the last record that leaves room, and fills it with samples to just so many bytes.
fn fill(out: &mut Vec<u8>, aim: usize) {
    let mut place = 0;
    while let Some(&[low, high, ..]) = out.get(place..) {
        let next = place + 4 + usize::from(u16::from_le_bytes([low, high]));
        if next + 4 > aim || next > out.len() {
            break;
        }
        place = next;
    }
    out.truncate(place);
    while out.len() < aim {
        let left = aim - out.len();
        let body =
            if left >= 4 + LONGEST_BODY + 4 { LONGEST_BODY } else { (left.max(4) - 4).min(LONGEST_BODY) };
        record(out, 3, &vec![0; body]);
    }
    out.truncate(aim);
}
