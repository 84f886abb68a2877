//! Events, rooms and settings, mostly in range, with what is wrong put in now and then.

use crate::dice::Dice;
use crate::states::size;
use reference::actions::Lines;
use reference::state::{I2C_SEL, ONE_WIRE_SEL, SPI_SEL};
use reference::{Event, Fault, State, Wait};

/// A byte for a state: mostly one that it has a use for.
pub fn likely_byte(dice: &mut Dice, state: &State) -> u8 {
    if dice.one_in(12) {
        return dice.byte();
    }
    // What is dropped would often do much.
    if state.drops && dice.one_in(2) {
        return dice.pick(&[0x00, 0x00, 0x02, 0x04, 0x07, 0x08, 0x0B, 0x1D, 0x44, 0xFF]);
    }
    match state.wait {
        Wait::Nothing => likely_command(dice, state),
        Wait::Extended if !dice.one_in(8) => dice.between(0x00, 0x10) as u8,
        Wait::One(_) if dice.one_in(3) => {
            dice.pick(&[0, 1, 7, 8, 9, 12, 15, 16, 17, 63, 64, 65, 127, 128, 192, 255])
        }
        _ => dice.byte(),
    }
}

fn likely_command(dice: &mut Dice, state: &State) -> u8 {
    let interface = match state.flags & 7 {
        I2C_SEL => Some((0x20, 0x27)),
        SPI_SEL => Some((0x40, 0x4C)),
        ONE_WIRE_SEL => Some((0x60, 0x6A)),
        _ => None,
    };
    match (dice.below(40), interface) {
        (0, _) => dice.between(0x00, 0x7F) as u8,
        (1, _) => dice.pick(&[0x1F, 0x28, 0x3F, 0x4D, 0x5F, 0x6B, 0x7F, 0x80, 0xFF]),
        (2, _) => dice.below(4) as u8,
        (3, Some(_)) if state.flags & SPI_SEL != 0 && !state.configured => 0x40,
        (4..=29, Some((first, last))) => dice.between(first, last) as u8,
        // An interface from none, more often.
        (4..=19, None) => dice.between(1, 3) as u8,
        // Those that clear much, less often.
        _ => dice.between(0x04, 0x1E) as u8,
    }
}

/// The kind and value of an event: mostly a byte, now and then a fault or neither. After a fault another one is likelier.
pub fn likely_event(dice: &mut Dice, state: &State) -> (u8, u8) {
    match dice.below(if state.drops { 10 } else { 40 }) {
        0 | 1 => (2, dice.pick(&[0x81, 0x82, 0x83])),
        2 => (2, dice.pick(&[0x00, 0x01, 0x80, 0x84, 0xFF])),
        3 => (dice.pick(&[0, 3, 4, 127, 128, 255]), likely_byte(dice, state)),
        _ => (1, likely_byte(dice, state)),
    }
}

/// The event of a kind and a value, or the refusal's number.
pub fn event(kind: u8, value: u8) -> Result<Event, u8> {
    match kind {
        1 => Ok(Event::Byte(value)),
        2 => Fault::from_code(value).map(Event::Fault).ok_or(9),
        _ => Err(8),
    }
}

/// What an event uses and writes in a state in range: samples, bytes of actions, replies.
pub fn needs(state: &State, event: Event) -> [usize; 3] {
    let mut lines = Lines::new(&[]);
    reference::step::take(&mut state.clone(), event, &mut lines);
    [lines.used(), lines.actions.len(), lines.replies.len()]
}

/// Samples, of which many are low.
pub fn samples(dice: &mut Dice, count: usize) -> Box<[u8]> {
    let low = dice.pick(&[2, 3, 8]);
    (0..count).map(|_| if dice.one_in(low) { 0 } else { dice.byte() }).collect()
}

/// A mark past the end of so many bytes, as far as may be.
pub fn past(dice: &mut Dice, size: usize) -> usize {
    match dice.below(6) {
        0 | 1 => size + 1,
        2 => size + dice.between(1, 2000),
        3 => usize::MAX - dice.below(8),
        4 => usize::MAX - dice.below(2000),
        _ => (dice.number() as usize).max(size + 1),
    }
}

/// A size and a mark for a lent buffer of which so much is needed: enough, just enough, too small, or marked past the end.
pub fn room(dice: &mut Dice, need: usize) -> (usize, usize) {
    let mark = if dice.one_in(2) { 0 } else { dice.below(40) };
    match dice.below(16) {
        0 | 1 => (mark + need, mark),
        2 => (mark + need.saturating_sub(1), mark),
        3 => (mark + dice.below(need + 1), mark),
        4 => {
            let size = dice.below(need + 20);
            (size, past(dice, size))
        }
        _ => (mark + need + dice.below(50), mark),
    }
}

/// Ten bytes of settings, mostly good, or another number of them.
pub fn settings(dice: &mut Dice) -> Box<[u8]> {
    let mut image = dice.bytes(10);
    image[0] =
        dice.pick(&[0, I2C_SEL, SPI_SEL, SPI_SEL, ONE_WIRE_SEL]) | dice.pick(&[0x00, 0x08, 0x10, 0x18, 0x10]);
    image[3] &= 0x3F;
    image[4] &= 0x3F;
    image[5] &= 0xFC;
    image[6] &= 0xFC;
    if image[0] & SPI_SEL != 0 {
        image[7] &= 0x07;
        image[8] = size(dice);
        image[9] = dice.pick(&[0x00, 0x08]);
    } else {
        image[7..].fill(0xFF);
    }
    match dice.below(40) {
        0 => image[0] |= dice.pick(&[0x20, 0x40, 0x80]),
        1 => image[0] = image[0] & !7 | dice.pick(&[3, 5, 6, 7]),
        2 => image[dice.pick(&[3, 4])] |= dice.pick(&[0x40, 0x80]),
        3 => image[dice.pick(&[5, 6])] |= dice.pick(&[0x01, 0x02]),
        4 => image[7] = dice.pick(&[0, 7, 8, 0xFE, 0xFF]),
        5 => image[8] = dice.pick(&[0, 63, 64, 0xFE, 0xFF]),
        6 => image[9] = dice.pick(&[0, 7, 8, 9, 0xFE, 0xFF]),
        7 => image[7..].fill(dice.pick(&[0x00, 0xFF])),
        8 | 9 => image.resize(dice.pick(&[0, 1, 7, 9, 11, 20]), 0),
        10 => image = dice.bytes(10),
        _ => {}
    }
    image.into_boxed_slice()
}
