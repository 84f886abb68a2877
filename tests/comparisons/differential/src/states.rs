//! States as bytes, mostly in range, with what is wrong put in now and then.

use crate::dice::Dice;
use crate::state_bytes::{
    self, CONFIG, CONFIGURED, DDRC, DDRD, DROPS, FLAGS, HELD, LEFT, PACKET_SIZE, PORTC, PORTD, SIZE, WAIT,
};
use reference::state::{DEFAULT_TIMINGS, I2C_SEL, ONE_WIRE_SEL, SPI_SEL};

/// A size register, with those near a byte's border more often.
pub fn size(dice: &mut Dice) -> u8 {
    if dice.one_in(2) {
        dice.pick(&[0, 1, 6, 7, 8, 9, 11, 15, 16, 23, 24, 31, 32, 39, 40, 47, 48, 55, 56, 57, 62, 63])
    } else {
        dice.below(64) as u8
    }
}

fn timings(dice: &mut Dice) -> [u8; 9] {
    match dice.below(4) {
        0 => DEFAULT_TIMINGS,
        1 => std::array::from_fn(|_| dice.pick(&[0, 1, 127, 128, 254, 255])),
        _ => std::array::from_fn(|_| dice.byte()),
    }
}

/// The bytes of a state in range, with any wait that its interface allows; of those that wait for nothing, one in eight drops.
pub fn state_in_range(dice: &mut Dice) -> Box<[u8]> {
    let interface = dice.pick(&[0, I2C_SEL, SPI_SEL, SPI_SEL, ONE_WIRE_SEL]);
    let own = waits(interface);
    let wait = match dice.below(12) {
        0..=3 if !own.is_empty() => dice.pick(own),
        4 => dice.pick(&COMMON_WAITS),
        5 => 14,
        _ => 0,
    };
    let mut bytes = state_with(dice, interface, wait);
    bytes[DROPS] = u8::from(wait == 0 && dice.one_in(8));
    bytes
}

/// The waits that need no interface.
pub const COMMON_WAITS: [u8; 9] = [0, 1, 2, 3, 4, 5, 6, 7, 14];

/// The waits of an interface.
pub fn waits(interface: u8) -> &'static [u8] {
    match interface {
        I2C_SEL => &[8],
        SPI_SEL => &[9, 10, 15, 16],
        ONE_WIRE_SEL => &[11, 12, 13, 17],
        _ => &[],
    }
}

/// The bytes of a state in range, with an interface and a wait that it allows, and no drop.
pub fn state_with(dice: &mut Dice, interface: u8, wait: u8) -> Box<[u8]> {
    let mut bytes = state_bytes::bytes_of(&reference::factory_start());
    bytes[FLAGS] = interface | dice.pick(&[0x00, 0x08, 0x10, 0x18]);
    if dice.one_in(2) {
        bytes[1] = dice.byte();
    }
    for register in &mut bytes[2..8] {
        *register = dice.byte();
    }
    for (at, zero) in [(DDRC, 0xC0), (PORTC, 0xC0), (DDRD, 0x03), (PORTD, 0x03)] {
        bytes[at] &= !zero;
    }
    bytes[CONFIG] = dice.below(8) as u8;
    bytes[CONFIGURED] = u8::from(wait == 15 || wait == 16 || !dice.one_in(5));
    bytes[PACKET_SIZE] = size(dice);
    for at in 11..19 {
        bytes[at] = dice.byte();
    }
    bytes[19..28].copy_from_slice(&timings(dice));
    for at in 28..44 {
        bytes[at] = dice.byte();
    }
    bytes[WAIT] = wait;
    if wait >= 15 {
        let of = if wait == 17 { 9 } else { bytes[PACKET_SIZE] / 8 + 1 };
        let left = if dice.one_in(3) { 1 } else { dice.between(1, usize::from(of)) as u8 };
        bytes[LEFT] = left;
        for k in 0..usize::from(of - left) {
            bytes[HELD + k] = dice.byte();
        }
    }
    if dice.one_in(4) {
        let stray = dice.between(HELD, DROPS - 1);
        for byte in &mut bytes[stray..DROPS] {
            *byte = dice.byte();
        }
    }
    bytes
}

/// Any bytes: mostly of a state in range, else one that breaks a clause of refusal 1 or is no state.
pub fn any_state(dice: &mut Dice) -> Box<[u8]> {
    let mut bytes = state_in_range(dice);
    match dice.below(40) {
        0..=9 => break_one(&mut bytes, dice),
        10 => {
            break_one(&mut bytes, dice);
            break_one(&mut bytes, dice);
        }
        11 => {
            let mut resized = bytes.into_vec();
            resized.resize(dice.pick(&[0, 1, 9, 44, 45, 46, 54, 55, 57, 64, 110]), 0);
            bytes = resized.into_boxed_slice();
        }
        12 => bytes = dice.bytes(SIZE).into_boxed_slice(),
        _ => {}
    }
    bytes
}

/// A byte of 64 to 255, or just past the border.
fn over(dice: &mut Dice, most: u8) -> u8 {
    if dice.one_in(3) {
        most + 1
    } else {
        dice.between(usize::from(most) + 1, 255) as u8
    }
}

fn break_one(bytes: &mut [u8], dice: &mut Dice) {
    match dice.below(18) {
        0 => bytes[FLAGS] = bytes[FLAGS] & !7 | dice.pick(&[3, 5, 6, 7]),
        1 => bytes[FLAGS] |= dice.pick(&[0x20, 0x40, 0x80, 0xE0]),
        2 => bytes[PACKET_SIZE] = over(dice, 63),
        3 => bytes[CONFIG] = over(dice, 7),
        4 => bytes[DDRC] |= dice.pick(&[0x40, 0x80]),
        5 => bytes[PORTC] |= dice.pick(&[0x40, 0x80]),
        6 => bytes[DDRD] |= dice.pick(&[0x01, 0x02]),
        7 => bytes[PORTD] |= dice.pick(&[0x01, 0x02]),
        8 => other_interface(bytes, dice),
        9 => packet_wait(bytes, dice, 0, 1),
        10 => {
            let most = bytes[PACKET_SIZE] / 8 + 1;
            let left = if dice.one_in(2) { 0 } else { over(dice, most) };
            packet_wait(bytes, dice, 1, left);
        }
        11 => {
            bytes[FLAGS] = bytes[FLAGS] & !7 | ONE_WIRE_SEL;
            bytes[WAIT] = 17;
            bytes[LEFT] = if dice.one_in(2) { 0 } else { over(dice, 9) };
        }
        12 => bytes[CONFIGURED] = over(dice, 1),
        13 => bytes[WAIT] = over(dice, 17),
        14 => {
            bytes[WAIT] = dice.below(15) as u8;
            bytes[LEFT] = over(dice, 0);
        }
        // A drop beside the wait, if there is one.
        15 => bytes[DROPS] = 1,
        16 => bytes[DROPS] = over(dice, 1),
        _ => bytes[WAIT] = dice.below(18) as u8,
    }
}

/// A wait of an interface, and another interface or none.
fn other_interface(bytes: &mut [u8], dice: &mut Dice) {
    let (wait, own) = dice.pick(&[
        (8, I2C_SEL),
        (9, SPI_SEL),
        (10, SPI_SEL),
        (11, ONE_WIRE_SEL),
        (12, ONE_WIRE_SEL),
        (13, ONE_WIRE_SEL),
        (15, SPI_SEL),
        (16, SPI_SEL),
        (17, ONE_WIRE_SEL),
    ]);
    let others = [0, I2C_SEL, SPI_SEL, ONE_WIRE_SEL];
    let other = others.iter().copied().filter(|&o| o != own).nth(dice.below(3)).unwrap();
    bytes[FLAGS] = bytes[FLAGS] & !7 | other;
    bytes[CONFIGURED] = 1;
    bytes[WAIT] = wait;
    bytes[LEFT] = u8::from(wait >= 15);
}

/// A wait for so many packet bytes, with SPI.
fn packet_wait(bytes: &mut [u8], dice: &mut Dice, configured: u8, left: u8) {
    bytes[FLAGS] = bytes[FLAGS] & !7 | SPI_SEL;
    bytes[CONFIGURED] = configured;
    bytes[WAIT] = dice.pick(&[15, 16]);
    bytes[LEFT] = left;
}
