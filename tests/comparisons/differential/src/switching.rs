//! `bridge_switch_on` and `bridge_factory_start` beside the reference's.

use crate::dice::Dice;
use crate::random::{room, settings};
use crate::show::{hex, parting};
use crate::state_bytes::{self, SIZE};
use uart_bridge::calls;

/// How many were switched on, and refused with 1, 3 and 11; and how many factory starts.
#[derive(Default)]
pub struct Tally {
    pub on: u64,
    pub refused: [u64; 12],
    pub factory: u64,
}

fn state_size(dice: &mut Dice) -> usize {
    if dice.one_in(20) {
        dice.pick(&[0, 1, 28, 54, 55, 57, 110])
    } else {
        SIZE
    }
}

pub fn compare(dice: &mut Dice, tally: &mut Tally) -> Result<(), String> {
    let (stored, factory) = (settings(dice), settings(dice));
    let (iog, version, serial) = (dice.byte(), dice.byte(), dice.number() as u32);
    let need = dice.pick(&[24, 28, 28]);
    let (action_size, acted) = room(dice, need);
    let state_size = state_size(dice);
    let before: Box<[u8]> = dice.bytes(state_size).into();
    let buffer: Box<[u8]> = dice.bytes(action_size).into();

    let (mut bytes, mut actions, mut count) = (before.clone(), buffer.clone(), Box::new(0x5A5A));
    let refusal = calls::switch_on(
        &stored,
        &factory,
        iog,
        version,
        serial,
        &mut bytes,
        &mut actions,
        acted,
        &mut count,
    );
    let library = (refusal, *count);

    let mut actions_after = buffer.clone();
    let (reference, bytes_after) = if before.len() != SIZE {
        ((1, 0), before.clone())
    } else {
        let serial = serial.to_le_bytes();
        let answer = reference::switch_on(&stored, &factory, iog, version, serial, &mut actions_after, acted);
        ((answer.outcome, answer.actions), state_bytes::bytes_of(&answer.state))
    };
    let parted = parting("states", &bytes, &bytes_after) + &parting("actions", &actions, &actions_after);
    if library != reference || !parted.is_empty() {
        return Err(format!(
            "switch-on\nstored {}\nfactory {}\niog {iog:02x}, version {version:02x}, serial {serial:08x}\n\
             bytes of {} bytes, actions of {action_size} bytes, mark {acted}\n\
             library   (refusal, count) {library:?}\nreference (refusal, count) {reference:?}\n{parted}",
            hex(&stored),
            hex(&factory),
            before.len(),
        ));
    }
    match refusal {
        0 => tally.on += 1,
        number => tally.refused[usize::from(number)] += 1,
    }
    if dice.one_in(50) {
        factory_start(dice)?;
        tally.factory += 1;
    }
    Ok(())
}

fn factory_start(dice: &mut Dice) -> Result<(), String> {
    let state_size = state_size(dice);
    let before: Box<[u8]> = dice.bytes(state_size).into();
    let mut bytes = before.clone();
    let library = calls::factory_start(&mut bytes);
    let (reference, after) = if before.len() == SIZE {
        (0, state_bytes::bytes_of(&reference::factory_start()))
    } else {
        (1, before)
    };
    if library != reference || bytes != after {
        return Err(format!(
            "factory start\nimage of {} bytes\nlibrary {library}\nreference {reference}\n{}",
            after.len(),
            parting("states", &bytes, &after)
        ));
    }
    Ok(())
}
