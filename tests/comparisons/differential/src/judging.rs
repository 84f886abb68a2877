//! `bridge_judge` beside the reference's `judge`, over scripts that are mostly orderly for long.

use crate::dice::Dice;
use crate::random::likely_byte;
use crate::show::hex;
use crate::state_bytes;
use crate::states::{any_state, state_in_range};
use reference::actions::Lines;
use reference::{Event, Judgement, State, Wait};
use uart_bridge::calls;

/// How many scripts were whole, open and wrong, and refused with 1 and 12; and how many of the last for a drop.
#[derive(Default)]
pub struct Tally {
    pub whole: u64,
    pub open: u64,
    pub wrong: u64,
    pub refused: [u64; 13],
    pub drops: u64,
}

/// What the numbers behind a pointer hold before a call.
const VERDICT: u8 = 0x5A;
const PLACE: usize = 0x5A5A;
const CODE: u8 = 0xA5;

/// So many bytes that the bridge has a use for, one after the other.
pub fn script(dice: &mut Dice, state: &State, length: usize) -> Vec<u8> {
    let mut state = state.clone();
    let mut script = Vec::with_capacity(length);
    let slips = dice.one_in(3);
    while script.len() < length {
        let mut after = state.clone();
        let byte = likely_byte(dice, &state);
        reference::step::take(&mut after, Event::Byte(byte), &mut Lines::new(&[]));
        // A byte that is rejected stays only in scripts with slips.
        let rejected = matches!(after.error, 0x80 | 0x84 | 0x40);
        if !rejected || slips && dice.one_in(8) {
            script.push(byte);
            after.error = 0;
            state = after;
        }
    }
    script
}

/// The bytes of a start, which mostly neither waits nor drops.
fn any_start(dice: &mut Dice) -> Box<[u8]> {
    let mut start = if dice.one_in(8) { any_state(dice) } else { state_in_range(dice) };
    if !dice.one_in(12) && start.len() == state_bytes::SIZE {
        start[state_bytes::WAIT] = 0;
        start[state_bytes::LEFT] = 0;
        start[state_bytes::DROPS] *= u8::from(dice.one_in(8));
    }
    start
}

/// A script for a start, or for the factory's if there is none in range; one in eight has a byte changed.
fn script_for(dice: &mut Dice, state: Option<State>) -> Box<[u8]> {
    let length = match dice.below(5_000) {
        0 => dice.between(60_000, 200_000),
        1..=99 => dice.below(3_000),
        100..=999 => dice.below(4),
        _ => dice.below(60),
    };
    let mut from = state.filter(State::in_range).unwrap_or_else(reference::factory_start);
    from.wait = Wait::Nothing;
    from.drops = false;
    from.error = 0;
    let mut bytes = script(dice, &from, length);
    if !bytes.is_empty() && dice.one_in(8) {
        let place = dice.below(bytes.len());
        bytes[place] = dice.byte();
    }
    bytes.into_boxed_slice()
}

pub fn compare(dice: &mut Dice, tally: &mut Tally) -> Result<(), String> {
    let start = any_start(dice);
    let state = state_bytes::state_of(&start);
    let bytes = script_for(dice, state.clone());
    let (mut verdict, mut place, mut code) = (Box::new(VERDICT), Box::new(PLACE), Box::new(CODE));
    let refusal = calls::judge(&start, &bytes, &mut verdict, &mut place, &mut code);
    let library = (refusal, *verdict, *place, *code);
    let judgement = state.map_or(Judgement::Refused(1), |state| reference::judge(&state, &bytes));
    // The place and the code of what is not wrong are 0.
    let reference = match judgement {
        Judgement::Whole => (0, calls::WHOLE, 0, 0),
        Judgement::Open => (0, calls::OPEN, 0, 0),
        Judgement::WrongAt(place, code) => (0, calls::WRONG, place, code),
        Judgement::Refused(number) => (number, VERDICT, PLACE, CODE),
    };
    if library != reference {
        return Err(format!(
            "judge\nstart {}\nbytes {}\nlibrary   (refusal, verdict, place, code) {library:x?}\nreference (refusal, verdict, place, code) {reference:x?}\n",
            hex(&start),
            hex(&bytes)
        ));
    }
    match judgement {
        Judgement::Whole => tally.whole += 1,
        Judgement::Open => tally.open += 1,
        Judgement::WrongAt(..) => tally.wrong += 1,
        Judgement::Refused(number) => {
            tally.refused[usize::from(number)] += 1;
            tally.drops += u64::from(number == 12 && start[state_bytes::DROPS] == 1);
        }
    }
    Ok(())
}
