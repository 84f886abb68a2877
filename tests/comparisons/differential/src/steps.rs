//! `bridge_step` beside the reference's `step`: single calls of any kind, and walks from event to event.

use crate::call::{by_the_library, by_the_reference, by_the_wrapper, difference, Answer, Call};
use crate::dice::Dice;
use crate::random::{event, likely_event, needs, past, room, samples};
use crate::state_bytes::{self, DROPS, FLAGS, WAIT};
use crate::states::{any_state, state_in_range, state_with, waits, COMMON_WAITS};
use reference::state::{I2C_SEL, ONE_WIRE_SEL, SPI_SEL};
use std::collections::HashSet;
use uart_bridge::calls;

/// How many calls ended how (0 is taken), and the events taken: the interface, what was waited for, the kind, the byte or fault.
#[derive(Default)]
pub struct Tally {
    pub by_refusal: [u64; 13],
    pub events: HashSet<(u8, u8, u8, u8)>,
}

/// How many such events there are: nine waits and a drop without an interface, one more with I2C, four with SPI or 1-Wire; and any
/// byte or fault.
pub const EVENTS_TO_TAKE: usize = (10 + 11 + 14 + 14) * (256 + 3);

/// A drop, among the waits.
const DROP: u8 = 18;

/// Both answers, if they are the same.
fn compare(call: &Call, tally: &mut Tally) -> Result<Answer, String> {
    let (library, reference) = (by_the_library(call), by_the_reference(call));
    if library != reference {
        return Err(difference(call, &library, &reference));
    }
    tally.by_refusal[usize::from(library.refusal)] += 1;
    if library.refusal == 0 {
        let wait = if call.bytes[DROPS] == 1 { DROP } else { call.bytes[WAIT] };
        tally.events.insert((call.bytes[FLAGS] & 7, wait, call.kind, call.value));
    }
    Ok(library)
}

/// Every byte and fault for every interface with every wait and a drop, with room enough. Answers how many calls that were.
pub fn every(dice: &mut Dice, tally: &mut Tally) -> Result<u64, String> {
    let bytes = (0..=255).map(|byte| (calls::BYTE, byte));
    let events: Vec<(u8, u8)> = bytes.chain((0x81..=0x83).map(|fault| (calls::FAULT, fault))).collect();
    let mut made = 0;
    for interface in [0, I2C_SEL, SPI_SEL, ONE_WIRE_SEL] {
        for &wait in COMMON_WAITS.iter().chain(waits(interface)).chain(&[DROP]) {
            for &(kind, value) in &events {
                let mut bytes = state_with(dice, interface, if wait == DROP { 0 } else { wait });
                bytes[DROPS] = u8::from(wait == DROP);
                one(dice, bytes, kind, value, true, tally)?;
                made += 1;
            }
        }
    }
    Ok(made)
}

/// One call with a new state and buffers.
pub fn single(dice: &mut Dice, tally: &mut Tally) -> Result<(), String> {
    let bytes = any_state(dice);
    let state = state_bytes::state_of(&bytes).unwrap_or_else(reference::factory_start);
    let (kind, value) = likely_event(dice, &state);
    let plain = dice.one_in(2);
    one(dice, bytes, kind, value, plain, tally)
}

/// One call with new buffers, which have room enough if the call is plain.
fn one(
    dice: &mut Dice,
    bytes: Box<[u8]>,
    kind: u8,
    value: u8,
    plain: bool,
    tally: &mut Tally,
) -> Result<(), String> {
    let state = state_bytes::state_of(&bytes).unwrap_or_else(reference::factory_start);
    let need = match event(kind, value) {
        Ok(event) if state.in_range() => needs(&state, event),
        _ => [dice.below(3), dice.below(50), dice.below(3)],
    };
    let mut lend = |need: usize| if plain { (need + dice.below(9), 0) } else { room(dice, need) };
    let [(sample_size, sampled), (action_size, acted), (reply_size, replied)] = need.map(&mut lend);
    let call = Call {
        bytes,
        kind,
        value,
        samples: samples(dice, sample_size),
        sampled,
        actions: dice.bytes(action_size).into(),
        acted,
        replies: dice.bytes(reply_size).into(),
        replied,
    };
    compare(&call, tally)?;
    if dice.one_in(8) {
        by_the_wrapper(&call)?;
    }
    Ok(())
}

/// Up to so many events in a row, each from the state that the one before left and after what it wrote. Answers how many.
pub fn walk(dice: &mut Dice, most: u64, tally: &mut Tally) -> Result<u64, String> {
    let bytes = if dice.one_in(3) {
        state_bytes::bytes_of(&reference::factory_start())
    } else {
        state_in_range(dice)
    };
    let mut call = Call {
        bytes,
        kind: 0,
        value: 0,
        samples: Box::new([]),
        sampled: 0,
        actions: Box::new([]),
        acted: 0,
        replies: Box::new([]),
        replied: 0,
    };
    lend_anew(&mut call, dice);
    let length = (dice.between(1, 150) as u64).min(most);
    for _ in 0..length {
        let state = state_bytes::state_of(&call.bytes).expect("a walk goes on from states only");
        (call.kind, call.value) = likely_event(dice, &state);
        let answer = compare(&call, tally)?;
        if answer.refusal == 0 {
            call.sampled += answer.counts.samples;
            call.acted += 4 * answer.counts.actions;
            call.replied += answer.counts.replies;
        } else {
            lend_anew(&mut call, dice);
        }
        call.bytes = answer.bytes;
        if answer.refusal == 0 {
            call.actions = answer.actions;
            call.replies = answer.replies;
        }
    }
    Ok(length)
}

fn lend_anew(call: &mut Call, dice: &mut Dice) {
    let count = dice.below(400);
    call.samples = samples(dice, count);
    let (action_size, reply_size) = (dice.below(3000), dice.below(60));
    call.actions = dice.bytes(action_size).into();
    call.replies = dice.bytes(reply_size).into();
    call.sampled = if dice.one_in(40) { past(dice, count) } else { 0 };
    call.acted = if dice.one_in(40) { past(dice, action_size) } else { dice.below(4).min(action_size) };
    call.replied = if dice.one_in(40) { past(dice, reply_size) } else { 0 };
}
