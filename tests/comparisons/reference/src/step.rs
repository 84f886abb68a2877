//! One event goes in with the state, and the new state is handed back.

use crate::actions::Lines;
use crate::state::{
    Event, Fault, Operand, State, Wait, I2C_SEL, ONE_WIRE_SEL, SPI_SEL, UNKNOWN_COMMAND, WRONG_INTERFACE,
};
use crate::{common, extended, i2c, one_wire, spi};

#[derive(Clone, PartialEq, Eq, Debug)]
pub struct Answer {
    /// 0 if the event was taken, else the refusal number.
    pub outcome: u8,
    pub state: State,
    pub samples: usize,
    pub replies: usize,
    /// The number of actions, each of four bytes.
    pub actions: usize,
}

/// Takes one event. The marks `sampled`, `acted` and `replied` are in bytes.
#[allow(clippy::too_many_arguments)]
pub fn step(
    state: &State,
    event: Event,
    samples: &[u8],
    sampled: usize,
    actions: &mut [u8],
    acted: usize,
    replies: &mut [u8],
    replied: usize,
) -> Answer {
    let actions = actions.get_mut(acted..);
    let replies = replies.get_mut(replied..);
    // "Each returns what it was given, with zero counts and lent memory untouched"
    attempt(state, event, samples.get(sampled..), actions, replies).unwrap_or_else(|refusal| Answer {
        outcome: refusal,
        state: state.clone(),
        samples: 0,
        replies: 0,
        actions: 0,
    })
}

/// The unused rests are `None` where "a mark (in bytes) past the end of its samples or buffer gives
/// 2, 3 or 4 even if nothing is needed".
fn attempt(
    state: &State,
    event: Event,
    samples: Option<&[u8]>,
    actions: Option<&mut [u8]>,
    replies: Option<&mut [u8]>,
) -> Result<Answer, u8> {
    if !state.in_range() {
        return Err(1);
    }
    let mut lines = Lines::new(samples.ok_or(2)?);
    let mut state = state.clone();
    take(&mut state, event, &mut lines);
    if lines.lacks_samples() {
        return Err(2);
    }
    let action_room = actions.and_then(|rest| rest.get_mut(..lines.actions.len())).ok_or(3)?;
    let reply_room = replies.and_then(|rest| rest.get_mut(..lines.replies.len())).ok_or(4)?;
    action_room.copy_from_slice(&lines.actions);
    reply_room.copy_from_slice(&lines.replies);
    Ok(Answer {
        outcome: 0,
        state,
        samples: lines.used(),
        replies: lines.replies.len(),
        actions: lines.actions.len() / 4,
    })
}

/// Takes one event in a state within its ranges, with room for all it does.
pub fn take(state: &mut State, event: Event, lines: &mut Lines) {
    let byte = match event {
        Event::Fault(which) => return fault(state, which, lines),
        Event::Byte(byte) => byte,
    };
    // 02, Ask 2: "the byte ends the drop and does nothing else"
    if state.drops {
        state.drops = false;
        return;
    }
    match state.wait {
        Wait::Nothing => command(state, byte, lines),
        Wait::Extended => extended::command(state, byte, lines),
        Wait::One(to) => operand(state, to, byte, lines),
        Wait::Packet { left, exchange } => spi::packet_byte(state, byte, left, exchange, lines),
        Wait::Timings { left } => one_wire::timing_byte(state, byte, left, lines),
    }
}

/// "A fault returns its code; the byte it came with is lost, any wait stays." 02, Ask 2: "Between
/// commands, then, a fault also makes the bridge drop the next good byte without a code. Several
/// faults in a row drop one byte. Inside an item the rule of 01 stays".
fn fault(state: &mut State, which: Fault, lines: &mut Lines) {
    lines.returns(state, which.code());
    if state.wait == Wait::Nothing {
        state.drops = true;
    }
}

/// 02, Ask 1: "A command that 01 lists for an interface not selected returns the new device code 84,
/// every other byte that 01 answers with 80 .. keeps 80".
fn command(state: &mut State, byte: u8, lines: &mut Lines) {
    match byte {
        0x00..=0x1F => common::command(state, byte, lines),
        0x20..=0x3F if state.flags & I2C_SEL != 0 => i2c::command(state, byte, lines),
        0x40..=0x5F if state.flags & SPI_SEL != 0 => spi::command(state, byte, lines),
        0x60..=0x7F if state.flags & ONE_WIRE_SEL != 0 => one_wire::command(state, byte, lines),
        0x20..=0x27 | 0x40..=0x4C | 0x60..=0x6A => lines.returns(state, WRONG_INTERFACE),
        _ => lines.returns(state, UNKNOWN_COMMAND),
    }
}

fn operand(state: &mut State, to: Operand, byte: u8, lines: &mut Lines) {
    state.end_wait();
    match to {
        Operand::Register(register) => common::register_operand(state, register, byte, lines),
        Operand::IogCount => state.iog = byte,
        Operand::I2cByte => i2c::send_byte(state, byte, lines),
        Operand::SpiConfig => spi::config_operand(state, byte, lines),
        Operand::SpiSize => spi::size_operand(state, byte, lines),
        Operand::OneWireByte => one_wire::send_byte(state, byte, false, lines),
        Operand::OneWireBit => one_wire::send_bit(state, byte, lines),
        Operand::OneWireByteStrong => one_wire::send_byte(state, byte, true, lines),
    }
}
