//! One call of `bridge_step`: by the library, by the reference and by the wrapper.

use crate::random::event;
use crate::show::{hex, parting};
use crate::state_bytes;
use reference::State;
use std::fmt;
use uart_bridge::calls::{self, Counts};

/// All that goes into a call. Each slice is a piece of the heap that is as long as it says.
#[derive(Clone)]
pub struct Call {
    pub bytes: Box<[u8]>,
    pub kind: u8,
    pub value: u8,
    pub samples: Box<[u8]>,
    pub sampled: usize,
    pub actions: Box<[u8]>,
    pub acted: usize,
    pub replies: Box<[u8]>,
    pub replied: usize,
}

/// All that comes out: the refusal's number, and everything behind a pointer that is not `const`.
#[derive(PartialEq, Eq)]
pub struct Answer {
    pub refusal: u8,
    pub counts: Counts,
    pub bytes: Box<[u8]>,
    pub actions: Box<[u8]>,
    pub replies: Box<[u8]>,
}

pub fn by_the_library(call: &Call) -> Answer {
    let Call { mut bytes, mut actions, mut replies, .. } = call.clone();
    let mut counts = Box::new(Counts { samples: 0x5A5A, replies: 0x5A5A, actions: 0x5A5A });
    let refusal = calls::step(
        &mut bytes,
        call.kind,
        call.value,
        &call.samples,
        call.sampled,
        &mut actions,
        call.acted,
        &mut replies,
        call.replied,
        &mut counts,
    );
    Answer { refusal, counts: *counts, bytes, actions, replies }
}

/// The refusal of a call that has no event, which would be 8 or 9: the lowest number that applies, as in 01.
fn no_event(call: &Call, state: &State, number: u8) -> u8 {
    if !state.in_range() {
        1
    } else if call.sampled > call.samples.len() {
        2
    } else if call.acted > call.actions.len() {
        3
    } else if call.replied > call.replies.len() {
        4
    } else {
        number
    }
}

pub fn by_the_reference(call: &Call) -> Answer {
    let Call { bytes, mut actions, mut replies, .. } = call.clone();
    let refused = |refusal| {
        let Call { bytes, actions, replies, .. } = call.clone();
        Answer { refusal, counts: Counts::default(), bytes, actions, replies }
    };
    let Some(state) = state_bytes::state_of(&bytes) else { return refused(1) };
    let event = match event(call.kind, call.value) {
        Ok(event) => event,
        Err(number) => return refused(no_event(call, &state, number)),
    };
    let (sampled, acted, replied) = (call.sampled, call.acted, call.replied);
    let answer =
        reference::step(&state, event, &call.samples, sampled, &mut actions, acted, &mut replies, replied);
    Answer {
        refusal: answer.outcome,
        counts: Counts { samples: answer.samples, replies: answer.replies, actions: answer.actions },
        bytes: state_bytes::bytes_of(&answer.state),
        actions,
        replies,
    }
}

/// The wrapper's `step` on the rests of the buffers does what the C function does with marks.
pub fn by_the_wrapper(call: &Call) -> Result<(), String> {
    use uart_bridge::{step, Event, Fault};
    let event = match (call.kind, call.value) {
        (1, byte) => Event::Byte(byte),
        (2, 0x81) => Event::Fault(Fault::Frame),
        (2, 0x82) => Event::Fault(Fault::Overrun),
        (2, 0x83) => Event::Fault(Fault::Parity),
        _ => return Ok(()),
    };
    let Call { mut actions, mut replies, .. } = call.clone();
    let rests =
        (call.samples.get(call.sampled..), actions.get_mut(call.acted..), replies.get_mut(call.replied..));
    let (Ok(bytes), (Some(samples), Some(action_rest), Some(reply_rest))) =
        (call.bytes[..].try_into(), rests)
    else {
        return Ok(());
    };
    let answer = step(&uart_bridge::State::from_bytes(bytes), event, samples, action_rest, reply_rest);
    let (refusal, counts, bytes) = match answer {
        Ok(taken) => {
            let counts = Counts { samples: taken.samples, replies: taken.replies, actions: taken.actions };
            (0, counts, Box::from(&taken.state.bytes()[..]))
        }
        Err(refusal) => (refusal.0, Counts::default(), call.bytes.clone()),
    };
    let (wrapper, library) = (Answer { refusal, counts, bytes, actions, replies }, by_the_library(call));
    if wrapper != library {
        return Err(format!("wrapper's {}", difference(call, &wrapper, &library)));
    }
    Ok(())
}

pub fn difference(call: &Call, library: &Answer, reference: &Answer) -> String {
    format!(
        "step\n{call}library   {library}reference {reference}{}{}{}",
        parting("states", &library.bytes, &reference.bytes),
        parting("actions", &library.actions, &reference.actions),
        parting("replies", &library.replies, &reference.replies),
    )
}

impl fmt::Display for Call {
    fn fmt(&self, f: &mut fmt::Formatter<'_>) -> fmt::Result {
        writeln!(f, "state {}", hex(&self.bytes))?;
        writeln!(f, "event kind {}, value {:02x}", self.kind, self.value)?;
        let rest = self.samples.get(self.sampled..).unwrap_or(&[]);
        writeln!(
            f,
            "samples of {} bytes, mark {}: {}",
            self.samples.len(),
            self.sampled,
            hex(&rest[..rest.len().min(80)])
        )?;
        writeln!(f, "actions of {} bytes, mark {}", self.actions.len(), self.acted)?;
        writeln!(f, "replies of {} bytes, mark {}", self.replies.len(), self.replied)
    }
}

impl fmt::Display for Answer {
    fn fmt(&self, f: &mut fmt::Formatter<'_>) -> fmt::Result {
        let Counts { samples, replies, actions } = self.counts;
        writeln!(f, "refusal {}, {samples} samples, {replies} replies, {actions} actions", self.refusal)?;
        writeln!(f, "  state {}", hex(&self.bytes))
    }
}
