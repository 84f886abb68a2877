#![doc = include_str!("../README.md")]

pub mod calls;
mod replay;

use calls::Counts;
pub use calls::{REPLAY_ROOM, STATE_SIZE};
pub use replay::Replay;
use std::fmt;

/// What [`State::waits_for`] answers for a state between commands.
pub const WAITS_FOR_NOTHING: u8 = 0;

/// The most bytes of actions that an event writes: 4B or 4C over 64 bits.
pub const MOST_ACTION_BYTES: usize = 1028;

/// The most reply bytes that an event writes: 06.
pub const MOST_REPLIES: usize = 10;

/// A state of the bridge, as the bytes that `include/bridge.h` lays out.
///
/// Any 56 bytes can be made one; a call that is given bytes which are no state, or one out of its ranges, answers refusal 1.
#[derive(Clone, Copy, PartialEq, Eq, Hash)]
pub struct State([u8; STATE_SIZE]);

impl State {
    /// The state that every session starts with.
    pub fn factory_start() -> State {
        let mut bytes = [0; STATE_SIZE];
        let refusal = calls::factory_start(&mut bytes);
        debug_assert_eq!(refusal, 0, "the state has the length asked for");
        State(bytes)
    }

    /// The state of these bytes.
    pub fn from_bytes(bytes: [u8; STATE_SIZE]) -> State {
        State(bytes)
    }

    /// The state's bytes.
    pub fn bytes(&self) -> &[u8; STATE_SIZE] {
        &self.0
    }

    /// COMMON_FLAGS.
    pub fn flags(&self) -> u8 {
        self.0[0]
    }

    /// ERROR, the device code returned last.
    pub fn error(&self) -> u8 {
        self.0[1]
    }

    /// What is waited for, by the header's numbers; [`WAITS_FOR_NOTHING`] between commands.
    pub fn waits_for(&self) -> u8 {
        self.0[44]
    }

    /// Whether the next byte is dropped, as it is after a line fault between commands.
    pub fn drops_next(&self) -> bool {
        self.0[55] == 1
    }
}

impl fmt::Debug for State {
    /// The bytes in hex.
    fn fmt(&self, f: &mut fmt::Formatter<'_>) -> fmt::Result {
        write!(f, "State(")?;
        self.0.iter().try_for_each(|byte| write!(f, "{byte:02x}"))?;
        write!(f, ")")
    }
}

/// What is wrong with a byte's arrival.
#[derive(Clone, Copy, PartialEq, Eq, Debug, Hash)]
pub enum Fault {
    /// 81: a frame error.
    Frame,
    /// 82: an overrun.
    Overrun,
    /// 83: a parity error.
    Parity,
}

impl Fault {
    /// The device code of the fault.
    pub fn code(self) -> u8 {
        match self {
            Fault::Frame => 0x81,
            Fault::Overrun => 0x82,
            Fault::Parity => 0x83,
        }
    }
}

/// What the serial line gives.
#[derive(Clone, Copy, PartialEq, Eq, Debug, Hash)]
pub enum Event {
    /// A received byte.
    Byte(u8),
    /// A line fault; the byte that it came with is lost, and between commands the next one is dropped.
    Fault(Fault),
}

/// Why a call was not taken: the number of document 01, 1 to 12.
#[derive(Clone, Copy, PartialEq, Eq, Debug, Hash)]
pub struct Refusal(
    /// The number.
    pub u8,
);

impl fmt::Display for Refusal {
    fn fmt(&self, f: &mut fmt::Formatter<'_>) -> fmt::Result {
        let reason = match self.0 {
            1 => "the state breaks its ranges",
            2 => "fewer samples are left than the event uses",
            3 => "the actions do not fit",
            4 => "the replies do not fit",
            5 => "1 to 3 bytes left where a record header should be",
            6 => "record length over 4,096",
            7 => "record body passes the end",
            8 => "unknown kind",
            9 => "a fault body is not one byte of 81, 82, 83 hex",
            10 => "session over 32,768 bytes",
            11 => "factory image not good",
            12 => "the judge's start waits for something or drops the next byte",
            _ => "no number of document 01",
        };
        write!(f, "refusal {}: {reason}", self.0)
    }
}

impl std::error::Error for Refusal {}

/// 0 is no refusal.
fn taken(number: u8) -> Result<(), Refusal> {
    match number {
        0 => Ok(()),
        _ => Err(Refusal(number)),
    }
}

/// The answer to an event that was taken.
#[derive(Clone, Copy, PartialEq, Eq, Debug)]
pub struct Taken {
    /// The new state.
    pub state: State,
    /// Samples used, from the front.
    pub samples: usize,
    /// Reply bytes written, from the front.
    pub replies: usize,
    /// Actions written from the front, of four bytes each: verb, line, and the value with its low byte first.
    pub actions: usize,
}

/// Takes one event. Samples are used and buffers filled from the front; after earlier events, lend the rest of a buffer, as
/// `&mut actions[used..]`. With [`MOST_ACTION_BYTES`] and [`MOST_REPLIES`] bytes every event fits.
///
/// Refused with 1 to 4; then neither buffer is changed.
pub fn step(
    state: &State,
    event: Event,
    samples: &[u8],
    actions: &mut [u8],
    replies: &mut [u8],
) -> Result<Taken, Refusal> {
    let (kind, value) = match event {
        Event::Byte(byte) => (calls::BYTE, byte),
        Event::Fault(fault) => (calls::FAULT, fault.code()),
    };
    let mut bytes = state.0;
    let mut counts = Counts::default();
    taken(calls::step(&mut bytes, kind, value, samples, 0, actions, 0, replies, 0, &mut counts))?;
    let Counts { samples, replies, actions } = counts;
    Ok(Taken { state: State(bytes), samples, replies, actions })
}

/// What the judge finds.
#[derive(Clone, Copy, PartialEq, Eq, Debug, Hash)]
pub enum Verdict {
    /// Commands with all their operands, in a row.
    Whole,
    /// Not whole, but more bytes can make it so.
    Open,
    /// No bytes can mend what stands at this place.
    WrongAt {
        /// The place, from 0.
        place: usize,
        /// The code that the bridge would return there: 80 unknown command, 84 wrong interface or 40 no SPI configuration, hex.
        code: u8,
    },
}

/// Judges command bytes from a start between commands. Refused with 1, or with 12 if the start waits or drops the next byte.
pub fn judge(start: &State, bytes: &[u8]) -> Result<Verdict, Refusal> {
    let (mut verdict, mut place, mut code) = (0, 0, 0);
    taken(calls::judge(&start.0, bytes, &mut verdict, &mut place, &mut code))?;
    Ok(match verdict {
        calls::WHOLE => Verdict::Whole,
        calls::OPEN => Verdict::Open,
        _ => Verdict::WrongAt { place, code },
    })
}

/// What a bridge is given beside its settings.
#[derive(Clone, Copy, PartialEq, Eq, Debug, Default, Hash)]
pub struct Given {
    /// The IOG count.
    pub iog_count: u8,
    /// The version, which 1B sends.
    pub version: u8,
    /// The serial number, which 1E sends with its low byte first.
    pub serial: u32,
}

/// Switches on from the stored image if it is good and loads itself, else from the factory one. Answers the state, and how many
/// actions were written from the buffer's front; 28 bytes are room for all.
///
/// Refused with 11 if the factory image is not good, or with 3; then the buffer is not changed.
pub fn switch_on(
    stored: &[u8],
    factory: &[u8],
    given: Given,
    actions: &mut [u8],
) -> Result<(State, usize), Refusal> {
    let Given { iog_count, version, serial } = given;
    let (mut bytes, mut count) = ([0; STATE_SIZE], 0);
    taken(calls::switch_on(stored, factory, iog_count, version, serial, &mut bytes, actions, 0, &mut count))?;
    Ok((State(bytes), count))
}
