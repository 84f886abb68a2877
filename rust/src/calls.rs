//! The C functions as they are, over slices: for states and images of any length, marks, and numbers of any kind. All of the crate's
//! `unsafe` is here. Each function answers 0 if the call was taken, else the refusal's number.
//!
//! What `include/bridge.h` asks of a caller is that each pointer is good for its length. Here every pointer with a length comes
//! from one slice together with that length, every pointer without one from a reference to the one number it stands for, and all
//! of them are borrowed until the call returns: shared where C has `const`, else alone, so that no two overlap. The library keeps
//! no pointer, and it has no state of its own.
#![allow(unsafe_code)]

mod c {
    extern "C" {
        pub fn bridge_factory_start(state: *mut u8, state_size: usize) -> u8;

        pub fn bridge_step(
            state: *mut u8,
            state_size: usize,
            kind: u8,
            value: u8,
            samples: *const u8,
            samples_size: usize,
            sampled: usize,
            actions: *mut u8,
            actions_size: usize,
            acted: usize,
            replies: *mut u8,
            replies_size: usize,
            replied: usize,
            samples_used: *mut usize,
            reply_count: *mut usize,
            action_count: *mut usize,
        ) -> u8;

        pub fn bridge_judge(
            state: *const u8,
            state_size: usize,
            bytes: *const u8,
            bytes_size: usize,
            verdict: *mut u8,
            place: *mut usize,
            code: *mut u8,
        ) -> u8;

        pub fn bridge_switch_on(
            stored: *const u8,
            stored_size: usize,
            factory: *const u8,
            factory_size: usize,
            iog_count: u8,
            version: u8,
            serial: u32,
            state: *mut u8,
            state_size: usize,
            actions: *mut u8,
            actions_size: usize,
            acted: usize,
            action_count: *mut usize,
        ) -> u8;

        pub fn bridge_replay(
            state: *mut u8,
            state_size: usize,
            at: *mut usize,
            end: *mut usize,
            sample: *mut usize,
            sampled: *mut usize,
            done: *mut u8,
            session: *const u8,
            session_size: usize,
            output: *mut u8,
            output_size: usize,
            written: *mut usize,
        ) -> u8;
    }
}

/// What an event used and wrote.
#[derive(Clone, Copy, PartialEq, Eq, Debug, Default)]
pub struct Counts {
    /// Samples used.
    pub samples: usize,
    /// Reply bytes written.
    pub replies: usize,
    /// Actions written, of four bytes each.
    pub actions: usize,
}

/// Where a replay goes on: the state's bytes and five numbers, at first the factory start and zeros. What they say between is the
/// library's own.
#[derive(Clone, PartialEq, Eq, Debug)]
pub struct Cursor {
    /// The state's bytes.
    pub state: Vec<u8>,
    /// How far the session is read.
    pub at: usize,
    /// How far the record in hand goes.
    pub end: usize,
    /// Which samples are lent.
    pub sample: usize,
    /// Which of them is next.
    pub sampled: usize,
    /// Not 0 when the replay is over.
    pub done: u8,
}

/// `bridge_factory_start`: the state that every session starts with.
pub fn factory_start(state: &mut [u8]) -> u8 {
    // SAFETY: the pointer and the length are those of one slice, borrowed alone.
    unsafe { c::bridge_factory_start(state.as_mut_ptr(), state.len()) }
}

/// `bridge_step`: one event, with the marks `sampled`, `acted` and `replied` in bytes.
#[allow(clippy::too_many_arguments)]
pub fn step(
    state: &mut [u8],
    kind: u8,
    value: u8,
    samples: &[u8],
    sampled: usize,
    actions: &mut [u8],
    acted: usize,
    replies: &mut [u8],
    replied: usize,
    counts: &mut Counts,
) -> u8 {
    // SAFETY: each pointer and the length after it are those of one slice, and the counts are three fields of one struct; those
    // written to are borrowed alone, so none overlaps another. The marks may be any numbers.
    unsafe {
        c::bridge_step(
            state.as_mut_ptr(),
            state.len(),
            kind,
            value,
            samples.as_ptr(),
            samples.len(),
            sampled,
            actions.as_mut_ptr(),
            actions.len(),
            acted,
            replies.as_mut_ptr(),
            replies.len(),
            replied,
            &mut counts.samples,
            &mut counts.replies,
            &mut counts.actions,
        )
    }
}

/// `bridge_judge`: the verdict on command bytes, and with [`WRONG`] the place and the code.
pub fn judge(state: &[u8], bytes: &[u8], verdict: &mut u8, place: &mut usize, code: &mut u8) -> u8 {
    // SAFETY: each pointer and the length after it are those of one slice that is only read; the three numbers are borrowed alone.
    unsafe { c::bridge_judge(state.as_ptr(), state.len(), bytes.as_ptr(), bytes.len(), verdict, place, code) }
}

/// `bridge_switch_on`: a state and its actions from two images of settings.
#[allow(clippy::too_many_arguments)]
pub fn switch_on(
    stored: &[u8],
    factory: &[u8],
    iog_count: u8,
    version: u8,
    serial: u32,
    state: &mut [u8],
    actions: &mut [u8],
    acted: usize,
    action_count: &mut usize,
) -> u8 {
    // SAFETY: each pointer and the length after it are those of one slice; the two images are only read and may be one, the other
    // two and the count are borrowed alone. The mark may be any number.
    unsafe {
        c::bridge_switch_on(
            stored.as_ptr(),
            stored.len(),
            factory.as_ptr(),
            factory.len(),
            iog_count,
            version,
            serial,
            state.as_mut_ptr(),
            state.len(),
            actions.as_mut_ptr(),
            actions.len(),
            acted,
            action_count,
        )
    }
}

/// `bridge_replay`: a session from the cursor on, as far as surely fits into the output. Any cursor is answered.
pub fn replay(cursor: &mut Cursor, session: &[u8], output: &mut [u8], written: &mut usize) -> u8 {
    // SAFETY: each pointer and the length after it are those of one slice, the cursor's numbers are fields of one struct that is
    // borrowed alone, and so are the output and its count; the session is only read.
    unsafe {
        c::bridge_replay(
            cursor.state.as_mut_ptr(),
            cursor.state.len(),
            &mut cursor.at,
            &mut cursor.end,
            &mut cursor.sample,
            &mut cursor.sampled,
            &mut cursor.done,
            session.as_ptr(),
            session.len(),
            output.as_mut_ptr(),
            output.len(),
            written,
        )
    }
}

/// How many bytes a state has.
pub const STATE_SIZE: usize = 56;
/// The kind of event that is a received byte.
pub const BYTE: u8 = 1;
/// The kind of event that is a line fault.
pub const FAULT: u8 = 2;
/// The judge's verdict on orderly bytes.
pub const WHOLE: u8 = 0;
/// The judge's verdict on bytes that can be continued to be orderly.
pub const OPEN: u8 = 1;
/// The judge's verdict on all others.
pub const WRONG: u8 = 2;
/// With so many bytes of output a call of `replay` always gets further.
pub const REPLAY_ROOM: usize = 1046;
