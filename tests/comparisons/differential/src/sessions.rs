//! `bridge_replay` beside the reference's `replay`: whole sessions in chunks of any size, and calls from wild cursors.

use crate::dice::Dice;
use crate::records::session;
use crate::show::{hex, parting};
use crate::state_bytes;
use crate::states::any_state;
use uart_bridge::calls::{self, Cursor, REPLAY_ROOM};
use uart_bridge::Replay;

/// How many sessions, their bytes, the bytes of their transcripts, the calls made, and how each ended: 0 is a whole session.
#[derive(Default)]
pub struct Tally {
    pub sessions: u64,
    pub bytes: u64,
    pub transcripts: u64,
    pub calls: u64,
    pub by_refusal: [u64; 13],
    pub wild: u64,
}

pub fn compare(dice: &mut Dice, tally: &mut Tally) -> Result<(), String> {
    let session = session(dice).into_boxed_slice();
    let reference = reference::replay(&session);
    let tell = |what: &str| format!("replay\nsession {}\n{what}", hex(&session));
    let library = in_chunks(dice, &session, &mut tally.calls).map_err(|what| tell(&what))?;
    if library != reference {
        return Err(tell(&parting("transcripts", &library, &reference)));
    }
    if dice.one_in(8) {
        let wrapped: Vec<u8> = Replay::with_room(&session, dice.below(5_000)).flatten().collect();
        if wrapped != reference {
            return Err(tell(&parting("the wrapper's transcripts", &wrapped, &reference)));
        }
    }
    tally.sessions += 1;
    tally.bytes += session.len() as u64;
    tally.transcripts += reference.len() as u64;
    let refused = reference.len() >= 10 && reference[reference.len() - 10..][..4] == [6, 0, 0xFF, 0x01];
    tally.by_refusal[if refused { usize::from(reference[reference.len() - 6]) } else { 0 }] += 1;
    Ok(())
}

/// The library's transcript, by calls with random room, of which those with too little must do nothing.
fn in_chunks(dice: &mut Dice, session: &[u8], made: &mut u64) -> Result<Vec<u8>, String> {
    let state = state_bytes::bytes_of(&reference::factory_start()).into_vec();
    let mut cursor = Cursor { state, at: 0, end: 0, sample: 0, sampled: 0, done: 0 };
    let mut transcript = Vec::new();
    let generous = dice.one_in(2);
    while cursor.done == 0 {
        if dice.one_in(6) {
            let room = less_room(dice);
            idle(dice, &cursor, session, room)?;
            *made += 1;
        }
        let room = match (generous, dice.below(4)) {
            (true, _) => dice.between(REPLAY_ROOM, 40_000),
            (_, 0) => REPLAY_ROOM,
            _ => dice.between(REPLAY_ROOM, 3_000),
        };
        let before = cursor.clone();
        let chunk = call(dice, &mut cursor, session, room)?;
        *made += 1;
        if chunk.is_empty() && cursor == before {
            return Err(format!("a call with {room} bytes of output gets no further from {before:?}\n"));
        }
        transcript.extend(chunk);
    }
    // Over is over.
    idle(dice, &cursor, session, 2_000)?;
    Ok(transcript)
}

/// Less room than a call needs to get further.
fn less_room(dice: &mut Dice) -> usize {
    if dice.one_in(3) {
        dice.pick(&[0, 1, 5, 10, REPLAY_ROOM - 1])
    } else {
        dice.below(REPLAY_ROOM)
    }
}

/// A call that must change nothing.
fn idle(dice: &mut Dice, cursor: &Cursor, session: &[u8], room: usize) -> Result<(), String> {
    let mut after = cursor.clone();
    let chunk = call(dice, &mut after, session, room)?;
    if !chunk.is_empty() || after != *cursor {
        return Err(format!(
            "a call with {room} bytes of output goes from {cursor:?} to {after:?} and writes {}\n",
            hex(&chunk)
        ));
    }
    Ok(())
}

/// One call; what lies beyond the bytes written must be as it was.
fn call(dice: &mut Dice, cursor: &mut Cursor, session: &[u8], room: usize) -> Result<Vec<u8>, String> {
    let fill = dice.byte();
    let mut output = vec![fill; room].into_boxed_slice();
    let mut written = Box::new(0x5A5A);
    let refusal = calls::replay(cursor, session, &mut output, &mut written);
    if refusal != 0 || *written > room {
        return Err(format!("a call with {room} bytes of output answers {refusal} and {written} bytes\n"));
    }
    if output[*written..].iter().any(|&byte| byte != fill) {
        return Err(format!("a call with {room} bytes of output writes beyond its {written} bytes\n"));
    }
    Ok(output[..*written].to_vec())
}

/// A call from any cursor at all. The reference has none, so only what holds for every call is looked at: 1 exactly if the bytes are
/// no state, nothing changed then, and nothing written beyond the bytes counted.
pub fn wild(dice: &mut Dice, tally: &mut Tally) -> Result<(), String> {
    let session = session(dice).into_boxed_slice();
    let number = |dice: &mut Dice| match dice.below(6) {
        0 => usize::MAX - dice.below(5),
        1 => dice.number() as usize,
        2 => session.len() + dice.below(3),
        _ => dice.below(session.len() + 1),
    };
    let [at, end, sample, sampled] = [(); 4].map(|()| number(dice));
    let done = if dice.one_in(8) { dice.byte() } else { 0 };
    let before = Cursor { state: any_state(dice).into_vec(), at, end, sample, sampled, done };
    let room = if dice.one_in(3) { less_room(dice) } else { dice.between(REPLAY_ROOM, 5_000) };
    let fill = dice.byte();
    let mut output = vec![fill; room].into_boxed_slice();
    let (mut cursor, mut written) = (before.clone(), Box::new(0x5A5A));
    let refusal = calls::replay(&mut cursor, &session, &mut output, &mut written);
    let expected = u8::from(state_bytes::state_of(&before.state).is_none());
    let unchanged = cursor == before && *written == 0;
    let beyond = output.get(*written..).is_none_or(|rest| rest.iter().any(|&byte| byte != fill));
    if refusal != expected || refusal != 0 && !unchanged || beyond {
        return Err(format!(
            "wild replay\nsession {}\nbefore {before:?}\nafter {cursor:?}\n{room} bytes of output, {written} written\n\
             library {refusal}\nreference {expected}\n",
            hex(&session)
        ));
    }
    tally.wild += 1;
    Ok(())
}
