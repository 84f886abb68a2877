//! The replay of a session file.

use crate::actions::Lines;
use crate::state::{Event, Fault, State, Wait};
use crate::step::take;
use crate::switch_on::factory_start;

const LONGEST_SESSION: usize = 32_768;
const LONGEST_BODY: usize = 4_096;

const BYTES: u16 = 1;
const FAULT: u16 = 2;
const SAMPLES: u16 = 3;

const REPLIES: u16 = 0x0101;
const ACTIONS: u16 = 0x0102;
const END: u16 = 0x0104;
const REFUSED: u16 = 0x01FF;

/// A refusal number and the place of what was refused.
struct Refusal {
    number: u16,
    place: usize,
}

struct Run<'a> {
    state: State,
    lines: Lines<'a>,
    transcript: Vec<u8>,
}

/// The whole transcript of a session, from the factory start.
pub fn replay(session: &[u8]) -> Vec<u8> {
    let mut run = Run { state: factory_start(), lines: Lines::new(&[]), transcript: Vec::new() };
    match run.session(session) {
        // "last 0104 with one byte, 1 if waiting"; a pending drop (02, Ask 2) is no wait
        Ok(()) => {
            let waiting = u8::from(run.state.wait != Wait::Nothing);
            write_record(&mut run.transcript, END, &[waiting]);
        }
        // "kind 01FF in place of 0104: number (16 bits), place (32 bits ...)"
        Err(refusal) => {
            let mut body = refusal.number.to_le_bytes().to_vec();
            body.extend_from_slice(&(refusal.place as u32).to_le_bytes());
            write_record(&mut run.transcript, REFUSED, &body);
        }
    }
    run.transcript
}

/// "Records: body length (16 bits), kind (16 bits), little-endian, then the body."
fn write_record(transcript: &mut Vec<u8>, kind: u16, body: &[u8]) {
    transcript.extend_from_slice(&(body.len() as u16).to_le_bytes());
    transcript.extend_from_slice(&kind.to_le_bytes());
    transcript.extend_from_slice(body);
}

impl<'a> Run<'a> {
    fn session(&mut self, session: &'a [u8]) -> Result<(), Refusal> {
        // "10 is checked before any record"
        if session.len() > LONGEST_SESSION {
            return Err(Refusal { number: 10, place: 0 });
        }
        let mut place = 0;
        while place < session.len() {
            let (kind, body) = record(&session[place..]).map_err(|number| Refusal { number, place })?;
            self.record(kind, body, place + 4)?;
            place += 4 + body.len();
        }
        Ok(())
    }

    /// Takes a good record whose body starts at `place`.
    fn record(&mut self, kind: u16, body: &'a [u8], place: usize) -> Result<(), Refusal> {
        if kind == SAMPLES {
            self.lines.replace_samples(body);
            return Ok(());
        }
        for (n, &byte) in body.iter().enumerate() {
            let fault = if kind == FAULT { Fault::from_code(byte) } else { None };
            let event = fault.map_or(Event::Byte(byte), Event::Fault);
            self.event(event).map_err(|number| Refusal { number, place: place + n })?;
        }
        Ok(())
    }

    /// "Output per event: kind 0102 actions, then 0101 replies, none if empty"
    fn event(&mut self, event: Event) -> Result<(), u16> {
        take(&mut self.state, event, &mut self.lines);
        if self.lines.lacks_samples() {
            return Err(2);
        }
        for (kind, body) in [(ACTIONS, &self.lines.actions), (REPLIES, &self.lines.replies)] {
            if !body.is_empty() {
                write_record(&mut self.transcript, kind, body);
            }
        }
        self.lines.next_event();
        Ok(())
    }
}

/// The kind and body of the first record of a file's rest that is not empty, or the lowest refusal
/// number from 5 to 9 that applies.
fn record(rest: &[u8]) -> Result<(u16, &[u8]), u16> {
    let &[length_low, length_high, kind_low, kind_high, ref after @ ..] = rest else {
        return Err(5);
    };
    let length = usize::from(u16::from_le_bytes([length_low, length_high]));
    let kind = u16::from_le_bytes([kind_low, kind_high]);
    if length > LONGEST_BODY {
        return Err(6);
    }
    let body = after.get(..length).ok_or(7u16)?;
    match (kind, body) {
        (BYTES | SAMPLES, _) => Ok((kind, body)),
        (FAULT, &[code]) if Fault::from_code(code).is_some() => Ok((kind, body)),
        (FAULT, _) => Err(9),
        _ => Err(8),
    }
}
