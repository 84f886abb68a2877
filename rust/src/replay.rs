//! Sessions, replayed in chunks.

use crate::calls::{self, Cursor, REPLAY_ROOM, STATE_SIZE};
use crate::State;

/// The replay of a session file from the factory start, in chunks whose sum is the transcript.
///
/// As an iterator it gives each chunk as a vector; [`Replay::fill`] fills a lent buffer instead.
///
/// ```
/// let session = [3, 0, 1, 0, 0x07, 0x01, 0x1A];
/// let transcript: Vec<u8> = uart_bridge::Replay::new(&session).flatten().collect();
/// assert_eq!(transcript[..5], [1, 0, 1, 1, 0]);
/// ```
#[derive(Clone, Debug)]
pub struct Replay<'a> {
    session: &'a [u8],
    cursor: Cursor,
    room: usize,
}

impl<'a> Replay<'a> {
    /// A replay in chunks of at most 16 KiB.
    pub fn new(session: &'a [u8]) -> Replay<'a> {
        Replay::with_room(session, 16 * 1024)
    }

    /// A replay in chunks of at most so many bytes, or [`REPLAY_ROOM`] if that is more: with less it might not get further.
    pub fn with_room(session: &'a [u8], room: usize) -> Replay<'a> {
        let state = State::factory_start().0.to_vec();
        let cursor = Cursor { state, at: 0, end: 0, sample: 0, sampled: 0, done: 0 };
        Replay { session, cursor, room: room.max(REPLAY_ROOM) }
    }

    /// Writes on to the buffer's front as far as surely fits, and answers how many bytes were written. With [`REPLAY_ROOM`] bytes
    /// it always gets further.
    pub fn fill(&mut self, output: &mut [u8]) -> usize {
        let mut written = 0;
        if !self.is_over() {
            let refusal = calls::replay(&mut self.cursor, self.session, output, &mut written);
            assert_eq!(refusal, 0, "the cursor holds a state, since the library made it");
        }
        written
    }

    /// Whether the transcript is at its end.
    pub fn is_over(&self) -> bool {
        self.cursor.done != 0
    }

    /// The state reached; the factory start again once the transcript is at its end.
    pub fn state(&self) -> State {
        let mut bytes = [0; STATE_SIZE];
        bytes.copy_from_slice(&self.cursor.state);
        State(bytes)
    }
}

impl Iterator for Replay<'_> {
    type Item = Vec<u8>;

    fn next(&mut self) -> Option<Vec<u8>> {
        if self.is_over() {
            return None;
        }
        let mut chunk = vec![0; self.room];
        let written = self.fill(&mut chunk);
        chunk.truncate(written);
        Some(chunk)
    }
}
