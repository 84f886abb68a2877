use reference::{factory_start, step, Event, State};

pub type Action = [u8; 4];

/// What events in a row did.
pub struct Fed {
    pub state: State,
    pub actions: Vec<Action>,
    pub replies: Vec<u8>,
}

/// Feeds bytes, none of which may be refused, and all samples must be used.
pub fn feed(start: &State, bytes: &[u8], samples: &[u8]) -> Fed {
    let mut fed = Fed { state: start.clone(), actions: Vec::new(), replies: Vec::new() };
    let mut sampled = 0;
    for &byte in bytes {
        let (mut actions, mut replies) = ([0xEE; 2048], [0xEE; 64]);
        let answer = step(&fed.state, Event::Byte(byte), samples, sampled, &mut actions, 0, &mut replies, 0);
        assert_eq!(answer.outcome, 0, "byte {byte:02X} refused");
        fed.state = answer.state;
        sampled += answer.samples;
        for action in actions[..4 * answer.actions].chunks(4) {
            fed.actions.push([action[0], action[1], action[2], action[3]]);
        }
        fed.replies.extend_from_slice(&replies[..answer.replies]);
    }
    assert_eq!(sampled, samples.len(), "samples left");
    fed
}

/// The factory start with reports on, then these bytes.
pub fn reporting(bytes: &[u8]) -> State {
    feed(&feed(&factory_start(), &[0x07], &[]).state, bytes, &[]).state
}

pub fn release(line: u8) -> Action {
    [0, line, 0, 0]
}

pub fn low(line: u8) -> Action {
    [1, line, 0, 0]
}

pub fn high(line: u8) -> Action {
    [2, line, 0, 0]
}

pub fn sample(line: u8) -> Action {
    [3, line, 0, 0]
}

pub fn microseconds(length: u16) -> Action {
    [4, 0, length.to_le_bytes()[0], length.to_le_bytes()[1]]
}

pub fn direction(port: u8, value: u8) -> Action {
    [5, port, value, 0]
}

pub fn latch(port: u8, value: u8) -> Action {
    [6, port, value, 0]
}

pub fn milliseconds(length: u8) -> Action {
    [8, 0, length, 0]
}

/// A small generator of bytes that look random.
pub struct Dice(pub u64);

impl Dice {
    pub fn byte(&mut self) -> u8 {
        self.0 ^= self.0 << 13;
        self.0 ^= self.0 >> 7;
        self.0 ^= self.0 << 17;
        (self.0 >> 32) as u8
    }

    pub fn below(&mut self, limit: u8) -> u8 {
        self.byte() % limit
    }

    pub fn pick(&mut self, bytes: &[u8]) -> u8 {
        bytes[usize::from(self.byte()) % bytes.len()]
    }
}
