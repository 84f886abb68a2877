//! Actions, samples and replies of one event.

use crate::state::{Register, State, REPORTS_EN};

/// The verbs 0 to 9.
#[derive(Clone, Copy, PartialEq, Eq, Debug)]
pub enum Verb {
    Release = 0,
    DriveLow = 1,
    DriveHigh = 2,
    SampleLine = 3,
    WaitMicroseconds = 4,
    Direction = 5,
    Latch = 6,
    SamplePort = 7,
    WaitMilliseconds = 8,
    WaitIogCycles = 9,
}

/// The named lines 0 to 8.
#[derive(Clone, Copy, PartialEq, Eq, Debug)]
pub enum Line {
    Scl = 0,
    Sda = 1,
    Cs = 2,
    Sck = 3,
    Mosi = 4,
    Miso = 5,
    Ss = 6,
    Dq = 7,
    Pb7 = 8,
}

/// The line number of port B; C and D follow.
pub const PORT_B: u8 = 16;

/// What one event samples, does and sends.
#[derive(Debug)]
pub struct Lines<'a> {
    samples: &'a [u8],
    used: usize,
    pub actions: Vec<u8>,
    pub replies: Vec<u8>,
}

impl<'a> Lines<'a> {
    /// `samples` are those unread.
    pub fn new(samples: &'a [u8]) -> Lines<'a> {
        Lines { samples, used: 0, actions: Vec::new(), replies: Vec::new() }
    }

    /// Replaces the unread samples.
    pub fn replace_samples(&mut self, samples: &'a [u8]) {
        self.samples = samples;
        self.used = 0;
    }

    /// Forgets what the last event did; the samples it used are read.
    pub fn next_event(&mut self) {
        self.samples = self.samples.get(self.used..).unwrap_or(&[]);
        self.used = 0;
        self.actions.clear();
        self.replies.clear();
    }

    /// The samples that the event uses.
    pub fn used(&self) -> usize {
        self.used
    }

    /// Whether refusal 2 applies: "fewer samples are left than the event uses".
    pub fn lacks_samples(&self) -> bool {
        self.used > self.samples.len()
    }

    /// "An action is four bytes: verb, line, value (16 bits, little-endian); unused fields are 0."
    fn act(&mut self, verb: Verb, line: u8, value: u16) {
        let [low, high] = value.to_le_bytes();
        self.actions.extend_from_slice(&[verb as u8, line, low, high]);
    }

    /// A missing sample reads 0 here; the event is refused for it afterwards.
    fn next_sample(&mut self) -> u8 {
        let sample = self.samples.get(self.used).copied().unwrap_or(0);
        self.used += 1;
        sample
    }

    pub fn release(&mut self, line: Line) {
        self.act(Verb::Release, line as u8, 0);
    }

    pub fn drive(&mut self, line: Line, high: bool) {
        self.act(if high { Verb::DriveHigh } else { Verb::DriveLow }, line as u8, 0);
    }

    /// An open line's level: high is left to the pull-up.
    pub fn low_or_release(&mut self, line: Line, high: bool) {
        if high {
            self.release(line);
        } else {
            self.drive(line, false);
        }
    }

    /// "for a line, 0 is low and anything else high"
    pub fn sample(&mut self, line: Line) -> bool {
        self.act(Verb::SampleLine, line as u8, 0);
        self.next_sample() != 0
    }

    /// "for a port, the byte is taken whole"
    pub fn sample_port(&mut self, port: u8) -> u8 {
        self.act(Verb::SamplePort, port, 0);
        self.next_sample()
    }

    pub fn wait_microseconds(&mut self, length: u16) {
        self.act(Verb::WaitMicroseconds, 0, length);
    }

    pub fn wait_milliseconds(&mut self, length: u16) {
        self.act(Verb::WaitMilliseconds, 0, length);
    }

    pub fn wait_iog_cycles(&mut self, length: u16) {
        self.act(Verb::WaitIogCycles, 0, length);
    }

    /// "Direction and latch carry the port's whole new register"
    pub fn write_register(&mut self, state: &mut State, register: Register, value: u8) {
        *state.register_mut(register) = value;
        let (verb, port) = match register {
            Register::Ddrb => (Verb::Direction, PORT_B),
            Register::Portb => (Verb::Latch, PORT_B),
            Register::Ddrc => (Verb::Direction, PORT_B + 1),
            Register::Portc => (Verb::Latch, PORT_B + 1),
            Register::Ddrd => (Verb::Direction, PORT_B + 2),
            Register::Portd => (Verb::Latch, PORT_B + 2),
        };
        self.act(verb, port, u16::from(value));
    }

    /// Sets or clears the bits of `mask` in a register, with one action.
    pub fn write_bits(&mut self, state: &mut State, register: Register, mask: u8, high: bool) {
        let old = state.register(register);
        self.write_register(state, register, if high { old | mask } else { old & !mask });
    }

    pub fn send(&mut self, byte: u8) {
        self.replies.push(byte);
    }

    pub fn send_all(&mut self, bytes: &[u8]) {
        self.replies.extend_from_slice(bytes);
    }

    /// "0F low or 8F high"
    pub fn send_level(&mut self, high: bool) {
        self.send(if high { 0x8F } else { 0x0F });
    }

    /// "A *returned* code is stored in ERROR and, if REPORTS_EN is set after the command, also sent."
    pub fn returns(&mut self, state: &mut State, code: u8) {
        state.error = code;
        if state.flags & REPORTS_EN != 0 {
            self.send(code);
        }
    }
}
