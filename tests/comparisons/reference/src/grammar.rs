//! The judge of command streams, from the grammar of items alone.

use crate::state::{
    State, Wait, I2C_SEL, NO_CONFIGURATION, ONE_WIRE_SEL, SPI_SEL, UNKNOWN_COMMAND, WRONG_INTERFACE,
};

#[derive(Clone, Copy, PartialEq, Eq, Debug)]
pub enum Judgement {
    Whole,
    Open,
    /// The place, and "the code the bridge would return there" (02, Ask 1).
    WrongAt(usize, u8),
    /// 1 or 12.
    Refused(u8),
}

#[derive(Clone, Copy, PartialEq, Eq, Debug)]
enum Interface {
    None,
    I2c,
    Spi,
    OneWire,
}

/// "The context is the interface, configured or not, and N, at first the start state's."
#[derive(Clone, Copy, Debug)]
struct Context {
    interface: Interface,
    configured: bool,
    /// N.
    bits: usize,
}

/// What follows a command in its item.
enum Form {
    Operands(usize),
    /// An extended byte, and its operand if it has one.
    Extended,
}

/// How the bytes begin: with an item so many bytes long, with a part of one, or with something
/// that no bytes put after it can mend, and its code.
enum Front {
    Item(usize),
    Part,
    Wrong(usize, u8),
}

pub fn judge(state: &State, bytes: &[u8]) -> Judgement {
    if !state.in_range() {
        return Judgement::Refused(1);
    }
    // 02, Ask 2: "12 also for a pending drop"
    if state.wait != Wait::Nothing || state.drops {
        return Judgement::Refused(12);
    }
    let mut context = Context::of(state);
    let mut place = 0;
    while place < bytes.len() {
        let rest = &bytes[place..];
        match context.front(rest) {
            Front::Item(length) => {
                context.after(&rest[..length]);
                place += length;
            }
            Front::Part => return Judgement::Open,
            Front::Wrong(k, code) => return Judgement::WrongAt(place + k, code),
        }
    }
    Judgement::Whole
}

impl Context {
    fn of(state: &State) -> Context {
        let interface = if state.flags & I2C_SEL != 0 {
            Interface::I2c
        } else if state.flags & SPI_SEL != 0 {
            Interface::Spi
        } else if state.flags & ONE_WIRE_SEL != 0 {
            Interface::OneWire
        } else {
            Interface::None
        };
        Context { interface, configured: state.configured, bits: usize::from(state.size) + 1 }
    }

    /// The front of bytes that are not empty.
    fn front(&self, bytes: &[u8]) -> Front {
        let length = match self.form(bytes[0]) {
            Err(code) => return Front::Wrong(0, code),
            Ok(Form::Operands(operands)) => 1 + operands,
            Ok(Form::Extended) => match bytes.get(1).map(|&byte| extended_operands(byte)) {
                None => return Front::Part,
                // 02, Ask 1: "and any such after 1D, keeps 80"
                Some(None) => return Front::Wrong(1, UNKNOWN_COMMAND),
                Some(Some(operands)) => 2 + operands,
            },
        };
        if length > bytes.len() {
            Front::Part
        } else {
            Front::Item(length)
        }
    }

    /// The form of "a command legal in its context (common, or of its interface)", else its code.
    fn form(&self, command: u8) -> Result<Form, u8> {
        let operands = match (command, self.interface) {
            (0x1D, _) => return Ok(Form::Extended),
            (0x0B | 0x0D | 0x0F | 0x11 | 0x13 | 0x15, _) => 1,
            (0x00..=0x1E, _) => 0,
            (0x22, Interface::I2c) => 1,
            (0x20..=0x27, Interface::I2c) => 0,
            // "41, 44, 46, 4B, 4C need configured."; 02, Ask 1: "with SPI selected 40 stays"
            (0x41 | 0x44 | 0x46 | 0x4B | 0x4C, Interface::Spi) if !self.configured => {
                return Err(NO_CONFIGURATION)
            }
            (0x40 | 0x42, Interface::Spi) => 1,
            (0x44 | 0x4C, Interface::Spi) => self.bits.div_ceil(8),
            (0x40..=0x4C, Interface::Spi) => 0,
            (0x61 | 0x63 | 0x67, Interface::OneWire) => 1,
            (0x65, Interface::OneWire) => 9,
            (0x60..=0x6A, Interface::OneWire) => 0,
            // 02, Ask 1: "A command that 01 lists for an interface not selected"
            (0x20..=0x27 | 0x40..=0x4C | 0x60..=0x6A, _) => return Err(WRONG_INTERFACE),
            _ => return Err(UNKNOWN_COMMAND),
        };
        Ok(Form::Operands(operands))
    }

    /// "00 clears the context to none, unconfigured, N = 1; 01 to 03 change the interface; 40
    /// configures; 42 sets N. Nothing else changes it."
    fn after(&mut self, item: &[u8]) {
        match *item {
            [0x00] => *self = Context { interface: Interface::None, configured: false, bits: 1 },
            [0x01] => self.interface = Interface::I2c,
            [0x02] => self.interface = Interface::Spi,
            [0x03] => self.interface = Interface::OneWire,
            [0x40, _] => self.configured = true,
            // register = (operand + 63) mod 64, and N is one more
            [0x42, operand] => self.bits = (usize::from(operand) + 63) % 64 + 1,
            _ => {}
        }
    }
}

/// The operands of an extended byte, none at all for one that is not defined.
fn extended_operands(byte: u8) -> Option<usize> {
    match byte {
        0x0E => Some(1),
        0x01..=0x03 | 0x08..=0x0F => Some(0),
        _ => None,
    }
}
