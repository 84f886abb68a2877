//! The bytes of a state, as in `include/bridge.h`, for the reference's state.

use reference::{Operand, Register, State, Wait};

pub const SIZE: usize = 56;

/// Where some things stand.
pub const FLAGS: usize = 0;
pub const DDRC: usize = 4;
pub const PORTC: usize = 5;
pub const DDRD: usize = 6;
pub const PORTD: usize = 7;
pub const CONFIG: usize = 8;
pub const CONFIGURED: usize = 9;
pub const PACKET_SIZE: usize = 10;
pub const WAIT: usize = 44;
pub const LEFT: usize = 45;
pub const HELD: usize = 46;
pub const DROPS: usize = 55;

/// The waits for one byte, 1 to 13.
const OPERANDS: [Operand; 13] = [
    Operand::Register(Register::Ddrb),
    Operand::Register(Register::Portb),
    Operand::Register(Register::Ddrc),
    Operand::Register(Register::Portc),
    Operand::Register(Register::Ddrd),
    Operand::Register(Register::Portd),
    Operand::IogCount,
    Operand::I2cByte,
    Operand::SpiConfig,
    Operand::SpiSize,
    Operand::OneWireByte,
    Operand::OneWireBit,
    Operand::OneWireByteStrong,
];

fn part<const N: usize>(bytes: &[u8], at: usize) -> [u8; N] {
    bytes[at..at + N].try_into().unwrap()
}

/// The state of bytes, or none if the bytes are no state.
pub fn state_of(bytes: &[u8]) -> Option<State> {
    if bytes.len() != SIZE || bytes[CONFIGURED] > 1 || bytes[DROPS] > 1 {
        return None;
    }
    let left = bytes[LEFT];
    let wait = match bytes[WAIT] {
        0..=14 if left != 0 => return None,
        0 => Wait::Nothing,
        code @ 1..=13 => Wait::One(OPERANDS[usize::from(code) - 1]),
        14 => Wait::Extended,
        15 => Wait::Packet { left, exchange: false },
        16 => Wait::Packet { left, exchange: true },
        17 => Wait::Timings { left },
        _ => return None,
    };
    Some(State {
        flags: bytes[0],
        error: bytes[1],
        ddrb: bytes[2],
        portb: bytes[3],
        ddrc: bytes[4],
        portc: bytes[5],
        ddrd: bytes[6],
        portd: bytes[7],
        config: bytes[8],
        configured: bytes[9] == 1,
        size: bytes[10],
        packet: part(bytes, 11),
        timings: part(bytes, 19),
        eprom: part(bytes, 28),
        iog: bytes[38],
        version: bytes[39],
        serial: part(bytes, 40),
        wait,
        held: part(bytes, HELD),
        drops: bytes[DROPS] == 1,
    })
}

/// The bytes of a state.
pub fn bytes_of(state: &State) -> Box<[u8]> {
    let mut bytes = Vec::with_capacity(SIZE);
    let (flags, error) = (state.flags, state.error);
    bytes.extend([flags, error, state.ddrb, state.portb, state.ddrc, state.portc, state.ddrd, state.portd]);
    bytes.extend([state.config, u8::from(state.configured), state.size]);
    bytes.extend(state.packet);
    bytes.extend(state.timings);
    bytes.extend(state.eprom);
    bytes.extend([state.iog, state.version]);
    bytes.extend(state.serial);
    bytes.extend(match state.wait {
        Wait::Nothing => [0, 0],
        Wait::One(operand) => [1 + OPERANDS.iter().position(|&o| o == operand).unwrap() as u8, 0],
        Wait::Extended => [14, 0],
        Wait::Packet { left, exchange: false } => [15, left],
        Wait::Packet { left, exchange: true } => [16, left],
        Wait::Timings { left } => [17, left],
    });
    bytes.extend(state.held);
    bytes.push(u8::from(state.drops));
    assert_eq!(bytes.len(), SIZE);
    bytes.into_boxed_slice()
}
