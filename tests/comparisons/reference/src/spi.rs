//! SPI commands, 40 to 4C, and the packet register.

use crate::actions::{Line, Lines};
use crate::state::{Operand, State, Wait, NO_CONFIGURATION, NO_ERROR, UNKNOWN_COMMAND};

const CPHA: u8 = 1 << 0;
const CPOL: u8 = 1 << 1;
const HIGH_FIRST: u8 = 1 << 2;

pub fn command(state: &mut State, byte: u8, lines: &mut Lines) {
    match byte {
        0x41 if !state.configured => {
            // "unconfigured, it returns 40, which is sent once, reports or not (H)"
            state.error = NO_CONFIGURATION;
            lines.send(NO_CONFIGURATION);
        }
        // "44, 46, 4B, 4C (H) unconfigured return 40."
        0x44 | 0x46 | 0x4B | 0x4C if !state.configured => lines.returns(state, NO_CONFIGURATION),
        0x40 => wait_for(state, Wait::One(Operand::SpiConfig), lines),
        0x41 => lines.send(state.config),
        0x42 => wait_for(state, Wait::One(Operand::SpiSize), lines),
        0x43 => lines.send(state.size + 1),
        0x44 | 0x4C => {
            let wait = Wait::Packet { left: state.packet_bytes(), exchange: byte == 0x4C };
            wait_for(state, wait, lines);
        }
        // "45 sends REG0 to REG7 (H)."
        0x45 => lines.send_all(&state.packet),
        0x46 => start_exchange(state, lines),
        0x47 | 0x48 => {
            lines.drive(Line::Ss, byte == 0x48);
            lines.returns(state, NO_ERROR);
        }
        0x49 => {
            let high = lines.sample(Line::Ss);
            lines.send_level(high);
        }
        0x4A => send_significant(state, lines),
        // "4B is 46, then 4A."
        0x4B => {
            start_exchange(state, lines);
            send_significant(state, lines);
        }
        _ => lines.returns(state, UNKNOWN_COMMAND),
    }
}

fn wait_for(state: &mut State, wait: Wait, lines: &mut Lines) {
    state.begin(wait);
    lines.returns(state, NO_ERROR);
}

/// "then operand mod 8 is CONFIG_SPI, configured is marked; 00"
pub fn config_operand(state: &mut State, operand: u8, lines: &mut Lines) {
    state.config = operand % 8;
    state.configured = true;
    lines.returns(state, NO_ERROR);
}

/// "then register = (operand + 63) mod 64; 00"
pub fn size_operand(state: &mut State, operand: u8, lines: &mut Lines) {
    state.size = size_register(operand);
    lines.returns(state, NO_ERROR);
}

/// PAKET_SIZE for an operand of 42.
pub fn size_register(operand: u8) -> u8 {
    ((u16::from(operand) + 63) % 64) as u8
}

/// A packet byte. The register "changes only at the last byte; then 00"; "4C is 44, then 46 after
/// the last byte, both codes returned (H)".
pub fn packet_byte(state: &mut State, byte: u8, left: u8, exchange: bool, lines: &mut Lines) {
    let received = usize::from(state.packet_bytes() - left);
    state.held[received] = byte;
    if left > 1 {
        state.wait = Wait::Packet { left: left - 1, exchange };
        return;
    }
    let mut bytes = [0; 8];
    bytes[..=received].copy_from_slice(&state.held[..=received]);
    state.packet = align(bytes, state.bits(), state.config & HIGH_FIRST != 0);
    state.end_wait();
    lines.returns(state, NO_ERROR);
    if exchange {
        start_exchange(state, lines);
    }
}

/// "lowest first; the low N bits are kept, the rest zero; with bit 2 of CONFIG_SPI they move up by
/// 64 - N", which is, by request 3, "what as many moves by one bit give".
pub fn align(bytes: [u8; 8], bits: u32, high_first: bool) -> [u8; 8] {
    let mut packet = u64::from_le_bytes(bytes) & u64::MAX >> (64 - bits);
    if high_first {
        for _ in bits..64 {
            packet <<= 1;
        }
    }
    packet.to_be_bytes()
}

fn start_exchange(state: &mut State, lines: &mut Lines) {
    state.packet = exchange(state.packet, state.bits(), state.config, lines);
    lines.returns(state, NO_ERROR);
}

/// "SCK to CPOL (bit 1), then N bits, from bit 63 down with bit 2 set, else from bit 0 up." The
/// register then holds "the first one at bit N - 1 with bit 2 set, else at bit 0".
fn exchange(packet: [u8; 8], bits: u32, config: u8, lines: &mut Lines) -> [u8; 8] {
    let sent = u64::from_be_bytes(packet);
    let mut received = 0u64;
    lines.drive(Line::Sck, config & CPOL != 0);
    for n in 0..bits {
        let (from, to) = if config & HIGH_FIRST != 0 { (63 - n, bits - 1 - n) } else { (n, n) };
        let high = exchange_bit(sent >> from & 1 == 1, config, lines);
        received |= u64::from(high) << to;
    }
    received.to_be_bytes()
}

/// "CPHA (bit 0) 0: MOSI, SCK away, sample MISO, SCK back. CPHA 1: SCK away, MOSI, SCK back,
/// sample."
fn exchange_bit(high: bool, config: u8, lines: &mut Lines) -> bool {
    let idle = config & CPOL != 0;
    if config & CPHA == 0 {
        lines.drive(Line::Mosi, high);
        lines.drive(Line::Sck, !idle);
        let received = lines.sample(Line::Miso);
        lines.drive(Line::Sck, idle);
        received
    } else {
        lines.drive(Line::Sck, !idle);
        lines.drive(Line::Mosi, high);
        lines.drive(Line::Sck, idle);
        lines.sample(Line::Miso)
    }
}

/// "4A sends the low ceil(N/8) bytes, lowest first."
fn send_significant(state: &State, lines: &mut Lines) {
    for &byte in state.packet.iter().rev().take(usize::from(state.packet_bytes())) {
        lines.send(byte);
    }
}
