//! Registers and common commands, 00 to 1E.

use crate::actions::{Line, Lines, PORT_B};
use crate::state::{
    Operand, Register, State, Wait, AUTOLOAD_EN, I2C_SEL, NO_ERROR, ONE_WIRE_SEL, REPORTS_EN, SPI_SEL,
    UNKNOWN_COMMAND,
};

pub fn command(state: &mut State, byte: u8, lines: &mut Lines) {
    match byte {
        0x00 => reset(state, lines),
        0x01 => choose(state, I2C_SEL, lines),
        0x02 => choose(state, SPI_SEL, lines),
        0x03 => choose(state, ONE_WIRE_SEL, lines),
        // "04 sends ERROR, then zeroes it."
        0x04 => {
            lines.send(state.error);
            state.error = 0;
        }
        0x05 => {
            state.eprom = saved(state);
            lines.returns(state, NO_ERROR);
        }
        0x06 => lines.send_all(&state.eprom),
        // "07/08 set/clear reports, 09/0A autoload; each returns 00"
        0x07 => flag(state, REPORTS_EN, true, lines),
        0x08 => flag(state, REPORTS_EN, false, lines),
        0x09 => flag(state, AUTOLOAD_EN, true, lines),
        0x0A => flag(state, AUTOLOAD_EN, false, lines),
        0x0B..=0x16 => register(state, byte, lines),
        0x17..=0x19 => {
            let level = lines.sample_port(PORT_B + (byte - 0x17));
            lines.send(level);
        }
        0x1A => lines.send(state.flags),
        0x1B => lines.send(state.version),
        0x1C => set_iog(state, lines),
        0x1D => {
            state.begin(Wait::Extended);
            lines.returns(state, NO_ERROR);
        }
        0x1E => lines.send_all(&state.serial),
        _ => lines.returns(state, UNKNOWN_COMMAND),
    }
}

/// "00 clears common flags but bits 3 and 4, SPI configuration, configured mark, size and ERROR;
/// reinit; returns 00. Packet register, timings and EPROM stay."
fn reset(state: &mut State, lines: &mut Lines) {
    state.flags &= REPORTS_EN | AUTOLOAD_EN;
    state.config = 0;
    state.configured = false;
    state.size = 0;
    state.error = 0;
    reinit(state, lines);
    lines.returns(state, NO_ERROR);
}

/// "01, 02, 03 clear the same common flags, set their own; reinit, then CS (01) or SS (02) high;
/// 00. SPI settings stay."
fn choose(state: &mut State, interface: u8, lines: &mut Lines) {
    state.flags = state.flags & (REPORTS_EN | AUTOLOAD_EN) | interface;
    reinit(state, lines);
    select_high(state, lines);
    lines.returns(state, NO_ERROR);
}

/// "all directions and latches 0; six actions, direction then latch, for B, C, D."
fn reinit(state: &mut State, lines: &mut Lines) {
    for register in Register::ALL {
        lines.write_register(state, register, 0);
    }
}

/// The select line of the chosen interface, if it has one, goes high.
pub fn select_high(state: &State, lines: &mut Lines) {
    if state.flags & I2C_SEL != 0 {
        lines.drive(Line::Cs, true);
    } else if state.flags & SPI_SEL != 0 {
        lines.drive(Line::Ss, true);
    }
}

/// The ten bytes that 05 stores; "then CONFIG_SPI, PAKET_SIZE and 08 or 00 for configured,
/// or FF FF FF if SPI isn't selected".
fn saved(state: &State) -> [u8; 10] {
    let [b, lb, c, lc, d, ld] = Register::ALL.map(|register| state.register(register));
    let [config, size, mark] = if state.flags & SPI_SEL != 0 {
        [state.config, state.size, if state.configured { 0x08 } else { 0x00 }]
    } else {
        [0xFF; 3]
    };
    [state.flags, b, lb, c, lc, d, ld, config, size, mark]
}

fn flag(state: &mut State, mask: u8, set: bool, lines: &mut Lines) {
    if set {
        state.flags |= mask;
    } else {
        state.flags &= !mask;
    }
    lines.returns(state, NO_ERROR);
}

/// 0B to 16: the odd ones load a register, the even ones send it.
fn register(state: &mut State, byte: u8, lines: &mut Lines) {
    let register = Register::ALL[usize::from((byte - 0x0B) / 2)];
    if byte % 2 == 1 {
        state.begin(Wait::One(Operand::Register(register)));
        lines.returns(state, NO_ERROR);
    } else {
        lines.send(state.register(register));
    }
}

/// "then one operand is written with one action and no code (H). Protected bits keep their old bits"
pub fn register_operand(state: &mut State, register: Register, operand: u8, lines: &mut Lines) {
    let protected = register.protected();
    let value = state.register(register) & protected | operand & !protected;
    lines.write_register(state, register, value);
}

/// "PD4 latched 1, wait IOG cycles, PD3 latched 1; 00."
fn set_iog(state: &mut State, lines: &mut Lines) {
    lines.write_bits(state, Register::Portd, 1 << 4, true);
    lines.wait_iog_cycles(u16::from(state.iog));
    lines.write_bits(state, Register::Portd, 1 << 3, true);
    lines.returns(state, NO_ERROR);
}
