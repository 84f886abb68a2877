//! Switch-on from stored settings.

use crate::actions::Lines;
use crate::common::select_high;
use crate::state::{
    Register, State, AUTOLOAD_EN, DEFAULT_TIMINGS, INTERFACES, SPI_SEL, UNUSED_FLAGS, ZERO_C, ZERO_D,
};

/// "Start is factory, 00 seven times and FF three"
pub const FACTORY: [u8; 10] = [0, 0, 0, 0, 0, 0, 0, 0xFF, 0xFF, 0xFF];

#[derive(Clone, PartialEq, Eq, Debug)]
pub struct SwitchedOn {
    /// 0, or the refusal number 3 or 11.
    pub outcome: u8,
    pub state: State,
    pub actions: usize,
}

/// Switches on, with the actions written to `buffer` from `mark` (in bytes).
pub fn switch_on(
    stored: &[u8],
    factory: &[u8],
    iog: u8,
    version: u8,
    serial: [u8; 4],
    buffer: &mut [u8],
    mark: usize,
) -> SwitchedOn {
    let image = match choose(stored, factory, buffer.len(), mark) {
        Ok(image) => image,
        // "switch-on's 3 and 11 give an all-zero state"
        Err(refusal) => return SwitchedOn { outcome: refusal, state: State::default(), actions: 0 },
    };
    let mut lines = Lines::new(&[]);
    let mut state = loaded(image, &mut lines);
    // "EPROM holds the stored image if it has ten bytes, else the factory one."
    state.eprom.copy_from_slice(if stored.len() == 10 { stored } else { factory });
    state.iog = iog;
    state.version = version;
    state.serial = serial;
    buffer[mark..mark + lines.actions.len()].copy_from_slice(&lines.actions);
    SwitchedOn { outcome: 0, state, actions: lines.actions.len() / 4 }
}

/// The ten-byte part that switch-on uses, or "the empty front part of the factory image" where it
/// is refused; `room` is the buffer's length.
pub fn settings<'a>(stored: &'a [u8], factory: &'a [u8], room: usize, mark: usize) -> &'a [u8] {
    choose(stored, factory, room, mark).unwrap_or(&factory[..0])
}

/// "the stored, if good with AUTOLOAD_EN set, else the factory one"
fn choose<'a>(stored: &'a [u8], factory: &'a [u8], room: usize, mark: usize) -> Result<&'a [u8], u8> {
    if !good(factory) {
        return Err(11);
    }
    let image = if good(stored) && stored[0] & AUTOLOAD_EN != 0 { stored } else { factory };
    let mut lines = Lines::new(&[]);
    loaded(image, &mut lines);
    match room.checked_sub(mark) {
        Some(rest) if lines.actions.len() <= rest => Ok(image),
        _ => Err(3),
    }
}

/// "An image is good if it has ten bytes, flag bits 5 to 7 zero, at most one interface, C bits 6, 7
/// and D bits 0, 1 zero, and a tail that is FF FF FF without SPI (then configuration 0, N 1,
/// unconfigured), and with SPI selected <= 7, <= 63, 00 or 08."
pub fn good(image: &[u8]) -> bool {
    let &[flags, _, _, ddrc, portc, ddrd, portd, config, size, mark] = image else {
        return false;
    };
    let tail = if flags & SPI_SEL != 0 {
        config <= 7 && size <= 63 && (mark == 0x00 || mark == 0x08)
    } else {
        [config, size, mark] == [0xFF; 3]
    };
    let interfaces = (flags & INTERFACES).count_ones();
    flags & UNUSED_FLAGS == 0
        && interfaces <= 1
        && (ddrc | portc) & ZERO_C == 0
        && (ddrd | portd) & ZERO_D == 0
        && tail
}

/// The state of a good image and its actions: "as reinit with the image's values, then CS or SS
/// high".
fn loaded(image: &[u8], lines: &mut Lines) -> State {
    let mut state = State { flags: image[0], timings: DEFAULT_TIMINGS, ..State::default() };
    for (register, &value) in Register::ALL.into_iter().zip(&image[1..7]) {
        lines.write_register(&mut state, register, value);
    }
    if state.flags & SPI_SEL != 0 {
        state.config = image[7];
        state.size = image[8];
        state.configured = image[9] == 0x08;
    }
    select_high(&state, lines);
    state
}

/// The start of a session: "IOG count FF, version and serial 0".
pub fn factory_start() -> State {
    switch_on(&FACTORY, &FACTORY, 0xFF, 0, [0; 4], &mut [0; 28], 0).state
}
