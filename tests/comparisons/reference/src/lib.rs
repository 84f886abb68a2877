//! A plain model of the RH-0010 bridge between a UART and I2C, SPI or 1-Wire:
//! its step, switch-on from stored settings, the judge of command streams,
//! and the replay of a session file.

pub mod actions;
pub mod common;
pub mod extended;
pub mod grammar;
pub mod i2c;
pub mod one_wire;
pub mod session;
pub mod spi;
pub mod state;
pub mod step;
pub mod switch_on;

pub use grammar::{judge, Judgement};
pub use session::replay;
pub use state::{Event, Fault, Operand, Register, State, Wait};
pub use step::{step, Answer};
pub use switch_on::{factory_start, settings, switch_on, SwitchedOn, FACTORY};
