//! Cases by section, the edges P1 to P12, and the session file's whole case.

mod anything;
mod buses;
mod commands;
mod drops;
mod edges;
mod judging;
mod refusals;
mod sessions;
mod spi;
mod support;
mod switching_on;
