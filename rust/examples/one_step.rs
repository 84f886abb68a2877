//! One event from the factory start: 1A, which asks for COMMON_FLAGS.

use uart_bridge::{step, Event, Refusal, State, MOST_ACTION_BYTES, MOST_REPLIES};

fn main() -> Result<(), Refusal> {
    let (mut actions, mut replies) = ([0; MOST_ACTION_BYTES], [0; MOST_REPLIES]);
    let taken = step(&State::factory_start(), Event::Byte(0x1A), &[], &mut actions, &mut replies)?;
    println!(
        "replies {:02x?}, {} actions, {} samples",
        &replies[..taken.replies],
        taken.actions,
        taken.samples
    );
    Ok(())
}
