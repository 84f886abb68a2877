//! Refusals 1 to 4 of a step.

use crate::support::reporting;
use reference::{factory_start, step, Event, Operand, State, Wait};

/// The outcome of a byte, with room left as given; a refused call must change nothing.
fn outcome(state: &State, byte: u8, samples: usize, action_bytes: usize, reply_bytes: usize) -> u8 {
    let samples = vec![0; samples];
    let (mut actions, mut replies) = (vec![0xEE; action_bytes], vec![0xEE; reply_bytes]);
    let answer = step(state, Event::Byte(byte), &samples, 0, &mut actions, 0, &mut replies, 0);
    if answer.outcome != 0 {
        assert_eq!(&answer.state, state);
        assert_eq!((answer.samples, answer.replies, answer.actions), (0, 0, 0));
        assert!(actions.iter().chain(&replies).all(|&byte| byte == 0xEE));
    }
    answer.outcome
}

#[test]
fn each_broken_range_gives_1() {
    let i2c = reporting(&[0x01]);
    let spi = reporting(&[0x02, 0x40, 0x00, 0x42, 9]);
    let wire = reporting(&[0x03]);
    let packet = |left| Wait::Packet { left, exchange: false };
    let broken = [
        State { flags: 0x03, ..i2c.clone() },
        State { flags: 0x07, ..i2c.clone() },
        State { flags: 0x21, ..i2c.clone() },
        State { flags: 0x81, ..i2c.clone() },
        State { size: 64, ..i2c.clone() },
        State { size: 255, wait: packet(1), ..spi.clone() },
        State { config: 8, ..i2c.clone() },
        State { ddrc: 0x40, ..i2c.clone() },
        State { portc: 0x80, ..i2c.clone() },
        State { ddrd: 0x01, ..i2c.clone() },
        State { portd: 0x02, ..i2c.clone() },
        State { wait: Wait::One(Operand::SpiConfig), ..i2c.clone() },
        State { wait: Wait::One(Operand::I2cByte), ..spi.clone() },
        State { wait: Wait::One(Operand::OneWireBit), ..spi.clone() },
        State { wait: Wait::Timings { left: 1 }, ..spi.clone() },
        State { wait: packet(1), configured: true, ..wire.clone() },
        State { wait: packet(1), configured: false, ..spi.clone() },
        State { wait: packet(0), ..spi.clone() },
        State { wait: packet(3), ..spi.clone() },
        State { wait: Wait::Timings { left: 0 }, ..wire.clone() },
        State { wait: Wait::Timings { left: 10 }, ..wire.clone() },
        State { wait: Wait::Extended, drops: true, ..i2c.clone() },
        State { wait: Wait::One(Operand::IogCount), drops: true, ..i2c.clone() },
        State { wait: packet(2), drops: true, ..spi.clone() },
        State { wait: Wait::Timings { left: 9 }, drops: true, ..wire.clone() },
    ];
    for state in broken {
        assert_eq!(outcome(&state, 0x1A, 0, 0, 0), 1, "{state:?}");
    }
}

#[test]
fn states_at_the_edge_of_their_ranges_are_taken() {
    let i2c = reporting(&[0x01]);
    let spi = reporting(&[0x02, 0x40, 0x00, 0x42, 9]);
    let wire = reporting(&[0x03]);
    let whole = [
        State { wait: Wait::Packet { left: 2, exchange: false }, held: [9; 9], ..spi.clone() },
        State { ddrd: 0xFC, portd: 0xFC, ddrc: 0x3F, portc: 0x3F, ..spi },
        State { wait: Wait::Timings { left: 9 }, ..wire.clone() },
        State { wait: Wait::Extended, ..i2c.clone() },
        State { drops: true, ..wire },
        State { drops: true, held: [9; 9], ..i2c },
    ];
    for state in whole {
        assert_ne!(outcome(&state, 0x1A, 0, 0, 0), 1, "{state:?}");
    }
}

#[test]
fn the_lowest_of_2_3_and_4_is_given() {
    // 60 uses one sample, six actions and one reply
    let state = reporting(&[0x03]);
    assert_eq!(outcome(&state, 0x60, 0, 0, 0), 2);
    assert_eq!(outcome(&state, 0x60, 1, 23, 0), 3);
    assert_eq!(outcome(&state, 0x60, 1, 24, 0), 4);
    assert_eq!(outcome(&state, 0x60, 1, 24, 1), 0);
}

#[test]
fn a_mark_past_the_end_refuses_even_if_nothing_is_needed() {
    // without reports, 0A needs no sample, action or reply
    let state = factory_start();
    let run = |sampled, acted, replied| {
        step(&state, Event::Byte(0x0A), &[0], sampled, &mut [0; 2], acted, &mut [0; 3], replied).outcome
    };
    assert_eq!(run(1, 2, 3), 0);
    for past in [usize::MAX, 4] {
        assert_eq!(run(past, past, past), 2);
        assert_eq!(run(1, past, past), 3);
        assert_eq!(run(1, 2, past), 4);
    }
    assert_eq!([run(2, 0, 0), run(0, 3, 0), run(0, 0, 4)], [2, 3, 4]);
}

#[test]
fn bytes_before_and_beyond_are_untouched() {
    let state = reporting(&[0x01]);
    let (mut actions, mut replies) = ([0xEE; 16], [0xEE; 3]);
    let answer = step(&state, Event::Byte(0x25), &[], 0, &mut actions, 5, &mut replies, 1);
    assert_eq!((answer.outcome, answer.actions, answer.replies), (0, 1, 1));
    assert_eq!(actions[..5], [0xEE; 5]);
    assert_eq!(actions[5..9], [1, 2, 0, 0]);
    assert_eq!(actions[9..], [0xEE; 7]);
    assert_eq!(replies, [0xEE, 0x00, 0xEE]);
}
