//! Steps with any arguments at all.

use crate::support::Dice;
use reference::{factory_start, step, Event, Fault, Operand, Register, State, Wait};

fn any_wait(dice: &mut Dice) -> Wait {
    let left = if dice.below(2) == 0 { dice.below(12) } else { dice.byte() };
    match dice.below(12) {
        0 => Wait::One(Operand::Register(Register::ALL[usize::from(dice.below(6))])),
        1 => Wait::One(Operand::IogCount),
        2 => Wait::One(Operand::I2cByte),
        3 => Wait::One(Operand::SpiConfig),
        4 => Wait::One(Operand::SpiSize),
        5 => Wait::One(Operand::OneWireByte),
        6 => Wait::One(Operand::OneWireBit),
        7 => Wait::One(Operand::OneWireByteStrong),
        8 => Wait::Extended,
        9 => Wait::Packet { left, exchange: dice.below(2) == 0 },
        10 => Wait::Timings { left },
        _ => Wait::Nothing,
    }
}

fn any_state(dice: &mut Dice) -> State {
    let mut state = factory_start();
    let wild = dice.below(4) == 0;
    state.flags = if wild { dice.byte() } else { dice.pick(&[0, 1, 2, 4]) | dice.pick(&[0, 8, 16, 24]) };
    state.config = if wild { dice.byte() } else { dice.below(8) };
    state.size = if wild { dice.byte() } else { dice.below(64) };
    state.configured = dice.below(2) == 0;
    state.ddrd = if wild { dice.byte() } else { dice.byte() & 0xFC };
    state.portc = if wild { dice.byte() } else { dice.byte() & 0x3F };
    state.timings = std::array::from_fn(|_| dice.byte());
    state.packet = std::array::from_fn(|_| dice.byte());
    state.held = std::array::from_fn(|_| dice.byte());
    state.wait = any_wait(dice);
    state.drops = dice.below(8) == 0;
    state
}

#[test]
fn any_arguments_are_answered() {
    let mut dice = Dice(0xD1B5_4A32_D192_ED03);
    for _ in 0..100_000 {
        let state = any_state(&mut dice);
        let event = match dice.below(10) {
            0 => Event::Fault(Fault::Parity),
            n if n < 5 => Event::Byte(dice.below(0x70)),
            _ => Event::Byte(dice.byte()),
        };
        let mark = |dice: &mut Dice| match dice.below(8) {
            0 => usize::MAX,
            1 => usize::from(dice.byte()),
            _ => usize::from(dice.below(4)),
        };
        let marks = [mark(&mut dice), mark(&mut dice), mark(&mut dice)];
        let samples = vec![0xEE; usize::from(dice.below(80))];
        let mut actions = vec![0xEE; usize::from(dice.byte()) * 5];
        let mut replies = vec![0xEE; usize::from(dice.below(16))];
        let answer = step(&state, event, &samples, marks[0], &mut actions, marks[1], &mut replies, marks[2]);
        assert!(answer.outcome <= 4);
        assert_eq!(answer.outcome == 1, !state.in_range());
        if answer.outcome == 0 {
            assert!(answer.state.in_range());
        } else {
            assert_eq!(answer.state, state);
            assert!(actions.iter().chain(&replies).all(|&byte| byte == 0xEE));
        }
    }
}
