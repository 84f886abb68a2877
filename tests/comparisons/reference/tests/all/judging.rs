//! The judge, alone and against the step.

use crate::support::{feed, reporting, Dice};
use reference::{factory_start, judge, step, Event, Judgement, State, Wait};

#[test]
fn refusals_of_the_judge() {
    let waiting = reporting(&[0x1D]);
    assert_eq!(judge(&waiting, &[]), Judgement::Refused(12));
    assert_eq!(judge(&State { size: 64, ..waiting.clone() }, &[]), Judgement::Refused(1));
    // 02, Ask 2: "12 also for a pending drop", and 1 for one beside a wait
    let dropping = State { drops: true, ..factory_start() };
    assert_eq!(judge(&dropping, &[]), Judgement::Refused(12));
    assert_eq!(judge(&dropping, &[0x00]), Judgement::Refused(12));
    assert_eq!(judge(&State { drops: true, ..waiting }, &[]), Judgement::Refused(1));
    assert_eq!(judge(&State { config: 8, ..dropping }, &[]), Judgement::Refused(1));
}

#[test]
fn the_start_gives_the_first_context() {
    let start = reporting(&[0x02, 0x40, 0x00, 0x42, 17]);
    assert_eq!(judge(&start, &[0x44, 1, 2]), Judgement::Open);
    assert_eq!(judge(&start, &[0x44, 1, 2, 3]), Judgement::Whole);
    assert_eq!(judge(&start, &[0x4C, 1, 2, 3, 0xFF]), Judgement::WrongAt(4, 0x80));
    assert_eq!(judge(&start, &[0x00, 0x02, 0x41]), Judgement::WrongAt(2, 0x40));
    assert_eq!(judge(&start, &[0x00, 0x41]), Judgement::WrongAt(1, 0x84));
}

#[test]
fn extended_items() {
    let start = factory_start();
    assert_eq!(judge(&start, &[0x1D]), Judgement::Open);
    assert_eq!(judge(&start, &[0x1D, 0x0E]), Judgement::Open);
    assert_eq!(judge(&start, &[0x1D, 0x0E, 0xFF]), Judgement::Whole);
    assert_eq!(judge(&start, &[0x1D, 0x0F]), Judgement::Whole);
    for byte in [0x00, 0x04, 0x05, 0x06, 0x07, 0x10, 0x20, 0x41, 0x60, 0xFF] {
        assert_eq!(judge(&start, &[0x1A, 0x1D, byte]), Judgement::WrongAt(2, 0x80));
    }
}

#[test]
fn timings_take_nine_operands() {
    let bytes = [0x03, 0x65, 1, 2, 3, 4, 5, 6, 7, 8, 9, 0x61];
    assert_eq!(judge(&factory_start(), &bytes), Judgement::Open);
    assert_eq!(judge(&factory_start(), &bytes[..11]), Judgement::Whole);
    assert_eq!(judge(&factory_start(), &bytes[..10]), Judgement::Open);
}

/// The state after the byte, or the code that rejects it: 80, 84, or 40 without a configuration.
fn taken(state: &State, byte: u8) -> Result<State, u8> {
    let before = State { error: 0xAA, ..state.clone() };
    let (mut actions, mut replies) = ([0; 2048], [0; 64]);
    let answer = step(&before, Event::Byte(byte), &[0; 64], 0, &mut actions, 0, &mut replies, 0);
    assert_eq!(answer.outcome, 0);
    let code = answer.state.error;
    if matches!(code, 0x80 | 0x84 | 0x40) {
        assert_eq!(State { error: 0xAA, ..answer.state }, before);
        return Err(code);
    }
    Ok(answer.state)
}

#[test]
fn the_step_takes_just_what_the_judge_allows() {
    let mut dice = Dice(0x9E37_79B9_7F4A_7C15);
    let commands = [
        0x00, 0x01, 0x02, 0x02, 0x02, 0x03, 0x0B, 0x13, 0x1A, 0x1D, 0x1D, 0x22, 0x23, 0x40, 0x40, 0x42, 0x41,
        0x44, 0x46, 0x4B, 0x4C, 0x61, 0x65, 0x67, 0x09, 0x0E, 0x04,
    ];
    for _ in 0..20_000 {
        let length = dice.below(24);
        let bytes: Vec<u8> = (0..length)
            .map(|_| if dice.below(8) == 0 { dice.byte() } else { dice.pick(&commands) })
            .collect();
        let mut state = factory_start();
        let mut wrong = None;
        for (k, &byte) in bytes.iter().enumerate() {
            match taken(&state, byte) {
                Ok(next) => state = next,
                Err(code) => {
                    wrong = Some((k, code));
                    break;
                }
            }
        }
        let expected = match wrong {
            Some((k, code)) => Judgement::WrongAt(k, code),
            None if state.wait == Wait::Nothing => Judgement::Whole,
            None => Judgement::Open,
        };
        assert_eq!(judge(&factory_start(), &bytes), expected, "{bytes:02X?}");
    }
}

#[test]
fn feeding_whole_bytes_ends_between_commands() {
    let bytes = [0x02, 0x40, 0x04, 0x42, 0x09, 0x44, 0xAA, 0x01];
    let state = feed(&factory_start(), &bytes, &[]).state;
    assert_eq!((state.wait, state.held), (Wait::Nothing, [0; 9]));
}
