//! The edges of document 01 (P1 to P12), its whole case and a refusal of each number, and the drop of 02, Ask 2, through the wrapper.

use uart_bridge::{
    judge, step, switch_on, Event, Fault, Given, Refusal, Replay, State, Verdict, MOST_ACTION_BYTES,
    MOST_REPLIES, STATE_SIZE, WAITS_FOR_NOTHING,
};

const FACTORY: [u8; 10] = [0, 0, 0, 0, 0, 0, 0, 0xFF, 0xFF, 0xFF];

/// The state after bytes that are all taken, and the actions and replies of the last.
fn after(bytes: &[u8]) -> (State, Vec<u8>, Vec<u8>) {
    let mut last = (State::factory_start(), Vec::new(), Vec::new());
    for &byte in bytes {
        let (mut actions, mut replies) = ([0xEE; MOST_ACTION_BYTES], [0xEE; MOST_REPLIES]);
        let taken = step(&last.0, Event::Byte(byte), &[0; 64], &mut actions, &mut replies).unwrap();
        last = (taken.state, actions[..4 * taken.actions].to_vec(), replies[..taken.replies].to_vec());
    }
    last
}

#[test]
fn sizes_and_packets() {
    // P1, P2: 43 sends N.
    assert_eq!(after(&[2, 0x42, 0, 0x43]).2, [64]);
    assert_eq!(after(&[2, 0x42, 65, 0x43]).2, [1]);
    // P3: two bytes for N 9.
    let start = [2, 0x40, 0, 0x42, 9, 0x44, 0xAA];
    assert_eq!((after(&start).0.bytes()[44], after(&start).0.bytes()[45]), (15, 1));
    // P4, P5.
    assert_eq!(
        after(&[2, 0x40, 4, 0x42, 12, 0x44, 0x34, 0x12]).0.bytes()[11..19],
        [0x23, 0x40, 0, 0, 0, 0, 0, 0]
    );
    assert_eq!(
        after(&[2, 0x40, 0, 0x42, 12, 0x44, 0x34, 0x12]).0.bytes()[11..19],
        [0, 0, 0, 0, 0, 0, 2, 0x34]
    );
}

#[test]
fn registers_and_waits() {
    // P6.
    assert_eq!(after(&[0x13, 0xFF]).1, [5, 18, 0xDC, 0]);
    // P7: the waits are the second, fourth and sixth actions.
    let reset = after(&[3, 0x60]).1;
    let wait = |k: usize| u16::from_le_bytes([reset[4 * k + 2], reset[4 * k + 3]]);
    assert_eq!([wait(1), wait(3), wait(5)], [496, 64, 408]);
}

#[test]
fn verdicts() {
    let from_factory = |bytes: &[u8]| judge(&State::factory_start(), bytes).unwrap();
    assert_eq!(from_factory(&[]), Verdict::Whole);
    assert_eq!(from_factory(&[2, 0x40, 4, 0x42, 9, 0x44, 0xAA, 1]), Verdict::Whole);
    assert_eq!(from_factory(&[2, 0x40, 4, 0x42, 9, 0x44, 0xAA]), Verdict::Open);
    assert_eq!(from_factory(&[2, 0x44]), Verdict::WrongAt { place: 1, code: 0x40 });
    assert_eq!(from_factory(&[2, 0x40, 4, 1, 2, 0x46]), Verdict::Whole);
    assert_eq!(from_factory(&[2, 0x40, 4, 0, 2, 0x46]), Verdict::WrongAt { place: 5, code: 0x40 });
    // 02, Ask 1: of another interface, of none, and after 1D
    assert_eq!(from_factory(&[2, 0x20]), Verdict::WrongAt { place: 1, code: 0x84 });
    assert_eq!(from_factory(&[2, 0x28]), Verdict::WrongAt { place: 1, code: 0x80 });
    assert_eq!(from_factory(&[0x1D, 0x20]), Verdict::WrongAt { place: 1, code: 0x80 });
    assert_eq!(judge(&after(&[0x1D]).0, &[]), Err(Refusal(12)));
}

#[test]
fn whole_case() {
    let session = [3, 0, 1, 0, 0x07, 0x01, 0x1A];
    let mut transcript = vec![1, 0, 1, 1, 0, 0x1C, 0, 2, 1];
    for port in [0x10, 0x11, 0x12] {
        transcript.extend([5, port, 0, 0, 6, port, 0, 0]);
    }
    transcript.extend([2, 2, 0, 0, 1, 0, 1, 1, 0, 1, 0, 1, 1, 9, 1, 0, 4, 1, 0]);
    assert_eq!(Replay::new(&session).flatten().collect::<Vec<u8>>(), transcript);
    let mut replay = Replay::with_room(&session, 0);
    assert_eq!(replay.fill(&mut [0; 8]), 0);
    assert!(!replay.is_over());
    assert_eq!(replay.by_ref().flatten().collect::<Vec<u8>>(), transcript);
    // Nothing of the session lingers in a cursor that is over.
    assert!(replay.is_over() && replay.state() == State::factory_start());
}

#[test]
fn refusals_change_nothing() {
    let one_wire = after(&[7, 3]).0;
    let mut wrong = *one_wire.bytes();
    wrong[0] = 3;
    let bad = State::from_bytes(wrong);
    let (mut actions, mut replies) = ([0xEE; 24], [0xEE; 1]);
    let mut refused = |state: &State, byte, samples: &[u8], room: usize, reply_room: usize| {
        let answer =
            step(state, Event::Byte(byte), samples, &mut actions[..room], &mut replies[..reply_room]);
        assert!(actions.iter().chain(&replies).all(|&byte| byte == 0xEE));
        answer.unwrap_err()
    };
    assert_eq!(refused(&bad, 0x60, &[0], 24, 1), Refusal(1));
    assert_eq!(refused(&one_wire, 0x60, &[], 24, 1), Refusal(2));
    assert_eq!(refused(&one_wire, 0x60, &[0], 23, 1), Refusal(3));
    assert_eq!(refused(&one_wire, 0x60, &[0], 24, 0), Refusal(4));
    assert_eq!(Refusal(4).to_string(), "refusal 4: the replies do not fit");
}

#[test]
fn faults_are_stored() {
    for fault in [Fault::Frame, Fault::Overrun, Fault::Parity] {
        let taken = step(&State::factory_start(), Event::Fault(fault), &[], &mut [], &mut []).unwrap();
        assert_eq!((taken.state.error(), taken.replies), (fault.code(), 0));
    }
}

/// The state after a fault and then a byte, which have no room for actions and replies.
fn then(state: &State, fault: Fault, byte: Option<u8>) -> State {
    let faulted = step(state, Event::Fault(fault), &[], &mut [], &mut []).unwrap().state;
    let bytes = byte.into_iter();
    bytes.fold(faulted, |state, byte| step(&state, Event::Byte(byte), &[], &mut [], &mut []).unwrap().state)
}

#[test]
fn a_fault_between_commands_drops_the_next_byte() {
    let start = after(&[1]).0;
    for byte in [0x00, 0x02, 0x04, 0x06, 0x1D, 0xFF] {
        let dropping = then(&start, Fault::Parity, None);
        assert!(dropping.drops_next() && dropping.waits_for() == WAITS_FOR_NOTHING);
        assert_eq!(judge(&dropping, &[]), Err(Refusal(12)));
        let dropped = then(&dropping, Fault::Frame, Some(byte));
        assert_eq!((dropped.drops_next(), dropped.error(), dropped.flags()), (false, 0x81, 1));
        assert_eq!(judge(&dropped, &[0x20]), Ok(Verdict::Whole));
    }
    // Inside an item no byte is dropped: 5A is the operand.
    let waiting = after(&[0x1D, 0x0E]).0;
    assert!(!then(&waiting, Fault::Overrun, None).drops_next());
    assert_eq!(then(&waiting, Fault::Overrun, Some(0x5A)).bytes()[38], 0x5A);
}

#[test]
fn a_drop_beside_a_wait_and_another_byte_at_55_are_refused() {
    for (front, byte) in [(&[0x1D][..], 1), (&[2, 0x40, 0, 0x44], 1), (&[], 2), (&[], 0xFF)] {
        let mut bytes = *after(front).0.bytes();
        bytes[55] = byte;
        let state = State::from_bytes(bytes);
        assert_eq!(step(&state, Event::Byte(0x08), &[], &mut [], &mut []), Err(Refusal(1)));
        assert_eq!(judge(&state, &[]), Err(Refusal(1)));
    }
}

#[test]
fn switching_on() {
    let given = Given { iog_count: 0xFF, version: 0, serial: 0 };
    let mut actions = [0; 28];
    assert_eq!(switch_on(&FACTORY, &FACTORY, given, &mut actions), Ok((State::factory_start(), 6)));
    assert_eq!(switch_on(&FACTORY, &FACTORY[..9], given, &mut actions), Err(Refusal(11)));
    assert_eq!(switch_on(&FACTORY, &FACTORY, given, &mut actions[..23]), Err(Refusal(3)));
    // A stored image that loads itself, with I2C: CS goes high at the end.
    let stored = [0x11, 0, 0, 0, 0, 0, 0, 0xFF, 0xFF, 0xFF];
    let (state, count) =
        switch_on(&stored, &FACTORY, Given { serial: 0x0403_0201, ..given }, &mut actions).unwrap();
    assert_eq!((state.flags(), count, &actions[24..]), (0x11, 7, &[2, 2, 0, 0][..]));
    assert_eq!(state.bytes()[40..44], [1, 2, 3, 4]);
    assert_eq!(state.bytes().len(), STATE_SIZE);
}
