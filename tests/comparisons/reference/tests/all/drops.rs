//! 02, Ask 2: what a line fault costs.

use crate::support::{feed, reporting};
use reference::{factory_start, step, Event, Fault, Operand, Register, State, Wait};

const FAULTS: [Fault; 3] = [Fault::Frame, Fault::Overrun, Fault::Parity];

/// The state after a fault, which must be taken; its code is sent if reports are on.
fn faulted(state: &State, fault: Fault) -> State {
    let mut replies = [0xEE; 1];
    let answer = step(state, Event::Fault(fault), &[], 0, &mut [], 0, &mut replies, 0);
    assert_eq!((answer.outcome, answer.samples, answer.actions), (0, 0, 0));
    assert_eq!(answer.replies, usize::from(state.flags >> 3 & 1));
    assert_eq!(replies[0], if answer.replies == 1 { fault.code() } else { 0xEE });
    answer.state
}

fn starts() -> [State; 5] {
    let open = |bytes: &[u8]| feed(&factory_start(), bytes, &[]).state;
    [open(&[]), open(&[0x01]), open(&[0x02, 0x40, 0x04, 0x42, 12]), reporting(&[0x03]), reporting(&[0x02])]
}

/// States that wait, for an operand of every sort, the byte after 1D, packet bytes and timing bytes.
fn waiting() -> Vec<State> {
    let one = |operand| Wait::One(operand);
    let packet = |left, exchange| Wait::Packet { left, exchange };
    let common: Vec<Wait> =
        Register::ALL.into_iter().map(|register| one(Operand::Register(register))).collect();
    let common = [&common[..], &[one(Operand::IogCount), Wait::Extended]].concat();
    let spi =
        [one(Operand::SpiConfig), one(Operand::SpiSize), packet(1, false), packet(2, false), packet(2, true)];
    let wire = [Operand::OneWireByte, Operand::OneWireBit, Operand::OneWireByteStrong].map(one);
    let timings = [1, 5, 9].map(|left| Wait::Timings { left });
    let [none, i2c, spi_start, wire_start, _] = starts();
    let with = |start: &State, waits: &[Wait]| -> Vec<State> {
        waits.iter().map(|&wait| State { wait, held: [7; 9], ..start.clone() }).collect()
    };
    [
        with(&none, &common),
        with(&i2c, &[one(Operand::I2cByte), Wait::Extended]),
        with(&spi_start, &spi),
        with(&wire_start, &[&wire[..], &timings].concat()),
    ]
    .concat()
}

#[test]
fn between_commands_a_fault_leaves_a_drop() {
    for (start, fault) in starts().iter().flat_map(|start| FAULTS.map(|fault| (start, fault))) {
        assert_eq!(faulted(start, fault), State { error: fault.code(), drops: true, ..start.clone() });
    }
}

#[test]
fn any_byte_ends_the_drop_and_does_nothing_else() {
    for start in starts() {
        let dropping = faulted(&start, Fault::Overrun);
        for byte in 0x00..=0xFF {
            let fed = feed(&dropping, &[byte], &[]);
            assert_eq!(fed.state, State { error: 0x82, ..start.clone() }, "{byte:02X}");
            assert_eq!((fed.replies, fed.actions), (vec![], vec![]));
            // the byte after it is read as ever
            assert_eq!(feed(&dropping, &[byte, 0x04, 0x04], &[]).replies, [0x82, 0x00]);
        }
    }
}

#[test]
fn several_faults_in_a_row_drop_one_byte() {
    let start = reporting(&[0x01]);
    let mut dropping = start.clone();
    for fault in [Fault::Parity, Fault::Parity, Fault::Frame, Fault::Overrun] {
        dropping = faulted(&dropping, fault);
        assert_eq!(dropping, State { error: fault.code(), drops: true, ..start.clone() });
        assert_eq!(feed(&dropping, &[0x00, 0x1A, 0x04], &[]).replies, [0x09, fault.code()]);
    }
}

#[test]
fn inside_an_item_a_fault_leaves_no_drop() {
    for (start, fault) in waiting().iter().flat_map(|start| FAULTS.map(|fault| (start, fault))) {
        let after = faulted(&faulted(start, fault), fault);
        assert_eq!(after, State { error: fault.code(), ..start.clone() });
    }
}

#[test]
fn a_rejected_byte_and_the_end_of_an_item_stand_between_commands() {
    for bytes in [&[0xFF][..], &[0x44], &[0x0B, 0x5A], &[0x1D, 0x0E, 0x10], &[0x1D, 0x00, 0x0F]] {
        let start = feed(&factory_start(), bytes, &[]).state;
        assert!(faulted(&start, Fault::Frame).drops, "{bytes:02X?}");
    }
    let start = feed(&factory_start(), &[0x1D, 0x00], &[]).state;
    assert!(!faulted(&start, Fault::Frame).drops);
}

#[test]
fn marks_past_the_end_refuse_a_dropped_byte_too() {
    let state = State { drops: true, ..reporting(&[]) };
    let run = |sampled, acted, replied| {
        let answer = step(&state, Event::Byte(0x17), &[0], sampled, &mut [0; 2], acted, &mut [0; 3], replied);
        assert_eq!(answer.state, State { drops: answer.outcome != 0, ..state.clone() });
        answer.outcome
    };
    assert_eq!([run(1, 2, 3), run(2, 2, 3), run(1, 3, 3), run(1, 2, 4), run(2, 3, 4)], [0, 2, 3, 4, 2]);
}
