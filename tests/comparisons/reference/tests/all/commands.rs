//! Common and extended commands, and line faults.

use crate::support::{direction, feed, high, latch, microseconds, milliseconds, reporting};
use reference::{factory_start, step, Event, Fault, Operand, Register, State, Wait};

#[test]
fn reset_keeps_reports_autoload_packet_timings_and_eprom() {
    let mut start = reporting(&[0x09, 0x02, 0x40, 0x07, 0x42, 0x09, 0x05, 0x0D, 0xFF]);
    start.packet = [1; 8];
    start.timings = [2; 9];
    start.error = 0x40;
    let fed = feed(&start, &[0x00], &[]);
    let expected =
        State { flags: 0x18, error: 0, portb: 0, config: 0, configured: false, size: 0, ..start.clone() };
    assert_eq!(fed.state, expected);
    assert_eq!(fed.actions.len(), 6);
    assert_eq!(fed.replies, [0x00]);
}

#[test]
fn choosing_an_interface_reinits_and_keeps_spi_settings() {
    let start = reporting(&[0x02, 0x40, 0x07, 0x42, 0x09, 0x0B, 0xFF]);
    for (byte, flag, select) in [(0x01, 1, Some(high(2))), (0x02, 2, Some(high(6))), (0x03, 4, None)] {
        let fed = feed(&start, &[byte], &[]);
        assert_eq!(fed.state, State { flags: 0x08 | flag, ddrb: 0, ..start.clone() });
        let mut actions: Vec<_> = (16..19).flat_map(|port| [direction(port, 0), latch(port, 0)]).collect();
        actions.extend(select);
        assert_eq!(fed.actions, actions);
        assert_eq!(fed.replies, [0x00]);
    }
}

#[test]
fn error_is_sent_and_zeroed_and_data_leaves_it() {
    let fed = feed(&reporting(&[0x1F]), &[0x1A, 0x04, 0x04], &[]);
    assert_eq!(fed.replies, [0x08, 0x80, 0x00]);
    assert_eq!(fed.state.error, 0);
}

#[test]
fn eprom_holds_spi_settings_only_with_spi() {
    let start = reporting(&[0x02, 0x40, 0x05, 0x42, 0x09, 0x11, 0x3F]);
    let fed = feed(&start, &[0x05, 0x06], &[]);
    assert_eq!(fed.replies, [0x00, 0x0A, 0, 0, 0, 0x3F, 0, 0, 0x05, 0x08, 0x08]);
    let fed = feed(&start, &[0x01, 0x05, 0x06], &[]);
    assert_eq!(fed.replies, [0x00, 0x00, 0x09, 0, 0, 0, 0, 0, 0, 0xFF, 0xFF, 0xFF]);
    let fed = feed(&factory_start(), &[0x02, 0x05, 0x06], &[]);
    assert_eq!(fed.replies, [0x02, 0, 0, 0, 0, 0, 0, 0x00, 0x00, 0x00]);
}

#[test]
fn reports_are_judged_after_the_command() {
    let fed = feed(&factory_start(), &[0x09, 0x07, 0x0A, 0x08, 0x09], &[]);
    assert_eq!(fed.replies, [0x00, 0x00]);
    assert_eq!(fed.state.flags, 0x10);
}

#[test]
fn port_registers_keep_protected_bits_and_return_no_code() {
    let mut start = reporting(&[]);
    start.error = 0x55;
    start.portd = 0x20;
    let expected = [0xFF, 0xFF, 0x3F, 0x3F, 0xDC, 0xFC];
    for (n, register) in Register::ALL.into_iter().enumerate() {
        let command = 0x0B + 2 * n as u8;
        let waiting = feed(&start, &[command], &[]);
        assert_eq!(waiting.replies, [0x00]);
        assert_eq!(waiting.state.wait, Wait::One(Operand::Register(register)));
        let fed = feed(&State { error: 0x55, ..waiting.state }, &[0xFF, command + 1], &[]);
        let port = 16 + n as u8 / 2;
        let action = if n % 2 == 0 { direction(port, expected[n]) } else { latch(port, expected[n]) };
        assert_eq!(fed.actions, [action]);
        assert_eq!(fed.replies, [expected[n]]);
        assert_eq!(fed.state.error, 0x55);
    }
    assert_eq!(feed(&start, &[0x15, 0x00, 0x16], &[]).replies, [0x00, 0x20]);
}

#[test]
fn ports_are_sampled_whole() {
    let fed = feed(&factory_start(), &[0x17, 0x18, 0x19], &[0xA5, 0x00, 0xFF]);
    assert_eq!(fed.actions, [[7, 16, 0, 0], [7, 17, 0, 0], [7, 18, 0, 0]]);
    assert_eq!(fed.replies, [0xA5, 0x00, 0xFF]);
}

#[test]
fn version_and_serial() {
    let start = State { version: 0x31, serial: [1, 2, 3, 4], ..factory_start() };
    assert_eq!(feed(&start, &[0x1B, 0x1E], &[]).replies, [0x31, 1, 2, 3, 4]);
}

#[test]
fn iog_latches_pd4_then_pd3() {
    let fed = feed(&reporting(&[]), &[0x1C], &[]);
    assert_eq!(fed.actions, [latch(18, 0x10), [9, 0, 0xFF, 0], latch(18, 0x18)]);
    assert_eq!((fed.state.portd, fed.replies), (0x18, vec![0x00]));
}

#[test]
fn extended_pulses() {
    let start = State { portc: 0x21, portd: 0x1C, ..reporting(&[]) };
    let cases = [
        (0x01, [latch(17, 0x21), microseconds(1), latch(17, 0x01)]),
        (0x02, [latch(18, 0x1C), microseconds(1), latch(18, 0x14)]),
        (0x03, [latch(18, 0x0C), microseconds(1), latch(18, 0x1C)]),
        (0x08, [latch(18, 0x0C), milliseconds(25), latch(18, 0x1C)]),
        (0x09, [latch(18, 0x0C), milliseconds(2), latch(18, 0x1C)]),
    ];
    for (byte, actions) in cases {
        let fed = feed(&start, &[0x1D, byte], &[]);
        assert_eq!(fed.actions, actions);
        assert_eq!(fed.replies, [0x00, 0x00]);
        assert_eq!(fed.state.wait, Wait::Nothing);
    }
    assert_eq!(feed(&start, &[0x1D, 0x01], &[]).state.portc, 0x01);
    assert_eq!(feed(&start, &[0x1D, 0x02], &[]).state.portd, 0x14);
}

#[test]
fn extended_bit_5_of_port_d() {
    let fed = feed(&reporting(&[]), &[0x1D, 0x0A, 0x1D, 0x0C, 0x1D, 0x0B, 0x1D, 0x0D], &[]);
    assert_eq!(fed.actions, [latch(18, 0x20), direction(18, 0x20), latch(18, 0), direction(18, 0)]);
    assert_eq!(fed.replies, [0; 8]);
}

#[test]
fn extended_iog_count() {
    let fed = feed(&reporting(&[]), &[0x1D, 0x0E, 0x12, 0x1D, 0x0F], &[]);
    assert_eq!(fed.replies, [0x00, 0x00, 0x00, 0x12]);
    assert_eq!(fed.state.iog, 0x12);
}

#[test]
fn bad_extended_byte_leaves_the_wait() {
    let start = reporting(&[0x1D]);
    for byte in (0x00..=0xFF).filter(|byte| !matches!(byte, 0x01..=0x03 | 0x08..=0x0F)) {
        let fed = feed(&start, &[byte], &[]);
        assert_eq!(fed.state, State { error: 0x80, ..start.clone() });
        assert_eq!((fed.replies, fed.actions), (vec![0x80], vec![]));
    }
}

#[test]
fn bytes_without_a_command_here_touch_only_error() {
    let interfaces = [(&[][..], 0x00), (&[0x01], 0x20), (&[0x02], 0x40), (&[0x03], 0x60)];
    let last = [(0x00, 0x1E), (0x20, 0x27), (0x40, 0x4C), (0x60, 0x6A)];
    for (choice, own) in interfaces {
        let start = reporting(choice);
        for byte in 0x00..=0xFF {
            // 02, Ask 1: listed for another interface 84, else 80
            let code = match last.iter().find(|&&(a, z)| a <= byte && byte <= z) {
                Some(&(a, _)) if a == 0 || a == own => continue,
                Some(_) => 0x84,
                None => 0x80,
            };
            let fed = feed(&start, &[byte], &[]);
            assert_eq!(fed.state, State { error: code, ..start.clone() });
            assert_eq!((fed.replies, fed.actions), (vec![code], vec![]));
        }
    }
}

#[test]
fn a_fault_leaves_the_wait_and_what_is_held() {
    let start = reporting(&[0x03, 0x65, 1, 2, 3]);
    for (fault, code) in [(Fault::Frame, 0x81), (Fault::Overrun, 0x82), (Fault::Parity, 0x83)] {
        let mut replies = [0; 2];
        let answer = step(&start, Event::Fault(fault), &[], 0, &mut [], 0, &mut replies, 1);
        assert_eq!(answer.state, State { error: code, ..start.clone() });
        assert_eq!((answer.outcome, answer.samples, answer.replies, answer.actions), (0, 0, 1, 0));
        assert_eq!(replies, [0, code]);
    }
}
