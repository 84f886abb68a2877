//! P1 to P12.

use crate::support::{feed, microseconds, reporting};
use reference::{factory_start, judge, Judgement, State, Wait};

fn judged(bytes: &[u8]) -> Judgement {
    judge(&factory_start(), bytes)
}

fn sized(operand: u8) -> State {
    reporting(&[0x02, 0x40, 0x00, 0x42, operand])
}

#[test]
fn p1_size_operand_0_gives_64() {
    assert_eq!(sized(0).size, 63);
    assert_eq!(feed(&sized(0), &[0x43], &[]).replies, [64]);
}

#[test]
fn p2_size_operand_65_gives_1() {
    assert_eq!(sized(65).size, 0);
    assert_eq!(feed(&sized(65), &[0x43], &[]).replies, [1]);
}

#[test]
fn p3_nine_bits_take_two_bytes() {
    let waiting = feed(&sized(9), &[0x44], &[]).state;
    assert_eq!(waiting.wait, Wait::Packet { left: 2, exchange: false });
    let half = feed(&waiting, &[0xAA], &[]).state;
    assert_eq!(half.held, [0xAA, 0, 0, 0, 0, 0, 0, 0, 0]);
    assert_eq!(half.packet, [0; 8]);
    let done = feed(&half, &[0xFF], &[]);
    assert_eq!(done.state.wait, Wait::Nothing);
    assert_eq!(done.state.held, [0; 9]);
    assert_eq!(done.state.packet, [0, 0, 0, 0, 0, 0, 0x01, 0xAA]);
    assert_eq!(done.replies, [0x00]);
}

#[test]
fn p4_twelve_bits_high_first() {
    let state = reporting(&[0x02, 0x40, 0x04, 0x42, 12, 0x44, 0x34, 0x12]);
    assert_eq!(state.packet, [0x23, 0x40, 0, 0, 0, 0, 0, 0]);
}

#[test]
fn p5_twelve_bits_low_first() {
    let state = reporting(&[0x02, 0x40, 0x00, 0x42, 12, 0x44, 0x34, 0x12]);
    assert_eq!(state.packet, [0, 0, 0, 0, 0, 0, 0x02, 0x34]);
}

#[test]
fn p6_ddrd_keeps_protected_bits() {
    assert_eq!(reporting(&[0x13, 0xFF]).ddrd, 0xDC);
}

#[test]
fn p7_default_reset_waits() {
    let fed = feed(&reporting(&[0x03]), &[0x60], &[0]);
    let waits = [fed.actions[1], fed.actions[3], fed.actions[5]];
    assert_eq!(waits, [microseconds(496), microseconds(64), microseconds(408)]);
}

#[test]
fn p8_empty_is_whole() {
    assert_eq!(judged(&[]), Judgement::Whole);
}

#[test]
fn p9_packet_of_nine_bits() {
    let bytes = [0x02, 0x40, 0x04, 0x42, 0x09, 0x44, 0xAA, 0x01];
    assert_eq!(judged(&bytes), Judgement::Whole);
    assert_eq!(judged(&bytes[..7]), Judgement::Open);
}

#[test]
fn p10_unconfigured_packet() {
    assert_eq!(judged(&[0x02, 0x44]), Judgement::WrongAt(1, 0x40));
}

#[test]
fn p11_spi_settings_stay_at_01() {
    assert_eq!(judged(&[0x02, 0x40, 0x04, 0x01, 0x02, 0x46]), Judgement::Whole);
}

#[test]
fn p12_spi_settings_go_at_00() {
    assert_eq!(judged(&[0x02, 0x40, 0x04, 0x00, 0x02, 0x46]), Judgement::WrongAt(5, 0x40));
}
