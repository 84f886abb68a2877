//! I2C and 1-Wire.

use crate::support::{feed, high, low, microseconds, milliseconds, release, reporting, sample, Action};
use reference::{State, Wait};

const SCL: u8 = 0;
const SDA: u8 = 1;
const CS: u8 = 2;
const DQ: u8 = 7;
const PB7: u8 = 8;

fn i2c_bit(one: bool) -> Vec<Action> {
    vec![if one { release(SDA) } else { low(SDA) }, release(SCL), low(SCL)]
}

fn i2c_read() -> Vec<Action> {
    vec![release(SDA), release(SCL), sample(SDA), low(SCL)]
}

#[test]
fn i2c_start_and_stop() {
    let fed = feed(&reporting(&[0x01]), &[0x20, 0x21], &[]);
    let start = [release(SDA), release(SCL), low(SDA), low(SCL)];
    let stop = [low(SDA), release(SCL), release(SDA)];
    assert_eq!(fed.actions, [&start[..], &stop[..]].concat());
    assert_eq!(fed.replies, [0, 0]);
}

#[test]
fn i2c_byte_goes_high_bit_first() {
    for (level, code) in [(0, 0x00), (5, 0x20)] {
        let fed = feed(&reporting(&[0x01]), &[0x22, 0xB1], &[level]);
        let mut actions: Vec<Action> =
            [true, false, true, true, false, false, false, true].into_iter().flat_map(i2c_bit).collect();
        actions.extend(i2c_read());
        assert_eq!(fed.actions, actions);
        assert_eq!(fed.replies, [0x00, code]);
        assert_eq!(fed.state.error, code);
    }
}

#[test]
fn i2c_reads_with_and_without_acknowledge() {
    let start = State { error: 0x20, ..reporting(&[0x01]) };
    for (command, last) in [(0x23, false), (0x24, true)] {
        let fed = feed(&start, &[command], &[9, 0, 0, 1, 0, 0, 0, 255]);
        let mut actions: Vec<Action> = (0..8).flat_map(|_| i2c_read()).collect();
        actions.extend(i2c_bit(last));
        assert_eq!(fed.actions, actions);
        assert_eq!(fed.replies, [0x91]);
        assert_eq!(fed.state, start);
    }
}

#[test]
fn i2c_select_line() {
    let fed = feed(&reporting(&[0x01]), &[0x25, 0x26, 0x27, 0x27], &[0, 2]);
    assert_eq!(fed.actions, [low(CS), high(CS), sample(CS), sample(CS)]);
    assert_eq!(fed.replies, [0, 0, 0x0F, 0x8F]);
}

fn read_slot(waits: [u16; 3]) -> Vec<Action> {
    let [a, b, c] = waits.map(microseconds);
    vec![low(DQ), a, release(DQ), b, sample(DQ), c]
}

fn write_slot(one: bool, end: Action) -> Vec<Action> {
    let level = if one { release(DQ) } else { low(DQ) };
    vec![low(DQ), microseconds(3), level, microseconds(58), end, microseconds(6)]
}

#[test]
fn one_wire_reset() {
    for (level, code) in [(0, 0x00), (1, 0x60)] {
        let fed = feed(&reporting(&[0x03]), &[0x60], &[level]);
        assert_eq!(fed.actions, read_slot([496, 64, 408]));
        assert_eq!(fed.replies, [code]);
        assert_eq!(fed.state.error, code);
    }
}

#[test]
fn one_wire_byte_goes_low_bit_first() {
    let fed = feed(&reporting(&[0x03]), &[0x61, 0x0D], &[]);
    let bits = [true, false, true, true, false, false, false, false];
    let actions: Vec<Action> = bits.into_iter().flat_map(|bit| write_slot(bit, release(DQ))).collect();
    assert_eq!(fed.actions, actions);
    assert_eq!(fed.replies, [0, 0]);
}

#[test]
fn one_wire_strong_pull_up_after_the_last_bit_alone() {
    let start = reporting(&[0x03]);
    let plain = feed(&start, &[0x61, 0x8D], &[]);
    let strong = feed(&start, &[0x67, 0x8D], &[]);
    assert_eq!(strong.actions.len(), 48);
    for (n, action) in strong.actions.into_iter().enumerate() {
        assert_eq!(action, if n == 46 { high(DQ) } else { plain.actions[n] });
    }
    assert_eq!(strong.replies, [0, 0]);
    assert_eq!(feed(&start, &[0x68], &[]).actions, [release(DQ)]);
}

#[test]
fn one_wire_bit_is_the_low_one() {
    let start = reporting(&[0x03]);
    for operand in [0x00, 0x01, 0xFE, 0xFF] {
        let fed = feed(&start, &[0x63, operand], &[]);
        assert_eq!(fed.actions, write_slot(operand & 1 == 1, release(DQ)));
        assert_eq!(fed.replies, [0, 0]);
    }
}

#[test]
fn one_wire_reads() {
    let fed = feed(&reporting(&[0x03]), &[0x62, 0x64, 0x64], &[1, 0, 7, 1, 0, 0, 0, 0, 0, 3]);
    let actions: Vec<Action> = (0..10).flat_map(|_| read_slot([3, 8, 56])).collect();
    assert_eq!(fed.actions, actions);
    assert_eq!(fed.replies, [0x0D, 0x0F, 0x8F]);
}

#[test]
fn one_wire_timings_are_stored_at_the_ninth() {
    let start = reporting(&[0x03, 0x65, 200, 100, 255, 0, 255, 0, 7, 7]);
    assert_eq!(start.wait, Wait::Timings { left: 1 });
    assert_eq!(start.held, [200, 100, 255, 0, 255, 0, 7, 7, 0]);
    let fed = feed(&start, &[0x08, 0x66], &[]);
    assert_eq!(fed.replies, [0x00, 200, 100, 255, 0, 255, 0, 7, 7, 8]);
    assert_eq!(start.timings[0], 0x86);
    assert_eq!(fed.state.held, [0; 9]);
    // a negative wait counts 0, and even a wait of 0 is written
    let state = fed.state;
    assert_eq!(feed(&state, &[0x60], &[0]).actions, read_slot([0, 1240, 0]));
    assert_eq!(feed(&state, &[0x64], &[0]).actions, read_slot([0, 1, 247]));
    let bit = feed(&state, &[0x63, 1], &[]).actions;
    assert_eq!([bit[1], bit[3], bit[5]], [255, 0, 255].map(microseconds));
}

#[test]
fn one_wire_pulses() {
    let fed = feed(&reporting(&[0x03]), &[0x69, 0x6A], &[]);
    let actions = [low(PB7), microseconds(580), high(PB7), low(PB7), milliseconds(110), high(PB7)];
    assert_eq!(fed.actions, actions);
    assert_eq!(fed.replies, [0, 0]);
    assert_eq!(fed.state.portb, 0);
}
