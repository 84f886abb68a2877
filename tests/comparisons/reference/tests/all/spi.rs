//! SPI.

use crate::support::{feed, high, low, reporting, sample, Action};
use reference::{factory_start, State, Wait};

const SCK: u8 = 3;
const MOSI: u8 = 4;
const MISO: u8 = 5;
const SS: u8 = 6;

/// SPI with a configuration and a size, configured.
fn spi(config: u8, bits: u8) -> State {
    reporting(&[0x02, 0x40, config, 0x42, bits])
}

fn level(line: u8, one: bool) -> Action {
    if one {
        high(line)
    } else {
        low(line)
    }
}

/// The actions of an exchange that sends these bits.
fn exchange(config: u8, bits: &[bool]) -> Vec<Action> {
    let idle = config & 2 != 0;
    let mut actions = vec![level(SCK, idle)];
    for &bit in bits {
        let (mosi, away, back) = (level(MOSI, bit), level(SCK, !idle), level(SCK, idle));
        actions.extend(if config & 1 == 0 {
            [mosi, away, sample(MISO), back]
        } else {
            [away, mosi, back, sample(MISO)]
        });
    }
    actions
}

#[test]
fn configuration_is_taken_mod_8() {
    let start = reporting(&[0x02]);
    let fed = feed(&start, &[0x40, 0xFD, 0x41], &[]);
    assert_eq!((fed.state.config, fed.state.configured), (0x05, true));
    assert_eq!(fed.replies, [0x00, 0x00, 0x05]);
}

#[test]
fn unconfigured_41_sends_one_40_with_and_without_reports() {
    for start in [reporting(&[0x02]), feed(&factory_start(), &[0x02], &[]).state] {
        let fed = feed(&start, &[0x41], &[]);
        assert_eq!(fed.replies, [0x40]);
        assert_eq!(fed.state, State { error: 0x40, ..start });
    }
}

#[test]
fn unconfigured_packets_return_40() {
    for byte in [0x44, 0x46, 0x4B, 0x4C] {
        let start = reporting(&[0x02]);
        let fed = feed(&start, &[byte], &[]);
        assert_eq!((fed.replies, fed.actions), (vec![0x40], vec![]));
        assert_eq!(fed.state, State { error: 0x40, ..start });
        let silent = feed(&feed(&factory_start(), &[0x02], &[]).state, &[byte], &[]);
        assert_eq!((silent.replies, silent.state.error), (vec![], 0x40));
    }
}

#[test]
fn size_works_unconfigured() {
    let fed = feed(&reporting(&[0x02]), &[0x42, 64, 0x43, 0x42, 1, 0x43, 0x42, 255, 0x43], &[]);
    assert_eq!(fed.replies, [0, 0, 64, 0, 0, 1, 0, 0, 63]);
}

#[test]
fn exchange_in_all_eight_modes() {
    for config in 0..8 {
        let start = feed(&spi(config, 5), &[0x44, 0b110_01101], &[]).state;
        let fed = feed(&start, &[0x46], &[1, 1, 0, 0, 0]);
        let (bits, packet) = if config & 4 != 0 {
            ([false, true, true, false, true], 0b11000)
        } else {
            ([true, false, true, true, false], 0b00011)
        };
        assert_eq!(fed.actions, exchange(config, &bits));
        assert_eq!(fed.state.packet, [0, 0, 0, 0, 0, 0, 0, packet]);
        assert_eq!(fed.replies, [0x00]);
    }
}

#[test]
fn exchange_of_64_bits_high_first() {
    let bytes = [0x44, 0x88, 0x77, 0x66, 0x55, 0x44, 0x33, 0x22, 0x11];
    let start = feed(&spi(4, 64), &bytes, &[]).state;
    assert_eq!(start.packet, [0x11, 0x22, 0x33, 0x44, 0x55, 0x66, 0x77, 0x88]);
    let mut samples = [0; 64];
    samples[0] = 1;
    samples[62] = 1;
    let fed = feed(&start, &[0x46, 0x45], &samples);
    assert_eq!(fed.actions.len(), 257);
    assert_eq!(fed.replies, [0x00, 0x80, 0, 0, 0, 0, 0, 0, 0x02]);
}

#[test]
fn select_line() {
    let fed = feed(&reporting(&[0x02]), &[0x47, 0x48, 0x49, 0x49], &[0, 2]);
    assert_eq!(fed.actions, [low(SS), high(SS), sample(SS), sample(SS)]);
    assert_eq!(fed.replies, [0, 0, 0x0F, 0x8F]);
}

#[test]
fn whole_packet_and_significant_bytes() {
    let start = State { packet: [1, 2, 3, 4, 5, 6, 7, 8], ..reporting(&[0x02, 0x42, 17]) };
    let fed = feed(&start, &[0x45, 0x4A], &[]);
    assert_eq!(fed.replies, [1, 2, 3, 4, 5, 6, 7, 8, 8, 7, 6]);
    assert_eq!(fed.state, start);
}

#[test]
fn fast_read_is_46_then_4a() {
    let start = State { error: 0x20, ..spi(0, 9) };
    let samples = [1, 0, 0, 0, 0, 0, 0, 0, 1];
    let fed = feed(&start, &[0x4B], &samples);
    let apart = feed(&start, &[0x46, 0x4A], &samples);
    assert_eq!(fed.replies, [0x00, 0x01, 0x01]);
    assert_eq!((fed.state, fed.actions, fed.replies), (apart.state, apart.actions, apart.replies));
}

#[test]
fn fast_send_returns_both_codes() {
    let start = spi(4, 12);
    let waiting = feed(&start, &[0x4C, 0x34], &[]);
    assert_eq!(waiting.replies, [0x00]);
    assert_eq!(waiting.state.wait, Wait::Packet { left: 1, exchange: true });
    let samples = [1, 0, 1, 0, 0, 0, 0, 0, 0, 0, 0, 1];
    let fed = feed(&waiting.state, &[0x12], &samples);
    assert_eq!(fed.replies, [0x00, 0x00]);
    let apart = feed(&start, &[0x44, 0x34, 0x12, 0x46], &samples);
    assert_eq!((fed.state, fed.actions), (apart.state, apart.actions));
}
