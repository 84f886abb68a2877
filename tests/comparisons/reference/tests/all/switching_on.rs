//! Switch-on and its refusals 3 and 11.

use crate::support::{direction, feed, high, latch};
use reference::{factory_start, settings, switch_on, State, Wait, FACTORY};

/// An SPI image that loads itself.
const STORED: [u8; 10] = [0x1A, 0x01, 0x02, 0x3F, 0x20, 0xFC, 0x24, 0x05, 0x3F, 0x08];

fn on(stored: &[u8], factory: &[u8], room: usize, mark: usize) -> (u8, State, Vec<u8>) {
    let mut buffer = vec![0xEE; room];
    let on = switch_on(stored, factory, 0x11, 0x22, [1, 2, 3, 4], &mut buffer, mark);
    if on.outcome == 0 {
        buffer.drain(..mark);
        buffer.truncate(4 * on.actions);
    } else {
        assert!(buffer.iter().all(|&byte| byte == 0xEE));
        assert_eq!((&on.state, on.actions), (&State::default(), 0));
    }
    (on.outcome, on.state, buffer)
}

#[test]
fn factory_start_state() {
    let state = factory_start();
    assert_eq!((state.flags, state.config, state.size, state.configured), (0, 0, 0, false));
    assert_eq!((state.eprom, state.iog, state.version, state.serial), (FACTORY, 0xFF, 0, [0; 4]));
    assert_eq!(state.timings, [0x86, 0xC4, 0xCC, 0xBC, 0xBF, 0xF9, 0xBC, 0xBF, 0xC7]);
    assert_eq!((state.wait, state.held, state.packet, state.error), (Wait::Nothing, [0; 9], [0; 8], 0));
    assert!(!state.drops);
}

#[test]
fn a_good_stored_image_loads_itself() {
    let (outcome, state, actions) = on(&STORED, &FACTORY, 40, 3);
    assert_eq!(outcome, 0);
    assert_eq!((state.flags, state.config, state.size, state.configured), (0x1A, 5, 63, true));
    assert_eq!((state.ddrb, state.portb, state.ddrc, state.portc), (0x01, 0x02, 0x3F, 0x20));
    assert_eq!((state.ddrd, state.portd, state.eprom), (0xFC, 0x24, STORED));
    assert_eq!((state.iog, state.version, state.serial), (0x11, 0x22, [1, 2, 3, 4]));
    let expected = [
        direction(16, 0x01),
        latch(16, 0x02),
        direction(17, 0x3F),
        latch(17, 0x20),
        direction(18, 0xFC),
        latch(18, 0x24),
        high(6),
    ];
    assert_eq!(actions, expected.concat());
    assert_eq!(feed(&state, &[0x43], &[]).replies, [64]);
}

#[test]
fn settings_are_a_part_of_one_of_the_images() {
    assert!(std::ptr::eq(settings(&STORED, &FACTORY, 28, 0), &STORED[..]));
    let plain = [0x0A, 0x01, 0x02, 0x3F, 0x20, 0xFC, 0x24, 0x05, 0x3F, 0x08];
    let (_, state, actions) = on(&plain, &FACTORY, 24, 0);
    assert_eq!((state.flags, state.eprom, actions.len()), (0, plain, 24));
    assert_eq!(settings(&plain, &FACTORY, 24, 0), FACTORY);
    assert_eq!(settings(&STORED[..9], &FACTORY, 24, 0), FACTORY);
    assert_eq!(on(&STORED[..9], &FACTORY, 24, 0).1.eprom, FACTORY);
}

#[test]
fn images_that_are_not_good() {
    for (place, byte) in
        [(0, 0x3A), (0, 0x1B), (0, 0x18), (3, 0x40), (4, 0x80), (5, 0x01), (6, 0x02), (7, 8), (8, 64), (9, 1)]
    {
        let mut image = STORED;
        image[place] = byte;
        assert_eq!(settings(&image, &FACTORY, 28, 0), FACTORY, "byte {place}");
        assert_eq!(on(&image, &FACTORY, 28, 0).1.eprom, image);
        assert_eq!(on(&STORED, &image, 28, 0).0, 11);
        assert_eq!(on(&STORED, &image, 0, 5).0, 11);
        assert_eq!(settings(&STORED, &image, 28, 0), &[]);
    }
    let long = [&STORED[..], &[0]].concat();
    assert_eq!(settings(&long, &FACTORY, 28, 0), FACTORY);
    assert_eq!(on(&[], &long, 28, 0).0, 11);
}

#[test]
fn room_for_the_actions() {
    assert_eq!(on(&STORED, &FACTORY, 28, 0).0, 0);
    assert_eq!(on(&STORED, &FACTORY, 28, 1).0, 3);
    assert_eq!(on(&STORED, &FACTORY, 28, usize::MAX).0, 3);
    assert_eq!(on(&STORED, &FACTORY, 27, 0).0, 3);
    assert_eq!(on(&[], &FACTORY, 27, 3).0, 0);
    assert!(settings(&STORED, &FACTORY, 27, 0).is_empty());
}
