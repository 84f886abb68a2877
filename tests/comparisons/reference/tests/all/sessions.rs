//! The session file, and refusals 2 and 5 to 10.

use reference::replay;

fn record(kind: u16, body: &[u8]) -> Vec<u8> {
    let length = body.len() as u16;
    [&length.to_le_bytes()[..], &kind.to_le_bytes(), body].concat()
}

fn refused(number: u8, place: u16) -> Vec<u8> {
    let [low, high] = place.to_le_bytes();
    record(0x01FF, &[number, 0, low, high, 0, 0])
}

fn end(waiting: u8) -> Vec<u8> {
    record(0x0104, &[waiting])
}

#[test]
fn the_whole_case() {
    let transcript = [
        0x01, 0x00, 0x01, 0x01, 0x00, //
        0x1C, 0x00, 0x02, 0x01, //
        0x05, 0x10, 0x00, 0x00, 0x06, 0x10, 0x00, 0x00, 0x05, 0x11, 0x00, 0x00, 0x06, 0x11, 0x00,
        0x00, //
        0x05, 0x12, 0x00, 0x00, 0x06, 0x12, 0x00, 0x00, 0x02, 0x02, 0x00, 0x00, //
        0x01, 0x00, 0x01, 0x01, 0x00, //
        0x01, 0x00, 0x01, 0x01, 0x09, //
        0x01, 0x00, 0x04, 0x01, 0x00,
    ];
    assert_eq!(replay(&[0x03, 0x00, 0x01, 0x00, 0x07, 0x01, 0x1A]), transcript);
}

#[test]
fn the_empty_session_and_a_waiting_end() {
    assert_eq!(replay(&[]), end(0));
    assert_eq!(replay(&record(1, &[])), end(0));
    assert_eq!(replay(&record(1, &[0x1D])), end(1));
}

#[test]
fn samples_are_replaced() {
    let session = [
        record(3, &[1, 2, 3]),
        record(1, &[0x17]),
        record(3, &[7, 8]),
        record(1, &[0x17, 0x18]),
        record(3, &[9]),
        record(3, &[]),
        record(1, &[0x1A, 0x17]),
    ]
    .concat();
    let port = |line: u8, sample: u8| [record(0x0102, &[7, line, 0, 0]), record(0x0101, &[sample])].concat();
    let expected =
        [port(16, 1), port(16, 7), port(17, 8), record(0x0101, &[0]), refused(2, session.len() as u16 - 1)];
    assert_eq!(replay(&session), expected.concat());
}

#[test]
fn faults_are_sent_and_leave_the_wait() {
    let session = [record(1, &[0x07, 0x1D]), record(2, &[0x82])].concat();
    let expected = [record(0x0101, &[0]), record(0x0101, &[0]), record(0x0101, &[0x82]), end(1)];
    assert_eq!(replay(&session), expected.concat());
}

#[test]
fn a_drop_lasts_from_record_to_record_and_is_no_wait() {
    let front = [record(1, &[0x07]), record(2, &[0x81]), record(1, &[]), record(3, &[0x5A])].concat();
    let before = [record(0x0101, &[0]), record(0x0101, &[0x81])].concat();
    assert_eq!(replay(&front), [&before[..], &end(0)].concat());
    let port = [record(0x0102, &[7, 16, 0, 0]), record(0x0101, &[0x5A])].concat();
    assert_eq!(replay(&[&front[..], &record(1, &[0x17, 0x17])].concat()), [before, port, end(0)].concat());
}

#[test]
fn refusal_2_gives_the_event_byte() {
    // the byte at 4 is taken, that at 5 needs a sample, and the unread rest is not run
    let session = record(1, &[0x1A, 0x17, 0x1A]);
    assert_eq!(replay(&session), [record(0x0101, &[0]), refused(2, 5)].concat());
}

#[test]
fn refusals_5_to_9_give_the_header() {
    let first = record(1, &[0x1A]);
    let before = record(0x0101, &[0]);
    let after = |rest: &[u8]| replay(&[&first[..], rest].concat());
    let cases: [(&[u8], u8); 16] = [
        (&[0x00], 5),
        (&[0x00, 0x00, 0x01], 5),
        (&[0x01, 0x10, 0x01, 0x00], 6),
        (&[0xFF, 0xFF, 0x09, 0x00], 6),
        (&[0x00, 0x10, 0x01, 0x00, 0x1A], 7),
        (&[0x02, 0x00, 0x09, 0x00, 0x1A], 7),
        (&[0x02, 0x00, 0x02, 0x00, 0x81], 7),
        (&[0x00, 0x00, 0x00, 0x00], 8),
        (&[0x00, 0x00, 0x04, 0x00], 8),
        (&[0x01, 0x00, 0x01, 0x01, 0x00], 8),
        (&[0x00, 0x00, 0x01, 0x80], 8),
        (&[0x00, 0x00, 0x02, 0x00], 9),
        (&[0x01, 0x00, 0x02, 0x00, 0x80], 9),
        (&[0x01, 0x00, 0x02, 0x00, 0x84], 9),
        (&[0x02, 0x00, 0x02, 0x00, 0x81, 0x81], 9),
        (&[0x01, 0x00, 0x02, 0x00, 0x00], 9),
    ];
    for (rest, number) in cases {
        assert_eq!(after(rest), [before.clone(), refused(number, 5)].concat(), "{rest:02X?}");
    }
}

#[test]
fn the_longest_record_and_session() {
    // 08 is silent: seven records of 4,096 and one that fills the session up to 32,768 bytes
    let long = record(1, &[0x08; 4096]);
    let mut session = long.repeat(7);
    session.extend(record(1, &vec![0x08; 32_768 - session.len() - 4]));
    assert_eq!(session.len(), 32_768);
    assert_eq!(replay(&session), end(0));
    session.push(0);
    assert_eq!(replay(&session), refused(10, 0));
}

#[test]
fn actions_come_before_replies_of_each_event() {
    let session = [record(3, &[1]), record(1, &[0x07, 0x03, 0x60])].concat();
    let transcript = replay(&session);
    let tail = [record(0x0101, &[0x60]), end(0)].concat();
    assert!(transcript.ends_with(&tail));
    let actions = &transcript[transcript.len() - tail.len() - 28..][..4];
    assert_eq!(actions, [24, 0, 0x02, 0x01]);
}
