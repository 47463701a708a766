//! Tests of the replay of a tape.

use super::exporter::Settings;
use super::replay::{read_settings, read_tape, replay, Event, Replay};
use super::tests_support::{blob, blob_table, block_of, hex, sample_table};

/// Session 7, configuration 1, one server, threshold 1, duration 2, a store of 1,024, first DSN 0,
/// boot time 3,600.
const SETTINGS: &str = "07 01 01 01 0002 03ff 00000000 00000e10 0000000000000000";

/// The same with 16 priorities.
const LONG_SETTINGS: &str = "07 01 01 01 0002 03ff 00000000 00000e10 0000000000000000 0000000000000000";

/// A tape of these events: contents first, then the bodies.
fn tape(events: &[(u8, u8, Vec<u8>)]) -> Vec<u8> {
    let mut tape = (events.len() as u16).to_be_bytes().to_vec();
    for (kind, server, body) in events {
        tape.extend([*kind, *server]);
        tape.extend((body.len() as u16).to_be_bytes());
    }
    for (_, _, body) in events {
        tape.extend(body);
    }
    tape
}

/// Settings and the sample table, then these events.
fn tape_with(events: &[(u8, u8, Vec<u8>)]) -> Vec<u8> {
    let mut all = vec![(0, 0, hex(SETTINGS)), (1, 0, sample_table())];
    all.extend_from_slice(events);
    tape(&all)
}

/// The output as text.
fn output(tape: &[u8]) -> String {
    String::from_utf8(replay(tape)).expect("text")
}

#[test]
fn example_whole_output() {
    let tape = tape_with(&[(2, 0, hex("0003 0005")), (6, 0, vec![]), (3, 0, hex("0101070000000008"))]);
    assert_eq!(output(&tape), "0 0\n1 0\n2 0\n3 13\n4 0 010207000000000c00000e10\n");
}

#[test]
fn whole_session() {
    let tape = tape_with(&[
        (3, 0, hex("0101070000000008")),
        (7, 0, vec![]),
        (3, 0, hex("01130700 0000000c 01000000")),
        (2, 0, hex("0003 0005")),
        (6, 0, vec![]),
        (5, 0, vec![]),
        (3, 0, hex("01210700 00000010 00000000 01000000")),
        (4, 9, vec![]),
        (4, 0, vec![]),
        (6, 0, vec![]),
    ]);
    let expected = "0 0\n1 0\n2 0 010207000000000c00000e10\n\
        3 0 011007000000002401010001000300010000000000000018000000090004000000000000\n4 0\n5 0\n\
        6 0 01200700000000120003010100000000\
        0005\n7 0\n8 0\n9 2\n10 0\n11 13\n";
    assert_eq!(output(&tape), expected);
}

#[test]
fn refused_settings_end_the_run() {
    let mut body = hex(SETTINGS);
    body[2] = 9;
    let events = [(0, 0, body), (1, 0, vec![]), (5, 0, vec![])];
    assert_eq!(output(&tape(&events)), "0 20\n");
    let mut body = hex(SETTINGS);
    body[7] = 0xfe;
    assert_eq!(output(&tape(&[(0, 0, body), (1, 0, sample_table())])), "0 20\n");
}

#[test]
fn refused_table_ends_the_run() {
    let events = |table: Vec<u8>| tape(&[(0, 0, hex(SETTINGS)), (1, 0, table), (5, 0, vec![])]);
    assert_eq!(output(&events(vec![])), "0 0\n1 21\n");
    let mut other = sample_table();
    other[0] = 2;
    assert_eq!(output(&events(other)), "0 0\n1 21\n");
    assert_eq!(output(&events(sample_table())), "0 0\n1 0\n2 0\n");
}

#[test]
fn settings_body() {
    let (settings, store_length) =
        read_settings(&hex("01 02 03 04 0506 ffff 0708090a 0b0c0d0e 0102030405060708")).expect("24 octets");
    assert_eq!((settings.session, settings.configuration_id), (1, 2));
    assert_eq!((settings.servers, settings.threshold), (3, 4));
    assert_eq!((settings.duration, store_length), (0x0506, 65_536));
    assert_eq!((settings.first_dsn, settings.boot_time), (0x0708_090a, 0x0b0c_0d0e));
    assert_eq!(settings.priorities, [1, 2, 3, 4, 5, 6, 7, 8, 0, 0, 0, 0, 0, 0, 0, 0]);
    for length in (0..80).filter(|length| ![24, 32].contains(length)) {
        assert_eq!(read_settings(&vec![0; length]), None, "{length}");
    }
}

#[test]
fn long_settings_body() {
    let short = hex("01 02 03 04 0506 ffff 0708090a 0b0c0d0e 0102030405060708");
    let long = [short.clone(), hex("f9fafbfcfdfeff10")].concat();
    let (settings, store_length) = read_settings(&long).expect("32 octets");
    let (short, short_store_length) = read_settings(&short).expect("24 octets");
    let priorities = [1, 2, 3, 4, 5, 6, 7, 8, 0xf9, 0xfa, 0xfb, 0xfc, 0xfd, 0xfe, 0xff, 0x10];
    assert_eq!((settings, store_length), (Settings { priorities, ..short }, short_store_length));
}

#[test]
fn servers_in_each_form() {
    let answer = |text: &str, servers: u8| {
        let mut body = hex(text);
        body[2] = servers;
        let set_up = Replay::set_up(&body).err().unwrap_or(0);
        let lines = if set_up == 0 { "0 0\n1 0\n".to_string() } else { format!("0 {set_up}\n") };
        assert_eq!(output(&tape(&[(0, 0, body), (1, 0, sample_table())])), lines);
        set_up
    };
    for servers in 0..=255 {
        let expected = |most: u8| if (1..=most).contains(&servers) { 0 } else { 20 };
        assert_eq!(answer(SETTINGS, servers), expected(8), "{servers}");
        assert_eq!(answer(LONG_SETTINGS, servers), expected(16), "{servers}");
    }
}

#[test]
fn unused_priorities_are_ignored() {
    let session = [
        (3, 0, hex("0101070000000008")),
        (7, 0, vec![]),
        (3, 0, hex("01130700 0000000c 01000000")),
        (2, 0, hex("0003 0005")),
        (6, 0, vec![]),
    ];
    let expected = output(&tape_with(&session));
    for text in [SETTINGS, LONG_SETTINGS] {
        let mut body = hex(text);
        body[17..].fill(255);
        let events = [vec![(0, 0, body), (1, 0, sample_table())], session.to_vec()].concat();
        assert_eq!(output(&tape(&events)), expected);
    }
}

#[test]
fn smallest_tape() {
    assert_eq!(output(&tape_with(&[])), "0 0\n1 0\n");
}

/// The tape is refused as a whole.
fn assert_refused(tape: &[u8]) {
    assert_eq!(read_tape(tape), None);
    assert_eq!(output(tape), "tape refused\n");
}

#[test]
fn contents_and_bodies_use_up_the_tape() {
    let sound = tape_with(&[(2, 0, hex("0003 0005"))]);
    assert_eq!(output(&sound), "0 0\n1 0\n2 0\n");
    for length in 0..sound.len() {
        assert_refused(&sound[..length]);
    }
    assert_refused(&[sound, vec![0]].concat());
}

#[test]
fn event_counts() {
    assert_refused(&hex("0000"));
    assert_refused(&tape(&[(0, 0, hex(SETTINGS))]));
    let ticks = |count: usize| tape_with(&vec![(5, 0, vec![]); count]);
    assert_eq!(output(&ticks(510)).lines().count(), 512);
    assert_refused(&ticks(511));
}

#[test]
fn kinds_have_their_places() {
    let first = (0, 0, hex(SETTINGS));
    let second = (1, 0, sample_table());
    assert_refused(&tape(&[second.clone(), first.clone()]));
    assert_refused(&tape(&[first.clone(), first.clone()]));
    assert_refused(&tape(&[first.clone(), (5, 0, vec![])]));
    assert_refused(&tape(&[(5, 0, vec![]), second.clone()]));
    assert_refused(&tape_with(&[first]));
    assert_refused(&tape_with(&[second]));
    for kind in [8, 9, 255] {
        assert_refused(&tape_with(&[(kind, 0, vec![])]));
    }
}

#[test]
fn body_lengths_of_events() {
    for length in [0, 8, 16, 23, 25, 31, 33, 40, 64] {
        assert_refused(&tape(&[(0, 0, vec![1; length]), (1, 0, sample_table())]));
    }
    assert_refused(&tape_with(&[(2, 0, vec![])]));
    assert_refused(&tape_with(&[(2, 0, vec![0])]));
    assert_eq!(output(&tape_with(&[(2, 0, vec![0, 0])])), "0 0\n1 0\n2 15\n");
    assert_eq!(output(&tape_with(&[(3, 0, vec![])])), "0 0\n1 0\n2 3\n");
    for kind in 4..=7 {
        assert_refused(&tape_with(&[(kind, 0, vec![0])]));
    }
}

#[test]
fn server_octets_of_events() {
    assert_refused(&tape(&[(0, 1, hex(SETTINGS)), (1, 0, sample_table())]));
    assert_refused(&tape(&[(0, 0, hex(SETTINGS)), (1, 1, sample_table())]));
    assert_refused(&tape_with(&[(2, 1, hex("00030005"))]));
    assert_refused(&tape_with(&[(5, 1, vec![])]));
    assert_refused(&tape_with(&[(6, 255, vec![])]));
    for kind in [3, 4, 7] {
        assert_eq!(output(&tape_with(&[(kind, 255, vec![])])), "0 0\n1 0\n2 2\n");
    }
}

#[test]
fn refused_after_sound_events_prints_no_line() {
    assert_refused(&tape_with(&[(5, 0, vec![]), (5, 1, vec![])]));
    let mut body = hex(SETTINGS);
    body[2] = 9;
    assert_refused(&tape(&[(0, 0, body), (1, 0, vec![]), (9, 0, vec![])]));
}

#[test]
fn longest_tape() {
    let events = |length: usize| tape_with(&[(3, 0, vec![0; length])]);
    let room = 32_768 - events(0).len();
    assert_eq!(events(room).len(), 32_768);
    assert_eq!(output(&events(room)), "0 0\n1 0\n2 4\n");
    assert_refused(&events(room + 1));
}

#[test]
fn longest_table_can_be_offered() {
    let table = [vec![1, 1, 0, 1], block_of(3, &vec![b'x'; 16_384 - 28], &[(4, 0)])].concat();
    let mut run = Replay::set_up(&hex(SETTINGS)).expect("settings in limits");
    assert_eq!(run.take_table(&table), 0);
    assert_eq!(run.event(3, 0, &hex("0101070000000008")).answer, 0);
    let offer = run.event(7, 0, &[]);
    assert_eq!((offer.answer, offer.written.len()), (0, 16_392));
}

#[test]
fn put_answers_of_a_run() {
    let mut run = Replay::set_up(&hex(SETTINGS)).expect("settings in limits");
    assert_eq!(run.take_table(&blob_table()), 0);
    let put = |run: &mut Replay, id: u8, record: Vec<u8>| run.event(2, 0, &[vec![0, id], record].concat()).answer;
    assert_eq!(put(&mut run, 9, vec![]), 15);
    assert_eq!(put(&mut run, 4, blob(1_025, 0)), 17);
    assert_eq!(put(&mut run, 4, vec![]), 16);
    assert_eq!(put(&mut run, 4, blob(1_024, 0)), 0);
    assert_eq!(put(&mut run, 4, blob(4, 0)), 19);
    for _ in 0..63 {
        assert_eq!(put(&mut run, 5, vec![]), 0);
    }
    assert_eq!(put(&mut run, 5, vec![]), 18);
    assert_eq!((run.event(2, 0, &[0]).answer, run.event(0, 0, &[]).answer), (22, 22));
}

#[test]
fn events_of_a_tape() {
    let events = read_tape(&tape_with(&[(3, 4, vec![5])])).expect("a sound tape");
    assert_eq!(events.len(), 3);
    assert_eq!(events[2], Event { kind: 3, server: 4, body: vec![5] });
}
