//! Tests of the exporter's calls.

use std::collections::BTreeSet;

use super::exporter::{Exporter, Held, Reply, ServerState, Settings, MAX_SERVERS};
use super::tests_support::{blob, blob_table, hex, sample_table, settings, Bench};

/// One server, agreed, with that many records of 5 octets held and written to it.
fn written_records(first_dsn: u32, count: usize) -> Bench {
    let mut bench = Bench::new(Settings { first_dsn, ..settings(&[0]) }, 1_024);
    bench.agree(0);
    for _ in 0..count {
        assert_eq!(bench.put(&blob(5, 1)), 0);
        assert_eq!(bench.next().answer, 0);
    }
    bench
}

/// The answer 0 with that many octets written.
fn done(written: usize) -> Reply {
    Reply { answer: 0, written }
}

/// A refusal.
fn refused(answer: u8) -> Reply {
    Reply { answer, written: 0 }
}

#[test]
fn example_ack_across_the_wrap() {
    let mut bench = written_records(4_294_967_294, 3);
    assert_eq!(bench.ack(0, 1), 11);
    assert_eq!(bench.exporter.queue.len(), 3);
    assert_eq!(bench.ack(0, 4_294_967_293), 0);
    assert_eq!((bench.exporter.queue.len(), bench.exporter.sent, bench.exporter.reached), (3, 0, 3));
    assert_eq!(bench.ack(0, 0), 0);
    assert_eq!((bench.exporter.queue.len(), bench.exporter.sent, bench.exporter.reached), (0, 0, 0));
    assert_eq!((bench.exporter.next_dsn, bench.exporter.ring_start), (1, 15));
}

#[test]
fn example_ack_of_an_empty_queue() {
    let mut bench = written_records(5, 0);
    assert_eq!((bench.ack(0, 4), bench.ack(0, 5)), (0, 11));
}

#[test]
fn example_longest_record_in_the_smallest_store() {
    let mut bench = Bench::new(settings(&[0]), 1_024);
    assert_eq!(bench.put(&blob(1_025, 0)), 17);
    assert_eq!(bench.put(&blob(1_024, 9)), 0);
    assert_eq!(bench.store, blob(1_024, 9));
}

#[test]
fn example_record_65() {
    let mut bench = written_records(0, 64);
    assert_eq!(bench.put(&blob(5, 1)), 18);
    assert_eq!(bench.ack(0, 0), 0);
    assert_eq!(bench.put(&blob(5, 1)), 0);
    assert_eq!(bench.put(&blob(5, 1)), 18);
}

#[test]
fn set_up_limits() {
    let answer = |settings: Settings, length: usize| Exporter::set_up(settings, &vec![0; length]).err().unwrap_or(0);
    let fair = settings(&[0]);
    for (length, expected) in [(0, 20), (1_023, 20), (1_024, 0), (65_536, 0), (65_537, 20)] {
        assert_eq!(answer(fair.clone(), length), expected);
    }
    for (servers, expected) in [(0, 20), (1, 0), (8, 0), (9, 0), (15, 0), (16, 0), (17, 20), (32, 20), (255, 20)] {
        assert_eq!(answer(Settings { servers, ..fair.clone() }, 1_024), expected);
    }
    for (threshold, expected) in [(0, 20), (1, 0), (64, 0), (65, 20), (255, 20)] {
        assert_eq!(answer(Settings { threshold, ..fair.clone() }, 1_024), expected);
    }
    for (duration, expected) in [(0, 20), (1, 0), (65_535, 0)] {
        assert_eq!(answer(Settings { duration, ..fair.clone() }, 1_024), expected);
    }
}

#[test]
fn fresh_exporter() {
    let mut bench = Bench::new(Settings { first_dsn: 9, ..settings(&[0, 1]) }, 1_024);
    let fresh = &bench.exporter;
    assert!(fresh.is_sound() && fresh.queue.is_empty());
    assert_eq!((fresh.next_dsn, fresh.first_held_dsn(), fresh.active), (9, 9, None));
    assert_eq!((fresh.sent, fresh.reached, fresh.timer, fresh.ring_start), (0, 0, 0, 0));
    assert_eq!((fresh.released, fresh.began), (0, 1));
    assert_eq!(fresh.states, [ServerState::Closed; MAX_SERVERS]);
    assert!(bench.store.iter().all(|octet| *octet == 0xaa));
    assert_eq!(bench.next(), refused(13));
}

/// A rule of soundness by name, and a change that breaks it.
type Break = (&'static str, fn(&mut Exporter));

/// Every call on the state answers 1 and changes neither it nor store nor output.
fn assert_unsound(bench: &mut Bench, rule: &str) {
    let (exporter, store, out) = (bench.exporter.clone(), bench.store.clone(), bench.out.clone());
    assert!(!exporter.is_sound(), "{rule}");
    assert_eq!(bench.put(&[]), 1, "{rule}");
    assert_eq!(bench.next(), refused(1), "{rule}");
    assert_eq!(bench.receive(200, &[]), refused(1), "{rule}");
    assert_eq!(bench.exporter.offer_templates(200, &[], &mut []), refused(1), "{rule}");
    assert_eq!(bench.exporter.line_down(200), 1, "{rule}");
    assert_eq!(bench.exporter.tick(), 1, "{rule}");
    assert!(bench.exporter == exporter && bench.store == store && bench.out == out, "{rule}");
}

/// Each breaks one rule of a state with an active server and three records, two of them sent.
const BREAKS: [Break; 20] = [
    ("no servers", |e| e.settings.servers = 0),
    ("17 servers", |e| e.settings.servers = 17),
    ("threshold 0", |e| e.settings.threshold = 0),
    ("threshold 65", |e| e.settings.threshold = 65),
    ("duration 0", |e| e.settings.duration = 0),
    ("short store", |e| e.store_length = 1_023),
    ("long store", |e| e.store_length = 65_537),
    ("65 records", |e| e.queue.resize(65, Held { template_id: 4, length: 0, sent_to: BTreeSet::new() })),
    ("long record", |e| (e.store_length, e.queue[2].length) = (4_096, 1_025)),
    ("records over the store", |e| e.queue[2].length = 1_024),
    ("length of no number", |e| e.queue[2].length = usize::MAX),
    ("ring start", |e| e.ring_start = 1_024),
    ("sent above reached", |e| e.sent = 3),
    ("reached above count", |e| {
        e.queue[2].sent_to.insert(0);
        e.reached = 4;
    }),
    ("timer", |e| e.timer = 2),
    ("another active", |e| e.active = Some(1)),
    ("no active", |e| e.active = None),
    ("sent to no server", |e| {
        e.queue[2].sent_to.insert(2);
    }),
    ("not sent to the active", |e| {
        e.queue[1].sent_to.remove(&0);
    }),
    ("agreed, but not chosen", |e| e.states[1] = ServerState::Agreed),
];

#[test]
fn unsound_states_are_refused() {
    for (rule, break_rule) in BREAKS {
        let mut bench = Bench::new(settings(&[1, 2]), 1_024);
        bench.agree(0);
        for _ in 0..3 {
            bench.put(&blob(5, 1));
        }
        bench.next();
        bench.next();
        assert!(bench.exporter.is_sound());
        break_rule(&mut bench.exporter);
        assert_unsound(&mut bench, rule);
    }
}

#[test]
fn unsound_without_an_active_server() {
    let breaks: [Break; 2] = [("timer", |e| e.timer = 1), ("reached", |e| e.reached = 1)];
    for (rule, break_rule) in breaks {
        let mut bench = Bench::new(settings(&[1, 2]), 1_024);
        bench.put(&blob(5, 1));
        break_rule(&mut bench.exporter);
        assert_unsound(&mut bench, rule);
    }
}

#[test]
fn what_soundness_does_not_look_at() {
    let mut bench = Bench::new(settings(&[1, 2]), 1_024);
    bench.put(&blob(5, 1));
    bench.exporter.states[2] = ServerState::Agreed;
    bench.exporter.settings.priorities[2] = 9;
    bench.exporter.next_dsn = 77;
    bench.exporter.queue[0].template_id = 99;
    assert!(bench.exporter.is_sound());
    assert_eq!(bench.exporter.tick(), 0);
    assert_eq!(bench.exporter.active, None);
}

#[test]
fn soundness_does_not_look_at_where_the_activation_began() {
    let mut bench = written_records(0, 2);
    for (began, flags) in [(1, [1, 0]), (2, [0, 1]), (3, [0, 0]), (0, [0, 0])] {
        bench.exporter.began = began;
        assert!(bench.exporter.is_sound());
        assert_eq!(bench.ack(0, u32::MAX), 0);
        assert_eq!([bench.next_flags().0, bench.next_flags().0], flags, "{began}");
    }
}

#[test]
fn lent_store_has_the_length_set() {
    let mut bench = written_records(0, 1);
    bench.store.push(0);
    assert_eq!(bench.put(&[]), 1);
    assert_eq!(bench.next(), refused(1));
    bench.store.truncate(1_023);
    assert_eq!(bench.put(&blob(5, 1)), 1);
    assert_eq!(bench.next(), refused(1));
}

#[test]
fn put_refuses_in_order() {
    let mut bench = Bench::new(settings(&[0]), 1_024);
    let other = hex("02010001 0003 0001 0000 0000 00000018 00000009 0004 0000 00000000");
    let put = |bench: &mut Bench, table: &[u8], id: u16, record: &[u8]| {
        let before = (bench.exporter.clone(), bench.store.clone());
        let answer = bench.exporter.put(&mut bench.store, table, id, record);
        assert!(answer == 0 || before == (bench.exporter.clone(), bench.store.clone()));
        answer
    };
    let long = vec![0; 1_025];
    assert_eq!(put(&mut bench, &[], 9, &long), 21);
    assert_eq!(put(&mut bench, &other, 9, &long), 21);
    assert_eq!(put(&mut bench, &sample_table(), 9, &long), 15);
    assert_eq!(put(&mut bench, &sample_table(), 3, &long), 17);
    assert_eq!(put(&mut bench, &blob_table(), 4, &blob(1_025, 0)), 17);
    assert_eq!(put(&mut bench, &sample_table(), 3, &hex("000500")), 16);
    assert_eq!(put(&mut bench, &blob_table(), 4, &blob(1_020, 0)), 0);
    assert_eq!(put(&mut bench, &blob_table(), 4, &blob(5, 0)), 19);
    assert_eq!(put(&mut bench, &sample_table(), 3, &hex("00")), 16);
    assert_eq!(put(&mut bench, &blob_table(), 4, &blob(4, 0)), 0);
    assert_eq!(put(&mut bench, &blob_table(), 4, &blob(4, 0)), 19);
    for _ in 0..62 {
        assert_eq!(put(&mut bench, &blob_table(), 5, &[]), 0);
    }
    assert_eq!(put(&mut bench, &blob_table(), 4, &blob(4, 0)), 18);
    assert_eq!(put(&mut bench, &blob_table(), 5, &[]), 18);
    assert_eq!(put(&mut bench, &blob_table(), 4, &[]), 16);
}

#[test]
fn next_data_refuses_in_order() {
    let mut bench = Bench::new(settings(&[0]), 1_024);
    assert_eq!(bench.exporter.next_data(&bench.store, &mut []), refused(13));
    bench.agree(0);
    assert_eq!(bench.exporter.next_data(&bench.store, &mut []), refused(14));
    bench.put(&blob(5, 1));
    let before = bench.exporter.clone();
    let mut out = [0xee; 20];
    assert_eq!(bench.exporter.next_data(&bench.store, &mut out), refused(12));
    assert_eq!((out, &bench.exporter), ([0xee; 20], &before));
    bench.out = vec![0xee; 22];
    assert_eq!(bench.next(), done(21));
    assert_eq!(bench.out, hex("01200700 00000015 00040101 00000000 00000001 01 ee"));
    assert_eq!(bench.next(), refused(14));
}

#[test]
fn receive_refuses_in_order() {
    let mut bench = written_records(0, 1);
    let answer = |bench: &mut Bench, server: u8, message: &str| {
        let before = (bench.exporter.clone(), bench.out.clone());
        let reply = bench.receive(server, &hex(message));
        assert!(before == (bench.exporter.clone(), bench.out.clone()) && reply.written == 0);
        reply.answer
    };
    assert_eq!(answer(&mut bench, 1, "02ff0800 000000"), 2);
    assert_eq!(answer(&mut bench, 0, "02ff0800 000000"), 3);
    assert_eq!(answer(&mut bench, 0, "02ff0800 00000000"), 4);
    assert_eq!(answer(&mut bench, 0, "01ff0800 00000009"), 5);
    assert_eq!(answer(&mut bench, 0, "01ff0800 00000008"), 6);
    for number in ["02", "04", "10", "19", "20", "00", "22", "ff"] {
        assert_eq!(answer(&mut bench, 0, &format!("01{number}0700 00000008")), 7);
    }
    assert_eq!(answer(&mut bench, 0, "01020700 0000000c 00000000"), 7);
    for number in ["01", "03", "18", "13", "21"] {
        assert_eq!(answer(&mut bench, 0, &format!("01{number}0700 00000009 00")), 8);
    }
    assert_eq!(answer(&mut bench, 0, "01130700 0000000c 02000000"), 9);
    assert_eq!(answer(&mut bench, 0, "01210700 00000010 00000009 02000000"), 10);
    assert_eq!(answer(&mut bench, 0, "01210700 00000010 00000009 01000000"), 11);
}

#[test]
fn receive_turns() {
    let mut bench = Bench::new(settings(&[0, 0]), 1_024);
    assert_eq!(bench.negotiate(0), refused(9));
    assert_eq!(bench.final_ack(0), refused(9));
    assert_eq!(bench.ack(0, u32::MAX), 9);
    assert_eq!(bench.receive(0, &hex("01210700 00000010 ffffffff 02000000")), refused(9));
    bench.start(0);
    assert_eq!(bench.final_ack(0), refused(9));
    bench.offer(0);
    assert_eq!(bench.receive(0, &hex("01130700 0000000c 02000000")), refused(10));
    assert_eq!(bench.final_ack(0), done(0));
    assert_eq!(bench.final_ack(0), refused(9));
    bench.agree(1);
    assert_eq!((bench.ack(1, u32::MAX), bench.ack(0, u32::MAX)), (9, 0));
}

#[test]
fn receive_judges_the_output_by_its_reply() {
    let mut bench = Bench::new(settings(&[0]), 1_024);
    let receive = |bench: &mut Bench, message: &str, length: usize| {
        bench.out = vec![0xee; length];
        bench.receive(0, &hex(message))
    };
    assert_eq!(receive(&mut bench, "01180700 00000008", 0), refused(9));
    assert_eq!(receive(&mut bench, "01010700 00000008", 11), refused(12));
    assert_eq!((bench.exporter.state(0), bench.out.clone()), (ServerState::Closed, vec![0xee; 11]));
    assert_eq!(receive(&mut bench, "01010700 00000008", 13), done(12));
    assert_eq!(bench.out, hex("01020700 0000000c 00000e10 ee"));
    assert_eq!(receive(&mut bench, "01180700 00000008", 7), refused(12));
    assert_eq!(receive(&mut bench, "01180700 00000008", 9), done(8));
    assert_eq!(bench.out, hex("01190700 00000008 ee"));
    assert_eq!(receive(&mut bench, "01030700 00000008", 7), refused(12));
    assert_eq!(receive(&mut bench, "01030700 00000008", 8), done(8));
    assert_eq!(bench.out, hex("01040700 00000008"));
    bench.out = vec![0; 64];
    assert_eq!(bench.exporter.offer_templates(0, &bench.table, &mut bench.out), refused(9));
    bench.start(0);
    bench.out = vec![0; 8 + bench.table.len()];
    assert_eq!(bench.offer(0), done(8 + bench.table.len()));
    assert_eq!(receive(&mut bench, "01130700 0000000c 01000000", 0), done(0));
    assert_eq!(receive(&mut bench, "01210700 00000010 ffffffff 01000000", 0), done(0));
}

#[test]
fn offer_refuses_in_order() {
    let mut bench = Bench::new(settings(&[0]), 1_024);
    let other = hex("02010001 0003 0001 0000 0000 00000018 00000009 0004 0000 00000000");
    assert_eq!(bench.exporter.offer_templates(1, &[], &mut []), refused(2));
    assert_eq!(bench.exporter.offer_templates(0, &[], &mut []), refused(21));
    assert_eq!(bench.exporter.offer_templates(0, &other, &mut []), refused(21));
    assert_eq!(bench.exporter.offer_templates(0, &sample_table(), &mut []), refused(9));
    bench.start(0);
    let mut out = [0xee; 37];
    assert_eq!(bench.exporter.offer_templates(0, &sample_table(), &mut out[..35]), refused(12));
    assert_eq!((out, bench.exporter.state(0)), ([0xee; 37], ServerState::Started));
    assert_eq!(bench.exporter.offer_templates(0, &sample_table(), &mut out), done(36));
    assert_eq!(out.to_vec(), [hex("01100700 00000024"), sample_table(), vec![0xee]].concat());
    assert_eq!(bench.exporter.state(0), ServerState::Offered);
    assert_eq!(bench.offer(0).answer, 0);
    bench.final_ack(0);
    assert_eq!(bench.offer(0), refused(9));
}

#[test]
fn line_down_and_stop_close_from_any_state() {
    let mut bench = Bench::new(settings(&[0]), 1_024);
    assert_eq!((bench.exporter.line_down(1), bench.exporter.line_down(0)), (2, 0));
    assert_eq!(bench.stop(0), done(8));
    bench.agree(0);
    assert_eq!(bench.exporter.line_down(0), 0);
    assert_eq!((bench.exporter.state(0), bench.exporter.active), (ServerState::Closed, None));
    bench.agree(0);
    assert_eq!(bench.stop(0), done(8));
    assert_eq!((bench.exporter.state(0), bench.exporter.active), (ServerState::Closed, None));
}

#[test]
fn negotiate_starts_every_server_not_closed() {
    let mut bench = Bench::new(settings(&[0; 5]), 1_024);
    bench.start(1);
    bench.start(2);
    bench.offer(2);
    bench.agree(3);
    bench.agree(4);
    bench.put(&blob(5, 1));
    bench.next();
    bench.exporter.tick();
    bench.exporter.tick();
    assert_eq!(bench.exporter.state(3), ServerState::Late);
    assert_eq!(bench.negotiate(0), refused(9));
    assert_eq!(bench.negotiate(3), done(8));
    let states: Vec<ServerState> = (0..5).map(|server| bench.exporter.state(server)).collect();
    assert_eq!(states[0], ServerState::Closed);
    assert!(states[1..].iter().all(|state| *state == ServerState::Started));
    assert_eq!(bench.exporter.active, None);
}

#[test]
fn active_server_is_the_highest_lowest_numbered() {
    let mut bench = Bench::new(settings(&[3, 200, 3, 200]), 1_024);
    for (server, active) in [(2, 2), (0, 0), (3, 3), (1, 1)] {
        bench.agree(server);
        assert_eq!(bench.exporter.active, Some(active));
    }
    for (server, active) in [(1, Some(3)), (3, Some(0)), (0, Some(2)), (2, None)] {
        bench.exporter.line_down(server);
        assert_eq!(bench.exporter.active, active);
    }
}

#[test]
fn s_marks_the_record_that_began_the_activation() {
    let mut bench = written_records(0, 0);
    for _ in 0..3 {
        bench.put(&blob(5, 1));
    }
    assert_eq!(bench.exporter.next_data(&bench.store, &mut []), refused(12));
    assert_eq!((bench.next_flags(), bench.next_flags()), ((1, 0), (0, 1)));
    assert_eq!(bench.ack(0, u32::MAX), 0);
    assert_eq!(bench.exporter.next_data(&bench.store, &mut []), refused(12));
    assert_eq!(bench.next_flags(), (1, 0));
    bench.start(0);
    assert_eq!((bench.exporter.active, bench.exporter.reached), (None, 0));
    bench.offer(0);
    bench.final_ack(0);
    assert_eq!((bench.next_flags(), bench.next_flags()), ((1, 0), (0, 1)));
}

/// Cases of the mark S, each a name and what happens, word by word. There are two servers of one priority, and a timer
/// runs out at the second tick.
///
/// `agree:0` is START, offer and agreement of server 0, and `ticks` two ticks. `ack:1` is a DATA ACK of place 1 by the
/// active server, and `refused:1` one that is answered 11. `S:1`, `SD:1`, `D:1` and `-:1` are the DATA that next
/// data writes, its marks and its place.
const S_CASES: [(&str, &str); 29] = [
    ("a tick's resend before a release", "agree:0 put put S:1 -:2 ticks S:1 -:2 ticks S:1"),
    ("an ack of nothing before a release", "agree:0 put put S:1 -:2 ack:0 S:1 -:2 ack:0 S:1"),
    ("both before a release", "agree:0 put put S:1 ticks S:1 ack:0 S:1 ack:0 ticks S:1 -:2"),
    ("a tick's resend after a release", "agree:0 put put S:1 -:2 ack:1 ticks -:2 ticks -:2"),
    ("an ack of nothing after a release", "agree:0 put put S:1 -:2 ack:1 ack:1 -:2 ack:1 -:2"),
    ("a release after resends", "agree:0 put put S:1 -:2 ticks S:1 ack:0 S:1 ack:1 -:2 ticks -:2"),
    ("a release of all after resends", "agree:0 put S:1 ticks S:1 ack:1 put -:2 ticks -:2"),
    ("a timer that does not run out", "agree:0 put S:1 tick put -:2 ack:0 S:1"),
    ("a refused ack before a release", "agree:0 put put S:1 refused:2 ticks S:1"),
    ("an empty queue at first", "agree:0 put S:1 put -:2 ticks S:1 -:2"),
    ("an empty queue, acknowledged and ticked", "agree:0 ack:0 ticks put put S:1 ack:0 S:1 -:2"),
    ("an empty queue after releases", "agree:0 put S:1 ack:1 down:0 agree:0 put S:2 ticks S:2 ack:2 put -:3"),
    ("records put before", "put put put agree:0 S:1 -:2 -:3 ticks S:1"),
    ("a queue emptied and filled again", "agree:0 put S:1 ack:1 put -:2 ticks -:2 ack:1 -:2 ack:2 put -:3"),
    ("the same server after line down", "agree:0 put put S:1 -:2 ack:1 down:0 agree:0 S:2 ticks S:2 ack:1 S:2"),
    ("the same server after STOP", "agree:0 put put S:1 -:2 ack:1 stop:0 agree:0 S:2 ack:2 put -:3"),
    ("the same server after START", "agree:0 put put S:1 ack:1 -:2 agree:0 S:2 ticks S:2"),
    ("the same server after START NEGOTIATE", "agree:0 put put S:1 ack:1 -:2 negotiate:0 agree:0 S:2 ticks S:2"),
    ("the same server, once nothing was written", "agree:0 put put down:0 agree:0 S:1 down:0 agree:0 S:1 -:2"),
    ("another server that is not active", "agree:0 put put S:1 -:2 ack:1 agree:1 down:1 ticks -:2"),
    ("a takeover at line down", "agree:0 agree:1 put put S:1 -:2 down:0 SD:1 D:2 ack:0 SD:1 ack:1 ack:1 D:2"),
    ("a takeover after a release", "agree:0 agree:1 put put S:1 -:2 ack:1 down:0 SD:2 ticks SD:2 put -:3"),
    ("a takeover before the first held is written", "agree:0 agree:1 put put S:1 ack:1 down:0 S:2 ticks S:2"),
    ("a server that turns late", "agree:0 agree:1 put put S:1 -:2 ticks SD:1 D:2 ticks SD:1 ack:1 ticks D:2"),
    ("a server that turns late after a release", "agree:0 agree:1 put put S:1 -:2 ack:1 ticks SD:2 ack:1 SD:2"),
    ("a takeover and back", "agree:0 agree:1 put S:1 down:0 SD:1 agree:0 SD:1 ack:1 put -:2 down:0 SD:2"),
    ("a release between tick and writing", "agree:0 put put put S:1 -:2 -:3 ticks ack:1 -:2 -:3 ticks -:2"),
    ("a release between ack and writing", "agree:0 put put put S:1 -:2 -:3 ack:0 ack:2 -:3 ack:2 -:3"),
    (
        "a late release after a resend",
        "agree:0 put put S:1 -:2 ticks S:1 ack:2 put -:3 refused:1 ticks -:3 refused:1 down:0 agree:0 S:3 ack:3",
    ),
];

/// The marks of DATA by its flags.
const MARKS: [&str; 4] = ["-", "S", "D", "SD"];

/// Lets a word of a case happen, and says it as it came out.
fn word_as_it_came(bench: &mut Bench, word: &str) -> String {
    let (what, number) = word.split_once(':').unwrap_or((word, "0"));
    let number: u32 = number.parse().expect("a number");
    let before_first = bench.exporter.settings.first_dsn.wrapping_sub(1);
    let (dsn, server) = (before_first.wrapping_add(number), number as u8);
    let active = bench.exporter.active.unwrap_or(0);
    let done = match what {
        "put" => bench.put(&blob(5, 1)) == 0,
        "tick" => bench.exporter.tick() == 0,
        "ticks" => [bench.exporter.tick(), bench.exporter.tick()] == [0, 0],
        "agree" => [bench.start(server), bench.offer(server), bench.final_ack(server)].iter().all(|r| r.answer == 0),
        "negotiate" => bench.negotiate(server).answer == 0,
        "down" => bench.exporter.line_down(server) == 0,
        "stop" => bench.stop(server).answer == 0,
        "ack" => bench.ack(active, dsn) == 0,
        "refused" => bench.ack(active, dsn) == 11,
        _ => {
            let (flags, dsn) = bench.next_flags();
            return format!("{}:{}", MARKS[usize::from(flags)], dsn.wrapping_sub(before_first));
        }
    };
    format!("{}{word}", if done { "" } else { "not " })
}

#[test]
fn table_of_the_mark_s() {
    for first_dsn in [1, 0, u32::MAX, u32::MAX - 1, 1 << 31] {
        for (name, words) in S_CASES {
            let mut bench = Bench::new(Settings { first_dsn, ..settings(&[0, 0]) }, 1_024);
            let came: Vec<String> = words.split(' ').map(|word| word_as_it_came(&mut bench, word)).collect();
            assert_eq!(came.join(" "), words, "{name}, first DSN {first_dsn}");
        }
    }
}

#[test]
fn d_marks_records_written_to_another_server() {
    let mut bench = Bench::new(settings(&[1, 2]), 1_024);
    for _ in 0..3 {
        bench.put(&blob(5, 1));
    }
    bench.agree(0);
    assert_eq!((bench.next_flags(), bench.next_flags()), ((1, 0), (0, 1)));
    bench.agree(1);
    assert_eq!(bench.exporter.active, Some(1));
    assert_eq!((bench.next_flags(), bench.next_flags(), bench.next_flags()), ((3, 0), (2, 1), (0, 2)));
    bench.exporter.line_down(1);
    assert_eq!((bench.next_flags(), bench.next_flags(), bench.next_flags()), ((3, 0), (2, 1), (2, 2)));
}

#[test]
fn failover_releases_only_what_was_acknowledged() {
    let mut bench = Bench::new(settings(&[2, 1]), 1_024);
    bench.agree(0);
    bench.agree(1);
    for _ in 0..3 {
        bench.put(&blob(5, 1));
        bench.next();
    }
    assert_eq!(bench.ack(0, 0), 0);
    assert_eq!((bench.exporter.sent, bench.exporter.reached), (2, 2));
    assert_eq!((bench.exporter.tick(), bench.exporter.tick()), (0, 0));
    assert_eq!((bench.exporter.state(0), bench.exporter.active), (ServerState::Late, Some(1)));
    assert_eq!((bench.exporter.sent, bench.exporter.reached, bench.exporter.queue.len()), (0, 0, 2));
    assert_eq!((bench.ack(0, 1), bench.ack(1, 1)), (9, 11));
    assert_eq!((bench.next_flags(), bench.next_flags()), ((3, 1), (2, 2)));
    assert_eq!((bench.exporter.tick(), bench.exporter.tick()), (0, 0));
    assert_eq!((bench.exporter.active, bench.exporter.sent, bench.exporter.reached), (Some(1), 0, 2));
    assert_eq!(bench.exporter.state(0), ServerState::Late);
    assert_eq!(bench.ack(1, 2), 0);
    assert!(bench.exporter.queue.is_empty());
}

#[test]
fn ticks_count_from_the_threshold() {
    let fair = Settings { threshold: 2, duration: 3, ..settings(&[0]) };
    let mut bench = Bench::new(fair, 1_024);
    bench.agree(0);
    bench.put(&blob(5, 1));
    bench.put(&blob(5, 1));
    bench.next();
    let ticks = |bench: &mut Bench, count: usize| -> Vec<u16> {
        (0..count).map(|_| (bench.exporter.tick(), bench.exporter.timer).1).collect()
    };
    assert_eq!(ticks(&mut bench, 2), [0, 0]);
    bench.next();
    assert_eq!(ticks(&mut bench, 2), [1, 2]);
    assert_eq!(bench.ack(0, u32::MAX), 0);
    assert_eq!((bench.exporter.timer, bench.exporter.sent, bench.exporter.reached), (2, 0, 2));
    bench.next();
    bench.next();
    assert_eq!(ticks(&mut bench, 1), [0]);
    assert_eq!((bench.exporter.sent, bench.exporter.reached), (0, 2));
    assert_eq!(ticks(&mut bench, 1), [1]);
    assert_eq!(bench.ack(0, 0), 0);
    assert_eq!((bench.exporter.timer, bench.exporter.sent, bench.exporter.reached), (0, 0, 1));
}

#[test]
fn tick_below_the_threshold_clears_the_timer() {
    let mut bench = written_records(0, 1);
    bench.exporter.settings.threshold = 2;
    bench.exporter.timer = 1;
    assert_eq!((bench.exporter.tick(), bench.exporter.timer, bench.exporter.sent), (0, 0, 1));
}

#[test]
fn tick_without_an_active_server() {
    let mut bench = Bench::new(Settings { duration: 1, ..settings(&[0]) }, 1_024);
    let before = bench.exporter.clone();
    assert_eq!(bench.exporter.tick(), 0);
    assert_eq!(bench.exporter, before);
    bench.agree(0);
    bench.put(&blob(5, 1));
    bench.next();
    assert_eq!(bench.exporter.tick(), 0);
    assert_eq!((bench.exporter.timer, bench.exporter.sent, bench.exporter.reached), (0, 0, 1));
}

#[test]
fn ack_beyond_sent_within_reached() {
    let mut bench = written_records(0, 4);
    assert_eq!(bench.ack(0, u32::MAX), 0);
    assert_eq!(bench.next_flags(), (1, 0));
    assert_eq!(bench.ack(0, 2), 0);
    assert_eq!((bench.exporter.queue.len(), bench.exporter.sent, bench.exporter.reached), (1, 0, 1));
    assert_eq!(bench.next_flags(), (0, 3));
}

#[test]
fn ring_wraps_around_the_end_of_the_store() {
    let mut bench = Bench::new(settings(&[0]), 1_024);
    bench.agree(0);
    assert_eq!((bench.put(&blob(1_000, 1)), bench.next().answer, bench.ack(0, 0)), (0, 0, 0));
    assert_eq!(bench.exporter.ring_start, 1_000);
    let before = bench.store.clone();
    assert_eq!(bench.put(&blob(40, 2)), 0);
    assert_eq!(bench.store[1_000..], blob(40, 2)[..24]);
    assert_eq!(bench.store[..16], blob(40, 2)[24..]);
    assert_eq!(bench.store[16..1_000], before[16..1_000]);
    assert_eq!(bench.next(), done(56));
    assert_eq!(bench.out[16..56], blob(40, 2));
    assert_eq!(bench.exporter.held_record(&bench.store, 0), blob(40, 2));
    assert_eq!(bench.ack(0, 1), 0);
    assert_eq!(bench.exporter.ring_start, 16);
}

/// The server states, in the order of the columns below.
const STATES: [ServerState; 5] =
    [ServerState::Closed, ServerState::Started, ServerState::Offered, ServerState::Agreed, ServerState::Late];

/// The state of an initial; `-` is none.
fn state_of(initial: char) -> Option<ServerState> {
    "CSOAL".find(initial).map(|place| STATES[place])
}

/// What a call does to the servers.
struct ServerRule {
    name: &'static str,
    call: fn(&mut Bench, u8) -> Reply,
    /// The server's next state by its state: closed, started, offered, agreed, late; `-` is a refusal with 9.
    own: &'static str,
    /// The next state of every other server by its state.
    other: &'static str,
    /// What an accepted call writes.
    written: &'static str,
}

/// The rules about servers, one line for each call.
const SERVER_RULES: [ServerRule; 6] = [
    ServerRule {
        name: "START",
        call: Bench::start,
        own: "SSSSS",
        other: "CSOAL",
        written: "01020700 0000000c 00000e10",
    },
    ServerRule { name: "STOP", call: Bench::stop, own: "CCCCC", other: "CSOAL", written: "01040700 00000008" },
    ServerRule { name: "line down", call: Bench::down, own: "CCCCC", other: "CSOAL", written: "" },
    ServerRule {
        name: "offer",
        call: Bench::offer,
        own: "-OO--",
        other: "CSOAL",
        written: "01100700 0000003c 01010002
            0004 0001 0000 0000 00000018 00000000 4015 0000 00000000
            0005 0001 0000 0000 00000018 00000000 0001 0000 00000001",
    },
    ServerRule { name: "FINAL TMPL DATA ACK", call: Bench::final_ack, own: "--A--", other: "CSOAL", written: "" },
    ServerRule {
        name: "START NEGOTIATE",
        call: Bench::negotiate,
        own: "-SSSS",
        other: "CSSSS",
        written: "01190700 00000008",
    },
];

/// The active server's next state when its timer runs out, by the other's state.
const TIME_UP: &str = "AAALA";

/// The priorities of two servers, and which of them is active if both are agreed.
const CHOICES: [([u8; 2], u8); 4] = [([5, 5], 0), ([4, 5], 1), ([5, 4], 0), ([0, 255], 1)];

/// Two servers, one that a call concerns and another, before or after the call.
#[derive(Clone, Copy, Debug, PartialEq, Eq)]
struct Pair {
    own: u8,
    own_state: ServerState,
    other_state: ServerState,
    /// Which of the two is active if both are agreed.
    of_both: u8,
}

impl Pair {
    /// The active server: the agreed one, none if none is.
    fn active(&self) -> Option<u8> {
        match (self.own_state == ServerState::Agreed, self.other_state == ServerState::Agreed) {
            (false, false) => None,
            (true, false) => Some(self.own),
            (false, true) => Some(1 - self.own),
            (true, true) => Some(self.of_both),
        }
    }

    /// An exporter with these servers and three records. An active server has acknowledged one more and was sent two of
    /// the three, and its timer runs out at the next tick.
    fn bench(&self, priorities: [u8; 2]) -> Bench {
        let mut bench = Bench::new(settings(&priorities), 1_024);
        bench.exporter.states[usize::from(self.own)] = self.own_state;
        bench.exporter.states[usize::from(1 - self.own)] = self.other_state;
        bench.exporter.active = self.active();
        if let Some(server) = self.active() {
            assert_eq!((bench.put(&blob(5, 1)), bench.next_flags(), bench.ack(server, 0)), (0, (1, 0), 0), "{self:?}");
        }
        for _ in 0..3 {
            assert_eq!(bench.put(&blob(5, 1)), 0, "{self:?}");
        }
        if self.active().is_some() {
            assert_eq!((bench.next_flags(), bench.next_flags(), bench.exporter.tick()), ((0, 1), (0, 2), 0));
        }
        bench
    }

    /// The exporter has these servers; its counters are those before if the choice is the same, else 0, and the first
    /// held record begins the activation.
    fn assert_after(&self, before: &Exporter, after: &Exporter, rule: &str) {
        let states = [after.state(self.own), after.state(1 - self.own)];
        assert_eq!((states, after.active), ([self.own_state, self.other_state], self.active()), "{rule}: {self:?}");
        let same = before.active == after.active;
        let counters = |exporter: &Exporter| (exporter.sent, exporter.reached, exporter.timer, exporter.began);
        let anew = (0, 0, 0, before.released + 1);
        assert_eq!(counters(after), if same { counters(before) } else { anew }, "{rule}: {self:?}");
        assert_eq!((after.queue.len(), after.released), (3, before.released), "{rule}: {self:?}");
        assert_eq!(after.next_dsn, before.next_dsn, "{rule}: {self:?}");
    }
}

/// Every pair of servers with its priorities.
fn pairs() -> Vec<([u8; 2], Pair)> {
    let mut pairs = Vec::new();
    for (priorities, of_both) in CHOICES {
        for own_state in STATES {
            for other_state in STATES {
                pairs.extend([0, 1].map(|own| (priorities, Pair { own, own_state, other_state, of_both })));
            }
        }
    }
    pairs
}

/// What stands in a row under a state.
fn under(row: &str, state: ServerState) -> Option<ServerState> {
    let place = STATES.iter().position(|column| *column == state)?;
    row.chars().nth(place).and_then(state_of)
}

#[test]
fn table_of_the_rules_about_servers() {
    for rule in &SERVER_RULES {
        for (priorities, pair) in pairs() {
            let mut bench = pair.bench(priorities);
            bench.out = vec![0xee; 64];
            let before = bench.exporter.clone();
            let reply = (rule.call)(&mut bench, pair.own);
            let (mut expected, mut out) = (refused(9), vec![0xee; 64]);
            match (under(rule.own, pair.own_state), under(rule.other, pair.other_state)) {
                (Some(own_state), Some(other_state)) => {
                    let written = hex(rule.written);
                    out[..written.len()].copy_from_slice(&written);
                    expected = done(written.len());
                    Pair { own_state, other_state, ..pair }.assert_after(&before, &bench.exporter, rule.name);
                }
                _ => assert_eq!(bench.exporter, before, "{}: {pair:?}", rule.name),
            }
            assert_eq!((reply, &bench.out), (expected, &out), "{}: {pair:?}", rule.name);
        }
    }
}

#[test]
fn table_of_a_timer_that_runs_out() {
    let mut states = BTreeSet::new();
    for (priorities, pair) in pairs().into_iter().filter(|(_, pair)| pair.active() == Some(pair.own)) {
        let mut bench = pair.bench(priorities);
        let mut before = bench.exporter.clone();
        assert_eq!((before.sent, before.reached, before.timer, bench.exporter.tick()), (2, 2, 1, 0), "{pair:?}");
        // without another agreed server all is sent again
        (before.sent, before.timer) = (0, 0);
        let own_state = under(TIME_UP, pair.other_state).expect("a state");
        Pair { own_state, ..pair }.assert_after(&before, &bench.exporter, "a timer that runs out");
        states.insert(format!("{:?}", pair.other_state));
    }
    assert_eq!(states.len(), STATES.len());
}
