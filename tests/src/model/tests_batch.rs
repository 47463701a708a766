//! Tests of the batch call, on cases worked out from 02's ask 5.

use super::batch::BatchReply;
use super::exporter::{Exporter, Settings};
use super::tests_support::{blob, hex, settings, Bench};

/// What the outputs are filled with.
const FILLING: u8 = 0xee;

/// The octets of DATA before its record.
const FRONT: usize = 16;

/// A reply with this answer, count and octets written.
fn reply(answer: u8, count: usize, written: usize) -> BatchReply {
    BatchReply { answer, count, written }
}

/// One server, agreed, and records of these lengths held, each filled with its place from 1.
fn held(first_dsn: u32, lengths: &[usize]) -> Bench {
    let mut bench = Bench::new(Settings { first_dsn, ..settings(&[0]) }, 1_024);
    bench.agree(0);
    for (place, length) in (1..).zip(lengths) {
        assert_eq!(bench.put(&blob(*length, place)), 0);
    }
    bench
}

/// A batch into an output of that many octets: the reply and the output after it.
fn batch(bench: &mut Bench, number: usize, octets: usize) -> (BatchReply, Vec<u8>) {
    let mut out = vec![FILLING; octets];
    let reply = bench.exporter.batch(&bench.store, &mut out, number);
    (reply, out)
}

/// The flags and DSNs of the messages in an output, told by their own lengths.
fn marks(out: &[u8]) -> Vec<(u8, u32)> {
    let number = |octets: &[u8]| u32::from_be_bytes(octets.try_into().expect("four octets"));
    let mut marks = Vec::new();
    let mut rest = out;
    while !rest.is_empty() {
        marks.push((rest[11], number(&rest[12..16])));
        rest = &rest[number(&rest[4..8]) as usize..];
    }
    marks
}

/// A batch that is refused at once, which changes neither the state nor the output.
fn assert_refused(bench: &mut Bench, number: usize, octets: usize, answer: u8) {
    let before = bench.exporter.clone();
    let (refused, out) = batch(bench, number, octets);
    assert_eq!((refused, out), (reply(answer, 0, 0), vec![FILLING; octets]));
    assert_eq!(bench.exporter, before);
}

#[test]
fn two_messages_stand_back_to_back() {
    let mut bench = held(9, &[5, 6]);
    let (answered, out) = batch(&mut bench, 2, 50);
    assert_eq!(answered, reply(0, 2, 43));
    assert_eq!(out[..21], hex("01200700 00000015 00040101 00000009 00000001 01"));
    assert_eq!(out[21..43], hex("01200700 00000016 00040100 0000000a 00000002 0202"));
    assert_eq!(out[43..], [FILLING; 7]);
    assert_eq!((bench.exporter.sent, bench.exporter.reached), (2, 2));
    assert!(bench.exporter.queue.iter().all(|held| held.sent_to.iter().eq([&0])));
}

#[test]
fn a_number_of_0_writes_nothing_and_answers_0() {
    assert_refused(&mut held(0, &[5]), 0, 50, 0);
    assert_refused(&mut held(0, &[5]), 0, 0, 0);
    assert_refused(&mut held(0, &[]), 0, 50, 0);
    assert_refused(&mut Bench::new(settings(&[0]), 1_024), 0, 50, 0);
}

#[test]
fn a_number_of_0_answers_1_where_a_single_call_would() {
    let mut bench = held(0, &[5]);
    bench.exporter.sent = 1;
    assert_refused(&mut bench, 0, 50, 1);
    let mut bench = held(0, &[5]);
    bench.store.pop();
    assert_refused(&mut bench, 0, 50, 1);
    bench.store.extend([0, 0]);
    assert_refused(&mut bench, 0, 50, 1);
}

#[test]
fn a_number_above_0_is_refused_as_the_first_single_call() {
    for number in [1, 2, 64, usize::MAX] {
        assert_refused(&mut Bench::new(settings(&[0]), 1_024), number, 50, 13);
        assert_refused(&mut held(0, &[]), number, 50, 14);
        assert_refused(&mut held(0, &[]), number, 0, 14);
        assert_refused(&mut held(0, &[5]), number, 20, 12);
        assert_refused(&mut held(0, &[5]), number, 0, 12);
        let mut bench = held(0, &[5]);
        bench.exporter.timer = 2;
        assert_refused(&mut bench, number, 50, 1);
        let mut bench = held(0, &[5]);
        bench.store.clear();
        assert_refused(&mut bench, number, 50, 1);
    }
}

#[test]
fn one_message_is_a_single_call() {
    let (mut one, mut other) = (held(3, &[5, 6]), held(3, &[5, 6]));
    let single = other.next();
    let (answered, out) = batch(&mut one, 1, 50);
    assert_eq!(answered, reply(single.answer, 1, single.written));
    assert_eq!((&out[..21], &out[21..]), (&other.out[..21], &[FILLING; 29][..]));
    assert_eq!(one.exporter, other.exporter);
}

#[test]
fn the_output_fits_exactly_or_lacks_one_octet() {
    let all = 3 * FRONT + 5 + 6 + 7;
    assert_eq!(batch(&mut held(0, &[5, 6, 7]), 3, all).0, reply(0, 3, all));
    let mut bench = held(0, &[5, 6, 7]);
    let (answered, out) = batch(&mut bench, 3, all - 1);
    assert_eq!(answered, reply(12, 2, 43));
    assert_eq!(out[43..], [FILLING; 22]);
    assert_eq!((bench.exporter.sent, bench.exporter.reached), (2, 2));
    assert!(bench.exporter.queue[2].sent_to.is_empty());
}

#[test]
fn a_batch_goes_on_where_the_last_one_stopped() {
    let mut bench = held(0, &[5, 6, 7, 5]);
    assert_eq!(batch(&mut bench, 4, 50).0, reply(12, 2, 43));
    let (answered, out) = batch(&mut bench, 4, 44);
    assert_eq!((answered, marks(&out)), (reply(14, 2, 44), vec![(0, 2), (0, 3)]));
    assert_eq!(batch(&mut bench, 4, 44).0, reply(14, 0, 0));
}

#[test]
fn at_the_number_the_answer_is_0_though_the_output_is_full() {
    assert_eq!(batch(&mut held(0, &[5, 6, 7]), 2, 43).0, reply(0, 2, 43));
    assert_eq!(batch(&mut held(0, &[5, 6]), 2, 43).0, reply(0, 2, 43));
    assert_eq!(batch(&mut held(0, &[5, 6]), 2, 99).0, reply(0, 2, 43));
}

#[test]
fn at_the_queues_end_the_answer_is_14_though_the_output_is_full() {
    assert_eq!(batch(&mut held(0, &[5, 6]), 3, 43).0, reply(14, 2, 43));
    assert_eq!(batch(&mut held(0, &[5, 6]), usize::MAX, 99).0, reply(14, 2, 43));
}

#[test]
fn a_full_queue_with_numbers_beside_its_length() {
    let records = vec![5; 64];
    for (number, answer, count) in [(63, 0, 63), (64, 0, 64), (65, 14, 64)] {
        assert_eq!(batch(&mut held(0, &records), number, 64 * 21).0, reply(answer, count, count * 21));
    }
    assert_eq!(batch(&mut held(0, &records), 64, 64 * 21 - 1).0, reply(12, 63, 63 * 21));
}

#[test]
fn a_message_that_does_not_fit_is_not_passed_over() {
    assert_eq!(batch(&mut held(0, &[5, 9, 4]), 3, 44).0, reply(12, 1, 21));
}

#[test]
fn s_is_on_the_record_that_began_the_activation() {
    let mut bench = held(0, &[5, 5, 5]);
    let (_, out) = batch(&mut bench, 2, 42);
    assert_eq!(marks(&out), [(1, 0), (0, 1)]);
    // An acknowledgement of nothing sends again, before and after the first release.
    assert_eq!(bench.ack(0, u32::MAX), 0);
    let (_, out) = batch(&mut bench, 3, 63);
    assert_eq!(marks(&out), [(1, 0), (0, 1), (0, 2)]);
    assert_eq!((bench.ack(0, 0), bench.ack(0, 0)), (0, 0));
    let (answered, out) = batch(&mut bench, 3, 42);
    assert_eq!((answered, marks(&out)), (reply(14, 2, 42), vec![(0, 1), (0, 2)]));
}

#[test]
fn d_is_on_the_records_that_another_server_was_sent() {
    let mut bench = Bench::new(settings(&[0, 0]), 1_024);
    bench.agree(0);
    bench.agree(1);
    for _ in 0..4 {
        assert_eq!(bench.put(&blob(5, 1)), 0);
    }
    assert_eq!(batch(&mut bench, 2, 99).0, reply(0, 2, 42));
    bench.down(0);
    let (answered, out) = batch(&mut bench, 4, 84);
    assert_eq!((answered, marks(&out)), (reply(0, 4, 84), vec![(3, 0), (2, 1), (0, 2), (0, 3)]));
    bench.agree(0);
    let (_, out) = batch(&mut bench, 9, 84);
    assert_eq!(marks(&out), [(3, 0), (2, 1), (2, 2), (2, 3)]);
}

#[test]
fn records_and_sequence_numbers_go_round() {
    let mut bench = held(u32::MAX - 3, &[500, 500]);
    assert_eq!(batch(&mut bench, 2, 2_000).0, reply(0, 2, 1_032));
    assert_eq!(bench.ack(0, u32::MAX - 2), 0);
    for (filling, length) in [(7, 20), (8, 30), (9, 10)] {
        assert_eq!(bench.put(&blob(length, filling)), 0);
    }
    // The ring begins at place 1,000 of 1,024, and the second record crosses the store's end.
    let (answered, out) = batch(&mut bench, 3, 108);
    assert_eq!((answered, marks(&out)), (reply(0, 3, 108), vec![(0, u32::MAX - 1), (0, u32::MAX), (0, 0)]));
    let records = [&out[16..36], &out[52..82], &out[98..]].map(<[u8]>::to_vec);
    assert_eq!(records, [blob(20, 7), blob(30, 8), blob(10, 9)]);
}

#[test]
fn the_timer_stands_while_a_batch_is_written() {
    let mut bench = held(0, &[5, 5]);
    assert_eq!((bench.next().answer, bench.exporter.tick(), bench.exporter.timer), (0, 0, 1));
    assert_eq!(batch(&mut bench, 5, 99).0, reply(14, 1, 21));
    let Exporter { timer, sent, reached, .. } = bench.exporter;
    assert_eq!((timer, sent, reached), (1, 2, 2));
}
