//! Both sides give the same numbers and octets, on what is measured and on damaged copies of it.

use crate::exporter::MAX_SERVERS;
use crate::inputs::{self, Events, Valid, OUTPUT_OCTETS};
use crate::session::{session, Given, EVENT_OCTETS};
use crate::{edition, ipdr, library, message, table, walk};

/// A small random number generator with a fixed seed.
struct Random(u64);

impl Random {
    fn next(&mut self) -> u64 {
        self.0 ^= self.0 << 13;
        self.0 ^= self.0 >> 7;
        self.0 ^= self.0 << 17;
        self.0
    }

    fn below(&mut self, n: usize) -> usize {
        (self.next() % n as u64) as usize
    }
}

/// The same octets with one of them changed, or some cut off or added.
fn damaged(s: &[u8], random: &mut Random) -> Vec<u8> {
    let mut d = s.to_vec();
    match random.below(6) {
        0 if !d.is_empty() => d.truncate(random.below(s.len())),
        1 => d.push(random.next() as u8),
        _ if !d.is_empty() => {
            let i = random.below(d.len().min(80));
            d[i] = if random.below(2) == 0 {
                d[i].wrapping_add(1)
            } else {
                random.next() as u8
            };
        }
        _ => {}
    }
    d
}

fn compare_table(t: &[u8]) {
    assert_eq!(
        library::table_answer(t),
        table::table_answer(t),
        "table {t:x?}"
    );
}

fn compare_record(t: &[u8], id: u16, r: &[u8]) {
    assert_eq!(
        library::record_answer(t, id, r),
        table::record_answer(t, id, r),
        "record {t:x?} {id} {r:x?}"
    );
}

/// The count of a record's fields, and every part of every step up to the end or a refusal.
fn compare_walk(t: &[u8], id: u16, r: &[u8]) {
    let counted = (
        library::count_fields(t, id, r),
        walk::count_fields(t, id, r),
    );
    assert_eq!(counted.0, counted.1, "count {t:x?} {id} {r:x?}");
    for c in walk::cursors(t, id, r) {
        for part in 0..9 {
            let step = (
                library::step_part(t, id, r, c, part),
                walk::step_part(t, id, r, c, part),
            );
            assert_eq!(step.0, step.1, "part {part} of {c:?} {t:x?} {id} {r:x?}");
        }
    }
}

fn compare_message(m: &[u8], room: usize) {
    let mut out = [vec![0xaa; room], vec![0xaa; room]];
    let a = library::read_again(m, &mut out[0]);
    let b = message::read_again(m, &mut out[1]);
    assert_eq!((a, &out[0]), (b, &out[1]), "message {m:x?}");
}

/// A message as either edition's.
fn compare_editions(m: &[u8], room: usize) {
    for version in [message::VERSION, ipdr::VERSION] {
        let mut out = [vec![0xaa; room], vec![0xaa; room]];
        let a = library::read_again_in(version, m, &mut out[0]);
        let b = edition::read_again(version, m, &mut out[1]);
        let same = (a, &out[0]) == (b, &out[1]);
        assert!(same, "version {version} message {m:x?}: {a} {b}");
    }
}

/// The lengths of a session's store and of its output.
#[derive(Clone, Copy)]
struct Lent {
    store: usize,
    out: usize,
}

fn compare_session(g: Given, lent: Lent, v: &Valid, list: &[u8]) {
    let mut store = [vec![0xaa; lent.store], vec![0xaa; lent.store]];
    let mut out = [vec![0xaa; lent.out], vec![0xaa; lent.out]];
    let (t, r) = (&v.table, &v.record);
    let a = library::session(g, &mut store[0], t, v.id, r, list, &mut out[0]);
    let b = session(g, &mut store[1], t, v.id, r, list, &mut out[1]);
    assert_eq!(a, b, "sums of {} events", list.len() / EVENT_OCTETS);
    assert_eq!(store[0], store[1], "stores");
    assert_eq!(out[0], out[1], "outputs");
}

/// Every beginning of a list of events, so that what each call writes is compared.
fn compare_beginnings(g: Given, lent: Lent, v: &Valid, list: &Events) -> usize {
    for n in 0..=list.len() {
        compare_session(g, lent, v, &list.octets[..n * EVENT_OCTETS]);
    }
    list.len() + 1
}

/// Numbers that batches are given.
const LIMITS: [u8; 9] = [0, 1, 2, 3, 7, 63, 64, 65, 255];

/// A list of events drawn at random, most of which are accepted.
fn drawn(random: &mut Random, servers: u8, n: usize) -> Events {
    let mut list = Events::opening();
    for _ in 0..n {
        list = match random.below(27) {
            0..=8 => list.puts(1),
            9..=16 => list.nexts(1),
            17 | 18 => {
                let released = random.below(4) as u32;
                list.ack(released)
            }
            19 => list.ticks(1 + random.below(3)),
            20 | 21 => {
                let server = random.below(servers as usize + 1) as u8;
                list.receive(server, &inputs::bare(message::START));
                list.offer(server);
                list.receive(server, &inputs::final_tmpl_data_ack());
                list
            }
            22 => {
                let kind =
                    [message::STOP, message::START_NEGOTIATE, message::START][random.below(3)];
                list.receive(random.below(servers as usize) as u8, &inputs::bare(kind));
                list
            }
            23..=25 => list.batch(LIMITS[random.below(LIMITS.len())]),
            _ => {
                let m = damaged(&inputs::data_ack(random.next() as u32), random);
                list.receive(0, &m[..m.len().min(16)]);
                list
            }
        };
    }
    list
}

/// How many damaged copies are made of each table, record and message.
const COPIES: usize = 3000;

/// Compares all, and says how many comparisons of damaged copies and of sessions there were.
pub fn all() -> usize {
    let mut random = Random(88172645463325252);
    tables(&mut random)
        + records(&mut random)
        + messages(&mut random)
        + editions(&mut random)
        + measured_sessions()
        + large_stores()
        + batches()
        + drawn_sessions(&mut random)
}

fn tables(random: &mut Random) -> usize {
    let tables = [
        inputs::small_table(),
        inputs::fixed_table(),
        inputs::large_table(true),
        inputs::large_table(false),
        Valid::fixed().little().table,
    ];
    for t in &tables {
        compare_table(t);
        (0..COPIES).for_each(|_| compare_table(&damaged(t, random)));
    }
    tables.len() * COPIES
}

fn records(random: &mut Random) -> usize {
    let records = [
        Valid::small(16),
        Valid::small(128),
        Valid::text(table::STRING, 40),
        Valid::text(table::TERMINATED, 40),
        Valid::fixed(),
        Valid::large(16),
    ];
    let records: Vec<Valid> = records
        .into_iter()
        .flat_map(|v| [v.clone(), v.little()])
        .collect();
    for Valid { table, id, record } in &records {
        assert_eq!(table::record_answer(table, *id, record), 0);
        for compare in [compare_record, compare_walk] {
            compare(table, *id, record);
            compare(table, 9, record);
            (0..COPIES).for_each(|_| compare(table, *id, &damaged(record, random)));
        }
    }
    2 * records.len() * COPIES
}

fn messages(random: &mut Random) -> usize {
    let messages = [
        inputs::bare(message::START),
        inputs::bare(message::STOP_ACK),
        inputs::final_tmpl_data_ack(),
        inputs::data_ack(5),
        inputs::data_message(&inputs::small_record(16)),
        inputs::data_message(&inputs::small_record(1024)),
        inputs::data_message(&inputs::small_record(1025)),
        inputs::tmpl_data(&inputs::small_table()),
        inputs::tmpl_data(&inputs::large_table(true)),
    ];
    for m in &messages {
        compare_numbers(m, compare_message);
        compare_copies(m, random, compare_message);
        compare_numbers(m, compare_editions);
    }
    messages.len() * COPIES
}

/// IPDR/SP's messages with texts and records of several lengths.
fn editions(random: &mut Random) -> usize {
    let mut messages = Vec::new();
    for n in [0, 16, 1024, 1025] {
        messages.push(inputs::ipdr_data(n));
        messages.extend(inputs::ipdr_messages(n).map(|(_, m)| m));
    }
    for m in &messages {
        compare_numbers(m, compare_editions);
        compare_copies(m, random, compare_editions);
    }
    messages.len() * COPIES
}

/// A message with each message number.
fn compare_numbers(m: &[u8], compare: fn(&[u8], usize)) {
    let mut other = m.to_vec();
    for number in 0..=255 {
        other[1] = number;
        compare(&other, OUTPUT_OCTETS);
    }
}

/// Damaged copies of a message, each with an output of another length.
fn compare_copies(m: &[u8], random: &mut Random, compare: fn(&[u8], usize)) {
    for _ in 0..COPIES {
        let room = random.below(2 * m.len());
        compare(&damaged(m, random), room);
    }
}

/// A list of the events that are measured.
fn measured_sessions() -> usize {
    let list = Events::opening()
        .puts(65)
        .nexts(65)
        .ticks(2)
        .ack(0)
        .nexts(3)
        .acks(3, 1)
        .ack(61)
        .nexts(1)
        .ack(1);
    let lent = Lent {
        store: inputs::STORE_OCTETS,
        out: OUTPUT_OCTETS,
    };
    compare_beginnings(inputs::GIVEN, lent, &Valid::small(16), &list)
        + compare_beginnings(inputs::GIVEN, lent, &Valid::small(16).little(), &list)
        + compare_beginnings(inputs::GIVEN, lent, &Valid::large(128), &list)
}

/// Records that go round the largest stores three times, which no tape has room for.
fn large_stores() -> usize {
    let list = Events::opening().times(200, |e| e.puts(1).nexts(1).ack(1));
    let compare = |store, octets| {
        let lent = Lent {
            store,
            out: OUTPUT_OCTETS,
        };
        compare_beginnings(inputs::GIVEN, lent, &Valid::small(octets), &list)
    };
    [65536, 65535]
        .iter()
        .flat_map(|&store| [1024, 1023, 997].map(|octets| compare(store, octets)))
        .sum()
}

/// Batches of each number into outputs with room for some of the messages, round small stores, and of a state that is not sound.
fn batches() -> usize {
    let message = 16 + 128;
    let mut outs = vec![inputs::small_table().len() + 8, inputs::BATCH_OCTETS];
    for n in [1, 2, 63, 64] {
        outs.extend([n * message - 1, n * message, n * message + 1]);
    }
    let compare = |g, store, octets, list: &Events| -> usize {
        let v = Valid::small(octets);
        let lents = outs.iter().map(|&out| Lent { store, out });
        lents
            .map(|lent| compare_beginnings(g, lent, &v, list))
            .sum()
    };
    let unsound = Given {
        threshold: 0,
        ..inputs::GIVEN
    };
    let numbers = batches_of_each_number();
    let round = Events::opening().times(20, |e| {
        e.puts(9).batch(5).ack(3).batch(2).ack(0).batch(64).ack(6)
    });
    compare(inputs::GIVEN, inputs::STORE_OCTETS, 128, &numbers)
        + compare(unsound, inputs::STORE_OCTETS, 128, &numbers)
        + compare(inputs::GIVEN, 1024, 100, &round)
        + compare(inputs::GIVEN, 1025, 113, &round)
}

/// 64 records in batches of each number; to server 0, to nobody, and to server 1, which gets them as duplicates.
fn batches_of_each_number() -> Events {
    let each = |list: Events| {
        LIMITS
            .iter()
            .fold(list, |e, &n| e.batch(n).ack(0).batch(n).batch(n).ack(0))
    };
    let mut list = each(each(Events::opening()).puts(64)).batch(60).ack(2);
    list.receive(0, &inputs::bare(message::STOP));
    list = each(list);
    list.receive(1, &inputs::bare(message::START));
    list.offer(1);
    list.receive(1, &inputs::final_tmpl_data_ack());
    LIMITS.iter().fold(list, |e, &n| e.batch(n).puts(1))
}

fn drawn_sessions(random: &mut Random) -> usize {
    (0..60).map(|_| drawn_session(random)).sum()
}

/// A list of drawn events with drawn settings, a small store and in places a short output.
fn drawn_session(random: &mut Random) -> usize {
    let g = Given {
        servers: [1, 2, MAX_SERVERS as u8][random.below(3)],
        threshold: 1 + random.below(3) as u8,
        duration: 1 + random.below(4) as u16,
        initial: inputs::GIVEN.initial,
    };
    let big = Valid::small(11 + random.below(300));
    let v = if random.below(2) == 0 {
        big
    } else {
        big.little()
    };
    let out = if random.below(4) == 0 { 40 } else { 2000 };
    let list = drawn(random, g.servers, 150);
    let store = 1024 + random.below(100);
    compare_beginnings(g, Lent { store, out }, &v, &list)
}
