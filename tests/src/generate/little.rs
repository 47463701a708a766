//! Tapes about little-endian tables: every field type under them, records in the wrong order, and tables whose flags or
//! own numbers are not as they must be.

use super::actions::{self, Mix, TYPICAL};
use super::session::Session;
use super::{random_of, records, settings, tables};
use crate::random::Random;
use crate::tables::{Key, Order, Table, Template, BLOB, FIELD_TYPES, STRING, ZERO_STRING};
use crate::tape::{self, Event};

/// The flags octet of a broken table.
const OTHER_FLAGS: [u8; 6] = [2, 255, 2, 255, 3, 128];

/// What happens between the puts.
const BETWEEN: Mix = Mix { put: 0, odd_put: 0, bring_up: 1, step_up: 1, ..TYPICAL };

/// A session under a little-endian table. In some tapes the table's flags are then made 1, so that all records stand in
/// the wrong order, and in a third the table is broken: by flags above 1, or by its own numbers turned.
pub fn little(profile: usize, seed: u64) -> Vec<u8> {
    let mut random = random_of(profile, seed);
    let mut settings = settings(&mut random);
    settings.store = random.between(4_096, 32_768) as u32;
    let table = table_of_types(&mut random, settings.configuration);
    let octets = match seed % 12 {
        0 => Table { order: Order::Big, ..table.clone() }.octets(),
        2 | 5 | 8 => with_flags(&table, *random.pick(&OTHER_FLAGS)),
        10 => (random.pick(&tables::TURNED_NUMBERS).apply)(&mut random, table.clone()),
        _ => table.octets(),
    };
    let most = random.between(40, 200);
    let mut session = Session::new(random, settings, table).limit(most);
    session.bring_up(0);
    while session.goes_on() && session.body_octets_left() > 0 {
        step(&mut session);
    }
    let mut events = session.events();
    events[1] = Event::table(octets);
    tape::build(&events)
}

fn with_flags(table: &Table, flags: u8) -> Vec<u8> {
    let mut octets = table.octets();
    octets[1] = flags;
    octets
}

/// A little-endian table with a template of all types, one of integers and floats alone, one of a string and a blob
/// between numbers, one of times and addresses beside numbers, and a template of one key.
fn table_of_types(random: &mut Random, configuration: u8) -> Table {
    let all: Vec<u16> = FIELD_TYPES.iter().map(|kind| kind.number).collect();
    let numbers: Vec<u16> = (0x0002..=0x000b).collect();
    let counted = [0x0005, STRING, 0x0006, BLOB, 0x0009, ZERO_STRING];
    let beside = [0x0008, 0x0010, 0x0012, 0x0007, 0x0013, 0x0011, 0x0014, 0x000a, 0x0015, 0x000b, 0x0016];
    let one = [random.pick(&FIELD_TYPES).number];
    let kinds: [&[u16]; 5] = [&all, &numbers, &counted, &beside, &one];
    let templates = (1..).zip(kinds).map(|(id, kinds)| Template {
        id: id * 257 - random.below(2) as u16,
        description: b"little"[..random.between(0, 6)].to_vec(),
        keys: keys_of(random, kinds),
    });
    Table { configuration, order: Order::Little, templates: templates.collect() }
}

/// A key of each type, from any of them on round to it again, now and then with disabled ones between.
fn keys_of(random: &mut Random, kinds: &[u16]) -> Vec<Key> {
    let (before, after) = kinds.split_at(random.below(kinds.len()));
    let disabled_once_in = *random.pick(&[6, 1_000, 1_000]);
    let key = |(id, kind): (u32, &u16)| Key { id, kind: *kind, disabled: random.once_in(disabled_once_in) };
    (1..).zip(after.iter().chain(before)).map(key).collect()
}

/// A put, every other one of a valid record, else of one in the wrong order or with another fault. Then what makes room
/// again.
fn step(session: &mut Session) {
    let template = session.any_template();
    let wanted = match session.random.below(6) {
        0 => session.random.between(256, 1_024),
        1 => session.random.between(1_020, 1_030),
        _ => session.random.below(160),
    };
    let (random, order) = (&mut session.random, session.table.order);
    let mut fields = records::fields(random, &template, wanted);
    records::set_to_limits(random, &mut fields);
    let record = match random.below(8) {
        0..=3 => records::join(order, &fields),
        4..=6 => records::wrong_order(random, order, &fields),
        _ => records::damaged(random, order, &template, wanted),
    };
    session.add(Event::put(template.id, &record));
    if session.random.once_in(2) {
        actions::step(session, &BETWEEN);
    }
    if session.exporter().queue.len() > 40 {
        (0..40).for_each(|_| session.add(Event::next()));
        let reached = session.exporter().reached;
        actions::ack_count(session, reached);
    }
}
