//! Tapes about the end of the store: records that end there, begin there and cross it by any number of octets.

use super::actions::{self, Mix, TYPICAL};
use super::session::Session;
use super::{random_of, records, settings, tables};
use crate::model::exporter::MOST_RECORDS;
use crate::model::message::MAX_RECORD_OCTETS;
use crate::tables::{Key, Order, Table, Template, BLOB, UNSIGNED16, UNSIGNED8, ZERO_STRING};
use crate::tape::Event;

/// Store lengths, each in its turn. A tape has too few octets to reach the end of the last.
const STORES: [u32; 14] =
    [1_024, 1_025, 1_024, 1_026, 1_024, 1_100, 1_024, 1_500, 2_047, 2_048, 4_096, 10_000, 25_000, 65_536];

/// What happens between the puts. No agreed server stops or starts anew, so there is always an active one.
const BETWEEN: Mix =
    Mix { put: 0, step_up: 0, start: 0, stop: 0, down: 0, negotiate: 0, out_of_turn: 0, odd_put: 0, ..TYPICAL };

pub fn ring_edges(profile: usize, seed: u64) -> Vec<u8> {
    let mut random = random_of(profile, seed);
    let mut settings = settings(&mut random);
    settings.store = STORES[(seed % STORES.len() as u64) as usize];
    settings.servers = random.between(1, 2) as u8;
    let table = table_of_lengths(settings.configuration, tables::order(&random, 4));
    let mut session = Session::new(random, settings, table).limit(350);
    session.bring_up(0);
    while session.events_left() > MOST_RECORDS && session.body_octets_left() > MAX_RECORD_OCTETS {
        step(&mut session);
    }
    send_all(&mut session);
    session.tape()
}

/// Templates whose records have no octets, one, two, any number from one on, and any number from four on.
fn table_of_lengths(configuration: u8, order: Order) -> Table {
    let kinds = [(BLOB, true), (UNSIGNED8, false), (UNSIGNED16, false), (ZERO_STRING, false), (BLOB, false)];
    let template =
        |(id, (kind, disabled))| Template { id, description: Vec::new(), keys: vec![Key { id: 1, kind, disabled }] };
    Table { configuration, order, templates: (1..).zip(kinds).map(template).collect() }
}

/// A put near the end of the store. Where it finds no room, room is made, at times after one octet too many is put.
fn step(session: &mut Session) {
    let octets = record_octets(session);
    let exporter = session.exporter();
    let free = exporter.store_length - exporter.held_octets();
    if octets > free && session.random.once_in(4) {
        put(session, free + 1);
    }
    if octets > free || session.exporter().queue.len() == MOST_RECORDS {
        make_room(session, octets);
    }
    put(session, octets);
    if session.random.once_in(2) {
        actions::step(session, &BETWEEN);
    }
}

/// The octets of the next record: up to the end of the store, a little fewer or more, all that are free, or very few
/// or many.
fn record_octets(session: &mut Session) -> usize {
    let exporter = session.exporter();
    let to_end = exporter.store_length - exporter.next_place();
    let free = exporter.store_length - exporter.held_octets();
    let few = session.random.between(2, 40);
    let octets = match session.random.below(10) {
        0 | 1 => to_end,
        2 | 3 => to_end + 1,
        4 => to_end - 1,
        5 => to_end.saturating_sub(few),
        6 => to_end + few,
        7 => free,
        8 => session.random.below(3),
        _ => session.random.between(MAX_RECORD_OCTETS - 1, MAX_RECORD_OCTETS),
    };
    octets.min(MAX_RECORD_OCTETS)
}

/// A put of a record of that many octets; four or more are a string or a blob.
fn put(session: &mut Session, octets: usize) {
    let template = session.table.templates[octets.min(session.random.between(3, 4))].clone();
    let record = records::valid(&mut session.random, session.table.order, &template, octets);
    session.add(Event::put(template.id, &record));
}

/// DATA of every record that is not sent.
fn send_all(session: &mut Session) {
    for _ in session.exporter().sent..session.exporter().queue.len() {
        session.add(Event::next());
    }
}

/// Everything is sent, and the fewest records are acknowledged that leave room for another of that many octets.
fn make_room(session: &mut Session, octets: usize) {
    send_all(session);
    let exporter = session.exporter();
    let needed = (exporter.held_octets() + octets).saturating_sub(exporter.store_length);
    let count = (1..=exporter.queue.len()).find(|count| exporter.octets_before(*count) >= needed);
    actions::ack_count(session, count.unwrap_or(0));
}
