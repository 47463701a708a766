//! Tapes about servers, the queue and the order of answers.

use super::actions::{self, Mix, TYPICAL};
use super::session::Session;
use super::{everyday_session, faults, hostile, random_of, records, set_servers, settings, tables};
use crate::model::exporter::MAX_SERVERS;
use crate::model::replay::SHORT_FORM_PRIORITIES;
use crate::tables::{Key, Order, Table, Template, BLOB, MAX_KEYS, MAX_TEMPLATES};
use crate::tape::{Event, MAX_EVENTS};

/// Takes steps until the tape is full.
pub fn run(mut session: Session, mix: &Mix) -> Vec<u8> {
    while session.goes_on() && session.body_octets_left() > 0 {
        actions::step(&mut session, mix);
    }
    session.tape()
}

pub fn sessions(profile: usize, seed: u64) -> Vec<u8> {
    let mut session = everyday_session(random_of(profile, seed));
    let most = session.random.between(20, 400);
    session.bring_up(0);
    run(session.limit(most), &TYPICAL)
}

pub fn takeovers(profile: usize, seed: u64) -> Vec<u8> {
    let mut random = random_of(profile, seed);
    let mut settings = settings(&mut random);
    let most = *random.pick(&[SHORT_FORM_PRIORITIES, SHORT_FORM_PRIORITIES, MAX_SERVERS]);
    set_servers(&mut settings, random.between(2, most));
    settings.threshold = *random.pick(&[1, 1, 2, 3]);
    settings.duration = *random.pick(&[1, 2, 3]);
    let table = tables::everyday(&mut random, settings.configuration);
    let most = random.between(60, 500);
    let mix = Mix {
        put: 14,
        next: 26,
        ack: 6,
        step_up: 12,
        bring_up: 10,
        start: 2,
        stop: 2,
        down: 2,
        ticks: 12,
        record_octets: 10,
        ..TYPICAL
    };
    run(Session::new(random, settings, table).limit(most), &mix)
}

pub fn resends(profile: usize, seed: u64) -> Vec<u8> {
    let mut random = random_of(profile, seed);
    let mut settings = settings(&mut random);
    settings.servers = random.between(1, 2) as u8;
    settings.threshold = *random.pick(&[1, 2, 3, 4]);
    settings.duration = *random.pick(&[1, 2, 4]);
    let table = tables::everyday(&mut random, settings.configuration);
    let most = random.between(60, 400);
    let mut session = Session::new(random, settings, table).limit(most);
    session.bring_up(0);
    run(
        session,
        &Mix { again: 8, odd_ack: 6, ticks: 10, start: 0, stop: 0, negotiate: 0, record_octets: 16, ..TYPICAL },
    )
}

pub fn ring(profile: usize, seed: u64) -> Vec<u8> {
    let mut random = random_of(profile, seed);
    let mut settings = settings(&mut random);
    let any = random.between(1_024, 65_536) as u32;
    settings.store =
        *random.pick(&[1_024, 1_024, 1_025, 1_027, 1_500, 2_048, 3_000, 4_096, 8_192, 16_384, 65_535, 65_536, any]);
    settings.servers = random.between(1, 3) as u8;
    let table = blob_table(settings.configuration, tables::order(&random, 4));
    let octets = *random.pick(&[40, 200, 200, 600, 1_024]);
    let mut session = Session::new(random, settings, table);
    session.bring_up(0);
    run(
        session,
        &Mix { put: 40, next: 40, ack: 26, stop: 0, down: 0, start: 0, odd_put: 0, record_octets: octets, ..TYPICAL },
    )
}

/// Three templates with a blob, and one whose only record is the empty one.
fn blob_table(configuration: u8, order: Order) -> Table {
    let template =
        |id, disabled| Template { id, description: Vec::new(), keys: vec![Key { id: 1, kind: BLOB, disabled }] };
    Table {
        configuration,
        order,
        templates: vec![template(1, false), template(2, false), template(3, false), template(4, true)],
    }
}

pub fn dsn_wrap(profile: usize, seed: u64) -> Vec<u8> {
    let mut random = random_of(profile, seed);
    let mut settings = settings(&mut random);
    settings.first_dsn = u32::MAX - random.below(12) as u32;
    settings.servers = random.between(1, 3) as u8;
    let table = tables::everyday(&mut random, settings.configuration);
    let most = random.between(40, 300);
    let mut session = Session::new(random, settings, table).limit(most);
    session.bring_up(0);
    run(session, &Mix { odd_ack: 10, again: 4, ack: 8, record_octets: 12, ..TYPICAL })
}

pub fn full(profile: usize, seed: u64) -> Vec<u8> {
    let mut random = random_of(profile, seed);
    let mut settings = settings(&mut random);
    // 64 records of 16 octets fill the smallest store exactly; other lengths fill one limit first.
    settings.store = *random.pick(&[1_024, 1_024, 1_030, 2_000, 4_096]);
    settings.threshold = *random.pick(&[1, 2, 32, 63, 64]);
    let table = blob_table(settings.configuration, tables::order(&random, 4));
    let octets = *random.pick(&[16, 16, 4, 20, 31, 64, 200, 1_024]);
    let mut session = Session::new(random, settings, table);
    session.bring_up(0);
    while session.exporter().queue.len() < 64
        && session.exporter().held_octets() + octets <= session.exporter().store_length
    {
        let (order, template) = (session.table.order, session.table.templates[0].clone());
        let record = records::valid(&mut session.random, order, &template, octets);
        session.add(Event::put(1, &record));
        if session.random.once_in(2) {
            session.add(Event::next());
        }
    }
    while session.goes_on() && session.body_octets_left() > 0 {
        full_step(&mut session, octets);
    }
    session.tape()
}

/// Around a full queue or store: puts that just fit or just do not, with faults or without, and small releases.
fn full_step(session: &mut Session, octets: usize) {
    let left = session.exporter().store_length - session.exporter().held_octets();
    let faults = *session.random.pick(&faults::PUT_FAULTS);
    match session.random.below(8) {
        0 => put_blob(session, left),
        1 => put_blob(session, left + 1),
        2 => session.add(Event::put(4, &[])),
        3 => put_blob(session, octets),
        4 | 5 => faults::faulty_put(session, faults, octets),
        _ => actions::step(
            session,
            &Mix { put: 4, ack: 4, next: 20, stop: 0, down: 0, start: 0, record_octets: octets, ..TYPICAL },
        ),
    }
}

/// A put of a blob record of that many octets; at least its length, at most what a put may have.
fn put_blob(session: &mut Session, octets: usize) {
    let template = session.table.templates[0].clone();
    let record = records::valid(&mut session.random, session.table.order, &template, octets.clamp(4, 1_024));
    session.add(Event::put(template.id, &record));
}

pub fn refusals(profile: usize, seed: u64) -> Vec<u8> {
    fault_tape(profile, seed, |session| {
        let fault = *session.random.pick(&faults::FAULTS);
        faults::faulty_message(session, &[fault]);
    })
}

pub fn orders(profile: usize, seed: u64) -> Vec<u8> {
    fault_tape(profile, seed, |session| {
        let second = session.random.between(1, faults::FAULTS.len() - 1);
        let first = session.random.below(second);
        faults::faulty_message(session, &[faults::FAULTS[first], faults::FAULTS[second]]);
    })
}

/// A session in which faulty messages, puts and servers come between typical steps.
fn fault_tape(profile: usize, seed: u64, message: fn(&mut Session)) -> Vec<u8> {
    let mut session = everyday_session(random_of(profile, seed)).limit(300);
    session.bring_up(0);
    while session.goes_on() && session.body_octets_left() > 0 {
        match session.random.below(10) {
            0..=4 => message(&mut session),
            5 => {
                let faults = *session.random.pick(&faults::PUT_FAULTS);
                faults::faulty_put(&mut session, faults, 20);
            }
            6 => faults::faulty_server(&mut session),
            _ => actions::step(&mut session, &TYPICAL),
        }
    }
    session.tape()
}

pub fn hostile_tapes(profile: usize, seed: u64) -> Vec<u8> {
    let mut session = everyday_session(random_of(profile, seed)).limit(400);
    session.bring_up(0);
    while session.goes_on() && session.body_octets_left() > 0 {
        match session.random.below(4) {
            0 | 1 => hostile::message(&mut session),
            2 if session.random.once_in(4) => {
                let server = session.random.octet();
                let event = if session.random.once_in(2) { Event::offer(server) } else { Event::down(server) };
                session.add(event);
            }
            _ => actions::step(&mut session, &Mix { record_octets: 20, ..TYPICAL }),
        }
    }
    session.tape()
}

/// All 512 events and all 32,768 octets: a last message takes whatever the others left.
pub fn largest(profile: usize, seed: u64) -> Vec<u8> {
    let mut random = random_of(profile, seed);
    let settings = settings(&mut random);
    let table = match seed % 3 {
        0 => tables::largest(&mut random, settings.configuration),
        1 => tables::everyday(&mut random, settings.configuration),
        _ => tables::sound(&mut random, settings.configuration, MAX_TEMPLATES, MAX_KEYS),
    };
    let mut session = Session::new(random, settings, table).limit(MAX_EVENTS - 1);
    session.bring_up(0);
    while session.goes_on() {
        if session.body_octets_left() < 1_200 {
            let event = if session.random.once_in(3) { Event::tick() } else { Event::next() };
            session.add(event);
        } else {
            // Offers of the largest table would make the output very long.
            actions::step(
                &mut session,
                &Mix { step_up: 1, bring_up: 1, out_of_turn: 0, record_octets: 120, ..TYPICAL },
            );
        }
    }
    session = session.limit(MAX_EVENTS);
    let rest = session.body_octets_left();
    let octets = session.random.octets(rest);
    session.add(Event::message(0, octets));
    session.tape()
}
