//! Tapes about tables and records: sound tables of every shape, damaged ones, and records under them.

use super::actions::{self, Mix, TYPICAL};
use super::session::Session;
use super::sessions::run;
use super::{random_of, records, settings, tables};
use crate::tables::{field_type, Key, Table, Template, FIELD_TYPES, MAX_KEYS, MAX_TEMPLATES};
use crate::tape::{self, Event};

pub fn table_tapes(profile: usize, seed: u64) -> Vec<u8> {
    let mut random = random_of(profile, seed);
    let settings = settings(&mut random);
    let table = match random.below(6) {
        0 => tables::largest(&mut random, settings.configuration),
        1 => tables::sound(&mut random, settings.configuration, 1, 1),
        2 => tables::sound(&mut random, settings.configuration, 1, MAX_KEYS),
        3 => tables::sound(&mut random, settings.configuration, MAX_TEMPLATES, 4),
        _ => tables::sound(&mut random, settings.configuration, MAX_TEMPLATES, MAX_KEYS),
    };
    let mut session = Session::new(random, settings, table).limit(60);
    session.bring_up(0);
    run(session, &Mix { put: 40, next: 40, odd_put: 10, bring_up: 1, step_up: 1, record_octets: 300, ..TYPICAL })
}

/// A table with one damage, or of another configuration, or just sound; then a short session.
pub fn damaged_tables(profile: usize, seed: u64) -> Vec<u8> {
    let mut random = random_of(profile, seed);
    let settings = settings(&mut random);
    let most_keys = *random.pick(&[1, 3, MAX_KEYS]);
    let table = tables::sound(&mut random, settings.configuration, MAX_TEMPLATES, most_keys);
    let choice = (seed % (tables::DAMAGES.len() as u64 + 2)) as usize;
    let octets = match tables::DAMAGES.get(choice) {
        Some(damage) => (damage.apply)(&mut random, table.clone()),
        None if choice == tables::DAMAGES.len() => {
            let other = settings.configuration ^ (1 << random.below(8));
            Table { configuration: other, ..table.clone() }.octets()
        }
        None => table.octets(),
    };
    let mut session = Session::new(random, settings, table).limit(12);
    session.bring_up(0);
    while session.goes_on() {
        actions::step(&mut session, &TYPICAL);
    }
    let mut events = session.events();
    events[1] = Event::table(octets);
    tape::build(&events)
}

/// A table with one key of a certain type, each in its turn, and records under it.
pub fn types(profile: usize, seed: u64) -> Vec<u8> {
    let mut random = random_of(profile, seed);
    let settings = settings(&mut random);
    let listed = FIELD_TYPES.iter().map(|kind| kind.number);
    let kinds: Vec<u16> = listed.chain(tables::UNLISTED_TYPES).collect();
    let kind = kinds[(seed % kinds.len() as u64) as usize];
    let key = Key { id: random.number() as u32, kind, disabled: random.once_in(8) };
    let template = Template { id: random.number() as u16, description: Vec::new(), keys: vec![key] };
    let order = tables::order(&random, 2);
    let table = Table { configuration: settings.configuration, order, templates: vec![template.clone()] };
    let mut events = vec![Event::settings(&settings), Event::table(table.octets())];
    for _ in 0..12 {
        let wanted = random.below(12);
        let record = if random.once_in(3) || field_type(kind).is_none() {
            random.octets(wanted)
        } else {
            records::damaged(&mut random, order, &template, wanted)
        };
        events.push(Event::put(template.id, &record));
        if field_type(kind).is_some() {
            events.push(Event::put(template.id, &records::valid(&mut random, order, &template, wanted)));
        }
    }
    tape::build(&events)
}

/// Puts and nothing else but what makes room for more.
pub fn record_tapes(profile: usize, seed: u64) -> Vec<u8> {
    let mut random = random_of(profile, seed);
    let mut settings = settings(&mut random);
    settings.store = 65_536;
    let most_keys = *random.pick(&[2, 5, 12]);
    let table = tables::sound(&mut random, settings.configuration, MAX_TEMPLATES, most_keys);
    let mut session = Session::new(random, settings, table).limit(400);
    session.bring_up(0);
    while session.goes_on() && session.body_octets_left() > 0 {
        if session.exporter().queue.len() == 64 {
            (0..64).for_each(|_| session.add(Event::next()));
            let server = session.exporter().active.unwrap_or(0);
            session.ack(server, session.dsn_releasing(64));
        }
        let template = session.any_template();
        let wanted = session.random.below(60);
        let record = match session.random.below(3) {
            0 => records::valid(&mut session.random, session.table.order, &template, wanted),
            _ => records::damaged(&mut session.random, session.table.order, &template, wanted),
        };
        session.add(Event::put(template.id, &record));
    }
    session.tape()
}
