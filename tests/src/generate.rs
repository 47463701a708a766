//! Seeded tapes. A tape is determined by its profile and its seed, and by nothing else.
//!
//! Each profile aims at one part of the rules. Sessions are made up with the model's exporter beside them
//! (`session`), so that most of their calls mean something: a server that was offered templates agrees, the active
//! one acknowledges what it was sent, and so on.

mod actions;
mod broken;
mod edges;
mod faults;
mod hostile;
mod layouts;
mod limits;
mod little;
#[cfg(test)]
mod mistakes;
pub mod records;
mod session;
mod sessions;
#[cfg(test)]
pub mod situations;
mod sixteen;
pub mod tables;

use crate::model::exporter::MAX_SERVERS;
use crate::model::replay::SHORT_FORM_PRIORITIES;
use crate::random::Random;
use crate::tape::{Form, Settings};
use session::Session;

/// A kind of tapes.
pub struct Profile {
    pub name: &'static str,
    /// How many of its tapes come in each round of a mixed run.
    weight: u64,
    pub what: &'static str,
    make: fn(usize, u64) -> Vec<u8>,
}

const fn profile(name: &'static str, weight: u64, what: &'static str, make: fn(usize, u64) -> Vec<u8>) -> Profile {
    Profile { name, weight, what, make }
}

pub const PROFILES: [Profile; 19] = [
    profile("sessions", 2, "typical sessions with one to sixteen servers", sessions::sessions),
    profile(
        "takeovers",
        2,
        "servers that come, go, turn late and take over, with few octets of data",
        sessions::takeovers,
    ),
    profile(
        "resends",
        2,
        "one or two servers, many resends before and after a first release, acknowledgements between sent and reached",
        sessions::resends,
    ),
    profile("ring", 2, "records of 0 to 1,024 octets that go round the store", sessions::ring),
    profile("ring-edges", 2, "records that end at the end of the store, begin there and cross it", edges::ring_edges),
    profile("dsn-wrap", 1, "sequence numbers that pass 4,294,967,295", sessions::dsn_wrap),
    profile("full", 2, "64 records held, the store full, and both", sessions::full),
    profile("refusals", 1, "one fault at a time, of every kind", sessions::refusals),
    profile("orders", 2, "two faults at a time", sessions::orders),
    profile("settings", 3, "settings of both forms at and past their limits", limits::tapes),
    profile("tables", 2, "sound tables of all field types and sizes, with records", layouts::table_tapes),
    profile("damaged-tables", 6, "tables with one damage", layouts::damaged_tables),
    profile("types", 2, "every field type, and numbers near those that are no type", layouts::types),
    profile("records", 1, "records, valid and damaged, under many templates", layouts::record_tapes),
    profile("damaged-tapes", 4, "tapes refused for one reason, and near misses", broken::tape),
    profile("hostile", 1, "damaged and random messages", sessions::hostile_tapes),
    profile("largest", 1, "512 events and 32,768 octets", sessions::largest),
    profile("little", 4, "little-endian tables of every field type, records in the wrong order", little::little),
    profile("sixteen", 5, "nine to sixteen servers, and settings refused for their servers", sixteen::sixteen),
];

/// How many tapes a run has if it is not told.
pub const DEFAULT_TAPES: u64 = 2_800;

/// Seeds that are run together: a run of seed S, which is 1 if it is not told, has the seeds from S times this on.
pub const SEEDS_APART: u64 = 1_000_000;

/// The profile of a tape in a mixed run, and which of that profile's tapes it is.
pub fn in_turn(index: u64) -> (usize, u64) {
    let in_a_round: u64 = PROFILES.iter().map(|profile| profile.weight).sum();
    let (round, mut place) = (index / in_a_round, index % in_a_round);
    for (number, profile) in PROFILES.iter().enumerate() {
        if place < profile.weight {
            return (number, round * profile.weight + place);
        }
        place -= profile.weight;
    }
    unreachable!("the place is below the sum of the weights")
}

/// The number of a profile, by its name.
pub fn profile_number(name: &str) -> Option<usize> {
    PROFILES.iter().position(|profile| profile.name == name)
}

/// The tape of a profile and a seed.
pub fn tape(profile: usize, seed: u64) -> Vec<u8> {
    (PROFILES[profile].make)(profile, seed)
}

/// The numbers that a tape is made from. They depend on the profile's name, not on its place in the list.
fn random_of(profile: usize, seed: u64) -> Random {
    let name = PROFILES[profile].name.bytes().fold(0u64, |sum, octet| sum.wrapping_mul(31).wrapping_add(octet.into()));
    Random::from_parts(&[name, seed])
}

/// Settings in their limits: few servers as often as many, ties among priorities, short durations. The form, and the
/// priorities that only the long form has, are drawn beside the source.
fn settings(random: &mut Random) -> Settings {
    let mut beside = random.beside(0xf02a);
    let mut priorities = [0; MAX_SERVERS];
    let span = *random.pick(&[1, 2, 3, 256]);
    let (short, more) = priorities.split_at_mut(SHORT_FORM_PRIORITIES);
    short.iter_mut().for_each(|priority| *priority = random.below(span) as u8);
    more.iter_mut().for_each(|priority| *priority = beside.below(span) as u8);
    let first_dsn = random.number() as u32;
    let servers = *random.pick(&[1, 1, 2, 2, 3, 4, 5, SHORT_FORM_PRIORITIES, MAX_SERVERS]);
    let mut settings = Settings {
        session: random.octet(),
        configuration: random.octet(),
        servers: 0,
        threshold: *random.pick(&[1, 1, 2, 3, 4, 8]),
        duration: *random.pick(&[1, 2, 3, 4, 5, 7]),
        store: random.between(1_024, 8_192) as u32,
        first_dsn: *random.pick(&[0, 1, 100, u32::MAX, first_dsn]),
        boot: random.number() as u32,
        form: *beside.pick(&Form::ALL),
        priorities,
    };
    set_servers(&mut settings, servers);
    settings
}

/// Changes the server count, and the form to the long one where the short one is too short for it.
fn set_servers(settings: &mut Settings, servers: usize) {
    settings.servers = servers as u8;
    if servers > settings.form.priorities() {
        settings.form = Form::Long;
    }
}

/// A session with an everyday table and settings in their limits.
fn everyday_session(mut random: Random) -> Session {
    let settings = settings(&mut random);
    let table = tables::everyday(&mut random, settings.configuration);
    Session::new(random, settings, table)
}

#[cfg(test)]
mod tests {
    use super::*;
    use crate::tables::{MAX_KEYS, MAX_TABLE_OCTETS, MAX_TEMPLATES};
    use crate::tape::MAX_TAPE_OCTETS;
    use crate::{model, text};

    #[test]
    fn a_tape_is_determined_by_profile_and_seed() {
        for (number, profile) in PROFILES.iter().enumerate() {
            assert_eq!(tape(number, 5), tape(number, 5));
            assert_ne!(tape(number, 46), tape(number, 93), "{}", profile.name);
        }
    }

    #[test]
    fn a_mixed_run_takes_each_tape_of_each_profile_once() {
        let mut counts = [0; PROFILES.len()];
        for index in 0..5_000 {
            let (number, round) = in_turn(index);
            assert_eq!(counts[number], round);
            counts[number] += 1;
        }
        assert!(counts.iter().all(|count| *count >= 100));
    }

    #[test]
    fn every_sound_tape_has_a_text_that_gives_it() {
        for (number, profile) in PROFILES.iter().enumerate() {
            for seed in 0..40 {
                let octets = tape(number, seed);
                let name = profile.name;
                match text::decode(&octets) {
                    Ok(text) => assert_eq!(text::encode(&text).as_ref(), Ok(&octets), "{name} {seed}"),
                    Err(_) => assert!(model::replay::read_tape(&octets).is_none(), "{name} {seed}"),
                }
            }
        }
    }

    #[test]
    fn the_largest_tapes_are_as_large_as_can_be() {
        let number = profile_number("largest").expect("a profile");
        for seed in 0..30 {
            let octets = tape(number, seed);
            assert_eq!((octets.len(), octets[0], octets[1]), (MAX_TAPE_OCTETS, 2, 0), "seed {seed}");
        }
    }

    #[test]
    fn every_damage_makes_a_table_unsound() {
        for (place, damage) in tables::DAMAGES.iter().enumerate() {
            for seed in 0..200 {
                let mut random = Random::from_parts(&[place as u64, seed]);
                let most_keys = random.between(1, MAX_KEYS);
                let table = tables::sound(&mut random, 1, MAX_TEMPLATES, most_keys);
                assert!(model::table::is_sound(&table.octets()));
                let octets = (damage.apply)(&mut random, table);
                assert!(!model::table::is_sound(&octets), "{}, seed {seed}", damage.name);
            }
        }
    }

    #[test]
    fn numbers_of_a_table_that_are_turned_make_it_unsound() {
        for (place, damage) in tables::TURNED_NUMBERS.iter().enumerate() {
            for seed in 0..200 {
                let mut random = Random::from_parts(&[place as u64, seed]);
                let table = tables::sound(&mut random, 1, MAX_TEMPLATES, MAX_KEYS);
                let octets = (damage.apply)(&mut random, table);
                assert!(!model::table::is_sound(&octets), "{}, seed {seed}", damage.name);
            }
        }
    }

    #[test]
    fn the_largest_table_is_sound_and_four_octets_more_are_not() {
        for seed in 0..50 {
            let mut random = Random::from_parts(&[seed]);
            let largest = tables::largest(&mut random, 1).octets();
            assert_eq!(largest.len(), MAX_TABLE_OCTETS);
            assert!(model::table::is_sound(&largest));
        }
    }

    #[test]
    fn valid_records_are_valid() {
        for seed in 0..500 {
            let mut random = Random::from_parts(&[seed]);
            let table = tables::sound(&mut random, 1, MAX_TEMPLATES, MAX_KEYS);
            let octets = table.octets();
            for template in &table.templates {
                let wanted = random.below(1_100);
                let record = records::valid(&mut random, table.order, template, wanted);
                assert_eq!(model::record::judge(&octets, template.id, &record), 0, "seed {seed}");
            }
        }
    }
}
