//! Messages that no honest server sends: random octets, and sound messages with a few octets changed.

use super::session::Session;
use crate::messages::{self, MessageParts};
use crate::random::Random;
use crate::tape::Event;

/// A hostile message from any server octet.
pub fn message(session: &mut Session) {
    let server = if session.random.once_in(6) { session.random.octet() } else { session.any_server() };
    let octets = match session.random.below(5) {
        0 => random_octets(&mut session.random),
        1 => random_body(session),
        _ => changed(session),
    };
    session.add(Event::message(server, octets));
}

/// Octets without any plan, now and then many.
fn random_octets(random: &mut Random) -> Vec<u8> {
    let count = if random.once_in(20) { random.below(2_000) } else { random.below(24) };
    random.octets(count)
}

/// A sound header before a body without plan, also of message numbers that are not known.
fn random_body(session: &mut Session) -> Vec<u8> {
    let random = &mut session.random;
    let number = if random.once_in(3) { random.octet() } else { *random.pick(&messages::KNOWN) };
    let count = *random.pick(&[0, 1, 3, 4, 5, 7, 8, 9, 12, 16, 40]);
    let body = random.octets(count);
    MessageParts { flags: random.octet(), ..MessageParts::new(number, session.settings.session, body) }.octets()
}

/// A sound message with a few bits flipped, octets lost, doubled or added. Flags and reserved octets are free, so
/// some are accepted.
fn changed(session: &mut Session) -> Vec<u8> {
    let mut octets = honest(session);
    let random = &mut session.random;
    let place = random.below(octets.len());
    match random.below(6) {
        0 => octets[place] ^= 1 << random.below(8),
        1 => octets[place] = random.octet(),
        2 => octets.truncate(place),
        3 => octets.extend(random.octets(3)),
        4 => octets.insert(place, octets[place]),
        _ => octets[3] = random.octet(),
    }
    if random.once_in(3) && octets.len() >= messages::HEADER_OCTETS {
        let length = (octets.len() as u32).to_be_bytes();
        octets[4..8].copy_from_slice(&length);
    }
    octets
}

/// A message that would often be accepted.
fn honest(session: &mut Session) -> Vec<u8> {
    let (own, configuration) = (session.settings.session, session.settings.configuration);
    let dsn = session.dsn_releasing(session.exporter().reached as u32);
    let parts = match session.random.below(6) {
        0 => MessageParts::bare(messages::START, own),
        1 => MessageParts::bare(messages::STOP, own),
        2 => MessageParts::bare(messages::START_NEGOTIATE, own),
        3 => MessageParts::final_tmpl_data_ack(own, configuration),
        4 => MessageParts::data(own, 3, configuration, 1, dsn, &[0, 5]),
        _ => MessageParts::data_ack(own, dsn, configuration),
    };
    parts.octets()
}
