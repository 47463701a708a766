//! Events with one or two faults, so that every refusal is met and the order of refusals shows.

use super::records;
use super::session::Session;
use crate::messages::{self, MessageParts};
use crate::model::exporter::ServerState;
use crate::tables::{Template, BLOB, STRING};
use crate::tape::Event;

/// What can be wrong with a received message, in the order in which the answers are judged.
#[derive(Clone, Copy, Debug, PartialEq, Eq)]
pub enum Fault {
    Server,
    Short,
    Version,
    Length,
    Session,
    Number,
    Body,
    Turn,
    Configuration,
    Dsn,
}

pub const FAULTS: [Fault; 10] = [
    Fault::Server,
    Fault::Short,
    Fault::Version,
    Fault::Length,
    Fault::Session,
    Fault::Number,
    Fault::Body,
    Fault::Turn,
    Fault::Configuration,
    Fault::Dsn,
];

/// A message with the given faults, and with no other where the exporter's state allows.
pub fn faulty_message(session: &mut Session, faults: &[Fault]) {
    let number = message_number(session, faults);
    let mut server = sender(session, number, faults.contains(&Fault::Turn));
    let mut parts = sound_message(session, number);
    let mut cut = None;
    for fault in faults {
        match fault {
            Fault::Server => server = session.no_server(),
            Fault::Short => cut = Some(session.random.below(messages::HEADER_OCTETS)),
            Fault::Version => parts.version = *session.random.pick(&[0, 2, 255, 129]),
            Fault::Length => parts.length = Some(wrong_length(session, &parts)),
            Fault::Session => parts.session ^= *session.random.pick(&[1, 128, 255, 6]),
            Fault::Number => {
                parts.number =
                    *session.random.pick(&[0x02, 0x04, 0x10, 0x19, 0x20, 0x00, 0x11, 0x12, 0x14, 0x22, 0x81, 0xff])
            }
            Fault::Body => damage_body(session, &mut parts),
            Fault::Configuration => damage_configuration(session, &mut parts),
            Fault::Dsn => spoil_dsn(session, &mut parts),
            // The sender was chosen for it.
            Fault::Turn => {}
        }
    }
    let mut octets = parts.octets();
    octets.truncate(cut.unwrap_or(octets.len()));
    session.add(Event::message(server, octets));
}

/// The message on which the faults can show.
fn message_number(session: &mut Session, faults: &[Fault]) -> u8 {
    if faults.contains(&Fault::Dsn) {
        return messages::DATA_ACK;
    }
    if faults.contains(&Fault::Configuration) {
        return *session.random.pick(&[messages::DATA_ACK, messages::FINAL_TMPL_DATA_ACK]);
    }
    if faults.contains(&Fault::Turn) {
        return *session.random.pick(&[messages::DATA_ACK, messages::FINAL_TMPL_DATA_ACK, messages::START_NEGOTIATE]);
    }
    *session.random.pick(&[
        messages::START,
        messages::STOP,
        messages::FINAL_TMPL_DATA_ACK,
        messages::START_NEGOTIATE,
        messages::DATA_ACK,
    ])
}

/// A server whose turn it is to send that message, or one whose turn it is not; any, if there is no such server.
fn sender(session: &mut Session, number: u8, out_of_turn: bool) -> u8 {
    let active = session.exporter().active;
    let in_turn: Vec<u8> = match number {
        messages::DATA_ACK => active.into_iter().collect(),
        messages::FINAL_TMPL_DATA_ACK => session.servers_where(|state| state == ServerState::Offered),
        messages::START_NEGOTIATE => session.servers_where(|state| state != ServerState::Closed),
        _ => session.servers_where(|_| true),
    };
    let wanted: Vec<u8> =
        (0..session.settings.servers).filter(|server| in_turn.contains(server) != out_of_turn).collect();
    if wanted.is_empty() {
        session.any_server()
    } else {
        *session.random.pick(&wanted)
    }
}

/// The message as its sender should send it.
fn sound_message(session: &mut Session, number: u8) -> MessageParts {
    let (own, configuration) = (session.settings.session, session.settings.configuration);
    match number {
        messages::FINAL_TMPL_DATA_ACK => MessageParts::final_tmpl_data_ack(own, configuration),
        messages::DATA_ACK => {
            let reached = session.exporter().reached;
            let count = session.random.between(0, reached);
            MessageParts::data_ack(own, session.dsn_releasing(count as u32), configuration)
        }
        _ => MessageParts::bare(number, own),
    }
}

fn wrong_length(session: &mut Session, parts: &MessageParts) -> u32 {
    let length = parts.octets().len() as u32;
    *session.random.pick(&[
        length + 1,
        length - 1,
        0,
        length + 256,
        length | 1 << 31,
        length.swap_bytes(),
        u32::MAX,
        length - 8,
    ])
}

/// A body that is longer or shorter than it should be.
fn damage_body(session: &mut Session, parts: &mut MessageParts) {
    let few = *session.random.pick(&[1, 1, 2, 4, 8]);
    let length = parts.body.len();
    if length == 0 || session.random.once_in(2) {
        parts.body.extend(session.random.octets(few));
    } else {
        parts.body.truncate(length - few.min(length));
    }
}

/// Another Configuration ID in the body, wherever it stands there.
fn damage_configuration(session: &mut Session, parts: &mut MessageParts) {
    let place = if parts.number == messages::FINAL_TMPL_DATA_ACK { 0 } else { 4 };
    let bit = 1 << session.random.below(8);
    if let Some(octet) = parts.body.get_mut(place) {
        *octet ^= bit;
    }
}

/// A DSN that cannot be acknowledged.
fn spoil_dsn(session: &mut Session, parts: &mut MessageParts) {
    let exporter = session.exporter();
    let (reached, held) = (exporter.reached as u32, exporter.queue.len() as u32);
    let most = if held > reached { held } else { reached + 1 };
    let count = *session.random.pick(&[reached + 1, most, reached + 64, u32::MAX, 1 << 31]);
    if parts.body.len() >= 4 {
        let dsn = session.dsn_releasing(count);
        parts.body[..4].copy_from_slice(&dsn.to_be_bytes());
    }
}

/// What can be wrong with the arguments of a put. That 64 records are held or the store is full is a matter of the
/// state.
#[derive(Clone, Copy, Debug, PartialEq, Eq)]
pub enum PutFault {
    Template,
    Long,
    Invalid,
}

pub const PUT_FAULTS: [&[PutFault]; 8] = [
    &[],
    &[PutFault::Template],
    &[PutFault::Long],
    &[PutFault::Invalid],
    &[PutFault::Template, PutFault::Long],
    &[PutFault::Template, PutFault::Invalid],
    &[PutFault::Long, PutFault::Invalid],
    &[PutFault::Template, PutFault::Long, PutFault::Invalid],
];

/// A put with the given faults.
pub fn faulty_put(session: &mut Session, faults: &[PutFault], octets: usize) {
    let template = if faults.contains(&PutFault::Long) { long_template(session) } else { session.any_template() };
    let wanted = if faults.contains(&PutFault::Long) { session.random.between(1_025, 1_100) } else { octets };
    let (random, order) = (&mut session.random, session.table.order);
    let record = if faults.contains(&PutFault::Invalid) {
        records::damaged(random, order, &template, wanted + 9)
    } else {
        records::valid(random, order, &template, wanted)
    };
    let id = if faults.contains(&PutFault::Template) { session.no_template() } else { template.id };
    session.add(Event::put(id, &record));
}

/// A template that lets a record be long, if the table has one.
fn long_template(session: &mut Session) -> Template {
    let is_long =
        |template: &&Template| template.keys.iter().any(|key| !key.disabled && matches!(key.kind, BLOB | STRING));
    let long: Vec<Template> = session.table.templates.iter().filter(is_long).cloned().collect();
    if long.is_empty() {
        session.any_template()
    } else {
        session.random.pick(&long).clone()
    }
}

/// Offers, line downs and other events that name a server that is not there, or one whose turn it is not.
pub fn faulty_server(session: &mut Session) {
    let server = session.no_server();
    match session.random.below(4) {
        0 => session.add(Event::offer(server)),
        1 => session.add(Event::down(server)),
        2 => {
            let parts = MessageParts::bare(messages::START, session.settings.session);
            session.message(server, &parts);
        }
        _ => {
            let busy = session.server_where(|state| !matches!(state, ServerState::Started | ServerState::Offered));
            session.add(Event::offer(busy.unwrap_or(server)));
        }
    }
}
