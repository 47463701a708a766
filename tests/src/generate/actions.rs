//! What can happen next in a session, chosen by weights that suit the profile and carried out with an eye on the
//! exporter's state.

use super::records;
use super::session::Session;
use crate::messages::{self, MessageParts};
use crate::model::exporter::ServerState;
use crate::tape::Event;

/// How often each kind of step is taken. A weight of 0 leaves it out.
#[derive(Clone, Copy)]
pub struct Mix {
    pub put: usize,
    pub next: usize,
    /// An acknowledgement by the active server of some or all that it was sent.
    pub ack: usize,
    /// An acknowledgement by the active server that asks for everything again.
    pub again: usize,
    /// An acknowledgement that is wrong by a little, or comes from another server.
    pub odd_ack: usize,
    /// A server goes a step towards being agreed.
    pub step_up: usize,
    /// A server goes all the way.
    pub bring_up: usize,
    pub start: usize,
    pub stop: usize,
    pub down: usize,
    pub negotiate: usize,
    /// An offer or a final acknowledgement whatever the server's state.
    pub out_of_turn: usize,
    pub tick: usize,
    /// Ticks until the timer has run out.
    pub ticks: usize,
    /// A put that is refused for its template, its length or its fields.
    pub odd_put: usize,
    /// The most octets of a record.
    pub record_octets: usize,
}

/// A session that runs well: puts, data, acknowledgements, now and then a change of servers.
pub const TYPICAL: Mix = Mix {
    put: 30,
    next: 30,
    ack: 14,
    again: 2,
    odd_ack: 2,
    step_up: 8,
    bring_up: 3,
    start: 1,
    stop: 1,
    down: 1,
    negotiate: 1,
    out_of_turn: 2,
    tick: 8,
    ticks: 3,
    odd_put: 2,
    record_octets: 60,
};

/// Takes one step.
pub fn step(session: &mut Session, mix: &Mix) {
    let nobody = session.exporter().active.is_none();
    // Without an active server most other steps are idle.
    let (step_up, bring_up) = if nobody { (mix.step_up * 2, mix.bring_up * 6) } else { (mix.step_up, mix.bring_up) };
    let weights = [
        mix.put,
        mix.next,
        mix.ack,
        mix.again,
        mix.odd_ack,
        step_up,
        bring_up,
        mix.start,
        mix.stop,
        mix.down,
        mix.negotiate,
        mix.out_of_turn,
        mix.tick,
        mix.ticks,
        mix.odd_put,
    ];
    match session.random.weighted(&weights) {
        0 => put(session, mix.record_octets),
        1 => next(session),
        2 => ack(session),
        3 => ack_count(session, 0),
        4 => odd_ack(session),
        5 => step_up_one(session),
        6 => bring_up_one(session),
        7 => start(session),
        8 => stop(session),
        9 => down(session),
        10 => negotiate(session),
        11 => out_of_turn(session),
        12 => session.add(Event::tick()),
        13 => ticks(session),
        _ => odd_put(session, mix.record_octets),
    }
}

/// A valid record; where the table lets lengths vary, of 0 to `most` octets.
pub fn put(session: &mut Session, most: usize) {
    let template = session.any_template();
    let wanted = session.random.between(0, most);
    let record = records::valid(&mut session.random, session.table.order, &template, wanted);
    session.add(Event::put(template.id, &record));
}

/// A put with one thing wrong.
pub fn odd_put(session: &mut Session, most: usize) {
    let template = session.any_template();
    let wanted = session.random.between(0, most);
    match session.random.below(4) {
        0 => {
            let id = session.no_template();
            let record = records::valid(&mut session.random, session.table.order, &template, wanted);
            session.add(Event::put(id, &record));
        }
        1 => {
            let wanted = session.random.between(1_020, 1_030);
            let record = records::valid(&mut session.random, session.table.order, &template, wanted);
            session.add(Event::put(template.id, &record));
        }
        _ => {
            let record = records::damaged(&mut session.random, session.table.order, &template, wanted);
            session.add(Event::put(template.id, &record));
        }
    }
}

/// One or several data messages.
fn next(session: &mut Session) {
    for _ in 0..session.random.between(1, 3) {
        session.add(Event::next());
    }
}

/// The active server acknowledges some of what it was sent: one record, all, or any number.
fn ack(session: &mut Session) {
    let reached = session.exporter().reached;
    let count = match session.random.below(4) {
        0 => reached.min(1),
        1 => reached,
        _ => session.random.between(0, reached),
    };
    ack_count(session, count);
}

/// The active server acknowledges that many of the held records.
pub fn ack_count(session: &mut Session, count: usize) {
    if let Some(server) = session.exporter().active {
        let dsn = session.dsn_releasing(count as u32);
        session.ack(server, dsn);
    }
}

/// An acknowledgement just beyond what was reached or held, far off, of another configuration, or from a server that
/// is not active.
pub fn odd_ack(session: &mut Session) {
    let exporter = session.exporter();
    let (reached, held, sent) = (exporter.reached, exporter.queue.len(), exporter.sent);
    let server = session.exporter().active.unwrap_or(0);
    let far = session.random.number() as u32;
    let count = *session.random.pick(&[
        reached as u32 + 1,
        held as u32,
        held as u32 + 1,
        sent as u32 + 1,
        u32::MAX,
        64,
        65,
        1 << 31,
        far,
    ]);
    let dsn = session.dsn_releasing(count);
    match session.random.below(4) {
        0 => {
            let server = session.any_server();
            session.ack(server, dsn);
        }
        1 => {
            let other = session.settings.configuration ^ (1 << session.random.below(8));
            let parts = MessageParts::data_ack(session.settings.session, dsn, other);
            session.message(server, &parts);
        }
        _ => session.ack(server, dsn),
    }
}

/// A server that is not agreed goes a step; if all are, any begins anew.
fn step_up_one(session: &mut Session) {
    let server = match session.server_where(|state| state != ServerState::Agreed) {
        Some(server) => server,
        None => session.any_server(),
    };
    session.step_up(server);
}

fn bring_up_one(session: &mut Session) {
    if let Some(server) = session.server_where(|state| state != ServerState::Agreed) {
        session.bring_up(server);
    }
}

/// START from any server, the active one included.
fn start(session: &mut Session) {
    let server = session.any_server();
    bare(session, server, messages::START);
}

/// STOP, often from a late or an offered server; half the time something follows that a closed server may not do.
fn stop(session: &mut Session) {
    let late = session.server_where(|state| state == ServerState::Late);
    let offered = session.server_where(|state| state == ServerState::Offered);
    let any = session.any_server();
    let server = match session.random.below(4) {
        0 | 1 => late.unwrap_or(any),
        2 => offered.unwrap_or(any),
        _ => any,
    };
    bare(session, server, messages::STOP);
    match session.random.below(4) {
        0 => session.add(Event::offer(server)),
        1 => bare(session, server, messages::START_NEGOTIATE),
        _ => {}
    }
}

/// A message without a body.
fn bare(session: &mut Session, server: u8, number: u8) {
    let parts = MessageParts::bare(number, session.settings.session);
    session.message(server, &parts);
}

fn down(session: &mut Session) {
    let server = session.any_server();
    session.add(Event::down(server));
}

/// START NEGOTIATE, mostly from a server that may send it; a late one where there is one.
fn negotiate(session: &mut Session) {
    let late = session.server_where(|state| state == ServerState::Late);
    let open = session.server_where(|state| state != ServerState::Closed);
    let any = session.any_server();
    let server = match session.random.below(4) {
        0 => any,
        1 => late.or(open).unwrap_or(any),
        _ => open.unwrap_or(any),
    };
    bare(session, server, messages::START_NEGOTIATE);
}

fn out_of_turn(session: &mut Session) {
    let server = session.any_server();
    if session.random.once_in(2) {
        session.add(Event::offer(server));
    } else {
        let parts = MessageParts::final_tmpl_data_ack(session.settings.session, session.settings.configuration);
        session.message(server, &parts);
    }
}

/// Ticks up to the one that runs the timer out, or one short of it, or one past it.
fn ticks(session: &mut Session) {
    let left = usize::from(session.settings.duration - session.exporter().timer);
    let count = match session.random.below(4) {
        0 => left - 1,
        1 => left + 1,
        _ => left,
    };
    for _ in 0..count.min(24) {
        session.add(Event::tick());
    }
}
