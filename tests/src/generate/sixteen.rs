//! Tapes with more servers than the short form of settings has priorities, up to the most that there can be.

use super::actions::{self, Mix, TYPICAL};
use super::session::Session;
use super::{random_of, set_servers, settings, tables};
use crate::messages::{self, MessageParts};
use crate::model::exporter::{ServerState, MAX_SERVERS};
use crate::model::replay::SHORT_FORM_PRIORITIES;
use crate::random::Random;
use crate::tape::{self, Event, Form, Settings};

/// What happens between the acts.
const BETWEEN: Mix =
    Mix { put: 14, next: 26, ack: 6, step_up: 12, bring_up: 10, ticks: 8, record_octets: 10, ..TYPICAL };

/// What a tape has beside what happens at random: the first by the seed, the others in any order.
const ACTS: [fn(&mut Session); 7] =
    [to_all, by_priority, late_one_after_another, negotiation, closing, alone, no_such_servers];

/// The kinds of tapes, which come round in turn.
const KINDS: u64 = 8;

/// Settings that are refused for their servers, sessions of few servers, and in half of the tapes sessions of many, among
/// them those of as many as there can be.
pub fn sixteen(profile: usize, seed: u64) -> Vec<u8> {
    let mut random = random_of(profile, seed);
    let few = random.between(1, SHORT_FORM_PRIORITIES);
    let many = random.between(SHORT_FORM_PRIORITIES + 1, MAX_SERVERS);
    let too_many = *random.pick(&[MAX_SERVERS + 1, MAX_SERVERS + 1, MAX_SERVERS + 1, 2 * MAX_SERVERS, 255]);
    let form = *random.pick(&Form::ALL);
    let (kind, act) = (seed % KINDS, seed / KINDS);
    match kind {
        0 => refused(random, Form::Short, many),
        1 => refused(random, Form::Long, too_many),
        2 => refused(random, form, 0),
        3 => played(random, few, act),
        4 | 5 => played(random, many, act),
        _ => played(random, MAX_SERVERS, act),
    }
}

/// Servers that settings of that form cannot have. The session that follows is never run.
fn refused(mut random: Random, form: Form, servers: usize) -> Vec<u8> {
    let usual = settings(&mut random);
    let table = tables::everyday(&mut random, usual.configuration);
    let mut session = Session::new(random, usual.clone(), table).limit(12);
    session.bring_up(0);
    while session.goes_on() {
        actions::step(&mut session, &TYPICAL);
    }
    let mut events = session.events();
    events[0] = Event::settings(&Settings { form, servers: servers as u8, ..usual });
    tape::build(&events)
}

/// A session of that many servers: acts, and steps at random between them.
fn played(mut random: Random, servers: usize, act: u64) -> Vec<u8> {
    let mut settings = settings(&mut random);
    set_servers(&mut settings, servers);
    settings.priorities = priorities(&mut random, servers);
    settings.threshold = *random.pick(&[1, 1, 2]);
    settings.duration = *random.pick(&[1, 2]);
    let table = tables::everyday(&mut random, settings.configuration);
    let most = random.between(200, 500);
    let mut session = Session::new(random, settings, table).limit(most);
    ACTS[(act % ACTS.len() as u64) as usize](&mut session);
    while session.goes_on() && session.body_octets_left() > 0 {
        if session.random.once_in(12) {
            let act = *session.random.pick(&ACTS);
            act(&mut session);
        } else {
            actions::step(&mut session, &BETWEEN);
        }
    }
    session.tape()
}

/// Priorities with ties of all kinds, or by the servers' numbers; those of no server are mostly higher than all others.
fn priorities(random: &mut Random, servers: usize) -> [u8; MAX_SERVERS] {
    let span = *random.pick(&[1, 2, 3, 255]);
    let mut priorities: [u8; MAX_SERVERS] = std::array::from_fn(|_| random.below(span) as u8);
    let (short, more) = priorities.split_at_mut(SHORT_FORM_PRIORITIES);
    match random.below(6) {
        // The servers that only the long form has tie above all others, without one of the others, or with it.
        0 => more.fill(254),
        1 => {
            more.fill(254);
            short[random.below(SHORT_FORM_PRIORITIES)] = 254;
        }
        2 => priorities = std::array::from_fn(|place| place as u8),
        3 => priorities = std::array::from_fn(|place| (MAX_SERVERS - place) as u8),
        4 => {
            priorities.iter_mut().for_each(|priority| *priority /= 2);
            (priorities[MAX_SERVERS - 1], priorities[0]) = (254, 253);
        }
        _ => {}
    }
    if !random.once_in(4) {
        priorities[servers..].fill(255);
    }
    priorities
}

/// The servers in any order.
fn shuffled(session: &mut Session) -> Vec<u8> {
    let mut servers: Vec<u8> = (0..session.settings.servers).collect();
    for place in (1..servers.len()).rev() {
        servers.swap(place, session.random.below(place + 1));
    }
    servers
}

/// The servers that only the long form has, in any order; all servers where there are none.
fn above(session: &mut Session) -> Vec<u8> {
    let all = shuffled(session);
    let above: Vec<u8> = all.iter().copied().filter(|server| usize::from(*server) >= SHORT_FORM_PRIORITIES).collect();
    if above.is_empty() {
        all
    } else {
        above
    }
}

/// Closes a server, by STOP or by its line.
fn close(session: &mut Session, server: u8) {
    if session.random.once_in(2) {
        session.add(Event::down(server));
    } else {
        session.message(server, &MessageParts::bare(messages::STOP, session.settings.session));
    }
}

/// Brings a server up and closes those that come before it, until it is active.
fn make_active(session: &mut Session, server: u8) {
    session.bring_up(server);
    while session.goes_on() && session.exporter().active != Some(server) {
        match session.exporter().active {
            Some(other) => close(session, other),
            None => session.bring_up(server),
        }
    }
}

/// A record that each server in turn is sent, all of them by the end.
fn to_all(session: &mut Session) {
    actions::put(session, 10);
    for server in shuffled(session) {
        make_active(session, server);
        session.add(Event::next());
    }
}

/// The servers agree from the last in the choice to the first, so that each takes over from the one before.
fn by_priority(session: &mut Session) {
    let mut servers: Vec<u8> = (0..session.settings.servers).collect();
    servers.sort_by_key(|server| (session.settings.priorities[usize::from(*server)], u8::MAX - server));
    servers.iter().for_each(|server| session.add(Event::down(*server)));
    actions::put(session, 10);
    for server in servers {
        session.bring_up(server);
        session.add(Event::next());
    }
}

/// All servers agree; then each turns late in its turn, up to the last, which is sent all again.
fn late_one_after_another(session: &mut Session) {
    for server in shuffled(session) {
        session.bring_up(server);
    }
    for _ in 0..session.settings.threshold {
        actions::put(session, 10);
    }
    for _ in 0..session.settings.servers {
        (0..session.settings.threshold).for_each(|_| session.add(Event::next()));
        (0..session.settings.duration).for_each(|_| session.add(Event::tick()));
    }
    session.add(Event::next());
}

/// START NEGOTIATE while most servers are up; then some of them are offered templates.
fn negotiation(session: &mut Session) {
    let servers = shuffled(session);
    for server in &servers[servers.len() / 4..] {
        session.bring_up(*server);
    }
    actions::put(session, 10);
    session.add(Event::next());
    let open = session.server_where(|state| state != ServerState::Closed).unwrap_or(0);
    session.message(open, &MessageParts::bare(messages::START_NEGOTIATE, session.settings.session));
    session.add(Event::next());
    for server in above(session).into_iter().take(4) {
        session.add(Event::offer(server));
    }
}

/// The servers that only the long form has agree and are closed one by one, with data between.
fn closing(session: &mut Session) {
    let servers = above(session);
    servers.iter().for_each(|server| session.bring_up(*server));
    actions::put(session, 10);
    for server in servers {
        session.add(Event::next());
        close(session, server);
    }
    session.add(Event::next());
}

/// The last server alone is sent a record, twice, then one of the others.
fn alone(session: &mut Session) {
    let last = session.settings.servers - 1;
    (0..last).for_each(|server| session.add(Event::down(server)));
    make_active(session, last);
    actions::ack_count(session, session.exporter().reached);
    actions::put(session, 10);
    (0..session.exporter().queue.len()).for_each(|_| session.add(Event::next()));
    actions::ack_count(session, 0);
    session.add(Event::next());
    let other = session.any_server();
    make_active(session, other);
    session.add(Event::next());
}

/// Messages from servers that are not there, offers to them and lines of theirs that go down.
fn no_such_servers(session: &mut Session) {
    let start = MessageParts::bare(messages::START, session.settings.session);
    let count = session.settings.servers;
    session.message(count, &start);
    session.add(Event::offer(count));
    session.add(Event::down(count));
    for _ in 0..4 {
        let server = session.no_server();
        match session.random.below(3) {
            0 => session.message(server, &start),
            1 => session.add(Event::offer(server)),
            _ => session.add(Event::down(server)),
        }
    }
}
