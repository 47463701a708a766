//! The situations in which the number of servers and the form of the settings matter.

use super::*;
use crate::model::answer::{NO_SUCH_SERVER, SETTINGS_OUTSIDE_LIMITS};
use crate::model::exporter::MAX_SERVERS;
use crate::model::replay::SHORT_FORM_PRIORITIES;
use crate::tape::{Form, Settings, DOWN};
use std::ops::RangeInclusive;

/// The last server that there can be.
const LAST: u8 = MAX_SERVERS as u8 - 1;

/// A server for which only the long form has a priority.
fn is_above(server: u8) -> bool {
    usize::from(server) >= SHORT_FORM_PRIORITIES
}

impl Step<'_> {
    /// An activation of that server begins.
    fn activates(&self, server: u8) -> bool {
        self.after.active == Some(server) && self.before.active != self.after.active
    }

    /// The choice is made among agreed servers of the same, highest priority, of which one is chosen and another is not.
    fn decides_a_tie(&self, is_so_of_chosen: fn(u8) -> bool, is_so_of_other: fn(u8) -> bool) -> bool {
        let Some(chosen) = self.after.active else {
            return false;
        };
        let priority = |server: u8| self.after.settings.priorities[usize::from(server)];
        let is_tied = |server: u8| {
            let agreed = server != chosen && self.after.state(server) == ServerState::Agreed;
            agreed && is_so_of_other(server) && priority(server) == priority(chosen)
        };
        let chooses = self.receives(FINAL_TMPL_DATA_ACK) || self.activates(chosen);
        chooses && is_so_of_chosen(chosen) && (0..self.after.settings.servers).any(is_tied)
    }

    /// The servers that this event's record was written to before, without the active one.
    fn other_receivers(&self) -> Vec<u8> {
        let receivers = self.before.queue.get(self.before.sent).map(|held| held.sent_to.iter().copied());
        receivers.into_iter().flatten().filter(|server| Some(*server) != self.before.active).collect()
    }

    /// DATA with D, because of servers that are all so.
    fn has_d_by(&self, are_so: fn(u8) -> bool) -> bool {
        self.is(NEXT) && self.flags() & 2 == 2 && self.other_receivers().into_iter().all(are_so)
    }

    /// DATA that makes the record one that each of the most servers was sent.
    fn completes_all(&self) -> bool {
        let active_too = || self.before.queue[self.before.sent].sent_to.len() == MAX_SERVERS;
        self.is(NEXT) && self.other_receivers().len() == MAX_SERVERS - 1 && !active_too()
    }

    /// A tick by which a server turns late that is so, while the other agreed ones are all so.
    fn turns_late(&self, is_so: fn(u8) -> bool, are_so_of_others: fn(u8) -> bool) -> bool {
        let agreed = |server: &u8| self.after.state(*server) == ServerState::Agreed;
        let late = self.is(TICK) && self.late(self.after) > self.late(self.before);
        let others = (0..self.after.settings.servers).filter(agreed);
        late && self.before.active.is_some_and(is_so) && others.into_iter().all(are_so_of_others)
    }

    /// START NEGOTIATE from a server that is so by which a server above in that state becomes started.
    fn restarts_above(&self, is_so: fn(u8) -> bool, state: ServerState) -> bool {
        let in_state = |server: u8| is_above(server) && self.before.state(server) == state;
        self.receives(START_NEGOTIATE) && is_so(self.event.server) && (0..self.before.settings.servers).any(in_state)
    }

    /// The active server is one above, and this event is its own.
    fn is_of_active_above(&self) -> bool {
        self.before.active == Some(self.event.server) && is_above(self.event.server)
    }

    /// The event is refused for its server, and there are that many servers.
    fn has_no_server(&self, servers: RangeInclusive<usize>, server: fn(u8) -> u8) -> bool {
        let count = self.before.settings.servers;
        let refused = self.outcome.answer == NO_SUCH_SERVER && self.event.server == server(count);
        refused && servers.contains(&usize::from(count))
    }
}

const SERVER_SITUATIONS: [Situation; 25] = [
    ("server 15 becomes active", |step| step.activates(LAST)),
    ("server 15 takes over from server 0", |step| step.activates(LAST) && step.before.active == Some(0)),
    ("server 15 takes over from another", |step| step.activates(LAST) && step.before.active.is_some_and(|it| it != 0)),
    ("server 0 takes over from server 15", |step| step.activates(0) && step.before.active == Some(LAST)),
    ("a tie among servers above 7", |step| step.decides_a_tie(is_above, is_above)),
    ("a tie between a server below 8 and one above 7", |step| step.decides_a_tie(|it| !is_above(it), is_above)),
    ("a record is written to the last of sixteen servers", |step| step.completes_all()),
    ("D due to servers above 7", |step| step.has_d_by(is_above)),
    ("D due to server 15 alone", |step| step.has_d_by(|server| server == LAST)),
    ("D due to the servers 8 below or above the active one", |step| {
        let active = step.before.active.unwrap_or(0);
        let apart = |server: &u8| usize::from(server.abs_diff(active)) == SHORT_FORM_PRIORITIES;
        step.has_d_by(|_| true) && step.other_receivers().iter().all(apart)
    }),
    ("no D on a resend to server 15", |step| {
        step.sends_first_again() && step.before.active == Some(LAST) && step.flags() & 2 == 0
    }),
    ("D on a resend to server 15", |step| {
        step.sends_first_again() && step.before.active == Some(LAST) && step.flags() & 2 == 2
    }),
    ("a server above 7 turns late", |step| step.turns_late(is_above, |_| true)),
    ("server 15 turns late", |step| step.turns_late(|server| server == LAST, |_| true)),
    ("a server below 8 turns late while only servers above 7 are agreed", |step| {
        step.turns_late(|server| !is_above(server), is_above)
    }),
    ("START NEGOTIATE with an agreed server above 7", |step| step.restarts_above(|_| true, ServerState::Agreed)),
    ("START NEGOTIATE with an offered server above 7", |step| step.restarts_above(|_| true, ServerState::Offered)),
    ("START NEGOTIATE with a late server above 7", |step| step.restarts_above(|_| true, ServerState::Late)),
    ("START NEGOTIATE from a server above 7", |step| step.restarts_above(is_above, ServerState::Agreed)),
    ("STOP from an active server above 7", |step| step.receives(STOP) && step.is_of_active_above()),
    ("the line of an active server above 7 goes down", |step| step.is(DOWN) && step.is_of_active_above()),
    ("a release by a server above 7", |step| step.releases() > 0 && step.is_of_active_above()),
    ("a server at the count of 9 to 15", |step| {
        step.has_no_server(SHORT_FORM_PRIORITIES + 1..=MAX_SERVERS - 1, |count| count)
    }),
    ("server 16 of sixteen", |step| step.has_no_server(MAX_SERVERS..=MAX_SERVERS, |count| count)),
    ("server 255 with nine servers or more", |step| {
        step.has_no_server(SHORT_FORM_PRIORITIES + 1..=MAX_SERVERS, |_| 255)
    }),
];

#[test]
fn every_situation_of_many_servers_is_met() {
    assert_met(&SERVER_SITUATIONS, sessions());
}

#[test]
fn every_situation_of_many_servers_is_met_by_the_profile_of_sixteen() {
    assert_met(&SERVER_SITUATIONS, sessions_of(|name| name == "sixteen"));
}

/// The settings of a sound tape and the answer to them.
struct SetUp {
    settings: Settings,
    answer: u8,
}

impl SetUp {
    /// Settings of that form, and of a number of servers, with that answer.
    fn is(&self, form: Form, servers: RangeInclusive<usize>, answer: u8) -> bool {
        let Settings { form: own, servers: count, .. } = self.settings;
        own == form && servers.contains(&usize::from(count)) && self.answer == answer
    }

    /// Settings of that form that are taken, in which a priority of no server is higher than that of each server.
    fn has_higher_unused(&self, form: Form) -> bool {
        let (used, unused) = self.settings.priorities.split_at(usize::from(self.settings.servers).min(MAX_SERVERS));
        self.is(form, 1..=MAX_SERVERS, DONE) && unused.iter().max() > used.iter().max()
    }
}

/// A situation of settings: its name, and whether some are in it.
type SettingsSituation = (&'static str, fn(&SetUp) -> bool);

const SETTINGS_SITUATIONS: [SettingsSituation; 12] = [
    ("24 octets with 1 to 8 servers", |it| it.is(Form::Short, 1..=SHORT_FORM_PRIORITIES, DONE)),
    ("32 octets with 1 to 8 servers", |it| it.is(Form::Long, 1..=SHORT_FORM_PRIORITIES, DONE)),
    ("32 octets with 9 to 15 servers", |it| it.is(Form::Long, SHORT_FORM_PRIORITIES + 1..=MAX_SERVERS - 1, DONE)),
    ("32 octets with 16 servers", |it| it.is(Form::Long, MAX_SERVERS..=MAX_SERVERS, DONE)),
    ("24 octets with 9 to 16 servers", |it| {
        it.is(Form::Short, SHORT_FORM_PRIORITIES + 1..=MAX_SERVERS, SETTINGS_OUTSIDE_LIMITS)
    }),
    ("24 octets with 9 servers or more", |it| {
        it.is(Form::Short, SHORT_FORM_PRIORITIES + 1..=255, SETTINGS_OUTSIDE_LIMITS)
    }),
    ("32 octets with 17 servers", |it| it.is(Form::Long, MAX_SERVERS + 1..=MAX_SERVERS + 1, SETTINGS_OUTSIDE_LIMITS)),
    ("32 octets with 17 servers or more", |it| it.is(Form::Long, MAX_SERVERS + 1..=255, SETTINGS_OUTSIDE_LIMITS)),
    ("24 octets with a higher priority of no server", |it| it.has_higher_unused(Form::Short)),
    ("32 octets with a higher priority of no server", |it| it.has_higher_unused(Form::Long)),
    ("the same of nine servers or more", |it| {
        it.has_higher_unused(Form::Long) && usize::from(it.settings.servers) > SHORT_FORM_PRIORITIES
    }),
    ("no servers", |it| Form::ALL.into_iter().any(|form| it.is(form, 0..=0, SETTINGS_OUTSIDE_LIMITS))),
];

#[test]
fn every_situation_of_settings_is_met() {
    let mut counts = [0; SETTINGS_SITUATIONS.len()];
    for events in sound_tapes() {
        let body = &events[0].body;
        let settings = Settings::from_octets(body).expect("settings of a sound tape");
        let set_up = SetUp { settings, answer: Replay::set_up(body).err().unwrap_or(DONE) };
        for (count, (_, is_met)) in counts.iter_mut().zip(&SETTINGS_SITUATIONS) {
            *count += u64::from(is_met(&set_up));
        }
    }
    for (count, (name, _)) in counts.iter().zip(&SETTINGS_SITUATIONS) {
        println!("{name}: {count}");
    }
    assert!(counts.iter().all(|count| *count >= LEAST), "{counts:?}");
}
