//! Mistakes about the number of servers and the two forms of settings.

use super::super::situations::sound_tapes;
use super::*;
use crate::model::answer::{SETTINGS_OUTSIDE_LIMITS, UNSOUND_TAPE};
use crate::model::exporter::MAX_SERVERS;
use crate::model::replay::{OCTETS_BEFORE_PRIORITIES, SHORT_FORM_PRIORITIES};
use crate::tape::{Form, DOWN};

/// The last server that there can be.
const LAST: u8 = MAX_SERVERS as u8 - 1;

/// The places of the server count, of the store's length and of the first DSN in the settings.
const SERVERS_AT: usize = 2;
const STORE_AT: usize = 6;
const FIRST_DSN_AT: usize = 8;

/// A server for which only the long form has a priority.
fn is_above(server: u8) -> bool {
    usize::from(server) >= SHORT_FORM_PRIORITIES
}

/// The bit of a server where there are only eight bits for all.
fn shared_bit(server: u8) -> usize {
    usize::from(server) % SHORT_FORM_PRIORITIES
}

const SERVER_MISTAKES: [Mistake; 16] = [
    mistake("server 15 is in no record's set", |program, event| {
        program.sets_d(event, |others, _| others.iter().any(|server| *server != LAST))
    }),
    mistake("the sets have 8 bits", |program, event| {
        program.sets_d(event, |others, _| others.iter().any(|server| !is_above(*server)))
    }),
    mistake("the sets have a bit for two servers", |program, event| {
        program.sets_d(event, |others, active| others.iter().any(|server| shared_bit(*server) != shared_bit(active)))
    }),
    mistake("a resend to a server above 7 has D", |program, event| {
        let resends = program.replay.exporter.sent < program.replay.exporter.reached;
        if resends {
            program.sets_d(event, |others, active| !others.is_empty() || is_above(active))
        } else {
            program.right(event)
        }
    }),
    Mistake { name: "the highest number is chosen on ties", begin: reversed_priorities, event: Program::reversed },
    mistake("only the first 8 servers are chosen", |program, event| {
        program.passed_over(event, |_, server| is_above(server))
    }),
    mistake("no server is chosen below an unused priority", |program, event| {
        program.passed_over(event, |exporter, server| {
            let (used, unused) = exporter.settings.priorities.split_at(usize::from(exporter.settings.servers));
            unused.iter().any(|priority| *priority > used[usize::from(server)])
        })
    }),
    mistake("START NEGOTIATE leaves the servers above 7", Program::negotiation_below),
    mistake("a tick looks for another agreed server among the first 8", Program::another_below),
    mistake("line down leaves a server above 7", |program, event| {
        let before = program.replay.clone();
        let outcome = program.right(event);
        if event.kind == DOWN && is_above(event.server) {
            program.replay = before;
        }
        outcome
    }),
    mistake("STOP leaves a server above 7", |program, event| {
        program.after(STOP, event, |program, before| {
            if is_above(event.server) {
                program.replay.exporter = before.clone();
            }
        })
    }),
    mistake("START leaves a server above 7", |program, event| {
        program.after(START, event, |program, before| {
            if is_above(event.server) {
                program.replay.exporter = before.clone();
            }
        })
    }),
    mistake("DATA ACK from a server above 7 releases nothing", |program, event| {
        program.after(DATA_ACK, event, |program, before| {
            if is_above(event.server) {
                program.replay.exporter = before.clone();
            }
        })
    }),
    mistake("server numbers have three bits", |program, event| {
        program.renumbered(
            event,
            |server, servers| if server < servers { server % SHORT_FORM_PRIORITIES as u8 } else { server },
        )
    }),
    mistake("server numbers have four bits", |program, event| {
        program.renumbered(event, |server, _| server % MAX_SERVERS as u8)
    }),
    mistake("all sixteen servers are there", |program, event| {
        let outcome = program.right(event);
        if event.kind == DOWN && event.server <= LAST {
            Outcome { answer: DONE, ..outcome }
        } else {
            outcome
        }
    }),
];

/// The priorities of the servers from the last to the first.
fn reversed_priorities(replay: &mut Replay) {
    let settings = &mut replay.exporter.settings;
    settings.priorities[..usize::from(settings.servers)].reverse();
}

/// Makes the choice; a changed one begins an activation.
fn settle(exporter: &mut Exporter) {
    let chosen = exporter.choose();
    if chosen != exporter.active {
        (exporter.sent, exporter.reached, exporter.timer) = (0, 0, 0);
        (exporter.active, exporter.began) = (chosen, exporter.released + 1);
    }
}

impl Program {
    /// Takes an event, and if it is an accepted next data, sets D by the servers other than the active one that were
    /// sent the record before, and by the active one.
    fn sets_d(&mut self, event: &Event, has_d: fn(&[u8], u8) -> bool) -> Outcome {
        let before = self.replay.exporter.clone();
        let mut outcome = self.right(event);
        if let (NEXT, DONE, Some(active)) = (event.kind, outcome.answer, before.active) {
            let receivers = before.queue[before.sent].sent_to.iter().copied();
            let others: Vec<u8> = receivers.filter(|server| *server != active).collect();
            outcome.written[11] = (outcome.written[11] & !2) | u8::from(has_d(&others, active)) << 1;
        }
        outcome
    }

    /// Takes an event under another server number, which may depend on the server count.
    fn renumbered(&mut self, event: &Event, number: fn(u8, u8) -> u8) -> Outcome {
        let server = number(event.server, self.replay.exporter.settings.servers);
        self.right(&Event { server, ..event.clone() })
    }

    /// The servers are numbered from the last to the first, so that the first of a tie is the highest number.
    fn reversed(&mut self, event: &Event) -> Outcome {
        self.renumbered(event, |server, servers| if server < servers { servers - 1 - server } else { server })
    }

    /// A server that is so agrees and is never chosen: it is in the place of a late one.
    fn passed_over(&mut self, event: &Event, is_so: fn(&Exporter, u8) -> bool) -> Outcome {
        self.after(FINAL_TMPL_DATA_ACK, event, |program, before| {
            if is_so(before, event.server) {
                program.replay.exporter = before.clone();
                program.set_state(event.server, ServerState::Late);
            }
        })
    }

    fn negotiation_below(&mut self, event: &Event) -> Outcome {
        self.after(START_NEGOTIATE, event, |program, before| {
            let exporter = &mut program.replay.exporter;
            let started = exporter.states;
            *exporter = before.clone();
            exporter.states[..SHORT_FORM_PRIORITIES].copy_from_slice(&started[..SHORT_FORM_PRIORITIES]);
            settle(exporter);
        })
    }

    fn another_below(&mut self, event: &Event) -> Outcome {
        self.at_failover(event, |exporter, before, server| {
            let is_another = |other: u8| other != server && before.state(other) == ServerState::Agreed;
            if !(0..SHORT_FORM_PRIORITIES as u8).any(is_another) {
                *exporter = Exporter { sent: 0, timer: 0, ..before.clone() };
            }
        })
    }
}

#[test]
fn every_mistake_about_servers_is_told() {
    assert_told(&SERVER_MISTAKES);
}

/// A mistake about settings: its name, and how a program with it sets up by a body of either form.
type SettingsMistake = (&'static str, fn(Form, &[u8]) -> Result<Replay, u8>);

const SETTINGS_MISTAKES: [SettingsMistake; 17] = [
    ("8 servers are the most", |_, body| refused_if(usize::from(body[SERVERS_AT]) > SHORT_FORM_PRIORITIES, body)),
    ("15 servers are the most", |_, body| refused_if(usize::from(body[SERVERS_AT]) == MAX_SERVERS, body)),
    ("17 servers are taken", |_, body| {
        with_servers(body, |servers| if servers == MAX_SERVERS + 1 { MAX_SERVERS } else { servers })
    }),
    ("any number of servers is taken", |_, body| with_servers(body, |servers| servers.min(MAX_SERVERS))),
    ("9 servers or more are taken in 24 octets", |form, body| match form {
        Form::Short => Replay::set_up(&[body, &[0; MAX_SERVERS - SHORT_FORM_PRIORITIES]].concat()),
        Form::Long => Replay::set_up(body),
    }),
    ("24 octets are refused", |form, body| match form {
        Form::Short => Err(UNSOUND_TAPE),
        Form::Long => Replay::set_up(body),
    }),
    ("32 octets are refused", |form, body| match form {
        Form::Short => Replay::set_up(body),
        Form::Long => Err(UNSOUND_TAPE),
    }),
    ("32 octets are refused below 9 servers", |form, body| {
        refused_if(form == Form::Long && usize::from(body[SERVERS_AT]) <= SHORT_FORM_PRIORITIES, body)
    }),
    ("an unused priority that is not 0 is refused", |_, body| {
        let unused = body[OCTETS_BEFORE_PRIORITIES..].iter().skip(usize::from(body[SERVERS_AT]));
        refused_if(unused.into_iter().any(|priority| *priority > 0), body)
    }),
    ("there are as many servers as priorities", |form, body| match body[SERVERS_AT] {
        0 => Replay::set_up(body),
        servers => set_up_with(body, |body| body[SERVERS_AT] = servers.max(form.priorities() as u8)),
    }),
    ("the last priority is read from the first", |form, body| {
        with_long(form, body, |priorities| priorities[MAX_SERVERS - 1] = priorities[0])
    }),
    ("the priorities above 7 are read as 0", |form, body| {
        with_long(form, body, |priorities| priorities[SHORT_FORM_PRIORITIES..].fill(0))
    }),
    ("the priorities above 7 are read from the first again", |form, body| {
        with_long(form, body, |priorities| priorities.copy_within(..SHORT_FORM_PRIORITIES, SHORT_FORM_PRIORITIES))
    }),
    ("the priorities of 32 octets are read from octet 24 on", |form, body| {
        with_long(form, body, |priorities| {
            priorities.copy_within(SHORT_FORM_PRIORITIES.., 0);
            priorities[SHORT_FORM_PRIORITIES..].fill(0);
        })
    }),
    ("the priorities of 32 octets are read from the last on", |form, body| {
        with_long(form, body, |priorities| priorities.reverse())
    }),
    ("first DSN and boot time of 32 octets are read behind the priorities", |form, body| match form {
        Form::Short => Replay::set_up(body),
        Form::Long => set_up_with(body, |body| {
            let octets = OCTETS_BEFORE_PRIORITIES - FIRST_DSN_AT;
            body[FIRST_DSN_AT..].rotate_right(octets);
        }),
    }),
    ("the store's length of 32 octets is read from the first DSN", |form, body| match form {
        Form::Short => Replay::set_up(body),
        Form::Long => set_up_with(body, |body| body.copy_within(FIRST_DSN_AT..FIRST_DSN_AT + 2, STORE_AT)),
    }),
];

/// Set-up, which refuses the settings where that is so.
fn refused_if(is_so: bool, body: &[u8]) -> Result<Replay, u8> {
    if is_so {
        Err(SETTINGS_OUTSIDE_LIMITS)
    } else {
        Replay::set_up(body)
    }
}

/// Set-up by a body that is changed.
fn set_up_with(body: &[u8], change: impl FnOnce(&mut [u8])) -> Result<Replay, u8> {
    let mut body = body.to_vec();
    change(&mut body);
    Replay::set_up(&body)
}

/// Set-up with another number of servers.
fn with_servers(body: &[u8], servers: fn(usize) -> usize) -> Result<Replay, u8> {
    set_up_with(body, |body| body[SERVERS_AT] = servers(usize::from(body[SERVERS_AT])) as u8)
}

/// Set-up with other priorities where the form is the long one.
fn with_long(form: Form, body: &[u8], change: fn(&mut [u8])) -> Result<Replay, u8> {
    match form {
        Form::Short => Replay::set_up(body),
        Form::Long => set_up_with(body, |body| change(&mut body[OCTETS_BEFORE_PRIORITIES..])),
    }
}

/// The answers and octets of a run after its set-up.
fn run(replay: &Replay, events: &[Event]) -> Vec<Outcome> {
    let mut replay = replay.clone();
    let answer = replay.take_table(&events[1].body);
    let later = if answer == DONE { &events[2..] } else { &[] };
    let first = Outcome { answer, written: Vec::new() };
    std::iter::once(first).chain(later.iter().map(|it| replay.event(it.kind, it.server, &it.body))).collect()
}

/// A tape is answered otherwise by a program that set up so than by the right one, whose run is given.
fn differs(right: &Result<Replay, u8>, outcomes: &[Outcome], wrong: &Result<Replay, u8>, events: &[Event]) -> bool {
    match (right, wrong) {
        (Ok(right), Ok(wrong)) => right.exporter != wrong.exporter && run(wrong, events) != outcomes,
        (Err(right), Err(wrong)) => right != wrong,
        _ => true,
    }
}

#[test]
fn every_mistake_about_settings_is_told() {
    let mut counts = [0; SETTINGS_MISTAKES.len()];
    for events in sound_tapes() {
        let body = &events[0].body;
        let form = Form::of_length(body.len()).expect("settings of a sound tape");
        let right = Replay::set_up(body);
        let outcomes = right.as_ref().map_or(Vec::new(), |right| run(right, &events));
        for (count, (_, set_up)) in counts.iter_mut().zip(&SETTINGS_MISTAKES) {
            *count += usize::from(differs(&right, &outcomes, &set_up(form, body), &events));
        }
    }
    assert_often_enough(SETTINGS_MISTAKES.iter().map(|(name, _)| *name).zip(counts));
}
