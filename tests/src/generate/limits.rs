//! Tapes whose settings are at their limits or past them.

use super::actions::{self, TYPICAL};
use super::session::Session;
use super::{random_of, settings, tables};
use crate::model::exporter::MAX_SERVERS;
use crate::model::replay::Replay;
use crate::tape::{self, Event, Form, Settings};

/// One setting at or past a limit.
enum Odd {
    /// So many servers in settings of that form.
    Servers(Form, u8),
    Threshold(u8),
    Duration(u16),
    Store(u32),
    /// As many servers as the form has priorities, each of which is so by its place.
    Priorities(Form, fn(usize) -> u8),
    /// The priorities of the form that no server has are higher than all others.
    Unused(Form),
    Numbers(u8, u8),
}

/// The most servers of the short form, and of the long one.
const SHORT: u8 = Form::Short.priorities() as u8;
const MOST: u8 = Form::Long.priorities() as u8;

const ODD_SETTINGS: [Odd; 58] = [
    Odd::Servers(Form::Short, 0),
    Odd::Servers(Form::Short, 1),
    Odd::Servers(Form::Short, SHORT),
    Odd::Servers(Form::Short, SHORT + 1),
    Odd::Servers(Form::Short, MOST - 1),
    Odd::Servers(Form::Short, MOST),
    Odd::Servers(Form::Short, MOST + 1),
    Odd::Servers(Form::Short, 128),
    Odd::Servers(Form::Short, 255),
    Odd::Servers(Form::Long, 0),
    Odd::Servers(Form::Long, 1),
    Odd::Servers(Form::Long, SHORT),
    Odd::Servers(Form::Long, SHORT + 1),
    Odd::Servers(Form::Long, MOST - 1),
    Odd::Servers(Form::Long, MOST),
    Odd::Servers(Form::Long, MOST + 1),
    Odd::Servers(Form::Long, 128),
    Odd::Servers(Form::Long, 255),
    Odd::Threshold(0),
    Odd::Threshold(1),
    Odd::Threshold(63),
    Odd::Threshold(64),
    Odd::Threshold(65),
    Odd::Threshold(128),
    Odd::Threshold(255),
    Odd::Duration(0),
    Odd::Duration(1),
    Odd::Duration(255),
    Odd::Duration(256),
    Odd::Duration(65_535),
    Odd::Store(1),
    Odd::Store(1_022),
    Odd::Store(1_023),
    Odd::Store(1_024),
    Odd::Store(1_025),
    Odd::Store(32_768),
    Odd::Store(65_535),
    Odd::Store(65_536),
    Odd::Priorities(Form::Short, |_| 255),
    Odd::Priorities(Form::Short, |_| 0),
    Odd::Priorities(Form::Short, |place| if place % 3 == 1 { 255 } else { 0 }),
    Odd::Priorities(Form::Short, |place| 1 << (place % 8)),
    Odd::Priorities(Form::Short, |place| 128 - (place % 2) as u8),
    Odd::Priorities(Form::Short, |place| place as u8),
    Odd::Priorities(Form::Short, |place| 255 - place as u8),
    Odd::Priorities(Form::Long, |_| 255),
    Odd::Priorities(Form::Long, |_| 0),
    Odd::Priorities(Form::Long, |place| if place % 3 == 1 { 255 } else { 0 }),
    Odd::Priorities(Form::Long, |place| 1 << (place % 8)),
    Odd::Priorities(Form::Long, |place| 128 - (place % 2) as u8),
    Odd::Priorities(Form::Long, |place| place as u8),
    Odd::Priorities(Form::Long, |place| 255 - place as u8),
    Odd::Unused(Form::Short),
    Odd::Unused(Form::Long),
    Odd::Numbers(0, 0),
    Odd::Numbers(255, 0),
    Odd::Numbers(0, 255),
    Odd::Numbers(255, 255),
];

fn apply(odd: &Odd, settings: &mut Settings) {
    match odd {
        Odd::Servers(form, servers) => (settings.form, settings.servers) = (*form, *servers),
        Odd::Threshold(threshold) => settings.threshold = *threshold,
        Odd::Duration(duration) => settings.duration = *duration,
        Odd::Store(store) => settings.store = *store,
        Odd::Priorities(form, priority) => {
            (settings.form, settings.servers) = (*form, form.priorities() as u8);
            settings.priorities = std::array::from_fn(priority);
        }
        Odd::Unused(form) => {
            settings.form = *form;
            let (used, unused) = settings.priorities.split_at_mut(usize::from(settings.servers).min(MAX_SERVERS));
            used.iter_mut().for_each(|priority| *priority /= 2);
            unused.fill(255);
        }
        Odd::Numbers(session, configuration) => (settings.session, settings.configuration) = (*session, *configuration),
    }
}

/// One odd setting, each in its turn, and now and then a second; then a short session, which runs only if all are in
/// limits.
pub fn tapes(profile: usize, seed: u64) -> Vec<u8> {
    let mut random = random_of(profile, seed);
    let usual = settings(&mut random);
    let mut odd = usual.clone();
    apply(&ODD_SETTINGS[(seed % ODD_SETTINGS.len() as u64) as usize], &mut odd);
    if random.once_in(4) {
        apply(random.pick(&ODD_SETTINGS), &mut odd);
    }
    let table = tables::everyday(&mut random, odd.configuration);
    let in_limits = Replay::set_up(&odd.octets()).is_ok();
    let made_with = if in_limits { odd.clone() } else { Settings { configuration: odd.configuration, ..usual } };
    let mut session = Session::new(random, made_with, table).limit(60);
    session.bring_up(0);
    while session.goes_on() {
        actions::step(&mut session, &TYPICAL);
    }
    let mut events = session.events();
    events[0] = Event::settings(&odd);
    tape::build(&events)
}
