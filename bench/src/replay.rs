//! A whole replay: the Rust side's program, and a tape that both programs are run on.

use crate::answer::{SETTINGS_OUTSIDE_LIMITS, UNSOUND_TABLE};
use crate::exporter::{Settings, State, MAX_SERVERS};
use crate::inputs::{self, OUTPUT_OCTETS};
use crate::session::{CONFIG, SESSION};
use crate::table::{self, u16_at, u32_at};
use std::io::{Read, Write};

const MAX_TAPE_OCTETS: usize = 32768;

/// The octets of the settings before the priorities.
const OCTETS_BEFORE_PRIORITIES: usize = 16;

/// The priorities of the settings' short form; the long form has one for each server that there can be.
const SHORT_FORM_PRIORITIES: usize = 8;

/// Whether settings have the octets of one of the two forms.
fn is_a_form(octets: usize) -> bool {
    [SHORT_FORM_PRIORITIES, MAX_SERVERS].contains(&octets.wrapping_sub(OCTETS_BEFORE_PRIORITIES))
}

/// An event of a tape: its kind, the server that it names and its body.
type Event<'a> = (u8, u8, &'a [u8]);

fn fits(i: usize, (kind, server, body): Event) -> bool {
    let kind_fits = match i {
        0 => kind == 0,
        1 => kind == 1,
        _ => (2..=7).contains(&kind),
    };
    let length_fits = match kind {
        0 => is_a_form(body.len()),
        2 => body.len() >= 2,
        1 | 3 => true,
        _ => body.is_empty(),
    };
    kind_fits && length_fits && (server == 0 || matches!(kind, 3 | 4 | 7))
}

/// The events of a sound tape.
fn events(tape: &[u8]) -> Option<Vec<Event<'_>>> {
    if tape.len() < 2 || tape.len() > MAX_TAPE_OCTETS {
        return None;
    }
    let count = u16_at(tape, 0) as usize;
    if !(2..=512).contains(&count) || tape.len() < 2 + 4 * count {
        return None;
    }
    let (contents, mut bodies) = tape[2..].split_at(4 * count);
    let mut all = Vec::with_capacity(count);
    for (i, entry) in contents.chunks_exact(4).enumerate() {
        let (body, rest) = bodies.split_at_checked(u16_at(entry, 2) as usize)?;
        let event = (entry[0], entry[1], body);
        if !fits(i, event) {
            return None;
        }
        bodies = rest;
        all.push(event);
    }
    bodies.is_empty().then_some(all)
}

/// The settings of either form; 20 for more servers than the form has priorities.
fn settings(b: &[u8]) -> Result<Settings, u8> {
    let named = &b[OCTETS_BEFORE_PRIORITIES..];
    if b[2] as usize > named.len() {
        return Err(SETTINGS_OUTSIDE_LIMITS);
    }
    let mut priorities = [0; MAX_SERVERS];
    priorities[..named.len()].copy_from_slice(named);
    Ok(Settings {
        session: b[0],
        config: b[1],
        boot: u32_at(b, 12),
        initial: u32_at(b, 8),
        servers: b[2],
        priorities,
        threshold: b[3],
        duration: u16_at(b, 4),
    })
}

fn line(text: &mut Vec<u8>, place: usize, answered: Result<usize, u8>, out: &[u8]) {
    const DIGITS: &[u8; 16] = b"0123456789abcdef";
    let (answer, written) = match answered {
        Ok(n) => (0, &out[..n]),
        Err(a) => (a, &out[..0]),
    };
    write!(text, "{place} {answer}").expect("room");
    if !written.is_empty() {
        text.push(b' ');
        text.extend(
            written
                .iter()
                .flat_map(|o| [DIGITS[(o >> 4) as usize], DIGITS[(o & 15) as usize]]),
        );
    }
    text.push(b'\n');
}

fn call(
    state: &mut State,
    (kind, server, body): Event,
    table: &[u8],
    store: &mut [u8],
    out: &mut [u8],
) -> Result<usize, u8> {
    match kind {
        2 => state
            .put(store, table, u16_at(body, 0), &body[2..])
            .map(|()| 0),
        3 => state.receive(server, body, out),
        4 => state.line_down(server).map(|()| 0),
        5 => state.tick().map(|()| 0),
        6 => state.next_data(store, out),
        _ => state.offer_templates(server, table, out),
    }
}

/// An exporter set up by event 0 of a tape and the table of event 1, with the lines of both; none where one is refused.
fn open(all: &[Event], store: &[u8]) -> (Vec<u8>, Option<State>) {
    let (set_up, table) = (all[0].2, all[1].2);
    let mut text = Vec::new();
    let made = settings(set_up).and_then(|settings| State::set_up(settings, store));
    line(&mut text, 0, made.as_ref().map(|_| 0).map_err(|a| *a), &[]);
    let Ok(state) = made else {
        return (text, None);
    };
    let is_sessions = table::is_sound(table) && table[0] == set_up[1];
    let answered = is_sessions.then_some(0).ok_or(UNSOUND_TABLE);
    line(&mut text, 1, answered, &[]);
    (text, is_sessions.then_some(state))
}

/// The program: a tape from standard input, its lines to standard output, each written by itself as the other program does.
pub fn program() -> std::io::Result<()> {
    let mut tape = Vec::new();
    std::io::stdin()
        .take(MAX_TAPE_OCTETS as u64 + 1)
        .read_to_end(&mut tape)?;
    let mut output = std::io::stdout().lock();
    let Some(all) = events(&tape) else {
        return output.write_all(b"tape refused\n");
    };
    let mut store = vec![0; u16_at(all[0].2, 6) as usize + 1];
    let mut out = vec![0; OUTPUT_OCTETS];
    let (mut text, opened) = open(&all, &store);
    output.write_all(&text)?;
    let Some(mut state) = opened else {
        return Ok(());
    };
    for (i, event) in all.iter().enumerate().skip(2) {
        let answered = call(&mut state, *event, all[1].2, &mut store, &mut out);
        text.clear();
        line(&mut text, i, answered, &out);
        output.write_all(&text)?;
    }
    Ok(())
}

/// A session of 512 events: 169 records of 16 octets, each put, sent and acknowledged.
pub fn tape() -> Vec<u8> {
    let mut body = vec![SESSION, CONFIG, 1, 64, 0, 10, 255, 255];
    body.extend(0u32.to_be_bytes());
    body.extend(3600u32.to_be_bytes());
    body.extend([0; SHORT_FORM_PRIORITIES]);
    let put: Vec<u8> = [0, 1].into_iter().chain(inputs::small_record(16)).collect();
    let mut all = vec![
        (0, body),
        (1, inputs::small_table()),
        (3, inputs::bare(crate::message::START)),
        (7, vec![]),
        (3, inputs::final_tmpl_data_ack()),
    ];
    for dsn in 0..169 {
        all.extend([(2, put.clone()), (6, vec![]), (3, inputs::data_ack(dsn))]);
    }
    let mut tape = (all.len() as u16).to_be_bytes().to_vec();
    for (kind, body) in &all {
        tape.extend([*kind, 0]);
        tape.extend((body.len() as u16).to_be_bytes());
    }
    all.iter().for_each(|(_, body)| tape.extend(body));
    tape
}
