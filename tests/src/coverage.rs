//! Counts of what a comparison has seen, by the model's answers.

use crate::batches;
use crate::generate::PROFILES;
use crate::inputs::{EDITION, FUNCTIONS};
use crate::library::END;
use crate::model::answer::*;
use crate::model::replay;
use crate::tape::{self, Event, KIND_NAMES};
use std::collections::BTreeMap;

/// The answers that each kind of event can get on a tape, kind by kind. Answers 1 and 12 cannot come: the program's state
/// is sound and its output buffer holds the longest message; after event 1 the table is sound too.
const ALLOWED: [&[u8]; 8] = [
    &[DONE, SETTINGS_OUTSIDE_LIMITS],
    &[DONE, UNSOUND_TABLE],
    &[DONE, TEMPLATE_NOT_FOUND, RECORD_INVALID, RECORD_TOO_LONG, QUEUE_FULL, STORE_FULL],
    &[
        DONE,
        NO_SUCH_SERVER,
        SHORT_MESSAGE,
        OTHER_VERSION,
        LENGTH_DIFFERS,
        OTHER_SESSION,
        MESSAGE_NOT_ACCEPTED,
        BODY_LENGTH_WRONG,
        OUT_OF_TURN,
        OTHER_CONFIGURATION,
        DSN_NOT_ACKNOWLEDGEABLE,
    ],
    &[DONE, NO_SUCH_SERVER],
    &[DONE],
    &[DONE, NO_ACTIVE_SERVER, NOTHING_TO_SEND],
    &[DONE, NO_SUCH_SERVER, OUT_OF_TURN],
];

/// The answers that are no refusals.
const ACCEPTED: [u8; 2] = [DONE, END];

/// The counts so far.
#[derive(Default)]
pub struct Coverage {
    tapes: BTreeMap<usize, u64>,
    refused_tapes: u64,
    events: u64,
    /// How often each kind of event got each answer.
    calls: BTreeMap<(usize, u8), u64>,
    /// How often each function got each answer.
    inputs: BTreeMap<(usize, u8), u64>,
    /// How often a batch got each answer.
    batches: BTreeMap<(usize, u8), u64>,
}

/// The number that all batches are counted under, and their name in reports.
const BATCH: (usize, &str) = (0, "batch");

impl Coverage {
    /// Counts a tape of a profile by the model's output.
    pub fn add_tape(&mut self, profile: usize, octets: &[u8], output: &[u8]) {
        *self.tapes.entry(profile).or_default() += 1;
        if output == replay::TAPE_REFUSED.as_bytes() {
            self.refused_tapes += 1;
            return;
        }
        let (events, _) = tape::split_leniently(octets);
        for (event, line) in events.iter().zip(output.split(|octet| *octet == b'\n')) {
            self.add_line(event, line);
        }
    }

    fn add_line(&mut self, event: &Event, line: &[u8]) {
        let text = String::from_utf8_lossy(line);
        if let Some(answer) = text.split(' ').nth(1).and_then(|word| word.parse().ok()) {
            self.events += 1;
            *self.calls.entry((usize::from(event.kind), answer)).or_default() += 1;
        }
    }

    pub fn add_input(&mut self, function: usize, answer: u8) {
        *self.inputs.entry((function, answer)).or_default() += 1;
    }

    pub fn add_batch(&mut self, answer: u8) {
        *self.batches.entry((BATCH.0, answer)).or_default() += 1;
    }

    pub fn tapes(&self) -> u64 {
        self.tapes.values().sum()
    }

    /// The inputs without the messages of editions.
    pub fn inputs(&self) -> u64 {
        self.inputs.iter().filter(|((function, _), _)| *function != EDITION).map(|(_, count)| count).sum()
    }

    /// The messages of editions.
    pub fn editions(&self) -> u64 {
        self.inputs.iter().filter(|((function, _), _)| *function == EDITION).map(|(_, count)| count).sum()
    }

    pub fn batches(&self) -> u64 {
        self.batches.values().sum()
    }

    /// The counts as lines, then warnings that name the allowed answers that were not seen.
    pub fn report(&self) -> String {
        let mut report = String::new();
        if self.tapes() > 0 {
            let counts: Vec<String> =
                self.tapes.iter().map(|(profile, count)| format!("{} {count}", PROFILES[*profile].name)).collect();
            report += &format!("tapes: {}\n", counts.join(", "));
            report += &format!("events answered: {}, by kind (answer: times)\n", self.events);
            for (kind, name) in KIND_NAMES.iter().enumerate() {
                report += &counts_line(name, kind, &self.calls);
            }
            report += &format!("  whole tapes refused (22): {}\n", self.refused_tapes);
        }
        if self.inputs() > 0 {
            let (inputs, editions) = (self.inputs(), self.editions());
            report += &format!("inputs: {inputs}, messages of editions: {editions}, by function (answer: times)\n");
            for (number, function) in FUNCTIONS.iter().enumerate() {
                report += &counts_line(function.name, number, &self.inputs);
            }
        }
        if self.batches() > 0 {
            report += &format!("batches: {} (answer: times)\n", self.batches());
            report += &counts_line(BATCH.1, BATCH.0, &self.batches);
        }
        report + &self.warnings()
    }

    /// A line for each call of which an allowed answer was not seen.
    pub fn warnings(&self) -> String {
        let mut warnings = String::new();
        if self.tapes() > 0 {
            for (kind, answers) in ALLOWED.iter().enumerate() {
                warnings += &unseen(KIND_NAMES[kind], kind, answers, &self.calls);
            }
            if self.refused_tapes == 0 {
                warnings += &format!("warning: not seen of tape: {UNSOUND_TAPE}\n");
            }
        }
        if self.inputs() > 0 {
            for (number, function) in FUNCTIONS.iter().enumerate() {
                warnings += &unseen(function.name, number, function.answers, &self.inputs);
            }
        }
        if self.batches() > 0 {
            warnings += &unseen(BATCH.1, BATCH.0, &batches::ANSWERS, &self.batches);
        }
        warnings
    }
}

/// One line of counts: how many calls, how many of them refused, and how often each answer.
fn counts_line(name: &str, number: usize, counts: &BTreeMap<(usize, u8), u64>) -> String {
    let own = || counts.iter().filter(|((other, _), _)| *other == number).map(|((_, answer), count)| (*answer, *count));
    let all: u64 = own().map(|(_, count)| count).sum();
    let accepted: u64 = own().filter(|(answer, _)| ACCEPTED.contains(answer)).map(|(_, count)| count).sum();
    let shown: Vec<String> = own().map(|(answer, count)| format!("{answer}: {count}")).collect();
    format!("  {name:<9} {accepted} accepted, {} refused ({})\n", all - accepted, shown.join(", "))
}

fn unseen(name: &str, number: usize, allowed: &[u8], counts: &BTreeMap<(usize, u8), u64>) -> String {
    let missing: Vec<String> =
        allowed.iter().filter(|answer| !counts.contains_key(&(number, **answer))).map(u8::to_string).collect();
    if missing.is_empty() {
        return String::new();
    }
    format!("warning: not seen of {name}: {}\n", missing.join(", "))
}
