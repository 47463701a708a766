//! Seeded batches. A batch is determined by its seed: it stands at a place of a tape, has a given number and an output,
//! and calls are made after it, which show the state that it leaves.
//!
//! The model and the library get the same batch. The answers and every octet of both outputs and of the store must be
//! the same.

mod later;
mod make;
#[cfg(test)]
mod mistakes;
#[cfg(test)]
mod situations;

use crate::library::{self, BatchCall};
use crate::model::answer::{DONE, NOTHING_TO_SEND, NO_ACTIVE_SERVER, OUTPUT_TOO_SHORT, UNSOUND_STATE};
use crate::model::batch::BatchReply;
use crate::model::exporter::Exporter;
use crate::model::replay::{Outcome, Replay};
use crate::tape::Event;
use crate::text;

pub use make::{of_seed, on_tape, ON_A_TAPE};

/// How many batches a run has if it is not told.
pub const DEFAULT_BATCHES: u64 = 50_000;

/// The answers that a batch can get.
pub const ANSWERS: [u8; 5] = [DONE, UNSOUND_STATE, OUTPUT_TOO_SHORT, NO_ACTIVE_SERVER, NOTHING_TO_SEND];

/// The parts of what comes back: the batch's answer, its count and the octets that it wrote, the answer of the last call
/// after it; any other is how many octets that call wrote.
pub const ANSWER: u8 = 0;
pub const COUNT: u8 = 1;
pub const WRITTEN: u8 = 2;
pub const LAST_ANSWER: u8 = 3;
pub const LAST_WRITTEN: u8 = 4;

/// One time that the tape is run: the part that is asked for, and the end of the calls after the batch.
#[derive(Clone, Copy, Debug)]
pub struct Run {
    pub part: u8,
    pub end: u16,
}

impl Run {
    /// The arguments in words.
    pub fn describe(self) -> String {
        format!("part {}, calls before event {}", self.part, self.end)
    }
}

/// A batch at a place of a tape.
#[derive(Clone, Debug)]
pub struct Batch {
    pub tape: Vec<u8>,
    pub place: u16,
    pub number: usize,
    /// How many octets of the store the batch is lent; all where there are not more.
    pub lent: usize,
    /// The store's length; it is 0 in every octet at first.
    pub store: usize,
    /// The output of the calls before and after the batch, and that of the batch.
    pub out: Vec<u8>,
    pub batch_out: Vec<u8>,
    /// The ends ascend, and the first run asks for the batch's answer.
    pub runs: Vec<Run>,
    /// The model's exporter with its store and its output after the calls before the place.
    before: Replay,
    /// The events from the place on.
    later: Vec<Event>,
}

/// What one run gives back: a part, and every octet that was lent.
#[derive(Debug, PartialEq, Eq)]
pub struct Given {
    pub part: u64,
    pub batch_out: Vec<u8>,
    pub out: Vec<u8>,
    pub store: Vec<u8>,
}

/// A program's batch call, over the exporter, the store that it is lent, the output and the given number.
type Call<'a> = &'a dyn Fn(&mut Exporter, &[u8], &mut [u8], usize) -> BatchReply;

impl Batch {
    /// What the model gives back, run by run.
    pub fn of_model(&self) -> Vec<Given> {
        self.of_program(&Exporter::batch)
    }

    /// What a program gives back that is the model but for its batch call.
    fn of_program(&self, call: Call) -> Vec<Given> {
        let mut replay = self.before.clone();
        let mut batch_out = self.batch_out.clone();
        let reply = self.make(&mut replay, &mut batch_out, call);
        let mut later = self.later.iter().zip(self.place..).peekable();
        let mut last = Outcome { answer: DONE, written: Vec::new() };
        let mut all = Vec::new();
        for Run { part, end } in &self.runs {
            while let Some((event, _)) = later.next_if(|(_, place)| place < end) {
                last = replay.event(event.kind, event.server, &event.body);
            }
            let (out, store) = (replay.output.clone(), replay.store.clone());
            all.push(Given { part: part_of(*part, reply, &last), batch_out: batch_out.clone(), out, store });
        }
        all
    }

    /// Makes the batch call over the octets of the store that it is lent.
    fn make(&self, replay: &mut Replay, batch_out: &mut [u8], call: Call) -> BatchReply {
        let Replay { exporter, store, .. } = replay;
        let lent = self.lent.min(store.len());
        call(exporter, &store[..lent], batch_out, self.number)
    }

    /// What the library gives back, run by run.
    pub fn of_library(&self) -> Vec<Given> {
        self.runs.iter().map(|run| self.of_library_run(*run)).collect()
    }

    fn of_library_run(&self, Run { part, end }: Run) -> Given {
        let Batch { tape, place, number, lent, .. } = self;
        let (mut store, mut out, mut batch_out) = (vec![0; self.store], self.out.clone(), self.batch_out.clone());
        let call = BatchCall { tape, place: *place, end, number: *number, lent: *lent, part };
        let part = library::batch(&call, &mut store, &mut out, &mut batch_out);
        Given { part, batch_out, out, store }
    }

    /// The arguments in words.
    pub fn describe(&self) -> String {
        let tape = text::decode(&self.tape).unwrap_or_else(|reason| format!("not sound: {reason}\n"));
        let Batch { place, number, lent, store, .. } = self;
        let (out, batch_out) = (self.out.len(), self.batch_out.len());
        format!(
            "{tape}a batch before event {place}: number {number}, lent {lent} octets of a store of {store}, \
             output of {batch_out} octets; the other calls' output has {out}"
        )
    }

    /// Where two sides differ, a line for each run.
    pub fn differences(&self, library: &[Given], model: &[Given]) -> String {
        let pairs = self.runs.iter().zip(library.iter().zip(model));
        let lines = pairs.filter(|(_, (own, other))| own != other).map(|(run, (own, other))| {
            let octets = own.octets_that_differ(other);
            format!("{}: the library {}, the model {}{octets}", run.describe(), own.part, other.part)
        });
        lines.collect::<Vec<String>>().join("\n  ")
    }
}

/// The batch's answer, from what all runs give back.
pub fn answer(runs: &[Given]) -> u8 {
    runs.first().map_or(DONE, |given| given.part as u8)
}

impl Given {
    /// The first octet of each slice that differs.
    fn octets_that_differ(&self, other: &Given) -> String {
        let slices = [
            ("the batch's output", &self.batch_out, &other.batch_out),
            ("the output", &self.out, &other.out),
            ("the store", &self.store, &other.store),
        ];
        let first = |own: &[u8], other: &[u8]| own.iter().zip(other).position(|(own, other)| own != other);
        let found = slices.iter().filter_map(|(name, own, other)| first(own, other).map(|place| (name, place)));
        found.map(|(name, place)| format!("; {name} from octet {place} on")).collect()
    }
}

/// One part of what comes back.
fn part_of(part: u8, reply: BatchReply, last: &Outcome) -> u64 {
    match part {
        ANSWER => u64::from(reply.answer),
        COUNT => reply.count as u64,
        WRITTEN => reply.written as u64,
        LAST_ANSWER => u64::from(last.answer),
        _ => last.written.len() as u64,
    }
}
