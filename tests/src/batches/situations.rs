//! Tests that the batches of a default run meet every situation in which the rules differ.

use super::make::FRONT_OCTETS;
use super::{on_tape, Batch, ANSWER, ANSWERS, DEFAULT_BATCHES, ON_A_TAPE};
use crate::generate::SEEDS_APART;
use crate::messages::DATA_ACK;
use crate::model::answer::*;
use crate::model::batch::BatchReply;
use crate::model::exporter::{Exporter, MOST_RECORDS};
use crate::model::message::MAX_RECORD_OCTETS;
use crate::model::replay::{read_settings, read_tape, Replay};
use crate::tape::MESSAGE;
use std::collections::BTreeMap;

/// How often each situation must be met.
const LEAST: u64 = 20;

/// How many batches are enough for what holds of all.
pub const SOME: usize = 5_000;

/// The batches of a default run.
pub fn batches() -> impl Iterator<Item = Batch> {
    let first = SEEDS_APART / ON_A_TAPE;
    (first..first + DEFAULT_BATCHES.div_ceil(ON_A_TAPE)).flat_map(on_tape)
}

/// A batch that the model has made.
struct Made<'a> {
    batch: &'a Batch,
    before: &'a Exporter,
    after: Replay,
    reply: BatchReply,
    /// The flags and the DSN of each message.
    messages: Vec<(u8, u32)>,
}

impl Made<'_> {
    fn of(batch: &Batch) -> Made<'_> {
        let before = &batch.before.exporter;
        let (mut after, mut out) = (batch.before.clone(), batch.batch_out.clone());
        let reply = batch.make(&mut after, &mut out, &Exporter::batch);
        let mut rest = &out[..reply.written];
        let mut messages = Vec::new();
        for held in before.queue.iter().skip(before.sent).take(reply.count) {
            let (message, others) = rest.split_at(FRONT_OCTETS + held.length);
            messages.push((message[11], u32::from_be_bytes([message[12], message[13], message[14], message[15]])));
            rest = others;
        }
        assert!(rest.is_empty(), "the count is not that of the messages");
        Made { batch, before, after, reply, messages }
    }

    /// The batch has this answer, after at least one message or at once.
    fn stops(&self, answer: u8, after_some: bool) -> bool {
        self.reply.answer == answer && (self.reply.count > 0) == after_some
    }

    /// No octet of the output is left.
    fn is_full(&self) -> bool {
        self.reply.written == self.batch.batch_out.len()
    }

    /// The records that waited before the batch.
    fn waiting(&self) -> usize {
        self.before.queue.len() - self.before.sent
    }

    /// The octets of the message that the batch stopped before.
    fn next_message(&self) -> Option<usize> {
        let exporter = &self.after.exporter;
        exporter.queue.get(exporter.sent).map(|held| FRONT_OCTETS + held.length)
    }

    /// The octets that the output lacks for that message.
    fn lacks(&self, octets: usize) -> bool {
        let needed = self.next_message().map(|next| self.reply.written + next);
        self.reply.answer == OUTPUT_TOO_SHORT && needed == Some(self.batch.batch_out.len() + octets)
    }

    /// This number is given where so many records wait and all that it allows fit.
    fn is_given(&self, number: usize, waiting: usize) -> bool {
        self.batch.number == number && self.waiting() == waiting && self.reply.count == number.min(waiting)
    }

    /// The number is 0 and the answer this one.
    fn is_empty(&self, answer: u8) -> bool {
        self.batch.number == 0 && self.reply.answer == answer
    }

    /// The store that the batch is lent is too short, and the state is sound.
    fn is_lent_too_little(&self) -> bool {
        self.before.is_sound() && self.batch.lent < self.batch.store
    }

    /// Some message that is not the first has these flags.
    fn has_later(&self, flags: u8) -> bool {
        self.messages.iter().skip(1).any(|message| message.0 == flags)
    }

    /// The first message is sent once more in its activation, with these flags or without.
    fn resends(&self, s: u8) -> bool {
        self.before.sent < self.before.reached && self.messages.first().is_some_and(|message| message.0 & 1 == s)
    }

    /// A record of the batch whose place in the store and octets, and the store's length, are so.
    fn sends(&self, are_so: fn(usize, usize, usize) -> bool) -> bool {
        let Exporter { store_length, ring_start, sent, queue, .. } = self.before;
        (*sent..sent + self.reply.count).any(|record| {
            let place = (ring_start + self.before.octets_before(record)) % store_length;
            are_so(place, queue[record].length, *store_length)
        })
    }

    /// An event after the batch, with the exporter before it, is so.
    fn is_followed(&self, is_so: fn(&Exporter, u8, &[u8], u8) -> bool) -> bool {
        let mut replay = self.after.clone();
        self.batch.later.iter().any(|event| {
            let before = replay.exporter.clone();
            let answer = replay.event(event.kind, event.server, &event.body).answer;
            is_so(&before, event.kind, &event.body, answer)
        })
    }

    /// A DATA ACK after the batch, of as many records as were reached and so many more, has this answer.
    fn is_acknowledged(&self, answer: u8, names: fn(u32, u32) -> bool) -> bool {
        let mut replay = self.after.clone();
        self.batch.later.iter().any(|event| {
            let before = replay.exporter.clone();
            let own = replay.event(event.kind, event.server, &event.body).answer;
            let is_ack = event.kind == MESSAGE && event.body.len() == 16 && event.body[1] == DATA_ACK;
            is_ack && own == answer && {
                let dsn = u32::from_be_bytes([event.body[8], event.body[9], event.body[10], event.body[11]]);
                names(before.acknowledged_count(dsn), before.reached as u32)
            }
        })
    }
}

/// A situation: its name, and whether a batch is in it.
type Situation = (&'static str, fn(&Made) -> bool);

const SITUATIONS: [Situation; 60] = [
    ("the number is reached as the output is full, more wait", |it| {
        it.stops(DONE, true) && it.is_full() && it.next_message().is_some()
    }),
    ("the number is reached as the output is full, none wait", |it| {
        it.stops(DONE, true) && it.is_full() && it.next_message().is_none()
    }),
    ("the number is reached, and the next message does not fit", |it| {
        let left = it.batch.batch_out.len() - it.reply.written;
        it.stops(DONE, true) && left > 0 && it.next_message().is_some_and(|next| next > left)
    }),
    ("the number is reached, and the next message would fit", |it| {
        let left = it.batch.batch_out.len() - it.reply.written;
        it.stops(DONE, true) && it.next_message().is_some_and(|next| next <= left)
    }),
    ("the number is reached with the last record", |it| {
        it.stops(DONE, true) && !it.is_full() && it.next_message().is_none()
    }),
    ("the queue ends as the output is full", |it| it.stops(NOTHING_TO_SEND, true) && it.is_full()),
    ("the queue ends before the output is full", |it| it.stops(NOTHING_TO_SEND, true) && !it.is_full()),
    ("nothing is to be sent", |it| it.stops(NOTHING_TO_SEND, false)),
    ("nothing is to be sent and the output is empty", |it| it.stops(NOTHING_TO_SEND, false) && it.is_full()),
    ("a message does not fit after another", |it| it.stops(OUTPUT_TOO_SHORT, true)),
    ("the first message does not fit", |it| it.stops(OUTPUT_TOO_SHORT, false)),
    ("the output lacks one octet after a message", |it| it.lacks(1) && it.reply.count > 0),
    ("the output lacks one octet for the first message", |it| it.lacks(1) && it.reply.count == 0),
    ("the output is full and more wait", |it| it.stops(OUTPUT_TOO_SHORT, true) && it.is_full()),
    ("the last message of the number does not fit", |it| {
        it.stops(OUTPUT_TOO_SHORT, true) && it.reply.count + 1 == it.batch.number
    }),
    ("a message does not fit, a later one would", |it| {
        let left = it.batch.batch_out.len() - it.reply.written;
        let Exporter { sent, queue, .. } = &it.after.exporter;
        it.stops(OUTPUT_TOO_SHORT, true) && queue.iter().skip(*sent).any(|held| FRONT_OCTETS + held.length <= left)
    }),
    ("63 of 64", |it| it.is_given(63, MOST_RECORDS)),
    ("64 of 64", |it| it.is_given(64, MOST_RECORDS)),
    ("65 of 64", |it| it.is_given(65, MOST_RECORDS)),
    ("any number of 64", |it| it.is_given(usize::MAX, MOST_RECORDS)),
    ("64 records, the last does not fit", |it| it.lacks(1) && it.reply.count == MOST_RECORDS - 1),
    ("a number of over 32 bits whose low ones are few", |it| {
        let low = it.batch.number & 0xffff_ffff;
        it.batch.number > low && it.reply.count > low
    }),
    ("a resend with S", |it| it.resends(1)),
    ("a resend without S", |it| it.resends(0) && it.before.sent == 0),
    ("a resend from the middle", |it| it.resends(0) && it.before.sent > 0),
    ("a resend and more", |it| it.before.sent < it.before.reached && it.before.reached < it.after.exporter.sent),
    ("a resend that does not reach all again", |it| {
        it.reply.count > 0 && it.after.exporter.sent < it.after.exporter.reached
    }),
    ("S without D, then neither", |it| it.messages.first().is_some_and(|message| message.0 == 1) && it.has_later(0)),
    ("S and D, then D", |it| it.messages.first().is_some_and(|message| message.0 == 3) && it.has_later(2)),
    ("D, then none", |it| it.messages.windows(2).any(|pair| pair[0].0 & 2 == 2 && pair[1].0 & 2 == 0)),
    ("no S at the beginning", |it| it.messages.first().is_some_and(|message| message.0 & 1 == 0)),
    ("a record crosses the end of the store", |it| it.sends(|place, octets, store| place + octets > store)),
    ("a record begins at the start of the store, behind another", |it| {
        it.reply.count > 1
            && it.sends(|place, octets, _| place == 0 && octets > 0)
            && it.sends(|place, octets, store| octets > 0 && place + octets == store)
    }),
    ("records lie before and behind the end of the store", |it| {
        it.sends(|place, octets, store| place + octets > store)
            && it.sends(|place, octets, _| octets > 0 && place < 600)
            && it.reply.count > 1
    }),
    ("DSNs wrap", |it| it.messages.windows(2).any(|pair| pair[0].1 == u32::MAX && pair[1].1 == 0)),
    ("DSNs wrap with the last message", |it| it.reply.count > 1 && it.messages.last().is_some_and(|last| last.1 == 0)),
    ("an empty record", |it| it.sends(|_, octets, _| octets == 0)),
    ("a record of 1,024 octets", |it| it.sends(|_, octets, _| octets == MAX_RECORD_OCTETS)),
    ("a server above 7", |it| it.reply.count > 1 && it.before.active.is_some_and(|server| server > 7)),
    ("a timer that runs", |it| it.reply.count > 0 && it.before.timer > 0),
    ("an activation that begins with the batch", |it| it.reply.count > 1 && it.before.reached == 0),
    ("number 0 with records that wait", |it| it.is_empty(DONE) && it.before.active.is_some() && it.waiting() > 0),
    ("number 0 with nothing to send", |it| it.is_empty(DONE) && it.before.active.is_some() && it.waiting() == 0),
    ("number 0 with no active server", |it| it.is_empty(DONE) && it.before.active.is_none()),
    ("number 0 with no output", |it| it.is_empty(DONE) && it.is_full() && it.waiting() > 0),
    ("number 0 on an unsound state", |it| it.is_empty(UNSOUND_STATE) && !it.before.is_sound()),
    ("number 0 with a short store", |it| it.is_empty(UNSOUND_STATE) && it.is_lent_too_little()),
    ("1 on an unsound state", |it| it.batch.number > 0 && it.reply.answer == UNSOUND_STATE && !it.before.is_sound()),
    ("1 with a store one octet short, where a message would fit", |it| {
        let mut after = it.before.clone();
        let whole = after.next_data(&it.batch.before.store, &mut it.batch.batch_out.clone()).answer;
        it.batch.number > 0 && it.is_lent_too_little() && it.batch.lent + 1 == it.batch.store && whole == DONE
    }),
    ("1 with no store", |it| it.batch.number > 0 && it.is_lent_too_little() && it.batch.lent == 0),
    ("1 with a short store and no active server", |it| {
        it.batch.number > 0 && it.is_lent_too_little() && it.before.active.is_none()
    }),
    ("1 with a short store and nothing to send", |it| {
        it.batch.number > 0 && it.is_lent_too_little() && it.before.active.is_some() && it.waiting() == 0
    }),
    ("no active server", |it| it.stops(NO_ACTIVE_SERVER, false) && !it.before.queue.is_empty()),
    ("a store of another length than the settings name", |it| {
        let events = read_tape(&it.batch.tape).expect("a sound tape");
        it.reply.count > 0 && read_settings(&events[0].body).is_some_and(|(_, named)| named != it.batch.store)
    }),
    ("no call comes after it", |it| it.batch.later.is_empty()),
    ("its place is past the last event", |it| {
        let count = u16::from_be_bytes([it.batch.tape[0], it.batch.tape[1]]);
        it.batch.place > count
    }),
    ("all that was sent is acknowledged after it", |it| {
        it.reply.count > 0 && it.is_acknowledged(DONE, |count, reached| count == reached)
    }),
    ("one more is acknowledged after it", |it| {
        it.reply.count > 0 && it.is_acknowledged(DSN_NOT_ACKNOWLEDGEABLE, |count, reached| count == reached + 1)
    }),
    ("sending begins again after it", |it| it.reply.count > 0 && it.is_acknowledged(DONE, |count, _| count == 0)),
    ("another server takes over after it and is sent the records", |it| {
        it.reply.count > 0
            && it.is_followed(|before, kind, _, answer| {
                let active = before.active;
                let first = before.queue.get(before.sent);
                let is_d = first.is_some_and(|held| held.sent_to.iter().any(|server| active != Some(*server)));
                kind == crate::tape::NEXT && answer == DONE && is_d
            })
    }),
];

#[test]
fn every_situation_is_met() {
    let mut counts = [0; SITUATIONS.len()];
    let mut answers: BTreeMap<u8, u64> = BTreeMap::new();
    for batch in batches() {
        let made = Made::of(&batch);
        for (count, (_, is_met)) in counts.iter_mut().zip(&SITUATIONS) {
            *count += u64::from(is_met(&made));
        }
        *answers.entry(made.reply.answer).or_default() += 1;
    }
    for (count, (name, _)) in counts.iter().zip(&SITUATIONS) {
        println!("{name}: {count}");
    }
    println!("{answers:?}");
    for (count, (name, _)) in counts.iter().zip(&SITUATIONS) {
        assert!(*count >= LEAST, "'{name}' was met {count} times");
    }
    assert!(answers.keys().eq(&ANSWERS) && answers.values().all(|count| *count >= 500), "{answers:?}");
}

#[test]
fn every_tape_is_sound_and_as_the_model_has_it() {
    for batch in batches().take(SOME) {
        let events = read_tape(&batch.tape).expect("a sound tape");
        let place = usize::from(batch.place).min(events.len());
        assert_eq!(events[place..], batch.later);
        assert_eq!(batch.runs[0].part, ANSWER);
        assert!(batch.runs.iter().all(|run| run.end >= batch.place) && batch.runs.is_sorted_by_key(|run| run.end));
        if let Ok(mut replay) = Replay::set_up_over(&events[0].body, vec![0; batch.store]) {
            (replay.table, replay.output) = (events[1].body.clone(), batch.out.clone());
            for event in &events[2..place] {
                replay.event(event.kind, event.server, &event.body);
            }
            assert_eq!(replay, batch.before);
        } else {
            assert!(!batch.before.exporter.is_sound());
        }
    }
}

/// A batch another way: each message is written to an output of its own, and stands in the batch's if it fits there.
fn one_by_one(exporter: &mut Exporter, store: &[u8], out: &mut [u8], number: usize) -> BatchReply {
    let mut own = [0; FRONT_OCTETS + MAX_RECORD_OCTETS];
    let mut octets = Vec::new();
    let mut count = 0;
    let answer = loop {
        let mut after = exporter.clone();
        let single = after.next_data(store, &mut own);
        let fits = octets.len() + single.written <= out.len();
        match single.answer {
            UNSOUND_STATE => break UNSOUND_STATE,
            _ if count == number => break DONE,
            DONE if fits => octets.extend_from_slice(&own[..single.written]),
            DONE => break OUTPUT_TOO_SHORT,
            refusal => break refusal,
        }
        (*exporter, count) = (after, count + 1);
    };
    out[..octets.len()].copy_from_slice(&octets);
    BatchReply { answer, count, written: octets.len() }
}

#[test]
fn the_model_is_as_messages_written_one_by_one() {
    for batch in batches().take(SOME) {
        assert_eq!(batch.of_program(&one_by_one), batch.of_model(), "{}", batch.describe());
    }
}
