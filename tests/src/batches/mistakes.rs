//! A test that the batches of a default run tell programs with one mistake in the batch call from the right one.

use super::make::FRONT_OCTETS;
use super::situations::{batches, SOME};
use super::{Batch, Given};
use crate::model::answer::{DONE, NOTHING_TO_SEND, NO_ACTIVE_SERVER, OUTPUT_TOO_SHORT};
use crate::model::batch::BatchReply;
use crate::model::exporter::{Exporter, Held, Reply};
use crate::model::message::MAX_RECORD_OCTETS;

/// How many batches must tell each mistake.
const LEAST: usize = 20;

/// The place of the flags and of the DSN in DATA, and the flags.
const FLAGS_AT: usize = 11;
const DSN_AT: usize = 12;
const S: u8 = 1;
const D: u8 = 2;

/// A mistake, by what differs from the right program.
enum Mistake {
    /// Another given number.
    Number(fn(usize) -> usize),
    /// What the right program leaves is changed.
    Left(fn(&mut Made)),
    /// Each message of the batch is changed.
    Message(fn(&mut Single)),
    /// Another single call.
    Call(fn(&mut Single) -> Reply),
    /// The octets that a single call is lent begin elsewhere.
    Begin(fn(usize) -> usize),
}

use Mistake::{Begin, Call, Left, Message, Number};

/// What the right program has made of a batch.
struct Made<'a> {
    before: &'a Exporter,
    exporter: &'a mut Exporter,
    store: &'a [u8],
    /// The output before the batch.
    blank: &'a [u8],
    out: &'a mut [u8],
    number: usize,
    reply: BatchReply,
}

/// A single call of a batch: the exporters at the batch's beginning and now, and the octets left.
struct Single<'a> {
    first: &'a Exporter,
    exporter: &'a mut Exporter,
    store: &'a [u8],
    out: &'a mut [u8],
    /// How many messages stand before it.
    count: usize,
    /// The octets of the whole output.
    whole: usize,
}

const MISTAKES: [(&str, Mistake); 67] = [
    ("it stops one before the number", Number(|number| number.saturating_sub(1))),
    ("it stops one after the number", Number(|number| number.saturating_add(1))),
    ("a number of 0 is 1", Number(|number| number.max(1))),
    ("the number has 8 bits", Number(|number| number & 0xff)),
    ("the number has 16 bits", Number(|number| number & 0xffff)),
    ("the number has 32 bits", Number(|number| number & 0xffff_ffff)),
    ("the number has a sign", Number(|number| if number > usize::MAX / 2 { 0 } else { number })),
    ("at most 63 are written", Number(|number| number.min(63))),
    ("a number above 64 is 64", Number(|number| number.min(64))),
    ("12 where the number is reached and the next does not fit", Left(|it| it.judged_once_more(OUTPUT_TOO_SHORT))),
    ("12 where the number is reached and the output is full", Left(|it| it.full(DONE))),
    ("14 where the number is reached with the last record", Left(|it| it.judged_once_more(NOTHING_TO_SEND))),
    ("12 where the queue ends and the output is full", Left(|it| it.full(NOTHING_TO_SEND))),
    ("0 where the queue ends after a message", Left(|it| it.answers_after_some(NOTHING_TO_SEND, DONE))),
    ("0 where a message does not fit after another", Left(|it| it.answers_after_some(OUTPUT_TOO_SHORT, DONE))),
    (
        "14 where a message does not fit after another",
        Left(|it| it.answers_after_some(OUTPUT_TOO_SHORT, NOTHING_TO_SEND)),
    ),
    ("0 where nothing is to be sent", Left(|it| it.answers_at_once(NOTHING_TO_SEND, DONE))),
    ("0 where the first message does not fit", Left(|it| it.answers_at_once(OUTPUT_TOO_SHORT, DONE))),
    ("13 is answered 14", Left(|it| it.answers_at_once(NO_ACTIVE_SERVER, NOTHING_TO_SEND))),
    ("14 is answered 13", Left(|it| it.answers_at_once(NOTHING_TO_SEND, NO_ACTIVE_SERVER))),
    ("a number of 0 answers 14 with nothing to send", Left(|it| it.judged_at_0(NOTHING_TO_SEND))),
    ("a number of 0 answers 13 with no active server", Left(|it| it.judged_at_0(NO_ACTIVE_SERVER))),
    ("a number of 0 answers 12 with a short output", Left(|it| it.judged_at_0(OUTPUT_TOO_SHORT))),
    (
        "a number of 0 answers 0 on an unsound state",
        Left(|it| {
            if it.number == 0 && !it.before.is_sound() {
                it.reply.answer = DONE;
            }
        }),
    ),
    (
        "a number of 0 answers 0 with a short store",
        Left(|it| {
            if it.number == 0 && it.before.is_sound() {
                it.reply.answer = DONE;
            }
        }),
    ),
    (
        "13 comes before 1",
        Left(|it| {
            if it.number > 0 && it.before.is_sound() && it.before.active.is_none() {
                it.reply.answer = NO_ACTIVE_SERVER;
            }
        }),
    ),
    (
        "14 comes before 1",
        Left(|it| {
            if it.number > 0 && it.before.active.is_some() && it.before.sent == it.before.queue.len() {
                it.reply.answer = NOTHING_TO_SEND;
            }
        }),
    ),
    ("the count is one more at a stop", Left(|it| it.reply.count += usize::from(it.reply.answer != DONE))),
    ("the count is that of the given number", Left(|it| it.reply.count = it.number)),
    ("the octets are those of the last message", Left(|it| it.reply.written = it.last_octets())),
    ("the octets are those of the output", Left(|it| it.reply.written = it.out.len())),
    ("a message that does not fit is begun", Left(|it| it.begins_the_refused())),
    ("a message that does not fit counts as sent", Left(|it| it.sends_the_refused())),
    (
        "all octets are rolled back where a message does not fit",
        Left(|it| {
            if it.reply.answer == OUTPUT_TOO_SHORT {
                it.out.copy_from_slice(it.blank);
            }
        }),
    ),
    ("the state is rolled back where a message does not fit", Left(|it| it.rolls_back(OUTPUT_TOO_SHORT))),
    ("the state is rolled back where the queue ends", Left(|it| it.rolls_back(NOTHING_TO_SEND))),
    (
        "what was written is rolled back where a message does not fit",
        Left(|it| {
            if it.reply.answer == OUTPUT_TOO_SHORT {
                it.out.copy_from_slice(it.blank);
                it.exporter.clone_from(it.before);
                (it.reply.count, it.reply.written) = (0, 0);
            }
        }),
    ),
    (
        "reached is not raised",
        Left(|it| {
            it.exporter.reached = it.before.reached;
            it.exporter.sent = it.exporter.sent.min(it.before.reached);
        }),
    ),
    (
        "reached is the count at most",
        Left(|it| {
            it.exporter.reached = it.before.reached.max(it.reply.count);
            it.exporter.sent = it.exporter.sent.min(it.exporter.reached);
        }),
    ),
    (
        "reached is sent",
        Left(|it| {
            if it.reply.count > 0 {
                it.exporter.reached = it.exporter.sent;
            }
        }),
    ),
    ("sent grows by one", Left(|it| it.exporter.sent = it.exporter.sent.min(it.before.sent + 1))),
    (
        "sent is the count",
        Left(|it| {
            if it.reply.count > 0 {
                it.exporter.sent = it.reply.count;
            }
        }),
    ),
    (
        "the timer is 0 after a message",
        Left(|it| {
            if it.reply.count > 0 {
                it.exporter.timer = 0;
            }
        }),
    ),
    (
        "S is no longer due after a batch",
        Left(|it| {
            if it.reply.count > 0 {
                it.exporter.began = 0;
            }
        }),
    ),
    ("no set of servers is marked", Left(|it| it.marks(|_, _| false))),
    ("only the first set of servers is marked", Left(|it| it.marks(|place, _| place == 0))),
    ("only the last set of servers is marked", Left(|it| it.marks(|place, count| place + 1 == count))),
    (
        "the octet behind the last message is changed",
        Left(|it| {
            it.out.iter_mut().skip(it.reply.written).take(1).for_each(|octet| *octet ^= 1);
        }),
    ),
    ("the rest of the output is 0", Left(|it| it.out[it.reply.written..].fill(0))),
    ("each message is at the output's start", Begin(|_| 0)),
    ("an octet is left free between messages", Begin(|written| if written > 0 { written + 1 } else { 0 })),
    (
        "each message needs the room of the longest",
        Call(|it| {
            if it.out.len() < FRONT_OCTETS + MAX_RECORD_OCTETS && it.count > 0 {
                it.refused(OUTPUT_TOO_SHORT)
            } else {
                it.right()
            }
        }),
    ),
    (
        "each message needs one octet more",
        Call(|it| {
            let room = it.out.len().saturating_sub(1);
            it.exporter.next_data(it.store, &mut it.out[..room])
        }),
    ),
    ("each message needs the room of the whole output", Call(|it| it.fits_the_whole())),
    ("a message that does not fit is passed over", Call(|it| it.passes_over())),
    (
        "it begins at reached",
        Call(|it| {
            it.exporter.sent = if it.count == 0 { it.exporter.reached } else { it.exporter.sent };
            it.right()
        }),
    ),
    (
        "it begins at the first held record",
        Call(|it| {
            it.exporter.sent = if it.count == 0 { 0 } else { it.exporter.sent };
            it.right()
        }),
    ),
    ("S is never set", Message(|it| it.out[FLAGS_AT] &= !S)),
    (
        "S is set on every message once it is due",
        Message(|it| {
            let Exporter { began, released, .. } = *it.first;
            it.out[FLAGS_AT] |= if began == released + 1 && it.first.sent == 0 { S } else { 0 };
        }),
    ),
    (
        "S is set on the first message of a batch",
        Message(|it| {
            it.out[FLAGS_AT] |= if it.count == 0 { S } else { 0 };
        }),
    ),
    (
        "S is set only if nothing was reached",
        Message(|it| {
            it.out[FLAGS_AT] &= if it.first.reached > 0 { !S } else { 255 };
        }),
    ),
    ("D is never set", Message(|it| it.out[FLAGS_AT] &= !D)),
    (
        "D is the first message's",
        Message(|it| {
            let server = it.first.active;
            let is_other = it.first.queue[it.first.sent].sent_to.iter().any(|other| Some(*other) != server);
            it.out[FLAGS_AT] = it.out[FLAGS_AT] & !D | if is_other { D } else { 0 };
        }),
    ),
    (
        "D is set on a resend",
        Message(|it| {
            it.out[FLAGS_AT] |= if it.first.sent + it.count < it.first.reached { D } else { 0 };
        }),
    ),
    (
        "DSNs stay as the first",
        Message(|it| {
            let dsn = it.first.first_held_dsn().wrapping_add(it.first.sent as u32);
            it.out[DSN_AT..FRONT_OCTETS].copy_from_slice(&dsn.to_be_bytes());
        }),
    ),
    (
        "DSNs do not wrap",
        Message(|it| {
            let dsn = it.first.first_held_dsn().saturating_add((it.first.sent + it.count) as u32);
            it.out[DSN_AT..FRONT_OCTETS].copy_from_slice(&dsn.to_be_bytes());
        }),
    ),
    ("the place in the store stays as the first", Message(|it| it.reads_from(it.first.octets_before(it.first.sent)))),
];

impl Made<'_> {
    /// What a next data call after the batch would answer.
    fn once_more(&self) -> u8 {
        let mut rest = self.blank[self.reply.written..].to_vec();
        self.exporter.clone().next_data(self.store, &mut rest).answer
    }

    /// Where the number is reached a further call is judged, and this answer of it taken.
    fn judged_once_more(&mut self, answer: u8) {
        if self.number > 0 && self.reply.answer == DONE && self.once_more() == answer {
            self.reply.answer = answer;
        }
    }

    /// With a number of 0 a call is judged, and this answer of it taken.
    fn judged_at_0(&mut self, answer: u8) {
        if self.number == 0 && self.once_more() == answer {
            self.reply.answer = answer;
        }
    }

    /// 12 for this answer where the output is full after a message.
    fn full(&mut self, answer: u8) {
        if self.reply.answer == answer && self.reply.count > 0 && self.reply.written == self.out.len() {
            self.reply.answer = OUTPUT_TOO_SHORT;
        }
    }

    fn answers_after_some(&mut self, right: u8, wrong: u8) {
        if self.reply.answer == right && self.reply.count > 0 {
            self.reply.answer = wrong;
        }
    }

    fn answers_at_once(&mut self, right: u8, wrong: u8) {
        if self.reply.answer == right && self.reply.count == 0 {
            self.reply.answer = wrong;
        }
    }

    fn last_octets(&self) -> usize {
        let last = (self.before.sent + self.reply.count).checked_sub(1);
        let held = last.and_then(|place| self.before.queue.get(place)).filter(|_| self.reply.count > 0);
        held.map_or(0, |held| FRONT_OCTETS + held.length)
    }

    /// The octets of the message that does not fit, as far as there is room.
    fn begins_the_refused(&mut self) {
        if self.reply.answer == OUTPUT_TOO_SHORT {
            let mut own = [0; FRONT_OCTETS + MAX_RECORD_OCTETS];
            self.exporter.clone().next_data(self.store, &mut own);
            let rest = &mut self.out[self.reply.written..];
            rest.iter_mut().zip(own).for_each(|(octet, own)| *octet = own);
        }
    }

    /// The state after the message that does not fit.
    fn sends_the_refused(&mut self) {
        if self.reply.answer == OUTPUT_TOO_SHORT {
            let mut own = [0; FRONT_OCTETS + MAX_RECORD_OCTETS];
            self.exporter.next_data(self.store, &mut own);
        }
    }

    /// The state before the batch where it stops with this answer.
    fn rolls_back(&mut self, answer: u8) {
        if self.reply.answer == answer {
            self.exporter.clone_from(self.before);
        }
    }

    /// Only these messages' records, by place in the batch and count, are marked with the active server. Sent and reached
    /// end before the first record that is not marked, so that the state is sound.
    fn marks(&mut self, is_marked: fn(usize, usize) -> bool) {
        let (first, count) = (self.before.sent, self.reply.count);
        for place in (0..count).filter(|place| !is_marked(*place, count)) {
            self.exporter.queue[first + place].sent_to.clone_from(&self.before.queue[first + place].sent_to);
        }
        let active = self.exporter.active;
        let is_sent = |held: &&Held| active.is_some_and(|active| held.sent_to.contains(&active));
        let sound = self.exporter.queue.iter().take_while(is_sent).count();
        self.exporter.reached = self.exporter.reached.min(sound);
        self.exporter.sent = self.exporter.sent.min(sound);
    }
}

impl Single<'_> {
    fn right(&mut self) -> Reply {
        self.exporter.next_data(self.store, self.out)
    }

    fn refused(&self, answer: u8) -> Reply {
        Reply { answer, written: 0 }
    }

    /// A message that fits the whole output is written as far as there is room.
    fn fits_the_whole(&mut self) -> Reply {
        let mut own = vec![0; self.whole];
        let reply = self.exporter.next_data(self.store, &mut own);
        let written = reply.written.min(self.out.len());
        self.out[..written].copy_from_slice(&own[..written]);
        Reply { written, ..reply }
    }

    /// The first record from here on whose message fits is sent.
    fn passes_over(&mut self) -> Reply {
        let before = self.exporter.clone();
        loop {
            let reply = self.right();
            if reply.answer != OUTPUT_TOO_SHORT {
                return reply;
            }
            let mut own = [0; FRONT_OCTETS + MAX_RECORD_OCTETS];
            self.exporter.next_data(self.store, &mut own);
            if self.exporter.sent == self.exporter.queue.len() {
                *self.exporter = before;
                return self.refused(OUTPUT_TOO_SHORT);
            }
        }
    }

    /// The message's record is read from that many octets after the ring's start on.
    fn reads_from(&mut self, offset: usize) {
        let length = self.first.queue[self.first.sent + self.count].length;
        for (octet, at) in self.out[FRONT_OCTETS..FRONT_OCTETS + length].iter_mut().zip(offset..) {
            *octet = self.store[(self.first.ring_start + at) % self.store.len()];
        }
    }
}

/// A batch call with a mistake.
fn mistaken(mistake: &Mistake, exporter: &mut Exporter, store: &[u8], out: &mut [u8], number: usize) -> BatchReply {
    let (before, blank) = (exporter.clone(), out.to_vec());
    match mistake {
        Number(change) => exporter.batch(store, out, change(number)),
        Left(change) => {
            let reply = exporter.batch(store, out, number);
            let mut made = Made { before: &before, exporter, store, blank: &blank, out, number, reply };
            change(&mut made);
            made.reply
        }
        Message(change) => one_by_one(
            exporter,
            store,
            out,
            number,
            |written| written,
            |it| {
                let reply = it.right();
                if reply.answer == DONE {
                    change(it);
                }
                reply
            },
        ),
        Call(call) => one_by_one(exporter, store, out, number, |written| written, call),
        Begin(begin) => one_by_one(exporter, store, out, number, begin, |it| it.right()),
    }
}

/// A batch of these single calls, each lent the output from a place on that the octets written decide.
fn one_by_one(
    exporter: &mut Exporter,
    store: &[u8],
    out: &mut [u8],
    number: usize,
    begin: impl Fn(usize) -> usize,
    call: impl Fn(&mut Single) -> Reply,
) -> BatchReply {
    let first = exporter.clone();
    let mut reply = exporter.batch(store, &mut [], 0);
    while reply.count < number && reply.answer == DONE {
        let place = begin(reply.written).min(out.len());
        let (whole, out) = (out.len(), &mut out[place..]);
        let single = call(&mut Single { first: &first, exporter, store, out, count: reply.count, whole });
        reply.answer = single.answer;
        reply.count += usize::from(single.answer == DONE);
        reply.written = if single.answer == DONE { place + single.written } else { reply.written };
    }
    reply
}

/// What a program with a mistake gives back.
fn given(batch: &Batch, mistake: &Mistake) -> Vec<Given> {
    batch.of_program(&|exporter, store, out, number| mistaken(mistake, exporter, store, out, number))
}

#[test]
fn every_mistake_is_told() {
    let mut counts = [0; MISTAKES.len()];
    for batch in batches() {
        if counts.iter().all(|count| *count >= LEAST) {
            break;
        }
        let right = batch.of_model();
        for (count, (_, mistake)) in counts.iter_mut().zip(&MISTAKES).filter(|(count, _)| **count < LEAST) {
            *count += usize::from(given(&batch, mistake) != right);
        }
    }
    for (count, (name, _)) in counts.iter().zip(&MISTAKES) {
        println!("{name}: {count}");
    }
    for (count, (name, _)) in counts.iter().zip(&MISTAKES) {
        assert!(*count >= LEAST, "'{name}' was told by {count} batches");
    }
}

#[test]
fn a_program_without_a_mistake_is_not_told() {
    for batch in batches().take(SOME) {
        let right = batch.of_model();
        assert_eq!(given(&batch, &Number(|number| number)), right);
        assert_eq!(given(&batch, &Left(|_| {})), right);
        assert_eq!(given(&batch, &Message(|_| {})), right);
        assert_eq!(given(&batch, &Call(|it| it.right())), right);
        assert_eq!(given(&batch, &Begin(|written| written)), right);
    }
}
