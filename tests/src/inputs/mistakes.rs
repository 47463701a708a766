//! A test that the messages of editions of a default run tell programs with one mistake from the right one.

use super::edition::tests::{editions, FIELDS, LENGTH, NUMBER, PLACE, READ, SESSION};
use super::edition::Edition;
use super::Outcome;
use crate::library::ACCEPTED;
use crate::model::answer::{LENGTH_DIFFERS, MESSAGE_NOT_ACCEPTED, OTHER_VERSION, OUTPUT_TOO_SHORT, RECORD_TOO_LONG};
use crate::model::ipdr::{self, layout, Layout, DATA, DATA_ACKNOWLEDGE, INNER_LENGTH_OCTETS, SESSION_START};
use crate::model::message;

/// How many messages must tell each mistake.
const LEAST: usize = 20;

/// A mistake, and what a program with it answers.
struct Mistake {
    name: &'static str,
    outcome: fn(&Edition) -> Outcome,
}

const fn mistake(name: &'static str, outcome: fn(&Edition) -> Outcome) -> Mistake {
    Mistake { name, outcome }
}

const MISTAKES: [Mistake; 33] = [
    mistake("configId and sequenceNum are exchanged in DATA ACKNOWLEDGE", exchanged_acknowledgement),
    mistake("the duplicate mark is bit 1", duplicate_in_bit_1),
    mistake("any flag is the duplicate mark", |edition| {
        with_field(edition, DATA, 12, |octets| octets[0] = u8::from(octets[0] != 0))
    }),
    mistake("the other flags of DATA are written", |edition| written_as_read(edition, DATA, 12)),
    mistake("message flags are written", flags_written),
    mistake("the inner length is ignored", |edition| with_inner_length(edition, |_, _| true)),
    mistake("the inner length is refused only if too large", |edition| {
        with_inner_length(edition, |inner, left| inner < left)
    }),
    mistake("the inner length is refused only if too small", |edition| {
        with_inner_length(edition, |inner, left| inner > left)
    }),
    mistake("the inner length has 16 bits", |edition| {
        with_inner_length(edition, |inner, left| inner & 0xffff == left & 0xffff)
    }),
    mistake("the inner length counts itself", |edition| with_inner_length(edition, |inner, left| inner == left + 4)),
    mistake("IPDR/SP takes CRANE's version", |edition| {
        with_version(edition, !edition.is_crane(), message::VERSION, ipdr::VERSION)
    }),
    mistake("CRANE takes IPDR/SP's version", |edition| {
        with_version(edition, edition.is_crane(), ipdr::VERSION, message::VERSION)
    }),
    mistake("the version must be the one told", version_told),
    mistake("the length field is judged before the version", length_before_version),
    mistake("the message number is judged before the length field", number_before_length),
    mistake("the text begins one octet early", text_early),
    mistake("an empty text is written without its length", empty_text_left_out),
    mistake("an empty text lies at octet 0", empty_text_at_the_start),
    mistake("a text that is too long is not read", long_text_not_read),
    mistake("what is refused has its session read", session_of_refused),
    mistake("17 is judged after 12", long_after_short),
    mistake("a text of 1,024 octets is refused", |edition| refused_text(edition, 1_024)),
    mistake("a text of 1,025 octets is written", longer_text_written),
    mistake("the sequence number of DATA has 32 bits", |edition| {
        with_field(edition, DATA, 13, |octets| octets[..4].fill(0))
    }),
    mistake("the sequence number of DATA ACKNOWLEDGE has 32 bits", |edition| {
        with_field(edition, DATA_ACKNOWLEDGE, 10, |octets| octets[..4].fill(0))
    }),
    mistake("the sequence number of DATA has 32 bits and a sign", signed_sequence_number),
    mistake("configId has 8 bits", |edition| with_field(edition, DATA, 10, |octets| octets[0] = 0)),
    mistake("primary is true for 1 only", |edition| {
        with_field(edition, SESSION_START, 28, |octets| octets[0] = u8::from(octets[0] == 1))
    }),
    mistake("primary is written as it was read", |edition| written_as_read(edition, SESSION_START, 28)),
    mistake("documentId's halves are exchanged", exchanged_halves),
    mistake("the body may be longer than the fields", longer_body),
    mistake("the octet behind the message is changed", octet_behind),
    mistake("a message that does not fit is begun", begun),
];

/// What the right program answers to the input with a changed message.
fn changed(edition: &Edition, change: impl FnOnce(&mut Vec<u8>)) -> Outcome {
    let mut other = edition.clone();
    change(&mut other.message);
    other.of_model()
}

/// The layout of a message that is read as IPDR/SP's and long enough for it.
fn layout_of(edition: &Edition) -> Option<&'static Layout> {
    let layout = layout(*edition.message.get(1)?)?;
    (!edition.is_crane() && edition.message.len() >= layout.least_octets()).then_some(layout)
}

/// The input is a message of a number that is read as IPDR/SP's.
fn is_read(edition: &Edition, number: u8) -> bool {
    !edition.is_crane() && edition.of_model().numbers[NUMBER] == u64::from(number)
}

/// The reading refuses the message, so both answers are the refusal.
fn refuse(outcome: &mut Outcome, refusal: u8) {
    outcome.numbers[0] = u64::from(refusal);
    outcome.numbers[READ] = u64::from(refusal);
}

/// Octets were written.
fn is_written(outcome: &Outcome) -> bool {
    outcome.numbers[0] >= ACCEPTED
}

/// The field from a place on is read, and so written, as if its octets were changed.
fn with_field(edition: &Edition, number: u8, place: usize, change: fn(&mut [u8])) -> Outcome {
    match layout_of(edition) {
        Some(layout) if layout.number == number => changed(edition, |message| change(&mut message[place..])),
        _ => edition.of_model(),
    }
}

/// An octet is written as it stands in the message.
fn written_as_read(edition: &Edition, number: u8, place: usize) -> Outcome {
    let mut outcome = edition.of_model();
    if is_read(edition, number) && is_written(&outcome) {
        outcome.out[place] = edition.message[place];
    }
    outcome
}

fn flags_written(edition: &Edition) -> Outcome {
    let mut outcome = edition.of_model();
    if !edition.is_crane() && is_written(&outcome) {
        outcome.out[3] = edition.message[3];
    }
    outcome
}

fn exchanged_acknowledgement(edition: &Edition) -> Outcome {
    let mut outcome = edition.of_model();
    if is_read(edition, DATA_ACKNOWLEDGE) {
        let read = changed(edition, |message| message[8..18].rotate_left(8));
        outcome.numbers = read.numbers;
    }
    outcome
}

fn duplicate_in_bit_1(edition: &Edition) -> Outcome {
    let mut outcome = with_field(edition, DATA, 12, |octets| octets[0] >>= 1);
    if is_read(edition, DATA) && is_written(&outcome) {
        outcome.out[12] <<= 1;
    }
    outcome
}

/// An inner length that is taken, with the octets left, is as good as the right one.
fn with_inner_length(edition: &Edition, is_taken: fn(u64, u64) -> bool) -> Outcome {
    let Some(layout) = layout_of(edition).filter(|layout| layout.text.is_some()) else {
        return edition.of_model();
    };
    let (place, end) = (layout.front_octets(), layout.front_octets() + INNER_LENGTH_OCTETS);
    let left = (edition.message.len() - end) as u32;
    let inner = edition.message[place..end].iter().fold(0, |inner, octet| inner << 8 | u64::from(*octet));
    if !is_taken(inner, u64::from(left)) {
        return edition.of_model();
    }
    changed(edition, |message| message[place..end].copy_from_slice(&left.to_be_bytes()))
}

/// One version in a message is as good as the right one.
fn with_version(edition: &Edition, is_so: bool, taken: u8, right: u8) -> Outcome {
    match edition.message.first() {
        Some(version) if is_so && *version == taken => changed(edition, |message| message[0] = right),
        _ => edition.of_model(),
    }
}

/// The version in the message is compared with the one that the reading was told.
fn version_told(edition: &Edition) -> Outcome {
    match edition.message.first() {
        Some(version) if !edition.is_crane() => {
            let version = if *version == edition.version { ipdr::VERSION } else { 0 };
            changed(edition, |message| message[0] = version)
        }
        _ => edition.of_model(),
    }
}

/// The header's length is not that of the message.
fn length_differs(message: &[u8]) -> bool {
    message.get(4..8).is_some_and(|length| length != (message.len() as u32).to_be_bytes())
}

fn length_before_version(edition: &Edition) -> Outcome {
    let mut outcome = edition.of_model();
    if !edition.is_crane() && outcome.answer() == OTHER_VERSION && length_differs(&edition.message) {
        refuse(&mut outcome, LENGTH_DIFFERS);
    }
    outcome
}

fn number_before_length(edition: &Edition) -> Outcome {
    let mut outcome = edition.of_model();
    if !edition.is_crane() && outcome.answer() == LENGTH_DIFFERS && layout(edition.message[1]).is_none() {
        refuse(&mut outcome, MESSAGE_NOT_ACCEPTED);
    }
    outcome
}

/// The input is a message that is read as IPDR/SP's and has a text or a record.
fn has_text(edition: &Edition) -> bool {
    layout_of(edition).is_some_and(|layout| layout.text.is_some() && is_read(edition, layout.number))
}

fn text_early(edition: &Edition) -> Outcome {
    let mut outcome = edition.of_model();
    if has_text(edition) && is_written(&outcome) {
        let end = edition.message.len();
        let begin = end - outcome.numbers[LENGTH] as usize;
        outcome.numbers[PLACE] -= 1;
        outcome.out[begin..end].copy_from_slice(&edition.message[begin - 1..end - 1]);
    }
    outcome
}

fn empty_text_left_out(edition: &Edition) -> Outcome {
    let mut outcome = edition.of_model();
    if has_text(edition) && is_written(&outcome) && outcome.numbers[LENGTH] == 0 {
        let length = edition.message.len() - INNER_LENGTH_OCTETS;
        outcome.numbers[0] = length as u64 + ACCEPTED;
        outcome.out[4..8].copy_from_slice(&(length as u32).to_be_bytes());
        outcome.out[length..].copy_from_slice(&edition.out[length..]);
    }
    outcome
}

fn empty_text_at_the_start(edition: &Edition) -> Outcome {
    let mut outcome = edition.of_model();
    if has_text(edition) && outcome.numbers[LENGTH] == 0 {
        outcome.numbers[PLACE] = 0;
    }
    outcome
}

fn long_text_not_read(edition: &Edition) -> Outcome {
    let mut outcome = edition.of_model();
    if has_text(edition) && outcome.answer() == RECORD_TOO_LONG {
        outcome.numbers[READ..].fill(0);
        refuse(&mut outcome, RECORD_TOO_LONG);
    }
    outcome
}

fn session_of_refused(edition: &Edition) -> Outcome {
    let mut outcome = edition.of_model();
    if !edition.is_crane() && outcome.numbers[READ] != 0 && edition.message.len() > 2 {
        outcome.numbers[SESSION] = u64::from(edition.message[2]);
    }
    outcome
}

fn long_after_short(edition: &Edition) -> Outcome {
    let mut outcome = edition.of_model();
    if has_text(edition) && outcome.answer() == RECORD_TOO_LONG && edition.out.len() < edition.message.len() {
        outcome.numbers[0] = u64::from(OUTPUT_TOO_SHORT);
    }
    outcome
}

/// A text of that length is refused as too long.
fn refused_text(edition: &Edition, length: u64) -> Outcome {
    let mut outcome = edition.of_model();
    if has_text(edition) && outcome.numbers[LENGTH] == length {
        outcome.numbers[0] = u64::from(RECORD_TOO_LONG);
        outcome.out.copy_from_slice(&edition.out);
    }
    outcome
}

fn longer_text_written(edition: &Edition) -> Outcome {
    let mut outcome = edition.of_model();
    let length = edition.message.len();
    if has_text(edition) && outcome.numbers[LENGTH] == 1_025 && edition.out.len() >= length {
        outcome.numbers[0] = length as u64 + ACCEPTED;
        outcome.out[..length].copy_from_slice(&edition.message);
    }
    outcome
}

/// The last 32 bits are read, and their sign goes on to 64.
fn signed_sequence_number(edition: &Edition) -> Outcome {
    with_field(edition, DATA, 13, |octets| {
        let filling = if octets[4] >= 128 { 255 } else { 0 };
        octets[..4].fill(filling);
    })
}

fn exchanged_halves(edition: &Edition) -> Outcome {
    let mut outcome = edition.of_model();
    if is_read(edition, SESSION_START) {
        outcome.numbers.swap(FIELDS + 6, FIELDS + 7);
    }
    outcome
}

/// Octets behind the fields of a message without text are ignored.
fn longer_body(edition: &Edition) -> Outcome {
    match layout_of(edition) {
        Some(layout) if layout.text.is_none() && !length_differs(&edition.message) => changed(edition, |message| {
            message.truncate(layout.least_octets());
            let length = (message.len() as u32).to_be_bytes();
            message[4..8].copy_from_slice(&length);
        }),
        _ => edition.of_model(),
    }
}

fn octet_behind(edition: &Edition) -> Outcome {
    let mut outcome = edition.of_model();
    if !edition.is_crane() && is_written(&outcome) {
        let end = (outcome.numbers[0] - ACCEPTED) as usize;
        outcome.out.iter_mut().skip(end).take(1).for_each(|octet| *octet = 0);
    }
    outcome
}

fn begun(edition: &Edition) -> Outcome {
    let mut outcome = edition.of_model();
    if !edition.is_crane() && outcome.answer() == OUTPUT_TOO_SHORT {
        outcome.out.iter_mut().zip(&edition.message).for_each(|(octet, other)| *octet = *other);
    }
    outcome
}

#[test]
fn every_mistake_is_told() {
    let mut counts = [0; MISTAKES.len()];
    for edition in editions() {
        let right = edition.of_model();
        for (count, mistake) in counts.iter_mut().zip(&MISTAKES).filter(|(count, _)| **count < LEAST) {
            *count += usize::from((mistake.outcome)(&edition) != right);
        }
    }
    for (count, mistake) in counts.iter().zip(&MISTAKES) {
        println!("{}: {count}", mistake.name);
        assert!(*count >= LEAST, "'{}' was told by {count} messages", mistake.name);
    }
}
