//! Seeded inputs for the libraries' functions, and for whole records, which take several of them together. An input is
//! determined by its function and its seed.
//!
//! The model and the library get the same input; the answers and every octet of the output must be the same.

mod edition;
mod make;
#[cfg(test)]
mod mistakes;
#[cfg(test)]
mod order;
mod whole;

use crate::library;
use crate::model::answer::{
    BODY_LENGTH_WRONG, DONE, LENGTH_DIFFERS, MESSAGE_NOT_ACCEPTED, OTHER_VERSION, OUTPUT_TOO_SHORT, RECORD_INVALID,
    RECORD_TOO_LONG, SHORT_MESSAGE, TEMPLATE_NOT_FOUND, UNSOUND_TABLE,
};
use crate::model::message::Message;
use crate::model::walk::{Cursor, Field, Step, Value};
use crate::model::{append, message, record, table, walk};
use crate::random::Random;
use crate::text::words::hex;
use edition::Edition;
use whole::Whole;

pub use make::edition::sound_parts as sound_ipdr_parts;

/// One function of the libraries, or what takes several, and the answers that its inputs can get.
pub struct Function {
    pub name: &'static str,
    pub answers: &'static [u8],
    make: fn(&mut Random) -> Input,
}

pub const FUNCTIONS: [Function; 9] = [
    Function { name: "table", answers: &[DONE, UNSOUND_TABLE], make: make::table },
    Function { name: "find", answers: &[DONE, TEMPLATE_NOT_FOUND, UNSOUND_TABLE], make: make::find },
    Function {
        name: "record",
        answers: &[DONE, TEMPLATE_NOT_FOUND, RECORD_INVALID, UNSOUND_TABLE],
        make: make::record,
    },
    Function { name: "message", answers: MESSAGE_ANSWERS, make: make::message },
    Function { name: "open", answers: &[DONE, TEMPLATE_NOT_FOUND, RECORD_INVALID, UNSOUND_TABLE], make: make::open },
    Function {
        name: "step",
        answers: &[DONE, TEMPLATE_NOT_FOUND, RECORD_INVALID, UNSOUND_TABLE, library::END],
        make: make::step,
    },
    Function { name: "append", answers: &[DONE, OUTPUT_TOO_SHORT, RECORD_INVALID, UNSOUND_TABLE], make: make::append },
    Function { name: "whole", answers: &[DONE, OUTPUT_TOO_SHORT, RECORD_INVALID], make: make::whole },
    Function { name: "edition", answers: MESSAGE_ANSWERS, make: make::edition::edition },
];

/// What reading a message and writing it again can answer.
const MESSAGE_ANSWERS: &[u8] = &[
    DONE,
    SHORT_MESSAGE,
    OTHER_VERSION,
    LENGTH_DIFFERS,
    MESSAGE_NOT_ACCEPTED,
    BODY_LENGTH_WRONG,
    OUTPUT_TOO_SHORT,
    RECORD_TOO_LONG,
    UNSOUND_TABLE,
];

/// The number of the function that reads messages of editions. A run has as many inputs of it as of all before it.
pub const EDITION: usize = FUNCTIONS.len() - 1;

/// The number of a function, by its name.
pub fn function_number(name: &str) -> Option<usize> {
    FUNCTIONS.iter().position(|function| function.name == name)
}

/// The arguments of one call, or of all that a whole record takes.
#[derive(Clone, Debug)]
pub enum Input {
    Table { table: Vec<u8> },
    Find { table: Vec<u8>, id: u16 },
    Record { table: Vec<u8>, id: u16, record: Vec<u8> },
    Message { message: Vec<u8>, out: Vec<u8> },
    Open { table: Vec<u8>, id: u16, record: Vec<u8> },
    Step { table: Vec<u8>, id: u16, record: Vec<u8>, cursor: Cursor },
    Append { flags: u8, kind: u16, sort: u8, number: u64, octets: Vec<u8>, out: Vec<u8>, at: usize },
    Whole(Whole),
    Edition(Edition),
}

/// What a call gives back: one or more numbers, and the output's octets after it.
#[derive(Debug, PartialEq, Eq)]
pub struct Outcome {
    pub numbers: Vec<u64>,
    pub out: Vec<u8>,
}

/// The input of a function and a seed.
pub fn input(function: usize, seed: u64) -> Input {
    let mut random = Random::from_parts(&[0x1a7e_b175, function as u64, seed]);
    (FUNCTIONS[function].make)(&mut random)
}

/// The parts of an answer that are compared; no answer has more than ten, and those that it does not have are 0.
const PARTS: [u8; 12] = [0, 1, 2, 3, 4, 5, 6, 7, 8, 9, 10, 255];

impl Input {
    /// What the model answers.
    pub fn of_model(&self) -> Outcome {
        match self {
            Input::Table { table } => Outcome::of(if table::is_sound(table) { DONE } else { UNSOUND_TABLE }),
            Input::Find { table, id } => Outcome::of_list(&found_parts(table, *id)),
            Input::Record { table, id, record } => Outcome::of(record::judge(table, *id, record)),
            Input::Message { message, out } => {
                let mut out = out.clone();
                let parts = again_parts(message, &mut out);
                Outcome { out, ..Outcome::of_list(&parts) }
            }
            Input::Open { table, id, record } => Outcome::of_numbers(&[
                u64::from(walk::open(table, *id, record)),
                number_of(walk::count_fields(table, *id, record)),
            ]),
            Input::Step { table, id, record, cursor } => {
                Outcome::of_list(&step_parts(walk::step(table, *id, record, *cursor)))
            }
            Input::Append { flags, kind, sort, number, octets, out, at } => {
                let value = value_of(*sort, *number);
                Outcome::of_output(out, |out| number_of(append::append_under(*flags, *kind, value, octets, out, *at)))
            }
            Input::Whole(whole) => whole.outcome(Input::of_model),
            Input::Edition(edition) => edition.of_model(),
        }
    }

    /// What the library answers.
    pub fn of_library(&self) -> Outcome {
        match self {
            Input::Table { table } => Outcome::of(library::table_answer(table)),
            Input::Find { table, id } => Outcome::of_parts(|part| library::find_part(table, *id, part)),
            Input::Record { table, id, record } => Outcome::of(library::record_answer(table, *id, record)),
            // Each call writes the same octets again.
            Input::Message { message, out } => {
                let mut out = out.clone();
                let numbers = PARTS.iter().map(|part| library::read_again(message, &mut out, *part)).collect();
                Outcome { numbers, out }
            }
            Input::Open { table, id, record } => Outcome::of_numbers(&[
                u64::from(library::open_answer(table, *id, record)),
                library::count_fields(table, *id, record),
            ]),
            Input::Step { table, id, record, cursor } => {
                Outcome::of_parts(|part| library::step_part(table, *id, record, cursor.index, cursor.at, part))
            }
            Input::Append { flags, kind, sort, number, octets, out, at } => {
                Outcome::of_output(out, |out| library::append(*flags, *kind, *sort, *number, octets, out, *at))
            }
            Input::Whole(whole) => whole.outcome(Input::of_library),
            Input::Edition(edition) => edition.of_library(),
        }
    }

    /// What the values of a whole record must give, whatever the model answers; an input of one call has no such.
    pub fn of_values(&self) -> Option<Outcome> {
        match self {
            Input::Whole(whole) => Some(whole.of_values()),
            _ => None,
        }
    }

    /// The arguments in words and hex.
    pub fn describe(&self) -> String {
        match self {
            Input::Table { table } => format!("table {}", hex(table)),
            Input::Find { table, id } => format!("table {}\ntemplate {id}", hex(table)),
            Input::Record { table, id, record } | Input::Open { table, id, record } => {
                format!("table {}\ntemplate {id}\nrecord {}", hex(table), hex(record))
            }
            Input::Message { message, out } => {
                format!("message {}\noutput of {} octets: {}", hex(message), out.len(), hex(out))
            }
            Input::Step { table, id, record, cursor: Cursor { index, at } } => {
                format!("table {}\ntemplate {id}\nrecord {}\nindex {index} place {at}", hex(table), hex(record))
            }
            Input::Append { flags, kind, sort, number, octets, out, at } => format!(
                "flags {flags} type {kind:04x} sort {sort} number {number} octets {}\nplace {at} of output of {} octets: {}",
                hex(octets),
                out.len(),
                hex(out)
            ),
            Input::Whole(whole) => whole.describe(),
            Input::Edition(edition) => edition.describe(),
        }
    }
}

impl Outcome {
    fn of(answer: u8) -> Outcome {
        Outcome::of_numbers(&[u64::from(answer)])
    }

    fn of_numbers(numbers: &[u64]) -> Outcome {
        Outcome { numbers: numbers.to_vec(), out: Vec::new() }
    }

    /// The parts of an answer, each by its number.
    fn of_parts(part: impl Fn(u8) -> u64) -> Outcome {
        Outcome { numbers: PARTS.iter().map(|number| part(*number)).collect(), out: Vec::new() }
    }

    /// The same, from the list of all that there are.
    fn of_list(parts: &[u64]) -> Outcome {
        Outcome::of_parts(|number| parts.get(usize::from(number)).copied().unwrap_or(0))
    }

    /// The number that a call answers, and what it leaves in a copy of the output.
    fn of_output(out: &[u8], call: impl FnOnce(&mut [u8]) -> u64) -> Outcome {
        let mut out = out.to_vec();
        Outcome { numbers: vec![call(&mut out)], out }
    }

    /// The numbers, and the output in hex.
    pub fn describe(&self) -> String {
        let numbers: Vec<String> = self.numbers.iter().map(u64::to_string).collect();
        let out = if self.out.is_empty() { String::new() } else { format!("; output {}", hex(&self.out)) };
        format!("{}{out}", numbers.join(" "))
    }

    /// The answer number; 0 for an answer that carries a number.
    pub fn answer(&self) -> u8 {
        u8::try_from(self.numbers[0]).unwrap_or(DONE)
    }
}

/// What an accepted answer carries, or the refusal, in the library's form.
fn number_of(answer: Result<usize, u8>) -> u64 {
    match answer {
        Ok(carried) => carried as u64 + library::ACCEPTED,
        Err(refusal) => u64::from(refusal),
    }
}

/// The value that a sort and a number stand for in the library's form.
fn value_of(sort: u8, number: u64) -> Value {
    match sort {
        library::NUMBER => Value::Number(number),
        library::NEGATIVE => Value::Negative(number),
        _ => Value::Octets,
    }
}

/// What finding a template answers: where its key blocks begin and how many there are.
fn found_parts(table: &[u8], id: u16) -> Vec<u64> {
    match record::find_template(table, id) {
        Ok((_, template)) => vec![u64::from(DONE), template.keys_at as u64, template.keys.len() as u64],
        Err(refusal) => vec![u64::from(refusal)],
    }
}

/// What reading a message and writing it again answers: how many octets were written, place and length of its part, and
/// what it says.
fn again_parts(message: &[u8], out: &mut [u8]) -> Vec<u64> {
    match message::read(message) {
        Ok((said, part)) => {
            let at = part.as_ptr() as usize - message.as_ptr() as usize;
            let mut parts = vec![number_of(message::write(&said, part, out)), at as u64, part.len() as u64];
            parts.extend(message_parts(&said));
            parts
        }
        Err(refusal) => vec![u64::from(refusal)],
    }
}

/// Message number, session, Configuration ID, boot time or DSN, template ID, S and D; 0 for what it does not say.
fn message_parts(said: &Message) -> [u64; 7] {
    let (configuration, long, template, s, d) = match *said {
        Message::StartAck { boot_time, .. } => (0, boot_time, 0, false, false),
        Message::FinalTmplDataAck { configuration_id, .. } => (configuration_id, 0, 0, false, false),
        Message::Data { template_id, configuration_id, s, d, dsn, .. } => (configuration_id, dsn, template_id, s, d),
        Message::DataAck { dsn, configuration_id, .. } => (configuration_id, dsn, 0, false, false),
        _ => (0, 0, 0, false, false),
    };
    let header = said.header();
    [
        u64::from(header.number),
        u64::from(header.session),
        u64::from(configuration),
        u64::from(long),
        u64::from(template),
        u64::from(s),
        u64::from(d),
    ]
}

/// What a step answers: its field, and the cursor after it.
fn step_parts(step: Step) -> Vec<u64> {
    match step {
        Step::Refused(refusal) => vec![u64::from(refusal)],
        Step::End => vec![u64::from(library::END)],
        Step::Next(Field { kind, at, len, value }, after) => {
            let (sort, size) = match value {
                Value::Octets => (library::OCTETS, 0),
                Value::Number(size) => (library::NUMBER, size),
                Value::Negative(size) => (library::NEGATIVE, size),
            };
            let (index, next) = (after.index as u64, after.at as u64);
            vec![u64::from(DONE), u64::from(kind), at as u64, len as u64, u64::from(sort), size, index, next]
        }
    }
}
