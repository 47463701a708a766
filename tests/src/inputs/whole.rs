//! Whole records: made of their values one after the other, then judged, opened and walked to the end.

use super::{Input, Outcome};
use crate::library::{ACCEPTED, END, OCTETS};
use crate::model::answer::DONE;
use crate::model::walk::Cursor;
use crate::text::words::hex;

/// One value in the form that append takes, and what must become of it.
#[derive(Clone, Debug)]
pub struct Piece {
    pub kind: u16,
    pub sort: u8,
    pub number: u64,
    pub octets: Vec<u8>,
    /// The place of its key among all keys of the template.
    pub key: usize,
    /// The field's octets in the table's order, prefix or zero included.
    pub field: Vec<u8>,
}

/// A sound table, a template of it, a value for each of its enabled keys in order, and the output with the record's
/// place.
#[derive(Clone, Debug)]
pub struct Whole {
    pub table: Vec<u8>,
    pub id: u16,
    pub pieces: Vec<Piece>,
    pub out: Vec<u8>,
    pub at: usize,
    /// The piece that must be refused, and how.
    pub refused: Option<(usize, u8)>,
}

impl Whole {
    /// What the functions of one side answer: each append at the place after the last, then the record's judgement, its
    /// opening with the count of fields, and a step for each field and one for the end. A refused append is the last
    /// call. The first number is the whole's answer.
    pub fn outcome(&self, call: fn(&Input) -> Outcome) -> Outcome {
        let (mut numbers, mut out, mut end) = (vec![u64::from(DONE)], self.out.clone(), self.at);
        for piece in &self.pieces {
            let appended = call(&piece.append(self.flags(), out, end));
            let answer = appended.numbers[0];
            out = appended.out;
            numbers.push(answer);
            if answer < ACCEPTED {
                numbers[0] = answer;
                return Outcome { numbers, out };
            }
            end = (answer - ACCEPTED) as usize;
        }
        numbers.extend(self.reading(call, out.get(self.at..end).unwrap_or(&[])));
        Outcome { numbers, out }
    }

    /// The flags of the table, by which each value is appended.
    fn flags(&self) -> u8 {
        self.table[1]
    }

    /// What reading a record answers: judging it, opening it, and one step more than it has fields.
    fn reading(&self, call: fn(&Input) -> Outcome, record: &[u8]) -> Vec<u64> {
        let (id, arguments) = (self.id, || (self.table.clone(), record.to_vec()));
        let (table, record) = arguments();
        let mut numbers = call(&Input::Record { table, id, record }).numbers;
        let (table, record) = arguments();
        numbers.extend(call(&Input::Open { table, id, record }).numbers);
        let mut cursor = Cursor::default();
        for _ in 0..=self.pieces.len() {
            let (table, record) = arguments();
            let parts = call(&Input::Step { table, id, record, cursor }).numbers;
            cursor = Cursor { index: parts[6] as usize, at: parts[7] as usize };
            numbers.extend(parts);
        }
        numbers
    }

    /// What must come of it, from the values alone: fields that follow each other from the place on, in an otherwise
    /// unchanged output, and steps that answer these values; or the fields before the refused piece.
    pub fn of_values(&self) -> Outcome {
        let (mut numbers, mut out, mut end) = (vec![u64::from(DONE)], self.out.clone(), self.at);
        let mut steps = Vec::new();
        for (place, piece) in self.pieces.iter().enumerate() {
            if let Some((_, answer)) = self.refused.filter(|(refused, _)| *refused == place) {
                numbers[0] = u64::from(answer);
                numbers.push(u64::from(answer));
                return Outcome { numbers, out };
            }
            steps.extend(piece.step(end - self.at));
            let start = end;
            end += piece.field.len();
            out[start..end].copy_from_slice(&piece.field);
            numbers.push(end as u64 + ACCEPTED);
        }
        numbers.extend([u64::from(DONE), u64::from(DONE), self.pieces.len() as u64 + ACCEPTED]);
        numbers.extend(steps);
        numbers.extend(Outcome::of_list(&[u64::from(END)]).numbers);
        Outcome { numbers, out }
    }

    /// The arguments in words and hex, a line for each value.
    pub fn describe(&self) -> String {
        let (table, out) = (hex(&self.table), hex(&self.out));
        let values: Vec<String> = self.pieces.iter().map(Piece::describe).collect();
        format!("table {table}\ntemplate {}\n{}\nplace {} of output {out}", self.id, values.join("\n"), self.at)
    }
}

impl Piece {
    /// The append of this value under a table of these flags at a place of the output.
    fn append(&self, flags: u8, out: Vec<u8>, at: usize) -> Input {
        let Piece { kind, sort, number, .. } = *self;
        Input::Append { flags, kind, sort, number, octets: self.octets.clone(), out, at }
    }

    /// The parts of the step over the field at a place of the record.
    fn step(&self, at: usize) -> Vec<u64> {
        let (at, length) = (at as u64, self.field.len() as u64);
        let size = if self.sort == OCTETS { 0 } else { self.number };
        let (kind, sort) = (u64::from(self.kind), u64::from(self.sort));
        Outcome::of_list(&[u64::from(DONE), kind, at, length, sort, size, self.key as u64 + 1, at + length]).numbers
    }

    /// The arguments of its append.
    pub fn describe(&self) -> String {
        let Piece { kind, sort, number, .. } = self;
        format!("type {kind:04x} sort {sort} number {number} octets {}", hex(&self.octets))
    }
}

#[cfg(test)]
mod tests {
    use super::*;
    use crate::generate::SEEDS_APART;
    use crate::inputs::{function_number, input};
    use crate::library::{NEGATIVE, NUMBER};
    use crate::model::answer::{OUTPUT_TOO_SHORT, RECORD_INVALID};
    use crate::tables::FIELD_TYPES;
    use std::collections::{BTreeMap, BTreeSet};

    /// Whole records, a tenth of those of a default run.
    fn wholes() -> impl Iterator<Item = Whole> {
        let function = function_number("whole").expect("a function");
        (0..1_250).map(move |seed| match input(function, SEEDS_APART + seed) {
            Input::Whole(whole) => whole,
            other => panic!("{other:?}"),
        })
    }

    #[test]
    fn the_model_gives_back_the_values() {
        for whole in wholes() {
            assert_eq!(whole.outcome(Input::of_model), whole.of_values(), "{}", whole.describe());
        }
    }

    #[test]
    fn every_answer_is_met() {
        let mut counts: BTreeMap<u8, u64> = BTreeMap::new();
        for whole in wholes() {
            *counts.entry(whole.of_values().answer()).or_default() += 1;
        }
        assert_eq!(counts.keys().copied().collect::<Vec<u8>>(), [DONE, OUTPUT_TOO_SHORT, RECORD_INVALID]);
        assert!(counts.values().all(|count| *count >= 100), "{counts:?}");
    }

    #[test]
    fn a_short_output_lacks_one_octet_of_the_last_field() {
        for whole in wholes().filter(|whole| whole.refused.is_some_and(|(_, answer)| answer == OUTPUT_TOO_SHORT)) {
            let needed: usize = whole.pieces.iter().map(|piece| piece.field.len()).sum();
            assert_eq!(whole.out.len() + 1, whole.at + needed);
            assert_eq!(whole.refused, Some((whole.pieces.len() - 1, OUTPUT_TOO_SHORT)));
        }
    }

    #[test]
    fn every_type_is_written_and_refused() {
        let (mut written, mut refused) = (BTreeSet::new(), BTreeSet::new());
        for whole in wholes() {
            match whole.refused {
                Some((place, RECORD_INVALID)) => drop(refused.insert(whole.pieces[place].kind)),
                Some(_) => {}
                None => written.extend(whole.pieces.iter().map(|piece| piece.kind)),
            }
        }
        assert_eq!((written.len(), refused.len()), (FIELD_TYPES.len(), FIELD_TYPES.len()));
    }

    #[test]
    fn signed_numbers_at_their_limits_and_empty_records_are_met() {
        let accepted: Vec<Whole> = wholes().filter(|whole| whole.refused.is_none()).collect();
        let empty = accepted.iter().filter(|whole| whole.pieces.is_empty()).count();
        assert!(empty >= 20, "{empty} empty records");
        let pieces: Vec<&Piece> = accepted.iter().flat_map(|whole| &whole.pieces).collect();
        for (kind, width) in [(3, 1), (5, 2), (7, 4), (9, 8)] {
            let half = 1u64 << (8 * width - 1);
            for (sort, number) in [(NUMBER, half - 1), (NEGATIVE, half), (NEGATIVE, 1), (NUMBER, 0)] {
                let is_met = |piece: &&Piece| (piece.kind, piece.sort, piece.number) == (kind, sort, number);
                assert!(pieces.iter().any(is_met), "type {kind} sort {sort} number {number}");
            }
        }
    }
}
