//! A message of an edition, CRANE or IPDR/SP: read alone and written again, by the version that names the edition. What
//! is read as IPDR/SP's is also asked for part by part.

use super::{again_parts, number_of, Outcome};
use crate::library;
use crate::model::answer::DONE;
use crate::model::{ipdr, message};
use crate::text::words::hex;

/// The version that the reading is told, the message, and the output.
#[derive(Clone, Debug)]
pub struct Edition {
    pub version: u8,
    pub message: Vec<u8>,
    pub out: Vec<u8>,
}

/// The parts of an IPDR/SP message that are compared: none has more than thirteen, and those that it does not have are 0.
const PARTS: [u8; 16] = [0, 1, 2, 3, 4, 5, 6, 7, 8, 9, 10, 11, 12, 13, 14, 255];

impl Edition {
    /// The message is read as CRANE's.
    pub fn is_crane(&self) -> bool {
        self.version == message::VERSION
    }

    /// What the model answers.
    pub fn of_model(&self) -> Outcome {
        let mut out = self.out.clone();
        if self.is_crane() {
            let numbers = vec![again_parts(&self.message, &mut out)[0]];
            return Outcome { numbers, out };
        }
        let parts = ipdr_parts(&self.message);
        let part = |number: u8| parts.get(usize::from(number)).copied().unwrap_or(0);
        let numbers = [ipdr_again(&self.message, &mut out)].into_iter().chain(PARTS.map(part)).collect();
        Outcome { numbers, out }
    }

    /// What the libraries answer: one to reading and writing again, the other to the parts of what is IPDR/SP's.
    pub fn of_library(&self) -> Outcome {
        let mut out = self.out.clone();
        let mut numbers = vec![library::edition_read_again(self.version, &self.message, &mut out)];
        if !self.is_crane() {
            numbers.extend(PARTS.map(|part| library::ipdr_read_part(&self.message, part)));
        }
        Outcome { numbers, out }
    }

    /// The arguments in words and hex.
    pub fn describe(&self) -> String {
        let Edition { version, message, out } = self;
        format!("version {version} message {}\noutput of {} octets: {}", hex(message), out.len(), hex(out))
    }
}

/// What reading an IPDR/SP message and writing it again answers.
fn ipdr_again(message: &[u8], out: &mut [u8]) -> u64 {
    number_of(ipdr::read(message).and_then(|(said, part)| ipdr::write(&said, part, out)))
}

/// What reading an IPDR/SP message answers: place and length of its text or record, session, message number, and the
/// fields in the layout's order.
fn ipdr_parts(message: &[u8]) -> Vec<u64> {
    match ipdr::read(message) {
        Ok((said, part)) => {
            let place = part.as_ptr() as usize - message.as_ptr() as usize;
            let mut parts = vec![u64::from(DONE), place as u64, part.len() as u64];
            parts.extend([u64::from(said.session), u64::from(said.layout.number)]);
            parts.extend(said.values);
            parts
        }
        Err(refusal) => vec![u64::from(refusal)],
    }
}

#[cfg(test)]
pub mod tests {
    use super::*;
    use crate::generate::SEEDS_APART;
    use crate::inputs::{input, Input, EDITION};
    use crate::model::answer::*;
    use crate::model::ipdr::{layout, Layout, DATA, LAYOUTS, SESSION_START};
    use std::collections::{BTreeMap, BTreeSet};

    /// Where an outcome's numbers have the parts of an IPDR/SP message: the reading's answer, place and length of the
    /// text or record, the session, the message number, and the first field.
    pub const READ: usize = 1;
    pub const PLACE: usize = 2;
    pub const LENGTH: usize = 3;
    pub const SESSION: usize = 4;
    pub const NUMBER: usize = 5;
    pub const FIELDS: usize = 6;

    /// The messages of editions of a default run.
    pub fn editions() -> impl Iterator<Item = Edition> {
        (0..100_000).map(|seed| match input(EDITION, SEEDS_APART + seed) {
            Input::Edition(edition) => edition,
            other => panic!("{other:?}"),
        })
    }

    /// Those that are read as IPDR/SP's and have the version and one of the ten numbers, with the model's answer.
    fn of_the_ten() -> impl Iterator<Item = (&'static Layout, Edition, u8)> {
        editions().filter_map(|edition| match edition.message[..] {
            [ipdr::VERSION, number, ..] if !edition.is_crane() => {
                let answer = edition.of_model().answer();
                layout(number).map(|layout| (layout, edition, answer))
            }
            _ => None,
        })
    }

    #[test]
    fn every_message_gets_every_answer() {
        let mut counts: BTreeMap<(u8, u8), u64> = BTreeMap::new();
        for (layout, _, answer) in of_the_ten() {
            *counts.entry((layout.number, answer)).or_default() += 1;
        }
        for layout in &LAYOUTS {
            let due = [SHORT_MESSAGE, LENGTH_DIFFERS, BODY_LENGTH_WRONG, DONE, OUTPUT_TOO_SHORT, RECORD_TOO_LONG];
            let due = if layout.text.is_some() { &due[..] } else { &due[..5] };
            let seen: BTreeSet<u8> = counts.keys().filter(|key| key.0 == layout.number).map(|key| key.1).collect();
            assert_eq!(seen, due.iter().copied().collect::<BTreeSet<u8>>(), "{}", layout.name);
        }
        assert!(counts.values().all(|count| *count >= 20), "{counts:?}");
    }

    #[test]
    fn each_edition_gets_every_answer() {
        let mut seen = BTreeSet::new();
        for edition in editions() {
            seen.insert((edition.is_crane(), edition.of_model().answer()));
        }
        let of = |crane: bool| seen.iter().filter(|pair| pair.0 == crane).map(|pair| pair.1).collect::<Vec<u8>>();
        assert_eq!(of(true), [0, 3, 4, 5, 7, 8, 12, 17, 21]);
        assert_eq!(of(false), [0, 3, 4, 5, 7, 8, 12, 17]);
    }

    #[test]
    fn texts_of_all_lengths_are_met() {
        let mut seen: BTreeSet<(u8, u64, u8)> = BTreeSet::new();
        for (layout, edition, answer) in of_the_ten() {
            seen.insert((layout.number, edition.of_model().numbers[LENGTH], answer));
        }
        for layout in LAYOUTS.iter().filter(|layout| layout.text.is_some()) {
            for length in [0, 1, 16, 1_023, 1_024] {
                assert!(seen.contains(&(layout.number, length, DONE)), "{} {length}", layout.name);
            }
            assert!(seen.contains(&(layout.number, 1_024, OUTPUT_TOO_SHORT)), "{}", layout.name);
            assert!(seen.contains(&(layout.number, 1_025, RECORD_TOO_LONG)), "{}", layout.name);
        }
    }

    #[test]
    fn every_truncation_is_met() {
        let mut seen: BTreeSet<(u8, usize, u8)> = BTreeSet::new();
        for (layout, edition, answer) in of_the_ten() {
            seen.insert((layout.number, edition.message.len(), answer));
        }
        for layout in &LAYOUTS {
            for length in 2..layout.least_octets() {
                let due: &[u8] = if length < 8 { &[SHORT_MESSAGE] } else { &[LENGTH_DIFFERS, BODY_LENGTH_WRONG] };
                for answer in due {
                    assert!(seen.contains(&(layout.number, length, *answer)), "{} {length}: {answer}", layout.name);
                }
            }
        }
    }

    #[test]
    fn booleans_and_flags_have_every_octet() {
        let mut seen: BTreeSet<(u8, u8)> = BTreeSet::new();
        for (layout, edition, _) in of_the_ten().filter(|(_, _, answer)| *answer == DONE) {
            let place = match layout.number {
                SESSION_START => 28,
                DATA => 12,
                _ => 3,
            };
            seen.insert((place, edition.message[usize::from(place)]));
        }
        assert_eq!(seen.len(), 3 * 256);
    }

    #[test]
    fn outputs_fit_exactly_and_lack_one_octet() {
        let mut seen: BTreeSet<(u8, usize, bool)> = BTreeSet::new();
        for (layout, edition, answer) in of_the_ten().filter(|(_, _, answer)| [DONE, OUTPUT_TOO_SHORT].contains(answer))
        {
            let (message, out) = (edition.message.len(), edition.out.len());
            if out == 0 || out + 1 == message || out == message || out == message + 19 {
                seen.insert((layout.number, (out + 1).saturating_sub(message).min(2), answer == DONE));
            }
        }
        for layout in &LAYOUTS {
            for (excess, done) in [(0, false), (1, true), (2, true)] {
                assert!(seen.contains(&(layout.number, excess, done)), "{} {excess}", layout.name);
            }
        }
    }
}
