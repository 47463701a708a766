//! Messages of both editions, made up: most are IPDR/SP's, sound or with one thing damaged, or two.

use super::{message_octets, output_near, sound_message};
use crate::inputs::edition::Edition;
use crate::inputs::Input;
use crate::messages::{self, MessageParts, HEADER_OCTETS};
use crate::model::ipdr::{self, Layout, Type, INNER_LENGTH_OCTETS, LAYOUTS};
use crate::model::message;
use crate::random::Random;

/// A message of either edition. Now and then the reading is told the other edition, or the message has the other's
/// version.
pub fn edition(random: &mut Random) -> Input {
    let (version, message) = match random.below(16) {
        0 | 1 => (message::VERSION, message_octets(random)),
        2 => crossed(random),
        3 => (random.octet(), ipdr_octets(random)),
        _ => (ipdr::VERSION, ipdr_octets(random)),
    };
    let out = output_near(random, message.len());
    Input::Edition(Edition { version, message, out })
}

/// A sound message of one edition that is read as the other's, or has the other's version, or both.
fn crossed(random: &mut Random) -> (u8, Vec<u8>) {
    let mut parts = if random.once_in(2) { sound_message(random) } else { sound(random).parts };
    if random.once_in(2) {
        parts.version = message::VERSION + ipdr::VERSION - parts.version;
    }
    (*random.pick(&[message::VERSION, ipdr::VERSION]), parts.octets())
}

/// An IPDR/SP message that can be damaged part by part: its layout, and the place where it is cut off.
struct Draft {
    layout: &'static Layout,
    parts: MessageParts,
    cut: usize,
}

impl Draft {
    /// The inner length's place in the body, if the message has a text or a record and the body is long enough.
    fn inner_place(&self) -> Option<usize> {
        let place = self.layout.front_octets() - HEADER_OCTETS;
        (self.layout.text.is_some() && place + INNER_LENGTH_OCTETS <= self.parts.body.len()).then_some(place)
    }

    fn octets(&self) -> Vec<u8> {
        let mut octets = self.parts.octets();
        octets.truncate(self.cut);
        octets
    }
}

/// One of the ten messages, sound.
fn sound(random: &mut Random) -> Draft {
    let layout = random.pick(&LAYOUTS);
    Draft { layout, parts: sound_parts(random, layout), cut: usize::MAX }
}

/// A sound message of a layout: any fields, any flags, and a text or a record of any length.
pub fn sound_parts(random: &mut Random, layout: &Layout) -> MessageParts {
    let mut body = Vec::new();
    for field in layout.fields {
        body.extend(field_octets(random, field.kind));
    }
    if layout.text.is_some() {
        let length = text_length(random);
        body.extend((length as u32).to_be_bytes());
        body.extend(random.octets(length));
    }
    let flags = if random.once_in(2) { random.octet() } else { 0 };
    MessageParts { version: ipdr::VERSION, flags, ..MessageParts::new(layout.number, random.octet(), body) }
}

/// The octets of a field: any, or all 0, all ones, or a small number.
fn field_octets(random: &mut Random, kind: Type) -> Vec<u8> {
    let count = kind.octets();
    match random.below(if count == 1 { 24 } else { 6 }) {
        0 => vec![0; count],
        1 => vec![255; count],
        2 => [vec![0; count - 1], vec![random.octet() % 4]].concat(),
        _ => random.octets(count),
    }
}

/// How long a text or a record shall be: mostly short, in places around the limit.
fn text_length(random: &mut Random) -> usize {
    match random.below(12) {
        0 => *random.pick(&[1_023, 1_024, 1_024, 1_025, 1_025, 1_026, 2_000]),
        1 => random.below(1_100),
        2 | 3 => *random.pick(&[0, 1, 16]),
        _ => random.below(40),
    }
}

const DAMAGES: [fn(&mut Random, &mut Draft); 10] = [
    length_field,
    inner_length,
    inner_length,
    shorter_body,
    longer_body,
    cut_off,
    other_number,
    number_of_the_ten,
    other_version,
    header_cut_off,
];

/// An IPDR/SP message: sound, or with one damage or two, or octets without any plan.
fn ipdr_octets(random: &mut Random) -> Vec<u8> {
    let mut draft = sound(random);
    let damages = random.weighted(&[5, 5, 1]);
    for _ in 0..damages {
        random.pick(&DAMAGES)(random, &mut draft);
    }
    if random.once_in(60) {
        let count = random.below(60);
        return random.octets(count);
    }
    draft.octets()
}

/// The header's length is one more or less than the octets, or far from them.
fn length_field(random: &mut Random, draft: &mut Draft) {
    let length = draft.parts.octets().len() as u32;
    let others = [length + 1, length - 1, 0, length << 8, length | 1 << 16, length | 1 << 31, u32::MAX];
    draft.parts.length = Some(*random.pick(&others));
}

/// The inner length is one more or less than the octets left, or far from them.
fn inner_length(random: &mut Random, draft: &mut Draft) {
    let Some(place) = draft.inner_place() else {
        return;
    };
    let (body, end) = (&mut draft.parts.body, place + INNER_LENGTH_OCTETS);
    let left = (body.len() - end) as u32;
    let any = random.number() as u32;
    let below = random.below(left as usize) as u32;
    let others = [
        left + 1,
        left + 1,
        left.saturating_sub(1),
        left.saturating_sub(1),
        below,
        0,
        left + 4,
        left + 256,
        left + 65_536,
        left | 1 << 31,
        left.swap_bytes(),
        left.wrapping_sub(end as u32),
        u32::MAX,
        any,
    ];
    body[place..end].copy_from_slice(&random.pick(&others).to_be_bytes());
}

/// The body ends early, and the header's length says so.
fn shorter_body(random: &mut Random, draft: &mut Draft) {
    let least = draft.layout.least_octets() - HEADER_OCTETS;
    let length = draft.parts.body.len();
    let kept = if random.once_in(2) { random.below(least.min(length)) } else { random.below(length) };
    draft.parts.body.truncate(kept);
}

/// An octet follows the body, or some, and the header's length says so.
fn longer_body(random: &mut Random, draft: &mut Draft) {
    let count = if random.once_in(2) { 1 } else { random.between(2, 9) };
    draft.parts.body.extend(random.octets(count));
}

/// The message ends early, and the header's length does not say so.
fn cut_off(random: &mut Random, draft: &mut Draft) {
    let length = draft.parts.octets().len();
    draft.cut =
        if random.once_in(2) { random.below(draft.layout.least_octets().min(length)) } else { random.below(length) };
}

/// The message ends in its header.
fn header_cut_off(random: &mut Random, draft: &mut Draft) {
    draft.cut = random.below(HEADER_OCTETS + 1);
}

/// Any number, or one that CRANE has.
fn other_number(random: &mut Random, draft: &mut Draft) {
    draft.parts.number = if random.once_in(2) { random.octet() } else { *random.pick(&messages::KNOWN) };
}

fn number_of_the_ten(random: &mut Random, draft: &mut Draft) {
    draft.parts.number = random.pick(&LAYOUTS).number;
}

fn other_version(random: &mut Random, draft: &mut Draft) {
    let any = random.octet();
    draft.parts.version = *random.pick(&[message::VERSION, message::VERSION, 0, 3, 255, any]);
}
