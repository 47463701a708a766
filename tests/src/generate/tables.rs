//! Seeded template tables: sound ones of every shape, and ones with a single damage.

use crate::random::Random;
use crate::tables::{
    padded, Key, Order, Table, Template, BLOB, BLOCK_HEAD_OCTETS, BOOLEAN, FIELD_TYPES, KEY_OCTETS, MAX_KEYS,
    MAX_TABLE_OCTETS, MAX_TEMPLATES, STRING, TABLE_HEAD_OCTETS, ZERO_STRING,
};

/// The order of a made table: little-endian once in `times`. It is drawn beside the source, so that it moves none of the
/// other numbers that are drawn.
pub fn order(random: &Random, times: usize) -> Order {
    if random.beside(0x0de2).once_in(times) {
        Order::Little
    } else {
        Order::Big
    }
}

/// How often the tables of tapes are little-endian: once in so many times.
const LITTLE_ONCE_IN: usize = 4;

/// A table that suits a session: an unsigned number, a blob of any length, a template with all keys disabled, and a
/// mixed one.
pub fn everyday(random: &mut Random, configuration: u8) -> Table {
    let order = order(random, LITTLE_ONCE_IN);
    let ids = template_ids(random, 4);
    let mixed = [BOOLEAN, STRING, 0x0010, ZERO_STRING, 0x0009];
    let kinds: [&[u16]; 4] = [&[0x0004], &[BLOB], &[0x0006, STRING], &mixed];
    let templates = (0..4).map(|place| {
        let disabled = place == 2;
        let keys = (0..).zip(kinds[place]).map(|(id, kind)| Key { id: id + 9, kind: *kind, disabled }).collect();
        Template { id: ids[place], description: b"use"[..random.between(0, 3)].to_vec(), keys }
    });
    Table { configuration, order, templates: templates.collect() }
}

/// A sound table with up to that many templates, and keys in each.
pub fn sound(random: &mut Random, configuration: u8, most_templates: usize, most_keys: usize) -> Table {
    let order = order(random, LITTLE_ONCE_IN);
    let count = random.between(1, most_templates);
    let ids = template_ids(random, count);
    let templates = ids.into_iter().map(|id| {
        let count = random.between(1, most_keys);
        let octets = if random.once_in(2) { random.below(12) } else { 0 };
        Template { id, description: random.octets(octets), keys: keys(random, count) }
    });
    Table { configuration, order, templates: templates.collect() }
}

/// A sound table whose octets are exactly `total`, a multiple of 4: eight templates of 32 keys, or fewer.
pub fn filled(random: &mut Random, configuration: u8, total: usize) -> Table {
    let order = order(random, LITTLE_ONCE_IN);
    let (count, key_count) =
        *random.pick(&[(MAX_TEMPLATES, MAX_KEYS), (MAX_TEMPLATES, MAX_KEYS), (1, MAX_KEYS), (3, 7), (1, 1)]);
    let ids = template_ids(random, count);
    let mut room = total - TABLE_HEAD_OCTETS - count * (BLOCK_HEAD_OCTETS + key_count * KEY_OCTETS);
    let mut templates = Vec::new();
    for (place, id) in ids.into_iter().enumerate() {
        let share = if place + 1 == count { room } else { random.below(room / 4 + 1) * 4 };
        room -= share;
        let unpadded = share - random.below(4.min(share + 1));
        templates.push(Template { id, description: random.octets(unpadded), keys: keys(random, key_count) });
    }
    Table { configuration, order, templates }
}

/// The largest table: 16,384 octets.
pub fn largest(random: &mut Random, configuration: u8) -> Table {
    filled(random, configuration, MAX_TABLE_OCTETS)
}

/// Different template IDs, small ones and any, in any order.
fn template_ids(random: &mut Random, count: usize) -> Vec<u16> {
    let mut ids = Vec::new();
    while ids.len() < count {
        let id = match random.below(4) {
            0 => random.number() as u16,
            1 => *random.pick(&[0, 255, 256, 0x7fff, 0x8000, 0xffff]),
            _ => random.below(20) as u16,
        };
        if !ids.contains(&id) {
            ids.push(id);
        }
    }
    ids
}

/// Keys with different IDs. Now and then all of them are disabled, or none.
fn keys(random: &mut Random, count: usize) -> Vec<Key> {
    let disabled_once_in = *random.pick(&[1, 2, 4, 6, 6, 8, 1000, 1000]);
    let mut keys: Vec<Key> = Vec::new();
    while keys.len() < count {
        let id = if random.once_in(2) { random.number() as u32 } else { random.below(60) as u32 };
        if keys.iter().all(|key| key.id != id) {
            let kind = random.pick(&FIELD_TYPES).number;
            keys.push(Key { id, kind, disabled: random.once_in(disabled_once_in) });
        }
    }
    keys
}

/// One way to damage a table: its name, and the octets of a table with that one damage.
pub struct Damage {
    pub name: &'static str,
    pub apply: fn(&mut Random, Table) -> Vec<u8>,
}

/// Every rule that a table can break, each broken alone.
pub const DAMAGES: [Damage; 26] = [
    Damage { name: "no room for the head", apply: |random, table| table.octets()[..random.below(4)].to_vec() },
    Damage { name: "over 16,384 octets", apply: |random, table| too_long(random, table) },
    Damage { name: "flags above 1", apply: |random, table| patched(table, 1, &[*random.pick(&[128, 2, 3, 129, 255])]) },
    Damage { name: "template count 0", apply: |_, table| vec![table.configuration, table.order.flags(), 0, 0] },
    Damage { name: "nine templates", apply: |random, table| nine_templates(random, table) },
    Damage { name: "template count too large", apply: |random, table| template_count(random, table, 1) },
    Damage { name: "template count too small", apply: |random, table| template_count(random, table, -1) },
    Damage {
        name: "template without keys",
        apply: |random, table| change(random, table, |_, template| template.keys.clear()),
    },
    Damage {
        name: "33 keys",
        apply: |random, table| change(random, table, |random, template| template.keys = keys(random, MAX_KEYS + 1)),
    },
    Damage { name: "key count too large", apply: |random, table| block_number16(random, table, 2, 1) },
    Damage { name: "key count too small", apply: |random, table| block_number16(random, table, 2, -1) },
    Damage {
        name: "template flags",
        apply: |random, table| in_block(random, table, 4, &[&[0, 1], &[1, 0], &[128, 0], &[0, 2]]),
    },
    Damage { name: "description length too large", apply: |random, table| block_number16(random, table, 6, 4) },
    Damage { name: "description length too small", apply: |random, table| description_too_short(random, table) },
    Damage { name: "padding not 0", apply: |random, table| padding(random, table) },
    Damage { name: "block length", apply: |random, table| block_length(random, table) },
    Damage {
        name: "block length of other octets",
        apply: |random, table| in_block(random, table, 8, &[&[255; 4], &[0; 4], &[1], &[128]]),
    },
    Damage { name: "type not listed", apply: |random, table| unlisted_type(random, table) },
    Damage {
        name: "reserved not 0",
        apply: |random, table| in_key(random, table, 6, &[&[0, 1], &[1, 0], &[255, 255]]),
    },
    Damage {
        name: "attributes",
        apply: |random, table| {
            in_key(random, table, 8, &[&[0, 0, 0, 2], &[0, 0, 0, 3], &[1, 0, 0, 0], &[128, 0, 0, 1], &[0, 1, 0, 1]])
        },
    },
    Damage { name: "template ID twice", apply: |random, table| template_twice(random, table) },
    Damage { name: "key ID twice", apply: |random, table| key_twice(random, table) },
    Damage { name: "octets after the last block", apply: |random, table| followed(random, table) },
    Damage { name: "cut short", apply: |random, table| cut(random, table) },
    Damage { name: "a block more than counted", apply: |random, table| uncounted_block(random, table) },
    Damage { name: "an octet moved in", apply: |random, table| moved(random, table) },
];

/// A table's own numbers stand most significant octet first under all flags; each of them turned alone, and all.
pub const TURNED_NUMBERS: [Damage; 5] = [
    Damage { name: "template count turned", apply: |_, table| turned_at(&table, &[(2, 2)]) },
    Damage { name: "key counts turned", apply: |_, table| turned_at(&table, &in_blocks(&table, &[(2, 2)], &[])) },
    Damage { name: "block lengths turned", apply: |_, table| turned_at(&table, &in_blocks(&table, &[(8, 4)], &[])) },
    Damage { name: "types turned", apply: |_, table| turned_at(&table, &in_blocks(&table, &[], &[(4, 2)])) },
    Damage { name: "all numbers turned", apply: |_, table| all_turned(&table) },
];

/// A table with the octets of some numbers, each given by place and width, turned round.
fn turned_at(table: &Table, numbers: &[(usize, usize)]) -> Vec<u8> {
    let mut octets = table.octets();
    for (at, width) in numbers {
        octets[*at..at + width].reverse();
    }
    octets
}

/// The places of numbers that stand so far behind the start of a block, and behind that of a key block.
fn in_blocks(table: &Table, of_block: &[(usize, usize)], of_key: &[(usize, usize)]) -> Vec<(usize, usize)> {
    let mut numbers = Vec::new();
    for (template, block) in table.templates.iter().zip(table.block_places()) {
        numbers.extend(of_block.iter().map(|(at, width)| (block + at, *width)));
        let first_key = block + BLOCK_HEAD_OCTETS + padded(template.description.len());
        for key in (0..template.keys.len()).map(|place| first_key + KEY_OCTETS * place) {
            numbers.extend(of_key.iter().map(|(at, width)| (key + at, *width)));
        }
    }
    numbers
}

/// Every number of a table turned: the template count, those of the blocks and those of the key blocks.
pub fn all_turned(table: &Table) -> Vec<u8> {
    let of_block = [(0, 2), (2, 2), (4, 2), (6, 2), (8, 4)];
    let of_key = [(0, 4), (4, 2), (6, 2), (8, 4)];
    turned_at(table, &[vec![(2, 2)], in_blocks(table, &of_block, &of_key)].concat())
}

/// A table with some octets overwritten.
fn patched(table: Table, at: usize, octets: &[u8]) -> Vec<u8> {
    let mut whole = table.octets();
    whole[at..at + octets.len()].copy_from_slice(octets);
    whole
}

/// A table with one template changed; the lengths stay true.
fn change(random: &mut Random, mut table: Table, change: fn(&mut Random, &mut Template)) -> Vec<u8> {
    let place = random.below(table.templates.len());
    change(random, &mut table.templates[place]);
    table.octets()
}

fn too_long(random: &mut Random, table: Table) -> Vec<u8> {
    let more = *random.pick(&[4, 4, 8, 100]);
    let filled = filled(random, table.configuration, MAX_TABLE_OCTETS + more);
    Table { order: table.order, ..filled }.octets()
}

fn nine_templates(random: &mut Random, mut table: Table) -> Vec<u8> {
    let ids = template_ids(random, MAX_TEMPLATES + 1);
    let sample = table.templates[0].clone();
    table.templates = ids.into_iter().map(|id| Template { id, ..sample.clone() }).collect();
    table.octets()
}

/// Some octets of one block overwritten, `at` octets after its start, by one of the choices.
fn in_block(random: &mut Random, table: Table, at: usize, choices: &[&[u8]]) -> Vec<u8> {
    let block = *random.pick(&table.block_places());
    let octets = *random.pick(choices);
    patched(table, block + at, octets)
}

/// The template count raised or lowered alone.
fn template_count(random: &mut Random, table: Table, by: i16) -> Vec<u8> {
    let times = random.between(1, 2) as i16;
    let count = (table.templates.len() as i16 + by * times).max(0) as u16;
    patched(table, 2, &count.to_be_bytes())
}

/// A number of 16 bits in one block raised or lowered alone.
fn block_number16(random: &mut Random, table: Table, at: usize, by: i16) -> Vec<u8> {
    let octets = table.octets();
    let place = *random.pick(&table.block_places()) + at;
    let number = u16::from_be_bytes([octets[place], octets[place + 1]]);
    patched(table, place, &number.wrapping_add_signed(by).to_be_bytes())
}

fn description_too_short(random: &mut Random, mut table: Table) -> Vec<u8> {
    let place = random.below(table.templates.len());
    let longer = random.between(4, 12);
    table.templates[place].description = random.octets(longer);
    let at = table.block_places()[place] + 6;
    patched(table, at, &((longer - 4) as u16).to_be_bytes())
}

/// One padding octet that is not zero: the first, the last or one between.
fn padding(random: &mut Random, mut table: Table) -> Vec<u8> {
    let place = random.below(table.templates.len());
    let length = *random.pick(&[1, 2, 3, 5, 6, 7, 9]);
    table.templates[place].description = random.octets(length);
    let at = table.block_places()[place] + BLOCK_HEAD_OCTETS + random.between(length, padded(length) - 1);
    patched(table, at, &[*random.pick(&[1, 32, 128, 255])])
}

/// The block length made untrue by a little.
fn block_length(random: &mut Random, table: Table) -> Vec<u8> {
    let place = random.below(table.templates.len());
    let true_length = table.templates[place].block_octets() as u32;
    let by = *random.pick(&[1, 4, 12]);
    let length = if random.once_in(2) { true_length + by } else { true_length - by };
    let at = table.block_places()[place] + 8;
    patched(table, at, &length.to_be_bytes())
}

/// Some octets of one key block overwritten, `at` octets after its start, by one of the choices.
fn in_key(random: &mut Random, table: Table, at: usize, choices: &[&[u8]]) -> Vec<u8> {
    let place = random.below(table.templates.len());
    let template = &table.templates[place];
    let first_key = table.block_places()[place] + BLOCK_HEAD_OCTETS + padded(template.description.len());
    let key = first_key + KEY_OCTETS * random.below(template.keys.len());
    let octets = *random.pick(choices);
    patched(table, key + at, octets)
}

/// Types near the listed ones: beside them, with a bit more, with their octets swapped.
pub const UNLISTED_TYPES: [u16; 28] = [
    0x0000, 0x000c, 0x000d, 0x000e, 0x000f, 0x0017, 0x0018, 0x001f, 0x0020, 0x0100, 0x0101, 0x0104, 0x0110, 0x4000,
    0x4001, 0x4004, 0x400a, 0x400b, 0x400e, 0x400f, 0x4010, 0x4014, 0x4016, 0x0c40, 0x0d40, 0x1540, 0x8001, 0xffff,
];

fn unlisted_type(random: &mut Random, table: Table) -> Vec<u8> {
    let mut kind = *random.pick(&UNLISTED_TYPES);
    if random.once_in(4) {
        kind = random.number() as u16 | 0x2000;
    }
    in_key(random, table, 4, &[&kind.to_be_bytes()])
}

/// Two templates with the same ID: neighbours, or the first and the last.
fn template_twice(random: &mut Random, mut table: Table) -> Vec<u8> {
    if table.templates.len() < 2 {
        let copy = table.templates[0].clone();
        table.templates.push(copy);
        return table.octets();
    }
    let later = random.between(1, table.templates.len() - 1);
    let earlier = random.below(later);
    table.templates[later].id = table.templates[earlier].id;
    table.octets()
}

/// Two keys of one template with the same ID.
fn key_twice(random: &mut Random, mut table: Table) -> Vec<u8> {
    let place = random.below(table.templates.len());
    let keys = &mut table.templates[place].keys;
    if keys.len() < 2 {
        let copy = Key { disabled: !keys[0].disabled, ..keys[0].clone() };
        keys.push(copy);
        return table.octets();
    }
    let later = random.between(1, keys.len() - 1);
    keys[later].id = keys[random.below(later)].id;
    table.octets()
}

fn followed(random: &mut Random, table: Table) -> Vec<u8> {
    let mut octets = table.octets();
    let more = *random.pick(&[1, 2, 3, 4, 12, 24]);
    octets.resize(octets.len() + more, 0);
    octets
}

fn cut(random: &mut Random, table: Table) -> Vec<u8> {
    let mut octets = table.octets();
    let less = *random.pick(&[1, 2, 4, 8, 12]);
    let length = if random.once_in(3) { random.between(4, octets.len() - 1) } else { octets.len() - less };
    octets.truncate(length);
    octets
}

/// A whole sound block after those that are counted.
fn uncounted_block(random: &mut Random, table: Table) -> Vec<u8> {
    let mut octets = table.octets();
    let unlike_all = (0..).find(|id| table.templates.iter().all(|template| template.id != *id)).unwrap_or(0);
    let more = Template { id: unlike_all, description: Vec::new(), keys: keys(random, 1) };
    let alone = Table { configuration: 0, order: table.order, templates: vec![more] };
    octets.extend_from_slice(&alone.octets()[TABLE_HEAD_OCTETS..]);
    octets
}

/// An octet put in before a block, so that all after it stands one place too late.
fn moved(random: &mut Random, table: Table) -> Vec<u8> {
    let mut octets = table.octets();
    let at = *random.pick(&table.block_places());
    octets.insert(at, 0xa5);
    octets
}
