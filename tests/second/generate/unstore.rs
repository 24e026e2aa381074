//! Stored tables: good ones of every tag and count, and those that are good but for one thing.

use super::{names, rows, with_room, Case, Chance};
use crate::forms::Forms;
use crate::stored::{self, tag, Item, Value, MOST_CONTENTS, MOST_ITEMS, MOST_ROOM};
use std::collections::HashSet;

/// Numbers at the edges of the size, and of each of their four bytes.
#[rustfmt::skip]
const NUMBERS: [i64; 20] = [
    0, 1, -1, 2, 127, 128, 255, 256, -256, -257, 65_535, 65_536, 16_777_215, 16_777_216, -16_777_217,
    2_147_483_646, 2_147_483_647, -2_147_483_646, -2_147_483_647, 0x0A2E0A00,
];
/// The bytes of the one number that is too large in size.
const TOO_LARGE: [u8; 4] = [0x80, 0, 0, 0];

/// A field on its way to be written. Where its name begins in the contents is its tag's matter.
#[derive(Clone)]
struct Field {
    tag: u8,
    contents: Vec<u8>,
}

impl Field {
    /// How many bytes stand before the name.
    fn before(&self) -> usize {
        match self.tag {
            tag::INTEGER => 4,
            tag::TRUTH => 1,
            tag::SUBTYPE => 9,
            _ => 0,
        }
        .min(self.contents.len())
    }

    fn name(&self) -> Vec<u8> {
        self.contents[self.before()..].to_vec()
    }

    fn rename(&mut self, name: &[u8]) {
        self.contents.truncate(self.before());
        self.contents.extend_from_slice(name);
        self.contents.truncate(MOST_CONTENTS);
    }
}

pub fn case(chance: &mut Chance, _: &Forms) -> Case {
    let (mut fields, share) = match chance.weigh(&[950, 38, 9]) {
        0 => (table(chance), 55),
        1 => (many_items(chance), 25),
        _ => (long_names(chance), 30),
    };
    let count = fields.len() - 2;
    let mut stored = if chance.percent(share) {
        damaged(chance, &mut fields)
    } else {
        written(&fields)
    };
    // What is read is no longer than the programs' own limit.
    stored.truncate(MOST_ROOM);
    let other_rows = rows(chance, count, MOST_ITEMS, 65);
    if chance.percent(50) {
        return Case {
            mode: b'u',
            element_rows: 0,
            other_rows,
            text: stored,
        };
    }
    let room = rows(chance, stored.len(), MOST_ROOM, 45);
    Case {
        mode: b'a',
        element_rows: 0,
        other_rows,
        text: with_room(room, &stored),
    }
}

fn written(fields: &[Field]) -> Vec<u8> {
    let mut stored = Vec::new();
    for field in fields {
        stored::field(&mut stored, field.tag, &field.contents);
    }
    stored
}

/// A good table: the package, the items, the end.
fn fields(package: Vec<u8>, items: Vec<Item>) -> Vec<Field> {
    let mut fields = vec![Field {
        tag: tag::PACKAGE,
        contents: package,
    }];
    for item in items {
        let (tag, contents) = stored::contents(&item);
        fields.push(Field { tag, contents });
    }
    fields.push(Field {
        tag: tag::END,
        contents: Vec::new(),
    });
    fields
}

/// No item, one, several.
fn table(chance: &mut Chance) -> Vec<Field> {
    let count = match chance.weigh(&[8, 17, 55, 15, 5]) {
        0 => 0,
        1 => 1,
        2 => chance.between(2, 8),
        3 => chance.between(2, 30),
        _ => chance.between(2, 120),
    };
    let share = [0, 10, 25, 60, 100][chance.below(5)];
    let mut taken = HashSet::new();
    let mut items = Vec::new();
    while items.len() < count {
        let mut name = names::legal(chance, share);
        if chance.percent(2) {
            name = lengthened(chance, name);
        }
        // Names that differ in case alone, or in their backslashes alone, stand beside each other.
        if chance.percent(6) && name[0] != b'\\' {
            let other = [b"\\", &name[..], b"\\"].concat();
            let capital = other.to_ascii_uppercase();
            for name in [other, capital] {
                add(chance, &mut items, &mut taken, name);
            }
        }
        if chance.percent(8) && name[0] != b'\\' {
            let sibling = names::sibling(chance, &name);
            add(chance, &mut items, &mut taken, sibling);
        }
        add(chance, &mut items, &mut taken, name);
    }
    items.truncate(count);
    let package = match chance.weigh(&[70, 10, 20]) {
        0 => names::legal(chance, 25),
        1 => chance.pick(&names::LANGUAGE).as_bytes().to_vec(),
        _ => match items.get(chance.below(items.len())) {
            Some(item) => item.name.clone(),
            None => b"p".to_vec(),
        },
    };
    fields(package, items)
}

/// An item more, unless its name is taken.
fn add(chance: &mut Chance, items: &mut Vec<Item>, taken: &mut HashSet<Vec<u8>>, name: Vec<u8>) {
    if taken.insert(name.clone()) {
        let value = value(chance);
        items.push(Item { name, value });
    }
}

/// A name so long that its field's length is about 255 or 256, where the high byte changes.
fn lengthened(chance: &mut Chance, mut name: Vec<u8>) -> Vec<u8> {
    let wanted = chance.between(244, 258);
    if name[0] != b'\\' {
        name.resize(wanted.max(name.len()), b'z');
    }
    name
}

fn value(chance: &mut Chance) -> Value {
    match chance.weigh(&[40, 20, 28, 12]) {
        0 => Value::Integer(number(chance)),
        1 => Value::Truth(chance.percent(50)),
        2 => {
            let (one, other) = (number(chance), number(chance));
            // A null range a third of the time.
            let null = chance.percent(33);
            let (low, high) = if (one > other) == null {
                (one, other)
            } else {
                (other, one)
            };
            Value::Range { low, high }
        }
        _ => Value::Boolean,
    }
}

fn number(chance: &mut Chance) -> i64 {
    match chance.weigh(&[40, 30, 30]) {
        0 => NUMBERS[chance.below(NUMBERS.len())],
        1 => chance.below(200) as i64 - 100,
        _ => chance.below(4_294_967_295) as i64 - 2_147_483_647,
    }
}

/// About as many items as a table may have.
fn many_items(chance: &mut Chance) -> Vec<Field> {
    let count = [1_023, 1_023, 1_024, 1_024, 1_025, 1_025, 1_026, 1_200][chance.below(8)];
    let first = chance.below(9_000);
    let items = (first..first + count)
        .map(|number| Item {
            name: format!("n{number}").into_bytes(),
            value: value(chance),
        })
        .collect();
    fields(names::legal(chance, 25), items)
}

/// Contents of about 65,535 bytes, and tables of about 131,072.
fn long_names(chance: &mut Chance) -> Vec<Field> {
    let value = value(chance);
    let mut one = fields(
        b"p".to_vec(),
        vec![Item {
            name: b"a".to_vec(),
            value,
        }],
    );
    let length = MOST_CONTENTS - [0, 0, 0, 1][chance.below(4)] - one[1].before();
    one[1].rename(&vec![b'a'; length]);
    if chance.percent(60) {
        let left = MOST_ROOM - written(&one).len() - 7 - [0, 0, 0, 1][chance.below(4)];
        let mut other = vec![0, 0, 0, 7];
        other.extend(vec![b'b'; left.min(MOST_CONTENTS - 4)]);
        let field = Field {
            tag: tag::INTEGER,
            contents: other,
        };
        one.insert(2, field);
    }
    one
}

/// The bytes of a table with one fault, now and then with two. Some faults leave a good table.
fn damaged(chance: &mut Chance, fields: &mut Vec<Field>) -> Vec<u8> {
    let faults = if chance.percent(8) { 2 } else { 1 };
    let in_bytes = chance.weigh(&[70, 30]);
    for _ in in_bytes..faults {
        damage_field(chance, fields);
    }
    let mut stored = written(fields);
    if in_bytes == 1 {
        damage_bytes(chance, fields, &mut stored);
    }
    stored
}

/// A fault within a field or in their order: lengths follow, so that nothing else is wrong.
fn damage_field(chance: &mut Chance, fields: &mut Vec<Field>) {
    let end = fields.len().saturating_sub(1);
    // Mostly an item, now and then the package; the first field where there is none.
    let place = if end > 1 && chance.percent(85) {
        chance.between(1, end - 1)
    } else {
        0
    };
    let other = chance.below(fields.len());
    let name = fields[place].name();
    match chance.below(26) {
        0 => {
            let name = names::in_upper_case(chance, &name);
            fields[place].rename(&name);
        }
        1 | 24 | 25 => {
            let name = names::reserved(chance);
            fields[place].rename(&name);
        }
        2 | 3 => {
            let name = chance.pick(&names::LANGUAGE);
            fields[place].rename(name.as_bytes());
        }
        // Two equal names: mostly of two items, else an item's and the package's, which is good.
        4 | 5 => {
            let name = fields[other].name();
            fields[place].rename(&name);
        }
        6 | 7 => {
            let field = &mut fields[place];
            let first = match field.tag {
                tag::INTEGER => 0,
                tag::SUBTYPE => [1, 5][chance.below(2)],
                _ => return into_number(chance, field),
            };
            if field.contents.len() >= first + 4 {
                field.contents[first..first + 4].copy_from_slice(&TOO_LARGE);
            }
        }
        8 | 9 => {
            let name = names::underscored(chance, &name);
            fields[place].rename(&name);
        }
        10 => {
            let name = names::foreign(chance, &name);
            fields[place].rename(&name);
        }
        11 | 12 => {
            let name = names::badly_enclosed(chance);
            fields[place].rename(&name);
        }
        13 => fields[place].rename(b""),
        14 => {
            let field = &mut fields[place];
            let length = chance.below(field.before() + 1);
            field.contents.truncate(length);
        }
        // The byte of a truth or a kind, and the ends of boolean.
        15..=18 => odd_byte(chance, &mut fields[place]),
        19 => {
            let tag = match chance.below(3) {
                0 => chance.below(6) as u8,
                1 => chance.byte(&[5, 6, 16, 128, 255]),
                _ => chance.below(256) as u8,
            };
            fields[other].tag = tag;
        }
        20 => fields.swap(place, other),
        21 => {
            let again = fields[place].clone();
            let behind = if chance.percent(50) { place + 1 } else { end };
            fields.insert(behind, again);
        }
        // The package, the end or an item is missing.
        22 => {
            if fields.len() > 1 {
                let missing = [0, end, other][chance.below(3)];
                fields.remove(missing);
            }
        }
        // The end has contents; or a second end or package stands among the items.
        _ => {
            let place = chance.between(1, end.max(1));
            match chance.below(4) {
                0 | 1 => {
                    let contents = vec![chance.byte(b"\x00a"); chance.between(1, 3)];
                    fields[end].contents = contents;
                }
                2 => {
                    let contents = Vec::new();
                    let tag = tag::END;
                    fields.insert(place, Field { tag, contents });
                }
                _ => {
                    let contents = names::legal(chance, 25);
                    let tag = tag::PACKAGE;
                    fields.insert(place, Field { tag, contents });
                }
            }
        }
    }
}

/// A field without a number becomes one with a number that is too large in size.
fn into_number(chance: &mut Chance, field: &mut Field) {
    let name = field.name();
    if field.tag != tag::TRUTH {
        return;
    }
    let last = chance.below(2) as u8;
    field.tag = tag::INTEGER;
    field.contents = vec![0x80, 0, 0, last];
    field.rename(&name);
}

/// A truth or a kind that may be neither 0 nor 1, an end of boolean that may be another. A field
/// without such a byte becomes one that has it.
fn odd_byte(chance: &mut Chance, field: &mut Field) {
    let byte = match chance.below(3) {
        0 => 2,
        1 => chance.byte(&[0, 1, 3, 48, 49, 128, 255]),
        _ => chance.below(256) as u8,
    };
    let place = match field.tag {
        tag::SUBTYPE if chance.percent(50) => chance.between(1, 8),
        tag::SUBTYPE | tag::TRUTH => 0,
        _ if chance.percent(50) => {
            let name = field.name();
            field.tag = tag::TRUTH;
            field.contents = vec![1];
            field.rename(&name);
            0
        }
        _ => {
            let name = field.name();
            field.tag = tag::SUBTYPE;
            field.contents = vec![1, 0, 0, 0, 0, 0, 0, 0, 1];
            field.rename(&name);
            chance.below(9)
        }
    };
    if let Some(there) = field.contents.get_mut(place) {
        *there = byte;
    }
}

/// A fault in the bytes: one changed, lost or put in, a length, the end.
fn damage_bytes(chance: &mut Chance, fields: &[Field], stored: &mut Vec<u8>) {
    let byte = match chance.below(3) {
        0 => chance.below(6) as u8,
        1 => chance.below(256) as u8,
        _ => stored[chance.below(stored.len())],
    };
    let place = chance.below(stored.len());
    // Where a field begins.
    let number = chance.below(fields.len());
    let begins = written(&fields[..number]).len();
    match chance.below(13) {
        0 => stored[place] = byte,
        1 => stored[place] ^= 1 << chance.below(8),
        2 => stored[place] = stored[place].wrapping_add(1),
        3 => drop(stored.remove(place)),
        4 => stored.insert(place, byte),
        5 => stored[begins + 2] = stored[begins + 2].wrapping_add(1),
        6 => stored[begins + 2] = stored[begins + 2].wrapping_sub(1),
        7 => match chance.below(3) {
            0 => stored[begins + 1] = stored[begins + 1].wrapping_add(1),
            1 => stored[begins + 1..begins + 3].fill(0),
            _ => stored[begins + 1..begins + 3].fill(255),
        },
        8 => stored.truncate(place),
        9 => {
            let cut = match chance.below(3) {
                0 => begins,
                1 => begins + chance.between(1, 3),
                _ => stored.len() - chance.between(1, 4),
            };
            stored.truncate(cut);
        }
        10 => stored.extend(vec![0; chance.between(1, 6)]),
        11 => match chance.below(4) {
            0 => stored.push(byte),
            1 => stored.push(b'\n'),
            2 => stored.extend_from_within(..),
            _ => stored.extend_from_within(begins..),
        },
        _ => {
            let length = chance.below(24);
            *stored = (0..length)
                .map(|_| chance.byte(b"\x00\x00\x00\x01\x01\x02\x03\x04ab\\_"))
                .collect();
        }
    }
}
