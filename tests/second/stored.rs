//! The stored table (02, request 01): a whole survey as bytes, and such bytes read back.

use crate::elements::{self, Kind, Refusal};
use crate::folding::MOST_SIZE;
use crate::forms::Forms;
use crate::survey::{self, class, Survey, TRUTH};
use std::collections::HashSet;

/// 02: a stored table has at most so many items.
pub const MOST_ITEMS: usize = 1_024;
/// The programs' own limits: the most room for bytes that are written, the most bytes that are read.
pub const MOST_ROOM: usize = 131_072;
/// A length has two bytes.
pub const MOST_CONTENTS: usize = 65_535;

/// 02's tags.
pub mod tag {
    pub const END: u8 = 0;
    pub const PACKAGE: u8 = 1;
    pub const INTEGER: u8 = 2;
    pub const TRUTH: u8 = 3;
    pub const SUBTYPE: u8 = 4;
}

/// The kind byte of a subtype.
pub const KIND_INTEGER: u8 = 0;
pub const KIND_BOOLEAN: u8 = 1;

/// What an item stands for.
#[derive(Clone, Copy, PartialEq, Debug)]
pub enum Value {
    Integer(i64),
    Truth(bool),
    Range { low: i64, high: i64 },
    Boolean,
}

#[derive(Clone, PartialEq, Debug)]
pub struct Item {
    pub name: Vec<u8>,
    pub value: Value,
}

/// A package and its items, in order; the names as they are stored.
#[derive(Clone, PartialEq, Debug)]
pub struct Table {
    pub package: Vec<u8>,
    pub items: Vec<Item>,
}

/// `store`: the survey's own refusals, then 21, then 22.
pub fn store(
    forms: &Forms,
    text: &[u8],
    element_rows: usize,
    item_rows: usize,
    room: usize,
) -> Result<Vec<u8>, Refusal> {
    let survey = survey::read(forms, text, element_rows, item_rows)?;
    if !survey.whole {
        return Err(Refusal {
            number: 21,
            place: 0,
        });
    }
    fitting(bytes(&surveyed(text, &survey)), room)
}

/// `unstore`: 24, then 10. Rows are counted in items.
pub fn read(stored: &[u8], item_rows: usize) -> Result<Table, Refusal> {
    let table = table(stored).ok_or(Refusal {
        number: 24,
        place: 0,
    })?;
    if table.items.len() > item_rows {
        return Err(Refusal {
            number: 10,
            place: item_rows,
        });
    }
    Ok(table)
}

/// `unstore --again`: 24, 10, then 22.
pub fn again(stored: &[u8], item_rows: usize, room: usize) -> Result<Vec<u8>, Refusal> {
    fitting(bytes(&read(stored, item_rows)?), room)
}

fn fitting(bytes: Vec<u8>, room: usize) -> Result<Vec<u8>, Refusal> {
    if bytes.len() > room {
        return Err(Refusal {
            number: 22,
            place: room,
        });
    }
    Ok(bytes)
}

/// The table of a whole survey: its frame is good, so the first piece is the heading, and every item
/// is in state 0.
fn surveyed(text: &[u8], survey: &Survey) -> Table {
    // Names are stored in lower case unless extended.
    let name = |element: usize| {
        let element = &survey.elements[element];
        match element.kind {
            Kind::Extended => element.bytes(text).to_vec(),
            _ => element.bytes(text).to_ascii_lowercase(),
        }
    };
    Table {
        package: name(survey.records[0].name),
        items: survey
            .records
            .iter()
            .filter(|record| record.is_item())
            .map(|record| Item {
                name: name(record.name),
                value: match (record.class, record.kind) {
                    (class::SUBTYPE, TRUTH) => Value::Boolean,
                    (class::SUBTYPE, _) => Value::Range {
                        low: record.low,
                        high: record.high,
                    },
                    (_, TRUTH) => Value::Truth(record.low == 1),
                    _ => Value::Integer(record.low),
                },
            })
            .collect(),
    }
}

/// The bytes of a table: a field to the package, one to each item, and the end.
pub fn bytes(table: &Table) -> Vec<u8> {
    let mut out = Vec::new();
    field(&mut out, tag::PACKAGE, &table.package);
    for item in &table.items {
        let (tag, contents) = contents(item);
        field(&mut out, tag, &contents);
    }
    field(&mut out, tag::END, &[]);
    out
}

/// A one-byte tag, a two-byte length, high byte first, then the contents. No text is so long that a
/// length doesn't fit.
pub fn field(out: &mut Vec<u8>, tag: u8, contents: &[u8]) {
    assert!(contents.len() <= MOST_CONTENTS);
    out.push(tag);
    out.extend_from_slice(&(contents.len() as u16).to_be_bytes());
    out.extend_from_slice(contents);
}

/// Tag and contents of an item's field.
pub fn contents(item: &Item) -> (u8, Vec<u8>) {
    let four = |number: i64| (number as i32).to_be_bytes();
    let (tag, mut contents) = match item.value {
        Value::Integer(number) => (tag::INTEGER, four(number).to_vec()),
        Value::Truth(truth) => (tag::TRUTH, vec![truth as u8]),
        Value::Range { low, high } => (
            tag::SUBTYPE,
            [&[KIND_INTEGER][..], &four(low), &four(high)].concat(),
        ),
        Value::Boolean => (
            tag::SUBTYPE,
            [&[KIND_BOOLEAN][..], &four(0), &four(1)].concat(),
        ),
    };
    contents.extend_from_slice(&item.name);
    (tag, contents)
}

/// The table that the bytes are exactly, if they are one.
fn table(stored: &[u8]) -> Option<Table> {
    let (first, package, mut rest) = next_field(stored)?;
    if first != tag::PACKAGE || !is_legal(package) {
        return None;
    }
    let mut items = Vec::new();
    let mut names = HashSet::new();
    loop {
        let (tag, contents, behind) = next_field(rest)?;
        rest = behind;
        // Tag 0 with length 0 ends it, and nothing stands after.
        if tag == tag::END {
            return (contents.is_empty() && rest.is_empty()).then(|| Table {
                package: package.to_vec(),
                items,
            });
        }
        let item = item(tag, contents)?;
        // The items' names are all different and none the language's; the package's may be either.
        if !is_legal(&item.name)
            || survey::is_language(&item.name)
            || !names.insert(item.name.clone())
        {
            return None;
        }
        items.push(item);
        if items.len() > MOST_ITEMS {
            return None;
        }
    }
}

/// The first field of some bytes, as tag and contents, and what stands after it.
fn next_field(bytes: &[u8]) -> Option<(u8, &[u8], &[u8])> {
    let (head, rest) = bytes.split_at_checked(3)?;
    let length = (head[1] as usize) << 8 | head[2] as usize;
    let (contents, behind) = rest.split_at_checked(length)?;
    Some((head[0], contents, behind))
}

/// The item of a field, its name as it comes.
fn item(tag: u8, contents: &[u8]) -> Option<Item> {
    let (value, name) = match tag {
        tag::INTEGER => {
            let (number, name) = number(contents)?;
            (Value::Integer(number), name)
        }
        tag::TRUTH => match contents.split_first()? {
            (0, name) => (Value::Truth(false), name),
            (1, name) => (Value::Truth(true), name),
            _ => return None,
        },
        tag::SUBTYPE => {
            let (kind, rest) = contents.split_first()?;
            let (low, rest) = number(rest)?;
            let (high, name) = number(rest)?;
            match (*kind, low, high) {
                (KIND_INTEGER, _, _) => (Value::Range { low, high }, name),
                (KIND_BOOLEAN, 0, 1) => (Value::Boolean, name),
                _ => return None,
            }
        }
        _ => return None,
    };
    Some(Item {
        name: name.to_vec(),
        value,
    })
}

/// The number at the beginning, at most 2147483647 in size, and what stands after it.
fn number(bytes: &[u8]) -> Option<(i64, &[u8])> {
    let (four, behind) = bytes.split_first_chunk::<4>()?;
    let number = i32::from_be_bytes(*four) as i64;
    (number.abs() <= MOST_SIZE).then_some((number, behind))
}

/// A name as it is stored: one element that is a name, in lower case unless it is extended.
pub fn is_legal(name: &[u8]) -> bool {
    match elements::cut(name)[..] {
        [only] => {
            only.is_name()
                && only.length == name.len()
                && (only.kind == Kind::Extended || !name.iter().any(u8::is_ascii_uppercase))
        }
        _ => false,
    }
}
