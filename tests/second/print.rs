//! What the programs print, to the letter.

use crate::elements::{self, Element, Kind, Literal, Refusal};
use crate::forms::Forms;
use crate::stored::{self, Value};
use crate::survey::{class, Record, Survey, TRUTH};
use crate::{strict, survey, verdict};
use std::io::Write;

/// `strict --elements`: the element reader alone.
pub fn elements(out: &mut Vec<u8>, text: &[u8], element_rows: usize) {
    match elements::read(text, element_rows) {
        Err(refusal) => refused(out, refusal),
        Ok(rows) => {
            line(out, format_args!("elements {}", rows.len()));
            for (number, row) in rows.iter().enumerate() {
                line(
                    out,
                    format_args!("{number} {} {} {}", kind_word(row), row.first, row.length),
                );
            }
        }
    }
}

/// `strict`: the head with the verdict, then the rows of the tree.
pub fn strict(
    out: &mut Vec<u8>,
    forms: &Forms,
    text: &[u8],
    element_rows: usize,
    tree_rows: usize,
) {
    match strict::read(forms, text, element_rows, tree_rows) {
        Err(refusal) => refused(out, refusal),
        Ok(rows) => {
            match verdict::first_not_supported(&rows) {
                None => line(out, format_args!("rows {} passes yes", rows.len())),
                Some(row) => line(out, format_args!("rows {} passes no at {row}", rows.len())),
            }
            for (number, row) in rows.iter().enumerate() {
                let (form, first, count) = (row.form, row.first, row.count);
                line(
                    out,
                    format_args!(
                        "{number} {form} {first} {count} {} {}",
                        row.subtree, row.operator
                    ),
                );
            }
        }
    }
}

/// `survey`: the listing, a line for each item.
pub fn listing(
    out: &mut Vec<u8>,
    forms: &Forms,
    text: &[u8],
    element_rows: usize,
    item_rows: usize,
) {
    match survey::read(forms, text, element_rows, item_rows) {
        Err(refusal) => refused(out, refusal),
        Ok(survey) => {
            line(
                out,
                format_args!(
                    "pieces {} whole {}",
                    survey.records.len(),
                    yes(survey.whole)
                ),
            );
            for (piece, record) in survey
                .records
                .iter()
                .enumerate()
                .filter(|(_, record)| record.is_item())
            {
                item(out, text, &survey, piece, record);
            }
        }
    }
}

/// Names print as spelled, so as bytes.
fn item(out: &mut Vec<u8>, text: &[u8], survey: &Survey, piece: usize, record: &Record) {
    let (word, name) = match record.class {
        class::CONSTANT => ("constant", survey.elements[record.name].bytes(text)),
        class::SUBTYPE => ("subtype", survey.elements[record.name].bytes(text)),
        _ => ("piece", &b"-"[..]),
    };
    write!(out, "{piece} {word} ").unwrap();
    out.extend_from_slice(name);
    let value = |number: i64| match record.kind {
        TRUTH => (number == 1).to_string(),
        _ => number.to_string(),
    };
    match (record.state, record.class) {
        (0, class::SUBTYPE) => line(
            out,
            format_args!(" value {} to {}", value(record.low), value(record.high)),
        ),
        (0, _) => line(out, format_args!(" value {}", value(record.low))),
        (state, _) => line(out, format_args!(" {}", STATE_WORDS[state as usize])),
    }
}

#[rustfmt::skip]
const STATE_WORDS: [&str; 11] = [
    "value", "broken", "doubled", "unfolded", "unknown", "leans", "kind", "divisor", "exponent",
    "size", "range",
];

/// `survey --records`: a line for each piece, the tally and the pair.
pub fn records(
    out: &mut Vec<u8>,
    forms: &Forms,
    text: &[u8],
    element_rows: usize,
    item_rows: usize,
) {
    match survey::read(forms, text, element_rows, item_rows) {
        Err(refusal) => refused(out, refusal),
        Ok(survey) => {
            let frame = if survey.good_frame { "good" } else { "bad" };
            let count = survey.records.len();
            line(
                out,
                format_args!("pieces {count} frame {frame} whole {}", yes(survey.whole)),
            );
            for (piece, record) in survey.records.iter().enumerate() {
                let Record {
                    class,
                    first,
                    count,
                    name,
                    state,
                    kind,
                    low,
                    high,
                } = record;
                line(
                    out,
                    format_args!(
                        "{piece} {class} {first} {count} {name} {state} {kind} {low} {high}"
                    ),
                );
            }
            out.extend_from_slice(b"tally");
            for count in survey.tally {
                write!(out, " {count}").unwrap();
            }
            out.push(b'\n');
            match survey.pair {
                Some((earlier, later)) => line(out, format_args!("pair {earlier} {later}")),
                None => line(out, format_args!("pair none")),
            }
        }
    }
}

/// `unstore`: the package, then a line for each item, from 0; names as stored, so as bytes.
pub fn stored(out: &mut Vec<u8>, bytes: &[u8], item_rows: usize) {
    match stored::read(bytes, item_rows) {
        Err(refusal) => refused(out, refusal),
        Ok(table) => {
            out.extend_from_slice(b"package ");
            out.extend_from_slice(&table.package);
            line(out, format_args!(" items {}", table.items.len()));
            for (number, item) in table.items.iter().enumerate() {
                let word = match item.value {
                    Value::Integer(_) | Value::Truth(_) => "constant",
                    Value::Range { .. } | Value::Boolean => "subtype",
                };
                write!(out, "{number} {word} ").unwrap();
                out.extend_from_slice(&item.name);
                match item.value {
                    Value::Integer(number) => line(out, format_args!(" value {number}")),
                    Value::Truth(truth) => line(out, format_args!(" value {truth}")),
                    Value::Range { low, high } => line(out, format_args!(" value {low} to {high}")),
                    Value::Boolean => line(out, format_args!(" value false to true")),
                }
            }
        }
    }
}

/// Bytes as a line of a stream: two digits to each, base 16, letters in upper case.
pub fn hexadecimal(out: &mut Vec<u8>, bytes: &[u8]) {
    for byte in bytes {
        write!(out, "{byte:02X}").unwrap();
    }
    out.push(b'\n');
}

fn yes(holds: bool) -> &'static str {
    if holds {
        "yes"
    } else {
        "no"
    }
}

fn kind_word(element: &Element) -> &'static str {
    match element.kind {
        Kind::Identifier => "identifier",
        Kind::Extended => "extended",
        Kind::Reserved => "reserved",
        Kind::Literal(Literal::Integer) => "integer",
        Kind::Literal(Literal::Real) => "real",
        Kind::Literal(Literal::Character) => "character",
        Kind::Literal(Literal::String) => "string",
        Kind::Delimiter => "delimiter",
        Kind::Unreadable => "unreadable",
    }
}

pub fn refused(out: &mut Vec<u8>, refusal: Refusal) {
    line(
        out,
        format_args!("refused {} at {}", refusal.number, refusal.place),
    );
}

fn line(out: &mut Vec<u8>, words: std::fmt::Arguments) {
    out.write_fmt(words).unwrap();
    out.push(b'\n');
}
