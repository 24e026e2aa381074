//! The strict reading of a file (01, Forms of the strict reading; Refusals and their order).

use crate::elements::{self, same_name, Element, Kind, Refusal};
use crate::forms::{self, sign, Forms, Row, Sign};

/// 01, What the reader covers: so many may stand open together.
pub const MOST_OPEN: usize = 32;

/// The rows of the tree of a file, or the refusal.
pub fn read(
    forms: &Forms,
    text: &[u8],
    element_rows: usize,
    tree_rows: usize,
) -> Result<Vec<Row>, Refusal> {
    let elements = elements::read(text, element_rows)?;
    if let Some(place) = elements
        .iter()
        .position(|element| element.kind == Kind::Unreadable)
    {
        return Err(Refusal { number: 2, place });
    }
    let signs = forms::signs(text, &elements);
    let reading = forms::read(forms, "File", &signs);
    // Of 5, 6 and 7 the first element decides, so 6 and 7 are looked for only before the place of 5.
    let begun = match &reading {
        Ok(_) => signs.len(),
        Err(place) => *place,
    };
    if let Some(refusal) = closing_or_open(text, &elements[..begun], &signs[..begun]) {
        return Err(refusal);
    }
    let rows = reading.map_err(|place| Refusal { number: 5, place })?;
    if rows.len() > tree_rows {
        return Err(Refusal {
            number: 8,
            place: tree_rows,
        });
    }
    Ok(rows)
}

/// What an `end` closes: a unit, or something that counts as open; and its name or label.
#[derive(Clone, Copy)]
struct Opened {
    counts: bool,
    name: Option<usize>,
}

/// The first refusal 6 or 7 among elements that begin a file. As they do, each `end` closes what
/// was opened last, and a word says by what stands before it whether it opens.
fn closing_or_open(text: &[u8], elements: &[Element], signs: &[Sign]) -> Option<Refusal> {
    let words = |line: &str| line.split(' ').map(sign).collect::<Vec<Sign>>();
    let units = words("package entity architecture");
    let openers = words("if for while loop process block");
    let (colon, end, semicolon) = (sign(":"), sign("end"), sign(";"));
    let (left, right, looping, name) = (sign("("), sign(")"), sign("loop"), sign("N"));
    let heads = words("for while");

    let mut opened: Vec<Opened> = Vec::new();
    let mut open = 0;
    // After an end and up to its semicolon: what it closes.
    let mut closing: Option<Opened> = None;
    // After for or while: the next word loop belongs to it.
    let mut in_head = false;
    for (place, &word) in signs.iter().enumerate() {
        if word == semicolon {
            closing = None;
        } else if let Some(closed) = closing {
            if word == name {
                let agrees = |opener: usize| same_name(text, &elements[opener], &elements[place]);
                if !closed.name.map_or(false, agrees) {
                    return Some(Refusal { number: 6, place });
                }
            }
        } else if word == end {
            let closed = opened.pop().unwrap();
            open -= closed.counts as usize;
            closing = Some(closed);
        } else if units.contains(&word) {
            opened.push(Opened {
                counts: false,
                name: Some(place + 1),
            });
        } else if word == looping && in_head {
            in_head = false;
        } else if openers.contains(&word) {
            let label = if place > 1 && signs[place - 1] == colon {
                Some(place - 2)
            } else {
                None
            };
            opened.push(Opened {
                counts: true,
                name: label,
            });
            open += 1;
            in_head = heads.contains(&word);
        } else if word == left {
            open += 1;
        } else if word == right {
            open -= 1;
        }
        if open > MOST_OPEN {
            return Some(Refusal { number: 7, place });
        }
    }
    None
}
