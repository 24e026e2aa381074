//! The survey of a package (01, Pieces, items, states).

use crate::elements::{self, same_name, Element, Refusal};
use crate::folding::{self, Faults, Folded, Meaning, Values};
use crate::forms::{self, sign, Forms, Row, Sign};
use crate::strict::MOST_OPEN;
use std::collections::HashMap;

/// 01, What the reader covers: a survey has at most so many pieces.
pub const MOST_PIECES: usize = 1_024;

/// The states 0 to 10 by their numbers.
pub mod state {
    pub const FOLDED: u8 = 0;
    pub const BROKEN: u8 = 1;
    pub const DOUBLED: u8 = 2;
    pub const UNFOLDED: u8 = 3;
    pub const UNKNOWN: u8 = 4;
    pub const LEANS: u8 = 5;
    pub const KIND: u8 = 6;
    pub const DIVISOR: u8 = 7;
    pub const EXPONENT: u8 = 8;
    pub const SIZE: u8 = 9;
    pub const RANGE: u8 = 10;
}

/// The classes of pieces.
pub mod class {
    pub const HEADING: u8 = 1;
    pub const CLOSING: u8 = 2;
    pub const CONSTANT: u8 = 3;
    pub const SUBTYPE: u8 = 4;
    pub const UNCLAIMED: u8 = 5;
}

/// The kinds of a record in state 0.
pub const INTEGER: u8 = 1;
pub const TRUTH: u8 = 2;

/// The record of a piece; what is absent is 0.
#[derive(Clone, Copy, Default, PartialEq, Debug)]
pub struct Record {
    pub class: u8,
    pub first: usize,
    pub count: usize,
    pub name: usize,
    pub state: u8,
    pub kind: u8,
    pub low: i64,
    pub high: i64,
}

impl Record {
    /// Items are all pieces but headings and closings.
    pub fn is_item(&self) -> bool {
        self.class >= class::CONSTANT
    }

    /// Whether it claims a name.
    fn claims(&self) -> bool {
        matches!(self.class, class::CONSTANT | class::SUBTYPE)
    }
}

pub struct Survey {
    pub elements: Vec<Element>,
    pub records: Vec<Record>,
    pub good_frame: bool,
    pub whole: bool,
    pub tally: [usize; 11],
    pub pair: Option<(usize, usize)>,
}

pub fn read(
    forms: &Forms,
    text: &[u8],
    element_rows: usize,
    item_rows: usize,
) -> Result<Survey, Refusal> {
    let elements = elements::read(text, element_rows)?;
    let signs = forms::signs(text, &elements);
    let pieces = pieces(&signs);
    if pieces.len() > MOST_PIECES {
        return Err(Refusal {
            number: 9,
            place: MOST_PIECES,
        });
    }
    if pieces.len() > item_rows {
        return Err(Refusal {
            number: 10,
            place: item_rows,
        });
    }
    let mut records: Vec<Record> = pieces
        .iter()
        .map(|&(first, end)| classify(forms, &signs[first..end], first))
        .collect();
    let claims = claims(text, &elements, &records);
    for piece in 0..records.len() {
        if records[piece].is_item() {
            let item = Item {
                forms,
                text,
                elements: &elements,
                signs: &signs,
                records: &records,
                claims: &claims,
                piece,
            };
            records[piece] = item.record();
        }
    }
    let good_frame = good_frame(text, &elements, &records);
    let mut tally = [0; 11];
    for record in records.iter().filter(|record| record.is_item()) {
        tally[record.state as usize] += 1;
    }
    let whole = good_frame && tally[1..].iter().all(|&count| count == 0);
    let pair = first_pair(&claims);
    Ok(Survey {
        elements,
        records,
        good_frame,
        whole,
        tally,
        pair,
    })
}

/// Elements are cut after each `;` and before each of the words constant, subtype, end.
pub fn pieces(signs: &[Sign]) -> Vec<(usize, usize)> {
    let before = [sign("constant"), sign("subtype"), sign("end")];
    let after = sign(";");
    let mut pieces = Vec::new();
    let mut first = 0;
    for (place, word) in signs.iter().enumerate() {
        if before.contains(word) && place > first {
            pieces.push((first, place));
            first = place;
        }
        if *word == after {
            pieces.push((first, place + 1));
            first = place + 1;
        }
    }
    if first < signs.len() {
        pieces.push((first, signs.len()));
    }
    pieces
}

/// The record of a piece as far as its own elements give it.
fn classify(forms: &Forms, signs: &[Sign], first: usize) -> Record {
    let name = sign("N");
    let absent = Record {
        first,
        count: signs.len(),
        ..Record::default()
    };
    let name_element = signs
        .iter()
        .position(|&sign| sign == name)
        .map_or(0, |place| first + place);
    if forms::read(forms, "Heading", signs).is_ok() {
        return Record {
            class: class::HEADING,
            name: name_element,
            ..absent
        };
    }
    if forms::read(forms, "Closing", signs).is_ok() {
        return Record {
            class: class::CLOSING,
            name: name_element,
            ..absent
        };
    }
    // It claims a name if it begins with constant or subtype and then a name, broken or not.
    let class = match signs[0] {
        word if word == sign("constant") => class::CONSTANT,
        word if word == sign("subtype") => class::SUBTYPE,
        _ => class::UNCLAIMED,
    };
    if class == class::UNCLAIMED || signs.get(1) != Some(&name) {
        return Record {
            class: class::UNCLAIMED,
            ..absent
        };
    }
    Record {
        class,
        name: first + 1,
        ..absent
    }
}

/// The frame is good when the first piece is a heading, the last a closing, no other is either,
/// and a closing name agrees.
fn good_frame(text: &[u8], elements: &[Element], records: &[Record]) -> bool {
    match records {
        [heading, items @ .., closing] => {
            heading.class == class::HEADING
                && closing.class == class::CLOSING
                && items.iter().all(Record::is_item)
                && (closing.name == 0
                    || same_name(text, &elements[heading.name], &elements[closing.name]))
        }
        _ => false,
    }
}

/// The pieces that claim each name, in order. Basic identifiers stand in lower case; extended ones
/// keep their backslashes, so they equal none of them.
type Claims = HashMap<Vec<u8>, Vec<usize>>;

fn key(text: &[u8], element: &Element) -> Vec<u8> {
    match element.kind {
        elements::Kind::Extended => element.bytes(text).to_vec(),
        _ => element.bytes(text).to_ascii_lowercase(),
    }
}

fn claims(text: &[u8], elements: &[Element], records: &[Record]) -> Claims {
    let mut claims = Claims::new();
    for (piece, record) in records
        .iter()
        .enumerate()
        .filter(|(_, record)| record.claims())
    {
        claims
            .entry(key(text, &elements[record.name]))
            .or_default()
            .push(piece);
    }
    claims
}

/// The first pair of own items that share a name: smallest earlier piece, then smallest later.
fn first_pair(claims: &Claims) -> Option<(usize, usize)> {
    claims
        .values()
        .filter(|pieces| pieces.len() > 1)
        .map(|pieces| (pieces[0], pieces[1]))
        .min()
}

/// Whether a name, basic ones in lower case, is claimed by the language already.
pub fn is_language(key: &[u8]) -> bool {
    language(key).is_some()
}

/// What the language's own names mean; integer begins at -2147483647.
fn language(key: &[u8]) -> Option<Meaning> {
    let most = folding::MOST_SIZE;
    match key {
        b"integer" => Some(Meaning::Type {
            kind: INTEGER,
            low: -most,
            high: most,
        }),
        b"natural" => Some(Meaning::Type {
            kind: INTEGER,
            low: 0,
            high: most,
        }),
        b"positive" => Some(Meaning::Type {
            kind: INTEGER,
            low: 1,
            high: most,
        }),
        b"boolean" => Some(Meaning::Type {
            kind: TRUTH,
            low: 0,
            high: 1,
        }),
        b"true" => Some(Meaning::Value(Folded::Truth(true))),
        b"false" => Some(Meaning::Value(Folded::Truth(false))),
        _ => None,
    }
}

/// An item under examination, the records above it being finished.
struct Item<'s> {
    forms: &'s Forms,
    text: &'s [u8],
    elements: &'s [Element],
    signs: &'s [Sign],
    records: &'s [Record],
    claims: &'s Claims,
    piece: usize,
}

impl Values for Item<'_> {
    /// Names resolve upward only: unknown without a claim above, leaning on what is doubled or
    /// isn't in state 0.
    fn meaning(&self, element: usize) -> Result<Meaning, u8> {
        let key = key(self.text, &self.elements[element]);
        let own = self.claims.get(&key).map_or(&[][..], Vec::as_slice);
        if let Some(meaning) = language(&key) {
            return if own.is_empty() {
                Ok(meaning)
            } else {
                Err(state::LEANS)
            };
        }
        match own {
            [] => Err(state::UNKNOWN),
            [first, ..] if *first >= self.piece => Err(state::UNKNOWN),
            [only] if self.records[*only].state == state::FOLDED => {
                let Record {
                    class,
                    kind,
                    low,
                    high,
                    ..
                } = self.records[*only];
                Ok(match (class, kind) {
                    (class::SUBTYPE, _) => Meaning::Type { kind, low, high },
                    (_, TRUTH) => Meaning::Value(Folded::Truth(low == 1)),
                    _ => Meaning::Value(Folded::Whole(low)),
                })
            }
            _ => Err(state::LEANS),
        }
    }

    fn element(&self, element: usize) -> (&Element, &[u8]) {
        (
            &self.elements[element],
            self.elements[element].bytes(self.text),
        )
    }
}

impl Item<'_> {
    /// The finished record.
    fn record(&self) -> Record {
        let record = self.records[self.piece];
        match self.ends(&record) {
            Ok((kind, low, high)) => Record {
                state: state::FOLDED,
                kind,
                low,
                high,
                ..record
            },
            Err(state) => Record { state, ..record },
        }
    }

    /// The rows of the item by its form; none if it is broken.
    fn rows(&self, record: &Record) -> Option<Vec<Row>> {
        let signs = &self.signs[record.first..record.first + record.count];
        let entry = match record.class {
            class::CONSTANT => "Constant",
            class::SUBTYPE => "Subtype",
            _ => return None,
        };
        let mut rows = forms::read(self.forms, entry, signs).ok()?;
        if most_open(signs) > MOST_OPEN {
            return None;
        }
        for row in &mut rows {
            row.first += record.first;
            row.operator += record.first;
        }
        Some(rows)
    }

    /// Kind and two numbers of an item in state 0, or its state. The smallest of 1 to 6 wins.
    fn ends(&self, record: &Record) -> Result<(u8, i64, i64), u8> {
        let rows = self.rows(record).ok_or(state::BROKEN)?;
        let name = key(self.text, &self.elements[record.name]);
        if self.claims[&name].len() > 1 || language(&name).is_some() {
            return Err(state::DOUBLED);
        }
        // Row 0 is the item itself, row 1 its mark, and then an expression or a range.
        let mut faults = Faults::default();
        for row in &rows[1..] {
            faults.look_at(row, self);
        }
        faults.settle()?;
        let (kind, low, high) = match self.meaning(rows[1].first)? {
            Meaning::Type { kind, low, high } => (kind, low, high),
            _ => return Err(state::KIND),
        };
        if record.class == class::CONSTANT {
            self.constant(&rows[2..], kind, low, high)
        } else if rows.len() == 2 {
            Ok((kind, low, high))
        } else {
            self.range(&rows[2..], kind, low, high)
        }
    }

    fn constant(
        &self,
        expression: &[Row],
        kind: u8,
        low: i64,
        high: i64,
    ) -> Result<(u8, i64, i64), u8> {
        if folding::kind(expression, self)? != kind {
            return Err(state::KIND);
        }
        let number = match folding::fold(expression, self) {
            Folded::Stopped(state) => return Err(state),
            Folded::Truth(truth) => truth as i64,
            Folded::Whole(number) => number,
        };
        if number < low || number > high {
            return Err(state::RANGE);
        }
        Ok((kind, number, 0))
    }

    /// Bounds are met in text order, whatever the direction.
    fn range(&self, range: &[Row], kind: u8, low: i64, high: i64) -> Result<(u8, i64, i64), u8> {
        let (left, right) = folding::operands(range);
        if folding::kind(left, self)? != INTEGER
            || folding::kind(right, self)? != INTEGER
            || kind != INTEGER
        {
            return Err(state::KIND);
        }
        let bound = |rows: &[Row]| match folding::fold(rows, self) {
            Folded::Stopped(state) => Err(state),
            Folded::Whole(number) => Ok(number),
            Folded::Truth(_) => Err(state::KIND),
        };
        let (first, second) = (bound(left)?, bound(right)?);
        // A range has one word of direction, and no expression has any.
        let downward = sign("downto");
        let words = &self.signs[range[0].first..range[0].first + range[0].count];
        let (own_low, own_high) = if words.contains(&downward) {
            (second, first)
        } else {
            (first, second)
        };
        if own_low <= own_high && (own_low < low || own_high > high) {
            return Err(state::RANGE);
        }
        Ok((INTEGER, own_low, own_high))
    }
}

/// The most parentheses that stand open together.
fn most_open(signs: &[Sign]) -> usize {
    let (left, right) = (sign("("), sign(")"));
    let (mut open, mut most) = (0usize, 0);
    for &word in signs {
        if word == left {
            open += 1;
            most = most.max(open);
        } else if word == right {
            open -= 1;
        }
    }
    most
}
