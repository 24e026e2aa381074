//! Cases to compare two readers on: streams of texts, each with a mode and the rows of its tables.
//! A stream depends on style and seed alone, and each case on its number too.

mod elements;
mod names;
mod store;
mod strict;
mod survey;
mod unstore;

use crate::elements::{cut, MOST_ELEMENTS};
use crate::forms::Forms;
use std::io::Write;

/// Chances that repeat: the generator splitmix64.
pub struct Chance {
    state: u64,
}

impl Chance {
    pub fn new(style: &str, seed: u64, number: u64) -> Chance {
        let mut chance = Chance { state: seed };
        for byte in style.bytes() {
            chance.state = chance.next() ^ byte as u64;
        }
        chance.state = chance.next() ^ number;
        chance.next();
        chance
    }

    fn next(&mut self) -> u64 {
        self.state = self.state.wrapping_add(0x9E37_79B9_7F4A_7C15);
        let mut mixed = self.state;
        mixed = (mixed ^ (mixed >> 30)).wrapping_mul(0xBF58_476D_1CE4_E5B9);
        mixed = (mixed ^ (mixed >> 27)).wrapping_mul(0x94D0_49BB_1331_11EB);
        mixed ^ (mixed >> 31)
    }

    /// A number below the limit.
    pub fn below(&mut self, limit: usize) -> usize {
        (self.next() % limit.max(1) as u64) as usize
    }

    /// A number from the low to the high end, both included.
    pub fn between(&mut self, low: usize, high: usize) -> usize {
        low + self.below(high - low + 1)
    }

    /// True so many times in a hundred.
    pub fn percent(&mut self, share: usize) -> bool {
        self.below(100) < share
    }

    pub fn pick<'a, T: ?Sized>(&mut self, choices: &[&'a T]) -> &'a T {
        choices[self.below(choices.len())]
    }

    pub fn byte(&mut self, choices: &[u8]) -> u8 {
        choices[self.below(choices.len())]
    }

    /// The number of a share, the shares being weights.
    pub fn weigh(&mut self, weights: &[usize]) -> usize {
        let mut left = self.below(weights.iter().sum());
        for (number, &weight) in weights.iter().enumerate() {
            if left < weight {
                return number;
            }
            left -= weight;
        }
        0
    }

    /// The word with letters in chance cases: mostly as it stands.
    pub fn cased(&mut self, word: &[u8]) -> Vec<u8> {
        match self.weigh(&[70, 10, 20]) {
            0 => word.to_vec(),
            1 => word.to_ascii_uppercase(),
            _ => word
                .iter()
                .map(|byte| {
                    if self.percent(50) {
                        byte.to_ascii_uppercase()
                    } else {
                        *byte
                    }
                })
                .collect(),
        }
    }
}

/// One case of a stream.
pub struct Case {
    pub mode: u8,
    pub element_rows: usize,
    pub other_rows: usize,
    pub text: Vec<u8>,
}

impl Case {
    fn write(&self, out: &mut impl Write) -> std::io::Result<()> {
        let mut head = vec![self.mode];
        for number in [self.element_rows, self.other_rows, self.text.len()] {
            head.extend_from_slice(&(number as u32).to_be_bytes()[1..]);
        }
        out.write_all(&head)?;
        out.write_all(&self.text)
    }
}

pub fn cases(out: &mut impl Write, style: &str, seed: u64, count: usize) -> Result<(), String> {
    let forms = Forms::new();
    let case: fn(&mut Chance, &Forms) -> Case = match style {
        "elements" => elements::case,
        "strict" => strict::case,
        "survey" => survey::case,
        "store" => store::case,
        "unstore" => unstore::case,
        _ => return Err(format!("unknown style {style}")),
    };
    for number in 0..count {
        let mut chance = Chance::new(style, seed, number as u64);
        case(&mut chance, &forms)
            .write(out)
            .map_err(|error| error.to_string())?;
    }
    Ok(())
}

/// Rows for a table that needs so many: about as many, none, one, the most, or some number. The
/// share in a hundred says how often the most is given outright.
pub fn rows(chance: &mut Chance, needed: usize, most: usize, share: usize) -> usize {
    if chance.percent(share) {
        return most;
    }
    match chance.weigh(&[30, 30, 20, 5, 5, 10]) {
        0 => needed,
        1 => needed.saturating_sub(1),
        2 => needed + 1,
        3 => 0,
        4 => 1,
        _ => chance.below(most.min(2 * needed + 10) + 1),
    }
    .min(most)
}

/// Rows for the element table of a text.
pub fn element_rows(chance: &mut Chance, text: &[u8], share: usize) -> usize {
    rows(chance, cut(text).len(), MOST_ELEMENTS, share)
}

/// A text after its room, as the modes have it that write bytes.
pub fn with_room(room: usize, text: &[u8]) -> Vec<u8> {
    [&(room as u32).to_be_bytes()[1..], text].concat()
}

/// One byte deleted, put in, replaced or doubled, or two neighbours swapped.
pub fn damage_byte(chance: &mut Chance, text: &mut Vec<u8>) {
    if text.is_empty() {
        return;
    }
    let place = chance.below(text.len());
    let byte = match chance.weigh(&[30, 20, 50]) {
        0 => chance.byte(b"'\"\\_#.;:()-+*/<=> \n"),
        1 => chance.below(256) as u8,
        _ => text[chance.below(text.len())],
    };
    match chance.below(5) {
        0 => drop(text.remove(place)),
        1 => text.insert(place, byte),
        2 => text[place] = byte,
        3 => text.insert(place, text[place]),
        _ => {
            let other = (place + 1).min(text.len() - 1);
            text.swap(place, other);
        }
    }
}
