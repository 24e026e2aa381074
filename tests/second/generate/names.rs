//! Names as they are stored: legal ones of every shape, and bytes that are nearly one.

use super::Chance;
use crate::elements::{is_reserved, RESERVED};

pub const LANGUAGE: [&str; 6] = ["integer", "natural", "positive", "boolean", "true", "false"];
const LETTERS: &[u8] = b"abcdefghijklmnopqrstuvwxyz";
const LETTERS_AND_DIGITS: &[u8] = b"abcdefghijklmnopqrstuvwxyz0123456789";
/// Few bytes, so that names are often each other's beginnings, and often equal.
const FEW: &[u8] = b"ab";

/// A legal name, extended so many times in a hundred.
pub fn legal(chance: &mut Chance, share: usize) -> Vec<u8> {
    if chance.percent(share) {
        extended(chance)
    } else {
        basic(chance)
    }
}

/// A basic name in lower case.
pub fn basic(chance: &mut Chance) -> Vec<u8> {
    let mut name = match chance.weigh(&[12, 20, 35, 12, 6, 12, 3]) {
        0 => vec![chance.byte(LETTERS)],
        1 => (0..chance.between(1, 5))
            .map(|_| chance.byte(FEW))
            .collect(),
        2 => joined(chance, 4, 8),
        3 => beside(chance, &RESERVED),
        4 => beside(chance, &LANGUAGE),
        5 => joined(chance, 12, 12),
        _ => joined(chance, 40, 40),
    };
    while is_reserved(&name) || LANGUAGE.iter().any(|word| word.as_bytes() == name) {
        name.push(chance.byte(LETTERS_AND_DIGITS));
    }
    name
}

/// Letters and digits in parts, single underscores between these.
fn joined(chance: &mut Chance, parts: usize, most: usize) -> Vec<u8> {
    let mut name = vec![chance.byte(LETTERS)];
    for part in 0..chance.between(1, parts) {
        if part > 0 {
            name.push(b'_');
        }
        let least = if part > 0 { 1 } else { 0 };
        for _ in 0..chance.between(least, most) {
            name.push(chance.byte(LETTERS_AND_DIGITS));
        }
    }
    name
}

/// A name that only resembles one of the words.
fn beside(chance: &mut Chance, words: &[&str]) -> Vec<u8> {
    let mut name = chance.pick(words).as_bytes().to_vec();
    match chance.below(6) {
        0 => name.push(chance.byte(LETTERS_AND_DIGITS)),
        1 => name.extend_from_slice(b"_1"),
        2 => name.splice(0..0, *b"x_").for_each(drop),
        3 if name.len() > 1 => drop(name.pop()),
        4 => name.insert(0, chance.byte(LETTERS)),
        _ => *name.last_mut().unwrap() = chance.byte(LETTERS_AND_DIGITS),
    }
    // `assume_guarantee` cut after its underscore is no name.
    if name.last() == Some(&b'_') {
        name.pop();
    }
    name
}

/// An extended name: graphic bytes between backslashes, a doubled backslash for one.
pub fn extended(chance: &mut Chance) -> Vec<u8> {
    let mut inside: Vec<u8> = match chance.weigh(&[25, 15, 30, 12, 10, 8]) {
        0 => basic(chance),
        1 => chance.pick(&RESERVED).as_bytes().to_vec(),
        2 => (0..chance.between(1, 12))
            .map(|_| graphic(chance))
            .collect(),
        3 => vec![b'\\'; chance.between(1, 4)],
        4 => chance.pick(&LANGUAGE).as_bytes().to_vec(),
        _ => (0..chance.between(1, 4))
            .map(|_| chance.byte(b"\\\\aA \"';-_"))
            .collect(),
    };
    if chance.percent(30) {
        inside = chance.cased(&inside);
    }
    enclosed(&inside)
}

/// The bytes between backslashes, those among them doubled.
fn enclosed(inside: &[u8]) -> Vec<u8> {
    let mut name = vec![b'\\'];
    for &byte in inside {
        name.push(byte);
        if byte == b'\\' {
            name.push(byte);
        }
    }
    name.push(b'\\');
    name
}

fn graphic(chance: &mut Chance) -> u8 {
    if chance.percent(75) {
        chance.between(32, 126) as u8
    } else {
        chance.between(160, 255) as u8
    }
}

/// A byte that no string or extended name holds.
fn forbidden(chance: &mut Chance) -> u8 {
    match chance.below(3) {
        0 => chance.below(32) as u8,
        1 => chance.between(127, 159) as u8,
        _ => chance.byte(b"\x00\n\r\t\x1F\x7F\x80\x9F"),
    }
}

/// A basic name with a capital letter.
pub fn in_upper_case(chance: &mut Chance, name: &[u8]) -> Vec<u8> {
    let mut name = if name.starts_with(b"\\") {
        basic(chance)
    } else {
        name.to_vec()
    };
    let letters: Vec<usize> = (0..name.len())
        .filter(|&place| name[place].is_ascii_lowercase())
        .collect();
    // A name begins with a letter, and what is no name may have none.
    if let Some(&place) = letters.get(chance.below(letters.len())) {
        name[place] = name[place].to_ascii_uppercase();
    }
    name
}

/// A reserved word, now and then in capitals.
pub fn reserved(chance: &mut Chance) -> Vec<u8> {
    let word = chance.pick(&RESERVED).as_bytes();
    if chance.percent(20) {
        chance.cased(word)
    } else {
        word.to_vec()
    }
}

/// A legal name that differs from a basic one in its last byte alone, or goes on with one byte more.
pub fn sibling(chance: &mut Chance, name: &[u8]) -> Vec<u8> {
    let mut name = name.to_vec();
    if name.len() > 1 && chance.percent(50) {
        name.pop();
    }
    name.push(chance.byte(LETTERS_AND_DIGITS));
    while is_reserved(&name) || LANGUAGE.iter().any(|word| word.as_bytes() == name) {
        name.push(chance.byte(LETTERS_AND_DIGITS));
    }
    name
}

/// Bytes that are no basic name by its underscores.
pub fn underscored(chance: &mut Chance, name: &[u8]) -> Vec<u8> {
    let mut name = if name.starts_with(b"\\") || name.is_empty() {
        joined(chance, 4, 8)
    } else {
        name.to_vec()
    };
    match chance.below(4) {
        0 => name.push(b'_'),
        1 => name.insert(0, b'_'),
        2 => {
            let place = chance.below(name.len());
            name.splice(place..place, *b"__").for_each(drop);
        }
        _ => match name.iter().position(|&byte| byte == b'_') {
            Some(place) => name.insert(place, b'_'),
            None => name.extend_from_slice(b"__a"),
        },
    }
    name
}

/// A basic name with a byte that has no place in one: at its beginning, inside, at its end.
pub fn foreign(chance: &mut Chance, name: &[u8]) -> Vec<u8> {
    let mut name = if name.starts_with(b"\\") {
        basic(chance)
    } else {
        name.to_vec()
    };
    let byte = match chance.below(4) {
        0 => chance.byte(b" -.'\";\\#(+@[`{/:"),
        1 => forbidden(chance),
        2 => chance.between(160, 255) as u8,
        _ => {
            name.insert(0, chance.byte(b"0123456789"));
            return name;
        }
    };
    let place = match chance.below(3) {
        0 => 0,
        1 => name.len(),
        _ => chance.below(name.len() + 1),
    };
    name.insert(place, byte);
    name
}

/// An extended name that is empty, not closed, closed too early, or holds a forbidden byte.
pub fn badly_enclosed(chance: &mut Chance) -> Vec<u8> {
    let mut name = extended(chance);
    match chance.below(9) {
        0 => drop(name.pop()),
        1 => name.push(b'\\'),
        2 | 8 => name = vec![b'\\'; [1, 2, 2, 3, 5][chance.below(5)]],
        3 => drop(name.remove(0)),
        4 => name.insert(0, b'\\'),
        5 => {
            let place = chance.between(1, name.len() - 1);
            name.insert(place, b'\\');
        }
        6 => {
            let place = chance.between(1, name.len() - 1);
            let byte = forbidden(chance);
            name.insert(place, byte);
        }
        _ => name.push(chance.byte(b"a_\" ;5\n\xE9")),
    }
    name
}
