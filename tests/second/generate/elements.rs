//! Texts for the element reader: soups of pieces that touch every rule of 01's section Elements,
//! plain bytes, readable texts, readable texts with a byte damaged, and the sizes' edges.

use super::{damage_byte, element_rows, strict, Case, Chance};
use crate::elements::{DELIMITERS, RESERVED};
use crate::forms::Forms;

/// Few bytes each, so that the rules meet often in plain chance.
const ALPHABETS: [&[u8]; 8] = [
    b"'\"\\_#.eE+-10aF \xA0\n()/*=<>:",
    b"''')ab \nin",
    b"\"\"\"a_ \\\n5",
    b"\\\\\\a_\" '\x80\n",
    b"0123456789abcdefABCDEF#_#.E+-",
    b"12_#.Ee+-\"'a ",
    b"<>=:/*-&|[](),;.+'",
    b"aZ0_9 -\t\n\x0B\x0C\r",
];
/// What stands right after a reserved word, an enclosed element or a number.
#[rustfmt::skip]
const BEHIND_WORDS: [&[u8]; 7] = [b"\"\"", b"\"a", b"_", b"'a'", b"'", b"\\a\\", b"#"];
#[rustfmt::skip]
const BEHIND_ENCLOSED: [&[u8]; 9] = [
    b"\"", b"_", b"\"\"", b"\\", b"'", b"'a'", b"a", b"5", b" \"",
];
#[rustfmt::skip]
const BEHIND_NUMBERS: [&[u8]; 20] = [
    b"a", b"E", b"7", b"_", b"_5", b".", b".5", b"#", b"\"", b"\"\"", b"'", b"'a'", b"\\a\\",
    b"\xC0", b"\xA0", b"(", b"--", b"-1", b"\x80", b"#1#",
];
#[rustfmt::skip]
const COMMENTS: [&[u8]; 8] = [
    b"--", b"---", b"- -", b"--'a", b"-- \"", b"--\x80\x00", b"/*", b"*/",
];
#[rustfmt::skip]
const BEFORE_APOSTROPHES: [&[u8]; 19] = [
    b"", b"a", b"a_1", b"\\x\\", b")", b"(", b"in", b"RANGE", b"end", b"5", b"1.5", b"\"s\"",
    b"'c'", b"'", b",", b"\n", b"]", b"2#1#", b"&",
];
#[rustfmt::skip]
const BASES: [&str; 27] = [
    "2", "3", "4", "5", "6", "7", "8", "9", "10", "11", "12", "13", "14", "15", "16", "016", "1_6",
    "0_2", "002", "0", "1", "17", "20", "1__6", "4294967298", "65538", "18446744073709551618",
];

pub fn case(chance: &mut Chance, _: &Forms) -> Case {
    let text = if chance.below(70) == 0 {
        edge(chance)
    } else {
        text(chance)
    };
    let element_rows = element_rows(chance, &text, 55);
    Case {
        mode: b'e',
        element_rows,
        other_rows: 0,
        text,
    }
}

fn text(chance: &mut Chance) -> Vec<u8> {
    let length = match chance.weigh(&[60, 36, 4]) {
        0 => chance.below(60),
        1 => chance.below(200),
        _ => chance.below(3000),
    };
    match chance.weigh(&[50, 16, 6, 10, 18]) {
        0 => soup(chance, length),
        1 => {
            let alphabet = chance.pick(&ALPHABETS);
            (0..length).map(|_| chance.byte(alphabet)).collect()
        }
        2 => (0..length).map(|_| chance.below(256) as u8).collect(),
        3 => strict::readable(chance, length / 8),
        _ => {
            let mut text = strict::readable(chance, length / 8);
            damage_byte(chance, &mut text);
            text
        }
    }
}

/// Texts about as long as a text may be, and of about as many elements.
pub fn edge(chance: &mut Chance) -> Vec<u8> {
    if chance.percent(50) {
        let length = [65_535, 65_536, 65_537, 65_600][chance.below(4)];
        let mut text = match chance.below(4) {
            0 => vec![b' '; length],
            1 => vec![b'a'; length],
            2 => [b"-- ", &vec![b'-'; length - 3][..]].concat(),
            _ => b"constant a : integer := 1;\n"
                .iter()
                .cycle()
                .take(length)
                .copied()
                .collect(),
        };
        for _ in 0..chance.below(3) {
            let place = chance.below(length);
            text[place] = chance.byte(b"\n;a ");
        }
        text
    } else {
        let count = [8_191, 8_192, 8_193, 8_194, 9_000][chance.below(5)];
        let mut text = vec![chance.byte(b" \t\n"); chance.below(60)];
        let word = chance.pick(&[&b";"[..], b"a ", b"'1'", b"<=", b"1 ", b"\"\",", b"_\n"]);
        let each = if word == b"\"\"," { 2 } else { 1 };
        for _ in 0..count / each {
            text.extend_from_slice(word);
        }
        text.extend_from_slice(if count % each == 1 { b";" } else { b" " });
        text
    }
}

/// Pieces one after the other, with and without separators.
fn soup(chance: &mut Chance, length: usize) -> Vec<u8> {
    let mut text = Vec::new();
    while text.len() < length {
        piece(chance, &mut text);
        match chance.weigh(&[50, 28, 4, 4, 10, 4]) {
            0 => {}
            1 => text.push(b' '),
            2 => text.push(9),
            3 => text.push(160),
            4 => text.push(chance.between(10, 13) as u8),
            _ => text.extend_from_slice(b" \r\n\t"),
        }
    }
    text
}

fn piece(chance: &mut Chance, text: &mut Vec<u8>) {
    match chance.weigh(&[12, 6, 10, 6, 9, 9, 10, 16, 12, 4, 6]) {
        0 => identifier(chance, text),
        1 => {
            // Underscores where none may stand.
            let place = chance.below(3);
            if place == 0 {
                text.push(b'_');
            }
            identifier(chance, text);
            text.extend_from_slice([&b"_"[..], b"__", b"__a", b"_\""][chance.below(4)]);
        }
        2 => {
            let word = chance.pick(&RESERVED);
            let word = chance.cased(word.as_bytes());
            text.extend_from_slice(&word);
            if chance.percent(20) {
                text.extend_from_slice(chance.pick(&BEHIND_WORDS));
            }
        }
        3 => near_reserved(chance, text),
        4 => enclosed(chance, text, b'"'),
        5 => enclosed(chance, text, b'\\'),
        6 => apostrophes(chance, text),
        7 => number(chance, text),
        8 => {
            for _ in 0..chance.between(1, 3) {
                text.extend_from_slice(chance.pick(&DELIMITERS).as_bytes());
            }
        }
        9 => {
            text.extend_from_slice(chance.pick(&COMMENTS));
            if chance.percent(60) {
                text.push(chance.between(10, 13) as u8);
            }
        }
        _ => {
            let byte = match chance.below(4) {
                0 => chance.below(32),
                1 => chance.between(127, 160),
                2 => chance.between(161, 255),
                _ => b"!#$%?@^_`{}~"[chance.below(12)] as usize,
            };
            text.push(byte as u8);
            if chance.percent(40) {
                text.push(10);
            }
        }
    }
}

fn identifier(chance: &mut Chance, text: &mut Vec<u8>) {
    text.push(chance.byte(b"abcdefgxyzABEFOXZ"));
    for _ in 0..chance.below(5) {
        if chance.percent(25) {
            text.push(b'_');
        }
        text.push(chance.byte(b"abexEFZ0129"));
    }
}

/// Words that are nearly reserved, and some that are again.
fn near_reserved(chance: &mut Chance, text: &mut Vec<u8>) {
    let word = chance.pick(&RESERVED);
    let mut word = chance.cased(word.as_bytes());
    let place = chance.below(word.len());
    match chance.below(7) {
        0 => drop(word.remove(place)),
        1 => word.insert(place, b'e'),
        2 => word[place] = chance.byte(b"aeinost_1"),
        3 => word.extend_from_slice(b"_x"),
        4 => word.push(chance.byte(b"s1_")),
        5 => word = [b"\\", &word[..], b"\\"].concat(),
        _ => word.insert(0, chance.byte(b"ax_")),
    }
    text.extend_from_slice(&word);
}

/// A string or an extended identifier, with doubled marks, forbidden bytes, or never closed.
fn enclosed(chance: &mut Chance, text: &mut Vec<u8>, mark: u8) {
    text.push(mark);
    for _ in 0..chance.below(5) {
        match chance.weigh(&[50, 20, 8, 4, 8, 10]) {
            0 => text.push(chance.byte(b"aA1_ ")),
            1 => text.extend_from_slice(&[mark, mark]),
            2 => text.push(mark),
            3 => text.push(chance.byte(&[0, 9, 10, 13, 31, 127, 128, 159])),
            4 => text.push(chance.byte(&[32, 126, 160, 161, 192, 255])),
            _ => text.push(chance.byte(b"\"\\'-;")),
        }
    }
    if chance.percent(85) {
        text.push(mark);
    }
    if chance.percent(25) {
        text.extend_from_slice(chance.pick(&BEHIND_ENCLOSED));
    }
}

/// Apostrophes after everything the rule names, with blanks between and without.
fn apostrophes(chance: &mut Chance, text: &mut Vec<u8>) {
    let before = chance.pick(&BEFORE_APOSTROPHES);
    text.extend_from_slice(before);
    if chance.percent(25) {
        text.push(chance.byte(b" \t\xA0\n"));
    }
    for _ in 0..chance.between(1, 3) {
        match chance.weigh(&[40, 30, 12, 18]) {
            0 => text.extend_from_slice(&[b'\'', chance.byte(b"a1('\") \\-_;"), b'\'']),
            1 => {
                for _ in 0..chance.between(1, 5) {
                    text.push(b'\'');
                }
            }
            2 => {
                let byte = chance.byte(&[
                    0, 9, 10, 11, 12, 13, 14, 31, 126, 127, 128, 159, 160, 161, 255,
                ]);
                text.extend_from_slice(&[b'\'', byte, b'\'']);
            }
            _ => {
                text.extend_from_slice(chance.pick(&[&b"'"[..], b"'a", b"'ab'", b"'(a'", b"'a b'"]))
            }
        }
    }
}

/// Numbers of every shape, good and bad, and what may stand right after them.
fn number(chance: &mut Chance, text: &mut Vec<u8>) {
    match chance.weigh(&[35, 40, 25]) {
        0 => digits(chance, text),
        1 => {
            let base = chance.pick(&BASES);
            text.extend_from_slice(base.as_bytes());
            text.push(b'#');
            let value: usize = base.replace('_', "").parse().unwrap_or(10);
            for _ in 0..chance.between(0, 4) {
                let limit = if chance.percent(93) {
                    value.clamp(2, 16)
                } else {
                    17
                };
                text.push(b"0123456789abcdefg"[chance.below(limit)]);
                if chance.percent(12) {
                    text.push(b'_');
                }
            }
            if chance.percent(50) {
                let end = text.len();
                text[end - 1].make_ascii_uppercase();
            }
            if chance.percent(5) {
                text.extend_from_slice(b".8");
            }
            if chance.percent(93) {
                text.push(b'#');
            }
        }
        _ => {
            digits(chance, text);
            text.push(b'.');
            if chance.percent(92) {
                digits(chance, text);
            }
        }
    }
    if chance.percent(40) {
        text.push(chance.byte(b"Ee"));
        text.extend_from_slice(chance.pick(&[&b""[..], b"", b"", b"+", b"-", b"_", b"+-", b" "]));
        if chance.percent(92) {
            digits(chance, text);
        }
    }
    if chance.percent(35) {
        text.extend_from_slice(chance.pick(&BEHIND_NUMBERS));
    }
}

fn digits(chance: &mut Chance, text: &mut Vec<u8>) {
    for place in 0..chance.between(1, 4) {
        if place > 0 && chance.percent(15) {
            text.push(b'_');
        }
        if chance.percent(2) {
            text.push(b'_');
        }
        text.push(chance.byte(b"0123456789"));
    }
}
