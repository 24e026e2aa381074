//! Texts for the survey: packages of constants and subtypes, most of them meaningful, with the
//! faults of each state strewn in, lines damaged, frames good and bad, and about as many pieces
//! as a survey may have.

use super::elements::edge;
use super::strict::{any_word, render, Word};
use super::{damage_byte, element_rows, rows, Case, Chance};
use crate::elements::cut;
use crate::forms::{signs, Forms};
use crate::survey::{pieces, MOST_PIECES};

#[rustfmt::skip]
const WORDS: [&str; 28] = [
    "constant", "subtype", "end", "package", "is", ";", ";", ":", ":=", "range", "to", "downto",
    "a", "b", "c", "integer", "natural", "boolean", "true", "1", "2", "0", "+", "-", "(", ")",
    "and", "not",
];
/// Names that are mostly claimed elsewhere.
#[rustfmt::skip]
const TAKEN: [&str; 10] = [
    "c0", "c1", "c2", "integer", "natural", "true", "boolean", "\\c1\\", "false", "positive",
];
/// Literals at the edges of the size, of every shape.
#[rustfmt::skip]
const EDGES: [&str; 35] = [
    "2147483647", "2147483647", "2147483648", "2147483646", "46340", "46341", "65536",
    "16#7FFF_FFFF#", "16#8000_0000#", "2#1#E30", "2#1#E31", "2#1#e+3", "1E9", "1e10", "2E9",
    "21E8", "22E8", "0E9999999999", "16#F#E1", "16#f#e+1", "3#12#", "016#FF#", "1_0#9_9#",
    "00000000000000000000012", "99999999999999999999", "7#6#E10", "7#6#E11", "1E0", "12#B#",
    "4294967296", "4294967297", "18446744073709551617", "16#1_0000_0001#",
    "1E99999999999999999999", "2#0#E99999999999",
];
/// What fits neither an integer nor a truth, or only one of them.
#[rustfmt::skip]
const WILD: [&str; 11] = [
    "1.5", "2.0E-3", "'1'", "\"ab\"", "a ( 1 )", "c0 ' high", "integer ' range", "true",
    "( false )", "null", "( )",
];

/// Operands that meet each of the states 3 to 9; what leans is claimed, and broken, before.
#[rustfmt::skip]
const MEETING: [&[&str]; 7] = [
    &["1.5", "'1'", "\"ab\"", "a ( 1 )", "c0 ' high"],
    &["nowhere", "\\Nowhere\\"],
    &["broken_one", "Broken_One"],
    &["true", "( 1 = 1 )", "integer"],
    &["( 1 / 0 )", "( 5 mod 0 )", "( 5 rem 0 )"],
    &["( 2 ** ( - 1 ) )"],
    &["2147483648", "( 2147483647 + 1 )"],
];

pub fn case(chance: &mut Chance, _: &Forms) -> Case {
    let words = match chance.weigh(&[1000, 60, 10, 3]) {
        0 => package(chance),
        1 => soup(chance),
        2 => many_pieces(chance),
        _ => vec![edge(chance)],
    };
    let mut text = render(chance, &words);
    if chance.percent(6) {
        damage_byte(chance, &mut text);
    }
    let elements = cut(&text);
    let needed = pieces(&signs(&text, &elements)).len();
    let other_rows = rows(chance, needed, MOST_PIECES, 75);
    let element_rows = element_rows(chance, &text, 96);
    let mode = if chance.percent(40) { b'l' } else { b'r' };
    Case {
        mode,
        element_rows,
        other_rows,
        text,
    }
}

pub fn words(line: &str) -> Vec<Word> {
    line.split(' ')
        .map(|word| word.as_bytes().to_vec())
        .collect()
}

/// Words without any order, of those that matter to a survey.
pub fn soup(chance: &mut Chance) -> Vec<Word> {
    let count = chance.below(60);
    let mut words = Vec::new();
    for _ in 0..count {
        if chance.percent(15) {
            words.push(any_word(chance));
        } else {
            let word = chance.pick(&WORDS);
            words.push(chance.cased(word.as_bytes()));
        }
    }
    words
}

/// Texts of 1,023, 1,024 and 1,025 pieces, and of a few more.
fn many_pieces(chance: &mut Chance) -> Vec<Word> {
    let count = [1_023, 1_024, 1_025, 1_026, 1_100][chance.below(5)];
    let style = chance.below(3);
    let mut all = words("package p is");
    for number in 0..count - 2 {
        match style {
            0 => all.push(b";".to_vec()),
            1 => all.extend(words(&format!(
                "constant a{number} : integer := a{} ;",
                number / 2
            ))),
            _ => {
                let lines = [
                    "subtype",
                    "constant a ;",
                    "constant b : natural := 1 ;",
                    "end",
                ];
                all.extend(words(chance.pick(&lines)));
            }
        }
    }
    all.extend(words("end ;"));
    all
}

/// The words of a package, line by line.
pub fn package(chance: &mut Chance) -> Vec<Word> {
    let count = match chance.weigh(&[60, 35, 5]) {
        0 => chance.below(8),
        1 => chance.below(25),
        _ => chance.below(120),
    };
    let wild = [0, 2, 2, 6, 15][chance.below(5)];
    let mut writer = Writer {
        chance,
        words: Vec::new(),
        wild,
        own: Vec::new(),
    };
    let mut lines: Vec<Vec<Word>> = Vec::new();
    for number in 0..count {
        writer.item(number);
        lines.push(std::mem::take(&mut writer.words));
    }
    let name = chance.pick(&["p", "gas", "\\p\\"]);
    let heading = words(&format!("package {name} is"));
    lines.insert(0, heading.clone());
    let mut closing = words("end");
    if chance.percent(50) {
        closing.push(b"package".to_vec());
    }
    if chance.percent(50) {
        closing.push(if chance.percent(92) {
            heading[1].clone()
        } else {
            b"other".to_vec()
        });
    }
    closing.push(b";".to_vec());
    lines.push(closing);
    match chance.weigh(&[800, 20, 20, 20, 20, 20]) {
        1 => drop(lines.remove(0)),
        2 => drop(lines.pop()),
        3 => lines.insert(chance.below(lines.len() + 1), heading),
        4 => lines.insert(chance.below(lines.len() + 1), words("end ;")),
        5 => lines[0].extend(words("use x ;")),
        _ => {}
    }
    let share = [0, 0, 3, 10, 25][chance.below(5)];
    damage_lines(chance, &mut lines, share);
    lines.concat()
}

/// So many lines in a hundred damaged, the frame's less often.
fn damage_lines(chance: &mut Chance, lines: &mut Vec<Vec<Word>>, share: usize) {
    let mut number = 0;
    while number < lines.len() {
        let frame = number == 0 || number + 1 == lines.len();
        if !chance.percent(share) || (frame && chance.percent(80)) || lines[number].is_empty() {
            number += 1;
            continue;
        }
        let other = chance.below(lines.len());
        let other_name = lines[other].get(1).cloned();
        let line = &mut lines[number];
        let place = chance.below(line.len());
        let position = |word: &[u8]| {
            line.iter()
                .position(|other| other.eq_ignore_ascii_case(word))
        };
        match chance.below(12) {
            // The value is missing, then the semicolon, the colon, the assignment sign.
            0 => {
                if let Some(sign) = position(b":=").or(position(b"range")) {
                    let end = line.len() - 1;
                    line.drain((sign + 1).min(end)..end);
                }
            }
            1 => drop(line.pop()),
            2 => {
                if let Some(colon) = position(b":").or(position(b"is")) {
                    line.remove(colon);
                }
            }
            3 => {
                if let Some(sign) = position(b":=") {
                    line.remove(sign);
                }
            }
            4 | 5 => drop(line.remove(place)),
            6 => line.insert(
                place,
                chance
                    .pick(&[&b"?"[..], b"\x80", b"1__0", b"_", b"\"x"])
                    .to_vec(),
            ),
            7 => {
                if let (Some(name), Some(own)) = (other_name, line.get_mut(1)) {
                    *own = name;
                }
            }
            8 => {
                lines.remove(number);
                continue;
            }
            9 => {
                let again = lines[number].clone();
                lines.insert(other, again);
            }
            10 => {
                let word = any_word(chance);
                line.insert(place, word);
            }
            _ => lines.swap(number, other),
        }
        number += 1;
    }
}

/// A name given so far and what it stands for.
struct Own {
    name: Word,
    is_type: bool,
    truth: bool,
}

/// Writes items; so many choices in a hundred are wild.
struct Writer<'c> {
    chance: &'c mut Chance,
    words: Vec<Word>,
    wild: usize,
    own: Vec<Own>,
}

impl Writer<'_> {
    fn put(&mut self, word: &str) {
        let word = self.chance.cased(word.as_bytes());
        self.words.push(word);
    }

    fn put_one(&mut self, choices: &[&str]) {
        let word = self.chance.pick(choices);
        self.put(word);
    }

    fn wildly(&mut self) -> bool {
        self.chance.percent(self.wild)
    }

    /// An item that meets two neighbouring states at once, from 1 and 2 to 9 and 10, both in its name: `tests/compare` counts them by it.
    fn meeting(&mut self, number: usize) {
        let first = self.chance.between(1, 9);
        let name = format!("meets_{first}_{}_{number}", first + 1);
        let mut operands: Vec<&str> = Vec::new();
        for state in [first, first + 1] {
            if (3..10).contains(&state) {
                operands.push(self.chance.pick(MEETING[state - 3]));
            }
        }
        if self.chance.percent(50) {
            operands.reverse();
        }
        let operator = self.chance.pick(&["+", "-", "*"]);
        let value = operands.join(&format!(" {operator} "));
        let line = match first {
            1 => format!("constant {name} : integer := ; constant {name} : integer := 1 ;"),
            2 => format!("constant {name} : integer := {value} ; constant {name} : integer := 2 ;"),
            4 | 5 => format!(
                "constant broken_one : integer := ; constant {name} : integer := {value} ;"
            ),
            9 => format!("constant {name} : natural := - {value} ;"),
            _ => format!("constant {name} : integer := {value} ;"),
        };
        self.words.extend(words(&line));
    }

    fn item(&mut self, number: usize) {
        if self.chance.percent(4) {
            return self.meeting(number);
        }
        let truth = self.chance.percent(30);
        let is_type = self.chance.percent(30);
        let name = if self.wildly() && self.chance.percent(40) {
            self.chance.pick(&TAKEN).as_bytes().to_vec()
        } else if self.chance.percent(8) {
            format!("\\c{number}\\").into_bytes()
        } else {
            format!("c{number}").into_bytes()
        };
        self.put(if is_type { "subtype" } else { "constant" });
        self.words.push(name.clone());
        self.put(if is_type { "is" } else { ":" });
        self.mark(truth);
        if !is_type {
            self.put(":=");
            let depth = self.chance.below(4);
            let truth = truth != (self.wildly() && self.chance.percent(30));
            if self.chance.percent(1) {
                self.deep();
            } else if truth {
                self.truth(depth);
            } else {
                self.integer(depth);
            }
        } else if (!truth && self.chance.percent(70)) || self.wildly() {
            self.put("range");
            self.range();
        }
        self.put(";");
        self.own.push(Own {
            name,
            is_type,
            truth,
        });
    }

    /// About 32 parentheses open together.
    fn deep(&mut self) {
        let count = self.chance.between(30, 34);
        for _ in 0..count {
            if self.chance.percent(20) {
                self.put("1");
                self.put("+");
            }
            self.put("(");
        }
        self.put("3");
        for _ in 0..count {
            self.put(")");
        }
    }

    /// A name of the wanted class given above, if there is one.
    fn above(&mut self, is_type: bool, truth: bool) -> Option<Word> {
        let fitting: Vec<&Own> = self
            .own
            .iter()
            .filter(|own| own.is_type == is_type && own.truth == truth)
            .collect();
        if fitting.is_empty() {
            return None;
        }
        // The latest ones more often, so that long chains come about.
        let low = if self.chance.percent(50) {
            fitting.len().saturating_sub(4)
        } else {
            0
        };
        Some(
            fitting[self.chance.between(low, fitting.len() - 1)]
                .name
                .clone(),
        )
    }

    fn respelled(&mut self, name: Word) {
        let name = if name[0] == b'\\' {
            name
        } else {
            self.chance.cased(&name)
        };
        self.words.push(name);
    }

    /// A name of no wanted class: unknown, from below, a type, a truth, doubled.
    fn wild_name(&mut self) {
        match self.chance.below(4) {
            0 => self.put_one(&["nowhere", "\\C1\\", "p", "gas", "\\integer\\"]),
            1 => {
                let number = self.chance.below(self.own.len() + 4);
                let name = format!("c{number}").into_bytes();
                self.words.push(name);
            }
            2 => self.put_one(&["integer", "natural", "positive", "boolean", "true", "false"]),
            _ => {
                let (is_type, truth) = (self.chance.percent(50), self.chance.percent(50));
                let name = self.above(is_type, truth).unwrap_or(b"c0".to_vec());
                self.respelled(name);
            }
        }
    }

    fn mark(&mut self, truth: bool) {
        if self.wildly() {
            return self.wild_name();
        }
        if self.chance.percent(35) {
            if let Some(name) = self.above(true, truth) {
                return self.respelled(name);
            }
        }
        if truth {
            self.put("boolean");
        } else {
            self.put_one(&[
                "integer", "integer", "integer", "natural", "natural", "positive",
            ]);
        }
    }

    fn range(&mut self) {
        let usual = !self.chance.percent(25);
        let downward = self.chance.percent(40);
        if usual {
            // Mostly a range that isn't null and not too narrow.
            let low = self.chance.below(10) as i64 - 4;
            let high = low + self.chance.below(30) as i64 - 2;
            let (first, second) = if downward { (high, low) } else { (low, high) };
            self.bound(first);
            self.put(if downward { "downto" } else { "to" });
            self.bound(second);
        } else {
            if self.wildly() && self.chance.percent(30) {
                self.put("true");
            } else {
                self.integer(1);
            }
            self.put(if downward { "downto" } else { "to" });
            self.integer(1);
        }
    }

    fn bound(&mut self, number: i64) {
        if number < 0 {
            self.put("-");
        }
        self.put(&number.abs().to_string());
    }

    /// A simple expression that should give an integer.
    fn integer(&mut self, depth: usize) {
        if self.chance.percent(12) {
            self.put_one(&["-", "-", "+"]);
        }
        self.term(depth);
        while self.chance.percent(22) {
            if self.wildly() && self.chance.percent(10) {
                self.put("&");
            } else {
                self.put_one(&["+", "-"]);
            }
            self.term(depth);
        }
    }

    fn term(&mut self, depth: usize) {
        self.factor(depth);
        while self.chance.percent(18) {
            self.put_one(&["*", "/", "mod", "rem"]);
            match self.chance.weigh(&[70, 10, 20]) {
                0 => self.factor(depth),
                1 if self.chance.percent(30) => self.put("0"),
                _ => {
                    // A divisor of either sign.
                    let sign = if self.chance.percent(50) { "- " } else { "" };
                    let number = self.chance.between(1, 7);
                    self.words.extend(words(&format!("( {sign}{number} )")));
                }
            }
        }
    }

    fn factor(&mut self, depth: usize) {
        match self.chance.weigh(&[80, 12, 8]) {
            0 => self.primary(depth),
            1 => {
                self.primary(depth);
                self.put("**");
                match self.chance.weigh(&[60, 10, 20, 10]) {
                    0 => self.put_one(&["0", "1", "2", "3", "4", "2"]),
                    1 => self.words.extend(words("( - 1 )")),
                    2 => self.primary(depth),
                    _ => self.put_one(&["30", "31", "32", "2147483647", "99"]),
                }
            }
            _ => {
                self.put("abs");
                self.primary(depth);
            }
        }
    }

    fn primary(&mut self, depth: usize) {
        if self.wildly() {
            return self.wild_primary();
        }
        match self
            .chance
            .weigh(&[35, 35, 6, if depth > 0 { 30 } else { 0 }])
        {
            0 => {
                let number = self.chance.below(20);
                self.put(&number.to_string());
            }
            1 => match self.above(false, false) {
                Some(name) => self.respelled(name),
                None => self.put_one(&["1", "2", "7", "100"]),
            },
            2 => self.put_one(&EDGES),
            _ => {
                self.put("(");
                self.integer(depth - 1);
                self.put(")");
            }
        }
    }

    /// What no integer is made of, or a name from anywhere.
    fn wild_primary(&mut self) {
        if self.chance.percent(60) {
            return self.wild_name();
        }
        let line = self.chance.pick(&WILD);
        self.words.extend(words(line));
    }

    /// An expression that should give a truth.
    fn truth(&mut self, depth: usize) {
        self.relation(depth);
        match self.chance.weigh(&[60, 28, 12]) {
            1 => {
                let word = self.chance.pick(&["and", "or", "xor", "xnor"]);
                for _ in 0..self.chance.between(1, 3) {
                    self.put(word);
                    self.relation(depth);
                }
                if self.wildly() && self.chance.percent(10) {
                    self.put_one(&["and", "or", "xor", "nand"]);
                    self.relation(depth);
                }
            }
            2 => {
                self.put_one(&["nand", "nor"]);
                self.relation(depth);
            }
            _ => {}
        }
    }

    fn relation(&mut self, depth: usize) {
        match self.chance.weigh(&[45, 40, 15]) {
            0 => self.truth_factor(depth),
            1 => {
                self.integer(depth.saturating_sub(1));
                self.put_one(&["=", "/=", "<", "<=", ">", ">="]);
                self.integer(depth.saturating_sub(1));
            }
            _ => {
                self.truth_factor(depth);
                self.put_one(&["=", "/=", "<", "<=", ">", ">="]);
                self.truth_factor(depth);
            }
        }
    }

    fn truth_factor(&mut self, depth: usize) {
        if self.chance.percent(20) {
            self.put("not");
        }
        if self.wildly() {
            return self.wild_primary();
        }
        match self.chance.weigh(&[30, 40, if depth > 0 { 30 } else { 0 }]) {
            0 => self.put_one(&["true", "false"]),
            1 => match self.above(false, true) {
                Some(name) => self.respelled(name),
                None => self.put_one(&["true", "false"]),
            },
            _ => {
                self.put("(");
                self.truth(depth - 1);
                self.put(")");
            }
        }
    }
}
