//! Package texts to be stored: most of them whole, by leaving out what isn't in state 0, with rooms
//! at and around the size, and those of the survey, which are mostly not.

use super::elements::edge;
use super::strict::{render, Word};
use super::survey::{package, soup, words};
use super::{damage_byte, element_rows, names, rows, with_room, Case, Chance};
use crate::elements::{cut, MOST_ELEMENTS};
use crate::forms::{signs, Forms};
use crate::stored::{store, MOST_ROOM};
use crate::survey::{self, pieces, state, MOST_PIECES};
use std::collections::{HashMap, HashSet};

/// Items in state 0 at the edges of their numbers; the survey's own are seldom there.
#[rustfmt::skip]
const ITEMS: [&str; 16] = [
    "constant N : integer := - 2147483647 ;",
    "constant N : integer := 2147483647 ;",
    "constant N : integer := - 1 ;",
    "constant N : natural := 0 ;",
    "constant N : natural := 255 ;",
    "constant N : positive := 65536 ;",
    "constant N : integer := - 16#10_0000# ;",
    "constant N : boolean := true ;",
    "constant N : boolean := 1 = 2 ;",
    "subtype N is integer ;",
    "subtype N is natural ;",
    "subtype N is boolean ;",
    "subtype N is boolean ;",
    "subtype N is integer range - 2147483647 to 2147483647 ;",
    "subtype N is integer range 2147483647 to - 2147483647 ;",
    "subtype N is natural range 3 downto 5 ;",
];

pub fn case(chance: &mut Chance, forms: &Forms) -> Case {
    let (words, harm) = match chance.weigh(&[1000, 220, 25, 42, 44]) {
        0 => (whole_package(chance, forms), 3),
        1 => {
            let package = package(chance);
            (renamed(chance, package), 6)
        }
        2 => (soup(chance), 6),
        3 => (many_items(chance), 3),
        _ => (vec![edge(chance)], 6),
    };
    let mut text = render(chance, &words);
    if chance.percent(harm) {
        damage_byte(chance, &mut text);
    }
    let needed = pieces(&signs(&text, &cut(&text))).len();
    let other_rows = rows(chance, needed, MOST_PIECES, 88);
    let element_rows = element_rows(chance, &text, 92);
    let size = store(forms, &text, MOST_ELEMENTS, MOST_PIECES, MOST_ROOM)
        .map_or(chance.below(60), |bytes| bytes.len());
    let room = rows(chance, size, MOST_ROOM, 45);
    Case {
        mode: b't',
        element_rows,
        other_rows,
        text: with_room(room, &text),
    }
}

/// A package of the survey's with some items at the edges, other names, and without what isn't in
/// state 0. Its frame may be bad.
fn whole_package(chance: &mut Chance, forms: &Forms) -> Vec<Word> {
    let mut all = package(chance);
    for number in 0..chance.below(5) {
        // The survey's own items have smaller numbers.
        let number = 900 + number;
        let name = if chance.percent(25) {
            format!("\\c{number}\\")
        } else {
            format!("c{number}")
        };
        let place = match all
            .iter()
            .rposition(|word| word.eq_ignore_ascii_case(b"end"))
        {
            Some(place) => place,
            None => all.len(),
        };
        let line = chance.pick(&ITEMS).replace('N', &name);
        all.splice(place..place, words(&line)).for_each(drop);
    }
    let all = renamed(chance, all);
    without_faults(forms, all)
}

/// The words of the pieces in state 0 alone. What leans on a piece left out goes in the next round.
fn without_faults(forms: &Forms, mut words: Vec<Word>) -> Vec<Word> {
    loop {
        let text = words.join(&b' ');
        let Ok(survey) = survey::read(forms, &text, MOST_ELEMENTS, MOST_PIECES) else {
            return words;
        };
        let left: Vec<Word> = survey
            .records
            .iter()
            .filter(|record| record.state == state::FOLDED)
            .flat_map(|record| &survey.elements[record.first..record.first + record.count])
            .map(|element| element.bytes(&text).to_vec())
            .collect();
        if left.len() == survey.elements.len() {
            return words;
        }
        words = left;
    }
}

/// The names of the survey's packages replaced by names of every shape, each use of a basic one in
/// chance cases. The package's may be the language's, or an item's.
fn renamed(chance: &mut Chance, mut words: Vec<Word>) -> Vec<Word> {
    if chance.percent(15) {
        return words;
    }
    let share = [0, 10, 30, 80][chance.below(4)];
    let mut given: HashMap<Word, Word> = HashMap::new();
    let mut taken: HashSet<Word> = HashSet::new();
    for word in &words {
        let key = word.to_ascii_lowercase();
        if is_own(&key) && !given.contains_key(&key) {
            let name = if key[0] == b'\\' {
                names::extended(chance)
            } else {
                names::legal(chance, share)
            };
            if taken.insert(name.clone()) {
                given.insert(key, name);
            }
        }
    }
    let mut items: Vec<&Word> = taken.iter().collect();
    items.sort();
    let package = match chance.weigh(&[60, 10, 30]) {
        0 => names::legal(chance, 20),
        1 => chance.pick(&names::LANGUAGE).as_bytes().to_vec(),
        _ => match items.get(chance.below(items.len())) {
            Some(name) => name.to_vec(),
            None => b"p".to_vec(),
        },
    };
    for name in [&b"p"[..], b"gas", b"\\p\\"] {
        given.insert(name.to_vec(), package.clone());
    }
    for word in &mut words {
        if let Some(name) = given.get(&word.to_ascii_lowercase()) {
            *word = if name[0] == b'\\' {
                name.clone()
            } else {
                chance.cased(name)
            };
        }
    }
    words
}

/// Whether it is a name that the survey's packages give their items: c and a number, between
/// backslashes or not.
fn is_own(word: &[u8]) -> bool {
    let word = match word {
        [b'\\', inside @ .., b'\\'] => inside,
        _ => word,
    };
    match word {
        [b'c', number @ ..] => !number.is_empty() && number.iter().all(u8::is_ascii_digit),
        _ => false,
    }
}

/// Whole packages of about as many pieces as a survey may have.
fn many_items(chance: &mut Chance) -> Vec<Word> {
    let count = [1_020, 1_021, 1_022, 1_022, 1_023, 1_100][chance.below(6)];
    let mut all = words("package many is");
    for number in 0..count {
        let line = match chance.below(4) {
            0 => format!("constant n{number} : boolean := false ;"),
            1 => format!("subtype N{number} is natural ;"),
            _ => format!("constant n{number} : integer := {number} ;"),
        };
        all.extend(words(&line));
    }
    all.extend(words("end ;"));
    all
}
