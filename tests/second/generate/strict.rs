//! Texts for the strict reading: files derived at random from 01's table of forms, the same with
//! one element or byte damaged, wrong closing names, nesting about as deep as allowed, and soups.

use super::elements::edge;
use super::{damage_byte, element_rows, rows, Case, Chance};
use crate::elements::MOST_ELEMENTS;
use crate::forms::Forms;
use crate::strict;

/// The bytes of one element.
pub type Word = Vec<u8>;

pub fn case(chance: &mut Chance, forms: &Forms) -> Case {
    let size = match chance.weigh(&[50, 42, 8]) {
        0 => chance.below(20),
        1 => chance.below(80),
        _ => chance.below(300),
    };
    let text = match chance.weigh(&[300, 300, 120, 100, 120, 60, 3]) {
        0 => readable(chance, size),
        1 => {
            let wrong = if chance.percent(20) { 10 } else { 0 };
            let mut words = file(chance, size, wrong);
            for _ in 0..chance.weigh(&[0, 80, 15, 5]) {
                damage_word(chance, &mut words);
            }
            render(chance, &words)
        }
        2 => {
            let mut text = readable(chance, size);
            damage_byte(chance, &mut text);
            text
        }
        3 => {
            let words = file(chance, size, 25);
            render(chance, &words)
        }
        4 => {
            let mut words = deep(chance);
            if chance.percent(15) {
                damage_word(chance, &mut words);
            }
            render(chance, &words)
        }
        5 => {
            let words: Vec<Word> = (0..size).map(|_| any_word(chance)).collect();
            render(chance, &words)
        }
        _ => edge(chance),
    };
    let element_rows = element_rows(chance, &text, 93);
    let needed =
        strict::read(forms, &text, MOST_ELEMENTS, MOST_ELEMENTS).map_or(0, |rows| rows.len());
    let other_rows = rows(chance, needed, MOST_ELEMENTS, 55);
    Case {
        mode: b's',
        element_rows,
        other_rows,
        text,
    }
}

/// A file as text, with about so many statements and declarations.
pub fn readable(chance: &mut Chance, size: usize) -> Vec<u8> {
    let words = file(chance, size, 0);
    render(chance, &words)
}

/// The words of a file. So many closing names in a hundred are wrong.
fn file(chance: &mut Chance, size: usize, wrong: usize) -> Vec<Word> {
    let mut writer = Writer {
        chance,
        words: Vec::new(),
        left: size as i64,
        open: 0,
        wrong,
    };
    writer.unit();
    while writer.left > 0 && writer.chance.percent(70) {
        writer.unit();
    }
    writer.words
}

/// The words between separators: none only where two words can't run together.
pub fn render(chance: &mut Chance, words: &[Word]) -> Vec<u8> {
    let mut text: Vec<u8> = Vec::new();
    let tight = chance.below(100);
    for word in words {
        if let Some(&last) = text.last() {
            let tick = word == b"'";
            let safe = tick || b";(),".contains(&last) || b";(),".contains(&word[0]);
            if !(safe && chance.percent(tight)) {
                match chance.weigh(&[80, 3, 3, 12, 2]) {
                    // A line end before a tick might make it open a literal, so mostly none.
                    3 if word[0] != b'\'' || chance.percent(5) => {
                        text.push(chance.between(10, 13) as u8)
                    }
                    1 => text.push(9),
                    2 => text.push(160),
                    4 if word[0] != b'\'' => {
                        text.extend_from_slice(b" -- note ' \" ( end;\xFF\x01\n")
                    }
                    _ => text.push(b' '),
                }
            }
        }
        text.extend_from_slice(word);
    }
    if chance.percent(50) {
        text.push(b'\n');
    }
    text
}

/// One element deleted, put in, replaced or doubled, or two swapped, or the rest cut off.
fn damage_word(chance: &mut Chance, words: &mut Vec<Word>) {
    if words.is_empty() {
        return;
    }
    let place = chance.below(words.len());
    let other = chance.below(words.len());
    let word = if chance.percent(50) {
        words[other].clone()
    } else {
        any_word(chance)
    };
    match chance.weigh(&[25, 22, 22, 8, 5, 10, 8]) {
        0 => drop(words.remove(place)),
        1 => words.insert(place, word),
        2 => words[place] = word,
        3 => words.insert(place, words[place].clone()),
        4 => words.swap(place, other),
        5 => {
            let next = (place + 1).min(words.len() - 1);
            words.swap(place, next);
        }
        _ => words.truncate(place),
    }
}

#[rustfmt::skip]
const WORDS: [&str; 59] = [
    "package", "entity", "architecture", "of", "is", "end", "constant", "subtype", "signal",
    "variable", "alias", "port", "in", "out", "inout", "range", "to", "downto", "block", "process",
    "begin", "if", "then", "elsif", "else", "for", "while", "loop", "next", "exit", "when", "null",
    "abs", "not", "mod", "rem", "and", "or", "xor", "nand", "nor", "xnor", "case", "sll",
    ":", ";", ":=", "<=", "=>", "(", ")", ",", "'", "+", "-", "&", "*", "**", "=",
];
#[rustfmt::skip]
const NAMES: [&str; 12] = [
    "a", "b", "c", "foo", "x_1", "clk", "Bar2", "\\a\\", "\\A\\", "\\x \\\\y\\", "integer", "true",
];
#[rustfmt::skip]
const LITERALS: [&str; 12] = [
    "0", "1", "42", "16#F_F#", "2#1#E3", "1E6", "1.5", "2.0E-3", "'1'", "'''", "\"\"", "\"a \"\"b\"",
];
/// Delimiters that no form or only an expression has, then what is unreadable.
#[rustfmt::skip]
const RARE: [&str; 16] = [
    "/=", "<", "<=", ">", ">=", "/", "<>", ".", "|", "[", "]", "?", "1__0", "a_", "\"x", "/*",
];

pub fn any_word(chance: &mut Chance) -> Word {
    let word = match chance.weigh(&[50, 25, 10, 15]) {
        0 => {
            let word = chance.pick(&WORDS);
            return chance.cased(word.as_bytes());
        }
        1 => chance.pick(&NAMES),
        2 => chance.pick(&LITERALS),
        // An unreadable element hides every other fault, so mostly none.
        _ => {
            let count = if chance.percent(12) { RARE.len() } else { 11 };
            chance.pick(&RARE[..count])
        }
    };
    word.as_bytes().to_vec()
}

/// Writes words of a file, form by form; `left` is about how many more to spend.
struct Writer<'c> {
    chance: &'c mut Chance,
    words: Vec<Word>,
    left: i64,
    open: usize,
    wrong: usize,
}

impl Writer<'_> {
    /// Reserved words and delimiters, in chance cases.
    fn put(&mut self, line: &str) {
        for word in line.split(' ') {
            let word = self.chance.cased(word.as_bytes());
            self.words.push(word);
        }
    }

    fn name(&mut self) -> Word {
        let name = self.chance.pick(&NAMES).as_bytes();
        self.respell(name)
    }

    /// The same name again: a basic one perhaps in other cases.
    fn respell(&mut self, name: &[u8]) -> Word {
        if name[0] == b'\\' {
            return name.to_vec();
        }
        self.chance.cased(name)
    }

    fn put_name(&mut self) -> Word {
        let name = self.name();
        self.words.push(name.clone());
        name
    }

    /// After an end: perhaps the name, sometimes a wrong one or one that closes what had none.
    fn closing(&mut self, name: Option<&Word>) {
        if self.chance.percent(self.wrong) {
            self.put_name();
        } else if let Some(name) = name {
            if self.chance.percent(60) {
                let again = self.respell(&name.to_ascii_lowercase());
                let again = if name[0] == b'\\' {
                    name.clone()
                } else {
                    again
                };
                self.words.push(again);
            }
        }
        self.put(";");
    }

    fn unit(&mut self) {
        self.left -= 1;
        match self.chance.weigh(&[20, 15, 65]) {
            0 => {
                self.put("package");
                let name = self.put_name();
                self.put("is");
                self.declarations(&[4, 5]);
                self.end_unit("package", &name);
            }
            1 => {
                self.put("entity");
                let name = self.put_name();
                self.put("is");
                if self.chance.percent(70) {
                    self.put("port (");
                    self.port();
                    while self.chance.percent(40) {
                        self.put(";");
                        self.port();
                    }
                    self.put(") ;");
                }
                self.end_unit("entity", &name);
            }
            _ => {
                self.put("architecture");
                let name = self.put_name();
                self.put("of");
                self.put_name();
                self.put("is");
                self.declarations(&[4, 5, 6, 9]);
                self.put("begin");
                self.concurrents();
                self.end_unit("architecture", &name);
            }
        }
    }

    fn end_unit(&mut self, word: &str, name: &Word) {
        self.put("end");
        if self.chance.percent(50) {
            self.put(word);
        }
        self.closing(Some(name));
    }

    /// Whether a list goes on.
    fn more(&mut self, share: usize) -> bool {
        self.left > 0 && self.chance.percent(share)
    }

    fn declarations(&mut self, forms: &[usize]) {
        while self.more(45) {
            let form = forms[self.chance.below(forms.len())];
            self.declaration(form);
        }
    }

    fn declaration(&mut self, form: usize) {
        self.left -= 1;
        match form {
            4 => {
                self.put("constant");
                self.put_name();
                self.put(":");
                self.put_name();
                self.put(":=");
                self.expression();
            }
            5 => {
                self.put("subtype");
                self.put_name();
                self.put("is");
                self.put_name();
                if self.chance.percent(60) {
                    self.put("range");
                    self.range();
                }
            }
            9 => {
                self.put("alias");
                self.put_name();
                self.put("is");
                self.put_name();
            }
            _ => {
                self.put(if form == 6 { "signal" } else { "variable" });
                self.put_name();
                self.put(":");
                self.put_name();
                self.slice();
            }
        }
        self.put(";");
    }

    fn port(&mut self) {
        self.put_name();
        self.put(":");
        if self.chance.percent(70) {
            let word = self.chance.pick(&["in", "out", "inout"]);
            self.put(word);
        }
        self.put_name();
        self.slice();
    }

    fn slice(&mut self) {
        if self.chance.percent(40) {
            self.put("(");
            self.range();
            self.put(")");
        }
    }

    fn range(&mut self) {
        self.simple(2);
        let word = self.chance.pick(&["to", "downto"]);
        self.put(word);
        self.simple(2);
    }

    fn concurrents(&mut self) {
        while self.more(65) {
            self.left -= 1;
            match self.chance.weigh(&[30, 25, 45]) {
                0 => {
                    self.target();
                    self.put("<=");
                    self.expression();
                    self.put(";");
                }
                1 if self.open < 28 => self.block(),
                _ if self.open < 28 => self.process(),
                _ => {}
            }
        }
    }

    fn block(&mut self) {
        self.open += 1;
        let label = self.put_name();
        self.put(": block");
        if self.chance.percent(30) {
            self.put("(");
            self.expression();
            self.put(")");
        }
        if self.chance.percent(30) {
            self.put("is");
        }
        self.declarations(&[4, 5, 6, 9]);
        self.put("begin");
        self.concurrents();
        self.put("end block");
        self.closing(Some(&label));
        self.open -= 1;
    }

    fn label(&mut self, share: usize) -> Option<Word> {
        if !self.chance.percent(share) {
            return None;
        }
        let label = self.put_name();
        self.put(":");
        Some(label)
    }

    fn process(&mut self) {
        self.open += 1;
        let label = self.label(50);
        self.put("process");
        if self.chance.percent(50) {
            self.put("(");
            self.put_name();
            while self.chance.percent(40) {
                self.put(",");
                self.put_name();
            }
            self.put(")");
        }
        if self.chance.percent(40) {
            self.put("is");
        }
        self.declarations(&[4, 7]);
        self.put("begin");
        self.sequentials();
        self.put("end process");
        self.closing(label.as_ref());
        self.open -= 1;
    }

    fn sequentials(&mut self) {
        while self.more(65) {
            self.sequential();
        }
    }

    fn sequential(&mut self) {
        self.left -= 1;
        let deep = if self.open < 28 { 1 } else { 0 };
        match self
            .chance
            .weigh(&[20, 20, 20 * deep, 10 * deep, 8 * deep, 8 * deep, 8, 8, 8])
        {
            0 => self.assignment("<="),
            1 => self.assignment(":="),
            2 => {
                self.open += 1;
                self.put("if");
                self.expression();
                self.put("then");
                self.sequentials();
                while self.more(30) {
                    self.put("elsif");
                    self.expression();
                    self.put("then");
                    self.sequentials();
                }
                if self.chance.percent(40) {
                    self.put("else");
                    self.sequentials();
                }
                self.put("end if ;");
                self.open -= 1;
            }
            form @ 3..=5 => {
                self.open += 1;
                let label = self.label(40);
                self.loop_head(form);
                self.sequentials();
                self.put("end loop");
                self.closing(label.as_ref());
                self.open -= 1;
            }
            form @ 6..=7 => {
                // A label here makes the file fail the verdict.
                self.label(25);
                self.put(if form == 6 { "next" } else { "exit" });
                if self.chance.percent(40) {
                    self.put_name();
                }
                if self.chance.percent(40) {
                    self.put("when");
                    self.expression();
                }
                self.put(";");
            }
            _ => {
                self.label(25);
                self.put("null ;");
            }
        }
    }

    fn loop_head(&mut self, form: usize) {
        match form {
            3 => {
                self.put("for");
                self.put_name();
                self.put("in");
                self.range();
            }
            4 => {
                self.put("while");
                self.expression();
            }
            _ => {}
        }
        self.put("loop");
    }

    fn assignment(&mut self, sign: &str) {
        self.target();
        self.put(sign);
        self.expression();
        self.put(";");
    }

    /// Form 24 or 25; the prefix of form 25 may have ticks.
    fn target(&mut self) {
        self.put_name();
        if self.chance.percent(35) {
            self.suffixes(2);
            self.put("(");
            self.expression_of(2);
            self.put(")");
        }
    }

    fn suffixes(&mut self, depth: usize) {
        while self.chance.percent(20) {
            if depth > 0 && self.chance.percent(60) {
                self.put("(");
                self.expression_of(depth - 1);
                self.put(")");
            } else {
                self.put("'");
                if self.chance.percent(30) {
                    self.put("range");
                } else {
                    self.put_name();
                }
            }
        }
    }

    fn expression(&mut self) {
        let depth = self.chance.below(5);
        self.expression_of(depth);
    }

    fn expression_of(&mut self, depth: usize) {
        self.relation(depth);
        match self.chance.weigh(&[75, 15, 10]) {
            1 => {
                let word = self.chance.pick(&["and", "or", "xor", "xnor"]);
                for _ in 0..self.chance.between(1, 3) {
                    self.put(word);
                    self.relation(depth);
                }
            }
            2 => {
                let word = self.chance.pick(&["nand", "nor"]);
                self.put(word);
                self.relation(depth);
            }
            _ => {}
        }
    }

    fn relation(&mut self, depth: usize) {
        self.simple(depth);
        if self.chance.percent(15) {
            let word = self.chance.pick(&["=", "/=", "<", "<=", ">", ">="]);
            self.put(word);
            self.simple(depth);
        }
    }

    fn simple(&mut self, depth: usize) {
        if self.chance.percent(15) {
            let word = self.chance.pick(&["+", "-"]);
            self.put(word);
        }
        self.term(depth);
        while self.chance.percent(18) {
            let word = self.chance.pick(&["+", "-", "&"]);
            self.put(word);
            self.term(depth);
        }
    }

    fn term(&mut self, depth: usize) {
        self.factor(depth);
        while self.chance.percent(15) {
            let word = self.chance.pick(&["*", "/", "mod", "rem"]);
            self.put(word);
            self.factor(depth);
        }
    }

    fn factor(&mut self, depth: usize) {
        match self.chance.weigh(&[80, 10, 5, 5]) {
            0 => self.primary(depth),
            1 => {
                self.primary(depth);
                self.put("**");
                self.primary(depth);
            }
            2 => {
                self.put("abs");
                self.primary(depth);
            }
            _ => {
                self.put("not");
                self.primary(depth);
            }
        }
    }

    fn primary(&mut self, depth: usize) {
        match self.chance.weigh(&[50, 25, if depth > 0 { 25 } else { 0 }]) {
            0 => {
                self.put_name();
                self.suffixes(depth);
            }
            1 => {
                let literal = self.chance.pick(&LITERALS);
                self.words.push(literal.as_bytes().to_vec());
            }
            _ => {
                self.put("(");
                self.expression_of(depth - 1);
                self.put(")");
            }
        }
    }
}

/// A file in which about 32 parentheses, branches, loops, processes and blocks stand open together.
fn deep(chance: &mut Chance) -> Vec<Word> {
    let target = [30, 31, 32, 32, 33, 33, 34, 40][chance.below(8)];
    let blocks = if chance.percent(50) {
        chance.below(4)
    } else {
        chance.below(target)
    };
    let left = target - blocks;
    let kind = chance.below(3);
    let mut writer = Writer {
        chance,
        words: Vec::new(),
        left: 8,
        open: 28,
        wrong: 0,
    };
    writer.put("architecture a of e is begin");
    let mut closers: Vec<&str> = vec!["end ;"];
    for _ in 0..blocks {
        writer.put("l : block begin");
        closers.push("end block ;");
    }
    if kind == 0 || left == 0 {
        writer.put("a <=");
        writer.parentheses(left, &mut closers);
    } else {
        writer.put("process");
        let inside = left - 1;
        if kind == 1 && writer.chance.percent(10) {
            writer.put("( a , b )");
        }
        writer.put("begin");
        closers.push("end process ;");
        let statements = if writer.chance.percent(50) {
            inside
        } else {
            writer.chance.below(inside + 1)
        };
        for _ in 0..statements {
            writer.left = 2;
            if writer.chance.percent(20) {
                writer.sequentials();
            }
            writer.statement(&mut closers);
        }
        let inside = inside - statements;
        match writer.chance.below(4) {
            _ if inside == 0 => {}
            0 => {
                writer.put("exit when");
                writer.parentheses(inside, &mut closers);
            }
            1 => {
                // A statement's own condition stands within it, so one parenthesis less is wanted.
                let word = writer.chance.pick(&["if", "while", "if a then elsif"]);
                writer.put(word);
                for _ in 1..inside {
                    writer.put("(");
                }
                writer.put("a");
                for _ in 1..inside {
                    writer.put(")");
                }
                writer.put(if word == "while" {
                    "loop end loop ;"
                } else {
                    "then end if ;"
                });
            }
            _ => {
                writer.put("a :=");
                writer.parentheses(inside, &mut closers);
            }
        }
    }
    for words in closers.iter().rev() {
        writer.put(words);
    }
    writer.words
}

impl Writer<'_> {
    /// Opens an if, one of its later branches, or a loop.
    fn statement(&mut self, closers: &mut Vec<&'static str>) {
        match self.chance.below(6) {
            0 => {
                self.put("if a then");
                closers.push("end if ;");
            }
            1 => {
                self.put("if ( a ) then null ; elsif b then");
                closers.push("else end if ;");
            }
            2 => {
                self.put("if a then elsif b then else");
                closers.push("end if ;");
            }
            3 => {
                self.put("for i in 0 to 1 loop");
                closers.push("end loop ;");
            }
            4 => {
                self.put("m : while a loop");
                closers.push("end loop m ;");
            }
            _ => {
                self.put("loop");
                closers.push("end loop ;");
            }
        }
    }

    /// So many parentheses open together, some of them of form 25, and the semicolon.
    fn parentheses(&mut self, count: usize, closers: &mut Vec<&'static str>) {
        closers.push(";");
        for _ in 0..count {
            if self.chance.percent(25) {
                self.put("b");
            } else if self.chance.percent(20) {
                self.put("- 1 +");
            } else if self.chance.percent(10) {
                self.put("( a ) +");
            }
            self.put("(");
            closers.push(")");
        }
        self.put("a");
    }
}
