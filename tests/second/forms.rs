//! The forms of 01 as a table, and a general reading of elements by it: Earley's method, over
//! right sides with optional, repeated and alternative parts. It finds the first element that no
//! beginning of a reading allows, and otherwise the rows of the tree.

use crate::elements::{Element, Kind, DELIMITERS, RESERVED};

/// What a reading by an entry of the table gives.
#[derive(Clone, Copy, PartialEq)]
enum Gives {
    /// A row of this form.
    Form(u8),
    /// No row of its own, only those within it.
    Within,
    /// Forms 28 and 29: perhaps a leading operator over the first operand, then operators and
    /// operands grouped to the left. One operand alone gives its own row.
    Operators,
    /// Forms 24, 25 and 26, grouped to the left.
    Suffixes,
}
use Gives::*;

/// 01, Forms of the strict reading, and its paragraph on operators. `[ ]` is perhaps, `{ }` any
/// number of times, `|` or; N is a name, L a literal; a capital begins an entry of this table.
#[rustfmt::skip]
const FORMS: [(&str, Gives, &str); 46] = [
    ("File", Within, "Unit { Unit }"),
    ("Unit", Within, "Package | Entity | Architecture"),
    ("Package", Form(1), "package N is { Constant | Subtype } end [ package ] [ N ] ;"),
    ("Entity", Form(2), "entity N is [ port ( Port { ; Port } ) ; ] end [ entity ] [ N ] ;"),
    ("Architecture", Form(3), "architecture N of N is { Declaration } begin { Concurrent } \
        end [ architecture ] [ N ] ;"),
    ("Declaration", Within, "Constant | Subtype | Signal | Alias"),
    ("Constant", Form(4), "constant N : Mark := Expression ;"),
    ("Subtype", Form(5), "subtype N is Mark [ range Range ] ;"),
    ("Signal", Form(6), "signal N : Mark [ ( Range ) ] ;"),
    ("Variable", Form(7), "variable N : Mark [ ( Range ) ] ;"),
    ("Port", Form(8), "N : [ in | out | inout ] Mark [ ( Range ) ]"),
    ("Alias", Form(9), "alias N is N ;"),
    ("Range", Form(10), "Simple to Simple | Simple downto Simple"),
    ("Concurrent", Within, "Continuous | Block | Process"),
    ("Continuous", Form(11), "Target <= Expression ;"),
    ("Block", Form(12), "Label : block [ Guard ] [ Is ] { Declaration } begin { Concurrent } \
        end block [ N ] ;"),
    ("Process", Form(13), "[ Label : ] process [ ( Sensitive { , Sensitive } ) ] [ is ] \
        { Constant | Variable } begin { Sequential } end process [ N ] ;"),
    ("Sensitive", Form(24), "N"),
    ("Sequential", Within, "Assignment | Update | If | For | While | Loop | Next | Exit | Null"),
    ("Assignment", Form(14), "Target <= Expression ;"),
    ("Update", Form(15), "Target := Expression ;"),
    ("If", Form(16), "First { Further } [ Else ] end if ;"),
    ("First", Form(17), "if Expression then { Sequential }"),
    ("Further", Form(17), "elsif Expression then { Sequential }"),
    ("Else", Form(17), "else { Sequential }"),
    ("For", Form(18), "[ Label : ] for N in Range loop { Sequential } end loop [ N ] ;"),
    ("While", Form(19), "[ Label : ] while Expression loop { Sequential } end loop [ N ] ;"),
    ("Loop", Form(20), "[ Label : ] loop { Sequential } end loop [ N ] ;"),
    ("Next", Form(21), "[ Label : ] next [ N ] [ when Expression ] ;"),
    ("Exit", Form(22), "[ Label : ] exit [ N ] [ when Expression ] ;"),
    ("Null", Form(23), "[ Label : ] null ;"),
    ("Name", Suffixes, "N { ( Expression ) | ' N | ' range }"),
    ("Target", Suffixes, "N [ { ( Expression ) | ' N | ' range } ( Expression ) ]"),
    ("Literal", Form(27), "L"),
    ("Label", Form(30), "N"),
    ("Mark", Form(31), "N"),
    ("Guard", Form(32), "( Expression )"),
    ("Is", Form(33), "is"),
    ("Expression", Operators, "Relation [ and Relation { and Relation } | or Relation { or Relation } \
        | xor Relation { xor Relation } | xnor Relation { xnor Relation } \
        | nand Relation | nor Relation ]"),
    ("Relation", Operators, "Simple [ = Simple | /= Simple | < Simple | <= Simple | > Simple \
        | >= Simple ]"),
    ("Simple", Operators, "[ + | - ] Term { + Term | - Term | & Term }"),
    ("Term", Operators, "Factor { * Factor | / Factor | mod Factor | rem Factor }"),
    ("Factor", Operators, "Primary [ ** Primary ] | abs Primary | not Primary"),
    ("Primary", Within, "Name | Literal | ( Expression )"),
    // 01, Pieces, items, states: what a survey looks for besides constants and subtypes.
    ("Heading", Within, "package N is"),
    ("Closing", Within, "end [ package ] [ N ] ;"),
];

/// A row of the tree: five numbers.
#[derive(Clone, Copy, PartialEq, Eq, Debug)]
pub struct Row {
    pub form: u8,
    pub first: usize,
    pub count: usize,
    pub subtree: usize,
    pub operator: usize,
}

/// What a form may ask of one element: a reserved word, a delimiter, a name or a literal, each
/// with its number. An unreadable element is none of them.
pub type Sign = u8;
const NAME: Sign = 140;
const LITERAL: Sign = 141;
const NOTHING: Sign = 142;

/// The sign of a word, as the table and this program spell it.
pub fn sign(word: &str) -> Sign {
    if word == "N" {
        return NAME;
    }
    if word == "L" {
        return LITERAL;
    }
    if let Ok(number) = RESERVED.binary_search(&word) {
        return number as Sign;
    }
    match DELIMITERS.iter().position(|delimiter| *delimiter == word) {
        Some(number) => (RESERVED.len() + number) as Sign,
        None => NOTHING,
    }
}

/// The signs of all elements of a text.
pub fn signs(text: &[u8], elements: &[Element]) -> Vec<Sign> {
    let of = |element: &Element| match element.kind {
        Kind::Identifier | Kind::Extended => NAME,
        Kind::Literal(_) => LITERAL,
        Kind::Unreadable => NOTHING,
        Kind::Reserved | Kind::Delimiter => {
            let lower = element.bytes(text).to_ascii_lowercase();
            sign(std::str::from_utf8(&lower).unwrap())
        }
    };
    elements.iter().map(of).collect()
}

/// A place in the right side of an entry, and where it leads: over one element, or over a whole
/// reading of another entry.
struct State {
    entry: usize,
    complete: bool,
    over_elements: Vec<(Sign, usize)>,
    over_entries: Vec<(usize, usize)>,
    /// The entries it may go over, one bit to each.
    awaited: u64,
}

/// The table, each right side turned into states.
pub struct Forms {
    states: Vec<State>,
    starts: Vec<usize>,
}

impl Forms {
    pub fn new() -> Forms {
        let mut forms = Forms {
            states: Vec::new(),
            starts: Vec::new(),
        };
        for (entry, (_, _, right)) in FORMS.iter().enumerate() {
            let start = Outline::new(right).states(entry, &mut forms.states);
            // The method below rests on it: no entry reads nothing.
            assert!(!forms.states[start].complete);
            forms.starts.push(start);
        }
        forms
    }
}

fn entry_named(word: &str) -> Option<usize> {
    FORMS.iter().position(|(name, _, _)| *name == word)
}

enum Step {
    Freely(usize),
    OverElement(Sign, usize),
    OverEntry(usize, usize),
}

/// A right side as places joined by steps, some of them free; from place 0 to the last place.
struct Outline {
    steps: Vec<Vec<Step>>,
    last: usize,
}

impl Outline {
    fn new(right: &str) -> Outline {
        let mut outline = Outline {
            steps: vec![Vec::new()],
            last: 0,
        };
        let words: Vec<&str> = right.split_whitespace().collect();
        let mut rest = &words[..];
        outline.last = outline.alternatives(&mut rest, 0);
        assert!(rest.is_empty());
        outline
    }

    fn place(&mut self) -> usize {
        self.steps.push(Vec::new());
        self.steps.len() - 1
    }

    /// Alternatives up to a closing mark, all from one place to one place.
    fn alternatives(&mut self, rest: &mut &[&str], from: usize) -> usize {
        let to = self.place();
        loop {
            let start = self.place();
            self.steps[from].push(Step::Freely(start));
            let end = self.sequence(rest, start);
            self.steps[end].push(Step::Freely(to));
            if rest.first() != Some(&"|") {
                return to;
            }
            *rest = &rest[1..];
        }
    }

    fn sequence(&mut self, rest: &mut &[&str], from: usize) -> usize {
        let mut at = from;
        while let Some(&word) = rest.first() {
            match word {
                "|" | "]" | "}" => break,
                "[" | "{" => {
                    *rest = &rest[1..];
                    let to = self.alternatives(rest, at);
                    assert_eq!(rest[0], if word == "[" { "]" } else { "}" });
                    if word == "[" {
                        self.steps[at].push(Step::Freely(to));
                        at = to;
                    } else {
                        // Around again, or past it from where it began.
                        let past = self.place();
                        self.steps[to].push(Step::Freely(at));
                        self.steps[at].push(Step::Freely(past));
                        at = past;
                    }
                }
                _ => {
                    let to = self.place();
                    self.steps[at].push(match entry_named(word) {
                        Some(entry) => Step::OverEntry(entry, to),
                        None => {
                            assert!(sign(word) != NOTHING, "{word}");
                            Step::OverElement(sign(word), to)
                        }
                    });
                    at = to;
                }
            }
            *rest = &rest[1..];
        }
        at
    }

    /// All places that free steps lead to.
    fn freely_from(&self, place: usize) -> Vec<usize> {
        let mut reached = vec![place];
        let mut next = 0;
        while next < reached.len() {
            for step in &self.steps[reached[next]] {
                if let Step::Freely(to) = *step {
                    if !reached.contains(&to) {
                        reached.push(to);
                    }
                }
            }
            next += 1;
        }
        reached
    }

    /// Adds a state for each place that a step over something leads to, and one for the start,
    /// whose number is given back.
    fn states(&self, entry: usize, states: &mut Vec<State>) -> usize {
        let start = states.len();
        let mut places = vec![0];
        let mut next = 0;
        while next < places.len() {
            let reached = self.freely_from(places[next]);
            let mut number_of = |place: usize| {
                let known = places
                    .iter()
                    .position(|&other| other == place)
                    .unwrap_or_else(|| {
                        places.push(place);
                        places.len() - 1
                    });
                start + known
            };
            let complete = reached.contains(&self.last);
            let mut state = State {
                entry,
                complete,
                over_elements: vec![],
                over_entries: vec![],
                awaited: 0,
            };
            for step in reached.iter().flat_map(|&place| &self.steps[place]) {
                match *step {
                    Step::Freely(_) => {}
                    Step::OverElement(sign, to) => state.over_elements.push((sign, number_of(to))),
                    Step::OverEntry(other, to) => {
                        state.over_entries.push((other, number_of(to)));
                        state.awaited |= 1 << other;
                    }
                }
            }
            states.push(state);
            next += 1;
        }
        start
    }
}

/// A state reached from an element on, and how: from which item before, and over which complete
/// item (none: over one element).
#[derive(Clone, Copy)]
struct Item {
    state: u32,
    origin: u32,
    before: u32,
    over: u32,
}
const NONE: u32 = u32::MAX;

/// The items of all elements' gaps, gap by gap.
struct Reading<'f> {
    forms: &'f Forms,
    items: Vec<Item>,
    /// Where the items of each gap begin.
    gaps: Vec<usize>,
    /// For each state the gap it was last added in and the origin it was added with.
    added: Vec<(u32, u32)>,
}

impl Reading<'_> {
    /// Adds an item to the last gap unless it stands there.
    fn add(&mut self, item: Item) {
        let gap = self.gaps.len() as u32;
        let (last_gap, last_origin) = self.added[item.state as usize];
        if last_gap == gap {
            let alike = |other: &Item| other.state == item.state && other.origin == item.origin;
            if last_origin == item.origin
                || self.items[self.gaps[gap as usize - 1]..].iter().any(alike)
            {
                return;
            }
        }
        self.added[item.state as usize] = (gap, item.origin);
        self.items.push(item);
    }

    /// Completes the last gap: what may begin here, and what ends here.
    fn close(&mut self) {
        let gap = self.gaps.len() - 1;
        let mut begun = 0u64;
        let mut next = self.gaps[gap];
        while next < self.items.len() {
            let Item { state, origin, .. } = self.items[next];
            let forms = self.forms;
            let state = &forms.states[state as usize];
            for &(entry, _) in &state.over_entries {
                if begun & (1 << entry) == 0 {
                    begun |= 1 << entry;
                    let state = forms.starts[entry] as u32;
                    self.add(Item {
                        state,
                        origin: gap as u32,
                        before: NONE,
                        over: NONE,
                    });
                }
            }
            if state.complete {
                let origin = origin as usize;
                for before in self.gaps[origin]..self.gaps[origin + 1] {
                    let waiting = self.items[before];
                    let asks = &forms.states[waiting.state as usize];
                    if asks.awaited & (1 << state.entry) == 0 {
                        continue;
                    }
                    for &(entry, to) in &asks.over_entries {
                        if entry == state.entry {
                            self.add(Item {
                                state: to as u32,
                                origin: waiting.origin,
                                before: before as u32,
                                over: next as u32,
                            });
                        }
                    }
                }
            }
            next += 1;
        }
    }

    /// Opens the next gap with what goes over one element; false where nothing does.
    fn go_over(&mut self, sign: Sign) -> bool {
        let gap = self.gaps.len() - 1;
        let end = self.items.len();
        self.gaps.push(end);
        let forms = self.forms;
        for before in self.gaps[gap]..end {
            let Item { state, origin, .. } = self.items[before];
            for &(other, to) in &forms.states[state as usize].over_elements {
                if other == sign {
                    self.add(Item {
                        state: to as u32,
                        origin,
                        before: before as u32,
                        over: NONE,
                    });
                }
            }
        }
        self.items.len() > end
    }
}

/// Reads all the elements as one entry of the table: its rows, or the first element with which
/// they begin no such reading, or their count where they only begin one.
pub fn read(forms: &Forms, entry: &str, signs: &[Sign]) -> Result<Vec<Row>, usize> {
    let entry = entry_named(entry).unwrap();
    let mut reading = Reading {
        forms,
        items: Vec::with_capacity(16 * signs.len() + 16),
        gaps: vec![0],
        added: vec![(0, 0); forms.states.len()],
    };
    reading.add(Item {
        state: forms.starts[entry] as u32,
        origin: 0,
        before: NONE,
        over: NONE,
    });
    reading.close();
    for (element, &sign) in signs.iter().enumerate() {
        if !reading.go_over(sign) {
            return Err(element);
        }
        reading.close();
    }
    let whole = (reading.gaps[signs.len()]..reading.items.len()).find(|&number| {
        let item = &reading.items[number];
        let state = &forms.states[item.state as usize];
        item.origin == 0 && state.entry == entry && state.complete
    });
    match whole {
        None => Err(signs.len()),
        Some(number) => {
            let mut tree = Tree {
                reading: &reading,
                nodes: Vec::new(),
            };
            let mut top = Vec::new();
            tree.grow(number as u32, signs.len(), &mut top);
            Ok(tree.rows(&top))
        }
    }
}

/// A part of a complete item: from this element up to that one, over one element or an item.
struct Part {
    first: usize,
    end: usize,
    over: u32,
}

/// A row while it is built, with its children.
struct Node {
    row: Row,
    children: Vec<usize>,
}

struct Tree<'r, 'f> {
    reading: &'r Reading<'f>,
    nodes: Vec<Node>,
}

impl Tree<'_, '_> {
    /// The parts of an item that ends before an element, in text order.
    fn parts(&self, item: u32, end: usize) -> Vec<Part> {
        let mut parts = Vec::new();
        let (mut item, mut end) = (self.reading.items[item as usize], end);
        while item.before != NONE {
            let first = match item.over {
                NONE => end - 1,
                over => self.reading.items[over as usize].origin as usize,
            };
            parts.push(Part {
                first,
                end,
                over: item.over,
            });
            end = first;
            item = self.reading.items[item.before as usize];
        }
        parts.reverse();
        parts
    }

    fn node(
        &mut self,
        form: u8,
        first: usize,
        end: usize,
        operator: usize,
        children: Vec<usize>,
    ) -> usize {
        let subtree = 1 + children
            .iter()
            .map(|&child| self.nodes[child].row.subtree)
            .sum::<usize>();
        let row = Row {
            form,
            first,
            count: end - first,
            subtree,
            operator,
        };
        self.nodes.push(Node { row, children });
        self.nodes.len() - 1
    }

    /// Puts the nodes an item gives after those there.
    fn grow(&mut self, item: u32, end: usize, out: &mut Vec<usize>) {
        let Item { state, origin, .. } = self.reading.items[item as usize];
        let first = origin as usize;
        let parts = self.parts(item, end);
        match FORMS[self.reading.forms.states[state as usize].entry].1 {
            Within => self.children(&parts, out),
            Form(form) => {
                let mut children = Vec::new();
                self.children(&parts, &mut children);
                out.push(self.node(form, first, end, first, children));
            }
            Operators => out.push(self.operators(&parts)),
            Suffixes => out.push(self.suffixes(&parts)),
        }
    }

    fn children(&mut self, parts: &[Part], out: &mut Vec<usize>) {
        for part in parts.iter().filter(|part| part.over != NONE) {
            self.grow(part.over, part.end, out);
        }
    }

    /// The node of a part that gives exactly one.
    fn one(&mut self, part: &Part) -> usize {
        let mut nodes = Vec::with_capacity(1);
        self.grow(part.over, part.end, &mut nodes);
        nodes[0]
    }

    /// Rows span the parentheses around their operands, which the parts do too.
    fn operators(&mut self, parts: &[Part]) -> usize {
        let first = parts[0].first;
        let (mut node, mut next) = if parts[0].over == NONE {
            let operand = self.one(&parts[1]);
            (self.node(28, first, parts[1].end, first, vec![operand]), 2)
        } else {
            (self.one(&parts[0]), 1)
        };
        while next < parts.len() {
            let right = self.one(&parts[next + 1]);
            node = self.node(
                29,
                first,
                parts[next + 1].end,
                parts[next].first,
                vec![node, right],
            );
            next += 2;
        }
        node
    }

    /// An identifier, then `( expression )` of three parts or a tick and a word.
    fn suffixes(&mut self, parts: &[Part]) -> usize {
        let first = parts[0].first;
        let mut node = self.node(24, first, first + 1, first, vec![]);
        let mut next = 1;
        while next < parts.len() {
            if parts[next + 1].over != NONE {
                let index = self.one(&parts[next + 1]);
                node = self.node(25, first, parts[next + 2].end, first, vec![node, index]);
                next += 3;
            } else {
                node = self.node(26, first, parts[next + 1].end, first, vec![node]);
                next += 2;
            }
        }
        node
    }

    /// Parent first, children in text order.
    fn rows(&self, top: &[usize]) -> Vec<Row> {
        let mut rows = Vec::with_capacity(self.nodes.len());
        let mut waiting: Vec<usize> = top.iter().rev().copied().collect();
        while let Some(number) = waiting.pop() {
            let node = &self.nodes[number];
            rows.push(node.row);
            waiting.extend(node.children.iter().rev());
        }
        rows
    }
}
