//! Elements (01, section Elements): cutting a text into rows of kind, first byte and length.

/// 01, What the reader covers: the most bytes of a text and the most elements.
pub const MOST_BYTES: usize = 65_536;
pub const MOST_ELEMENTS: usize = 8_192;

/// 01, Refusals and their order: the number and the place.
#[derive(Clone, Copy, PartialEq, Eq, Debug)]
pub struct Refusal {
    pub number: u8,
    pub place: usize,
}

#[derive(Clone, Copy, PartialEq, Eq, Debug)]
pub enum Literal {
    Integer,
    Real,
    Character,
    String,
}

#[derive(Clone, Copy, PartialEq, Eq, Debug)]
pub enum Kind {
    Identifier,
    Extended,
    Reserved,
    Literal(Literal),
    Delimiter,
    Unreadable,
}

#[derive(Clone, Copy, PartialEq, Eq, Debug)]
pub struct Element {
    pub kind: Kind,
    pub first: usize,
    pub length: usize,
}

impl Element {
    pub fn end(&self) -> usize {
        self.first + self.length
    }

    pub fn bytes<'t>(&self, text: &'t [u8]) -> &'t [u8] {
        &text[self.first..self.end()]
    }

    /// A name: a basic identifier that is not reserved, or an extended one.
    pub fn is_name(&self) -> bool {
        matches!(self.kind, Kind::Identifier | Kind::Extended)
    }
}

/// The reserved words of 000, 15.10, in the order of their letters.
#[rustfmt::skip]
pub const RESERVED: [&str; 115] = [
    "abs", "access", "after", "alias", "all", "and", "architecture", "array", "assert", "assume",
    "assume_guarantee", "attribute", "begin", "block", "body", "buffer", "bus", "case", "component",
    "configuration", "constant", "context", "cover", "default", "disconnect", "downto", "else",
    "elsif", "end", "entity", "exit", "fairness", "file", "for", "force", "function", "generate",
    "generic", "group", "guarded", "if", "impure", "in", "inertial", "inout", "is", "label",
    "library", "linkage", "literal", "loop", "map", "mod", "nand", "new", "next", "nor", "not",
    "null", "of", "on", "open", "or", "others", "out", "package", "parameter", "port", "postponed",
    "procedure", "process", "property", "protected", "pure", "range", "record", "register",
    "reject", "release", "rem", "report", "restrict", "restrict_guarantee", "return", "rol", "ror",
    "select", "sequence", "severity", "shared", "signal", "sla", "sll", "sra", "srl", "strong",
    "subtype", "then", "to", "transport", "type", "unaffected", "units", "until", "use", "variable",
    "vmode", "vprop", "vunit", "wait", "when", "while", "with", "xnor", "xor",
];

/// The delimiters, longest first as 01 lists them.
#[rustfmt::skip]
pub const DELIMITERS: [&str; 25] = [
    "=>", "**", ":=", "/=", ">=", "<=", "<>", "&", "'", "(", ")", "*", "+", ",", "-", ".", "/",
    ":", ";", "<", "=", ">", "|", "[", "]",
];

pub fn is_reserved(word: &[u8]) -> bool {
    let lower = word.to_ascii_lowercase();
    RESERVED
        .binary_search_by(|reserved| reserved.as_bytes().cmp(&lower))
        .is_ok()
}

/// Bytes 10, 11, 12 and 13 each end a line.
pub fn ends_line(byte: u8) -> bool {
    (10..=13).contains(&byte)
}

/// Bytes 9, 32 and 160 separate.
pub fn separates(byte: u8) -> bool {
    matches!(byte, 9 | 32 | 160)
}

/// What strings, extended identifiers and character literals hold.
pub fn is_graphic(byte: u8) -> bool {
    (32..=126).contains(&byte) || byte >= 160
}

/// Whether two names are one name: basic ones without regard to case, extended ones to the byte,
/// and never one of each.
pub fn same_name(text: &[u8], one: &Element, other: &Element) -> bool {
    match (one.kind, other.kind) {
        (Kind::Identifier, Kind::Identifier) => {
            one.bytes(text).eq_ignore_ascii_case(other.bytes(text))
        }
        (Kind::Extended, Kind::Extended) => one.bytes(text) == other.bytes(text),
        _ => false,
    }
}

/// Reads the elements into a table of `rows` rows, or refuses (1, 3, 4 in that order).
pub fn read(text: &[u8], rows: usize) -> Result<Vec<Element>, Refusal> {
    if text.len() > MOST_BYTES {
        return Err(Refusal {
            number: 1,
            place: MOST_BYTES,
        });
    }
    let elements = cut(text);
    if elements.len() > MOST_ELEMENTS {
        return Err(Refusal {
            number: 3,
            place: MOST_ELEMENTS,
        });
    }
    if elements.len() > rows {
        return Err(Refusal {
            number: 4,
            place: rows,
        });
    }
    Ok(elements)
}

/// All elements of a text, line by line: no element crosses a line end.
pub fn cut(text: &[u8]) -> Vec<Element> {
    let mut elements = Vec::new();
    let mut start = 0;
    while start < text.len() {
        let mut end = start;
        while end < text.len() && !ends_line(text[end]) {
            end += 1;
        }
        cut_line(&text[start..end], start, &mut elements);
        start = end + 1;
    }
    elements
}

/// The elements of one line, which begins at byte `offset` of the text.
fn cut_line(line: &[u8], offset: usize, elements: &mut Vec<Element>) {
    let mut place = 0;
    // The nearest element before on this line, as the rule for the apostrophe looks at it.
    let mut after_name_or_parenthesis = false;
    while place < line.len() {
        if separates(line[place]) {
            place += 1;
            continue;
        }
        let rest = &line[place..];
        if rest.starts_with(b"--") {
            return;
        }
        let (kind, length) =
            element_at(rest, after_name_or_parenthesis).unwrap_or((Kind::Unreadable, rest.len()));
        let element = Element {
            kind,
            first: offset + place,
            length,
        };
        after_name_or_parenthesis = element.is_name() || &rest[..length] == b")";
        elements.push(element);
        place += length;
    }
}

/// Kind and length of the element that begins the rest of a line; none where it is unreadable.
fn element_at(rest: &[u8], after_name_or_parenthesis: bool) -> Option<(Kind, usize)> {
    match rest[0] {
        b'a'..=b'z' | b'A'..=b'Z' => identifier(rest),
        b'0'..=b'9' => number(rest),
        b'\\' => extended(rest),
        b'"' => Some((Kind::Literal(Literal::String), enclosed(rest, b'"')?)),
        b'\'' if rest.get(2) == Some(&b'\'') && !after_name_or_parenthesis => {
            is_graphic(rest[1]).then_some((Kind::Literal(Literal::Character), 3))
        }
        _ => delimiter(rest),
    }
}

/// A letter, then letters and digits, single underscores between them. Unreadable directly before
/// an underscore, and, if it isn't reserved, directly before a quote.
fn identifier(rest: &[u8]) -> Option<(Kind, usize)> {
    let length = run(rest, |byte| byte.is_ascii_alphanumeric());
    let kind = if is_reserved(&rest[..length]) {
        Kind::Reserved
    } else {
        Kind::Identifier
    };
    match rest.get(length) {
        Some(b'_') => None,
        Some(b'"') if kind == Kind::Identifier => None,
        _ => Some((kind, length)),
    }
}

/// Between backslashes, a doubled backslash for one, with at least one byte between. It is an
/// identifier too, so the same two followers make it unreadable.
fn extended(rest: &[u8]) -> Option<(Kind, usize)> {
    let length = enclosed(rest, b'\\')?;
    if length == 2 || matches!(rest.get(length), Some(b'_' | b'"')) {
        return None;
    }
    Some((Kind::Extended, length))
}

/// Length of what stands between two marks, the marks included, a doubled mark for one.
fn enclosed(rest: &[u8], mark: u8) -> Option<usize> {
    let mut place = 1;
    loop {
        let byte = *rest.get(place)?;
        if !is_graphic(byte) {
            return None;
        }
        if byte == mark {
            if rest.get(place + 1) != Some(&mark) {
                return Some(place + 1);
            }
            place += 1;
        }
        place += 1;
    }
}

/// An integer or a real literal, unreadable directly before what might go on with it.
fn number(rest: &[u8]) -> Option<(Kind, usize)> {
    let mut literal = Literal::Integer;
    let mut length = run(rest, |byte| byte.is_ascii_digit());
    if rest.get(length) == Some(&b'#') {
        let base = base_of(&rest[..length])?;
        let digits = run(&rest[length + 1..], |byte| digit_value(byte) < base);
        length += 1 + digits;
        if digits == 0 || rest.get(length) != Some(&b'#') {
            return None;
        }
        length += 1;
    } else if rest.get(length) == Some(&b'.') {
        let digits = run(&rest[length + 1..], |byte| byte.is_ascii_digit());
        if digits == 0 {
            return None;
        }
        length += 1 + digits;
        literal = Literal::Real;
    }
    if matches!(rest.get(length), Some(b'E' | b'e')) {
        let sign = match rest.get(length + 1) {
            Some(b'+') => 1,
            Some(b'-') if literal == Literal::Real => 1,
            _ => 0,
        };
        let digits = run(&rest[length + 1 + sign..], |byte| byte.is_ascii_digit());
        if digits == 0 {
            return None;
        }
        length += 1 + sign + digits;
    }
    match rest.get(length) {
        Some(b'_' | b'.' | b'#' | b'"') => None,
        Some(byte) if byte.is_ascii_alphanumeric() => None,
        _ => Some((Kind::Literal(literal), length)),
    }
}

/// Length of the longest beginning of allowed bytes with single underscores between them.
fn run(bytes: &[u8], allowed: impl Fn(u8) -> bool) -> usize {
    let mut length = 0;
    while length < bytes.len() {
        if allowed(bytes[length]) {
            length += 1;
        } else if length > 0
            && bytes[length] == b'_'
            && bytes.get(length + 1).map_or(false, |&next| allowed(next))
        {
            length += 2;
        } else {
            break;
        }
    }
    length
}

/// The base written before `#`, if it is one of 2 to 16. Leading zeros count for nothing.
pub fn base_of(digits: &[u8]) -> Option<u32> {
    let mut base = 0u32;
    for &byte in digits.iter().filter(|&&byte| byte != b'_') {
        base = (base * 10 + digit_value(byte)).min(1000);
    }
    (2..=16).contains(&base).then_some(base)
}

/// The value of a digit in either case of letter; what is no digit is above every base.
pub fn digit_value(byte: u8) -> u32 {
    match byte {
        b'0'..=b'9' => (byte - b'0') as u32,
        b'a'..=b'f' => (byte - b'a') as u32 + 10,
        b'A'..=b'F' => (byte - b'A') as u32 + 10,
        _ => 99,
    }
}

fn delimiter(rest: &[u8]) -> Option<(Kind, usize)> {
    if rest.starts_with(b"/*") {
        return None;
    }
    let found = DELIMITERS
        .iter()
        .find(|word| rest.starts_with(word.as_bytes()))?;
    Some((Kind::Delimiter, found.len()))
}
