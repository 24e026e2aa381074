//! Folding an expression given by its rows (01, the table of states and the paragraph below it).

use crate::elements::{base_of, digit_value, Element, Kind, Literal};
use crate::forms::Row;
use crate::survey::{state, INTEGER, TRUTH};

/// No literal and no result is beyond this in size.
pub const MOST_SIZE: i64 = 2_147_483_647;

/// The folded result of an expression: an integer, a truth, or the state that stopped it.
#[derive(Clone, Copy, PartialEq, Debug)]
pub enum Folded {
    Whole(i64),
    Truth(bool),
    Stopped(u8),
}

/// What a name stands for.
#[derive(Clone, Copy, PartialEq, Debug)]
pub enum Meaning {
    Type { kind: u8, low: i64, high: i64 },
    Value(Folded),
}

/// Where names and literals get their values from.
pub trait Values {
    /// The meaning of the name at an element, or state 4 or 5.
    fn meaning(&self, element: usize) -> Result<Meaning, u8>;
    /// An element and its bytes.
    fn element(&self, element: usize) -> (&Element, &[u8]);
}

/// The states 3, 4 and 5 found among rows; all rows are looked at, skipped sides too.
#[derive(Default)]
pub struct Faults {
    smallest: Option<u8>,
}

impl Faults {
    pub fn look_at(&mut self, row: &Row, values: &impl Values) {
        let fault = match row.form {
            25 | 26 => Some(state::UNFOLDED),
            27 => {
                let (element, _) = values.element(row.first);
                (element.kind != Kind::Literal(Literal::Integer)).then_some(state::UNFOLDED)
            }
            29 => (operator(row, values) == "&").then_some(state::UNFOLDED),
            24 | 31 => values.meaning(row.first).err(),
            _ => None,
        };
        self.smallest = match (self.smallest, fault) {
            (Some(one), Some(other)) => Some(one.min(other)),
            (one, other) => one.or(other),
        };
    }

    pub fn settle(&self) -> Result<(), u8> {
        self.smallest.map_or(Ok(()), Err)
    }
}

/// The operator of a row, in lower case.
fn operator(row: &Row, values: &impl Values) -> String {
    String::from_utf8_lossy(values.element(row.operator).1).to_ascii_lowercase()
}

/// The rows of the two operands of the first row.
pub fn operands(rows: &[Row]) -> (&[Row], &[Row]) {
    let middle = 1 + rows[1].subtree;
    (&rows[1..middle], &rows[middle..rows[0].subtree])
}

/// The kind of an expression, or state 6: integer and truth mixed, arithmetic on truths, logic on
/// integers, a type as a number. Names without a meaning are out of the question here.
pub fn kind(rows: &[Row], values: &impl Values) -> Result<u8, u8> {
    let both = |one: u8, other: u8, wanted: u8, gives: u8| {
        if one == wanted && other == wanted {
            Ok(gives)
        } else {
            Err(state::KIND)
        }
    };
    match rows[0].form {
        24 => match values.meaning(rows[0].first)? {
            Meaning::Value(Folded::Whole(_)) => Ok(INTEGER),
            Meaning::Value(Folded::Truth(_)) => Ok(TRUTH),
            _ => Err(state::KIND),
        },
        27 => Ok(INTEGER),
        28 => {
            let operand = kind(&rows[1..], values)?;
            let wanted = if operator(&rows[0], values) == "not" {
                TRUTH
            } else {
                INTEGER
            };
            both(operand, operand, wanted, wanted)
        }
        _ => {
            let (left, right) = operands(rows);
            let (left, right) = (kind(left, values)?, kind(right, values)?);
            match operator(&rows[0], values).as_str() {
                "and" | "or" | "xor" | "xnor" | "nand" | "nor" => both(left, right, TRUTH, TRUTH),
                "=" | "/=" | "<" | "<=" | ">" | ">=" => both(left, right, left, TRUTH),
                _ => both(left, right, INTEGER, INTEGER),
            }
        }
    }
}

/// The value of an expression whose kinds agree, or the first of 7 to 9 met: left operand, right
/// operand, operator.
pub fn fold(rows: &[Row], values: &impl Values) -> Folded {
    match rows[0].form {
        24 => match values.meaning(rows[0].first) {
            Ok(Meaning::Value(value)) => value,
            Ok(Meaning::Type { .. }) => Folded::Stopped(state::KIND),
            Err(state) => Folded::Stopped(state),
        },
        27 => match literal(values.element(rows[0].first).1) {
            Some(number) => Folded::Whole(number),
            None => Folded::Stopped(state::SIZE),
        },
        28 => match (
            operator(&rows[0], values).as_str(),
            fold(&rows[1..], values),
        ) {
            (_, Folded::Stopped(state)) => Folded::Stopped(state),
            ("not", Folded::Truth(truth)) => Folded::Truth(!truth),
            ("+", Folded::Whole(number)) => Folded::Whole(number),
            ("-", Folded::Whole(number)) => sized(-(number as i128)),
            ("abs", Folded::Whole(number)) => sized((number as i128).abs()),
            _ => Folded::Stopped(state::KIND),
        },
        _ => {
            let (left, right) = operands(rows);
            let operator = operator(&rows[0], values);
            let left = fold(left, values);
            // These skip the right side where the left decides.
            match (operator.as_str(), left) {
                (_, Folded::Stopped(_)) => return left,
                ("and", Folded::Truth(false)) | ("nor", Folded::Truth(true)) => {
                    return Folded::Truth(false)
                }
                ("or", Folded::Truth(true)) | ("nand", Folded::Truth(false)) => {
                    return Folded::Truth(true)
                }
                _ => {}
            }
            match (left, fold(right, values)) {
                (_, Folded::Stopped(state)) => Folded::Stopped(state),
                (Folded::Whole(left), Folded::Whole(right)) => {
                    on_integers(&operator, left as i128, right as i128)
                }
                (Folded::Truth(left), Folded::Truth(right)) => on_truths(&operator, left, right),
                _ => Folded::Stopped(state::KIND),
            }
        }
    }
}

fn sized(number: i128) -> Folded {
    if number.abs() > MOST_SIZE as i128 {
        Folded::Stopped(state::SIZE)
    } else {
        Folded::Whole(number as i64)
    }
}

fn on_integers(operator: &str, left: i128, right: i128) -> Folded {
    match operator {
        "/" | "mod" | "rem" if right == 0 => Folded::Stopped(state::DIVISOR),
        "**" if right < 0 => Folded::Stopped(state::EXPONENT),
        "+" => sized(left + right),
        "-" => sized(left - right),
        "*" => sized(left * right),
        // Division truncates to zero; rem takes the dividend's sign, mod the divisor's.
        "/" => sized(left / right),
        "rem" => sized(left % right),
        "mod" => {
            let remainder = left % right;
            let signs_differ = remainder != 0 && (remainder < 0) != (right < 0);
            sized(if signs_differ {
                remainder + right
            } else {
                remainder
            })
        }
        "**" => power(left, right),
        _ => relation(operator, left.cmp(&right)),
    }
}

fn on_truths(operator: &str, left: bool, right: bool) -> Folded {
    match operator {
        "and" => Folded::Truth(left && right),
        "or" => Folded::Truth(left || right),
        "xor" => Folded::Truth(left != right),
        "nand" => Folded::Truth(!(left && right)),
        "nor" => Folded::Truth(!(left || right)),
        "xnor" => Folded::Truth(left == right),
        _ => relation(operator, left.cmp(&right)),
    }
}

/// All six relations, on integers and, false below true, on truths.
fn relation(operator: &str, order: std::cmp::Ordering) -> Folded {
    match operator {
        "=" => Folded::Truth(order.is_eq()),
        "/=" => Folded::Truth(order.is_ne()),
        "<" => Folded::Truth(order.is_lt()),
        "<=" => Folded::Truth(order.is_le()),
        ">" => Folded::Truth(order.is_gt()),
        ">=" => Folded::Truth(order.is_ge()),
        _ => Folded::Stopped(state::KIND),
    }
}

/// In bounded time: what is neither 0 nor 1 in size is soon beyond every size.
fn power(base: i128, exponent: i128) -> Folded {
    match base {
        0 => Folded::Whole((exponent == 0) as i64),
        1 => Folded::Whole(1),
        -1 => Folded::Whole(if exponent % 2 == 0 { 1 } else { -1 }),
        _ => {
            let mut power = 1;
            for _ in 0..exponent {
                power *= base;
                if power.abs() > MOST_SIZE as i128 {
                    break;
                }
            }
            sized(power)
        }
    }
}

/// The value of an integer literal, unless it is beyond the size.
fn literal(bytes: &[u8]) -> Option<i64> {
    let most = MOST_SIZE as u64;
    let digits: Vec<u8> = bytes.iter().copied().filter(|&byte| byte != b'_').collect();
    let (base, mantissa, exponent) = match digits.iter().position(|&byte| byte == b'#') {
        Some(mark) => {
            let close = digits.len() - 1 - digits.iter().rev().position(|&byte| byte == b'#')?;
            (
                base_of(&digits[..mark])? as u64,
                &digits[mark + 1..close],
                &digits[close + 1..],
            )
        }
        None => {
            let end = digits
                .iter()
                .position(|byte| !byte.is_ascii_digit())
                .unwrap_or(digits.len());
            (10, &digits[..end], &digits[end..])
        }
    };
    // Both are held one above the most, where they stay.
    let value = |digits: &[u8], base: u64| {
        digits.iter().fold(0, |sum: u64, &byte| {
            (sum * base + digit_value(byte) as u64).min(most + 1)
        })
    };
    let mut number = value(mantissa, base);
    let exponent: Vec<u8> = exponent
        .iter()
        .copied()
        .filter(u8::is_ascii_digit)
        .collect();
    for _ in 0..value(&exponent, 10) {
        if number == 0 || number > most {
            break;
        }
        number *= base;
    }
    (number <= most).then_some(number as i64)
}
