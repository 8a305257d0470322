//! Values: numbers, missing ones and traces, and their conversion to English units.

use crate::codes::Element;

/// The ten-thousandths that say missing.
const MISSING: i64 = -99_990_000;

const AMOUNT_LIMIT: i64 = 1_000_000_000_000;

#[derive(Clone, Copy)]
pub struct Value {
    /// In ten-thousandths; none where it is missing.
    pub amount: Option<i64>,
    pub qualifier: u8,
}

pub enum BadValue {
    Unread,
    TooLarge,
}

fn split_digits(text: &[u8]) -> (&[u8], &[u8]) {
    let end = text
        .iter()
        .position(|b| !b.is_ascii_digit())
        .unwrap_or(text.len());
    text.split_at(end)
}

fn decimal(digits: &[u8]) -> i64 {
    digits
        .iter()
        .fold(0, |sum, digit| sum * 10 + i64::from(digit - b'0'))
}

/// A number in ten-thousandths, and its qualifier.
fn read_number(text: &[u8]) -> Option<(i64, u8)> {
    let (is_negative, unsigned) = match text {
        [b'-', rest @ ..] => (true, rest),
        [b'+', rest @ ..] => (false, rest),
        _ => (false, text),
    };
    let (whole, behind) = split_digits(unsigned);
    let (decimals, behind) = match behind {
        [b'.', rest @ ..] => split_digits(rest),
        _ => (&[][..], behind),
    };
    let qualifier = match *behind {
        [] => b'Z',
        [letter @ b'A'..=b'Z'] => letter,
        _ => return None,
    };
    if whole.len() > 8 || decimals.len() > 4 || whole.len() + decimals.len() == 0 {
        return None;
    }
    let scale = 10_i64.pow(4 - decimals.len() as u32);
    let size = decimal(whole) * 10_000 + decimal(decimals) * scale;
    Some((if is_negative { -size } else { size }, qualifier))
}

/// The amount in English units, a half rounded away from zero.
fn converted(amount: i64, element: Element) -> i64 {
    let exact = amount * element.up + element.plus * 10_000 * element.down;
    let size = (2 * exact.abs() + element.down) / (2 * element.down);
    if exact < 0 { -size } else { size }
}

impl Value {
    pub fn read(text: &[u8], element: Element, is_si: bool) -> Result<Value, BadValue> {
        let bare = |amount| Value {
            amount,
            qualifier: b'Z',
        };
        match text {
            b"M" | b"MM" => return Ok(bare(None)),
            b"T" if element.has_trace => return Ok(bare(Some(10))),
            _ => {}
        }
        let (sent, qualifier) = read_number(text).ok_or(BadValue::Unread)?;
        let amount = if is_si && sent != MISSING {
            converted(sent, element)
        } else {
            sent
        };
        if amount.abs() >= AMOUNT_LIMIT {
            return Err(BadValue::TooLarge);
        }
        Ok(Value {
            amount: (amount != MISSING).then_some(amount),
            qualifier,
        })
    }
}
