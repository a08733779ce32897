// Number fields: integers, counters and decimals, and what a decimal is worth.

/// The largest ID.
pub const M: i64 = 2_147_483_647;

/// One, counted in steps of 10^-12.
pub const ONE: i64 = 1_000_000_000_000;

/// A decimal kept exactly, without trailing zeros of the mantissa; zero is 0 and 0.
#[derive(Clone, Copy, PartialEq, Debug)]
pub struct Decimal {
    pub mantissa: i64,
    pub exponent: i64,
}

/// An integer field, at most 10 digits, in a range.
pub fn integer(field: &[u8], least: i64, most: i64) -> Option<i64> {
    if field.is_empty() || field.len() > 10 || !field.iter().all(u8::is_ascii_digit) {
        return None;
    }
    let value = field.iter().fold(0, |value, digit| value * 10 + i64::from(digit - b'0'));
    (least..=most).contains(&value).then_some(value)
}

/// A counter's value: an integer that may have a minus first.
pub fn counter(field: &[u8]) -> Option<i64> {
    match field.strip_prefix(b"-") {
        Some(digits) => integer(digits, 0, M).map(|size| -size),
        None => integer(field, 0, M),
    }
}

/// Takes a sign off the front of a text.
fn signed(text: &[u8]) -> (bool, &[u8]) {
    match text.first() {
        Some(b'-') => (true, &text[1..]),
        Some(b'+') => (false, &text[1..]),
        _ => (false, text),
    }
}

/// The power of ten behind `e` or `E`: an optional sign and one or two digits.
fn power(text: &[u8]) -> Option<i64> {
    let (minus, digits) = signed(text);
    if digits.len() > 2 {
        return None;
    }
    let size = integer(digits, 0, 99)?;
    Some(if minus { -size } else { size })
}

/// A decimal field of at most 32 bytes.
pub fn decimal(field: &[u8]) -> Option<Decimal> {
    if field.len() > 32 {
        return None;
    }
    let (minus, rest) = signed(field);
    let (front, exponent) = match rest.iter().position(|&b| b == b'e' || b == b'E') {
        Some(at) => (&rest[..at], power(&rest[at + 1..])?),
        None => (rest, 0),
    };
    let point = front.iter().position(|&b| b == b'.');
    let places = point.map_or(0, |at| front.len() - at - 1);
    let digits: Vec<u8> = match point {
        Some(at) => [&front[..at], &front[at + 1..]].concat(),
        None => front.to_vec(),
    };
    if digits.is_empty() || !digits.iter().all(u8::is_ascii_digit) {
        return None;
    }
    kept(minus, &digits, exponent - places as i64)
}

/// The kept pair of a sign, digits and an exponent, if it is within its limits.
fn kept(minus: bool, digits: &[u8], exponent: i64) -> Option<Decimal> {
    let mut size = digits.iter().fold(0_i128, |size, digit| size * 10 + i128::from(digit - b'0'));
    let mut exponent = exponent;
    if size == 0 {
        return Some(Decimal { mantissa: 0, exponent: 0 });
    }
    while size % 10 == 0 {
        size /= 10;
        exponent += 1;
    }
    if size >= 10_i128.pow(18) || !(-99..=99).contains(&exponent) {
        return None;
    }
    let mantissa = if minus { -size } else { size } as i64;
    Some(Decimal { mantissa, exponent })
}

/// What a decimal times 10^shift is worth, if that is a whole number in a range below 10^18.
pub fn whole(value: Decimal, shift: i64, least: i64, most: i64) -> Option<i64> {
    let exponent = value.exponent + shift;
    if value.mantissa != 0 && !(0..=18).contains(&exponent) {
        return None;
    }
    let worth = match value.mantissa {
        0 => 0,
        mantissa => i128::from(mantissa) * 10_i128.pow(exponent as u32),
    };
    (i128::from(least)..=i128::from(most)).contains(&worth).then_some(worth as i64)
}

/// A decimal in steps of 10^-12, ties away from zero, if it is at most `most` steps in size.
pub fn steps(value: Decimal, most: i64) -> Option<i64> {
    let exponent = value.exponent + 12;
    let mantissa = i128::from(value.mantissa);
    let size = if mantissa == 0 || exponent < -19 {
        0
    } else if exponent < 0 {
        let divisor = 10_i128.pow(-exponent as u32);
        (mantissa.abs() + divisor / 2) / divisor
    } else if exponent <= 18 {
        mantissa.abs() * 10_i128.pow(exponent as u32)
    } else {
        return None;
    };
    (size <= i128::from(most)).then_some((size * mantissa.signum()) as i64)
}

/// A decimal written out: mantissa, then `e` and exponent if that is not 0.
pub fn decimal_text(mantissa: i64, exponent: i64) -> String {
    match exponent {
        0 => mantissa.to_string(),
        _ => format!("{mantissa}e{exponent}"),
    }
}
