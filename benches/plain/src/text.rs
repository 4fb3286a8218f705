//! Words, numbers, certificates and packets as text.

use crate::reduce::{Kind, Reduced, Runs, unit_of};

pub fn words(line: &[u8]) -> impl Iterator<Item = &[u8]> {
    line.split(|byte| *byte == b' ').filter(|word| !word.is_empty())
}

/// A number of 1 to 10 digits.
pub fn number(word: &[u8]) -> Option<u64> {
    if word.is_empty() || word.len() > 10 {
        return None;
    }
    let mut value = 0;
    for byte in word {
        let digit = byte.wrapping_sub(b'0');
        if digit > 9 {
            return None;
        }
        value = 10 * value + u64::from(digit);
    }
    Some(value)
}

pub fn number_to(word: &[u8], first: u64, last: u64) -> Option<u32> {
    number(word).filter(|value| (first..=last).contains(value)).map(|value| value as u32)
}

/// 1 to 16 letters, digits and `_`.
pub fn is_name(word: &[u8]) -> bool {
    (1..=16).contains(&word.len()) && word.iter().all(|byte| byte.is_ascii_alphanumeric() || *byte == b'_')
}

/// A start and a value, with a colon between them.
pub fn run(kind: Kind, word: &[u8]) -> Option<(u32, i32)> {
    let colon = word.iter().position(|byte| *byte == b':')?;
    let start = number_to(&word[..colon], 0, 100_000)?;
    let value = &word[colon + 1..];
    let value = match kind {
        Kind::Speed => number_to(value, 5, 600)? as i32,
        Kind::Grade => match value.strip_prefix(b"-") {
            Some(digits) => -(number_to(digits, 0, 254)? as i32),
            None => number_to(value, 0, 254)? as i32,
        },
    };
    Some((start, value))
}

/// The track of these rows, if they make one.
pub fn runs_of(mut rows: Vec<(u32, i32)>, end: u32) -> Option<Runs> {
    if rows.first()?.0 != 0 || rows.windows(2).any(|pair| pair[0].0 >= pair[1].0) || rows.last()?.0 >= end {
        return None;
    }
    rows.dedup_by_key(|row| row.1);
    Some(Runs { rows, end })
}

pub fn print_number(out: &mut Vec<u8>, mut value: u64) {
    let mut digits = [0u8; 20];
    let mut at = digits.len();
    loop {
        at -= 1;
        digits[at] = b'0' + (value % 10) as u8;
        value /= 10;
        if value == 0 {
            break;
        }
    }
    out.extend_from_slice(&digits[at..]);
}

pub fn print_signed(out: &mut Vec<u8>, value: i64) {
    if value < 0 {
        out.push(b'-');
    }
    print_number(out, value.unsigned_abs());
}

pub fn print_word(out: &mut Vec<u8>, word: &[u8]) {
    out.push(b' ');
    out.extend_from_slice(word);
}

pub fn print_next(out: &mut Vec<u8>, value: i64) {
    out.push(b' ');
    print_signed(out, value);
}

pub fn print_rows(out: &mut Vec<u8>, rows: &[(u32, i32)]) {
    for (start, value) in rows {
        print_next(out, i64::from(*start));
        out.push(b':');
        print_signed(out, i64::from(*value));
    }
}

pub fn print_certificate(out: &mut Vec<u8>, kind: Kind, limit: usize, runs: &Runs, reduced: &Reduced) {
    out.extend_from_slice(kind.name());
    print_next(out, limit as i64);
    print_rows(out, &runs.rows);
    print_word(out, b"end");
    print_next(out, i64::from(runs.end));
    out.extend_from_slice(b"\nsteps");
    print_rows(out, &reduced.steps);
    print_word(out, b"loss");
    print_next(out, i64::from(reduced.loss));
    out.push(b'\n');
    for (index, row) in reduced.table.rows.iter().enumerate() {
        out.extend_from_slice(b"prices");
        print_next(out, index as i64 + 1);
        for price in &row[1..] {
            print_next(out, i64::from(*price));
        }
        out.push(b'\n');
    }
}

#[derive(Default)]
pub struct Bits {
    bytes: Vec<u8>,
    filled: u32,
}

impl Bits {
    pub fn put(&mut self, width: u32, value: u32) {
        for at in (0..width).rev() {
            if self.filled == 0 {
                self.bytes.push(0);
            }
            if value >> at & 1 == 1 {
                *self.bytes.last_mut().unwrap() |= 0x80 >> self.filled;
            }
            self.filled = (self.filled + 1) % 8;
        }
    }

    pub fn count(&self) -> usize {
        self.bytes.len() * 8 - (8 - self.filled as usize) % 8
    }

    pub fn bytes(self) -> Vec<u8> {
        self.bytes
    }
}

pub fn print_hex(out: &mut Vec<u8>, bytes: &[u8]) {
    const DIGITS: &[u8; 16] = b"0123456789abcdef";
    for byte in bytes {
        out.push(DIGITS[usize::from(byte >> 4)]);
        out.push(DIGITS[usize::from(byte & 15)]);
    }
}

fn put_value(bits: &mut Bits, kind: Kind, value: Option<i32>) {
    match (kind, value) {
        (Kind::Speed, Some(value)) => {
            bits.put(7, value as u32 / 5);
            bits.put(1, 0);
            bits.put(5, 0);
        }
        (Kind::Speed, None) => {
            bits.put(7, 127);
            bits.put(1, 0);
            bits.put(5, 0);
        }
        (Kind::Grade, Some(value)) => {
            bits.put(1, u32::from(value >= 0));
            bits.put(8, value.unsigned_abs());
        }
        (Kind::Grade, None) => {
            bits.put(1, 0);
            bits.put(8, 255);
        }
    }
}

pub fn put_profile(bits: &mut Bits, kind: Kind, nominal: bool, end: u32, steps: &[(u32, i32)]) {
    let (number, length) = match kind {
        Kind::Speed => (27, 58 + 28 * steps.len() as u32),
        Kind::Grade => (21, 54 + 24 * steps.len() as u32),
    };
    let unit = unit_of(end);
    bits.put(8, number);
    bits.put(2, u32::from(nominal));
    bits.put(13, length);
    bits.put(2, if unit == 1 { 1 } else { 2 });
    bits.put(15, 0);
    put_value(bits, kind, Some(steps[0].1));
    bits.put(5, steps.len() as u32);
    let mut from = 0;
    for (start, value) in &steps[1..] {
        bits.put(15, (start - from) / unit);
        put_value(bits, kind, Some(*value));
        from = *start;
    }
    bits.put(15, (end - from) / unit);
    put_value(bits, kind, None);
}
