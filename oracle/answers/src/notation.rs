//! The notation of the cases: numbers, bytes, type fields and second names, read and written as the program replay has them.

/// A number in decimal that a usize holds.
pub fn number(word: &str) -> Option<usize> {
    if word.is_empty() || !word.bytes().all(|c| c.is_ascii_digit()) {
        return None;
    }
    word.parse().ok()
}

/// The longest bytes argument.
const MOST_BYTES: usize = 66_000;

/// Bytes: an x, then pieces with a dot between them; a piece is pairs of hexadecimal digits, and behind them, where they stand several times, a star
/// and a count.
pub fn bytes(word: &str) -> Option<Vec<u8>> {
    let text = word.strip_prefix('x')?;
    let mut all = Vec::new();
    if text.is_empty() {
        return Some(all);
    }
    for piece in text.split('.') {
        let (pairs, count) = match piece.split_once('*') {
            Some((pairs, count)) => (pairs, number(count)?),
            None => (piece, 1),
        };
        if pairs.is_empty() || pairs.len() % 2 != 0 || count > MOST_BYTES || all.len() + pairs.len() / 2 * count > MOST_BYTES {
            return None;
        }
        let once: Option<Vec<u8>> = pairs.as_bytes().chunks(2).map(|pair| Some(16 * digit(pair[0])? + digit(pair[1])?)).collect();
        all.extend(once?.repeat(count));
    }
    Some(all)
}

fn digit(c: u8) -> Option<u8> {
    (c as char).to_digit(16).map(|x| x as u8)
}

/// Bytes in the one form that is given back: a run of 5 or more equal bytes is a piece of its own, the others stand as pairs.
pub fn say_bytes(bytes: &[u8]) -> String {
    let mut text = String::from("x");
    let mut at = 0;
    let mut after_run = false;
    while at < bytes.len() {
        let run = bytes[at..].iter().take_while(|x| **x == bytes[at]).count();
        if after_run || (run > 4 && at > 0) {
            text.push('.');
        }
        after_run = run > 4;
        if after_run {
            text += &format!("{:02x}*{run}", bytes[at]);
        } else {
            for _ in 0..run {
                text += &format!("{:02x}", bytes[at]);
            }
        }
        at += run;
    }
    text
}

/// A type field: the standard type with a number, or a custom label.
#[derive(Clone, Copy, PartialEq, Eq, Debug)]
pub enum Field {
    Standard(u8),
    Custom(u8),
}

impl Field {
    pub fn byte(self) -> u8 {
        match self {
            Field::Standard(x) | Field::Custom(x) => x,
        }
    }
}

pub fn field(word: &str) -> Option<Field> {
    if let Some(x) = word.strip_prefix('s') {
        let x = number(x)?;
        return (x < 7 && x != 3).then_some(Field::Standard(x as u8));
    }
    let x = number(word.strip_prefix('c')?)?;
    (x < 256).then_some(Field::Custom(x as u8))
}

/// A second name: a span START+LEN, or - where there is none.
pub fn second(word: &str) -> Option<Option<(usize, usize)>> {
    if word == "-" {
        return Some(None);
    }
    let (start, len) = word.split_once('+')?;
    Some(Some((number(start)?, number(len)?)))
}
