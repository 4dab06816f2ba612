//! Document 01's rules on values: what building refuses, in their order, and which spans lie in their bytes.
use crate::value::{Filestore, Lent, Span, Value};

/// A refusal by its number and values.
#[derive(Clone, PartialEq, Eq, Debug)]
pub struct Refusal {
    pub number: u8,
    pub values: Vec<u64>,
}

impl Refusal {
    pub fn new(number: u8, values: &[u64]) -> Refusal {
        Refusal { number, values: values.to_vec() }
    }

    pub fn say(&self) -> String {
        let values: Vec<String> = self.values.iter().map(u64::to_string).collect();
        match values.is_empty() {
            true => format!("refused {}", self.number),
            false => format!("refused {} ({})", self.number, values.join(", ")),
        }
    }
}

/// Whether a number of bytes is a width of an entity ID.
pub fn legal_width(width: usize) -> bool {
    matches!(width, 1 | 2 | 4 | 8)
}

fn fits(width: usize, number: u64) -> bool {
    width >= 8 || number < 1 << (8 * width)
}

/// What building a value is refused with: 4 for the first length over 255, then what its kind has.
pub fn building(value: &Value) -> Option<Refusal> {
    if let Some(span) = value.spans().into_iter().find(|span| span.len > 255) {
        return Some(Refusal::new(4, &[span.len as u64]));
    }
    match value {
        Value::Lv(_) | Value::Tlv(..) => None,
        Value::Entity(width, _) if !legal_width(*width) => Some(Refusal::new(5, &[*width as u64])),
        Value::Entity(width, number) if !fits(*width, *number) => Some(Refusal::new(10, &[*width as u64])),
        Value::Entity(..) => None,
        Value::Filestore(f) => filestore(f),
    }
}

fn filestore(f: &Filestore) -> Option<Refusal> {
    match f.second {
        None if f.second_due() => return Some(Refusal::new(6, &[])),
        Some(_) if !f.second_due() => return Some(Refusal::new(8, &[])),
        _ => {}
    }
    if f.status > 15 {
        return Some(Refusal::new(9, &[f.status as u64]));
    }
    let len = f.value_len();
    (len > 255).then(|| Refusal::new(5, &[len as u64]))
}

/// Whether a span passes the end of so many bytes.
pub fn passes(span: Span, bytes: usize) -> bool {
    span.start.checked_add(span.len).is_none_or(|end| end > bytes)
}

/// The first span of a value that passes the end of its source.
pub fn stray(lent: &Lent) -> Option<Span> {
    let source = lent.source?;
    lent.value.spans().into_iter().find(|span| passes(*span, source.len()))
}
