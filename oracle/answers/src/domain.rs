//! Whether a case is on document 01's domain of demand 2: every reading input except an entity ID with type 6, a legal length and too few
//! bytes; every building input that the rules accept, or refuse with 4 or 6; every writing buffer, except an entity ID buffer of 2 to
//! 1 + width bytes. A span that passes its source's end is no such input, since the Rust's are slices.
use crate::case::Case;
use crate::rules;
use crate::value::{self, Lent, Role, Value};

pub fn on(case: &Case) -> bool {
    match value::role(case) {
        Role::Read => readable(case),
        Role::Table | Role::Added => true,
        Role::Build => buildable(&Lent { value: value::to_build(case), source: None }),
        Role::Tell | Role::Length => buildable(&value::handed(case)),
        Role::Write => {
            let lent = value::handed(case);
            buildable(&lent) && roomy(&lent.value, case.bytes(case.args.len() - 1))
        }
        Role::FromTlv => rules::stray(&value::handed(case)).is_none(),
        Role::Compare => {
            let (left, right) = value::both(case);
            buildable(&left) && buildable(&right) && !labelled(&left.value, &right.value)
        }
    }
}

fn readable(case: &Case) -> bool {
    let place = if case.args.len() > 1 { case.number(1) } else { 0 };
    let asks_entity = case.call == "entity.from_bytes" || case.call == "kind.kind_at";
    !(asks_entity && case.bytes(0).get(place..).is_some_and(short_entity))
}

/// Type 6, a legal length and too few bytes.
pub fn short_entity(bytes: &[u8]) -> bool {
    bytes.len() >= 2 && bytes[0] == 6 && rules::legal_width(bytes[1] as usize) && bytes.len() < 2 + bytes[1] as usize
}

fn buildable(lent: &Lent) -> bool {
    let refused = rules::building(&lent.value).is_some_and(|r| r.number != 4 && r.number != 6);
    !refused && rules::stray(lent).is_none()
}

fn roomy(value: &Value, buf: &[u8]) -> bool {
    match value {
        Value::Entity(width, _) => buf.len() < 2 || buf.len() >= 2 + width,
        _ => true,
    }
}

/// Equal type bytes, one a standard type and one a custom label. The domain names reading, building and writing; document 01 says how such two
/// compare.
fn labelled(left: &Value, right: &Value) -> bool {
    match (left, right) {
        (Value::Tlv(a, _), Value::Tlv(b, _)) => a.byte() == b.byte() && a != b,
        _ => false,
    }
}
