//! The row of docs/DIFFERENCES.md that a case falls under, from the case alone, with what the row says of both answers. Rows 2 and 4 are of
//! values that the Rust cannot make, so there is nothing to compare; those from 21 on are of shape.
use crate::case::Case;
use crate::domain::short_entity;
use crate::notation::{Field, say_bytes};
use crate::rules::{self, Refusal};
use crate::rust::Answer;
use crate::value::{self, Filestore, Lent, Role, Span, Value};

/// A row, and what it predicts.
pub struct Row {
    pub number: u8,
    pub ours: String,
    pub rust: Answer,
}

/// The smallest input of each row, as a case.
pub const SMALLEST: [(u8, &str); 22] = [
    (1, "tlv.same c6 0 0 x s6 0 0 x"),
    (3, "lv.value 1 0 x"),
    (3, "lv.write_to_slice 1 0 x xaa"),
    (5, "lv.write_to_slice 1 1 x61 xaaaa"),
    (6, "entity.from_bytes x0601"),
    (7, "entity.write_to_slice 1 0 xaaaa"),
    (8, "entity.to_tlv 1 0 xaaaa"),
    (9, "entity.new 1 256"),
    (9, "entity.write_to_slice 1 256 xaaaaaa"),
    (10, "entity.new 0 0"),
    (10, "entity.write_to_slice 0 0 xaaaa"),
    (11, "entity.new 3 0"),
    (11, "entity.write_to_slice 3 0 xaaaaaaaaaa"),
    (12, "request.new_create_file 0 254"),
    (13, "request.new_create_file 0 255"),
    (14, "request.new_rename_file 0 126 0 127"),
    (15, "request.new_rename_file 0 127 0 127"),
    (16, "response.new 0 0 0 252 - 0 1"),
    (17, "request.new 0 0 0 0+0"),
    (18, "request.new 0 0 255 0+0"),
    (19, "response.new_no_filestore_message 0 16 0 0 -"),
    (20, "response.new_no_filestore_message 0 16 0 255 -"),
];

/// Whether docs/DIFFERENCES.md has each of these rows, and its smallest input falls under it.
pub fn consistent() -> Result<(), String> {
    let table = include_str!("../../../docs/DIFFERENCES.md");
    for (number, line) in SMALLEST {
        if !table.lines().any(|row| row.starts_with(&format!("| {number} | "))) {
            return Err(format!("docs/DIFFERENCES.md has no row {number}"));
        }
        let case = Case::read(line).ok_or(format!("no case: {line}"))?;
        if of(&case).is_none_or(|row| row.number != number) {
            return Err(format!("not of row {number}: {line}"));
        }
    }
    Ok(())
}

/// The row of a case that the Rust is asked, if there is one.
pub fn of(case: &Case) -> Option<Row> {
    match value::role(case) {
        Role::Read => reading(case),
        Role::Build => handled(case, &Lent { value: value::to_build(case), source: None }),
        Role::Length | Role::Write => handled(case, &value::handed(case)),
        Role::Tell => stray(&value::handed(case), "x".into()),
        Role::FromTlv => from_tlv(case),
        Role::Compare => comparing(case),
        Role::Table | Role::Added => None,
    }
}

fn row(number: u8, ours: String, rust: Answer) -> Option<Row> {
    Some(Row { number, ours, rust })
}

/// 6: an entity ID whose value is not all there. The TLV itself is short, so our place is 0.
fn reading(case: &Case) -> Option<Row> {
    let place = match case.call {
        "entity.from_bytes" => 0,
        "kind.kind_at" => case.number(1),
        _ => return None,
    };
    let bytes = case.bytes(0).get(place..).filter(|bytes| short_entity(bytes))?;
    let refusal = Refusal::new(1, &[bytes.len() as u64, 2 + bytes[1] as u64]);
    row(6, format!("{} at 0", refusal.say()), Answer::Panicked)
}

/// 3 and 5: a span that passes its source's end, 3 where it even starts behind it. The Rust's slice cannot be taken.
fn stray(lent: &Lent, ours: String) -> Option<Row> {
    let span = rules::stray(lent)?;
    let number = if span.start > lent.source?.len() { 3 } else { 5 };
    row(number, ours, Answer::Panicked)
}

fn past_end(span: Span) -> Refusal {
    Refusal::new(15, &[span.start as u64])
}

fn from_tlv(case: &Case) -> Option<Row> {
    let lent = value::handed(case);
    let Value::Tlv(field, span) = lent.value else { return None };
    let ours = match field {
        Field::Standard(6) if rules::legal_width(span.len) => past_end(span),
        Field::Standard(6) => Refusal::new(5, &[span.len as u64]),
        _ => Refusal::new(3, &[field.byte() as u64, 6]),
    };
    stray(&lent, ours.say())
}

/// 1: a custom label against the standard type of the same number.
fn comparing(case: &Case) -> Option<Row> {
    let (left, right) = value::both(case);
    for lent in [left, right] {
        if let Some(span) = rules::stray(&lent) {
            return stray(&lent, past_end(span).say());
        }
    }
    let (Value::Tlv(a, s), Value::Tlv(b, t)) = (left.value, right.value) else { return None };
    let value = |lent: Lent, span: Span| lent.source.map(|bytes| bytes[span.start..span.start + span.len].to_vec());
    let labelled = a != b && a.byte() == b.byte() && value(left, s) == value(right, t);
    if labelled { row(1, "same".into(), Answer::Said("different".into())) } else { None }
}

/// The buffer behind a writer's answer; nothing behind another's.
fn with_buffer(case: &Case, text: String, buf: &[u8]) -> String {
    if value::role(case) == Role::Write { format!("{text} buf {}", say_bytes(buf)) } else { text }
}

fn buffer(case: &Case) -> Vec<u8> {
    if value::role(case) == Role::Write { case.bytes(case.args.len() - 1).to_vec() } else { vec![] }
}

/// A value that is built, asked for a length, or written.
fn handled(case: &Case, lent: &Lent) -> Option<Row> {
    let refusal = rules::building(&lent.value);
    let refused = |r: &Refusal| with_buffer(case, r.say(), &buffer(case));
    if let Some(span) = rules::stray(lent) {
        // A caller of the Rust takes the slices in writing order, and hands each to `Lv::new` before the next.
        let longer = lent.value.spans().into_iter().find(|span| span.len > 255);
        let before = lent.value.spans().into_iter().take_while(|x| *x != span).any(|x| Some(x) == longer);
        let ours = refused(&refusal.unwrap_or(past_end(span)));
        return if before { None } else { stray(lent, ours) };
    }
    match lent.value {
        Value::Lv(_) | Value::Tlv(..) => None,
        Value::Entity(width, number) => {
            let said = |number: u8, ours: &Refusal, rust: Answer| row(number, refused(ours), rust);
            match &refusal {
                Some(r) if r.number == 10 => said(9, r, entity(case, width, number)),
                Some(r) => said(if width == 0 { 10 } else { 11 }, r, entity(case, width, number)),
                None => short_buffer(case, width, number),
            }
        }
        Value::Filestore(f) => {
            let r = refusal.filter(|r| r.number != 4 && r.number != 6)?;
            let names = Refusal::new(5, &[f.names_due() as u64]);
            let names_fit = f.names_due() < 256;
            let number = match (r.number, names_fit) {
                (8, true) => 17,
                (8, false) => 18,
                (9, true) => 19,
                (9, false) => 20,
                (_, true) if f.message.is_some() => 16,
                (_, true) if f.second_due() => 14,
                (_, true) => 12,
                (_, false) if f.second_due() => 15,
                (_, false) => 13,
            };
            let rust = if names_fit { filestore(case, &f, lent.source) } else { refused(&names) };
            row(number, refused(&r), Answer::Said(rust))
        }
    }
}

/// 7 and 8: an entity ID that can be built, to a buffer of 2 to 1 + width bytes.
fn short_buffer(case: &Case, width: usize, number: u64) -> Option<Row> {
    let buf = buffer(case);
    if value::role(case) != Role::Write || buf.len() < 2 || buf.len() >= 2 + width {
        return None;
    }
    let ours = Refusal::new(2, &[buf.len() as u64, 2 + width as u64]).say();
    let row_number = if case.method() == "to_tlv" { 8 } else { 7 };
    row(row_number, with_buffer(case, ours, &buf), entity(case, width, number))
}

/// What the Rust does with an entity ID of any width and number: it is built, and its low bytes are written where the width is legal or 0.
fn entity(case: &Case, width: usize, number: u64) -> Answer {
    if value::role(case) == Role::Build {
        return Answer::Said(format!("width {width} number {number}"));
    }
    if value::role(case) == Role::Length {
        return width.checked_add(2).map_or(Answer::Panicked, |len| Answer::Said(format!("length {len}")));
    }
    let mut buf = buffer(case);
    let n = buf.len();
    let said = |text: String, buf: &[u8]| Answer::Said(with_buffer(case, text, buf));
    if n < 2 {
        return said(Refusal::new(2, &[n as u64, 2]).say(), &buf);
    }
    let to_tlv = case.method() == "to_tlv";
    if !to_tlv {
        buf[..2].copy_from_slice(&[6, width as u8]);
    }
    if n - 2 < width {
        return if to_tlv { Answer::Panicked } else { said(Refusal::new(2, &[n as u64 - 2, width as u64]).say(), &buf) };
    }
    if width != 0 && !rules::legal_width(width) {
        return Answer::Panicked;
    }
    buf[2..2 + width].copy_from_slice(&number.to_be_bytes()[8 - width..]);
    said(if to_tlv { format!("s6 span 2 {width}") } else { format!("wrote {}", 2 + width) }, &buf)
}

/// What the Rust does with a request or response that it builds: it is said, measured and written whole, the status masked, and the length byte
/// has the low eight bits of the value's length.
fn filestore(case: &Case, f: &Filestore, source: Option<&[u8]>) -> String {
    let full = 2 + f.value_len();
    match value::role(case) {
        Role::Build => built(f),
        Role::Length if case.method() == "len_value" => format!("length {}", f.value_len()),
        Role::Length => format!("length {full}"),
        _ => {
            let mut buf = buffer(case);
            if buf.len() < full {
                return with_buffer(case, Refusal::new(2, &[buf.len() as u64, full as u64]).say(), &buf);
            }
            let mut bytes = vec![f.message.is_some() as u8, f.value_len() as u8, f.action << 4 | f.status & 15];
            for span in Value::Filestore(*f).spans() {
                bytes.push(span.len as u8);
                bytes.extend(&source.unwrap_or(&[])[span.start..span.start + span.len]);
            }
            buf[..full].copy_from_slice(&bytes);
            with_buffer(case, format!("wrote {full}"), &buf)
        }
    }
}

fn built(f: &Filestore) -> String {
    let span = |s: Span| format!("{} {}", s.start, s.len);
    let names = format!("span {} second {}", span(f.first), f.second.map_or("-".into(), span));
    match f.message {
        None => format!("request {} {names}", f.action),
        Some(m) => format!("response {} status {} {names} message {}", f.action, f.status, span(m)),
    }
}
