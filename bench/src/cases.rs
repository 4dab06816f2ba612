//! The cases: an input, the call on each side, and the two answers in one form, by which they are compared.
use crate::{rust, walks};
use balunduwa::raw::{self, Span};
use spacepackets::cfdp::lv::Lv;
use spacepackets::cfdp::tlv::{FilestoreActionCode, TlvType};
use std::hint::black_box;

/// What a writer writes to, of a length that the optimiser does not know.
pub type Room = &'static mut [u8];
const ROOM: usize = 300;

/// An answer, as numbers, and what was written.
pub type Said = (Vec<u64>, Vec<u8>);

/// One side of a case.
pub struct Side {
    /// Makes the call so many times.
    pub run: Box<dyn Fn(usize)>,
    /// What the call says.
    pub says: Box<dyn Fn() -> Said>,
}

pub struct Case {
    pub name: &'static str,
    /// What the ratio by instructions, beside the Rust as it stands, is to be, or less.
    pub goal: f64,
    /// What it is to be by time, or less.
    pub time_goal: f64,
    /// How many records one call walks, else 1: what is counted is counted for each.
    pub per: usize,
    pub ours: Side,
    pub rust: Side,
}

impl Case {
    /// The case with a goal of its own, so that a call which gets slower is seen before it is slower than the Rust.
    fn within(self, goal: f64) -> Case {
        Case { goal, ..self }
    }
}

/// A side, of an input that is laid ready, a call, and the answer as numbers. The loop is the same for both sides: the input and the room are a
/// pointer each, of which the optimiser knows nothing, and so is the answer.
pub fn side<I: Copy + 'static, A>(
    input: I,
    call: impl Fn(&I, &mut Room) -> A + Copy + 'static,
    numbers: impl Fn(&I, &A) -> Vec<u64> + 'static,
) -> Side {
    let run = move |rounds| {
        let mut room: Room = vec![0; ROOM].leak();
        for _ in 0..rounds {
            let answer = call(black_box(&input), black_box(&mut room));
            black_box(&answer);
        }
    };
    let says = move || {
        let mut room: Room = vec![0xEE; ROOM].leak();
        let answer = call(&input, &mut room);
        (numbers(&input, &answer), room.to_vec())
    };
    Side { run: Box::new(run), says: Box::new(says) }
}

/// A case of one call. Its goals are 1 where it gets no other.
fn call(name: &'static str, ours: Side, rust: Side) -> Case {
    Case { name, goal: 1.0, time_goal: 1.0, per: 1, ours, rust }
}

/// Bytes that are there as long as the program runs.
pub fn kept(bytes: Vec<u8>) -> &'static [u8] {
    bytes.leak()
}

/// So many bytes, not all the same.
pub fn text(len: usize) -> Vec<u8> {
    (0..len).map(|i| b'a' + (i % 26) as u8).collect()
}

/// Where a part lies in the bytes that it is a part of.
fn place(bytes: &[u8], part: &[u8]) -> [u64; 2] {
    [(part.as_ptr() as usize - bytes.as_ptr() as usize) as u64, part.len() as u64]
}

fn span(span: Span) -> [u64; 2] {
    [span.start as u64, span.len as u64]
}

fn second(bytes: &[u8], name: Option<Lv>) -> [u64; 3] {
    let [start, len] = name.map_or([0, 0], |lv| place(bytes, lv.value()));
    [name.is_some() as u64, start, len]
}

// A refusal on either side is no answer of a case: all inputs are fine ones.
pub fn given(refusal: raw::Refusal) {
    assert_eq!(refusal.number, 0, "a case is refused: {refusal:?}");
}

fn written(answer: &raw::Written) -> Vec<u64> {
    given(answer.refusal);
    vec![answer.bytes as u64]
}

fn rust_written<E: std::fmt::Debug>(answer: &Result<usize, E>) -> Vec<u64> {
    vec![answer.as_ref().unwrap().to_owned() as u64]
}

fn lv_read(name: &'static str, len: usize) -> Case {
    let buf = kept([&[len as u8][..], &text(len)].concat());
    call(
        name,
        side(
            buf,
            |buf, _| raw::lv_read(buf),
            |_, a| {
                given(a.refusal);
                span(a.value).to_vec()
            },
        ),
        side(buf, |buf, _| rust::lv_read(buf), |buf, a| place(buf, a.unwrap().value()).to_vec()),
    )
}

fn lv_write(name: &'static str, len: usize) -> Case {
    let src = kept(text(len));
    call(
        name,
        side((Span { start: 0, len }, src), |(value, src), room| raw::lv_write(*value, src, room), |_, a| written(a)),
        side(src, |src, room| rust::lv_write(src, room), |_, a| rust_written(a)),
    )
}

fn tlv_read(name: &'static str, len: usize) -> Case {
    let buf = kept([&[5, len as u8][..], &text(len)].concat());
    call(
        name,
        side(
            buf,
            |buf, _| raw::tlv_read(buf),
            |_, a| {
                given(a.refusal);
                [&[a.tlv_type as u64][..], &span(a.value)].concat()
            },
        ),
        side(
            buf,
            |buf, _| rust::tlv_read(buf),
            |buf, a| {
                let tlv = a.unwrap();
                [&[u8::from(tlv.tlv_type_field()) as u64][..], &place(buf, tlv.value())].concat()
            },
        ),
    )
}

fn tlv_write(name: &'static str, len: usize) -> Case {
    let src = kept(text(len));
    call(
        name,
        side((5, Span { start: 0, len }, src), |(tlv_type, value, src), room| raw::tlv_write(*tlv_type, *value, src, room), |_, a| written(a)),
        side((TlvType::FlowLabel, src), |(tlv_type, src), room| rust::tlv_write(*tlv_type, src, room), |_, a| rust_written(a)),
    )
}

const NUMBER: u64 = 0x0102_0304_0506_0708;

fn entity_read(name: &'static str, width: usize) -> Case {
    let buf = kept([&[6, width as u8][..], &NUMBER.to_be_bytes()[8 - width..]].concat());
    call(
        name,
        side(
            buf,
            |buf, _| raw::entity_read(buf),
            |_, a| {
                given(a.refusal);
                vec![a.width as u64, a.value]
            },
        ),
        side(
            buf,
            |buf, _| rust::entity_read(buf),
            |_, a| {
                let entity = a.unwrap();
                vec![entity.len_value() as u64, entity.entity_id().value()]
            },
        ),
    )
}

fn entity_write(name: &'static str, width: usize) -> Case {
    let number = NUMBER & (u64::MAX >> (64 - 8 * width));
    call(
        name,
        side((width, number), |(width, number), room| raw::entity_write(*width, *number, room), |_, a| written(a)),
        side((width, number), |(width, number), room| rust::entity_write(*width, *number, room), |_, a| rust_written(a)),
    )
}

/// A filestore value: an action, its names, and the message of a response, of these lengths.
#[derive(Clone, Copy)]
struct Value {
    action: FilestoreActionCode,
    first: usize,
    second: Option<usize>,
    message: usize,
}

const STATUS: u8 = 1;

impl Value {
    fn bytes(self, response: bool) -> &'static [u8] {
        let mut value = vec![(self.action as u8) << 4 | if response { STATUS } else { 0 }];
        let parts = [Some(self.first), self.second, response.then_some(self.message)];
        for len in parts.into_iter().flatten() {
            value.push(len as u8);
            value.extend(text(len));
        }
        kept([&[response as u8, value.len() as u8][..], &value].concat())
    }

    /// What names and message are written from, one behind another, and their spans there.
    fn source(self) -> (&'static [u8], [Span; 3]) {
        let second = self.second.unwrap_or(0);
        let src = kept([text(self.first), text(second), text(self.message)].concat());
        let spans =
            [Span { start: 0, len: self.first }, Span { start: self.first, len: second }, Span { start: self.first + second, len: self.message }];
        (src, spans)
    }
}

/// The part of the source that a span names.
fn part(src: &'static [u8], span: Span) -> &'static [u8] {
    &src[span.start..span.start + span.len]
}

fn request_read(name: &'static str, value: Value) -> Case {
    let buf = value.bytes(false);
    call(
        name,
        side(
            buf,
            |buf, _| raw::request_read(buf),
            |_, a| {
                given(a.refusal);
                let r = a.request;
                [&[r.action as u64][..], &span(r.first_name), &[r.has_second as u64], &span(r.second_name)].concat()
            },
        ),
        side(
            buf,
            |buf, _| rust::request_read(buf),
            |buf, a| {
                let r = a.unwrap();
                [&[r.action_code() as u64][..], &place(buf, r.first_name().value()), &second(buf, r.second_name())].concat()
            },
        ),
    )
}

fn request_write(name: &'static str, value: Value) -> Case {
    let (src, [first_name, second_name, _]) = value.source();
    let has_second = value.second.is_some();
    let request = raw::Request { action: value.action as u8, has_second: has_second as u8, first_name, second_name };
    let names = (value.action, part(src, first_name), has_second.then(|| part(src, second_name)));
    call(
        name,
        side((request, src), |(request, src), room| raw::request_write(*request, src, room), |_, a| written(a)),
        side(names, |(action, first, second), room| rust::request_write(*action, first, *second, room), |_, a| rust_written(a)),
    )
}

fn response_read(name: &'static str, value: Value) -> Case {
    let buf = value.bytes(true);
    // The Rust's response does not give its message: it is the same where the value, written again, is.
    let again = |r: &spacepackets::cfdp::tlv::FilestoreResponseTlv| {
        let mut room = [0; ROOM];
        let n = r.write_to_slice(&mut room).unwrap();
        room[..n].iter().map(|b| *b as u64).collect::<Vec<_>>()
    };
    call(
        name,
        side(
            buf,
            |buf, _| raw::response_read(buf),
            |buf, a| {
                given(a.refusal);
                let r = a.response;
                let mut room = [0; ROOM];
                let n = written(&raw::response_write(r, buf, &mut room))[0] as usize;
                let bytes = room[..n].iter().map(|b| *b as u64).collect::<Vec<_>>();
                [&[r.action as u64, r.status as u64][..], &span(r.first_name), &[r.has_second as u64], &span(r.second_name), &bytes].concat()
            },
        ),
        side(
            buf,
            |buf, _| rust::response_read(buf),
            move |buf, a| {
                let r = a.unwrap();
                let head = [r.action_code() as u64, r.status_code() as u64];
                [&head[..], &place(buf, r.first_name().value()), &second(buf, r.second_name()), &again(&r)].concat()
            },
        ),
    )
}

fn response_write(name: &'static str, value: Value) -> Case {
    let (src, [first_name, second_name, filestore_message]) = value.source();
    let has_second = value.second.is_some();
    let action = value.action as u8;
    let response = raw::Response { action, status: STATUS, has_second: has_second as u8, first_name, second_name, filestore_message };
    let second = has_second.then(|| part(src, second_name));
    let names = (value.action, STATUS, part(src, first_name), second, part(src, filestore_message));
    call(
        name,
        side((response, src), |(response, src), room| raw::response_write(*response, src, room), |_, a| written(a)),
        side(
            names,
            |(action, status, first, second, message), room| rust::response_write(*action, *status, first, *second, message, room),
            |_, a| rust_written(a),
        ),
    )
}

/// The cases of the table, each with its goal.
pub fn calls() -> Vec<Case> {
    let create = Value { action: FilestoreActionCode::CreateFile, first: 16, second: None, message: 16 };
    let rename = Value { action: FilestoreActionCode::RenameFile, first: 16, second: Some(20), message: 16 };
    let (small, large) = (walks::filled(0), walks::filled(249));
    vec![
        lv_read("LV read, 16 bytes", 16).within(0.82),
        lv_write("LV write, 16 bytes", 16).within(0.72),
        tlv_read("TLV read, 16 bytes", 16).within(0.71),
        tlv_write("TLV write, 0 bytes", 0).within(0.85),
        tlv_write("TLV write, 16 bytes", 16).within(0.68),
        tlv_write("TLV write, 255 bytes", 255).within(0.86),
        entity_read("entity read, width 1", 1).within(0.70),
        entity_read("entity read, width 2", 2).within(0.70),
        entity_read("entity read, width 4", 4).within(0.70),
        entity_read("entity read, width 8", 8).within(0.70),
        entity_write("entity write, width 1", 1).within(0.80),
        entity_write("entity write, width 2", 2).within(0.80),
        entity_write("entity write, width 4", 4).within(0.80),
        entity_write("entity write, width 8", 8).within(0.80),
        request_read("request read, create", create).within(0.82),
        request_read("request read, rename", rename).within(0.82),
        request_write("request write, create", create).within(0.75),
        request_write("request write, rename", rename).within(0.75),
        response_read("response read, create", create).within(0.76),
        response_read("response read, rename", rename).within(0.76),
        response_write("response write, create", create).within(0.57),
        response_write("response write, rename", rename).within(0.57),
        walks::walk("walk, small records", small).within(0.24),
        walks::walk("walk, large records", large).within(0.24),
        walks::steps("steps, small records", small).within(0.81),
        walks::steps("steps, large records", large).within(0.81),
        walks::steps_in_registers("steps in registers, small records", small).within(0.72),
        walks::steps_in_registers("steps in registers, large records", large).within(0.72),
    ]
}
