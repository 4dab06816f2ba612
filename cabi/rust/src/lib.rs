//! The codec and the walk of a CFDP journal, by the proved static library `cabi`.
//!
//! Every call takes any arguments. What it refuses it tells as a [`Refusal`], by number (README.md of the repository, 'The answers by number'); a writer
//! that refuses has changed no byte.
//! A [`Span`] is a part of the bytes that it was read from, or of the `src` that it is written from.
#![no_std]
#![deny(unsafe_code)]
#![warn(missing_docs)]

pub mod raw;

use core::{error::Error, fmt, iter::FusedIterator};

/// The longest journal that is walked.
pub const LIMIT: usize = 65536;

/// Why a call refuses: the number, from 1 to 15, and its values in order, 0 for each that it does not carry.
///
/// Refusal 1, too few bytes to read, is the one with three values: how many bytes were found, how many were expected, and the place of what ran short,
/// counted from the start of the LV or TLV that is read, for [`kind_at`] too. The place is 0 where the LV is short, or the TLV itself; 2 where the value
/// of a filestore request or response is empty; 3 where its first name is short; and where its second name or its message is short, the place
/// where that one's length byte stands, or would stand.
#[derive(Debug, Clone, Copy, PartialEq, Eq)]
pub struct Refusal {
    /// The number.
    pub number: usize,
    /// The first value.
    pub first: usize,
    /// The second value.
    pub second: usize,
    /// The third value: the place of a refusal 1, and 0 of every other.
    pub third: usize,
}

impl fmt::Display for Refusal {
    fn fmt(&self, f: &mut fmt::Formatter<'_>) -> fmt::Result {
        write!(f, "refusal {} ({}, {})", self.number, self.first, self.second)?;
        if self.number == 1 { write!(f, " at {}", self.third) } else { Ok(()) }
    }
}

impl Error for Refusal {}

/// The bytes from `start` on, `len` of them.
#[derive(Debug, Clone, Copy, PartialEq, Eq, Default)]
pub struct Span {
    /// Where it starts.
    pub start: usize,
    /// How many bytes it has.
    pub len: usize,
}

impl Span {
    /// The part of `bytes`, or `None` where the span passes their end.
    pub fn of(self, bytes: &[u8]) -> Option<&[u8]> {
        bytes.get(self.start..self.start.checked_add(self.len)?)
    }
}

/// A TLV of any type.
#[derive(Debug, Clone, Copy, PartialEq, Eq)]
pub struct Tlv {
    /// The type byte.
    pub tlv_type: u8,
    /// The value.
    pub value: Span,
}

/// An entity ID.
#[derive(Debug, Clone, Copy, PartialEq, Eq)]
pub struct Entity {
    /// 1, 2, 4 or 8 bytes.
    pub width: usize,
    /// The number.
    pub value: u64,
}

/// A filestore request.
#[derive(Debug, Clone, Copy, PartialEq, Eq)]
pub struct Request {
    /// 0 create file, 1 delete file, 2 rename, 3 append, 4 replace, 5 create directory, 6 remove directory, 7 deny file, 8 deny directory.
    pub action: u8,
    /// The first name.
    pub first_name: Span,
    /// The second name, of a rename, append or replace.
    pub second_name: Option<Span>,
}

/// A filestore response.
#[derive(Debug, Clone, Copy, PartialEq, Eq)]
pub struct Response {
    /// 0 to 8.
    pub action: u8,
    /// 0 to 15.
    pub status: u8,
    /// The first name.
    pub first_name: Span,
    /// The second name, of a rename, append or replace.
    pub second_name: Option<Span>,
    /// The message.
    pub filestore_message: Span,
}

/// A whole record of a journal.
#[derive(Debug, Clone, Copy, PartialEq, Eq)]
pub struct Record<'a> {
    /// Its place.
    pub place: usize,
    /// Its type byte.
    pub tlv_type: u8,
    /// Its value.
    pub value: &'a [u8],
}

/// How a walk ends.
#[derive(Debug, Clone, Copy, PartialEq, Eq)]
pub struct End {
    /// The place of the end. A record is appended by writing it here, over the stump, and ending the journal behind it, within [`LIMIT`].
    pub place: usize,
    /// How many bytes stand behind it: 0 where the journal is whole, else it is cut.
    pub behind: usize,
}

/// What stands at a place.
#[derive(Debug, Clone, Copy, PartialEq, Eq)]
pub enum Step<'a> {
    /// A record, and the place behind it.
    Record(Record<'a>, usize),
    /// The end.
    End(End),
}

/// How many records a walk lists, and how it ends.
#[derive(Debug, Clone, Copy, PartialEq, Eq)]
pub struct Summary {
    /// The number of records.
    pub count: usize,
    /// The end.
    pub end: End,
}

/// What a record is, as the reader of its type says.
#[derive(Debug, Clone, Copy, PartialEq, Eq)]
pub enum Kind {
    /// A filestore request.
    Request,
    /// A filestore response.
    Response,
    /// An entity ID.
    Entity,
    /// Any other TLV.
    Other,
}

/// The LV at the front of `buf`: its value.
pub fn read_lv(buf: &[u8]) -> Result<Span, Refusal> {
    let answer = raw::lv_read(buf);
    given(answer.refusal)?;
    Ok(answer.value.into())
}

/// Writes an LV to the front of `buf`; its value lies in `src`. Tells how many bytes it wrote.
pub fn write_lv(value: Span, src: &[u8], buf: &mut [u8]) -> Result<usize, Refusal> {
    written(raw::lv_write(value.into(), src, buf))
}

/// The TLV at the front of `buf`.
pub fn read_tlv(buf: &[u8]) -> Result<Tlv, Refusal> {
    let answer = raw::tlv_read(buf);
    given(answer.refusal)?;
    Ok(Tlv { tlv_type: answer.tlv_type, value: answer.value.into() })
}

/// Writes a TLV to the front of `buf`; its value lies in `src`. Tells how many bytes it wrote.
pub fn write_tlv(tlv: Tlv, src: &[u8], buf: &mut [u8]) -> Result<usize, Refusal> {
    written(raw::tlv_write(tlv.tlv_type, tlv.value.into(), src, buf))
}

/// The entity ID at the front of `buf`.
pub fn read_entity(buf: &[u8]) -> Result<Entity, Refusal> {
    let answer = raw::entity_read(buf);
    given(answer.refusal)?;
    Ok(Entity { width: answer.width, value: answer.value })
}

/// Writes an entity ID to the front of `buf`. Tells how many bytes it wrote.
pub fn write_entity(entity: Entity, buf: &mut [u8]) -> Result<usize, Refusal> {
    written(raw::entity_write(entity.width, entity.value, buf))
}

/// The filestore request at the front of `buf`.
pub fn read_request(buf: &[u8]) -> Result<Request, Refusal> {
    request(raw::request_read(buf))
}

/// The same, refused also where low bits are not 0 or bytes are left in the value.
pub fn read_request_strict(buf: &[u8]) -> Result<Request, Refusal> {
    request(raw::request_read_strict(buf))
}

/// Writes a filestore request to the front of `buf`; its names lie in `src`. Tells how many bytes it wrote.
pub fn write_request(request: Request, src: &[u8], buf: &mut [u8]) -> Result<usize, Refusal> {
    let (has_second, second_name) = laid(request.second_name);
    let request = raw::Request { action: request.action, has_second, first_name: request.first_name.into(), second_name };
    written(raw::request_write(request, src, buf))
}

/// The filestore response at the front of `buf`.
pub fn read_response(buf: &[u8]) -> Result<Response, Refusal> {
    response(raw::response_read(buf))
}

/// The same, refused also where bytes are left in the value or the status is unknown.
pub fn read_response_strict(buf: &[u8]) -> Result<Response, Refusal> {
    response(raw::response_read_strict(buf))
}

/// Writes a filestore response to the front of `buf`; its names and its message lie in `src`. Tells how many bytes it wrote.
pub fn write_response(response: Response, src: &[u8], buf: &mut [u8]) -> Result<usize, Refusal> {
    let (has_second, second_name) = laid(response.second_name);
    let response = raw::Response {
        action: response.action,
        status: response.status,
        has_second,
        first_name: response.first_name.into(),
        second_name,
        filestore_message: response.filestore_message.into(),
    };
    written(raw::response_write(response, src, buf))
}

/// What stands at a place of the journal.
pub fn step(journal: &[u8], place: usize) -> Result<Step<'_>, Refusal> {
    // The call tells no span and no values: a record's value ends at the next place, a stump with the journal; 14 carries the length, 15 the place.
    let raw::Next { next, tlv_type, what, refusal } = raw::walk_next(journal, place);
    match what {
        raw::RECORD => Ok(Step::Record(Record { place, tlv_type, value: &journal[place + 2..next] }, next)),
        raw::REFUSED => Err(Refusal { number: refusal.into(), first: if refusal == 14 { journal.len() } else { place }, second: 0, third: 0 }),
        _ => Ok(Step::End(End { place: next, behind: journal.len() - next })),
    }
}

/// The records of the journal, from its first byte on.
pub fn records(journal: &[u8]) -> Records<'_> {
    Records { journal, at: At::Place(0) }
}

/// How many records the journal has, and how its walk ends.
pub fn summary(journal: &[u8]) -> Result<Summary, Refusal> {
    let answer = raw::walk_summary(journal);
    given(answer.refusal)?;
    Ok(Summary { count: answer.count, end: End { place: answer.place, behind: answer.behind } })
}

/// What kind of record stands at a place of the journal, or why the plain reader of its type refuses it. The place that a refusal 1 carries is counted
/// from that record's start. Ask it where [`step`] tells a record: an end has no kind, and a whole end is refusal 1 (0, 2) at 0.
pub fn kind_at(journal: &[u8], place: usize) -> Result<Kind, Refusal> {
    let answer = raw::kind_at(journal, place);
    given(answer.refusal)?;
    Ok(match answer.kind {
        raw::REQUEST => Kind::Request,
        raw::RESPONSE => Kind::Response,
        raw::ENTITY => Kind::Entity,
        _ => Kind::Other,
    })
}

/// A walk over the records of a journal.
#[derive(Debug, Clone)]
pub struct Records<'a> {
    journal: &'a [u8],
    at: At,
}

#[derive(Debug, Clone, Copy)]
enum At {
    Place(usize),
    End(Result<End, Refusal>),
}

impl Records<'_> {
    /// Walks on to the end and tells it, or 14 where the journal is longer than [`LIMIT`].
    pub fn end(mut self) -> Result<End, Refusal> {
        loop {
            if let At::End(end) = self.at {
                return end;
            }
            self.next();
        }
    }
}

impl<'a> Iterator for Records<'a> {
    type Item = Record<'a>;

    fn next(&mut self) -> Option<Record<'a>> {
        let At::Place(place) = self.at else { return None };
        match step(self.journal, place) {
            Ok(Step::Record(record, next)) => {
                self.at = At::Place(next);
                return Some(record);
            }
            Ok(Step::End(end)) => self.at = At::End(Ok(end)),
            Err(refusal) => self.at = At::End(Err(refusal)),
        }
        None
    }
}

impl FusedIterator for Records<'_> {}

impl From<raw::Span> for Span {
    fn from(span: raw::Span) -> Self {
        Span { start: span.start, len: span.len }
    }
}

impl From<Span> for raw::Span {
    fn from(span: Span) -> Self {
        raw::Span { start: span.start, len: span.len }
    }
}

fn given(refusal: raw::Refusal) -> Result<(), Refusal> {
    let raw::Refusal { number, first, second, third } = refusal;
    if number == 0 { Ok(()) } else { Err(Refusal { number, first, second, third }) }
}

fn written(answer: raw::Written) -> Result<usize, Refusal> {
    given(answer.refusal)?;
    Ok(answer.bytes)
}

// A second name as C has it, and back.
fn laid(second: Option<Span>) -> (u8, raw::Span) {
    (second.is_some() as u8, second.unwrap_or_default().into())
}

fn there(has_second: u8, second: raw::Span) -> Option<Span> {
    (has_second != 0).then(|| second.into())
}

fn request(answer: raw::RequestAnswer) -> Result<Request, Refusal> {
    given(answer.refusal)?;
    let raw::Request { action, has_second, first_name, second_name } = answer.request;
    Ok(Request { action, first_name: first_name.into(), second_name: there(has_second, second_name) })
}

fn response(answer: raw::ResponseAnswer) -> Result<Response, Refusal> {
    given(answer.refusal)?;
    let raw::Response { action, status, has_second, first_name, second_name, filestore_message } = answer.response;
    Ok(Response {
        action,
        status,
        first_name: first_name.into(),
        second_name: there(has_second, second_name),
        filestore_message: filestore_message.into(),
    })
}
