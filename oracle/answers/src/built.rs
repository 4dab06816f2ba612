//! Builds the Rust's values from those of a case, by the Rust's own builders, in the order in which a caller has to: a slice, its LV, the next
//! slice. So 4 comes from `Lv::new`, of the first too long value in writing order; 6 and 5 come from the filestore builders.
use crate::notation::Field;
use crate::say::Stop;
use crate::value::{Filestore, Lent, Span, Value};
use spacepackets::cfdp::lv::Lv;
use spacepackets::cfdp::tlv::{EntityIdTlv, FilestoreActionCode, FilestoreRequestTlv, FilestoreResponseTlv, Tlv, TlvType};
use spacepackets::util::UnsignedByteField;

/// Bytes for a value that is built with no source: the builders here take spans and look at no bytes, those of the Rust take slices.
static FRESH: [u8; 1 << 20] = [0; 1 << 20];

/// The slice that a span stands for. One that passes the end of its source panics, as taking a slice does.
pub fn slice<'a>(span: Span, source: Option<&'a [u8]>) -> Result<&'a [u8], Stop> {
    match source {
        Some(bytes) => Ok(&bytes[span.start..span.start + span.len]),
        None => FRESH.get(..span.len).ok_or(Stop::Unasked),
    }
}

pub fn tlv_type(x: u8) -> TlvType {
    TlvType::try_from(x).expect("a standard type")
}

pub fn action(x: u8) -> FilestoreActionCode {
    FilestoreActionCode::try_from(x).expect("one of the nine actions")
}

pub fn lv(span: Span, source: Option<&[u8]>) -> Result<Lv<'_>, Stop> {
    Ok(Lv::new(slice(span, source)?)?)
}

pub fn tlv(field: Field, span: Span, source: Option<&[u8]>) -> Result<Tlv<'_>, Stop> {
    let bytes = slice(span, source)?;
    Ok(match field {
        Field::Standard(x) => Tlv::new(tlv_type(x), bytes)?,
        Field::Custom(x) => Tlv::new_with_custom_type(x, bytes)?,
    })
}

pub fn entity(width: usize, number: u64) -> EntityIdTlv {
    EntityIdTlv::new(UnsignedByteField::new(width, number))
}

fn second(f: Filestore, source: Option<&[u8]>) -> Result<Option<Lv<'_>>, Stop> {
    f.second.map(|span| lv(span, source)).transpose()
}

pub fn request(f: Filestore, source: Option<&[u8]>) -> Result<FilestoreRequestTlv<'_, '_>, Stop> {
    let first = lv(f.first, source)?;
    Ok(FilestoreRequestTlv::new(action(f.action), first, second(f, source)?)?)
}

pub fn response(f: Filestore, source: Option<&[u8]>) -> Result<FilestoreResponseTlv<'_, '_, '_>, Stop> {
    let first = lv(f.first, source)?;
    let second = second(f, source)?;
    let message = lv(f.message.expect("a response has a message"), source)?;
    Ok(FilestoreResponseTlv::new(action(f.action), f.status, first, second, message)?)
}

/// Any of the Rust's values.
#[derive(PartialEq)]
pub enum Built<'a> {
    Lv(Lv<'a>),
    Tlv(Tlv<'a>),
    Entity(EntityIdTlv),
    Request(FilestoreRequestTlv<'a, 'a>),
    Response(FilestoreResponseTlv<'a, 'a, 'a>),
}

pub fn built<'a>(lent: &Lent<'a>) -> Result<Built<'a>, Stop> {
    let source = lent.source;
    Ok(match lent.value {
        Value::Lv(span) => Built::Lv(lv(span, source)?),
        Value::Tlv(field, span) => Built::Tlv(tlv(field, span, source)?),
        Value::Entity(width, number) => Built::Entity(entity(width, number)),
        Value::Filestore(f) if f.message.is_none() => Built::Request(request(f, source)?),
        Value::Filestore(f) => Built::Response(response(f, source)?),
    })
}

/// The value of a call that refuses nothing: what the Rust's builders refuse cannot be handed to it, so that is not asked.
pub fn given<'a>(lent: &Lent<'a>) -> Result<Built<'a>, Stop> {
    if lent.value.spans().iter().any(|span| span.len > 255) {
        return Err(Stop::Unasked);
    }
    built(lent).map_err(|_| Stop::Unasked)
}
