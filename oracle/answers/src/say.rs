//! Says what the Rust answers, in replay's words. A refusal is said by its number and values (document 01: 'Answers by number').
use crate::notation::say_bytes;
use spacepackets::ByteConversionError;
use spacepackets::cfdp::lv::Lv;
use spacepackets::cfdp::tlv::{EntityIdTlv, FilestoreActionCode, FilestoreRequestTlv, FilestoreResponseTlv, TlvType, TlvTypeField};
use spacepackets::cfdp::{InvalidTlvTypeFieldError, TlvLvDataTooLargeError, TlvLvError};

/// Why there is no value to go on with.
pub enum Stop {
    /// The Rust refused; the text says how.
    Refused(String),
    /// The value cannot be made, or only of more bytes than are lent here.
    Unasked,
}

impl From<ByteConversionError> for Stop {
    fn from(e: ByteConversionError) -> Stop {
        Stop::Refused(match e {
            ByteConversionError::FromSliceTooSmall { found, expected } => format!("refused 1 ({found}, {expected})"),
            ByteConversionError::ToSliceTooSmall { found, expected } => format!("refused 2 ({found}, {expected})"),
        })
    }
}

impl From<TlvLvDataTooLargeError> for Stop {
    fn from(e: TlvLvDataTooLargeError) -> Stop {
        Stop::Refused(format!("refused 4 ({})", e.0))
    }
}

/// The error's fields are private: its Debug form has them, found first, then what was expected.
impl From<InvalidTlvTypeFieldError> for Stop {
    fn from(e: InvalidTlvTypeFieldError) -> Stop {
        let debug = format!("{e:?}");
        let numbers: Vec<&str> = debug.split(|c: char| !c.is_ascii_digit()).filter(|word| !word.is_empty()).collect();
        Stop::Refused(format!("refused 3 ({})", numbers.join(", ")))
    }
}

impl From<TlvLvError> for Stop {
    fn from(e: TlvLvError) -> Stop {
        match e {
            TlvLvError::DataTooLarge(e) => e.into(),
            TlvLvError::ByteConversion(e) => e.into(),
            TlvLvError::InvalidTlvTypeField(e) => e.into(),
            TlvLvError::InvalidValueLength(n) => Stop::Refused(format!("refused 5 ({n})")),
            TlvLvError::SecondNameMissing => Stop::Refused("refused 6".into()),
            TlvLvError::InvalidFilestoreActionCode(code) => Stop::Refused(format!("refused 7 ({code})")),
        }
    }
}

/// Where the bytes of a value start: a part of a lent slice at its place there; of a value that was built, the start that the case gave.
pub enum Places<'a> {
    In(&'a [u8]),
    Given(Vec<usize>),
}

impl Places<'_> {
    /// The span of the bytes that are the value's part of that number, in writing order.
    pub fn span(&self, part: usize, bytes: &[u8]) -> String {
        let start = match self {
            Places::In(source) => bytes.as_ptr().addr() - source.as_ptr().addr(),
            Places::Given(starts) => starts[part],
        };
        format!("{start} {}", bytes.len())
    }
}

pub fn lv(x: &Lv, places: &Places) -> String {
    format!("span {}", places.span(0, x.value()))
}

pub fn field(x: TlvTypeField) -> String {
    match x {
        TlvTypeField::Standard(t) => format!("s{}", t as u8),
        TlvTypeField::Custom(n) => format!("c{n}"),
    }
}

pub fn standard(x: Option<TlvType>) -> String {
    x.map_or("absent".into(), |t| format!("s{}", t as u8))
}

pub fn action(x: FilestoreActionCode) -> String {
    format!("action {}", x as u8)
}

pub fn entity(x: &EntityIdTlv) -> String {
    format!("width {} number {}", x.entity_id().size(), x.entity_id().value())
}

pub fn second(x: &Option<Lv>, places: &Places) -> String {
    x.map_or("second -".into(), |l| format!("second {}", places.span(1, l.value())))
}

pub fn request(x: &FilestoreRequestTlv, places: &Places) -> String {
    let names = format!("span {} {}", places.span(0, x.first_name().value()), second(&x.second_name(), places));
    format!("request {} {names}", x.action_code() as u8)
}

/// The message of a response has no accessor: the response is written again, and its last LV read back.
pub fn message(x: &FilestoreResponseTlv) -> Vec<u8> {
    let mut written = vec![0; x.len_full()];
    x.write_to_slice(&mut written).expect("a response fits its own length");
    let before = 3 + x.first_name().len_full() + x.second_name().map_or(0, |s| s.len_full());
    Lv::from_bytes(&written[before..]).expect("a message is always written").value().to_vec()
}

pub fn response(x: &FilestoreResponseTlv, places: &Places) -> String {
    let names = format!("span {} {}", places.span(0, x.first_name().value()), second(&x.second_name(), places));
    let message = message(x);
    let message = match places {
        // It stands behind the names; whether those are its bytes there is looked at.
        Places::In(source) => {
            let last = x.second_name().unwrap_or(x.first_name()).value();
            let start = last.as_ptr().addr() - source.as_ptr().addr() + last.len() + 1;
            let there = source.get(start..start + message.len());
            if there == Some(&message[..]) { format!("{start} {}", message.len()) } else { format!("of {}", say_bytes(&message)) }
        }
        Places::Given(starts) => format!("{} {}", starts.last().unwrap_or(&0), message.len()),
    };
    format!("response {} status {} {names} message {message}", x.action_code() as u8, x.status_code())
}
