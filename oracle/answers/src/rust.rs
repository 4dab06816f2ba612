//! Answers a case by the Rust.
use crate::built::{self, Built};
use crate::case::Case;
use crate::notation::{Field, say_bytes};
use crate::say::{self, Places, Stop};
use crate::value::{self, Role, Value};
use crate::walk;
use spacepackets::cfdp::lv::Lv;
use spacepackets::cfdp::tlv::{
    EntityIdTlv, FilestoreActionCode, FilestoreRequestTlv, FilestoreResponseTlv, GenericTlv, Tlv, TlvTypeField, fs_request_has_second_filename,
};
use std::cell::Cell;
use std::panic::{AssertUnwindSafe, catch_unwind};

#[derive(Clone, PartialEq, Eq, Debug)]
pub enum Answer {
    Said(String),
    Panicked,
    /// The Rust has no such call, or such a value cannot be made.
    Unasked,
}

thread_local! {
    static ASKING: Cell<bool> = const { Cell::new(false) };
}

/// A panic of the Rust is an answer and needs no word on standard error; any other is told.
pub fn silence() {
    let told = std::panic::take_hook();
    std::panic::set_hook(Box::new(move |info| {
        if !ASKING.get() {
            told(info);
        }
    }));
}

pub fn answer(case: &Case) -> Answer {
    ASKING.set(true);
    let outcome = catch_unwind(AssertUnwindSafe(|| said(case)));
    ASKING.set(false);
    match outcome {
        Ok(Ok(text)) => Answer::Said(text),
        Ok(Err(Stop::Refused(text))) => Answer::Said(text),
        Ok(Err(Stop::Unasked)) => Answer::Unasked,
        Err(_) => Answer::Panicked,
    }
}

fn said(case: &Case) -> Result<String, Stop> {
    match value::role(case) {
        Role::Read => read(case),
        Role::Build => build(case),
        Role::Tell => tell(case),
        Role::Length => length(case),
        Role::Write => write(case),
        Role::Compare => compare(case),
        Role::FromTlv => from_tlv(case),
        Role::Table => table(case),
        Role::Added => Err(Stop::Unasked),
    }
}

fn read(case: &Case) -> Result<String, Stop> {
    let source = case.bytes(0);
    let places = Places::In(source);
    Ok(match case.call {
        "lv.from_bytes" => say::lv(&Lv::from_bytes(source)?, &places),
        "tlv.from_bytes" => {
            let tlv = Tlv::from_bytes(source)?;
            format!("{} span {}", say::field(tlv.tlv_type_field()), places.span(0, tlv.value()))
        }
        "entity.from_bytes" => say::entity(&EntityIdTlv::from_bytes(source)?),
        "request.from_bytes" => say::request(&FilestoreRequestTlv::from_bytes(source)?, &places),
        "response.from_bytes" => say::response(&FilestoreResponseTlv::from_bytes(source)?, &places),
        _ => return walk::answer(case),
    })
}

fn build(case: &Case) -> Result<String, Stop> {
    let value = value::to_build(case);
    let places = Places::Given(value.spans().iter().map(|span| span.start).collect());
    match value {
        Value::Lv(_) if case.method() == "new_empty" => Ok(say::lv(&Lv::new_empty(), &places)),
        Value::Lv(span) => Ok(say::lv(&built::lv(span, None)?, &places)),
        Value::Tlv(field, span) => {
            let tlv = match case.method() {
                "new_empty" => Tlv::new_empty(built::tlv_type(field.byte())),
                _ => built::tlv(field, span, None)?,
            };
            Ok(format!("{} span {}", say::field(tlv.tlv_type_field()), places.span(0, tlv.value())))
        }
        Value::Entity(width, number) => Ok(say::entity(&built::entity(width, number))),
        Value::Filestore(f) if f.message.is_none() => {
            let first = built::lv(f.first, None)?;
            let second = f.second.map(|span| built::lv(span, None)).transpose()?;
            Ok(say::request(&request_by(case.method(), f.action, first, second)?, &places))
        }
        Value::Filestore(f) if case.method() == "new_no_filestore_message" => {
            let first = built::lv(f.first, None)?;
            let second = f.second.map(|span| built::lv(span, None)).transpose()?;
            let response = FilestoreResponseTlv::new_no_filestore_message(built::action(f.action), f.status, first, second)?;
            Ok(say::response(&response, &places))
        }
        Value::Filestore(f) => Ok(say::response(&built::response(f, None)?, &places)),
    }
}

/// A request by the builder of that name.
fn request_by<'a>(builder: &str, action: u8, first: Lv<'a>, second: Option<Lv<'a>>) -> Result<FilestoreRequestTlv<'a, 'a>, Stop> {
    Ok(match (builder, second) {
        ("new_create_file", None) => FilestoreRequestTlv::new_create_file(first)?,
        ("new_delete_file", None) => FilestoreRequestTlv::new_delete_file(first)?,
        ("new_rename_file", Some(second)) => FilestoreRequestTlv::new_rename_file(first, second)?,
        ("new_append_file", Some(second)) => FilestoreRequestTlv::new_append_file(first, second)?,
        ("new_replace_file", Some(second)) => FilestoreRequestTlv::new_replace_file(first, second)?,
        ("new_create_directory", None) => FilestoreRequestTlv::new_create_directory(first)?,
        ("new_remove_directory", None) => FilestoreRequestTlv::new_remove_directory(first)?,
        ("new_deny_file", None) => FilestoreRequestTlv::new_deny_file(first)?,
        ("new_deny_directory", None) => FilestoreRequestTlv::new_deny_directory(first)?,
        ("new", second) => FilestoreRequestTlv::new(built::action(action), first, second)?,
        _ => return Err(Stop::Unasked),
    })
}

fn tell(case: &Case) -> Result<String, Stop> {
    let lent = value::handed(case);
    let places = Places::Given(lent.value.spans().iter().map(|span| span.start).collect());
    Ok(match (built::given(&lent)?, case.method()) {
        (Built::Lv(x), "value") => say_bytes(x.value()),
        (Built::Lv(x), "len_value") => x.len_value().to_string(),
        (Built::Lv(x), "is_empty") => x.is_empty().to_string(),
        (Built::Tlv(x), "value") => say_bytes(x.value()),
        (Built::Tlv(x), "len_value") => x.len_value().to_string(),
        (Built::Tlv(x), "is_empty") => x.is_empty().to_string(),
        (Built::Tlv(x), "tlv_type_field") => say::field(x.tlv_type_field()),
        (Built::Tlv(x), "tlv_type") => say::standard(x.tlv_type()),
        (Built::Tlv(x), "is_standard_tlv") => x.is_standard_tlv().to_string(),
        (Built::Entity(x), "entity_id") => say::entity(&x),
        (Built::Entity(x), "len_value") => x.len_value().to_string(),
        (Built::Entity(x), "tlv_type_field") => say::field(x.tlv_type_field()),
        (Built::Entity(x), "tlv_type") => say::standard(x.tlv_type()),
        (Built::Entity(x), "is_standard_tlv") => x.is_standard_tlv().to_string(),
        (Built::Request(x), "action_code") => say::action(x.action_code()),
        (Built::Request(x), "first_name") => say::lv(&x.first_name(), &places),
        (Built::Request(x), "second_name") => say::second(&x.second_name(), &places),
        (Built::Request(x), "tlv_type_field") => say::field(x.tlv_type_field()),
        (Built::Request(x), "tlv_type") => say::standard(x.tlv_type()),
        (Built::Request(x), "is_standard_tlv") => x.is_standard_tlv().to_string(),
        (Built::Response(x), "action_code") => say::action(x.action_code()),
        (Built::Response(x), "status_code") => x.status_code().to_string(),
        (Built::Response(x), "first_name") => say::lv(&x.first_name(), &places),
        (Built::Response(x), "second_name") => say::second(&x.second_name(), &places),
        (Built::Response(x), "filestore_message") => {
            let Places::Given(starts) = &places else { return Err(Stop::Unasked) };
            format!("span {} {}", starts[starts.len() - 1], say::message(&x).len())
        }
        (Built::Response(x), "tlv_type_field") => say::field(x.tlv_type_field()),
        (Built::Response(x), "tlv_type") => say::standard(x.tlv_type()),
        (Built::Response(x), "is_standard_tlv") => x.is_standard_tlv().to_string(),
        _ => return Err(Stop::Unasked),
    })
}

fn length(case: &Case) -> Result<String, Stop> {
    let len = match (built::built(&value::handed(case))?, case.method()) {
        (Built::Lv(x), "len_full") => x.len_full(),
        (Built::Tlv(x), "len_full") => x.len_full(),
        (Built::Tlv(x), "len_written") => x.len_written(),
        (Built::Entity(x), "len_full") => x.len_full(),
        (Built::Entity(x), "len_written") => x.len_written(),
        (Built::Request(x), "len_value") => x.len_value(),
        (Built::Request(x), "len_full") => x.len_full(),
        (Built::Request(x), "len_written") => x.len_written(),
        (Built::Response(x), "len_value") => x.len_value(),
        (Built::Response(x), "len_full") => x.len_full(),
        (Built::Response(x), "len_written") => x.len_written(),
        _ => return Err(Stop::Unasked),
    };
    Ok(format!("length {len}"))
}

/// A writer's answer, and the whole buffer after.
fn write(case: &Case) -> Result<String, Stop> {
    let mut buf = case.bytes(case.args.len() - 1).to_vec();
    let answer = written(case, &mut buf);
    let with_buffer = |text: String| format!("{text} buf {}", say_bytes(&buf));
    match answer {
        Ok(text) => Ok(with_buffer(text)),
        Err(Stop::Refused(text)) => Err(Stop::Refused(with_buffer(text))),
        Err(Stop::Unasked) => Err(Stop::Unasked),
    }
}

fn written(case: &Case, buf: &mut [u8]) -> Result<String, Stop> {
    let n = match built::built(&value::handed(case))? {
        Built::Lv(x) => x.write_to_slice(buf)?,
        Built::Tlv(x) => x.write_to_slice(buf)?,
        Built::Entity(x) if case.method() == "to_tlv" => {
            let start = buf.as_ptr().addr();
            let tlv = x.to_tlv(buf)?;
            let place = tlv.value().as_ptr().addr() - start;
            return Ok(format!("{} span {place} {}", say::field(tlv.tlv_type_field()), tlv.value().len()));
        }
        Built::Entity(x) => x.write_to_slice(buf)?,
        Built::Request(x) => x.write_to_slice(buf)?,
        Built::Response(x) => x.write_to_slice(buf)?,
    };
    Ok(format!("wrote {n}"))
}

fn compare(case: &Case) -> Result<String, Stop> {
    let (left, right) = value::both(case);
    // What cannot be made on either side is not asked, whatever the other side is.
    let too_long = |x: &value::Lent| x.value.spans().iter().any(|span| span.len > 255);
    if too_long(&left) || too_long(&right) {
        return Err(Stop::Unasked);
    }
    let same = built::given(&left)? == built::given(&right)?;
    Ok(if same { "same" } else { "different" }.into())
}

fn from_tlv(case: &Case) -> Result<String, Stop> {
    let Built::Tlv(tlv) = built::given(&value::handed(case))? else { return Err(Stop::Unasked) };
    Ok(say::entity(&EntityIdTlv::try_from(tlv)?))
}

fn table(case: &Case) -> Result<String, Stop> {
    Ok(match case.call {
        "type.to_byte" => {
            let field = case.field(0);
            u8::from(match field {
                Field::Standard(x) => TlvTypeField::Standard(built::tlv_type(x)),
                Field::Custom(x) => TlvTypeField::Custom(x),
            })
            .to_string()
        }
        "type.from_byte" => say::field(TlvTypeField::from(case.number(0) as u8)),
        "action.from_code" => match FilestoreActionCode::try_from(case.number(0) as u8) {
            Ok(x) => say::action(x),
            Err(e) => format!("refused 7 ({})", e.number),
        },
        "action.to_code" => u8::from(built::action(case.number(0) as u8)).to_string(),
        "action.has_second" => fs_request_has_second_filename(built::action(case.number(0) as u8)).to_string(),
        "response.has_second_filename" => FilestoreResponseTlv::has_second_filename(built::action(case.number(0) as u8)).to_string(),
        _ => return Err(Stop::Unasked),
    })
}
