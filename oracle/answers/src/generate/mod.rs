//! Cases to compare: the exhaustive ones, those at every boundary, and then random ones without end; and those of the calls that the Rust has not.
mod added;
mod boundary;
mod random;
mod short;

pub use random::Random;

use crate::notation::say_bytes;
use crate::rows;

/// The bytes of an argument, in the notation.
fn x(bytes: &[u8]) -> String {
    say_bytes(bytes)
}

/// The cases that do not depend on a seed, in their order.
pub fn fixed() -> Box<dyn Iterator<Item = String> + Send> {
    let smallest = rows::SMALLEST.iter().map(|(_, line)| line.to_string());
    Box::new(smallest.chain(boundary::cases()).chain(short::cases()))
}

/// The same of the calls that the Rust has not.
pub fn added() -> impl Iterator<Item = String> + Send {
    added::cases()
}

/// Random cases, of which one in five is of the calls that the Rust has not. Those come from a generator of their own.
pub fn random(seed: u64) -> Box<dyn Iterator<Item = String> + Send> {
    let (mut all, mut added) = (Random::new(seed), Random::new(!seed));
    Box::new((0u64..).filter_map(move |i| if i % 5 == 0 { Some(added.added()) } else { all.next() }))
}

/// A second name.
fn second(span: Option<(usize, usize)>) -> String {
    span.map_or("-".into(), |(start, len)| format!("{start}+{len}"))
}

/// The calls that read bytes: the readers, those of the walk that read from the front, and those at a place.
const READERS: [&str; 5] = ["lv.from_bytes", "tlv.from_bytes", "entity.from_bytes", "request.from_bytes", "response.from_bytes"];

const WALKS: [&str; 3] = ["walk.listing", "walk.summary_of", "walker.first"];

const PLACED: [&str; 2] = ["walk.step_at", "kind.kind_at"];

/// What tells something of a value, by the kinds of values.
const LV_TELLS: [&str; 3] = ["len_value", "len_full", "is_empty"];

const TLV_TELLS: [&str; 7] = ["len_written", "len_full", "len_value", "is_empty", "tlv_type_field", "tlv_type", "is_standard_tlv"];

const ENTITY_TELLS: [&str; 7] = ["entity_id", "len_value", "len_full", "len_written", "tlv_type_field", "tlv_type", "is_standard_tlv"];

const REQUEST_TELLS: [&str; 9] =
    ["action_code", "first_name", "second_name", "len_value", "len_full", "len_written", "tlv_type_field", "tlv_type", "is_standard_tlv"];

const RESPONSE_TELLS: [&str; 11] = [
    "action_code",
    "status_code",
    "first_name",
    "second_name",
    "filestore_message",
    "len_value",
    "len_full",
    "len_written",
    "tlv_type_field",
    "tlv_type",
    "is_standard_tlv",
];

/// The request builders of one action each: with one name, and with two.
const ONE_NAME: [&str; 6] =
    ["new_create_file", "new_delete_file", "new_create_directory", "new_remove_directory", "new_deny_file", "new_deny_directory"];

const TWO_NAMES: [&str; 3] = ["new_rename_file", "new_append_file", "new_replace_file"];
