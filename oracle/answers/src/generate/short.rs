//! Short inputs, all of them: byte strings, type fields, actions and statuses.
use super::{PLACED, READERS, TLV_TELLS, WALKS, x};

/// All strings of a length over an alphabet, in order.
pub fn strings(alphabet: &'static [u8], len: usize) -> impl Iterator<Item = Vec<u8>> + Send {
    let count = alphabet.len().pow(len as u32);
    (0..count).map(move |index| {
        let mut rest = index;
        let mut string = vec![0; len];
        for place in (0..len).rev() {
            string[place] = alphabet[rest % alphabet.len()];
            rest /= alphabet.len();
        }
        string
    })
}

/// Every byte.
const ALL: [u8; 256] = {
    let mut all = [0; 256];
    let mut i = 0;
    while i < 256 {
        all[i] = i as u8;
        i += 1;
    }
    all
};

/// Bytes that tell: the types with readers of their own, lengths about, an action with two names, one past the actions.
pub const TELLING: [u8; 7] = [0, 1, 2, 3, 6, 0x20, 0x90];

/// A string, read by every reader and walked.
fn read_by_all(string: Vec<u8>) -> Vec<String> {
    let text = x(&string);
    let calls = READERS.iter().chain(&WALKS).map(|call| format!("{call} {text}"));
    calls.chain(PLACED.iter().map(|call| format!("{call} {text} 0"))).collect()
}

/// A filestore TLV with a first value byte and a rest, and length bytes that are right, one too small and one too large.
fn framed(tlv_type: u8, first: u8, rest: &[u8]) -> Vec<String> {
    let call = if tlv_type == 0 { "request.from_bytes" } else { "response.from_bytes" };
    let len = 1 + rest.len() as u8;
    let with_len = |len: u8| format!("{call} {}", x(&[&[tlv_type, len, first], rest].concat()));
    vec![with_len(len), with_len(len - 1), with_len(len + 1)]
}

pub fn framed_all() -> impl Iterator<Item = String> + Send {
    const FIRST: [u8; 12] = [0, 5, 0x0f, 0x10, 0x20, 0x2f, 0x30, 0x40, 0x50, 0x80, 0x90, 0xf0];
    let short = (0..2).flat_map(|tlv_type| {
        FIRST
            .iter()
            .flat_map(move |first| (0..5).flat_map(move |len| strings(&[0, 1, 2, 0x61], len).flat_map(move |rest| framed(tlv_type, *first, &rest))))
    });
    const BODIES: [&[u8]; 4] = [&[1, 0x61], &[1, 0x61, 1, 0x62], &[1, 0x61, 1, 0x62, 2, 0x63, 0x63], &[0, 0, 0, 0]];
    let every = (0..2).flat_map(|tlv_type| ALL.iter().flat_map(move |first| BODIES.iter().flat_map(move |body| framed(tlv_type, *first, body))));
    short.chain(every)
}

fn tables() -> Vec<String> {
    let mut all = vec![];
    let standard = [0, 1, 2, 4, 5, 6].map(|t| format!("s{t}"));
    for field in standard.iter().cloned().chain((0..256).map(|n| format!("c{n}"))) {
        all.push(format!("type.to_byte {field}"));
        all.extend(TLV_TELLS.iter().map(|call| format!("tlv.{call} {field} 3 2")));
        all.push(format!("tlv.write_to_slice {field} 0 1 x61 xaaaaaaaa"));
        all.push(format!("entity.from_tlv {field} 0 2 x0102"));
        for other in ["s6", "c6", "s0", "c0", "c3"] {
            all.push(format!("tlv.same {field} 0 1 x61 {other} 1 1 x6261"));
        }
    }
    for t in &standard {
        all.push(format!("tlv.new_empty {t}"));
        all.push(format!("tlv.new {t} 1 2"));
    }
    for byte in 0..256 {
        all.extend([format!("type.from_byte {byte}"), format!("action.from_code {byte}"), format!("tlv.new_with_custom_type {byte} 1 2")]);
    }
    for action in 0..9 {
        all.extend(["action.to_code", "action.has_second", "response.has_second_filename"].map(|call| format!("{call} {action}")));
        for second in ["-", "2+1"] {
            all.push(format!("request.new {action} 0 1 {second}"));
            all.push(format!("request.write_to_slice {action} 0 1 {second} x616263 xaa*9"));
            for status in 0..256 {
                all.push(format!("response.new {action} {status} 0 1 {second} 1 2"));
                all.push(format!("response.write_to_slice {action} {status} 0 1 {second} 1 2 x616263 xaa*11"));
            }
        }
    }
    all
}

pub fn cases() -> impl Iterator<Item = String> + Send {
    let telling = (3..6).flat_map(|len| strings(&TELLING, len)).chain(strings(&[0, 1, 2, 6, 0x20], 6));
    let all = (0..3).flat_map(|len| strings(&ALL, len));
    let all = all.flat_map(|string| READERS.iter().map(move |call| format!("{call} {}", x(&string))));
    tables().into_iter().chain(framed_all()).chain(telling.flat_map(read_by_all)).chain(all)
}
