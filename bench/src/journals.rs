//! The journals that are walked and listed.
use crate::cases::text;

/// A small source of numbers, the same at each run.
struct Random(u32);

impl Random {
    fn next(&mut self) -> u32 {
        self.0 = self.0.wrapping_mul(1664525).wrapping_add(1013904223);
        self.0 >> 16
    }
}

/// A whole journal of 64 KiB, and how many records it has: their values have `least` to `least + 6` bytes, in no order; the last ones may have
/// fewer, and one more.
pub fn filled(least: usize) -> (Vec<u8>, usize) {
    let mut bytes = Vec::new();
    let mut count = 0;
    let mut random = Random(1);
    let letters = text(255);
    while bytes.len() < balunduwa::LIMIT {
        let number = random.next();
        let left = balunduwa::LIMIT - bytes.len() - 2;
        let mut len = (least + number as usize % 7).min(left);
        if left - len == 1 {
            len = if len == 255 { len - 1 } else { len + 1 };
        }
        bytes.extend([(number >> 8) as u8 % 7, len as u8]);
        bytes.extend(&letters[..len]);
        count += 1;
    }
    (bytes, count)
}

/// A journal of so many records with no value, of the types 0 to 6 in turn.
pub fn empty(records: usize) -> Vec<u8> {
    let mut bytes = vec![0; 2 * records];
    for (i, record) in bytes.chunks_exact_mut(2).enumerate() {
        record[0] = (i % 7) as u8;
    }
    bytes
}

/// A cut journal of records that readers take, or refuse for one thing or another: requests, responses, entity IDs and others, with short names.
pub fn wild() -> Vec<u8> {
    let mut bytes = Vec::new();
    let mut random = Random(1);
    while bytes.len() < balunduwa::LIMIT - 20 {
        let tlv_type = [0, 0, 0, 1, 1, 1, 6, 5, 16][random.next() as usize % 9];
        let len = random.next() as u8 % 10;
        bytes.extend([tlv_type, len]);
        bytes.extend((0..len).map(|i| if i == 0 { random.next() as u8 % 160 } else { random.next() as u8 % 4 }));
    }
    bytes.extend([0, 5, 0x20]);
    bytes
}
