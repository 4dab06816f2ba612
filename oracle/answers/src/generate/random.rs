//! Random cases without end, from a seed: valid TLVs and journals that are read, whole and damaged, and random values that are built, asked and
//! written, to random buffers.
use super::{ENTITY_TELLS, LV_TELLS, ONE_NAME, PLACED, READERS, REQUEST_TELLS, RESPONSE_TELLS, TLV_TELLS, TWO_NAMES, WALKS, second, x};

pub struct Random {
    state: u64,
}

impl Iterator for Random {
    type Item = String;

    fn next(&mut self) -> Option<String> {
        Some(match self.below(20) {
            0..5 => self.tlv_read(),
            5..8 => self.journal_walked(),
            8 => self.noise_read(),
            9 | 10 => self.lv_or_tlv(),
            11 | 12 => self.entity(),
            13..16 => self.request(),
            _ => self.response(),
        })
    }
}

impl Random {
    pub fn new(seed: u64) -> Random {
        Random { state: seed }
    }

    /// The generator splitmix64.
    pub(super) fn word(&mut self) -> u64 {
        self.state = self.state.wrapping_add(0x9e37_79b9_7f4a_7c15);
        let z = (self.state ^ (self.state >> 30)).wrapping_mul(0xbf58_476d_1ce4_e5b9);
        let z = (z ^ (z >> 27)).wrapping_mul(0x94d0_49bb_1331_11eb);
        z ^ (z >> 31)
    }

    pub(super) fn below(&mut self, limit: usize) -> usize {
        (self.word() % limit as u64) as usize
    }

    pub(super) fn one_in(&mut self, count: usize) -> bool {
        self.below(count) == 0
    }

    pub(super) fn pick<T: Copy>(&mut self, from: &[T]) -> T {
        from[self.below(from.len())]
    }

    /// A length: most often short, at times about a boundary.
    pub(super) fn len(&mut self) -> usize {
        match self.below(24) {
            0 => self.pick(&[125, 126, 127, 128, 252, 253, 254, 255, 256, 257]),
            1 => self.below(260),
            _ => self.below(5),
        }
    }

    /// Bytes; long ones are of one byte, so that their text is short.
    pub(super) fn bytes(&mut self, len: usize) -> Vec<u8> {
        if len > 12 {
            return vec![self.word() as u8; len];
        }
        (0..len).map(|_| self.word() as u8).collect()
    }

    fn lv(&mut self, len: usize) -> Vec<u8> {
        let len = len.min(255);
        [vec![len as u8], self.bytes(len)].concat()
    }

    /// A TLV as a writer would leave it; a filestore value may have bytes left, or a status or low bits of any sort.
    pub(super) fn tlv(&mut self) -> Vec<u8> {
        let (tlv_type, mut value) = match self.below(8) {
            0..3 => (0, self.filestore_value(false)),
            3..6 => (1, self.filestore_value(true)),
            6 => {
                let width = self.pick(&[1, 2, 4, 8]);
                (6, self.bytes(width))
            }
            _ => {
                let len = self.len();
                (self.word() as u8, self.bytes(len))
            }
        };
        value.truncate(255);
        [vec![tlv_type, value.len() as u8], value].concat()
    }

    fn filestore_value(&mut self, response: bool) -> Vec<u8> {
        let action = if self.one_in(10) { self.below(16) } else { self.below(9) } as u8;
        let low = if response || self.one_in(4) { self.below(16) as u8 } else { 0 };
        let mut value = vec![action << 4 | low];
        let lvs = 1 + (2..=4).contains(&action) as usize + response as usize;
        for _ in 0..lvs {
            let len = self.len();
            value.extend(self.lv(len));
        }
        if self.one_in(8) {
            let len = self.below(4);
            value.extend(self.bytes(len));
        }
        value
    }

    /// A byte changed, bytes cut off at the end or put there, one taken out or put in; or nothing of that.
    pub(super) fn damage(&mut self, mut bytes: Vec<u8>) -> Vec<u8> {
        let at = self.below(bytes.len().max(1));
        match self.below(9) {
            0 | 1 if !bytes.is_empty() => bytes[at] = self.word() as u8,
            2 if !bytes.is_empty() => bytes[at] ^= 1 << self.below(8),
            3 if !bytes.is_empty() => bytes[at] = bytes[at].wrapping_add(self.pick(&[1, 255])),
            4 => bytes.truncate(at),
            5 => {
                let len = 1 + self.below(3);
                bytes.extend(self.bytes(len));
            }
            6 if !bytes.is_empty() => {
                bytes.remove(at);
            }
            7 => bytes.insert(at, self.word() as u8),
            _ => {}
        }
        bytes
    }

    fn tlv_read(&mut self) -> String {
        let tlv = self.tlv();
        let own = match tlv[0] {
            0 => "request.from_bytes",
            1 => "response.from_bytes",
            6 => "entity.from_bytes",
            _ => "tlv.from_bytes",
        };
        let call = if self.one_in(5) { self.pick(&READERS) } else { own };
        let bytes = self.damage(tlv);
        format!("{call} {}", x(&bytes))
    }

    fn journal_walked(&mut self) -> String {
        let mut journal = vec![];
        for _ in 0..self.below(4) {
            journal.extend(self.tlv());
        }
        let journal = self.damage(journal);
        if self.one_in(2) {
            return format!("{} {}", self.pick(&WALKS), x(&journal));
        }
        let place = self.below(journal.len() + 1);
        format!("{} {} {place}", self.pick(&PLACED), x(&journal))
    }

    fn noise_read(&mut self) -> String {
        let len = self.below(10);
        let mut bytes = self.bytes(len);
        if len > 1 && self.one_in(2) {
            bytes[0] = self.pick(&[0, 1, 6]);
            bytes[1] = self.below(len) as u8;
        }
        format!("{} {}", self.pick(&READERS), x(&bytes))
    }

    /// A span in so many bytes, and at times one about their end.
    pub(super) fn span(&mut self, bytes: usize) -> (usize, usize) {
        if self.one_in(30) {
            return (self.below(bytes + 3), self.below(bytes + 2));
        }
        let len = self.len().min(bytes);
        (self.below(bytes - len + 1), len)
    }

    pub(super) fn source(&mut self) -> Vec<u8> {
        let len = if self.one_in(12) { 250 + self.below(60) } else { self.below(9) };
        self.bytes(len)
    }

    /// A buffer about what is needed.
    pub(super) fn buffer(&mut self, need: usize) -> String {
        let len = match self.below(6) {
            0 => need.saturating_sub(1),
            1 => need,
            2 => self.below(need + 1),
            _ => need + self.below(4),
        };
        let bytes = if len < 12 && self.one_in(2) { self.bytes(len) } else { vec![0xaa; len] };
        x(&bytes)
    }

    pub(super) fn field(&mut self) -> String {
        match self.one_in(3) {
            true => format!("c{}", self.word() as u8),
            false => self.pick(&["s0", "s1", "s2", "s4", "s5", "s6", "c6", "c0"]).into(),
        }
    }

    fn lv_or_tlv(&mut self) -> String {
        let (source, other) = (self.source(), self.source());
        let (start, len) = self.span(source.len());
        let (left, right) = (self.field(), self.field());
        let buf = self.buffer(len + 2);
        let (source_text, span) = (x(&source), format!("{start} {len}"));
        match self.below(10) {
            0 => format!("lv.{} {span}", self.pick(&LV_TELLS)),
            1 => format!("tlv.{} {left} {span}", self.pick(&TLV_TELLS)),
            2 => format!("lv.value {span} {source_text}"),
            3 => format!("tlv.value {left} {span} {source_text}"),
            4 | 5 => format!("lv.write_to_slice {span} {source_text} {buf}"),
            6 | 7 => format!("tlv.write_to_slice {left} {span} {source_text} {buf}"),
            8 => {
                // Now and then the same bytes, so that the answer is not always no.
                let (bytes, (other_start, other_len)) = match self.one_in(2) {
                    true => (&source, (start, len)),
                    false => (&other, self.span(other.len())),
                };
                let (other_span, bytes) = (format!("{other_start} {other_len}"), x(bytes));
                match self.one_in(2) {
                    true => format!("lv.same {span} {source_text} {other_span} {bytes}"),
                    false => format!("tlv.same {left} {span} {source_text} {right} {other_span} {bytes}"),
                }
            }
            _ => format!("entity.from_tlv {} {span} {source_text}", if self.one_in(3) { left } else { "s6".into() }),
        }
    }

    fn entity(&mut self) -> String {
        let width = if self.one_in(8) { self.below(12) } else { self.pick(&[1, 2, 4, 8]) };
        let bits = if self.one_in(8) { 64 } else { 8 * width.clamp(1, 8) as u32 };
        let number = self.word() >> (64 - bits) >> self.below(bits as usize);
        let buf = self.buffer(2 + width);
        match self.below(8) {
            0 => format!("entity.new {width} {number}"),
            1 => format!("entity.{} {width} {number}", self.pick(&ENTITY_TELLS)),
            2 => format!("entity.same {width} {number} {width} {}", number ^ self.below(2) as u64),
            3..6 => format!("entity.write_to_slice {width} {number} {buf}"),
            _ => format!("entity.to_tlv {width} {number} {buf}"),
        }
    }

    /// An action, the first name's span, the second name, and what they need as LVs; names and action fit in most cases.
    fn names(&mut self, source: usize) -> (usize, String, usize) {
        let action = self.below(9);
        let (start, len) = self.span(source);
        let due = (2..=4).contains(&action) != self.one_in(12);
        let name = due.then(|| self.span(source));
        (action, format!("{start} {len} {}", second(name)), len + 1 + name.map_or(0, |(_, len)| len + 1))
    }

    fn request(&mut self) -> String {
        let source = self.source();
        let (action, names, need) = self.names(source.len());
        match self.below(8) {
            0 => format!("request.new {action} {names}"),
            1 => {
                let (first, other) = (self.len(), self.len());
                match self.one_in(2) {
                    true => format!("request.{} 3 {first}", self.pick(&ONE_NAME)),
                    false => format!("request.{} 3 {first} 9 {other}", self.pick(&TWO_NAMES)),
                }
            }
            2 => format!("request.{} {action} {names}", self.pick(&REQUEST_TELLS)),
            3 => {
                let other = if self.one_in(2) { source.clone() } else { self.source() };
                let (action_too, names_too, _) = if self.one_in(2) { (action, names.clone(), 0) } else { self.names(other.len()) };
                let other = self.damage_at_times(other);
                format!("request.same {action} {names} {} {action_too} {names_too} {}", x(&source), x(&other))
            }
            _ => format!("request.write_to_slice {action} {names} {} {}", x(&source), self.buffer(3 + need)),
        }
    }

    fn damage_at_times(&mut self, bytes: Vec<u8>) -> Vec<u8> {
        if self.one_in(3) { self.damage(bytes) } else { bytes }
    }

    fn response(&mut self) -> String {
        let source = self.source();
        let (action, names, need) = self.names(source.len());
        let status = if self.one_in(12) { self.below(256) } else { self.below(16) };
        let (start, len) = self.span(source.len());
        let value = format!("{action} {status} {names} {start} {len}");
        match self.below(8) {
            0 => format!("response.new {value}"),
            1 => format!("response.new_no_filestore_message {action} {status} {names}"),
            2 => format!("response.{} {value}", self.pick(&RESPONSE_TELLS)),
            3 => {
                let other = self.damage_at_times(source.clone());
                let (start_too, len_too) = if self.one_in(2) { (start, len) } else { self.span(other.len()) };
                format!("response.same {value} {} {action} {status} {names} {start_too} {len_too} {}", x(&source), x(&other))
            }
            _ => format!("response.write_to_slice {value} {} {}", x(&source), self.buffer(4 + need + len)),
        }
    }
}
