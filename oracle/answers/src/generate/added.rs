//! Cases of the calls that the Rust has not, which the model alone answers: those at every boundary, and random ones. Lines of a walker's calls are
//! among them.
use super::short::{TELLING, framed_all, strings};
use super::{Random, second, x};

/// Places about the end of so many bytes, and the largest.
fn about(n: usize) -> Vec<usize> {
    (0..n + 3).chain([255, 256, usize::MAX - 1, usize::MAX]).collect()
}

/// The calls that are lent the bytes of a span.
fn lent(start: usize, len: usize, source: &str) -> Vec<String> {
    let spans = ["lv.span_test", "lv.write_test", "tlv.span_test s5", "tlv.span_test c6", "record.value 0 5", "record.span_test 7 255"];
    let seconds = ["second.value", "second.span_test"];
    let calls = spans.iter().map(|call| format!("{call} {start} {len} {source}"));
    calls.chain(seconds.iter().map(|call| format!("{call} {start}+{len} {source}"))).collect()
}

fn spans() -> Vec<String> {
    let mut all = vec!["second.value - x61".to_string(), "second.span_test - x".into()];
    for n in [0, 1, 3] {
        let source = x(&[0x61, 0x62, 0x63][..n]);
        for (start, len) in about(n).into_iter().flat_map(|start| about(n).into_iter().map(move |len| (start, len))) {
            all.extend(lent(start, len, &source));
            all.push(format!("lv.size_test {start} {len}"));
            all.push(format!("record.to_tlv {start} {} {start} {len}", len % 256));
            all.extend([0, 1, 2, 4, 5, usize::MAX].map(|place| format!("lv.write_at {start} {len} {source} xaa*5 {place}")));
        }
    }
    for len in [253, 254, 255, 256] {
        all.extend(lent(1, len, "x61*257"));
        all.extend([0, 1, 2].map(|place| format!("lv.write_at 1 {len} x61*257 xaa*257 {place}")));
    }
    all
}

fn grounds() -> Vec<String> {
    let mut all = vec![];
    let powers = (0..8).flat_map(|k| [(1u64 << (8 * k)) - 1, 1 << (8 * k)]);
    for number in powers.chain([0x0102_0304_0506_0708, u64::MAX]) {
        for width in about(8) {
            all.push(format!("number.test {number} {width}"));
            let room = [0, width.saturating_sub(1), width, width.saturating_add(2)].map(|n| n.min(12));
            all.extend(room.iter().flat_map(|n| [0, 1, 2, usize::MAX].map(|place| format!("number.write {number} {width} xaa*{n} {place}"))));
        }
    }
    for n in 0..11 {
        all.extend(["00", "81", "ff"].map(|byte| format!("number.read x{byte}*{n}")));
        all.push(format!("number.read x010203040506070809.00*{n}"));
        for (k, place) in (0..6).flat_map(|k| about(5).into_iter().map(move |place| (k, place))) {
            all.push(format!("splice.put {place} x61*{k} xaa*{n}"));
        }
    }
    let some: Vec<String> = (0..4).flat_map(|len| strings(&[0, 1], len)).map(|string| x(&string)).collect();
    all.extend(some.iter().flat_map(|left| some.iter().map(move |right| format!("splice.same {left} {right}"))));
    all
}

/// A string, read at every place and up to every end about, asked for its length as any type, and stepped over from every place.
fn read(string: Vec<u8>) -> Vec<String> {
    let (n, text) = (string.len(), x(&string));
    let mut all: Vec<String> = ["walk.places", "dump.list", "listing.sum"].iter().map(|call| format!("{call} {text}")).collect();
    all.extend([0, 1, 2, 4, 5, 6].map(|t| format!("tlv.len_of {text} s{t}")));
    all.push(format!("walker.new {text}; walker.look; walker.step; walker.look; walker.step; walker.step; walker.step; walker.look"));
    for place in (0..n + 3).chain([usize::MAX]) {
        all.push(format!("walker.made {text} {place}; walker.look; walker.step; walker.step; walker.look"));
        all.extend((0..n + 3).chain([usize::MAX]).map(|end| format!("lv.read_at {text} {place} {end}")));
    }
    all
}

/// Over the limit of 65,536 bytes, and past the end.
fn refused() -> Vec<String> {
    let mut all = vec![];
    for n in [2, 65_535, 65_536, 65_537, 66_000] {
        let bytes = format!("xff*{n}");
        all.extend(["walk.listing", "walk.summary_of", "walker.first", "listing.sum"].map(|call| format!("{call} {bytes}")));
        for place in [0, n - 1, n, n + 1, usize::MAX] {
            all.extend(["walk.step_at", "kind.kind_at"].map(|call| format!("{call} {bytes} {place}")));
            all.push(format!("walker.made {bytes} {place}; walker.look; walker.step; walker.step"));
        }
    }
    all
}

pub fn cases() -> impl Iterator<Item = String> + Send {
    let parts: [fn() -> Vec<String>; 3] = [spans, grounds, refused];
    let strict = framed_all().map(|case| case.replace("from_bytes", "from_bytes_strict"));
    let short = (0..4).flat_map(|len| strings(&TELLING, len)).flat_map(read);
    parts.into_iter().flat_map(|part| part()).chain(short).chain(strict)
}

impl Random {
    /// A call that the Rust has not, or several calls of a walker.
    pub fn added(&mut self) -> String {
        match self.below(8) {
            0 | 1 => self.lent_span(),
            2 => self.ground(),
            3 => self.number(),
            4 => self.strict_read(),
            5 => self.short_journal(),
            _ => self.walker(),
        }
    }

    /// A place in so many bytes or about their end, at times any.
    fn place(&mut self, n: usize) -> usize {
        match self.below(24) {
            0 => self.word() as usize,
            1 => usize::MAX - self.below(3),
            _ => self.below(n + 3),
        }
    }

    fn lent_span(&mut self) -> String {
        let source = self.source();
        let (start, len) = match self.one_in(3) {
            true => (self.place(source.len()), self.place(source.len())),
            false => self.span(source.len()),
        };
        let (span, source) = (format!("{start} {len}"), x(&source));
        match self.below(9) {
            0 => format!("lv.span_test {span} {source}"),
            1 => format!("lv.write_test {span} {source}"),
            2 => format!("tlv.span_test {} {span} {source}", self.field()),
            3 => format!("second.span_test {} {source}", second(Some((start, len)))),
            4 => format!("second.value {} {source}", second(Some((start, len)))),
            5 => format!("record.value {start} {} {span} {source}", self.below(256)),
            6 => format!("record.span_test {start} {} {span} {source}", self.below(256)),
            7 => format!("record.to_tlv {start} {} {span}", self.below(256)),
            _ => {
                let buf = self.buffer(len.min(300) + 3);
                format!("lv.write_at {span} {source} {buf} {}", self.below(5))
            }
        }
    }

    fn ground(&mut self) -> String {
        let (source, len) = (self.source(), self.below(9));
        match self.below(3) {
            0 => format!("splice.put {} {} {}", self.place(4), x(&source), self.buffer(source.len() + 2)),
            1 => {
                let other = self.damage(source.clone());
                format!("splice.same {} {}", x(&source), x(&other))
            }
            _ => {
                let bytes = [self.bytes(len), source].concat();
                let (place, end) = (self.place(bytes.len()), self.place(bytes.len()));
                format!("lv.read_at {} {place} {end}", x(&bytes))
            }
        }
    }

    fn number(&mut self) -> String {
        let width = if self.one_in(6) { self.place(10) } else { self.below(9) };
        let number = self.word() >> self.below(64);
        let buf = self.buffer(width.min(16) + 2);
        match self.below(4) {
            0 => format!("number.read {buf}"),
            1 => format!("number.test {number} {width}"),
            _ => format!("number.write {number} {width} {buf} {}", self.place(2)),
        }
    }

    fn strict_read(&mut self) -> String {
        let tlv = self.tlv();
        let kind = if (tlv[0] == 1) != self.one_in(12) { "response" } else { "request" };
        let bytes = self.damage(tlv);
        match self.one_in(6) {
            true => format!("tlv.len_of {} {}", x(&bytes), self.pick(&["s0", "s1", "s2", "s4", "s5", "s6"])),
            false => format!("{kind}.from_bytes_strict {}", x(&bytes)),
        }
    }

    fn journal(&mut self) -> Vec<u8> {
        let mut journal = vec![];
        for _ in 0..self.below(4) {
            journal.extend(self.tlv());
        }
        self.damage(journal)
    }

    /// What is answered in several lines; of every place or prefix only where there are few.
    fn short_journal(&mut self) -> String {
        let journal = self.journal();
        let every = if journal.len() < 40 { self.pick(&["walk.places", "walk.prefixes"]) } else { "walk.listing" };
        format!("{} {}", self.pick(&["dump.list", "listing.sum", every]), x(&journal))
    }

    /// A walker, new or made up, and one to six of its calls.
    fn walker(&mut self) -> String {
        let journal = self.journal();
        let mut line = match self.one_in(2) {
            true => format!("walker.new {}", x(&journal)),
            false => format!("walker.made {} {}", x(&journal), self.place(journal.len())),
        };
        for _ in 0..1 + self.below(6) {
            line += self.pick(&["; walker.look", "; walker.step", "; walker.step"]);
        }
        line
    }
}
