//! Boundaries: values, names and messages about 0, 127 and 255 bytes, buffers about what is needed, spans about their source's end, widths and
//! numbers about powers of 256, inputs about 65,536 bytes.
use super::{ENTITY_TELLS, LV_TELLS, ONE_NAME, REQUEST_TELLS, RESPONSE_TELLS, TLV_TELLS, TWO_NAMES, second};

const LENGTHS: [usize; 16] = [0, 1, 2, 125, 126, 127, 128, 250, 251, 252, 253, 254, 255, 256, 257, 300];

/// Buffers one under what is needed, exactly that and one over, and of 0 to 2 bytes.
fn buffers(need: usize) -> Vec<String> {
    [0, 1, 2, need.saturating_sub(1), need, need + 1].into_iter().map(|n| format!("xaa*{n}")).collect()
}

fn lvs() -> Vec<String> {
    let mut all = vec!["lv.new_empty".to_string()];
    for len in LENGTHS.into_iter().chain([65_536, 1 << 20]) {
        for start in [0, 1, 7, usize::MAX] {
            all.push(format!("lv.new {start} {len}"));
            all.push(format!("tlv.new s6 {start} {len}"));
            all.push(format!("tlv.new_with_custom_type 3 {start} {len}"));
            all.extend(LV_TELLS.iter().map(|call| format!("lv.{call} {start} {len}")));
            all.extend(TLV_TELLS.iter().map(|call| format!("tlv.{call} c6 {start} {len}")));
        }
    }
    for len in LENGTHS {
        let source = format!("xff.61*{len}.00");
        for buf in buffers(len + 1) {
            all.push(format!("lv.write_to_slice 1 {len} {source} {buf}"));
        }
        for buf in buffers(len + 2) {
            all.extend(["s0", "c255"].map(|field| format!("tlv.write_to_slice {field} 1 {len} {source} {buf}")));
        }
        for read in [len.saturating_sub(1), len, len + 1] {
            let len = len.min(255);
            all.extend([format!("lv.from_bytes x{len:02x}.61*{read}"), format!("tlv.from_bytes x05{len:02x}.61*{read}")]);
            all.push(format!("walk.step_at x05{len:02x}.61*{read} 0"));
        }
        all.push(format!("lv.value 1 {len} {source}"));
        all.push(format!("tlv.value s5 1 {len} {source}"));
        all.push(format!("lv.same 1 {len} {source} 0 {len} x61*{len}"));
        all.push(format!("tlv.same s5 1 {len} {source} s5 0 {len} x61*{len}"));
        all.push(format!("entity.from_tlv s6 1 {len} {source}"));
    }
    all
}

fn entities() -> Vec<String> {
    let mut all = vec![];
    let widths = [0, 1, 2, 3, 4, 5, 6, 7, 8, 9, 255, 256, usize::MAX - 2, usize::MAX - 1, usize::MAX];
    let powers = (0..8).flat_map(|k| [(1u64 << (8 * k)) - 1, 1 << (8 * k), (1 << (8 * k)) + 1]);
    let numbers: Vec<u64> = powers.chain([0x0102_0304_0506_0708, u64::MAX - 1, u64::MAX]).collect();
    for width in widths {
        for number in &numbers {
            all.push(format!("entity.new {width} {number}"));
            all.extend(ENTITY_TELLS.iter().map(|call| format!("entity.{call} {width} {number}")));
            all.extend(widths[..5].iter().map(|other| format!("entity.same {width} {number} {other} {}", number ^ (*other as u64 & 1))));
            for n in 0..13 {
                all.push(format!("entity.write_to_slice {width} {number} xaa*{n}"));
                all.push(format!("entity.to_tlv {width} {number} xaa*{n}"));
            }
        }
        for n in [width.min(256) + 1, width.min(256) + 2, width.min(256) + 3] {
            all.push(format!("entity.write_to_slice {width} 0 xaa*{n}"));
            all.push(format!("entity.to_tlv {width} 0 xaa*{n}"));
        }
    }
    for tlv_type in [0, 1, 3, 5, 6, 7, 255] {
        for len in [0, 1, 2, 3, 4, 5, 6, 7, 8, 9, 16, 255] {
            for read in 0..11 {
                all.push(format!("entity.from_bytes x{tlv_type:02x}{len:02x}.{:02x}*{read}", 0x81));
                all.push(format!("kind.kind_at x{tlv_type:02x}{len:02x}.{:02x}*{read} 0", 0x81));
            }
        }
    }
    all
}

fn requests() -> Vec<String> {
    let mut all = vec![];
    for len in LENGTHS {
        all.extend(ONE_NAME.iter().map(|call| format!("request.{call} 7 {len}")));
        for other in LENGTHS {
            all.extend(TWO_NAMES.iter().map(|call| format!("request.{call} 7 {len} 300 {other}")));
        }
        let seconds = LENGTHS.into_iter().map(|other| Some((1, other))).chain([None]);
        for name in seconds {
            let text = second(name);
            all.extend((0..9).map(|action| format!("request.new {action} 2 {len} {text}")));
            for action in [0, 2, 8] {
                all.extend(REQUEST_TELLS.iter().map(|call| format!("request.{call} {action} 2 {len} {text}")));
            }
            let full = 2 + 1 + len + 1 + name.map_or(0, |(_, other)| other + 1);
            if (250..264).contains(&full) || len.max(full - len) > 255 {
                let write = |action: u8, buf: String| format!("request.write_to_slice {action} 2 {len} {text} x6162.63*300 {buf}");
                all.extend(buffers(full).into_iter().flat_map(|buf| [write(3, buf.clone()), write(6, buf)]));
            }
        }
    }
    all
}

fn responses() -> Vec<String> {
    let mut all = vec![];
    for len in LENGTHS {
        for name in LENGTHS.into_iter().map(|other| Some((1, other))).chain([None]) {
            let text = second(name);
            all.extend([0, 4].map(|action| format!("response.new_no_filestore_message {action} 3 2 {len} {text}")));
            for message in LENGTHS {
                all.extend([0, 4].map(|action| format!("response.new {action} 15 2 {len} {text} 9 {message}")));
                all.push(format!("response.len_value 2 16 2 {len} {text} 9 {message}"));
                all.push(format!("response.new 5 255 2 {len} {text} 9 {message}"));
                let full = 2 + 1 + len + 1 + name.map_or(0, |(_, other)| other + 1) + message + 1;
                if (254..261).contains(&full) {
                    all.extend(RESPONSE_TELLS.iter().map(|call| format!("response.{call} 4 3 2 {len} {text} 9 {message}")));
                    let write = |action: u8, status: u8, buf: String| {
                        format!("response.write_to_slice {action} {status} 2 {len} {text} 9 {message} x6162.63*300 {buf}")
                    };
                    all.extend(buffers(full).into_iter().flat_map(|buf| [write(3, 1, buf.clone()), write(7, 17, buf)]));
                }
            }
        }
    }
    all
}

/// Spans about the end of a short source, by every call that is lent one.
fn spans() -> Vec<String> {
    let mut all = vec![];
    for n in [0, 1, 3] {
        let source = format!("x61*{n}");
        let places = (0..n + 3).chain([usize::MAX]);
        for (start, len) in places.flat_map(|start| (0..n + 2).chain([usize::MAX]).map(move |len| (start, len))) {
            for call in ["value", "write_to_slice"] {
                let buf = if call == "value" { "" } else { " xaa*4" };
                all.push(format!("lv.{call} {start} {len} {source}{buf}"));
                all.push(format!("tlv.{call} s5 {start} {len} {source}{buf}"));
            }
            all.push(format!("entity.from_tlv s6 {start} {len} {source}"));
            all.push(format!("entity.from_tlv c6 {start} {len} {source}"));
            all.push(format!("lv.same {start} {len} {source} 0 0 x"));
            all.push(format!("tlv.same s5 0 0 x s5 {start} {len} {source}"));
            all.push(format!("request.write_to_slice 0 {start} {len} - {source} xaa*9"));
            all.push(format!("request.write_to_slice 2 0 0 {start}+{len} {source} xaa*9"));
            all.push(format!("request.same 2 {start} {len} 0+0 {source} 2 0 0 0+0 x"));
            all.push(format!("response.write_to_slice 2 0 0 0 0+0 {start} {len} {source} xaa*9"));
            all.push(format!("response.same 2 0 0 0 0+0 0 0 x 2 0 0 0 0+0 {start} {len} {source}"));
        }
    }
    all
}

/// Every pair of some values that differ in each part that counts, one of each pair in a buffer of its own.
fn pairs(kind: &str, values: Vec<String>) -> Vec<String> {
    let with = |left: &String| values.iter().map(|right| format!("{kind}.same {left} x6162 {right} x6162")).collect::<Vec<_>>();
    values.iter().flat_map(with).collect()
}

fn sames() -> Vec<String> {
    let spans = ["0 0", "0 1", "1 1"];
    let seconds = ["-", "0+0", "0+1", "1+1"];
    let with = |heads: &[String], tails: &[&str]| -> Vec<String> {
        heads.iter().flat_map(|head| tails.iter().map(move |tail| format!("{head} {tail}"))).collect()
    };
    let words = |list: &[&str]| -> Vec<String> { list.iter().map(|word| word.to_string()).collect() };
    let requests = with(&with(&words(&["0", "2", "3"]), &spans), &seconds);
    let statused = with(&words(&["0", "2"]), &["0", "1", "16"]);
    let responses = with(&with(&with(&statused, &spans[1..]), &seconds[..3]), &spans);
    let all = [
        pairs("lv", words(&spans)),
        pairs("tlv", with(&words(&["s6", "c6", "s5", "c5", "c3"]), &spans)),
        pairs("request", requests),
        pairs("response", responses),
    ];
    all.concat()
}

fn walks() -> Vec<String> {
    let mut all = vec![];
    for n in [65_534, 65_535, 65_536] {
        for byte in ["00", "01", "06", "ff"] {
            all.push(format!("walk.summary_of x{byte}*{n}"));
            for place in [0, 1, n - 258, n - 257, n - 2, n - 1, n] {
                all.push(format!("walk.step_at x{byte}*{n} {place}"));
                all.push(format!("kind.kind_at x{byte}*{n} {place}"));
            }
        }
    }
    all
}

pub fn cases() -> impl Iterator<Item = String> + Send {
    let parts = [lvs, entities, requests, responses, spans, sames, walks];
    parts.into_iter().flat_map(|part| part())
}
