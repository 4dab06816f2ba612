//! Calls every function of the wrapper, and so every one of the library; answers and bytes are compared with what the customer's rules say.
use balunduwa::*;

/// Any refusal but 1: it has no third value.
fn refuses<T>(number: usize, first: usize, second: usize) -> Result<T, Refusal> {
    Err(Refusal { number, first, second, third: 0 })
}

/// Refusal 1.
fn short<T>(found: usize, expected: usize, place: usize) -> Result<T, Refusal> {
    Err(Refusal { number: 1, first: found, second: expected, third: place })
}

fn span(start: usize, len: usize) -> Span {
    Span { start, len }
}

const FILL: u8 = 0xEE;

/// Has a writer write to `room` bytes: it answers as expected, and the bytes are the expected ones and then as they were.
#[track_caller]
fn writes(room: usize, bytes: &[u8], write: impl FnOnce(&mut [u8]) -> Result<usize, Refusal>) {
    let (answer, after) = run(room, write);
    assert_eq!(answer, Ok(bytes.len()));
    assert_eq!(&after[..bytes.len()], bytes);
    assert!(after[bytes.len()..].iter().all(|b| *b == FILL));
}

/// The same of a writer that refuses: no byte changes.
#[track_caller]
fn writes_nothing(room: usize, refusal: (usize, usize, usize), write: impl FnOnce(&mut [u8]) -> Result<usize, Refusal>) {
    let (answer, after) = run(room, write);
    assert_eq!(answer, refuses(refusal.0, refusal.1, refusal.2));
    assert!(after.iter().all(|b| *b == FILL));
}

fn run(room: usize, write: impl FnOnce(&mut [u8]) -> Result<usize, Refusal>) -> (Result<usize, Refusal>, Vec<u8>) {
    let mut buf = vec![FILL; room];
    let answer = write(&mut buf);
    (answer, buf)
}

#[test]
fn lv() {
    assert_eq!(read_lv(&[0x02, b'a', b'b', 0xFF]), Ok(span(1, 2)));
    assert_eq!(read_lv(&[]), short(0, 1, 0));
    assert_eq!(read_lv(&[0x03, b'a', b'b']), short(3, 4, 0));

    writes(4, &[0x02, b'a', b'b'], |buf| write_lv(span(1, 2), b"xab", buf));
    writes_nothing(4, (4, 256, 0), |buf| write_lv(span(9, 256), b"xab", buf));
    writes_nothing(4, (15, 2, 0), |buf| write_lv(span(2, 2), b"xab", buf));
    writes_nothing(2, (2, 2, 3), |buf| write_lv(span(1, 2), b"xab", buf));
    writes_nothing(0, (2, 0, 3), |buf| write_lv(span(1, 2), b"xab", buf));
}

#[test]
fn spans() {
    assert_eq!(span(1, 2).of(b"xab"), Some(&b"ab"[..]));
    assert_eq!(span(3, 0).of(b"xab"), Some(&b""[..]));
    assert_eq!(span(2, 2).of(b"xab"), None);
    assert_eq!(span(usize::MAX, 2).of(b"xab"), None);
}

#[test]
fn tlv() {
    assert_eq!(read_tlv(&[0x05, 0x01, 0xAA, 0x06]), Ok(Tlv { tlv_type: 5, value: span(2, 1) }));
    assert_eq!(read_tlv(&[]), short(0, 2, 0));
    assert_eq!(read_tlv(&[0x05]), short(1, 2, 0));
    assert_eq!(read_tlv(&[0x05, 0x02, 0xAA]), short(2, 3, 0));

    let tlv = |start, len| Tlv { tlv_type: 5, value: span(start, len) };
    writes(5, &[0x05, 0x02, b'a', b'b'], |buf| write_tlv(tlv(1, 2), b"xab", buf));
    writes(2, &[0xFF, 0x00], |buf| write_tlv(Tlv { tlv_type: 255, value: span(0, 0) }, b"", buf));
    writes_nothing(5, (4, 256, 0), |buf| write_tlv(tlv(9, 256), b"xab", buf));
    writes_nothing(5, (15, 2, 0), |buf| write_tlv(tlv(2, 2), b"xab", buf));
    writes_nothing(3, (2, 3, 4), |buf| write_tlv(tlv(1, 2), b"xab", buf));
}

#[test]
fn entity() {
    let read = [0x06, 0x08, 0xFE, 0xDC, 0xBA, 0x98, 0x76, 0x54, 0x32, 0x10];
    let of_read = Entity { width: 8, value: 0xFEDC_BA98_7654_3210 };
    assert_eq!(read_entity(&read), Ok(of_read));
    assert_eq!(read_entity(&[0x06, 0x02, 0x01, 0x02, 0xFF]), Ok(Entity { width: 2, value: 258 }));
    assert_eq!(read_entity(&[0x06]), refuses(2, 1, 2));
    assert_eq!(read_entity(&[0x05, 0x03]), refuses(3, 5, 6));
    assert_eq!(read_entity(&[0x06, 0x03, 0x01, 0x02, 0x03]), refuses(5, 3, 0));
    assert_eq!(read_entity(&[0x06, 0x02, 0x01]), short(3, 4, 0));

    writes(12, &read, |buf| write_entity(of_read, buf));
    writes_nothing(12, (5, 3, 0), |buf| write_entity(Entity { width: 3, value: 0 }, buf));
    writes_nothing(12, (10, 1, 0), |buf| write_entity(Entity { width: 1, value: 256 }, buf));
    writes_nothing(1, (2, 1, 2), |buf| write_entity(of_read, buf));
    writes_nothing(9, (2, 9, 10), |buf| write_entity(of_read, buf));
}

#[test]
fn request() {
    for read in [read_request, read_request_strict] {
        assert_eq!(read(&[0x00, 0x03, 0x00, 0x01, b'a']), Ok(Request { action: 0, first_name: span(4, 1), second_name: None }));
        assert_eq!(read(&[0x00, 0x04, 0x20, 0x01, b'a', 0x00]), Ok(Request { action: 2, first_name: span(4, 1), second_name: Some(span(6, 0)) }));
        assert_eq!(read(&[0x00]), short(1, 2, 0));
        assert_eq!(read(&[0x01, 0x00]), refuses(3, 1, 0));
        assert_eq!(read(&[0x00, 0x05, 0x20]), short(3, 7, 0));
        assert_eq!(read(&[0x00, 0x00]), short(0, 1, 2));
        assert_eq!(read(&[0x00, 0x03, 0x90, 0x01, b'a']), refuses(7, 9, 0));
        assert_eq!(read(&[0x00, 0x01, 0x00]), short(0, 1, 3));
        assert_eq!(read(&[0x00, 0x03, 0x20, 0x05, b'a']), short(2, 6, 3));
        assert_eq!(read(&[0x00, 0x03, 0x20, 0x01, b'a']), refuses(6, 0, 0));
        assert_eq!(read(&[0x00, 0x04, 0x20, 0x01, b'a', 0x03]), short(1, 4, 5));
    }
    let slack = [0x00, 0x04, 0x05, 0x01, b'a', 0xFF];
    assert_eq!(read_request(&slack), Ok(Request { action: 0, first_name: span(4, 1), second_name: None }));
    assert_eq!(read_request_strict(&slack), refuses(11, 5, 0));
    assert_eq!(read_request_strict(&[0x00, 0x04, 0x00, 0x01, b'a', 0xFF]), refuses(12, 1, 0));

    let src = [b'n'; 300];
    let create = |len| Request { action: 0, first_name: span(0, len), second_name: None };
    let rename = |second_name| Request { action: 2, first_name: span(0, 1), second_name };
    writes(9, &[0x00, 0x03, 0x00, 0x01, b'n'], |buf| write_request(create(1), &src, buf));
    writes(9, &[0x00, 0x04, 0x20, 0x01, b'n', 0x00], |buf| write_request(rename(Some(span(300, 0))), &src, buf));
    writes_nothing(9, (7, 9, 0), |buf| write_request(Request { action: 9, ..create(1) }, &src, buf));
    writes_nothing(9, (4, 256, 0), |buf| write_request(create(256), &src, buf));
    writes_nothing(9, (6, 0, 0), |buf| write_request(rename(None), &src, buf));
    writes_nothing(9, (8, 0, 0), |buf| write_request(Request { action: 0, ..rename(Some(span(0, 0))) }, &src, buf));
    writes_nothing(9, (5, 256, 0), |buf| write_request(create(254), &src, buf));
    writes_nothing(9, (15, 299, 0), |buf| write_request(rename(Some(span(299, 2))), &src, buf));
    writes_nothing(4, (2, 4, 5), |buf| write_request(create(1), &src, buf));
}

#[test]
fn response() {
    let given = Response { action: 3, status: 15, first_name: span(4, 1), second_name: Some(span(6, 1)), filestore_message: span(8, 2) };
    let bytes = [0x01, 0x08, 0x3F, 0x01, b'a', 0x01, b'b', 0x02, b'm', b'n'];
    for read in [read_response, read_response_strict] {
        assert_eq!(read(&bytes), Ok(given));
        assert_eq!(
            read(&[0x01, 0x04, 0x01, 0x01, b'a', 0x00]),
            Ok(Response { action: 0, status: 1, first_name: span(4, 1), second_name: None, filestore_message: span(6, 0) })
        );
        assert_eq!(read(&[0x01]), short(1, 2, 0));
        assert_eq!(read(&[0x00, 0x00]), refuses(3, 0, 1));
        assert_eq!(read(&[0x01, 0x05, 0x20]), short(3, 7, 0));
        assert_eq!(read(&[0x01, 0x00]), short(0, 1, 2));
        assert_eq!(read(&[0x01, 0x04, 0xF1, 0x01, b'a', 0x00]), refuses(7, 15, 0));
        assert_eq!(read(&[0x01, 0x03, 0x01, 0x05, b'a']), short(2, 6, 3));
        assert_eq!(read(&[0x01, 0x03, 0x20, 0x01, b'a']), refuses(6, 0, 0));
        assert_eq!(read(&[0x01, 0x04, 0x20, 0x01, b'a', 0x03]), short(1, 4, 5));
        assert_eq!(read(&[0x01, 0x03, 0x01, 0x01, b'a']), short(0, 1, 5));
        assert_eq!(read(&[0x01, 0x08, 0x20, 0x02, b'a', b'b', 0x01, b'c', 0x05, b'm']), short(2, 6, 8));
    }
    let slack = [0x01, 0x05, 0x04, 0x01, b'a', 0x00, 0xFF];
    let of_slack = Response { action: 0, status: 4, first_name: span(4, 1), second_name: None, filestore_message: span(6, 0) };
    assert_eq!(read_response(&slack), Ok(of_slack));
    assert_eq!(read_response_strict(&slack), refuses(12, 1, 0));
    assert_eq!(read_response_strict(&[0x01, 0x04, 0x04, 0x01, b'a', 0x00]), refuses(13, 4, 0));

    // The bytes that a value was read from are what it is written from.
    writes(12, &bytes, |buf| write_response(given, &bytes, buf));
    writes(12, &[0x01, 0x04, 0x04, 0x01, b'a', 0x00], |buf| write_response(of_slack, &slack, buf));
    writes_nothing(12, (7, 9, 0), |buf| write_response(Response { action: 9, ..given }, &bytes, buf));
    writes_nothing(12, (4, 256, 0), |buf| write_response(Response { filestore_message: span(0, 256), ..given }, &bytes, buf));
    writes_nothing(12, (6, 0, 0), |buf| write_response(Response { second_name: None, ..given }, &bytes, buf));
    writes_nothing(12, (8, 0, 0), |buf| write_response(Response { action: 8, ..given }, &bytes, buf));
    writes_nothing(12, (9, 16, 0), |buf| write_response(Response { status: 16, ..given }, &bytes, buf));
    writes_nothing(12, (5, 261, 0), |buf| write_response(Response { filestore_message: span(0, 255), ..given }, &bytes, buf));
    writes_nothing(12, (15, 9, 0), |buf| write_response(Response { filestore_message: span(9, 2), ..given }, &bytes, buf));
    writes_nothing(9, (2, 9, 10), |buf| write_response(given, &bytes, buf));
}

#[test]
fn walk() {
    let journal = [0x05, 0x01, 0xAA, 0x06, 0x01, 0x07];
    let first = Record { place: 0, tlv_type: 5, value: &[0xAA] };
    let second = Record { place: 3, tlv_type: 6, value: &[0x07] };
    let whole = End { place: 6, behind: 0 };
    let cut = End { place: 3, behind: 2 };
    let too_long = vec![0; LIMIT + 1];

    assert_eq!(step(&journal, 0), Ok(Step::Record(first, 3)));
    assert_eq!(step(&journal, 3), Ok(Step::Record(second, 6)));
    assert_eq!(step(&journal, 6), Ok(Step::End(whole)));
    assert_eq!(step(&journal[..5], 3), Ok(Step::End(cut)));
    assert_eq!(step(&journal, 7), refuses(15, 7, 0));
    assert_eq!(step(&too_long, 0), refuses(14, LIMIT + 1, 0));

    let mut all = records(&journal);
    assert_eq!(all.by_ref().collect::<Vec<_>>(), [first, second]);
    assert_eq!(all.next(), None);
    assert_eq!(all.end(), Ok(whole));
    assert_eq!(records(&journal[..5]).collect::<Vec<_>>(), [first]);
    assert_eq!(records(&journal[..5]).end(), Ok(cut));
    assert_eq!(records(&too_long).next(), None);
    assert_eq!(records(&too_long).end(), refuses(14, LIMIT + 1, 0));

    assert_eq!(summary(&journal), Ok(Summary { count: 2, end: whole }));
    assert_eq!(summary(&journal[..5]), Ok(Summary { count: 1, end: cut }));
    assert_eq!(summary(&too_long), refuses(14, LIMIT + 1, 0));

    assert_eq!(kind_at(&[0x00, 0x02, 0x00, 0x00], 0), Ok(Kind::Request));
    assert_eq!(kind_at(&[0xFF, 0x01, 0x03, 0x00, 0x00, 0x00], 1), Ok(Kind::Response));
    assert_eq!(kind_at(&journal, 3), Ok(Kind::Entity));
    assert_eq!(kind_at(&journal, 0), Ok(Kind::Other));
    assert_eq!(kind_at(&[0x00, 0x03, 0x20, 0x01, b'a', 0x01], 0), refuses(6, 0, 0));
    assert_eq!(kind_at(&journal, 6), short(0, 2, 0));
    assert_eq!(kind_at(&journal, 7), refuses(15, 7, 0));
    assert_eq!(kind_at(&too_long, 0), refuses(14, LIMIT + 1, 0));

    // Not the first record: the place counts from its start.
    let behind = |record: &[u8]| kind_at(&[&[0x05, 0x02, 0xAA, 0xBB], record].concat(), 4);
    assert_eq!(behind(&[0x00, 0x00]), short(0, 1, 2));
    assert_eq!(behind(&[0x00, 0x03, 0x20, 0x05, b'a']), short(2, 6, 3));
    assert_eq!(behind(&[0x01, 0x03, 0x01, 0x01, b'a', 0x06, 0x01, 0x07]), short(0, 1, 5));
    assert_eq!(behind(&[0x00, 0x03, 0x20, 0x01]), short(4, 5, 0));
    assert_eq!(behind(&[0x06, 0x02, 0x01]), short(3, 4, 0));
    assert_eq!(behind(&[0x05, 0x02, 0xAA]), short(2, 3, 0));
}

/// The step as `walk_step` of the library tells it, whose answer has every field.
fn whole_step(journal: &[u8], place: usize) -> Result<Step<'_>, Refusal> {
    let raw::Step { refusal, what, tlv_type, value, next } = raw::walk_step(journal, place);
    match (refusal.number, what) {
        (0, raw::RECORD) => Ok(Step::Record(Record { place, tlv_type, value: Span::from(value).of(journal).unwrap() }, next)),
        (0, _) => Ok(Step::End(End { place: next, behind: value.len })),
        _ => {
            let raw::Refusal { number, first, second, third } = refusal;
            Err(Refusal { number, first, second, third })
        }
    }
}

#[test]
fn a_step_is_told_alike_by_both_calls() {
    let mut journal = [0; 40];
    for seed in 0..200u32 {
        let mut random = seed;
        for byte in &mut journal {
            random = random.wrapping_mul(1664525).wrapping_add(1013904223);
            *byte = (random >> 24) as u8 % 9;
        }
        for len in 0..=journal.len() {
            for place in (0..=len + 2).chain([usize::MAX - 1, usize::MAX]) {
                assert_eq!(step(&journal[..len], place), whole_step(&journal[..len], place));
            }
        }
    }
    let zeros = vec![0; LIMIT + 1];
    for len in [LIMIT, LIMIT + 1] {
        for place in [0, LIMIT - 2, LIMIT - 1, LIMIT, LIMIT + 1, LIMIT + 2] {
            assert_eq!(step(&zeros[..len], place), whole_step(&zeros[..len], place));
        }
    }
}

#[test]
fn a_refusal_is_an_error() {
    let refusal = read_lv(&[]).unwrap_err();
    let error: Box<dyn std::error::Error> = refusal.into();
    assert_eq!(error.to_string(), "refusal 1 (0, 1) at 0");
    assert_eq!(read_request(&[0x00, 0x03, 0x20, 0x05, b'a']).unwrap_err().to_string(), "refusal 1 (2, 6) at 3");
    assert_eq!(read_entity(&[0x06]).unwrap_err().to_string(), "refusal 2 (1, 2)");
    assert_eq!(step(&[], 7).unwrap_err().to_string(), "refusal 15 (7, 0)");
}

/// Makes a call where the stack below is full of [`FILL`]: the library's answer is laid over it, and a field that is not written is not 0 by chance.
fn over_junk<T>(call: impl FnOnce() -> Result<T, Refusal>) -> Result<T, Refusal> {
    #[inline(never)]
    fn junk() {
        std::hint::black_box(&mut [FILL; 16384]);
    }
    junk();
    call()
}

#[test]
fn what_a_refusal_does_not_carry_is_0() {
    let (src, too_long, mut room) = ([b'n'; 300], vec![0; LIMIT + 1], [FILL; 4]);
    let rename = Request { action: 2, first_name: span(0, 1), second_name: None };
    let create = Response { action: 0, status: 16, first_name: span(0, 1), second_name: None, filestore_message: span(0, 0) };
    assert_eq!(over_junk(|| read_lv(&[])), short(0, 1, 0));
    assert_eq!(over_junk(|| read_tlv(&[0x05, 0x02, 0xAA])), short(2, 3, 0));
    assert_eq!(over_junk(|| read_entity(&[0x06])), refuses(2, 1, 2));
    assert_eq!(over_junk(|| read_entity(&[0x05, 0x03])), refuses(3, 5, 6));
    assert_eq!(over_junk(|| read_entity(&[0x06, 0x00])), refuses(5, 0, 0));
    assert_eq!(over_junk(|| read_request(&[0x01, 0x00])), refuses(3, 1, 0));
    assert_eq!(over_junk(|| read_request(&[0x00, 0x03, 0x20, 0x01, b'a'])), refuses(6, 0, 0));
    assert_eq!(over_junk(|| read_request(&[0x00, 0x03, 0x90, 0x05, b'a'])), refuses(7, 9, 0));
    assert_eq!(over_junk(|| read_request_strict(&[0x00, 0x03, 0x05, 0x01, b'a'])), refuses(11, 5, 0));
    assert_eq!(over_junk(|| read_response(&[0x00, 0x00])), refuses(3, 0, 1));
    assert_eq!(over_junk(|| read_response(&[0x01, 0x03, 0x20, 0x01, b'a'])), refuses(6, 0, 0));
    assert_eq!(over_junk(|| read_response(&[0x01, 0x01, 0x90])), refuses(7, 9, 0));
    assert_eq!(over_junk(|| read_response_strict(&[0x01, 0x05, 0x01, 0x01, b'a', 0x00, 0xFF])), refuses(12, 1, 0));
    assert_eq!(over_junk(|| read_response_strict(&[0x01, 0x04, 0x04, 0x01, b'a', 0x00])), refuses(13, 4, 0));
    assert_eq!(over_junk(|| write_lv(span(0, 256), &src, &mut room)), refuses(4, 256, 0));
    assert_eq!(over_junk(|| write_tlv(Tlv { tlv_type: 5, value: span(0, 3) }, &src, &mut room)), refuses(2, 4, 5));
    assert_eq!(over_junk(|| write_entity(Entity { width: 1, value: 256 }, &mut room)), refuses(10, 1, 0));
    assert_eq!(over_junk(|| write_request(rename, &src, &mut room)), refuses(6, 0, 0));
    assert_eq!(over_junk(|| write_request(Request { action: 0, second_name: Some(span(0, 0)), ..rename }, &src, &mut room)), refuses(8, 0, 0));
    assert_eq!(over_junk(|| write_response(create, &src, &mut room)), refuses(9, 16, 0));
    assert_eq!(over_junk(|| summary(&too_long)), refuses(14, LIMIT + 1, 0));
    assert_eq!(over_junk(|| kind_at(&[0x06, 0x00], 0)), refuses(5, 0, 0));
    assert_eq!(over_junk(|| kind_at(&[0x06, 0x00], 3)), refuses(15, 3, 0));
    assert_eq!(over_junk(|| whole_step(&[], 1)), refuses(15, 1, 0));
}
