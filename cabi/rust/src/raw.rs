//! The calls of cabi/balunduwa.h over slices, with its answers as they are: the one module with unsafe code.
//! Fields and their meaning are the header's.
#![allow(unsafe_code, missing_docs)]

#[repr(C)]
#[derive(Debug, Clone, Copy, PartialEq, Eq)]
pub struct Refusal {
    pub number: usize,
    pub first: usize,
    pub second: usize,
    pub third: usize,
}

#[repr(C)]
#[derive(Debug, Clone, Copy, PartialEq, Eq)]
pub struct Span {
    pub start: usize,
    pub len: usize,
}

#[repr(C)]
#[derive(Debug, Clone, Copy, PartialEq, Eq)]
pub struct Written {
    pub refusal: Refusal,
    pub bytes: usize,
}

#[repr(C)]
#[derive(Debug, Clone, Copy, PartialEq, Eq)]
pub struct LvAnswer {
    pub refusal: Refusal,
    pub value: Span,
}

#[repr(C)]
#[derive(Debug, Clone, Copy, PartialEq, Eq)]
pub struct TlvAnswer {
    pub refusal: Refusal,
    pub tlv_type: u8,
    pub value: Span,
}

#[repr(C)]
#[derive(Debug, Clone, Copy, PartialEq, Eq)]
pub struct EntityAnswer {
    pub refusal: Refusal,
    pub width: usize,
    pub value: u64,
}

#[repr(C)]
#[derive(Debug, Clone, Copy, PartialEq, Eq)]
pub struct Request {
    pub action: u8,
    pub has_second: u8,
    pub first_name: Span,
    pub second_name: Span,
}

#[repr(C)]
#[derive(Debug, Clone, Copy, PartialEq, Eq)]
pub struct RequestAnswer {
    pub refusal: Refusal,
    pub request: Request,
}

#[repr(C)]
#[derive(Debug, Clone, Copy, PartialEq, Eq)]
pub struct Response {
    pub action: u8,
    pub status: u8,
    pub has_second: u8,
    pub first_name: Span,
    pub second_name: Span,
    pub filestore_message: Span,
}

#[repr(C)]
#[derive(Debug, Clone, Copy, PartialEq, Eq)]
pub struct ResponseAnswer {
    pub refusal: Refusal,
    pub response: Response,
}

pub const RECORD: u8 = 0;
pub const WHOLE: u8 = 1;
pub const CUT: u8 = 2;
pub const REFUSED: u8 = 3;

#[repr(C)]
#[derive(Debug, Clone, Copy, PartialEq, Eq)]
pub struct Step {
    pub refusal: Refusal,
    pub what: u8,
    pub tlv_type: u8,
    pub value: Span,
    pub next: usize,
}

#[repr(C)]
#[derive(Debug, Clone, Copy, PartialEq, Eq)]
pub struct Next {
    pub next: usize,
    pub tlv_type: u8,
    pub what: u8,
    pub refusal: u8,
}

#[repr(C)]
#[derive(Debug, Clone, Copy, PartialEq, Eq)]
pub struct Summary {
    pub refusal: Refusal,
    pub count: usize,
    pub place: usize,
    pub behind: usize,
}

pub const REQUEST: u8 = 0;
pub const RESPONSE: u8 = 1;
pub const ENTITY: u8 = 2;
pub const OTHER: u8 = 3;

#[repr(C)]
#[derive(Debug, Clone, Copy, PartialEq, Eq)]
pub struct Kind {
    pub refusal: Refusal,
    pub kind: u8,
}

unsafe extern "C" {
    fn balunduwa_lv_read(buf: *const u8, buf_len: usize) -> LvAnswer;
    fn balunduwa_lv_write(value: Span, src: *const u8, src_len: usize, buf: *mut u8, buf_len: usize) -> Written;
    fn balunduwa_tlv_read(buf: *const u8, buf_len: usize) -> TlvAnswer;
    fn balunduwa_tlv_write(tlv_type: u8, value: Span, src: *const u8, src_len: usize, buf: *mut u8, buf_len: usize) -> Written;
    fn balunduwa_entity_read(buf: *const u8, buf_len: usize) -> EntityAnswer;
    fn balunduwa_entity_write(width: usize, value: u64, buf: *mut u8, buf_len: usize) -> Written;
    fn balunduwa_request_read(buf: *const u8, buf_len: usize) -> RequestAnswer;
    fn balunduwa_request_read_strict(buf: *const u8, buf_len: usize) -> RequestAnswer;
    fn balunduwa_response_read(buf: *const u8, buf_len: usize) -> ResponseAnswer;
    fn balunduwa_response_read_strict(buf: *const u8, buf_len: usize) -> ResponseAnswer;
    fn balunduwa_request_write(request: Request, src: *const u8, src_len: usize, buf: *mut u8, buf_len: usize) -> Written;
    fn balunduwa_response_write(response: Response, src: *const u8, src_len: usize, buf: *mut u8, buf_len: usize) -> Written;
    fn balunduwa_walk_step(buf: *const u8, buf_len: usize, place: usize) -> Step;
    fn balunduwa_walk_next(buf: *const u8, buf_len: usize, place: usize) -> Next;
    fn balunduwa_walk_summary(buf: *const u8, buf_len: usize) -> Summary;
    fn balunduwa_kind_at(buf: *const u8, buf_len: usize, place: usize) -> Kind;
}

#[inline]
pub fn lv_read(buf: &[u8]) -> LvAnswer {
    // SAFETY: the pointer and the length are a slice's, which is lent for the call; nothing is kept.
    unsafe { balunduwa_lv_read(buf.as_ptr(), buf.len()) }
}

#[inline]
pub fn lv_write(value: Span, src: &[u8], buf: &mut [u8]) -> Written {
    // SAFETY: two slices, lent for the call; one is lent for writing, so they do not overlap. The span is any two numbers: it is tested.
    unsafe { balunduwa_lv_write(value, src.as_ptr(), src.len(), buf.as_mut_ptr(), buf.len()) }
}

#[inline]
pub fn tlv_read(buf: &[u8]) -> TlvAnswer {
    // SAFETY: as in lv_read.
    unsafe { balunduwa_tlv_read(buf.as_ptr(), buf.len()) }
}

#[inline]
pub fn tlv_write(tlv_type: u8, value: Span, src: &[u8], buf: &mut [u8]) -> Written {
    // SAFETY: as in lv_write.
    unsafe { balunduwa_tlv_write(tlv_type, value, src.as_ptr(), src.len(), buf.as_mut_ptr(), buf.len()) }
}

#[inline]
pub fn entity_read(buf: &[u8]) -> EntityAnswer {
    // SAFETY: as in lv_read.
    unsafe { balunduwa_entity_read(buf.as_ptr(), buf.len()) }
}

#[inline]
pub fn entity_write(width: usize, value: u64, buf: &mut [u8]) -> Written {
    // SAFETY: one slice, lent for writing for the call. Any two numbers are tested.
    unsafe { balunduwa_entity_write(width, value, buf.as_mut_ptr(), buf.len()) }
}

#[inline]
pub fn request_read(buf: &[u8]) -> RequestAnswer {
    // SAFETY: as in lv_read.
    unsafe { balunduwa_request_read(buf.as_ptr(), buf.len()) }
}

#[inline]
pub fn request_read_strict(buf: &[u8]) -> RequestAnswer {
    // SAFETY: as in lv_read.
    unsafe { balunduwa_request_read_strict(buf.as_ptr(), buf.len()) }
}

#[inline]
pub fn response_read(buf: &[u8]) -> ResponseAnswer {
    // SAFETY: as in lv_read.
    unsafe { balunduwa_response_read(buf.as_ptr(), buf.len()) }
}

#[inline]
pub fn response_read_strict(buf: &[u8]) -> ResponseAnswer {
    // SAFETY: as in lv_read.
    unsafe { balunduwa_response_read_strict(buf.as_ptr(), buf.len()) }
}

#[inline]
pub fn request_write(request: Request, src: &[u8], buf: &mut [u8]) -> Written {
    // SAFETY: as in lv_write.
    unsafe { balunduwa_request_write(request, src.as_ptr(), src.len(), buf.as_mut_ptr(), buf.len()) }
}

#[inline]
pub fn response_write(response: Response, src: &[u8], buf: &mut [u8]) -> Written {
    // SAFETY: as in lv_write.
    unsafe { balunduwa_response_write(response, src.as_ptr(), src.len(), buf.as_mut_ptr(), buf.len()) }
}

#[inline]
pub fn walk_step(buf: &[u8], place: usize) -> Step {
    // SAFETY: as in lv_read. The place is any number: it is tested.
    unsafe { balunduwa_walk_step(buf.as_ptr(), buf.len(), place) }
}

#[inline]
pub fn walk_next(buf: &[u8], place: usize) -> Next {
    // SAFETY: as in walk_step.
    unsafe { balunduwa_walk_next(buf.as_ptr(), buf.len(), place) }
}

#[inline]
pub fn walk_summary(buf: &[u8]) -> Summary {
    // SAFETY: as in lv_read.
    unsafe { balunduwa_walk_summary(buf.as_ptr(), buf.len()) }
}

#[inline]
pub fn kind_at(buf: &[u8], place: usize) -> Kind {
    // SAFETY: as in walk_step.
    unsafe { balunduwa_kind_at(buf.as_ptr(), buf.len(), place) }
}
