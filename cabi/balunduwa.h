/* Balunduwa for C: the records of a CFDP journal, read and written, and the walk over them, as a static library for x86-64.
 *
 * Every function is proved, in crates/cabi, to answer what the customer's rules say ("document 01" and "document 02"), and where they are silent
 * what docs/DECISIONS.md says, for all arguments that keep the two rules below; this header and the compiler that reads it are not part of that proof.
 *
 * An answer is a struct by value. It begins with a refusal: number 0 where there is none, else a number from 1 to 15 (README.md, 'The answers by
 * number'), with the refusal's values in that table's order and 0 for each value that it does not carry. Behind it stands what the call gives, which is 0
 * throughout where the call refuses. One answer is otherwise, balunduwa_next: its what tells a refusal. A call that refuses changes no byte of a
 * buffer.
 *
 * Bytes are lent as a pointer and a length. The caller sees to two things, and nothing tests them: no pointer is NULL, also where the length is
 * 0, and as many bytes stand there as the length says; and what is written to (buf) does not overlap what is read from (src). A span is a part of
 * the bytes that it was read from, or of the src that it is written from. */
#ifndef BALUNDUWA_H
#define BALUNDUWA_H

#include <stddef.h>
#include <stdint.h>

#ifdef __cplusplus
extern "C" {
#endif

/* The longest journal that is walked. */
#define BALUNDUWA_LIMIT 65536

/* A refusal. Refusal 1, too few bytes to read, is the one with three values: first is how many bytes were found, second how many were expected, and
 * third the place of what ran short, counted from the start of the LV or TLV that is read, for balunduwa_kind_at too:
 *   0          the LV is short, or the TLV itself, whichever call reads it;
 *   2          the value of a filestore request or response is empty (the action would stand there);
 *   3          its first name is short;
 *   4 or more  its second name or its message is short: the place where the length byte stands, or would stand.
 * So the request 00 03 20 05 61 is refusal 1 (2, 6) at 3: two bytes found, six expected, from the first name's length byte on. Of every other refusal
 * third is 0. */
typedef struct {
    size_t number;
    size_t first;
    size_t second;
    size_t third;
} balunduwa_refusal;

typedef struct {
    size_t start;
    size_t len;
} balunduwa_span;

/* What a writer answers: how many bytes it wrote. To learn how many are needed, write to 0 bytes: refusal 2 carries 0 and their number. (An entity
 * ID's writer does not tell: given fewer than 2 bytes, its refusal 2 carries 2. It needs 2 and its width.) */
typedef struct {
    balunduwa_refusal refusal;
    size_t bytes;
} balunduwa_written;

/* ---- LV (CFDP 5.1.8) */

typedef struct {
    balunduwa_refusal refusal;
    balunduwa_span value;
} balunduwa_lv_answer;

/* The LV at the front of buf: 1. */
balunduwa_lv_answer balunduwa_lv_read(const uint8_t *buf, size_t buf_len);

/* Writes an LV to the front of buf: 4, 15, 2. */
balunduwa_written balunduwa_lv_write(balunduwa_span value, const uint8_t *src, size_t src_len, uint8_t *buf, size_t buf_len);

/* ---- TLV (CFDP 5.1.9) */

typedef struct {
    balunduwa_refusal refusal;
    uint8_t tlv_type;
    balunduwa_span value;
} balunduwa_tlv_answer;

/* The TLV at the front of buf, of any type: 1. Of a value that is short, found and expected count from the length byte; the place is 0. */
balunduwa_tlv_answer balunduwa_tlv_read(const uint8_t *buf, size_t buf_len);

/* Writes a TLV to the front of buf: 4, 15, 2. */
balunduwa_written balunduwa_tlv_write(uint8_t tlv_type, balunduwa_span value, const uint8_t *src, size_t src_len, uint8_t *buf, size_t buf_len);

/* ---- Entity ID: a number of 1, 2, 4 or 8 bytes */

typedef struct {
    balunduwa_refusal refusal;
    size_t width;
    uint64_t value;
} balunduwa_entity_answer;

/* The entity ID at the front of buf: 2, 3, 5, 1. */
balunduwa_entity_answer balunduwa_entity_read(const uint8_t *buf, size_t buf_len);

/* Writes an entity ID to the front of buf: 5, 10, 2. */
balunduwa_written balunduwa_entity_write(size_t width, uint64_t value, uint8_t *buf, size_t buf_len);

/* ---- Filestore request and response. Actions: 0 create file, 1 delete file, 2 rename, 3 append, 4 replace, 5 create directory, 6 remove directory,
 * 7 deny file, 8 deny directory; 2, 3 and 4 have a second name. It is there where has_second is not 0; its span is 0 and 0 where it was read as absent. */

typedef struct {
    uint8_t action;
    uint8_t has_second;
    balunduwa_span first_name;
    balunduwa_span second_name;
} balunduwa_request;

typedef struct {
    balunduwa_refusal refusal;
    balunduwa_request request;
} balunduwa_request_answer;

typedef struct {
    uint8_t action;
    uint8_t status;
    uint8_t has_second;
    balunduwa_span first_name;
    balunduwa_span second_name;
    balunduwa_span filestore_message;
} balunduwa_response;

typedef struct {
    balunduwa_refusal refusal;
    balunduwa_response response;
} balunduwa_response_answer;

/* The request or response at the front of buf: 1, 3, 1; then of the value 1, 7, and of its names and message 1 or 6. Strict, after those: 11
 * (requests), 12, 13 (responses). */
balunduwa_request_answer balunduwa_request_read(const uint8_t *buf, size_t buf_len);
balunduwa_request_answer balunduwa_request_read_strict(const uint8_t *buf, size_t buf_len);
balunduwa_response_answer balunduwa_response_read(const uint8_t *buf, size_t buf_len);
balunduwa_response_answer balunduwa_response_read_strict(const uint8_t *buf, size_t buf_len);

/* Writes a request or response to the front of buf; its names, and its message, lie in src: 7 for an action over 8; then 4, 6 or 8, 9
 * (responses), 5, 15, 2. */
balunduwa_written balunduwa_request_write(balunduwa_request request, const uint8_t *src, size_t src_len, uint8_t *buf, size_t buf_len);
balunduwa_written balunduwa_response_write(balunduwa_response response, const uint8_t *src, size_t src_len, uint8_t *buf, size_t buf_len);

/* ---- The walk over a journal */

/* What stands at a place: a record, the whole end, or the cut end. BALUNDUWA_REFUSED stands in a balunduwa_next alone: where balunduwa_walk_step
 * refuses, what is 0, which is BALUNDUWA_RECORD, so look at refusal.number first. */
enum { BALUNDUWA_RECORD = 0, BALUNDUWA_WHOLE = 1, BALUNDUWA_CUT = 2, BALUNDUWA_REFUSED = 3 };

/* Where a record stands: its type byte, its value, and in next the place behind it. At an end: tlv_type is 0, value is the bytes from the end's
 * place to the end of the buffer (none at a whole end, the stump at a cut one), and next is the end's place. To append a record, write it at next,
 * over the stump, and end the journal behind the record: what is left of a longer stump must be cut off, or the walk takes it for the next
 * record. If the journal then has at most BALUNDUWA_LIMIT bytes, the walk lists the old records and the new one, and ends whole. */
typedef struct {
    balunduwa_refusal refusal;
    uint8_t what;
    uint8_t tlv_type;
    balunduwa_span value;
    size_t next;
} balunduwa_step;

/* What stands at a place of the journal: 14, 15. */
balunduwa_step balunduwa_walk_step(const uint8_t *buf, size_t buf_len, size_t place);

/* The same in two registers, for a loop over many records: what, tlv_type and next are as above. A record's value starts at place + 2 and ends at
 * next; a stump starts at next and ends with the buffer. Where the call refuses, what is BALUNDUWA_REFUSED, refusal is 14 (its value is buf_len) or
 * 15 (its value is place), and next and tlv_type are 0: do not go on at next. Else refusal is 0. */
typedef struct {
    size_t next;
    uint8_t tlv_type;
    uint8_t what;
    uint8_t refusal;
} balunduwa_next;

/* What stands at a place of the journal: 14, 15. */
balunduwa_next balunduwa_walk_next(const uint8_t *buf, size_t buf_len, size_t place);

/* How many records the walk lists, and where it ends: whole where 0 bytes stand behind the place, else cut. */
typedef struct {
    balunduwa_refusal refusal;
    size_t count;
    size_t place;
    size_t behind;
} balunduwa_summary;

/* The summary of the journal: 14. */
balunduwa_summary balunduwa_walk_summary(const uint8_t *buf, size_t buf_len);

enum { BALUNDUWA_REQUEST = 0, BALUNDUWA_RESPONSE = 1, BALUNDUWA_ENTITY = 2, BALUNDUWA_OTHER = 3 };

typedef struct {
    balunduwa_refusal refusal;
    uint8_t kind;
} balunduwa_kind;

/* What kind of record stands at a place of the journal, by the plain reader of its type: 14, 15, or that reader's refusal. The place that a
 * refusal 1 carries is counted from that record's start; in the journal it is place + third. Ask it where balunduwa_walk_step or
 * balunduwa_walk_next tells a record. No record stands at an end, and an end has no kind: a whole end is refusal 1 (0, 2) at 0, which is what the TLV's
 * reader says of no bytes, and a cut end is a refusal of the reader that the stump's first byte names: 1 at 0, and of an entity ID also 2 or 5. */
balunduwa_kind balunduwa_kind_at(const uint8_t *buf, size_t buf_len, size_t place);

#ifdef __cplusplus
}
#endif

#endif
