/* Calls every function of balunduwa.h and compares every field of every answer, and after a writer the whole buffer, with what the customer's rules
 * say. A line for each difference, status 1 where there is one; the last line has the number of calls. */
#include "balunduwa.h"
#include <stdio.h>
#include <string.h>

static unsigned calls, wrong;

static void same(int line, const char *what, uint64_t found, uint64_t expected) {
    if (found == expected) return;
    printf("line %d: %s is %llu, not %llu\n", line, what, (unsigned long long)found, (unsigned long long)expected);
    wrong++;
}

static void same_refusal(int line, balunduwa_refusal found, balunduwa_refusal expected) {
    same(line, "the refusal", found.number, expected.number);
    same(line, "its first value", found.first, expected.first);
    same(line, "its second value", found.second, expected.second);
    same(line, "its third value", found.third, expected.third);
}

static void same_span(int line, const char *start, const char *len, balunduwa_span found, balunduwa_span expected) {
    same(line, start, found.start, expected.start);
    same(line, len, found.len, expected.len);
}

/* Bytes with their number; a refusal, with 0 for what it does not carry; a span. */
#define BYTES(...) (const uint8_t[]){__VA_ARGS__}, sizeof((const uint8_t[]){__VA_ARGS__})
#define EMPTY (const uint8_t[]){0}, 0
#define REFUSAL(...) (balunduwa_refusal){__VA_ARGS__}
#define FINE REFUSAL(0)
#define SPAN(start, len) (balunduwa_span){start, len}
#define NOWHERE SPAN(0, 0)

enum { ROOM = 300, FILL = 0xEE };

/* Fills the stack below its caller with FILL. The function that is called next has its variables there, so the answer that it asks for is laid over
 * junk, and a field that the library does not write is not 0 by chance. */
static void junk(void) {
    volatile uint8_t below[16384];
    for (size_t i = 0; i < sizeof below; i++) below[i] = FILL;
}

/* What a writer writes to: bytes of FILL, and the writer is told of the first ones only. */
static uint8_t room[ROOM];

static uint8_t *fresh(void) {
    memset(room, FILL, sizeof room);
    return room;
}

/* The answer of a writer, and that the room now has the expected bytes at its front and is as it was behind them. */
static void wrote(int line, balunduwa_written a, balunduwa_refusal refusal, const uint8_t *bytes, size_t n) {
    calls++;
    same_refusal(line, a.refusal, refusal);
    same(line, "the count of bytes", a.bytes, n);
    for (size_t i = 0; i < ROOM; i++)
        if (room[i] != (i < n ? bytes[i] : FILL)) {
            printf("line %d: byte %zu of the buffer is %02X\n", line, i, room[i]);
            wrong++;
            return;
        }
}
#define WROTE(call, ...) wrote(__LINE__, call, FINE, __VA_ARGS__)
#define WRITES_NOTHING(call, ...) wrote(__LINE__, call, REFUSAL(__VA_ARGS__), EMPTY)

/* ---- LV */

static void lv(int line, const uint8_t *buf, size_t n, balunduwa_refusal refusal, balunduwa_span value) {
    balunduwa_lv_answer a = balunduwa_lv_read(buf, n);
    calls++;
    same_refusal(line, a.refusal, refusal);
    same_span(line, "the value's start", "the value's length", a.value, value);
}
#define LV(...) (junk(), lv(__LINE__, __VA_ARGS__))

static void test_lv(void) {
    LV(BYTES(0x00), FINE, SPAN(1, 0));
    LV(BYTES(0x02, 'a', 'b', 0xFF), FINE, SPAN(1, 2));
    LV(EMPTY, REFUSAL(1, 0, 1, 0), NOWHERE);
    LV(BYTES(0x03, 'a', 'b'), REFUSAL(1, 3, 4, 0), NOWHERE);

    const uint8_t src[3] = {'x', 'a', 'b'};
    uint8_t full[256];
    memset(full, 'n', sizeof full);
    WROTE(balunduwa_lv_write(SPAN(1, 2), src, 3, fresh(), 3), BYTES(0x02, 'a', 'b'));
    WROTE(balunduwa_lv_write(SPAN(3, 0), src, 3, fresh(), ROOM), BYTES(0x00));
    WRITES_NOTHING(balunduwa_lv_write(SPAN(9, 256), src, 3, fresh(), 0), 4, 256);
    WRITES_NOTHING(balunduwa_lv_write(SPAN(2, 2), src, 3, fresh(), 0), 15, 2);
    WRITES_NOTHING(balunduwa_lv_write(SPAN(4, 0), src, 3, fresh(), ROOM), 15, 4);
    WRITES_NOTHING(balunduwa_lv_write(SPAN(SIZE_MAX, 2), src, 3, fresh(), ROOM), 15, SIZE_MAX);
    WRITES_NOTHING(balunduwa_lv_write(SPAN(1, 2), src, 3, fresh(), 2), 2, 2, 3);
    WRITES_NOTHING(balunduwa_lv_write(SPAN(1, 2), src, 3, fresh(), 0), 2, 0, 3);
    balunduwa_written a = balunduwa_lv_write(SPAN(1, 255), full, 256, fresh(), 256);
    full[0] = 255;
    WROTE(a, full, 256);
}

/* ---- TLV */

static void tlv(int line, const uint8_t *buf, size_t n, balunduwa_refusal refusal, uint8_t tlv_type, balunduwa_span value) {
    balunduwa_tlv_answer a = balunduwa_tlv_read(buf, n);
    calls++;
    same_refusal(line, a.refusal, refusal);
    same(line, "the type", a.tlv_type, tlv_type);
    same_span(line, "the value's start", "the value's length", a.value, value);
}
#define TLV(...) (junk(), tlv(__LINE__, __VA_ARGS__))

static void test_tlv(void) {
    TLV(BYTES(0x03, 0x00), FINE, 3, SPAN(2, 0));
    TLV(BYTES(0x05, 0x01, 0xAA, 0x06), FINE, 5, SPAN(2, 1));
    TLV(BYTES(0xFF, 0x02, 0xAA, 0xBB), FINE, 255, SPAN(2, 2));
    TLV(EMPTY, REFUSAL(1, 0, 2, 0), 0, NOWHERE);
    TLV(BYTES(0x05), REFUSAL(1, 1, 2, 0), 0, NOWHERE);
    TLV(BYTES(0x05, 0x01), REFUSAL(1, 1, 2, 0), 0, NOWHERE);
    TLV(BYTES(0x05, 0x02, 0xAA), REFUSAL(1, 2, 3, 0), 0, NOWHERE);
    TLV(BYTES(0x00, 0x03, 0x20, 0x05), REFUSAL(1, 3, 4, 0), 0, NOWHERE);

    const uint8_t src[3] = {'x', 'a', 'b'};
    uint8_t full[257];
    memset(full, 'n', sizeof full);
    WROTE(balunduwa_tlv_write(5, SPAN(1, 2), src, 3, fresh(), 4), BYTES(0x05, 0x02, 'a', 'b'));
    WROTE(balunduwa_tlv_write(255, SPAN(0, 0), src, 3, fresh(), ROOM), BYTES(0xFF, 0x00));
    WRITES_NOTHING(balunduwa_tlv_write(5, SPAN(9, 256), src, 3, fresh(), 0), 4, 256);
    WRITES_NOTHING(balunduwa_tlv_write(5, SPAN(2, 2), src, 3, fresh(), 0), 15, 2);
    WRITES_NOTHING(balunduwa_tlv_write(5, SPAN(1, 2), src, 3, fresh(), 3), 2, 3, 4);
    balunduwa_written a = balunduwa_tlv_write(2, SPAN(2, 255), full, 257, fresh(), 257);
    full[0] = 2;
    full[1] = 255;
    WROTE(a, full, 257);
}

/* ---- Entity ID */

static void entity(int line, const uint8_t *buf, size_t n, balunduwa_refusal refusal, size_t width, uint64_t value) {
    balunduwa_entity_answer a = balunduwa_entity_read(buf, n);
    calls++;
    same_refusal(line, a.refusal, refusal);
    same(line, "the width", a.width, width);
    same(line, "the number", a.value, value);
}
#define ENTITY(...) (junk(), entity(__LINE__, __VA_ARGS__))

static void test_entity(void) {
    ENTITY(BYTES(0x06, 0x01, 0x07), FINE, 1, 7);
    ENTITY(BYTES(0x06, 0x02, 0x01, 0x02, 0xFF), FINE, 2, 258);
    ENTITY(BYTES(0x06, 0x04, 0x01, 0x02, 0x03, 0x04), FINE, 4, 0x01020304);
    ENTITY(BYTES(0x06, 0x08, 0xFE, 0xDC, 0xBA, 0x98, 0x76, 0x54, 0x32, 0x10), FINE, 8, 0xFEDCBA9876543210);
    ENTITY(EMPTY, REFUSAL(2, 0, 2), 0, 0);
    ENTITY(BYTES(0x06), REFUSAL(2, 1, 2), 0, 0);
    ENTITY(BYTES(0x05, 0x03), REFUSAL(3, 5, 6), 0, 0);
    ENTITY(BYTES(0x06, 0x00), REFUSAL(5, 0), 0, 0);
    ENTITY(BYTES(0x06, 0x03, 0x01, 0x02, 0x03), REFUSAL(5, 3), 0, 0);
    ENTITY(BYTES(0x06, 0x01), REFUSAL(1, 2, 3, 0), 0, 0);
    ENTITY(BYTES(0x06, 0x02, 0x01), REFUSAL(1, 3, 4, 0), 0, 0);

    WROTE(balunduwa_entity_write(1, 255, fresh(), 3), BYTES(0x06, 0x01, 0xFF));
    WROTE(balunduwa_entity_write(2, 258, fresh(), 4), BYTES(0x06, 0x02, 0x01, 0x02));
    WROTE(balunduwa_entity_write(4, 7, fresh(), ROOM), BYTES(0x06, 0x04, 0x00, 0x00, 0x00, 0x07));
    WROTE(balunduwa_entity_write(8, 0xFEDCBA9876543210, fresh(), 10), BYTES(0x06, 0x08, 0xFE, 0xDC, 0xBA, 0x98, 0x76, 0x54, 0x32, 0x10));
    WRITES_NOTHING(balunduwa_entity_write(0, 0, fresh(), ROOM), 5, 0);
    WRITES_NOTHING(balunduwa_entity_write(3, 256, fresh(), ROOM), 5, 3);
    WRITES_NOTHING(balunduwa_entity_write(9, 256, fresh(), ROOM), 5, 9);
    WRITES_NOTHING(balunduwa_entity_write(1, 256, fresh(), 0), 10, 1);
    WRITES_NOTHING(balunduwa_entity_write(2, 65536, fresh(), ROOM), 10, 2);
    WRITES_NOTHING(balunduwa_entity_write(4, 0x100000000, fresh(), ROOM), 10, 4);
    WRITES_NOTHING(balunduwa_entity_write(8, 0, fresh(), 1), 2, 1, 2);
    WRITES_NOTHING(balunduwa_entity_write(8, 0, fresh(), 9), 2, 9, 10);
}

/* ---- Filestore request */

static const balunduwa_request no_request = {0};

static void request(int line, balunduwa_request_answer a, balunduwa_refusal refusal, balunduwa_request expected) {
    calls++;
    same_refusal(line, a.refusal, refusal);
    same(line, "the action", a.request.action, expected.action);
    same(line, "has_second", a.request.has_second, expected.has_second);
    same_span(line, "the first name's start", "the first name's length", a.request.first_name, expected.first_name);
    same_span(line, "the second name's start", "the second name's length", a.request.second_name, expected.second_name);
}
#define REQUEST(...) (balunduwa_request){__VA_ARGS__}
#define GIVES_REQUEST(call, ...) request(__LINE__, call, FINE, REQUEST(__VA_ARGS__))
#define NO_REQUEST(call, ...) request(__LINE__, call, REFUSAL(__VA_ARGS__), no_request)

static void test_request_readers(balunduwa_request_answer read(const uint8_t *, size_t)) {
    GIVES_REQUEST(read(BYTES(0x00, 0x03, 0x00, 0x01, 'a')), 0, 0, SPAN(4, 1), NOWHERE);
    GIVES_REQUEST(read(BYTES(0x00, 0x05, 0x20, 0x01, 'a', 0x01, 'b', 0xFF)), 2, 1, SPAN(4, 1), SPAN(6, 1));
    GIVES_REQUEST(read(BYTES(0x00, 0x04, 0x20, 0x01, 'a', 0x00)), 2, 1, SPAN(4, 1), SPAN(6, 0));
    GIVES_REQUEST(read(BYTES(0x00, 0x02, 0x80, 0x00)), 8, 0, SPAN(4, 0), NOWHERE);
    NO_REQUEST(read(EMPTY), 1, 0, 2, 0);
    NO_REQUEST(read(BYTES(0x00)), 1, 1, 2, 0);
    NO_REQUEST(read(BYTES(0x01, 0x09)), 3, 1, 0);
    NO_REQUEST(read(BYTES(0x00, 0x01)), 1, 2, 3, 0);
    NO_REQUEST(read(BYTES(0x00, 0x05, 0x20)), 1, 3, 7, 0);
    NO_REQUEST(read(BYTES(0x00, 0x00)), 1, 0, 1, 2);
    NO_REQUEST(read(BYTES(0x00, 0x00, 0x20, 0x01, 'a')), 1, 0, 1, 2); /* what stands behind the TLV is not found */
    NO_REQUEST(read(BYTES(0x00, 0x03, 0x90, 0x01, 'a')), 7, 9);
    NO_REQUEST(read(BYTES(0x00, 0x03, 0x90, 0x05, 'a')), 7, 9);
    NO_REQUEST(read(BYTES(0x00, 0x01, 0x00)), 1, 0, 1, 3);
    NO_REQUEST(read(BYTES(0x00, 0x03, 0x00, 0x05, 'a')), 1, 2, 6, 3);
    NO_REQUEST(read(BYTES(0x00, 0x03, 0x20, 0x05, 'a')), 1, 2, 6, 3); /* the customer's own example */
    NO_REQUEST(read(BYTES(0x00, 0x03, 0x20, 0x05, 'a', 0xFF, 0xFF)), 1, 2, 6, 3);
    NO_REQUEST(read(BYTES(0x00, 0x03, 0x20, 0x01, 'a')), 6);
    NO_REQUEST(read(BYTES(0x00, 0x03, 0x20, 0x00, 0x01)), 1, 1, 2, 4);
    NO_REQUEST(read(BYTES(0x00, 0x04, 0x20, 0x01, 'a', 0x03)), 1, 1, 4, 5);
    NO_REQUEST(read(BYTES(0x00, 0x07, 0x40, 0x03, 'a', 'b', 'c', 0x02, 'd', 'e')), 1, 2, 3, 7);
}

static void test_request(void) {
    junk();
    test_request_readers(balunduwa_request_read);
    junk();
    test_request_readers(balunduwa_request_read_strict);
    GIVES_REQUEST(balunduwa_request_read(BYTES(0x00, 0x04, 0x05, 0x01, 'a', 0xFF)), 0, 0, SPAN(4, 1), NOWHERE);
    NO_REQUEST(balunduwa_request_read_strict(BYTES(0x00, 0x04, 0x05, 0x01, 'a', 0xFF)), 11, 5);
    NO_REQUEST(balunduwa_request_read_strict(BYTES(0x00, 0x04, 0x00, 0x01, 'a', 0xFF)), 12, 1);

    uint8_t src[257], all[257];
    memset(src, 'n', sizeof src);
    src[0] = 'a';
    src[256] = 'z';
    WROTE(balunduwa_request_write(REQUEST(0, 0, SPAN(0, 1), SPAN(9, 999)), src, 257, fresh(), 5), BYTES(0x00, 0x03, 0x00, 0x01, 'a'));
    WROTE(balunduwa_request_write(REQUEST(2, 1, SPAN(0, 1), SPAN(256, 1)), src, 257, fresh(), 7), BYTES(0x00, 0x05, 0x20, 0x01, 'a', 0x01, 'z'));
    WROTE(balunduwa_request_write(REQUEST(4, 255, SPAN(0, 2), SPAN(257, 0)), src, 257, fresh(), ROOM),
          BYTES(0x00, 0x05, 0x40, 0x02, 'a', 'n', 0x00));
    WRITES_NOTHING(balunduwa_request_write(REQUEST(9, 0, SPAN(0, 256), NOWHERE), src, 257, fresh(), ROOM), 7, 9);
    WRITES_NOTHING(balunduwa_request_write(REQUEST(2, 0, SPAN(0, 256), NOWHERE), src, 257, fresh(), ROOM), 4, 256);
    WRITES_NOTHING(balunduwa_request_write(REQUEST(0, 1, SPAN(0, 1), SPAN(0, 257)), src, 257, fresh(), ROOM), 4, 257);
    WRITES_NOTHING(balunduwa_request_write(REQUEST(2, 0, SPAN(0, 255), NOWHERE), src, 257, fresh(), ROOM), 6);
    WRITES_NOTHING(balunduwa_request_write(REQUEST(0, 1, SPAN(0, 255), NOWHERE), src, 257, fresh(), ROOM), 8);
    WRITES_NOTHING(balunduwa_request_write(REQUEST(0, 0, SPAN(900, 254), NOWHERE), src, 257, fresh(), 0), 5, 256);
    WRITES_NOTHING(balunduwa_request_write(REQUEST(2, 1, SPAN(0, 200), SPAN(0, 200)), src, 257, fresh(), 0), 5, 403);
    WRITES_NOTHING(balunduwa_request_write(REQUEST(2, 1, SPAN(257, 1), SPAN(300, 0)), src, 257, fresh(), 0), 15, 257);
    WRITES_NOTHING(balunduwa_request_write(REQUEST(2, 1, SPAN(0, 1), SPAN(256, 2)), src, 257, fresh(), 0), 15, 256);
    WRITES_NOTHING(balunduwa_request_write(REQUEST(2, 1, SPAN(0, 1), SPAN(256, 1)), src, 257, fresh(), 6), 2, 6, 7);
    balunduwa_written a = balunduwa_request_write(REQUEST(5, 0, SPAN(1, 253), NOWHERE), src, 257, fresh(), 257);
    memset(all, 'n', sizeof all);
    memcpy(all, (const uint8_t[]){0x00, 0xFF, 0x50, 0xFD}, 4);
    WROTE(a, all, 257);
}

/* ---- Filestore response */

static const balunduwa_response no_response = {0};

static void response(int line, balunduwa_response_answer a, balunduwa_refusal refusal, balunduwa_response expected) {
    calls++;
    same_refusal(line, a.refusal, refusal);
    same(line, "the action", a.response.action, expected.action);
    same(line, "the status", a.response.status, expected.status);
    same(line, "has_second", a.response.has_second, expected.has_second);
    same_span(line, "the first name's start", "the first name's length", a.response.first_name, expected.first_name);
    same_span(line, "the second name's start", "the second name's length", a.response.second_name, expected.second_name);
    same_span(line, "the message's start", "the message's length", a.response.filestore_message, expected.filestore_message);
}
#define RESPONSE(...) (balunduwa_response){__VA_ARGS__}
#define GIVES_RESPONSE(call, ...) response(__LINE__, call, FINE, RESPONSE(__VA_ARGS__))
#define NO_RESPONSE(call, ...) response(__LINE__, call, REFUSAL(__VA_ARGS__), no_response)

static void test_response_readers(balunduwa_response_answer read(const uint8_t *, size_t)) {
    GIVES_RESPONSE(read(BYTES(0x01, 0x04, 0x01, 0x01, 'a', 0x00)), 0, 1, 0, SPAN(4, 1), NOWHERE, SPAN(6, 0));
    GIVES_RESPONSE(read(BYTES(0x01, 0x08, 0x3F, 0x01, 'a', 0x01, 'b', 0x02, 'm', 'n', 0xFF)), 3, 15, 1, SPAN(4, 1), SPAN(6, 1), SPAN(8, 2));
    NO_RESPONSE(read(EMPTY), 1, 0, 2, 0);
    NO_RESPONSE(read(BYTES(0x01)), 1, 1, 2, 0);
    NO_RESPONSE(read(BYTES(0x00, 0x09)), 3, 0, 1);
    NO_RESPONSE(read(BYTES(0x01, 0x05, 0x20)), 1, 3, 7, 0);
    NO_RESPONSE(read(BYTES(0x01, 0x00)), 1, 0, 1, 2);
    NO_RESPONSE(read(BYTES(0x01, 0x04, 0xF1, 0x01, 'a', 0x00)), 7, 15);
    NO_RESPONSE(read(BYTES(0x01, 0x01, 0x00)), 1, 0, 1, 3);
    NO_RESPONSE(read(BYTES(0x01, 0x03, 0x20, 0x05, 'a')), 1, 2, 6, 3);
    NO_RESPONSE(read(BYTES(0x01, 0x03, 0x20, 0x01, 'a')), 6);
    NO_RESPONSE(read(BYTES(0x01, 0x04, 0x20, 0x01, 'a', 0x03)), 1, 1, 4, 5);
    NO_RESPONSE(read(BYTES(0x01, 0x03, 0x01, 0x01, 'a')), 1, 0, 1, 5);
    NO_RESPONSE(read(BYTES(0x01, 0x05, 0x01, 0x01, 'a', 0x02, 'm')), 1, 2, 3, 5);
    NO_RESPONSE(read(BYTES(0x01, 0x04, 0x20, 0x01, 'a', 0x00)), 1, 0, 1, 6);
    NO_RESPONSE(read(BYTES(0x01, 0x06, 0x20, 0x01, 'a', 0x02, 'b', 'c', 0x00)), 1, 0, 1, 8);
    NO_RESPONSE(read(BYTES(0x01, 0x08, 0x20, 0x02, 'a', 'b', 0x01, 'c', 0x05, 'm')), 1, 2, 6, 8);
}

static void test_response(void) {
    junk();
    test_response_readers(balunduwa_response_read);
    junk();
    test_response_readers(balunduwa_response_read_strict);
    GIVES_RESPONSE(balunduwa_response_read(BYTES(0x01, 0x05, 0x04, 0x01, 'a', 0x00, 0xFF)), 0, 4, 0, SPAN(4, 1), NOWHERE, SPAN(6, 0));
    NO_RESPONSE(balunduwa_response_read_strict(BYTES(0x01, 0x05, 0x04, 0x01, 'a', 0x00, 0xFF)), 12, 1);
    NO_RESPONSE(balunduwa_response_read_strict(BYTES(0x01, 0x04, 0x04, 0x01, 'a', 0x00)), 13, 4);

    uint8_t src[257], all[257];
    memset(src, 'n', sizeof src);
    src[0] = 'a';
    src[256] = 'z';
    WROTE(balunduwa_response_write(RESPONSE(0, 1, 0, SPAN(0, 1), SPAN(9, 999), SPAN(256, 1)), src, 257, fresh(), 7),
          BYTES(0x01, 0x05, 0x01, 0x01, 'a', 0x01, 'z'));
    WROTE(balunduwa_response_write(RESPONSE(3, 15, 1, SPAN(0, 1), SPAN(256, 1), NOWHERE), src, 257, fresh(), ROOM),
          BYTES(0x01, 0x06, 0x3F, 0x01, 'a', 0x01, 'z', 0x00));
    WRITES_NOTHING(balunduwa_response_write(RESPONSE(255, 16, 0, SPAN(0, 256), NOWHERE, NOWHERE), src, 257, fresh(), ROOM), 7, 255);
    WRITES_NOTHING(balunduwa_response_write(RESPONSE(2, 16, 0, SPAN(0, 256), NOWHERE, SPAN(0, 257)), src, 257, fresh(), ROOM), 4, 256);
    WRITES_NOTHING(balunduwa_response_write(RESPONSE(2, 16, 0, SPAN(0, 1), NOWHERE, SPAN(0, 257)), src, 257, fresh(), ROOM), 4, 257);
    WRITES_NOTHING(balunduwa_response_write(RESPONSE(2, 16, 0, SPAN(0, 1), NOWHERE, NOWHERE), src, 257, fresh(), ROOM), 6);
    WRITES_NOTHING(balunduwa_response_write(RESPONSE(0, 16, 1, SPAN(0, 1), SPAN(0, 1), NOWHERE), src, 257, fresh(), ROOM), 8);
    WRITES_NOTHING(balunduwa_response_write(RESPONSE(0, 16, 0, SPAN(0, 255), NOWHERE, NOWHERE), src, 257, fresh(), ROOM), 9, 16);
    WRITES_NOTHING(balunduwa_response_write(RESPONSE(0, 0, 0, SPAN(900, 253), NOWHERE, NOWHERE), src, 257, fresh(), 0), 5, 256);
    WRITES_NOTHING(balunduwa_response_write(RESPONSE(0, 0, 0, SPAN(0, 1), NOWHERE, SPAN(256, 2)), src, 257, fresh(), 0), 15, 256);
    WRITES_NOTHING(balunduwa_response_write(RESPONSE(0, 1, 0, SPAN(0, 1), NOWHERE, SPAN(256, 1)), src, 257, fresh(), 6), 2, 6, 7);
    balunduwa_written a = balunduwa_response_write(RESPONSE(8, 2, 0, SPAN(1, 252), NOWHERE, SPAN(0, 0)), src, 257, fresh(), 257);
    memset(all, 'n', sizeof all);
    memcpy(all, (const uint8_t[]){0x01, 0xFF, 0x82, 0xFC}, 4);
    all[256] = 0x00;
    WROTE(a, all, 257);
}

/* ---- The walk */

/* Document 01's journal, and one over the limit. */
static const uint8_t journal[] = {0x05, 0x01, 0xAA, 0x06, 0x01, 0x07};
static const uint8_t long_journal[BALUNDUWA_LIMIT + 1];

/* The same step in two registers. */
static void next(int line, const uint8_t *buf, size_t n, size_t place, balunduwa_step expected) {
    int refused = expected.refusal.number != 0;
    balunduwa_next a = balunduwa_walk_next(buf, n, place);
    calls++;
    same(line, "what stands there, in registers", a.what, refused ? BALUNDUWA_REFUSED : expected.what);
    same(line, "the refusal, in registers", a.refusal, expected.refusal.number);
    same(line, "the type, in registers", a.tlv_type, expected.tlv_type);
    same(line, "the next place, in registers", a.next, expected.next);
    if (refused) {
        same(line, "the refusal's value, in registers", a.refusal == 14 ? n : place, expected.refusal.first);
        return;
    }
    size_t start = a.what == BALUNDUWA_RECORD ? place + 2 : a.next;
    size_t end = a.what == BALUNDUWA_RECORD ? a.next : n;
    same_span(line, "the value's start, in registers", "the value's length, in registers", SPAN(start, end - start), expected.value);
}

static void step(int line, size_t n, size_t place, balunduwa_step expected) {
    const uint8_t *buf = n > sizeof journal ? long_journal : journal;
    balunduwa_step a = balunduwa_walk_step(buf, n, place);
    calls++;
    same_refusal(line, a.refusal, expected.refusal);
    same(line, "what stands there", a.what, expected.what);
    same(line, "the type", a.tlv_type, expected.tlv_type);
    same_span(line, "the value's start", "the value's length", a.value, expected.value);
    same(line, "the next place", a.next, expected.next);
    next(line, buf, n, place, expected);
}
#define STEP(n, place, ...) (junk(), step(__LINE__, n, place, (balunduwa_step){__VA_ARGS__}))

static void summary(int line, size_t n, balunduwa_summary expected) {
    balunduwa_summary a = balunduwa_walk_summary(n > sizeof journal ? long_journal : journal, n);
    calls++;
    same_refusal(line, a.refusal, expected.refusal);
    same(line, "the count", a.count, expected.count);
    same(line, "the place", a.place, expected.place);
    same(line, "the bytes behind", a.behind, expected.behind);
}
#define SUMMARY(n, ...) (junk(), summary(__LINE__, n, (balunduwa_summary){__VA_ARGS__}))

static void kind(int line, const uint8_t *buf, size_t n, size_t place, balunduwa_refusal refusal, uint8_t expected) {
    balunduwa_kind a = balunduwa_kind_at(buf, n, place);
    calls++;
    same_refusal(line, a.refusal, refusal);
    same(line, "the kind", a.kind, expected);
}
#define KIND(...) (junk(), kind(__LINE__, __VA_ARGS__))

static void test_walk(void) {
    STEP(6, 0, FINE, BALUNDUWA_RECORD, 5, SPAN(2, 1), 3);
    STEP(6, 3, FINE, BALUNDUWA_RECORD, 6, SPAN(5, 1), 6);
    STEP(6, 6, FINE, BALUNDUWA_WHOLE, 0, SPAN(6, 0), 6);
    STEP(5, 3, FINE, BALUNDUWA_CUT, 0, SPAN(3, 2), 3);
    STEP(4, 3, FINE, BALUNDUWA_CUT, 0, SPAN(3, 1), 3);
    STEP(0, 0, FINE, BALUNDUWA_WHOLE, 0, SPAN(0, 0), 0);
    STEP(BALUNDUWA_LIMIT, 65534, FINE, BALUNDUWA_RECORD, 0, SPAN(65536, 0), 65536);
    STEP(BALUNDUWA_LIMIT + 1, 70000, REFUSAL(14, 65537));
    STEP(6, 7, REFUSAL(15, 7));

    SUMMARY(6, FINE, 2, 6, 0);
    SUMMARY(5, FINE, 1, 3, 2);
    SUMMARY(3, FINE, 1, 3, 0);
    SUMMARY(0, FINE, 0, 0, 0);
    SUMMARY(BALUNDUWA_LIMIT, FINE, 32768, 65536, 0);
    SUMMARY(BALUNDUWA_LIMIT + 1, REFUSAL(14, 65537));

    KIND(BYTES(0x00, 0x02, 0x00, 0x00), 0, FINE, BALUNDUWA_REQUEST);
    KIND(BYTES(0xFF, 0x01, 0x03, 0x00, 0x00, 0x00), 1, FINE, BALUNDUWA_RESPONSE);
    KIND(journal, 6, 3, FINE, BALUNDUWA_ENTITY);
    KIND(journal, 6, 0, FINE, BALUNDUWA_OTHER);
    KIND(BYTES(0x00, 0x03, 0x20, 0x01, 'a', 0x01), 0, REFUSAL(6), 0);
    KIND(BYTES(0x00, 0x03, 0x90, 0x05, 'a'), 0, REFUSAL(7, 9), 0);
    KIND(BYTES(0x01, 0x03, 0x01, 0x01, 'a'), 0, REFUSAL(1, 0, 1, 5), 0);
    KIND(BYTES(0x06, 0x03, 0x01, 0x02, 0x03), 0, REFUSAL(5, 3), 0);
    KIND(BYTES(0x05, 0x02, 0xAA), 0, REFUSAL(1, 2, 3, 0), 0);
    KIND(journal, 6, 6, REFUSAL(1, 0, 2, 0), 0); /* no byte, so no type: the TLV's reader answers (docs/DECISIONS.md, 46) */
    /* a cut end: what the reader says that the stump's first byte names */
    KIND(BYTES(0x00, 0x03, 0x20, 0x01), 0, REFUSAL(1, 4, 5, 0), 0);
    KIND(BYTES(0x06), 0, REFUSAL(2, 1, 2), 0);
    KIND(BYTES(0x06, 0x03, 0x01), 0, REFUSAL(5, 3), 0);
    KIND(BYTES(0x06, 0x02, 0x01), 0, REFUSAL(1, 3, 4, 0), 0);
    /* not the first record: the place counts from its start */
    KIND(BYTES(0x05, 0x02, 0xAA, 0xBB, 0x00, 0x00), 4, REFUSAL(1, 0, 1, 2), 0);
    KIND(BYTES(0x05, 0x02, 0xAA, 0xBB, 0x00, 0x03, 0x20, 0x05, 'a'), 4, REFUSAL(1, 2, 6, 3), 0);
    KIND(BYTES(0x05, 0x02, 0xAA, 0xBB, 0x00, 0x04, 0x20, 0x01, 'a', 0x03), 4, REFUSAL(1, 1, 4, 5), 0);
    KIND(BYTES(0x05, 0x02, 0xAA, 0xBB, 0x01, 0x03, 0x01, 0x01, 'a', 0x06, 0x01, 0x07), 4, REFUSAL(1, 0, 1, 5), 0);
    KIND(BYTES(0x05, 0x02, 0xAA, 0xBB, 0x00, 0x03, 0x20, 0x01), 4, REFUSAL(1, 4, 5, 0), 0);
    KIND(BYTES(0x05, 0x02, 0xAA, 0xBB, 0x06, 0x02, 0x01), 4, REFUSAL(1, 3, 4, 0), 0);
    KIND(BYTES(0x05, 0x02, 0xAA, 0xBB, 0x05, 0x02, 0xAA), 4, REFUSAL(1, 2, 3, 0), 0);
    KIND(BYTES(0x05, 0x02, 0xAA, 0xBB, 0x05), 4, REFUSAL(1, 1, 2, 0), 0);
    KIND(BYTES(0x05, 0x02, 0xAA, 0xBB, 0x00, 0x03, 0x20, 0x01, 'a'), 4, REFUSAL(6), 0);
    KIND(journal, 6, 7, REFUSAL(15, 7), 0);
    KIND(long_journal, BALUNDUWA_LIMIT + 1, 70000, REFUSAL(14, 65537), 0);
}

int main(void) {
    void (*const tests[])(void) = {test_lv, test_tlv, test_entity, test_request, test_response, test_walk};
    for (size_t i = 0; i < sizeof tests / sizeof tests[0]; i++) {
        junk();
        tests[i]();
    }
    printf("%u calls, %u wrong\n", calls, wrong);
    return wrong != 0;
}
