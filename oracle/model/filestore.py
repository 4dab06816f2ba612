"""Filestore requests and responses: document 01, 'Modules in port order', 4 and 5, and 'Strict reading'; document 02, Q-2."""

from typing import NamedTuple, Optional

from model.formats import EMPTY, REQUEST, RESPONSE, Field, Lv, lv_bytes, lv_read_at, part, size_test, span_test, tlv_len_of
from model.ground import Refused, lay, room_test, short_test

ACTIONS = 9  # they are 0 to 8
TWO_NAMES = (2, 3, 4)  # rename, append, replace
STATUSES = (0, 1, 2, 3, 15)  # those that strict reading knows


class Filed(NamedTuple):
    """A request or a response: spans, and a message exactly in a response (DECISIONS 32). The status of a request is 0."""

    action: int
    status: int
    first: Lv
    second: Optional[Lv]
    message: Optional[Lv]

    @property
    def type_byte(self):
        return REQUEST if self.message is None else RESPONSE

    @property
    def parts(self):
        """Names and message in the order in which they are written."""
        return [lv for lv in (self.first, self.second, self.message) if lv is not None]

    @property
    def length(self):
        """Of the whole value: the action's byte, and each part as an LV."""
        return 1 + sum(1 + lv.length for lv in self.parts)


def request_of(action, first, second=None):
    """A request that nothing has tested."""
    return Filed(action, 0, first, second, None)


def action_of(code):
    """7 for a number over 8 (DECISIONS 41)."""
    if code >= ACTIONS:
        raise Refused(7, code)
    return code


def has_second(action):
    """A second name is due for RenameFile, AppendFile and ReplaceFile, and for no other."""
    return action in TWO_NAMES


def second_part(second, data):
    """DECISIONS 33: no bytes where the name is absent."""
    return b"" if second is None else part(second, data)


def second_test(second, data):
    """DECISIONS 33: 15 where the name is there and its span passes the end."""
    if second is not None:
        span_test(second, data)


def build_test(filed):
    """'Building 4 and 5': 4 in writing order, 6, 8, 9, 5."""
    for lv in filed.parts:
        size_test(lv)
    if has_second(filed.action) and filed.second is None:
        raise Refused(6)
    if not has_second(filed.action) and filed.second is not None:
        raise Refused(8)
    if filed.status > 15:
        raise Refused(9, filed.status)
    if filed.length > 255:
        raise Refused(5, filed.length)


def built(filed):
    """What a builder gives: the value, where no test refuses it."""
    build_test(filed)
    return filed


def len_value(filed):
    """DECISIONS 35: the building tests first."""
    build_test(filed)
    return filed.length


def len_full(filed):
    """With the type byte and the length byte."""
    return 2 + len_value(filed)


def write(filed, source, buf):
    """The building tests, 15 in writing order, 2 (n, 2 + value length) (DECISIONS 34)."""
    build_test(filed)
    for lv in filed.parts:
        span_test(lv, source)
    room_test(buf, 0, 2 + filed.length)
    head = bytes([filed.type_byte, filed.length, filed.action << 4 | filed.status])
    return lay(buf, 0, head + b"".join(lv_bytes(lv, source) for lv in filed.parts))


def same(filed, data, other, other_data):
    """DECISIONS 19: 15 for the own spans in writing order, then for the other's. An absent second name is not an empty one."""
    for lv in filed.parts:
        span_test(lv, data)
    for lv in other.parts:
        span_test(lv, other_data)
    return contents(filed, data) == contents(other, other_data)


def contents(filed, data):
    """What two values are compared by: action, status, and the bytes of names and message."""
    spans = (filed.first, filed.second, filed.message)
    return filed.action, filed.status, [None if lv is None else part(lv, data) for lv in spans]


def read(data, type_byte):
    """'Reading 4 and 5', in its order. The low bits of a request are ignored, and so are bytes left in the value. Q-2: the place of a 1 is counted
    from the start of the TLV: 0 where the TLV itself is short, 2 for an empty value, else that of the length byte of the LV that ran short."""
    end = tlv_len_of(data, Field(True, type_byte))
    short_test(2, end - 2, 1)
    action = action_of(data[2] >> 4)
    first = last = lv_read_at(data, 3, end)
    second = message = None
    if has_second(action):
        if last.end == end:
            raise Refused(6)
        second = last = lv_read_at(data, last.end, end)
    if type_byte == RESPONSE:
        message = lv_read_at(data, last.end, end)
    return Filed(action, data[2] & 15 if type_byte == RESPONSE else 0, first, second, message)


def read_strict(data, type_byte):
    """'Strict reading': as the plain reader, then 11 (requests), 12, 13 (responses)."""
    filed = read(data, type_byte)
    if type_byte == REQUEST and data[2] & 15:
        raise Refused(11, data[2] & 15)
    if filed.length < data[1]:
        raise Refused(12, data[1] - filed.length)
    if type_byte == RESPONSE and filed.status not in STATUSES:
        raise Refused(13, filed.status)
    return filed


def no_message(action, status, first, second):
    """A response with an empty message."""
    return built(Filed(action, status, first, second, EMPTY))
