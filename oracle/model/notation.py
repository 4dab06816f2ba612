"""The notation of cases: the words that a call takes, and its answer as text."""

import re

from model.formats import STANDARD, Field, Lv
from model.journal import Record

MOST_NUMBER = 2**64 - 1
MOST_BYTES = 66000
DIGITS = re.compile("[0-9]+")
PIECE = re.compile("((?:[0-9a-fA-F]{2})+)(?:[*]([0-9]+))?")
RUN = re.compile(rb"(.)\1{4,}", re.DOTALL)


class BadCase(Exception):
    """What is no call, or has not the words that the call takes."""


# Words


def number(word, most=MOST_NUMBER):
    """Decimal digits. Leading zeros are allowed."""
    digits = word.lstrip("0") or "0"
    if not DIGITS.fullmatch(word) or len(digits) > len(str(most)) or int(digits) > most:
        raise BadCase
    return int(digits)


def octet(word):
    return number(word, 255)


def action(word):
    return number(word, 8)


def some_bytes(word):
    """`x`, then pieces with dots between them: pairs of digits, and how often they stand there."""
    if word[:1] != "x":
        raise BadCase
    made = b""
    for piece in word[1:].split(".") if word != "x" else []:
        match = PIECE.fullmatch(piece)
        if not match:
            raise BadCase
        once, times = bytes.fromhex(match[1]), number(match[2] or "1", MOST_BYTES)
        if len(made) + len(once) * times > MOST_BYTES:
            raise BadCase
        made += once * times
    return made


def some_buffer(word):
    """Bytes that are written to."""
    return bytearray(some_bytes(word))


def standard_type(word):
    """`s` and the number of a standard type."""
    if word[:1] != "s" or number(word[1:]) not in STANDARD:
        raise BadCase
    return Field(True, number(word[1:]))


def type_field(word):
    """A standard type, or `c` and the number of a custom label."""
    return Field(False, octet(word[1:])) if word[:1] == "c" else standard_type(word)


def second_name(word):
    """`START+LEN`, or `-` for none."""
    if word == "-":
        return None
    start, _, length = word.partition("+")
    return Lv(number(start), number(length))


# Answers


def refusal_text(refused):
    """The number, its values in brackets, and of a refusal 1 the place behind them."""
    values = ", ".join(map(str, refused.values))
    return f"refused {refused.number}" + (f" ({values})" if values else "") + refused.where


def bytes_text(data):
    """In one form: a run of five or more equal bytes is a piece of its own."""
    pieces, at = [], 0
    for run in RUN.finditer(data):
        pieces += [data[at : run.start()].hex(), f"{run[1].hex()}*{len(run[0])}"]
        at = run.end()
    pieces.append(data[at:].hex())
    return "x" + ".".join(piece for piece in pieces if piece)


def yes_text(yes):
    return "true" if yes else "false"


def same_text(same):
    return "same" if same else "different"


def test_text(_):
    return "fine"


def length_text(length):
    return f"length {length}"


def number_text(value):
    return f"number {value}"


def action_text(code):
    return f"action {code}"


def written_text(count):
    return f"wrote {count}"


def place_text(place):
    return f"at {place}"


def span_text(lv):
    return f"span {lv.start} {lv.length}"


def second_text(lv):
    return "second -" if lv is None else f"second {lv.start} {lv.length}"


def field_text(field):
    return f"{'s' if field.standard else 'c'}{field.number}"


def standard_text(field):
    return field_text(field) if field.standard else "absent"


def tlv_text(tlv):
    return f"{field_text(tlv.field)} {span_text(tlv.value)}"


def entity_text(entity):
    return f"width {entity.width} number {entity.number}"


def request_text(filed):
    return f"request {filed.action} {span_text(filed.first)} {second_text(filed.second)}"


def response_text(filed):
    names = f"{span_text(filed.first)} {second_text(filed.second)}"
    return f"response {filed.action} status {filed.status} {names} message {filed.message.start} {filed.message.length}"


def record_text(record):
    return f"{record.place} {record.type_byte} {record.value.start} {record.value.length} {record.value.end}"


def end_text(end):
    return " ".join(map(str, end))


def step_text(step):
    return f"record {record_text(step)}" if isinstance(step, Record) else end_text(step)


def summary_text(summary):
    count, end = summary
    return f"{count} {end_text(end)}"
