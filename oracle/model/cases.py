"""Cases: lines of calls, each written back with the answers that documents 01 and 02 and docs/DECISIONS.md give. The table ROWS has every call.

docs/TESTS.md describes the form of a case.
"""

from model import filestore, formats, ground, journal
from model import notation as n
from model.formats import REQUEST, RESPONSE, Entity, Field, Lv, Tlv
from model.ground import Refused

CHECKSUM = 4294967291

# A letter of the table: which words it takes, by their readers, and what it makes of them. The states take no word: each is made new for a line.
WORDS = {
    "N": n.number,
    "O": n.octet,
    "A": n.action,
    "X": n.some_bytes,
    "B": n.some_buffer,  # bytes that are written to
    "T": n.standard_type,
    "F": n.type_field,
    "M": n.second_name,
}
VALUES = {
    "S": ("NN", Lv),
    "L": ("FNN", lambda field, start, length: Tlv(field, Lv(start, length))),
    "E": ("NN", Entity),
    "Q": ("ANNM", lambda action, start, length, second: filestore.request_of(action, Lv(start, length), second)),
    "R": ("AONNMNN", lambda action, status, a, b, second, c, d: filestore.Filed(action, status, Lv(a, b), second, Lv(c, d))),
    "J": ("NONN", lambda place, type_byte, start, length: journal.Record(place, type_byte, Lv(start, length))),
}
STATES = {"W": journal.Walker}
SIMPLE = {letter: VALUES.get(letter, (letter, None))[0] for letter in [*WORDS, *VALUES]}


def told(text, call, *arguments):
    """An answer as text, also where the call is refused."""
    try:
        return text(call(*arguments))
    except Refused as refused:
        return n.refusal_text(refused)


# Calls that put several answers together


def listing(data):
    """Steps from 0 on: each record with its kind, then the end or the refusal."""
    try:
        journal.limit_test(data)
    except Refused as refused:
        return n.refusal_text(refused)
    records, end = journal.walk(data)
    lines = [f"{n.record_text(r)} {told(str, journal.kind, data[r.place : r.value.end])}; " for r in records]
    return "".join(lines) + n.end_text(end)


def prefixes(data):
    """For every k: the summary and the listing of the first k bytes."""
    lines = [f"\n{k}: {told(n.summary_text, journal.summary_of, data[:k])}: {listing(data[:k])}" for k in range(len(data) + 1)]
    return f"{len(data)}" + "".join(lines)


def places(data):
    """For every place, up to two past the end: the step and the kind there."""
    lines = [f"\n{p}: {told(n.step_text, journal.step_at, data, p)}; {told(str, journal.kind_at, data, p)}" for p in range(len(data) + 3)]
    return f"{len(data)}" + "".join(lines)


def dumped(data):
    return "\n" + journal.listing(data)


def checksum(data):
    x = 0
    for byte in data:
        x = (x * 257 + byte + 1) % CHECKSUM
    return x


def summed(data):
    """A listing in few words: its lines, bytes and checksum, its first two lines and its last one."""
    text = journal.listing(data)
    lines = text.splitlines()
    words = [f"lines {len(lines)}", f"bytes {len(text)}", f"checksum {checksum(text.encode('ascii'))}", *lines[:2], lines[-1]]
    return "\n" + "".join(f"{line}\n" for line in words)


def walker_made(walker, data, place=0):
    walker.data, walker.place = data, place
    return place


def walker_stepped(walker):
    """The step, and where the walker is then."""
    return f"{told(n.step_text, walker.step)}, at {walker.place}"


# Rows for several types: what every TLV of one type has


def typed_rows(name, letter, type_byte):
    field = Field(True, type_byte)
    return (
        (f"{name}.tlv_type_field", letter, n.field_text, lambda _: field),
        (f"{name}.tlv_type", letter, n.standard_text, lambda _: field),
        (f"{name}.is_standard_tlv", letter, n.yes_text, lambda _: True),
    )


def filed_rows(name, letter, type_byte, text):
    """What a request and a response have alike."""
    return (
        (f"{name}.action_code", letter, n.action_text, lambda filed: filed.action),
        (f"{name}.first_name", letter, n.span_text, lambda filed: filed.first),
        (f"{name}.second_name", letter, n.second_text, lambda filed: filed.second),
        (f"{name}.len_value", letter, n.length_text, filestore.len_value),
        (f"{name}.len_full", letter, n.length_text, filestore.len_full),
        (f"{name}.len_written", letter, n.length_text, filestore.len_full),
        (f"{name}.from_bytes", "X", text, lambda data: filestore.read(data, type_byte)),
        (f"{name}.from_bytes_strict", "X", text, lambda data: filestore.read_strict(data, type_byte)),
        (f"{name}.write_to_slice", f"{letter}XB", n.written_text, filestore.write),
        (f"{name}.same", f"{letter}X{letter}X", n.same_text, filestore.same),
        (f"{name}.new", letter, text, filestore.built),
        *typed_rows(name, letter, type_byte),
    )


def one_name(name, action):
    return f"request.new_{name}", "S", n.request_text, lambda first: filestore.built(filestore.request_of(action, first))


def two_names(name, action):
    return f"request.new_{name}", "SS", n.request_text, lambda first, second: filestore.built(filestore.request_of(action, first, second))


# The calls: name, letters of what it takes, the answer's form, the rule

ROWS = (
    ("lv.new", "NN", n.span_text, formats.lv_new),
    ("lv.new_empty", "", n.span_text, lambda: formats.EMPTY),
    ("lv.len_value", "S", str, lambda lv: lv.length),
    ("lv.len_full", "S", n.length_text, formats.lv_len_full),
    ("lv.is_empty", "S", n.yes_text, lambda lv: lv.length == 0),
    ("lv.size_test", "S", n.test_text, formats.size_test),
    ("lv.value", "SX", n.bytes_text, formats.part),
    ("lv.span_test", "SX", n.test_text, formats.span_test),
    ("lv.write_test", "SX", n.test_text, formats.lv_write_test),
    ("lv.write_to_slice", "SXB", n.written_text, formats.lv_write),
    ("lv.write_at", "SXBN", n.written_text, formats.lv_write_at),
    ("lv.from_bytes", "X", n.span_text, formats.lv_read),
    ("lv.read_at", "XNN", n.span_text, formats.lv_read_at),
    ("lv.same", "SXSX", n.same_text, formats.lv_same),
    ("type.to_byte", "F", str, lambda field: field.number),
    ("type.from_byte", "O", n.field_text, formats.field_of),
    ("tlv.new", "TNN", n.tlv_text, formats.tlv_new),
    ("tlv.new_with_custom_type", "ONN", n.tlv_text, lambda byte, start, length: formats.tlv_new(Field(False, byte), start, length)),
    ("tlv.new_empty", "T", n.tlv_text, lambda field: Tlv(field, formats.EMPTY)),
    ("tlv.len_written", "L", n.length_text, formats.tlv_len),
    ("tlv.len_full", "L", n.length_text, formats.tlv_len),
    ("tlv.len_value", "L", str, lambda tlv: tlv.value.length),
    ("tlv.is_empty", "L", n.yes_text, lambda tlv: tlv.value.length == 0),
    ("tlv.tlv_type_field", "L", n.field_text, lambda tlv: tlv.field),
    ("tlv.tlv_type", "L", n.standard_text, lambda tlv: tlv.field),
    ("tlv.is_standard_tlv", "L", n.yes_text, lambda tlv: tlv.field.standard),
    ("tlv.from_bytes", "X", n.tlv_text, formats.tlv_read),
    ("tlv.len_of", "XT", n.length_text, formats.tlv_len_of),
    ("tlv.write_to_slice", "LXB", n.written_text, formats.tlv_write),
    ("tlv.value", "LX", n.bytes_text, lambda tlv, data: formats.part(tlv.value, data)),
    ("tlv.span_test", "LX", n.test_text, lambda tlv, data: formats.span_test(tlv.value, data)),
    ("tlv.same", "LXLX", n.same_text, formats.tlv_same),
    ("entity.new", "NN", n.entity_text, formats.entity_new),
    ("entity.entity_id", "E", n.entity_text, lambda entity: entity),
    ("entity.len_value", "E", str, lambda entity: entity.width),
    ("entity.len_full", "E", n.length_text, formats.entity_len),
    ("entity.len_written", "E", n.length_text, formats.entity_len),
    ("entity.from_bytes", "X", n.entity_text, formats.entity_read),
    ("entity.to_tlv", "EB", n.tlv_text, formats.entity_to_tlv),
    ("entity.write_to_slice", "EB", n.written_text, formats.entity_write),
    ("entity.from_tlv", "LX", n.entity_text, formats.entity_of_tlv),
    ("entity.same", "EE", n.same_text, lambda entity, other: entity == other),
    *typed_rows("entity", "E", formats.ENTITY),
    ("action.from_code", "O", n.action_text, filestore.action_of),
    ("action.to_code", "A", str, lambda action: action),
    ("action.has_second", "A", n.yes_text, filestore.has_second),
    ("second.value", "MX", n.bytes_text, filestore.second_part),
    ("second.span_test", "MX", n.test_text, filestore.second_test),
    *filed_rows("request", "Q", REQUEST, n.request_text),
    one_name("create_file", 0),
    one_name("delete_file", 1),
    two_names("rename_file", 2),
    two_names("append_file", 3),
    two_names("replace_file", 4),
    one_name("create_directory", 5),
    one_name("remove_directory", 6),
    one_name("deny_file", 7),
    one_name("deny_directory", 8),
    *filed_rows("response", "R", RESPONSE, n.response_text),
    ("response.new_no_filestore_message", "AOSM", n.response_text, filestore.no_message),
    ("response.has_second_filename", "A", n.yes_text, filestore.has_second),
    ("response.status_code", "R", str, lambda filed: filed.status),
    ("response.filestore_message", "R", n.span_text, lambda filed: filed.message),
    ("splice.put", "NXB", n.written_text, lambda place, data, buffer: ground.put(buffer, place, data)),
    ("splice.same", "XX", n.same_text, lambda data, other: data == other),
    ("number.read", "X", n.number_text, ground.number_read),
    ("number.test", "NN", n.test_text, ground.number_test),
    ("number.write", "NNBN", n.written_text, ground.number_write),
    ("walk.step_at", "XN", n.step_text, journal.step_at),
    ("walk.summary_of", "X", n.summary_text, journal.summary_of),
    ("kind.kind_at", "XN", str, journal.kind_at),
    ("walk.listing", "X", str, listing),
    ("walk.prefixes", "X", str, prefixes),
    ("walk.places", "X", str, places),
    ("record.to_tlv", "J", n.tlv_text, journal.record_tlv),
    ("record.value", "JX", n.bytes_text, lambda record, data: formats.part(record.value, data)),
    ("record.span_test", "JX", n.test_text, lambda record, data: formats.span_test(record.value, data)),
    ("walker.first", "X", n.step_text, lambda data: journal.Walker(data).step()),
    ("walker.new", "WX", n.place_text, walker_made),
    ("walker.made", "WXN", n.place_text, walker_made),
    ("walker.look", "W", n.step_text, journal.Walker.look),
    ("walker.step", "W", str, walker_stepped),
    ("dump.list", "X", str, dumped),
    ("listing.sum", "X", str, summed),
)
TABLE = {name: row for name, *row in ROWS}


def calls():
    """The calls, one a line: the name, and behind a space a letter for each of its words."""
    words = {name: "".join(SIMPLE[letter] for letter in letters.replace("B", "X") if letter not in STATES) for name, letters, *_ in ROWS}
    return "".join(f"{name} {letters}".rstrip() + "\n" for name, letters in words.items())


def taken(letters, words, states):
    """What a call takes, made of its words."""
    if len(words) != sum(len(SIMPLE[letter]) for letter in letters if letter not in STATES):
        raise n.BadCase
    rest, values = iter(words), []
    for letter in letters:
        if letter in STATES:
            values.append(states[letter])
        elif letter in VALUES:
            simple, make = VALUES[letter]
            values.append(make(*[WORDS[each](next(rest)) for each in simple]))
        else:
            values.append(WORDS[letter](next(rest)))
    return values


def answer(call, states):
    """The answer of one call. Behind a writer's stands the buffer as it is then."""
    name, *words = call.split(" ")
    if name not in TABLE:
        return "bad case"
    letters, text, rule = TABLE[name]
    try:
        values = taken(letters, words, states)
    except n.BadCase:
        return "bad case"
    answered = told(text, rule, *values)
    return answered + "".join(f" buf {n.bytes_text(bytes(v))}" for v in values if isinstance(v, bytearray))


def answered_line(line):
    """A line with its answers: calls with a semicolon between them, each with a space before it that does not count. The states are new in each line."""
    if line == "" or line.startswith("#"):
        return line
    states = {letter: make() for letter, make in STATES.items()}
    return ";".join(f"{call} = {answer(call.removeprefix(' '), states)}" for call in line.split(";"))


def answered(text):
    """All lines, each with its answers and a line end."""
    lines = text.split("\n")
    if lines[-1] == "":
        lines.pop()
    return "".join(f"{answered_line(line)}\n" for line in lines)
