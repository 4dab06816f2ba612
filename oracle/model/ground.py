"""Refusals, bytes laid over a buffer, and big-endian numbers: what all the rules of this model lean on.

The model is written from documents 01 and 02 and docs/DECISIONS.md, and from nothing of the proved code. A refusal is an exception, so the tests of
a call stand one below another in the order in which document 01 names them. A buffer that is written to is a bytearray, and is changed in one place,
`lay`.
"""


class Refused(Exception):
    """Document 01, 'Answers by number': a number and the values that it carries. A refusal 1 has a place too (document 02, Q-2), and no other has."""

    def __init__(self, number, *values, place=None):
        super().__init__(number, *values, place)
        self.number, self.values, self.place = number, values, place

    @property
    def where(self):
        """The place as text, behind the number or the values; nothing where there is no place."""
        return "" if self.place is None else f" at {self.place}"


def short_test(place, found, expected):
    """1 where fewer bytes are found than expected, with the place where they ran short (document 02, Q-2). Every 1 is given here."""
    if found < expected:
        raise Refused(1, found, expected, place=place)


def place_test(place, size):
    """15 for a place past the end. The end itself is a place."""
    if place > size:
        raise Refused(15, place)


def room_test(buf, place, needed):
    """2 where the bytes from a place on are too few to write to."""
    if len(buf) - place < needed:
        raise Refused(2, len(buf) - place, needed)


def lay(buf, place, data):
    """The bytes over the buffer's, from a place on. All others stay. Answers how many were written."""
    buf[place : place + len(data)] = data
    return len(data)


def put(buf, place, data):
    """DECISIONS 24: 15 for the place, then 2."""
    place_test(place, len(buf))
    room_test(buf, place, len(data))
    return lay(buf, place, data)


def number_read(data):
    """DECISIONS 25: 5 for more than 8 bytes. The number of no bytes is 0."""
    if len(data) > 8:
        raise Refused(5, len(data))
    return int.from_bytes(data, "big")


def number_test(number, width):
    """DECISIONS 25: 5 for a width over 8, then 10 where the number does not fit. Width 0 holds 0 alone."""
    if width > 8:
        raise Refused(5, width)
    if number >= 256**width:
        raise Refused(10, width)


def number_write(number, width, buf, place):
    """DECISIONS 25: 5, 10, then 15 for the place, then 2."""
    number_test(number, width)
    place_test(place, len(buf))
    room_test(buf, place, width)
    return lay(buf, place, number.to_bytes(width, "big"))
