"""The slip worked out a second time, from document 01 and requests 8 and 9 of document 02: what it can say, its two forms, and the two
calls on it. A form is a description; one function writes and one reads, whichever it is. Nothing is taken from the Rattle code."""
from collections import namedtuple

PACS_008, CAMT_050, PACS_028, PACS_002 = range(1, 5)
PDNG, ACCC, RJCT, WAITS = range(4)
SEATS, OPENINGS, STEPS = 12, 65535, 24
NO_SLIP = 11

KIND_NUMBERS = {"pacs.008": PACS_008, "camt.050": CAMT_050, "pacs.028": PACS_028, "pacs.002": PACS_002}

# The checks of each kind in the order in which they run.
ORDERS = {
    PACS_008: [1, 2, 3, 5, 6, 7, 8, 17, 25, 27, 26, 28, 29, 30, 31, 32, 33, 34],
    CAMT_050: [1, 2, 3, 4, 5, 7, 12, 13, 14, 15, 16, 6, 17, 18, 19, 20, 21, 22, 23, 24],
    PACS_028: [1, 2, 3, 5, 6, 7, 8, 9, 10, 11],
    PACS_002: [1, 2, 3, 5, 6, 7, 35, 36, 37, 20, 21, 22, 23, 24],
}


def sayings(kind, status, *checks):
    """A kind and a status, with each of these checks."""
    return {(kind, status, check) for check in checks}


# What the slips of document 01 say, for good; the orders in which checks run are another matter. A pacs.028 tells how a pacs.008 ended.
PAYMENT_CHECKS = (3, *range(5, 9), 17, *range(20, 35))
FIRST_SAYINGS = (
    sayings(PACS_008, ACCC, 0) | sayings(PACS_008, RJCT, *PAYMENT_CHECKS)
    | sayings(CAMT_050, ACCC, 0) | sayings(CAMT_050, RJCT, *range(3, 8), *range(12, 25))
    | sayings(PACS_028, PDNG, 3, *range(5, 12)) | sayings(PACS_028, ACCC, 0) | sayings(PACS_028, RJCT, *PAYMENT_CHECKS))

# What slips say of the receiving bank's answer; six bytes alone can say it.
ANSWER_SAYINGS = (
    sayings(PACS_008, WAITS, 0) | sayings(PACS_028, RJCT, 36, 37)
    | sayings(PACS_002, ACCC, 0) | sayings(PACS_002, RJCT, 3, *range(5, 8), *range(20, 25), *range(35, 38)))
assert (len(FIRST_SAYINGS), len(ANSWER_SAYINGS), len(FIRST_SAYINGS | ANSWER_SAYINGS)) == (71, 16, 87)

# How many bits kind, status, check, seat, opening and step have, the most significant first; how many zero bits stand after them; how many
# bytes that makes; how many seats can be named; what can be said. Mark books hold five-byte slips, so both forms are read; six bytes alone
# are written.
Form = namedtuple("Form", "widths zeros long seats says")
FIVE_BYTES = Form(widths=(3, 2, 6, 3, 16, 10), zeros=0, long=5, seats=8, says=FIRST_SAYINGS)
SIX_BYTES = Form(widths=(3, 2, 6, 4, 16, 10), zeros=7, long=6, seats=SEATS, says=FIRST_SAYINGS | ANSWER_SAYINGS)
FORMS, WRITTEN = (FIVE_BYTES, SIX_BYTES), SIX_BYTES
assert all(sum(form.widths) + form.zeros == 8 * form.long for form in FORMS)

# The seats that six bytes alone can name; and the numbers that fit into their four bits and are no seats.
HIGH_SEATS, NO_SEATS = range(FIVE_BYTES.seats, SEATS), range(SEATS, 2**SIX_BYTES.widths[3])


def is_slip(form, kind, status, check, seat, opening, step):
    return (kind, status, check) in form.says and seat < form.seats and 1 <= opening <= OPENINGS and 1 <= step <= STEPS


def image(form, values):
    """The bytes that values have in a form; each must fit its width."""
    bits = "".join(f"{value:0{width}b}" for width, value in zip(form.widths, values)) + "0" * form.zeros
    return int(bits, 2).to_bytes(form.long, "big")


def values_in(form, slip):
    """The values of so many bytes as the form has, or None where they are no slip in it."""
    bits, values = f"{int.from_bytes(slip, 'big'):0{8 * form.long}b}", []
    for width in form.widths:
        values.append(int(bits[:width], 2))
        bits = bits[width:]
    return tuple(values) if bits == "0" * form.zeros and is_slip(form, *values) else None


def meaning(slip):
    """The values of bytes, or None where they are no slip. Their length alone says the form."""
    return next((values_in(form, slip) for form in FORMS if form.long == len(slip)), None)


def write_slip(values, buffer):
    """The call's number and detail. Bytes after the slip stay."""
    if len(buffer) < WRITTEN.long or not is_slip(WRITTEN, *values):
        return NO_SLIP, 0
    buffer[: WRITTEN.long] = image(WRITTEN, values)
    return 0, 0


def read_slip(slip):
    """The call's number, detail and six values."""
    values = meaning(slip)
    return (0, 0, *values) if values else (NO_SLIP, 0, *[0] * 6)
