"""The scenes of calls that are refused, each with what stands beside the fault."""
from journal import ACCOUNT_LONG, HEAD_LONG, LPO_AT, ROOM_LONG, SEAT_LONG, STEP_LONG, STEPS_FROM
from messages import FITS, KINDS, document, is_money
from script import (DECLINES, NONE, REFUSES, back, call, centre, listed, note, payment, play, put, reply, request, settle, show, start,
                    submit, sums, ticket, transfer)
from slips import FIVE_BYTES, HIGH_SEATS, NO_SEATS, SEATS, SIX_BYTES, STEPS, WRITTEN, image

ONE, TWO = 300001, 300002

# Rooms of a wrong length: of eight seats; of steps that name no receiver and answer nothing. And the longest that the drill lends.
EIGHT_SEATS_LONG, SHORT_STEPS_LONG, LENT_MOST = 8 * SEAT_LONG, ROOM_LONG - SEATS * STEPS * 2, ROOM_LONG + 16


def slips_written():
    note("Slips that are written: into buffers under six bytes; of six bytes and longer, whose bytes after the sixth stay. Four kinds.")
    for long in (0, 4, 5, 6, 7, 8):
        call(0 if long >= WRITTEN.long else 11, "write", 2, 1, 0, 3, 1, 1, long)
    for seat in HIGH_SEATS:
        call(0, "write", 1, 2, 34, seat, 65535, 24, 7)
    for saying in [(1, 3, 0), (4, 1, 0), (4, 2, 37)]:
        call(0, "write", *saying, 0, 1, 2, 6)
    note("Fields that no slip has; seats 12 to 15, which fit into four bits, are none. Checks and a status of other kinds.")
    for values in [(10, 1, 0, 3, 1, 1), (2, 5, 0, 0, 1, 1), (3, 0, 17, 0, 1, 1), (2, 1, 0, 16, 1, 1), (2, 1, 0, 0, 65537, 1),
                   (2, 1, 0, 0, 1, 25), (1, 2, 36, 0, 1, 1), (2, 3, 0, 0, 1, 1), (4, 2, 17, 0, 1, 1), (2, 1, 0, NO_SEATS[0], 1, 1),
                   (2, 1, 0, NO_SEATS[-1], 1, 1)]:
        call(11, "write", *values, 8)


def slips_read():
    note("Slips that are read: case 8 in five bytes and in six; its five bytes and a zero byte say something else. The highest ones.")
    for digits, values in [("480c000401", (2, 1, 0, 3, 1, 1)), ("480600020080", (2, 1, 0, 3, 1, 1)), ("480c00040100", (2, 1, 0, 6, 2, 2)),
                           ("345ffffc18", (1, 2, 34, 7, 65535, 24)), ("3457fffe0c00", (1, 2, 34, 11, 65535, 24))]:
        assert call(0, "slip", digits)[2:] == values
    note("Kind 4 and status 3 in six bytes; in five they are none.")
    for values in [(4, 2, 37, 0, 1, 1), (1, 3, 0, 0, 1, 1)]:
        assert call(0, "slip", image(SIX_BYTES, values).hex())[2:] == values
        call(11, "slip", image(FIVE_BYTES, values).hex())
    note("Six bytes with seats 8 and 11, and with 12 and 15, which are none; then with a one among the last seven bits.")
    for seat in (HIGH_SEATS[0], HIGH_SEATS[-1], NO_SEATS[0], NO_SEATS[-1]):
        call(0 if seat < SEATS else 11, "slip", image(SIX_BYTES, (2, 1, 0, seat, 1, 1)).hex())
    for bit in (0, SIX_BYTES.zeros - 1):
        call(11, "slip", f"4806000200{0x80 | 1 << bit:02x}")
    note("Other lengths, six bytes cut to five, and steps that are none in both forms.")
    for digits in ["", "480c0004", "48060002008000", "480c0004010000", "4806000200800000", "4806000200", "480c000400", "480600020000"]:
        call(11, "slip", digits)


def sheets():
    note("Sheets refused by 7, each with its place. The sender is unlisted, which would be 12.")
    start(0, 50000, 10000)
    good, answer = str(transfer(ONE)), str(reply(TWO, payment(ONE)))
    long = good.replace("<LqdyCdtTrf>", "<LqdyCdtTrf>" + ("<P>" + "x" * 140 + "</P>") * 53, 1)
    long = long.replace("</MsgHdr>", "</MsgHdr><P>" + "y" * (8192 - len(long) - len("<P></P>")) + "</P>")
    assert len(long) == 8192
    for sheet, place in [
        (good[:-1], len(good) - 1), (answer + " ", len(answer)), (good.replace("UAH", "UaH", 1), good.index('"UAH"') + 2),
        (good.replace("09:00:00", "09:00&00"), good.index("09:00:00") + 5), ("<A>" * 13, 36), ("<A>" + "<B>x</B>" * 256 + "</A>", 2044),
        (long.replace("yy", "yyy", 1), 8192), ("<" * 8193, 8192),
    ]:
        submit(f"7 {place}", 0, 300009, sheet)
    note("Unknown messages; then fields that are missing, doubled and ill-shaped in turn: 8 with the field's number.")
    for sheet in ["<A>x</A>", "<Document>x</Document>", good.replace("</Document>", "<A>x</A></Document>")]:
        submit("8 0", 0, 300009, sheet)
    paid = payment(ONE, previous=ONE)
    for sheet, fields in ((paid, (1, 6, 7, 8, 9, 14)), (transfer(ONE), (2, 4, 6)), (request(ONE, paid), (3, 5)),
                          (reply(TWO, paid, REFUSES), (3, 4, 5))):
        leaves = sheet.leaves()
        for k in fields:
            (shape, path), leaf = KINDS[sheet.kind][1][k - 1], leaves[k - 1]
            misfit = FITS["amount" if is_money(shape) else shape.rstrip("?")][1][0]
            parts = [[], [leaf, leaf], [(path, misfit, leaf[2])]][k % 3]
            submit(f"8 {k}", 0, 300009, document(sheet.kind, [*leaves[: k - 1], *parts, *leaves[k:]]))
    note("The lowest number wins; another currency; TxSts beside ACCP; a good sheet and the unlisted sender at last. No step was made.")
    submit("8 4", 0, 300009, payment(ONE, instructed="1", creditor="2"))
    submit("8 7", 0, 300009, payment(ONE, currency="USD"))
    submit("8 5", 0, 300009, reply(TWO, paid, REFUSES, group_status="ACCP"))
    submit("12 1", 0, 300009, good)
    play("dump 0")
    note("A sheet of 8,192 bytes is carried out.")
    submit("ACCC 0", 0, ONE, long)


def buffers():
    good = transfer(ONE)
    note("Short buffers: 11, with an ill-formed sheet or an unlisted sender too. Long ones.")
    submit("11 0", 0, ONE, transfer(ONE), long=0)
    submit("11 0", 0, ONE, "<A></A>", long=1)
    submit("11 0", 0, 300009, good, long=4)
    submit("11 0", 0, ONE, transfer(ONE, "0.01"), long=5)
    submit("ACCC 0", 0, ONE, transfer(ONE, "0.01"), long=7)
    submit("7 4", 0, ONE, "<A></A>", long=8)
    submit("8 0", 0, ONE, "<A>x</A>", long=7)
    submit("12 2", 0, 300011, good, long=6)
    call(0, "close", *ticket(0))


def numbers():
    note("Tickets: a closed seat, a seat above 11, opening numbers that differ; with other bad numbers beside them it is 3 still.")
    start(1, 50000, 10000)
    seat, opening = ticket(1)
    sheet = str(transfer(ONE))
    call(3, "close", 0, centre.seats[0].opening)
    call(3, "close", seat, opening + 65536)
    call(3, "back", 2**64 - 1, opening)
    call(3, "back", seat, opening - 1)
    call(3, "read", seat, opening + 1, 300009, 3)
    call(3, "set", seat, 0, ONE, 0, 0, 0, 10**15 + 1, "-")
    call(3, "submit", seat, opening + 1, ONE, 20240230, 4, sheet)
    note("A seat that is open is 4, with bad sums too. 6: owners and account numbers that are none, limits, a sender above 999999.")
    call(4, "open", seat, *sums())
    call(4, "open", seat, 10**15 + 1)
    for owner, number in [(300009, 1), (300012, 2), (ONE, 0), (2**64 - 1, 1)]:
        call(6, "read", seat, opening, owner, number)
    for owner, number in [(300009, 1), (300011, 2), (ONE, 3)]:
        put(seat, owner, number, 1, 1, 1, 1, wants=6)
    for ltk, lpo in [(10**15 + 1, NONE), (0, 10**15 + 1), (0, 2**64 - 1)]:
        put(seat, ONE, 1, 0, 0, ltk, lpo, wants=6)
    submit("6 0", seat, 1000000, sheet)
    call(10, "back", seat, opening)
    play("dump 1")
    note("Sums: their count, one above 10^15, one for a record that is no owner. The largest amount; a balance above 10^15.")
    right = sums(10**15, 10**15, 0, 10**15)
    for given in [[], right[:-1], right[:-2], right + [0] * 12, [10**15 + 1, *right[1:]], [*right[:6], 1, *right[7:]]]:
        call(6, "open", 0, *given)
    call(0, "open", 0, *right)
    submit("ACCC 0", 0, ONE, transfer(ONE, "99999999999.99"))
    settle("ACCC 0", 0, ONE, payment(ONE, amount="99999999999.99"))
    play("dump 0")


def account_place(account, number):
    """Of seat 0."""
    return HEAD_LONG + ACCOUNT_LONG * account + number


def step_place(step, number):
    return STEPS_FROM + STEP_LONG * (step - 1) + number


def spoilt(place, number, *calls):
    """Calls on a room with another number at a place, which then has its own again."""
    own = centre.number_at(place)
    assert own != number
    play(f"poke {place} {number}")
    for words in calls:
        call(1, *words)
    play(f"poke {place} {own}")


def spoilt_in_turn(place, numbers, words):
    """A call on a room with one number after another at a place, which then has its own again."""
    own = centre.number_at(place)
    assert own not in numbers
    for number in numbers:
        play(f"poke {place} {number}")
        call(1, *words)
    play(f"poke {place} {own}")


def rooms():
    note("Rooms with one number changed: 1, also with a bad ticket or number beside it. A number behind the room changes nothing.")
    start(0, 50000, 10000)
    put(0, ONE, 1, 0, 1, 100, 40000)
    submit("ACCC 0", 0, ONE, transfer(ONE, "200.00"))
    submit("RJCT 22", 0, ONE, transfer(ONE, "400.00"))
    settle("ACCC 0", 0, ONE, payment(ONE, amount="3.00"))
    sheet = transfer(ONE)
    spoilt(account_place(0, 1), 30001, ("open", SEATS, 1))
    spoilt(account_place(0, 2), 0, ("close", SEATS, 1))
    spoilt(account_place(0, LPO_AT), 0, ("set", *ticket(0), ONE, 3, 0, 0, 0, "-"))
    spoilt(account_place(31, 0), 1, ("submit", *ticket(0), ONE, 20240301, WRITTEN.long, sheet))
    spoilt(step_place(2, 19), 19999, ("submit", *ticket(0), 1000000, 0, 4, "<A></A>"))
    spoilt(step_place(3, 2), 25, ("back", 0, 65536))
    spoilt(step_place(4, 17), 0, ("read", *ticket(0), ONE, 1))
    spoilt(step_place(6, 28), 1, ("back", *ticket(0)))
    spoilt(0, 65536, ("back", *ticket(0)))
    spoilt(8 * SEAT_LONG, 65536, ("open", 8, *sums()))
    spoilt(11 * SEAT_LONG + 2, 1, ("read", *ticket(0), ONE, 1))
    spoilt(ROOM_LONG - 1, 1, ("close", *ticket(0)))
    play(f"poke {ROOM_LONG} 1")
    show(0, ONE)
    spoilt_answers()
    play("dump 0")


def wrong_lengths():
    sheet = transfer(ONE)
    note("Rooms of a wrong length: 1 for laying out and for every call behind it. A new room has no opening numbers.")
    call(1, "lay", 0)
    call(1, "open", 0, *sums())
    call(1, "lay", ROOM_LONG - 1)
    call(1, "set", *ticket(0), ONE, 1, 0, 0, 0, "-")
    call(1, "close", *ticket(0))
    call(1, "lay", ROOM_LONG + 1)
    call(1, "submit", *ticket(0), ONE, 20240301, WRITTEN.long, sheet)
    call(1, "lay", SHORT_STEPS_LONG)
    call(1, "lay", LENT_MOST)
    call(1, "back", *ticket(0))
    call(1, "read", *ticket(0), ONE, 1)
    call(0, "lay", ROOM_LONG)
    play("dump 0")
    play(f"poke {2 * SEAT_LONG - 1} 1")
    call(1, "open", 0, *sums())
    call(0, "lay", ROOM_LONG)
    call(0, "open", 0, *sums(5, 6))


def spoilt_answers():
    """In the room of the scene above, where step 5 settled step 4; here steps 6 and 7 are a transfer that was declined."""
    note("A transfer with ACCC, its receiver; its answer's receiver, step, movement; two answers to one; 35 that answers; a set's kind.")
    paid = submit("WAITS 0", 0, ONE, payment(ONE, amount="4.00"))
    submit("RJCT 36", 0, TWO, reply(TWO, paid, DECLINES))
    for step, number, values in [(4, 1, [1]), (4, 29, [1000000]), (5, 29, [TWO]), (5, 30, [0, 3, 5, 6]), (7, 30, [4]), (5, 19, [299]),
                                 (7, 2, [35]), (1, 0, [4])]:
        spoilt_in_turn(step_place(step, number), values, ("read", *ticket(0), ONE, 2))


def eight_seats():
    note("A room of eight seats has a wrong length: 1 for laying out, and for every call, good or bad. Its numbers stay.")
    start(0, 50000, 10000)
    submit("ACCC 0", 0, ONE, transfer(ONE))
    seat, opening = ticket(0)
    call(1, "lay", EIGHT_SEATS_LONG)
    call(1, "open", 1, *sums())
    call(1, "set", seat, opening, ONE, 1, 0, 0, 0, "-")
    call(1, "submit", seat, opening, ONE, 20240301, WRITTEN.long, transfer(ONE))
    call(1, "back", seat, opening)
    call(1, "read", seat, opening, ONE, 1)
    call(1, "close", seat, opening)
    play("dump 0")
    call(0, "lay", ROOM_LONG)


def directories():
    note("Unfit directories: 2, with a bad ticket and bad numbers too; with an unfit room 1. Close and take back ask for none.")
    start(0, 5, 6)
    put(0, ONE, 1, ltk=1)
    listed()
    bad = (("open", SEATS, 1), ("set", 0, 0, ONE, 3, 0, 0, 10**15 + 1, "-"), ("submit", SEATS, 1, 1000000, 0, 0, ""),
           ("read", 0, 0, ONE, 3))
    for words in bad:
        call(2, *words)
    spoilt(account_place(0, 1), 6, *bad)
    call(0, "back", *ticket(0))
    call(3, "close", SEATS, 1)
    note("Unsorted, a code twice, a code above 999999, one that names no owner, one that names nobody.")
    for records in [[(TWO, 1, 0, 0), (ONE, 1, 0, 0)], [(ONE, 1, 0, 0), (ONE, 1, 0, 0)], [(ONE, 1, 0, 0), (1000000, 1, 0, 0)],
                    [(ONE, 1, 0, 0), (300011, 1, 1, ONE), (300012, 1, 2, 300011)], [(ONE, 1, 0, 0), (300021, 1, 3, TWO)]]:
        listed(*records)
        call(2, "read", *ticket(0), ONE, 1)
    note("Sixteen records, code 0 among them: 32 sums, and the last place's accounts. A seventeenth is too many.")
    listed((0, 1, 0, 0), *[(100000 + k, 0, k % 4, 0) for k in range(14)], (999998, 1, 0, 0))
    call(6, "open", 1, 100, 200, *[0] * 28, 300)
    call(6, "open", 1, 100, 200, *[0] * 28, 300, 400, 0, 0)
    call(0, "open", 1, 100, 200, *[0] * 28, 300, 400)
    submit("ACCC 0", 1, 999998, transfer(999998, "3.00"))
    submit("ACCC 0", 1, 0, transfer(0, "2.00", way="21"))
    settle("ACCC 0", 1, 999998, payment(999998, 0, amount="4.00"))
    play("dump 1")
    play("record 999999 1 0 0")
    call(2, "open", 2, *[0] * 34)
    call(2, "read", *ticket(1), 0, 1)
    note("Another fit directory, with the highest code: what is stored belongs to the records that stand at its places.")
    listed((200001, 1, 0, 0), (200002, 1, 0, 0), (999999, 1, 1, 200002))
    show(1, 200001)
    call(6, "read", *ticket(1), 999998, 1)
    put(1, 200002, 1, 1, 1, 2, 3)
    submit("ACCC 0", 1, 200001, transfer(200001, "1.00"))
    play("dump 1")
    back(1, 2)
    call(0, "close", *ticket(1))
    play("dump 1")


SCENES = (slips_written, slips_read, sheets, buffers, numbers, rooms, wrong_lengths, eight_seats, directories)
