"""The scenes of seats that share a room: all twelve at once, calls above seat 7 and above seat 11, which go on in that room; two seats in
turn; the last opening number."""
from journal import ROOM_LONG, SEAT_LONG
from script import (CASES, back, call, listed, note, payment, play, put, reply, request, rows, settle, show, slip_is, start, submit, sums,
                    ticket, transfer)
from slips import ACCC, CAMT_050, FIVE_BYTES, HIGH_SEATS, OPENINGS, SEATS, WRITTEN, image

ONE, TWO = 300001, 300002


def twelve_seats():
    note("Twelve pupils at once, each with sums of their own: one message in every seat, and its slip names the seat.")
    listed(*CASES)
    call(0, "lay", ROOM_LONG)
    for seat in range(SEATS):
        start(seat, 50000 + seat, 10000 + seat)
    moved = transfer(ONE, "1.00")
    for seat in range(SEATS):
        submit("ACCC 0", seat, ONE, moved)
        slip_is(image(WRITTEN, (CAMT_050, ACCC, 0, seat, 1, 1)).hex())
    for seat in range(SEATS):
        call(0, "read", *ticket(seat), ONE, 2)


def high_seats():
    note("Calls in seats 8 to 11. Buffers of five bytes are too short; of seven and eight bytes those after the sixth stay.")
    for seat in HIGH_SEATS:
        put(seat, ONE, 1, 1, 0, seat, 40000)
        submit("RJCT 20", seat, ONE, transfer(ONE), long=7)
        back(seat, 2)
        submit("11 0", seat, ONE, transfer(ONE), long=FIVE_BYTES.long)
        paid = settle("ACCC 0", seat, ONE, payment(ONE, amount=f"{seat}.00"), long=8)
        submit("ACCC 0", seat, ONE, request(ONE, paid))
        rows([6], seat, ONE, request(ONE, paid, id=paid["id"]))
    note("One of them is closed and opened again. Seats 0 to 3, whose numbers end in the same three bits, are as they were.")
    call(0, "close", *ticket(11))
    call(3, "read", 11, 1, ONE, 1)
    assert call(0, "open", 11, *sums(7, 8))[2] == 2
    call(4, "open", 8, *sums())
    for seat in (*HIGH_SEATS, 0, 1, 2, 3):
        play(f"dump {seat}")


def no_seats():
    note("Seats from 12 on are refused by 3, for opening too, also with other bad numbers beside them.")
    sheet = transfer(ONE)
    for seat in (SEATS, SEATS + 4, 2**64 - 1):
        call(3, "open", seat, *sums(50000, 10000))
        call(3, "close", seat, 1)
    for opening in (0, 1):
        call(3, "set", SEATS, opening, ONE, 1, 0, 0, 0, "-")
        call(3, "submit", SEATS, opening, ONE, 20240301, WRITTEN.long, sheet)
        call(3, "back", SEATS, opening)
        call(3, "read", SEATS, opening, ONE, 1)
    call(3, "submit", SEATS, 1, ONE, 20240230, FIVE_BYTES.long, "<A></A>")
    call(3, "open", SEATS, 10**15 + 1)
    for seat in (4, 11):
        play(f"dump {seat}")


def in_turn(first, second):
    """The same messages in two seats of a room that is laid out for them."""
    call(0, "lay", ROOM_LONG)
    start(first, 50000, 10000)
    start(second, 100, 200, 300, 400)
    paid, moved = payment(ONE), transfer(ONE)
    submit("WAITS 0", first, ONE, paid)
    submit("PDNG 10", second, ONE, request(ONE, paid))
    submit("RJCT 35", second, TWO, reply(TWO, paid))
    submit("ACCC 0", second, ONE, moved)
    submit("ACCC 0", first, ONE, moved)
    submit("WAITS 0", second, ONE, paid)
    submit("ACCC 0", first, TWO, reply(TWO, paid))
    put(second, ONE, 1, 1, 1, 5, 0)
    submit("ACCC 0", first, ONE, transfer(ONE))
    submit("RJCT 20", second, ONE, transfer(ONE))
    back(first, 4)
    submit("RJCT 6", second, ONE, paid)
    call(10, "back", *ticket(first))
    show(first, ONE)
    note("One is closed and opened again: its opening number grows, its journal is empty, its old ticket is 3. The other goes on.")
    call(0, "close", *ticket(first))
    play(f"dump {first}")
    call(3, "read", first, 1, ONE, 1)
    submit("RJCT 17", second, ONE, transfer(ONE, uetr=moved["uetr"]))
    assert call(0, "open", first, *sums(7, 8))[2] == 2
    call(3, "back", first, 1)
    settle("RJCT 22", first, ONE, paid)
    play(f"dump {first}")
    play(f"dump {second}")


def two_seats():
    note("Two seats in turn: the same messages in both, and neither sees the other.")
    in_turn(0, 7)
    note("The same in two seats above 7.")
    in_turn(8, 11)


def last_opening(seat):
    """Of a seat that is closed."""
    play(f"poke {seat * SEAT_LONG} {OPENINGS - 1}")
    assert call(0, "open", seat, *sums(50000, 10000))[2] == OPENINGS
    call(4, "open", seat, 1)
    submit("ACCC 0", seat, ONE, transfer(ONE))
    call(0, "read", seat, OPENINGS, ONE, 2)
    call(0, "close", seat, OPENINGS)
    call(5, "open", seat, *sums())
    call(5, "open", seat, 1)
    play(f"dump {seat}")


def openings():
    note("The last opening number: a closed seat's count is stored as 65,534; opened and closed, the seat is 5, with bad sums too.")
    call(0, "lay", ROOM_LONG)
    last_opening(2)
    last_opening(11)


SCENES = (twelve_seats, high_seats, no_seats, two_seats, openings)
