"""The scenes of transfers that the receiving bank answers: a pacs.008 waits, and a pacs.002 settles it or has it rejected."""
from journal import ID_FROM, ID_LONG, ROOM_LONG, SEAT_LONG, STEP_LONG, STEPS_FROM
from script import (BAD_IBAN, DECLINES, REFUSES, back, call, centre, listed, note, payment, play, put, reply, request, rows, slip_is, start,
                    submit, ticket, transfer)

ONE, TWO, THREE, BRANCH = 300001, 300002, 300003, 300012
BANKS = [(ONE, 1, 0, 0), (TWO, 1, 0, 0), (THREE, 1, 0, 0), (BRANCH, 1, 1, TWO), (300014, 1, 2, TWO), (300022, 1, 3, TWO)]


def two_stages():
    note("A pacs.008 waits and moves nothing, its receiver's ACCP settles it. Taken back, it waits again: asked about it gives 10.")
    listed(*BANKS)
    call(0, "lay", ROOM_LONG)
    start(0, 50000, 10000, 70000, 20000)
    paid = submit("WAITS 0", 0, ONE, payment(ONE, amount="30.00"))
    slip_is("380000020080")
    play("dump 0")
    settled = submit("ACCC 0", 0, TWO, reply(TWO, paid))
    slip_is("880000020100")
    play("dump 0")
    back(0)
    play("dump 0")
    submit("PDNG 10", 0, ONE, request(ONE, paid))
    slip_is("614000020100")
    back(0)
    note("Answered by its own sender it goes on waiting. Declined and refused it is rejected, and another answer finds it no more.")
    submit("RJCT 35", 0, ONE, reply(ONE, paid))
    slip_is("946000020100")
    back(0)
    submit("RJCT 36", 0, TWO, settled.but(**DECLINES))
    slip_is("948000020100")
    submit("RJCT 36", 0, ONE, request(ONE, paid))
    submit("RJCT 35", 0, TWO, reply(TWO, paid))
    back(0, 3)
    submit("RJCT 37", 0, TWO, settled.but(**REFUSES))
    submit("RJCT 37", 0, ONE, request(ONE, paid))
    slip_is("74a000020180")
    submit("RJCT 35", 0, TWO, reply(TWO, paid))
    back(0, 3)
    note("Settled at last: another answer, whatever it says, is 35, and the transfer is told of as before.")
    submit("ACCC 0", 0, TWO, settled)
    submit("RJCT 35", 0, TWO, reply(TWO, paid))
    submit("RJCT 35", 0, TWO, reply(TWO, paid, REFUSES))
    submit("ACCC 0", 0, ONE, request(ONE, paid))
    submit("PDNG 11", 0, ONE, request(ONE, paid, reference="another"))
    play("dump 0")


def at_the_settling():
    note("20 to 24 at the settling, though all was well at the submit; each with later ones failing too as far as they can.")
    start(1, 50000, 10000, 70000, 20000)
    waiting = [submit("WAITS 0", 1, ONE, payment(ONE, to, amount="100.00")) for to in (TWO, TWO, BRANCH, TWO, TWO)]
    put(1, ONE, 2, out=1, ltk=1, lpo=0)
    put(1, TWO, 2, into=1)
    submit("RJCT 20", 1, TWO, reply(TWO, waiting[0]))
    put(1, ONE, 2, into=1, ltk=1, lpo=0)
    submit("RJCT 21", 1, TWO, reply(TWO, waiting[1]))
    put(1, TWO, 2, out=1)
    submit("RJCT 22", 1, BRANCH, reply(BRANCH, waiting[2]))
    put(1, ONE, 2, into=1, lpo=0)
    submit("RJCT 24", 1, TWO, reply(TWO, waiting[3]))
    put(1, ONE, 2, into=1, lpo=9999)
    submit("RJCT 23", 1, TWO, reply(TWO, waiting[4]))
    note("Settled, though at the submit there was no money, a block and LPO 0. What was rejected stays so.")
    put(1, ONE, 2, out=1, lpo=0)
    poor = submit("WAITS 0", 1, ONE, payment(ONE, amount="500.00"))
    put(1, ONE, 2, lpo=50000)
    submit("ACCC 0", 1, ONE, transfer(ONE, "400.00"))
    submit("RJCT 35", 1, BRANCH, reply(BRANCH, waiting[2]))
    submit("RJCT 22", 1, ONE, request(ONE, waiting[2]))
    submit("ACCC 0", 1, TWO, reply(TWO, poor))
    play("dump 1")


def who_answers():
    note("The receiver answers by its code: not head for branch, nor branch for head, nor another bank. Who is no sender gets 12.")
    start(2, 50000, 10000, 70000, 20000)
    to_head, to_branch = (submit("WAITS 0", 2, ONE, payment(ONE, to)) for to in (TWO, BRANCH))
    submit("RJCT 35", 2, BRANCH, reply(BRANCH, to_head))
    submit("RJCT 35", 2, TWO, reply(TWO, to_branch, DECLINES))
    submit("RJCT 35", 2, THREE, reply(THREE, to_head, REFUSES))
    for sender, check in ((300009, 1), (300022, 1), (300014, 2)):
        submit(f"12 {check}", 2, sender, reply(sender, to_head))
    note("The identifier counts byte for byte, and only that of a pacs.008 that waits: not a rejected one's, nor another kind's.")
    failed = submit("RJCT 34", 2, ONE, payment(ONE, creditor_iban=BAD_IBAN))
    moved = submit("ACCC 0", 2, ONE, transfer(ONE))
    asked = submit("PDNG 10", 2, ONE, request(ONE, to_head))
    for original in (failed["id"], moved["id"], asked["id"], to_head["id"] + " ", to_head["id"][:-1]):
        stray = submit("RJCT 35", 2, TWO, reply(TWO, to_head, original=original))
    submit("RJCT 35", 2, TWO, reply(TWO, stray))
    submit("ACCC 0", 2, BRANCH, reply(BRANCH, to_branch))
    submit("ACCC 0", 2, TWO, reply(TWO, to_head))
    play("dump 2")


def meanwhile():
    note("No money is set aside for what waits; others go on, and are answered in any order. What was rejected frees nothing.")
    start(3, 50000, 10000, 70000, 20000)
    first, second = (submit("WAITS 0", 3, ONE, payment(ONE, amount=amount)) for amount in ("100.00", "60.00"))
    submit("ACCC 0", 3, ONE, transfer(ONE, "40.00", way="21"))
    submit("ACCC 0", 3, TWO, reply(TWO, second))
    submit("ACCC 0", 3, ONE, transfer(ONE, "99.99"))
    answer = submit("RJCT 22", 3, TWO, reply(TWO, first))
    submit("RJCT 6", 3, ONE, first)
    submit("RJCT 17", 3, ONE, payment(ONE, uetr=first["uetr"]))
    submit("RJCT 6", 3, TWO, transfer(TWO, id=answer["id"]))
    note("Taken back, a transfer is gone for its receiver; sent again it waits. Calls never bring two of one MsgId: waiting ones count.")
    waiting = submit("WAITS 0", 3, TWO, payment(TWO, ONE))
    back(3)
    submit("RJCT 35", 3, ONE, reply(ONE, waiting))
    submit("WAITS 0", 3, TWO, waiting)
    submit("RJCT 6", 3, TWO, payment(TWO, ONE, id=waiting["id"]))
    submit("RJCT 17", 3, ONE, payment(ONE, uetr=waiting["uetr"]))
    submit("RJCT 17", 3, TWO, transfer(TWO, uetr=waiting["uetr"]))
    note("No time runs out: it is settled weeks later, where the answer's own time is that of the call's date.")
    late = submit("RJCT 7", 3, ONE, reply(ONE, waiting, created="2024-04-14T23:59:59"))
    back(3)
    submit("ACCC 0", 3, ONE, late, date=20240415)
    play("dump 3")


def name_like_first(seat, step):
    """Gives a step the MsgId of the first, number by number."""
    first = seat * SEAT_LONG + STEPS_FROM + ID_FROM
    for place in range(first, first + ID_LONG):
        same = place + (step - 1) * STEP_LONG
        if centre.number_at(same) != centre.number_at(place):
            play(f"poke {same} {centre.number_at(place)}")


def made_by_hand():
    note("Three that wait under one MsgId, made by hand: an answer goes to the first that waits for its sender; 10 while one waits.")
    start(6, 50000, 10000, 70000, 20000)
    first, _, third = (submit("WAITS 0", 6, ONE, payment(ONE, to)) for to in (TWO, BRANCH, TWO))
    name_like_first(6, 2)
    name_like_first(6, 3)
    submit("ACCC 0", 6, BRANCH, reply(BRANCH, first))
    submit("RJCT 37", 6, TWO, reply(TWO, first, REFUSES))
    submit("PDNG 10", 6, ONE, request(ONE, first))
    rows([10, 11], 6, ONE, request(ONE, third, original=first["id"]))
    submit("ACCC 0", 6, TWO, reply(TWO, first))
    submit("RJCT 35", 6, TWO, reply(TWO, first))
    submit("RJCT 37", 6, ONE, request(ONE, first))
    submit("PDNG 11", 6, ONE, request(ONE, third, original=first["id"]))
    play("dump 6")


def still_waiting():
    note("An answer that fails before 36, here each declines, leaves the transfer waiting: 5, 7, 6, 35; 3 by another directory.")
    start(4, 50000, 10000, 70000, 20000)
    waiting = [submit("WAITS 0", 4, ONE, payment(ONE, amount="40.00")) for _ in range(3)]
    paid = waiting[0]
    submit("RJCT 5", 4, TWO, reply(TWO, paid, DECLINES, id="X", created="2024-02-28T23:59:59"))
    used = submit("RJCT 7", 4, TWO, reply(TWO, paid, DECLINES, created="2024-02-28T23:59:59", original="X"))
    submit("RJCT 6", 4, TWO, used)
    submit("RJCT 35", 4, TWO, reply(TWO, paid, DECLINES, original="X"))
    listed((ONE, 1, 0, 0), (TWO, 0, 0, 0))
    submit("RJCT 3", 4, TWO, reply(TWO, paid, DECLINES, id="X"))
    note("The receiver is listed no more, as a provider, as an indirect branch: 12, and the transfer goes on waiting.")
    listed((ONE, 1, 0, 0))
    submit("12 1", 4, TWO, reply(TWO, paid))
    for kind, check in ((3, 1), (2, 2)):
        listed((ONE, 1, 0, 0), (TWO, 1, kind, ONE))
        submit(f"12 {check}", 4, TWO, reply(TWO, paid))
    kept_places(waiting)


def kept_places(waiting):
    """Of transfers from place 0 to place 1 that wait for 300002."""
    note("A direct branch at its old place answers: that place is credited still, though its head stands elsewhere.")
    listed((100001, 1, 0, 0), (TWO, 1, 1, 100001))
    submit("ACCC 0", 4, TWO, reply(TWO, waiting[0]))
    note("An owner at another place answers: 20 and 21 go by the accounts of those who stand at the two kept places.")
    listed((200001, 1, 0, 0), (200002, 1, 0, 0), (TWO, 1, 0, 0))
    put(4, TWO, 2, 1, 1, 10**15, 0)
    for owner, out, into, check in ((200001, 1, 0, 20), (200002, 0, 1, 21)):
        put(4, owner, 2, out, into)
        submit(f"RJCT {check}", 4, TWO, reply(TWO, waiting[1]))
        back(4, 2)
    note("The receiver alone is listed, at the place that is debited; the one that is credited has no record. Then money is short.")
    listed((TWO, 1, 0, 0))
    submit("ACCC 0", 4, TWO, reply(TWO, waiting[1]))
    call(0, "read", *ticket(4), TWO, 2)
    submit("RJCT 22", 4, TWO, reply(TWO, waiting[2]))
    play("dump 4")


SCENES = (two_stages, at_the_settling, who_answers, meanwhile, made_by_hand, still_waiting)
