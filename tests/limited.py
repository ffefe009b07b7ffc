"""The scenes of the turnover limit with which an account opens: LPO is the opening sum, or none where that is 0. They share a room and the
directory of the cases; the last one reads that room by another directory."""
from journal import LPO_AT, OLD_LPO_AT, ROOM_LONG, stored_limit
from refused import account_place, spoilt, spoilt_in_turn, step_place
from script import (CASES, NONE, back, call, centre, listed, note, payment, play, put, reply, rows, settle, show, start, submit, sums,
                    ticket, transfer)

ONE, TWO, THREE = 300001, 300002, 300003

# With what the accounts of 300001 open, in kopecks.
OPENING_SUMS = 40000, 10000


def opened():
    note("Both accounts of each owner open with LPO equal to their sums, with none where that is 0: two sums; 0 and one kopeck.")
    listed(*CASES)
    call(0, "lay", ROOM_LONG)
    start(0, *OPENING_SUMS, 0, 1)
    show(0, ONE, TWO)
    play("dump 0")


def received_money():
    note("The limit does not follow the balance: 100.00 opened, 400.00 received, 100.01 sent is 23. 100.00 is done, no kopeck more.")
    start(1, *OPENING_SUMS)
    submit("ACCC 0", 1, ONE, transfer(ONE, "400.00"))
    submit("RJCT 23", 1, ONE, transfer(ONE, "100.01", way="21"))
    submit("ACCC 0", 1, ONE, transfer(ONE, "100.00", way="21"))
    more = rows([23], 1, ONE, transfer(ONE, "0.01", way="21"))
    rows([23], 1, ONE, transfer(ONE, "0.01"))
    note("Set to none, the account sends again. Taken back, its first set brings the opening limit back.")
    put(1, ONE, 2, lpo=NONE)
    submit("ACCC 0", 1, ONE, more)
    play("dump 1")
    back(1, 2)
    show(1, ONE)
    submit("RJCT 23", 1, ONE, more)


def opened_with_nothing():
    note("An account that opens with 0 has no limit, and not LPO 0: it sends on all that it receives. Both accounts of 300002.")
    start(2, *OPENING_SUMS)
    settle("ACCC 0", 2, ONE, payment(ONE, amount="100.00"))
    submit("ACCC 0", 2, TWO, transfer(TWO, "100.00", way="21"))
    submit("ACCC 0", 2, TWO, transfer(TWO, "100.00"))
    settle("ACCC 0", 2, TWO, payment(TWO, ONE, amount="100.00"))
    show(2, TWO)


def limit_of_that_moment():
    note("A settling goes by the limit and the turnover of its moment: 60.00 of 100.00 done, 40.01 is 23; with LPO 100.01 it is done.")
    start(3, *OPENING_SUMS)
    submit("ACCC 0", 3, ONE, transfer(ONE, "400.00"))
    first, second, third = (submit("WAITS 0", 3, ONE, payment(ONE, amount=amount)) for amount in ("60.00", "40.01", "40.01"))
    submit("ACCC 0", 3, TWO, reply(TWO, first))
    submit("RJCT 23", 3, TWO, reply(TWO, second))
    put(3, ONE, 2, lpo=OPENING_SUMS[1] + 1)
    submit("ACCC 0", 3, TWO, reply(TWO, third))
    play("dump 3")
    note("This answer and the set taken back, the same transfer is 23 too.")
    back(3, 2)
    submit("RJCT 23", 3, TWO, reply(TWO, third))


def without_limits(accounts, *calls):
    """Calls on a room whose seat 0 has no limit in these accounts, which then have their own again."""
    own = {place: centre.number_at(place) for place in (account_place(account, LPO_AT) for account in accounts)}
    for place in own:
        play(f"poke {place} {stored_limit(None)}")
    for words in calls:
        call(1, *words)
    for place, number in own.items():
        play(f"poke {place} {number}")


def unfit_limits():
    note("Rooms whose limits do not come out from their opening sums: 1. Neither account has a limit; then account 1 alone has none.")
    start(0, *OPENING_SUMS)
    reading = ("read", *ticket(0), ONE, 1)
    without_limits((0, 1), reading, ("open", 4, *sums()), ("set", *ticket(0), ONE, 1, 0, 0, 0, OPENING_SUMS[0]), ("close", *ticket(0)))
    without_limits((0,), reading)
    note("A kopeck less and a kopeck more, in account 1 and in account 2. LPO 0 where the opening sum is 0.")
    for account, opening_sum in enumerate(OPENING_SUMS):
        spoilt_in_turn(account_place(account, LPO_AT), [stored_limit(opening_sum - 1), stored_limit(opening_sum + 1)], reading)
    spoilt(account_place(2, LPO_AT), stored_limit(0), reading)
    note("The only account with a sum is set, to none. Its old LPO: none, and a kopeck less. With its own the set is taken back.")
    start(0, OPENING_SUMS[0])
    put(0, ONE, 1, lpo=NONE)
    spoilt_in_turn(step_place(1, OLD_LPO_AT), [stored_limit(None), stored_limit(OPENING_SUMS[0] - 1)], ("back", *ticket(0)))
    back(0)
    call(0, "read", *ticket(0), ONE, 1)


def place_of_no_owner():
    note("A record that is no owner has zeros at its place: an owner who stands there in another directory reads them.")
    listed((ONE, 1, 0, 0), (TWO, 1, 0, 0), (THREE, 1, 0, 0))
    show(0, THREE)


SCENES = (opened, received_money, opened_with_nothing, limit_of_that_moment, unfit_limits, place_of_no_owner)
