"""The scenes of messages that are judged: the cases of document 01, each check as the first that fails, and messages carried out."""
from journal import ROOM_LONG, SEAT_LONG
from script import (BAD_IBAN, CASES, NONE, REFUSES, SCHOOL, back, call, centre, id_of, listed, note, payment, play, put, reply, request,
                    settle, show, slip_is, start, submit, transfer)
from slips import OPENINGS, SEATS, STEPS, WRITTEN

ONE, TWO, BRANCH = 300001, 300002, 300012


def fresh():
    """The start of each case."""
    call(0, "lay", ROOM_LONG)
    start(3, 50000, 10000)


def cases():
    note("The cases of document 01. Case 1, and case 8 in its slip: 500.00 from account 1 to account 2, and 500.01.")
    listed(*CASES)
    fresh()
    submit("ACCC 0", 3, ONE, transfer(ONE, "500.00"))
    slip_is("480600020080")
    play("dump 3")
    fresh()
    submit("RJCT 22", 3, ONE, transfer(ONE, "500.01"))
    note("Case 2: LTK 100.00 leaves 400.00.")
    fresh()
    put(3, ONE, 1, ltk=10000)
    submit("ACCC 0", 3, ONE, transfer(ONE, "400.00"))
    back(3)
    submit("RJCT 22", 3, ONE, transfer(ONE, "400.01"))
    note("Case 3: LPO 400.00, then LPO 0.")
    fresh()
    put(3, ONE, 1, lpo=40000)
    submit("ACCC 0", 3, ONE, transfer(ONE, "400.00"))
    submit("RJCT 23", 3, ONE, transfer(ONE, "0.01"))
    fresh()
    put(3, ONE, 1, lpo=0)
    submit("RJCT 24", 3, ONE, transfer(ONE, "0.01"))


def later_cases():
    note("Case 4: a direct branch and an indirect one send a camt.050. Case 5: created on the leap day before, and a day earlier.")
    fresh()
    submit("RJCT 4", 3, 300012, transfer(300012))
    submit("12 2", 3, 300011, transfer(300011))
    submit("ACCC 0", 3, ONE, transfer(ONE, created="2024-02-29T23:59:59"))
    submit("RJCT 7", 3, ONE, transfer(ONE, created="2024-02-28T23:59:59"))
    note("Case 6: the creditor's IBAN. Case 7: a pacs.028 about a pacs.008 that was taken back, while it waited and once settled.")
    fresh()
    submit("RJCT 34", 3, ONE, payment(ONE, creditor_iban=BAD_IBAN))
    paid = submit("WAITS 0", 3, ONE, payment(ONE))
    back(3)
    submit("PDNG 10", 3, ONE, request(ONE, paid))
    settle("ACCC 0", 3, ONE, paid)
    submit("ACCC 0", 3, ONE, request(ONE, paid))
    back(3, 3)
    submit("PDNG 10", 3, ONE, request(ONE, paid))
    note("Case 9: three sheets that are refused. Case 10: the ticket of the first opening at the second one. Case 11 comes below.")
    for sheet, place in [("<A></A>", 4), ("<A>x</B>", 6), ("", 0)]:
        submit(f"7 {place}", 3, ONE, sheet)
    start(3)
    call(3, "read", 3, 1, ONE, 1)


def transfers():
    note("camt.050: each check as the first that fails; most fail a later one too. 1: unlisted, a provider. 2: an indirect branch.")
    listed(*SCHOOL)
    start(1, 50000, 10000, 70000, 20000, 3000, 3000)
    submit("12 1", 1, 300009, transfer(300009, way="11"))
    submit("12 1", 1, 300021, transfer(300021))
    submit("12 2", 1, 300015, transfer(300015, id="X"), long=8)
    first = submit("12 1", 1, 0, transfer(ONE, "0.01"))
    submit("ACCC 0", 1, ONE, first)
    note("3: an owner and a direct branch that are not instant. 4: an instant direct branch. 5: identifiers that are not good.")
    submit("RJCT 3", 1, 300003, transfer(300003, id="X"))
    submit("RJCT 3", 1, 300013, transfer(300013))
    submit("RJCT 4", 1, BRANCH, transfer(BRANCH, id="X"))
    for identifier in (id_of(TWO, 1), id_of(ONE, 1, "20230229"), id_of(ONE, 1)[:-1] + "a"):
        submit("RJCT 5", 1, ONE, transfer(ONE, id=identifier, created="2024-02-01T00:00:00"))
    submit("ACCC 0", 1, ONE, transfer(ONE, id=id_of(ONE, 0, "20991231")[:-8] + "AZ09ZA90"))
    note("7: two days before, the day after, the MsgId used already. 12 before 13. 14: currencies. 15: digits. 16: the amount's.")
    for created in ("2024-02-28T23:59:59", "2024-03-02T00:00:00"):
        submit("RJCT 7", 1, ONE, transfer(ONE, created=created, id=first["id"], creditor="1300002USD"))
    submit("RJCT 12", 1, ONE, transfer(ONE, debtor="1300002USD", creditor="2300002UAH"))
    submit("RJCT 13", 1, ONE, transfer(ONE, debtor="1300002USD"))
    submit("RJCT 14", 1, ONE, transfer(ONE, debtor="1300001USD", creditor="1300001UAH"))
    submit("RJCT 15", 1, ONE, transfer(ONE, way="11", currency="USD"))
    submit("RJCT 15", 1, ONE, transfer(ONE, way="32"))
    done = submit("ACCC 0", 1, ONE, transfer(ONE, way="21"))
    dollars = {"debtor": "1300001USD", "creditor": "2300001USD"}
    submit("RJCT 16", 1, ONE, transfer(ONE, currency="USD"))
    submit("RJCT 16", 1, ONE, transfer(ONE, **dollars, id=done["id"]))
    note("6 before 17: sent twice; then the UETR alone, here in another currency. 18: both accounts in another currency.")
    note("19 is never the first: where the debtor account is not in UAH, 14 fails, or the creditor account is not either and 18 fails.")
    submit("RJCT 6", 1, ONE, done)
    submit("RJCT 17", 1, ONE, transfer(ONE, uetr=done["uetr"], currency="USD", **dollars))
    submit("RJCT 18", 1, ONE, transfer(ONE, "9000.00", "USD", **dollars))
    full_journal()


def transfers_of_money():
    note("20 to 24, each with all later ones failing too as far as they can; 22 also where LPO is 0.")
    start(1, 50000, 10000)
    put(1, ONE, 1, out=1, lpo=0)
    put(1, ONE, 2, into=1)
    submit("RJCT 20", 1, ONE, transfer(ONE, "9000.00"))
    put(1, ONE, 1, into=1, lpo=0)
    submit("RJCT 21", 1, ONE, transfer(ONE, "9000.00"))
    put(1, ONE, 2, out=1)
    submit("RJCT 22", 1, ONE, transfer(ONE, "9000.00"))
    submit("RJCT 24", 1, ONE, transfer(ONE, "0.01"))
    put(1, ONE, 1, into=1, lpo=40000)
    submit("RJCT 23", 1, ONE, transfer(ONE, "400.01"))
    note("A block incoming of the debtor account and one outgoing of the creditor account stop nothing here; the other way they do.")
    submit("ACCC 0", 1, ONE, transfer(ONE, "400.00"))
    submit("RJCT 20", 1, ONE, transfer(ONE, way="21"))
    play("dump 1")


def full_journal():
    note("Case 11: step 25 is refused. With a short buffer it is 11, a bad number or date 6; a bad sheet or unlisted sender 9 still.")
    while len(centre.seats[1].steps) < STEPS:
        put(1, TWO, 2, ltk=len(centre.seats[1].steps))
    late = submit("9 0", 1, ONE, transfer(ONE, "0.01"))
    put(1, ONE, 2, wants=9)
    submit("11 0", 1, ONE, late, long=WRITTEN.long - 1)
    put(1, ONE, 3, lpo=NONE, wants=6)
    put(1, ONE, 2, ltk=10**15 + 1, wants=6)
    submit("6 0", 1, ONE, late, date=20240230)
    submit("9 0", 1, ONE, "<A></A>")
    submit("9 0", 1, 300009, late)
    back(1)
    submit("ACCC 0", 1, ONE, late)
    put(1, ONE, 2, wants=9)
    play("dump 1")


def payments_refused():
    note("pacs.008: each check as the first that fails. 1, 2, 3, 5, 6, 7, 8, 17.")
    start(2, 50000, 10000, 70000, 20000, 3000, 3000)
    submit("12 1", 2, 300009, payment(300009))
    submit("12 2", 2, 300014, payment(300014))
    submit("RJCT 3", 2, 300003, payment(300003, id="X"))
    done = settle("ACCC 0", 2, ONE, payment(ONE))
    submit("RJCT 5", 2, ONE, payment(ONE, id="X", created="2024-01-01T00:00:00"))
    submit("RJCT 6", 2, ONE, payment(ONE, id=done["id"], created="2024-01-01T00:00:00"))
    submit("RJCT 7", 2, ONE, payment(ONE, created="2024-02-28T00:00:00", instructing=TWO))
    submit("RJCT 8", 2, ONE, payment(ONE, instructing=TWO, uetr=done["uetr"]))
    submit("RJCT 17", 2, ONE, payment(ONE, uetr=done["uetr"], debtor=300009))
    note("25: the debtor agent unlisted or under the other S. 27: InstdAgt unlisted, not instant, an indirect branch, a provider.")
    for system, agent in (("SEP", 300009), ("SEP", 300021), ("ASP", ONE)):
        submit("RJCT 25", 2, ONE, payment(ONE, 300009, debtor_system=system, debtor=agent))
    for agent, system in ((300009, "ASP"), (300013, "SEP"), (300014, "SEP"), (300022, "ASP")):
        submit("RJCT 27", 2, ONE, payment(ONE, agent, creditor_system=system, creditor=300009))
    note("26: the creditor agent under ASP and no provider. 28: under SEP unlisted, a provider, not instant.")
    submit("RJCT 26", 2, ONE, payment(ONE, creditor_system="ASP", debtor=TWO))
    submit("RJCT 26", 2, ONE, payment(ONE, creditor_system="ASP", creditor=300009))
    for agent in (300009, 300021, 300015):
        submit("RJCT 28", 2, ONE, payment(ONE, creditor=agent, debtor=TWO))
    note("29: a provider that is not instant, that another bank serves, or whose bank's direct branch is InstdAgt.")
    submit("RJCT 29", 2, ONE, payment(ONE, creditor_system="ASP", creditor=300023, debtor=TWO))
    submit("RJCT 29", 2, ONE, payment(ONE, creditor_system="ASP", creditor=300021))
    submit("RJCT 29", 2, ONE, payment(ONE, BRANCH, creditor_system="ASP", creditor=300022))


def agents_refused():
    note("30: another bank, an own direct branch, the head of a direct branch. 31: another bank, a direct branch, the head of one.")
    start(2, 50000, 10000, 70000, 20000)
    submit("RJCT 30", 2, ONE, payment(ONE, debtor=TWO, creditor=BRANCH))
    submit("RJCT 30", 2, ONE, payment(ONE, debtor=300013))
    submit("RJCT 30", 2, BRANCH, payment(BRANCH, debtor=TWO))
    provider = {"debtor_system": "ASP", "debtor": 300021, "creditor_iban": BAD_IBAN}
    submit("RJCT 31", 2, ONE, payment(ONE, creditor=300011, previous=TWO, **provider))
    submit("RJCT 31", 2, ONE, payment(ONE, creditor=BRANCH))
    submit("RJCT 31", 2, ONE, payment(ONE, BRANCH, creditor=TWO))
    note("32: a provider that PrvsInstgAgt1 does not serve, though InstgAgt does. 33: not given, and InstgAgt does not serve it.")
    submit("RJCT 32", 2, ONE, payment(ONE, previous=TWO, **provider))
    submit("RJCT 33", 2, TWO, payment(TWO, ONE, **provider))
    submit("RJCT 33", 2, BRANCH, payment(BRANCH, ONE, debtor_system="ASP", debtor=300022))
    note("34 is the last. With the payer's account blocked, limited and too poor and the payee's blocked, a pacs.008 waits.")
    put(2, ONE, 2, out=1, lpo=0)
    put(2, TWO, 2, into=1)
    submit("RJCT 34", 2, ONE, payment(ONE, creditor_iban=BAD_IBAN, amount="500.00"))
    submit("WAITS 0", 2, ONE, payment(ONE, amount="500.00"))
    submit("WAITS 0", 2, BRANCH, payment(BRANCH, BRANCH, amount="99999999999.99"))
    play("dump 2")


def payments_done():
    note("pacs.008 settled, in the last seat at its last opening: to a bank, from a direct branch (its head pays), to one (paid).")
    last = SEATS - 1
    play(f"poke {last * SEAT_LONG} {OPENINGS - 1}")
    start(last, 50000, 10000, 70000)
    settle("ACCC 0", last, ONE, payment(ONE, amount="30.00", previous=300009))
    settle("ACCC 0", last, BRANCH, payment(BRANCH, ONE, amount="22.00"))
    settle("ACCC 0", last, ONE, payment(ONE, BRANCH, amount="5.55"), long=8)
    note("To itself, from a bank to its direct branch and back, from the branch to itself: balances stay, turnover grows.")
    settle("ACCC 0", last, ONE, payment(ONE, ONE, amount="7.00"))
    settle("ACCC 0", last, TWO, payment(TWO, BRANCH, amount="0.05"))
    settle("ACCC 0", last, BRANCH, payment(BRANCH, TWO, amount="0.50"))
    settle("ACCC 0", last, BRANCH, payment(BRANCH, BRANCH, amount="5.00"))
    show(last, TWO)
    back(last)
    show(last, TWO)
    full_of_pairs(last)


def full_of_pairs(seat):
    """Twelve transfers and their answers; the seventh, whose answer was just taken back, is answered last."""
    waiting = centre.seats[seat].steps[-1].id
    note("Indirect branches; providers, without PrvsInstgAgt1, with it, with it by another bank; too much for the branch's head.")
    settle("ACCC 0", seat, TWO, payment(TWO, ONE, debtor=300015, creditor=300011))
    settle("ACCC 0", seat, ONE, payment(ONE, debtor_system="ASP", debtor=300021))
    settle("ACCC 0", seat, ONE, payment(ONE, debtor_system="ASP", debtor=300021, previous=ONE))
    settle("ACCC 0", seat, ONE, payment(ONE, debtor_system="ASP", debtor=300023, previous=TWO, creditor_system="ASP", creditor=300022))
    settle("RJCT 22", seat, BRANCH, payment(BRANCH, BRANCH, amount="100.00"))
    note("Pairs of a transfer and its answer fill the journal. One too many: 9, also for a bad sheet; with a short buffer 11.")
    refusing = submit("RJCT 37", seat, BRANCH, reply(BRANCH, {"id": waiting}, REFUSES))
    slip_is("94b7fffe0c00")
    submit("9 0", seat, BRANCH, reply(BRANCH, {"id": waiting}))
    submit("9 0", seat, 300009, str(refusing)[:-1])
    submit("11 0", seat, BRANCH, refusing, long=WRITTEN.long - 1)
    back(seat)
    submit("ACCC 0", seat, BRANCH, reply(BRANCH, {"id": waiting}))
    play(f"dump {seat}")


def requests():
    note("pacs.028: each check as the first that fails, about a pacs.008 that was settled.")
    start(5, 50000, 10000, 70000, 20000, 3000, 3000)
    paid = settle("ACCC 0", 5, ONE, payment(ONE, reference="R" * 34 + "1"))
    submit("12 1", 5, 300021, request(300021, paid))
    submit("12 2", 5, 300011, request(300011, paid))
    submit("PDNG 3", 5, 300003, request(300003, paid, id="X"))
    submit("PDNG 5", 5, ONE, request(ONE, paid, id="X", created="2024-01-01T00:00:00"))
    submit("PDNG 6", 5, ONE, request(ONE, paid, id=paid["id"], created="2024-01-01T00:00:00"))
    submit("PDNG 7", 5, ONE, request(ONE, paid, created="2024-03-02T00:00:00", instructing=TWO))
    submit("PDNG 8", 5, ONE, request(ONE, paid, instructing=TWO, original="X"))
    note("9: the original identifier has the sender's code and a real date. 10: no step has it. 11: the rest of the original differs.")
    submit("PDNG 9", 5, TWO, request(TWO, paid))
    submit("PDNG 9", 5, ONE, request(ONE, paid, original=id_of(ONE, 1, "20240230")))
    submit("PDNG 10", 5, ONE, request(ONE, paid, original=id_of(ONE, 99999999)))
    submit("PDNG 11", 5, ONE, request(ONE, paid, original_created="2024-03-01T12:34:57"))
    submit("PDNG 11", 5, ONE, request(ONE, paid, uetr=paid["uetr"][:-1] + ("1" if paid["uetr"].endswith("0") else "0")))
    submit("PDNG 11", 5, ONE, request(ONE, paid, reference="R" * 34 + "2"))
    note("Told: settled; then rejected, with the check of its answer. A camt.050 and a pacs.002 are not found.")
    asked = submit("ACCC 0", 5, ONE, request(ONE, paid, original_name="pacs.008"), long=7)
    submit("PDNG 6", 5, ONE, asked)
    failed = settle("RJCT 22", 5, ONE, payment(ONE, amount="900.00", reference="A"))
    submit("RJCT 22", 5, ONE, request(ONE, failed))
    submit("PDNG 11", 5, ONE, request(ONE, failed, reference="A "))
    moved = submit("ACCC 0", 5, ONE, transfer(ONE))
    submit("PDNG 10", 5, ONE, request(ONE, moved))
    stray = submit("RJCT 35", 5, ONE, reply(ONE, paid))
    submit("PDNG 10", 5, ONE, request(ONE, paid, original=stray["id"]))
    play("dump 5")


def requests_again():
    note("Two pacs.008 with one MsgId: the first is told of. One that another bank sent under this one's code is found.")
    start(5, 50000, 10000, 70000, 20000)
    first = submit("RJCT 34", 5, ONE, payment(ONE, creditor_iban=BAD_IBAN))
    second = submit("RJCT 6", 5, ONE, payment(ONE, id=first["id"]))
    submit("RJCT 34", 5, ONE, request(ONE, first))
    submit("PDNG 11", 5, ONE, request(ONE, second))
    strange = submit("RJCT 5", 5, TWO, payment(TWO, ONE, id=id_of(ONE, 77)))
    submit("RJCT 5", 5, ONE, request(ONE, strange))
    submit("RJCT 6", 5, ONE, payment(ONE, id=strange["id"]))
    note("A direct branch asks about its own. Taken back, the pacs.008 is gone; sent again, it is found.")
    paid = settle("ACCC 0", 5, BRANCH, payment(BRANCH, ONE))
    submit("ACCC 0", 5, BRANCH, request(BRANCH, paid))
    back(5, 3)
    submit("PDNG 10", 5, BRANCH, request(BRANCH, paid))
    settle("ACCC 0", 5, BRANCH, paid)
    submit("ACCC 0", 5, BRANCH, request(BRANCH, paid))
    note("The UETR that a pacs.028 asks about does not count for 17; that of a pacs.008 does, for a camt.050 too.")
    ahead = payment(ONE)
    submit("PDNG 10", 5, ONE, request(ONE, ahead))
    submit("WAITS 0", 5, ONE, ahead)
    submit("RJCT 17", 5, ONE, transfer(ONE, uetr=ahead["uetr"]))
    play("dump 5")


def easily_wrong():
    note("A rejected camt.050 keeps its MsgId and its UETR, for every kind and every sender.")
    start(6, 50000, 10000, 70000, 20000)
    poor = submit("RJCT 22", 6, ONE, transfer(ONE, "500.01"))
    submit("RJCT 6", 6, ONE, poor.but(amount="1.00"))
    submit("RJCT 17", 6, ONE, transfer(ONE, uetr=poor["uetr"]))
    submit("RJCT 17", 6, TWO, payment(TWO, ONE, uetr=poor["uetr"]))
    submit("RJCT 6", 6, ONE, payment(ONE, id=poor["id"]))
    submit("PDNG 6", 6, ONE, request(ONE, payment(ONE), id=poor["id"]))
    note("A take-back brings back money, turnover, LTK, LPO and blocks, and frees MsgId and UETR.")
    start(6, 50000, 10000, 70000, 20000)
    put(6, ONE, 1, 0, 1, 100, 40000)
    moved = submit("ACCC 0", 6, ONE, transfer(ONE, "200.00"))
    put(6, ONE, 1, 1, 0, 30000, 0)
    submit("RJCT 20", 6, ONE, transfer(ONE))
    back(6, 2)
    show(6, ONE)
    submit("RJCT 23", 6, ONE, transfer(ONE, "200.01"))
    submit("RJCT 6", 6, ONE, moved)
    back(6, 3)
    submit("ACCC 0", 6, ONE, moved)
    play("dump 6")
    back(6, 2)
    play("dump 6")
    note("LPO none after LPO 0; a limit below what was turned over; LTK above the balance; limits of 10^15; limits just met.")
    put(6, ONE, 2, lpo=0)
    submit("RJCT 24", 6, ONE, transfer(ONE, way="21"))
    put(6, ONE, 2, lpo=NONE)
    submit("ACCC 0", 6, ONE, transfer(ONE, "60.00", way="21"))
    put(6, ONE, 2, lpo=5000)
    settle("RJCT 23", 6, ONE, payment(ONE, amount="0.01"))
    put(6, ONE, 2, ltk=10**15, lpo=10**15)
    settle("RJCT 22", 6, ONE, payment(ONE, amount="0.01"))
    put(6, ONE, 2, ltk=3999, lpo=6001)
    settle("ACCC 0", 6, ONE, payment(ONE, amount="0.01"))
    put(6, ONE, 2, ltk=3999, lpo=6001)
    play("dump 6")


def dates():
    note("Check 7 at ends of months and years and in leap years: the day itself and the day before pass, others do not.")
    start(6, 50000, 10000)
    for date, created, wants in [
        (20000101, "2000-01-01", "ACCC 0"), (20000101, "2000-01-02", "RJCT 7"),
        (20000301, "2000-02-29", "ACCC 0"), (20230301, "2023-02-28", "ACCC 0"), (20240228, "2024-02-29", "RJCT 7"),
        (20240501, "2024-04-30", "ACCC 0"), (20250101, "2024-12-31", "ACCC 0"),
        (20250101, "2025-12-31", "RJCT 7"), (20991231, "2099-12-31", "ACCC 0"),
    ]:
        submit(wants, 6, ONE, transfer(ONE, "0.01", created=created + "T23:59:59"), date=date)
    note("A creation time before 2000 is ill-shaped; a call's date that is none is refused, before a short buffer is.")
    submit("8 2", 6, ONE, transfer(ONE, created="1999-12-31T23:59:59"), date=20000101)
    for date in (20230229, 20240431, 19991231, 202403011):
        submit("6 0", 6, ONE, "<A></A>", date=date, long=WRITTEN.long - 1)


SCENES = (cases, later_cases, transfers, transfers_of_money, payments_refused, agents_refused, payments_done, requests, requests_again,
          easily_wrong, dates)
