"""The practice centre worked out a second time from document 01 and requests 2, 8 and 9 of document 02: the directory, a room of twelve
seats, the calls with their refusals and the 37 checks. Shapes, sheets and fields are those of `second.py` and `messages.py`, seats those of
`journal.py`, slips those of `slips.py`; nothing is taken from the Rattle code.

Fitness is not worked out: a room counts as unfit from a poke on, until that place has its number again. Two things may be poked to
something else, since what is poked is as fit as what was there: an opening number, to another in its range, and a part of a step's MsgId,
to that part of another identifier as long."""
import datetime
from collections import namedtuple

from journal import (ID_FROM, ID_LONG, LPO_AT, NO_MOVEMENT, ROOM_LONG, SEAT_LONG, SET, STEP_LONG, STEPS_FROM, Seat, Step, limit_in, renamed,
                     set_step, stored_limit)
from messages import KINDS, received
from second import kopecks_in, name_as, read, real_date
from slips import (ACCC, CAMT_050, KIND_NUMBERS, OPENINGS, ORDERS, PACS_002, PACS_008, PACS_028, PDNG, RJCT, SEATS, STEPS, WAITS, WRITTEN,
                   write_slip)

# The highest sum, in kopecks.
MOST = 10**15
OWNER, DIRECT, INDIRECT, PROVIDER = range(4)

# The checks of a pacs.002 that leave the transfer waiting.
LEAVES_WAITING = ORDERS[PACS_002][: ORDERS[PACS_002].index(36)]

# What the fields of a kind are called here, in the documents' order.
FIELDS = {
    "pacs.008": """id created instructing instructed reference uetr amount previous debtor_system debtor debtor_iban creditor_system
                   creditor creditor_iban""".split(),
    "camt.050": "id created uetr amount debtor creditor".split(),
    "pacs.028": "id created instructing original original_name original_created uetr reference".split(),
    "pacs.002": "id created original group_status client_status".split(),
}

Record = namedtuple("Record", "code instant kind named")
NOBODY = Record(None, None, None, None)


def directory_fits(records):
    codes, owners = [r.code for r in records], [r.code for r in records if r.kind == OWNER]
    return (1 <= len(records) <= 16 and codes == sorted(set(codes)) and codes[-1] <= 999999
            and all(r.kind == OWNER or r.named in owners for r in records))


class Message:
    """The fields of a sheet by name; a missing one is an empty text, and a kind has only its own."""

    def __init__(self, kind, rows):
        self.kind = KIND_NUMBERS[kind]
        for name, row in zip(FIELDS[kind], rows):
            setattr(self, name, row["text"] if row else "")
            if name == "amount":
                self.currency = row["ccy"][1:4]


def message_in(sheet):
    """A sheet's message, or its refusal and the place or field."""
    answer = received(sheet).split()
    if answer[0] != "0":
        return None, int(answer[0]), int(answer[1])
    kind = answer[1]
    body, fields = KINDS[kind]
    rows = {row["path"]: row for row in read(sheet)[0].rows}
    return Message(kind, [rows.get(f"/Document/{body}/{path}") for _, path in fields]), 0, 0


def good_code(identifier):
    """The code in a good message identifier, else None."""
    code = name_as(identifier).rsplit(" ", 1)[1]
    return None if code == "none" else int(code)


def day_of(number):
    """The day that a number yyyymmdd is, or None."""
    return real_date(number // 10000, number // 100 % 100, number % 100) if number < 10**8 else None


def remainder(iban):
    return int("".join(str(int(c, 36)) for c in iban[4:] + iban[:4])) % 97


class Question:
    """A message held against a directory and a journal: what the rows of the check table speak of."""

    def __init__(self, directory, seat, sender, date, message):
        self.directory, self.seat, self.accounts, self.steps, self.m = directory, seat, seat.accounts, seat.steps, message
        self.sender, self.by, self.date = sender, self.listed(sender), day_of(date)
        self.answered = self.waiting_here() if message.kind == PACS_002 else None
        self.debit, self.credit, self.amount = {
            PACS_008: lambda m: (self.account_two(m.instructing), self.account_two(m.instructed), kopecks_in(m.amount)),
            CAMT_050: lambda m: (self.named_account(m.debtor), self.named_account(m.creditor), kopecks_in(m.amount)),
            PACS_028: lambda m: (None, None, 0),
            PACS_002: lambda m: self.settled(),
        }[message.kind](message)

    def waiting_here(self):
        """The number of the first transfer that waits for this sender under the identifier that a pacs.002 names, or None."""
        return next((k for k in self.seat.payments(self.m.original)
                     if self.seat.waits(k) and self.seat.step(k).receiver == self.sender), None)

    def settled(self):
        """What the transfer that a pacs.002 agrees to is to move, by the places that it keeps; no accounts where there is none."""
        agrees = self.m.group_status == "ACCP" and self.answered is not None
        return self.seat.step(self.answered).movement if agrees else (None, None, 0)

    def listed(self, code):
        return next((record for record in self.directory if record.code == int(code)), NOBODY)

    def kind(self, code):
        return self.listed(code).kind

    def is_instant(self, code):
        return self.listed(code).instant == 1

    def place(self, code):
        return [record.code for record in self.directory].index(int(code))

    def account_two(self, code):
        record = self.listed(code)
        if record.kind == OWNER:
            return 2 * self.place(code) + 1
        return 2 * self.place(record.named) + 1 if record.kind == DIRECT else None

    def named_account(self, account):
        digit, code = int(account[0]), account[1:7]
        return 2 * self.place(code) + digit - 1 if digit in (1, 2) and self.kind(code) == OWNER else None

    def days(self):
        return [f"{day:%Y-%m-%d}" for day in (self.date, self.date - datetime.timedelta(days=1))]

    def asked_about(self):
        """The numbers of the pacs.008 steps that a pacs.028 may mean."""
        return self.seat.payments(self.m.original)

    def agrees(self, number):
        step = self.seat.step(number)
        return (step.created, step.uetr, step.reference) == (self.m.original_created, self.m.uetr, self.m.reference)

    def comes_from(self, agent, bank):
        """The agent is the bank or its indirect branch."""
        record = self.listed(agent)
        return int(agent) == int(bank) or (record.kind == INDIRECT and record.named == int(bank))

    def serves(self, bank, provider):
        return self.listed(provider).named == int(bank)

    def has(self, account, number):
        """A number of an account; None where the account is missing."""
        return None if account is None else self.accounts[account][number]

    def limit(self):
        """The debtor account's LPO, or None."""
        return limit_in(self.has(self.debit, LPO_AT))


FAILS = {
    1: lambda q: q.by.kind in (None, PROVIDER),
    2: lambda q: q.by.kind == INDIRECT,
    3: lambda q: q.by.instant == 0,
    4: lambda q: q.by.kind not in (None, OWNER),
    5: lambda q: good_code(q.m.id) != q.sender,
    6: lambda q: any(step.id == q.m.id for step in q.steps if step.kind != SET),
    7: lambda q: q.m.created[:10] not in q.days(),
    8: lambda q: int(q.m.instructing) != q.sender,
    9: lambda q: good_code(q.m.original) != q.sender,
    10: lambda q: not q.asked_about() or any(q.seat.waits(number) for number in q.asked_about()),
    11: lambda q: q.asked_about() != [] and not q.agrees(q.asked_about()[0]),
    12: lambda q: int(q.m.creditor[1:7]) != q.sender,
    13: lambda q: int(q.m.debtor[1:7]) != q.sender,
    14: lambda q: q.m.creditor[7:] != q.m.debtor[7:],
    15: lambda q: {q.m.creditor[0], q.m.debtor[0]} != {"1", "2"},
    16: lambda q: not q.m.currency == q.m.creditor[7:] == q.m.debtor[7:],
    17: lambda q: any(step.uetr == q.m.uetr for step in q.steps if step.kind in (PACS_008, CAMT_050)),
    18: lambda q: q.m.creditor[7:] != "UAH",
    19: lambda q: q.m.debtor[7:] != "UAH",
    20: lambda q: q.has(q.debit, 3) == 1,
    21: lambda q: q.has(q.credit, 4) == 1,
    22: lambda q: q.debit is not None and q.has(q.debit, 1) - q.has(q.debit, 5) < q.amount,
    23: lambda q: (q.limit() or 0) > 0 and q.has(q.debit, 2) + q.amount > q.limit(),
    24: lambda q: q.limit() == 0,
    25: lambda q: q.kind(q.m.debtor) not in ((PROVIDER,) if q.m.debtor_system == "ASP" else (OWNER, DIRECT, INDIRECT)),
    26: lambda q: q.m.creditor_system == "ASP" and q.kind(q.m.creditor) != PROVIDER,
    27: lambda q: q.kind(q.m.instructed) not in (OWNER, DIRECT) or not q.is_instant(q.m.instructed),
    28: lambda q: q.m.creditor_system == "SEP" and (q.kind(q.m.creditor) in (None, PROVIDER) or not q.is_instant(q.m.creditor)),
    29: lambda q: q.kind(q.m.creditor) == PROVIDER and not (q.is_instant(q.m.creditor) and q.serves(q.m.instructed, q.m.creditor)),
    30: lambda q: q.m.debtor_system == "SEP" and not q.comes_from(q.m.debtor, q.m.instructing),
    31: lambda q: q.m.creditor_system == "SEP" and not q.comes_from(q.m.creditor, q.m.instructed),
    32: lambda q: q.m.previous != "" and q.kind(q.m.debtor) == PROVIDER and not q.serves(q.m.previous, q.m.debtor),
    33: lambda q: q.m.previous == "" and q.kind(q.m.debtor) == PROVIDER and not q.serves(q.m.instructing, q.m.debtor),
    34: lambda q: remainder(q.m.creditor_iban) != 1,
    35: lambda q: q.answered is None,
    36: lambda q: q.m.group_status == "RJCT" and q.m.client_status == "",
    37: lambda q: q.m.group_status == "RJCT" and q.m.client_status != "",
}


def refusal(*tests):
    """The first of these numbers whose test holds, else 0."""
    return next((number for number, test in tests if test()), 0)


class Centre:
    """A directory and a room. Each call gives its number, its detail and its values. `reached` gathers which check was the first to fail
    in a message of which kind, 0 where none failed; `alone` which check failed at all where all are listed."""

    def __init__(self):
        self.directory, self.reached, self.alone = [], set(), set()
        self.long, self.seats, self.poked = 0, [Seat() for _ in range(SEATS)], {}

    def lay(self, long):
        self.long = long
        if long != ROOM_LONG:
            return 1, 0
        self.seats, self.poked = [Seat() for _ in range(SEATS)], {}
        return 0, 0

    def number_at(self, place):
        return self.seats[place // SEAT_LONG].numbers()[place % SEAT_LONG]

    def poke(self, place, number):
        if place >= ROOM_LONG:
            return
        seat, at = self.seats[place // SEAT_LONG], place % SEAT_LONG
        step, part = (at - STEPS_FROM) // STEP_LONG, (at - STEPS_FROM) % STEP_LONG - ID_FROM
        if at == 0 and seat.is_open <= number <= OPENINGS:
            seat.opening = number
        if 0 <= step < len(seat.steps) and 0 <= part < ID_LONG:
            seat.steps[step].id = renamed(seat.steps[step].id, part, number)
        self.poked[place] = number
        if number == self.number_at(place):
            del self.poked[place]

    def room_unfit(self):
        return 1, lambda: self.long != ROOM_LONG or bool(self.poked)

    def directory_unfit(self):
        return 2, lambda: not directory_fits(self.directory)

    def no_ticket(self, seat, opening):
        return 3, lambda: seat >= SEATS or not self.seats[seat].is_open or self.seats[seat].opening != opening

    def no_account(self, owner, number):
        owners = [record.code for record in self.directory if record.kind == OWNER]
        return 6, lambda: owner not in owners or number not in (1, 2)

    def full(self, seat):
        return 9, lambda: len(self.seats[seat].steps) == STEPS

    def account(self, owner, number):
        return 2 * [record.code for record in self.directory].index(owner) + number - 1

    def sums_bad(self, sums):
        owners = [record.kind == OWNER for record in self.directory for _ in range(2)]
        return len(sums) != len(owners) or any(s > (MOST if owner else 0) for s, owner in zip(sums, owners))

    def open(self, seat, sums):
        number = refusal(
            self.room_unfit(), self.directory_unfit(), (3, lambda: seat >= SEATS), (4, lambda: self.seats[seat].is_open),
            (5, lambda: self.seats[seat].opening == OPENINGS), (6, lambda: self.sums_bad(sums)))
        if number:
            return number, 0, 0
        self.seats[seat].open(sums)
        return 0, 0, self.seats[seat].opening

    def close(self, seat, opening):
        number = refusal(self.room_unfit(), self.no_ticket(seat, opening))
        if not number:
            self.seats[seat].clear()
        return number, 0

    def set(self, seat, opening, owner, which, out, into, ltk, lpo):
        """LPO as a number, or None."""
        number = refusal(
            self.room_unfit(), self.directory_unfit(), self.no_ticket(seat, opening), self.no_account(owner, which),
            (6, lambda: ltk > MOST or (lpo or 0) > MOST), self.full(seat))
        if not number:
            account, given = self.account(owner, which), (out, into, ltk, stored_limit(lpo))
            self.seats[seat].record(set_step(account, tuple(self.seats[seat].accounts[account][3:]), given))
        return number, 0

    def submit(self, seat, opening, sender, date, sheet, slip):
        number = refusal(
            self.room_unfit(), self.directory_unfit(), self.no_ticket(seat, opening), (6, lambda: not day_of(date) or sender > 999999),
            (11, lambda: len(slip) < WRITTEN.long), self.full(seat))
        if number:
            return number, 0
        message, number, detail = message_in(sheet)
        if number:
            return number, detail
        at, question = self.seats[seat], Question(self.directory, self.seats[seat], sender, date, message)
        check = next((n for n in ORDERS[message.kind] if FAILS[n](question)), 0)
        self.reached.add((message.kind, check))
        if check in (1, 2):
            return 12, check
        at.record(self.judged(question, check))
        step = at.steps[-1]
        return write_slip((step.kind, step.status, step.check, seat, opening, len(at.steps)), slip)

    def rows(self, seat, sender, date, sheet):
        """Every check that a message fails in a seat, in the order of its kind."""
        message, _, _ = message_in(sheet)
        question = Question(self.directory, self.seats[seat], sender, date, message)
        failing = [n for n in ORDERS[message.kind] if FAILS[n](question)]
        self.alone |= {(message.kind, n) for n in failing}
        return failing

    def judged(self, question, check):
        """The step that a message becomes."""
        q, message = question, question.m
        if message.kind == PACS_028:
            status, check = (PDNG, check) if check else q.seat.result_now(q.asked_about()[0])
            return Step(PACS_028, status, check, q.sender, message)
        movement = NO_MOVEMENT if check else (q.debit, q.credit, q.amount)
        if message.kind == PACS_008:
            receiver = 0 if check else int(message.instructed)
            return Step(PACS_008, RJCT if check else WAITS, check, q.sender, message, movement, receiver=receiver)
        answers = q.answered if message.kind == PACS_002 and check not in LEAVES_WAITING else 0
        return Step(message.kind, RJCT if check else ACCC, check, q.sender, message, movement, answers=answers)

    def back(self, seat, opening):
        number = refusal(self.room_unfit(), self.no_ticket(seat, opening), (10, lambda: not self.seats[seat].steps))
        if not number:
            self.seats[seat].steps.pop()
            self.seats[seat].accounts = self.seats[seat].before.pop()
        return number, 0

    def read(self, seat, opening, owner, which):
        number = refusal(self.room_unfit(), self.directory_unfit(), self.no_ticket(seat, opening), self.no_account(owner, which))
        return (number, 0, *([0] * 7 if number else self.seats[seat].accounts[self.account(owner, which)]))
