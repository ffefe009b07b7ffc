"""A room's seats as they are stored, worked out a second time from document 01, requests 2 and 9 of document 02 and docs/LAYOUT.md: how
long each part is, how an account opens, what a journal keeps of a call, and how a transfer stands now. Nothing is taken from the Rattle
code."""
import copy

from second import stored_as, time_in
from slips import ACCC, PACS_008, SEATS, STEPS, WAITS

# How many numbers a head, an account and a step have, how many accounts stand before the steps, and how long that makes a seat and a room.
HEAD_LONG, ACCOUNT_LONG, STEP_LONG, ACCOUNTS = 3, 7, 31, 32
STEPS_FROM = HEAD_LONG + ACCOUNTS * ACCOUNT_LONG
SEAT_LONG = STEPS_FROM + STEPS * STEP_LONG
ROOM_LONG = SEATS * SEAT_LONG
assert (SEAT_LONG, ROOM_LONG) == (971, 11652)

# Where a step has its MsgId, seven bytes to a number.
ID_FROM, ID_LONG, ID_BYTES = 4, 5, 7

# Where an account has its LPO, and where a set has the LPO before it.
LPO_AT, OLD_LPO_AT = 6, 24

# The kind of a step that sets an account; the other steps have the kinds of their messages.
SET = 5

# A movement is the account that is debited, the one that is credited, and the amount.
NO_MOVEMENT = 0, 0, 0


def stored_limit(limit):
    """LPO as it is stored, of a number or None: a limit of 0 is a limit, so it is one more than the number."""
    return 0 if limit is None else limit + 1


def limit_in(stored):
    """LPO as a number, or None."""
    return stored - 1 if stored else None


def opened_account(opening_sum):
    """Opening sum, balance, turnover, blocks outgoing and incoming, LTK, LPO: the limit is the sum, and there is none where that is 0."""
    return [opening_sum, opening_sum, 0, 0, 0, 0, stored_limit(opening_sum or None)]


def renamed(identifier, part, number):
    """An identifier with another number for one of its parts."""
    raw = bytearray(identifier.encode().ljust(ID_LONG * ID_BYTES, b"\0"))
    raw[ID_BYTES * part : ID_BYTES * (part + 1)] = number.to_bytes(ID_BYTES, "big")
    return raw.rstrip(b"\0").decode()


class Step:
    """What a journal keeps of a call; what the kind lacks stays empty. No later call changes it: a pacs.008 that waits keeps what it is
    to move and its receiver, also once it is answered; its answer keeps what was moved and the number of the step that it answers."""

    def __init__(self, kind, status=0, check=0, sender=0, message=None, movement=NO_MOVEMENT, receiver=0, answers=0):
        self.kind, self.status, self.check, self.sender = kind, status, check, sender
        self.id, self.uetr = getattr(message, "id", ""), getattr(message, "uetr", "")
        self.created, self.reference = getattr(message, "created", ""), getattr(message, "reference", "")
        self.movement, self.receiver, self.answers = movement, receiver, answers
        self.account, self.old, self.given = 0, (0, 0, 0, 0), (0, 0, 0, 0)

    def numbers(self):
        digits = self.uetr.replace("-", "") or "0" * 32
        return [self.kind, self.status, self.check, self.sender, *[int(part, 16) for part in stored_as(self.id).split()],
                int(digits[:16], 16), int(digits[16:], 16), time_in(self.created) or 0,
                *[int(part, 16) for part in stored_as(self.reference).split()], *self.movement, self.account, *self.old, *self.given,
                self.receiver, self.answers]


def set_step(account, old, given):
    step = Step(SET)
    step.account, step.old, step.given = account, old, given
    return step


class Seat:
    def __init__(self):
        self.opening = 0
        self.clear()

    def clear(self):
        """All accounts are zeros. `before` has the accounts as they were before each step."""
        self.is_open, self.accounts, self.steps, self.before = 0, [[0] * ACCOUNT_LONG for _ in range(ACCOUNTS)], [], []

    def open(self, sums):
        """Accounts past the last sum stay zeros; those of records that are no owners do, since their sums are 0."""
        self.opening, self.is_open = self.opening + 1, 1
        self.accounts[: len(sums)] = map(opened_account, sums)

    def record(self, step):
        """Money moves where a transfer is done or settled; what waits moves none."""
        self.before.append(copy.deepcopy(self.accounts))
        self.steps.append(step)
        debit, credit, amount = step.movement if step.status == ACCC else NO_MOVEMENT
        self.accounts[debit][1] -= amount
        self.accounts[debit][2] += amount
        self.accounts[credit][1] += amount
        if step.kind == SET:
            self.accounts[step.account][3:] = step.given

    def payments(self, identifier):
        """The numbers of the pacs.008 steps that have this MsgId."""
        return [k for k, step in enumerate(self.steps, 1) if step.kind == PACS_008 and step.id == identifier]

    def step(self, number):
        return self.steps[number - 1]

    def answer_to(self, number):
        return next((step for step in self.steps if step.answers == number), None)

    def waits(self, number):
        return self.step(number).status == WAITS and self.answer_to(number) is None

    def result_now(self, number):
        """Status and check of a step as they stand."""
        told_by = self.answer_to(number) or self.step(number)
        return told_by.status, told_by.check

    def numbers(self):
        rows = [number for account in self.accounts for number in account] + [n for step in self.steps for n in step.numbers()]
        return [self.opening, self.is_open, len(self.steps), *rows, *[0] * (SEAT_LONG - HEAD_LONG - len(rows))]
