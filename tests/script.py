"""The script of the drill while it is made: a line is played with the model of `centre.py` as it is written, and what the program must
print of it is kept beside it. Below that, messages and calls as the scenes write them."""
from centre import FIELDS, Centre, Record
from journal import LPO_AT, limit_in
from messages import KINDS, document, is_money
from slips import WRITTEN, read_slip, write_slip

# The lines of both files; `met` gathers which call answered with which number.
asked, printed, met = [], [], set()
centre = Centre()


def answer(word, words, sheet):
    """A call's answer by the model: number, detail and values; and the buffer of a call that writes a slip."""
    if word == "slip":
        return read_slip(bytes.fromhex(words[0])), None
    numbers = [None if w == "-" else int(w) for w in words]
    if word == "write":
        slip = bytearray([170] * numbers[6])
        return write_slip(numbers[:6], slip), slip
    if word == "submit":
        slip = bytearray([170] * numbers[4])
        return centre.submit(*numbers[:4], sheet, slip), slip
    if word == "open":
        return centre.open(numbers[0], numbers[1:]), None
    return getattr(centre, word)(*numbers), None


def dumped(seat):
    """A seat's head, its accounts that are not all zeros, and its steps, the first of which is step 1."""
    rows = [("head", [seat.opening, seat.is_open, len(seat.steps)])]
    rows += [(f"account {i}", account) for i, account in enumerate(seat.accounts) if any(account)]
    rows += [(f"step {k}", step.numbers()) for k, step in enumerate(seat.steps, 1)]
    return [" ".join([name, *map(str, numbers)]) for name, numbers in rows]


# What the lines do that have no answer.
SILENT = {
    "#": lambda *words: None,
    "record": lambda *words: centre.directory.append(Record(*map(int, words))),
    "forget": lambda: centre.directory.clear(),
    "poke": lambda place, number: centre.poke(int(place), int(number)),
    "dump": lambda seat: printed.extend(dumped(centre.seats[int(seat)])),
}


def play(line):
    """Writes a line into the script and what is printed of it into the output; gives the answer, if it is a line that has one."""
    asked.append(line)
    word, *words = line.split(" ")
    if word in SILENT:
        printed.append(line)
        SILENT[word](*words)
        return None
    if word == "rows":
        words, sheet = words[:3], " ".join(words[3:])
        failing = centre.rows(*map(int, words), sheet)
        printed.append(" ".join([word, *words, "->", *map(str, failing)]))
        return failing
    sheet = ""
    if word == "submit":
        words, sheet = words[:5], " ".join(words[5:])
    given, slip = answer(word, words, sheet)
    printed.append(" ".join([word, *words, "->", *map(str, given)]) + ("" if slip is None else f" slip {slip.hex()}"))
    met.add((word, given[0]))
    return given


def note(text):
    assert len(text) <= 126
    play("# " + text)


def call(wants, *words):
    """A call, and the number that it is to answer with."""
    given = play(" ".join(map(str, words)))
    assert given[0] == wants, (asked[-1][:300], given)
    return given


# --- Messages ---------------------------------------------------------------------------------------------------------------------------

IBAN, BAD_IBAN = "UA213223130000026007233566001", "UA213223130000026007233566002"
made = 0


def unused():
    """A number of its own for each message, to make its identifiers of."""
    global made
    made += 1
    return made


def id_of(sender, number, day="20240301"):
    return f"{sender:06}{day}{number:08}"


def uetr_of(number):
    digits = f"{number * 0x9E3779B97F4A7C15F39CC0605CEDC835 % 2**128:032x}"
    return f"{digits[:8]}-{digits[8:12]}-4{digits[13:16]}-{'89ab'[number % 4]}{digits[17:20]}-{digits[20:]}"


class Sheet:
    """A message to be written: its kind and its fields by name, None for one that is left out."""

    def __init__(self, kind, fields, currency="UAH"):
        self.kind, self.fields, self.currency = kind, fields, currency

    def __getitem__(self, name):
        return self.fields[name]

    def but(self, currency=None, **changes):
        assert set(changes) <= set(FIELDS[self.kind])
        return Sheet(self.kind, self.fields | changes, currency or self.currency)

    def leaves(self):
        return [(path, str(self[name]), f' Ccy="{self.currency}"' if is_money(shape) else "")
                for (shape, path), name in zip(KINDS[self.kind][1], FIELDS[self.kind]) if self[name] is not None]

    def __str__(self):
        return document(self.kind, self.leaves())


def payment(sender, to=300002, currency=None, **changes):
    """A pacs.008 from a sender to another, good but for the changes."""
    n = unused()
    return Sheet("pacs.008", {
        "id": id_of(sender, n), "created": "2024-03-01T12:34:56", "instructing": f"{sender:06}", "instructed": f"{to:06}",
        "reference": f"E2E-{n}", "uetr": uetr_of(n), "amount": "1.00", "previous": None, "debtor_system": "SEP", "debtor": f"{sender:06}",
        "debtor_iban": IBAN, "creditor_system": "SEP", "creditor": f"{to:06}", "creditor_iban": IBAN}).but(currency, **changes)


def transfer(sender, amount="1.00", currency=None, way="12", **changes):
    """A camt.050 between a sender's accounts, from 1 to 2 where no other way is given."""
    n = unused()
    return Sheet("camt.050", {
        "id": id_of(sender, n), "created": "2024-03-01T09:00:00", "uetr": uetr_of(n), "amount": amount,
        "debtor": f"{way[0]}{sender:06}UAH", "creditor": f"{way[1]}{sender:06}UAH"}).but(currency, **changes)


# How a receiver answers: it accepts, declines for a technical reason, or refuses to credit the client.
ACCEPTS = {"group_status": "ACCP", "client_status": None}
DECLINES = {"group_status": "RJCT", "client_status": None}
REFUSES = {"group_status": "RJCT", "client_status": "RJCT"}


def reply(sender, about, how=ACCEPTS, **changes):
    """A pacs.002 about a message."""
    fields = {"id": id_of(sender, unused()), "created": "2024-03-01T15:00:00", "original": about["id"]}
    return Sheet("pacs.002", fields | how).but(**changes)


def request(sender, about, **changes):
    """A pacs.028 about a message."""
    return Sheet("pacs.028", {
        "id": id_of(sender, unused()), "created": "2024-03-01T18:00:00", "instructing": f"{sender:06}", "original": about["id"],
        "original_name": "pacs.008.001.08", "original_created": about["created"], "uetr": about["uetr"],
        "reference": about.fields.get("reference", "E2E")}).but(**changes)


# --- Calls with a seat's own ticket -----------------------------------------------------------------------------------------------------

def ticket(seat):
    return seat, centre.seats[seat].opening


def submit(wants, seat, sender, sheet, date=20240301, long=WRITTEN.long):
    """Wants the step's result, such as `WAITS 0` or `RJCT 22`, or a refusal and its detail, such as `12 1`. Gives the sheet back."""
    number, detail = play(" ".join(map(str, ["submit", *ticket(seat), sender, date, long, sheet])))
    got = f"{number} {detail}"
    if number == 0:
        step = centre.seats[seat].steps[-1]
        got = f"{('PDNG', 'ACCC', 'RJCT', 'WAITS')[step.status]} {step.check}"
    assert got == wants, (asked[-1][:300], got, wants)
    return sheet


def slip_is(digits):
    """Of the submit before."""
    assert printed[-1].endswith(" slip " + digits), printed[-1]


def settle(wants, seat, sender, sheet, long=WRITTEN.long):
    """A pacs.008 that waits, and its receiver's ACCP, of which the result is wanted. Gives the pacs.008 back."""
    submit("WAITS 0", seat, sender, sheet, long=long)
    receiver = int(sheet["instructed"])
    submit(wants, seat, receiver, reply(receiver, sheet), long=long)
    return sheet


def rows(wants, seat, sender, sheet, date=20240301):
    """Wants every check that the message fails in a seat, in the order of its kind. Gives the sheet back."""
    failing = play(" ".join(map(str, ["rows", seat, sender, date, sheet])))
    assert failing == wants, (asked[-1][:300], failing, wants)
    return sheet


# LPO none, as a line writes it.
NONE = "-"


def limit_now(seat, owner, number):
    """An account's LPO as a line writes it."""
    limit = limit_in(centre.seats[seat].accounts[centre.account(owner, number)][LPO_AT])
    return NONE if limit is None else limit


def put(seat, owner, number, out=0, into=0, ltk=0, lpo=None, wants=0):
    """Sets an account; what is not named is no block and LTK 0, and LPO as it stands, since accounts open with one."""
    lpo = limit_now(seat, owner, number) if lpo is None else lpo
    call(wants, "set", *ticket(seat), owner, number, out, into, ltk, lpo)


def back(seat, times=1):
    for _ in range(times):
        call(0, "back", *ticket(seat))


def show(seat, *owners):
    """Reads both accounts of these owners."""
    for owner in owners:
        for number in (1, 2):
            call(0, "read", *ticket(seat), owner, number)


def listed(*records):
    """A directory of these records and no others."""
    play("forget")
    for record in records:
        play(" ".join(map(str, ["record", *record])))


CASES = [(300001, 1, 0, 0), (300002, 1, 0, 0), (300011, 1, 2, 300001), (300012, 1, 1, 300002)]
SCHOOL = [(300001, 1, 0, 0), (300002, 1, 0, 0), (300003, 0, 0, 0), (300011, 1, 2, 300001), (300012, 1, 1, 300002), (300013, 0, 1, 300001),
          (300014, 1, 2, 300002), (300015, 0, 2, 300002), (300021, 1, 3, 300001), (300022, 1, 3, 300002), (300023, 0, 3, 300002)]


def sums(*given):
    """As many sums as the directory asks for, these in front; owners stand first in the directories above."""
    return [*given, *[0] * (2 * len(centre.directory) - len(given))]


def start(seat, *given):
    """Opens a seat, which is closed first where it is open."""
    if centre.seats[seat].is_open:
        call(0, "close", *ticket(seat))
    call(0, "open", seat, *sums(*given))
