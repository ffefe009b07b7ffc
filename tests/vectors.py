#!/usr/bin/env python3
"""Writes the vectors of crates/vectors: `stdin`, what is asked, and `stdout`, what must come out.

What must come out is worked out a second time, from the documents (`second.py`, `messages.py`, `slips.py`); nothing is taken from the
Rattle code.
The IBANs are the example numbers that countries publish for ISO 13616.
Run it from the project's root after a change to the vectors; `git diff` then shows what moved.
"""
import datetime
import re

from messages import messages
from second import UUID4, kopecks_in, number_as, packed, read, real_date, time_in
from slips import (ANSWER_SAYINGS, FIRST_SAYINGS, FIVE_BYTES, HIGH_SEATS, KIND_NUMBERS, NO_SEATS, ORDERS, SEATS, SIX_BYTES, STEPS, WRITTEN,
                   image, meaning, write_slip)

IBANS = """
GB82WEST12345698765432 DE89370400440532013000 FR1420041010050500013M02606 ES9121000418450200051332
IT60X0542811101000000123456 NL91ABNA0417164300 CH9300762011623852957 BE68539007547034 AT611904300234573201
PL61109010140000071219812874 SE4550000000058398257466 NO9386011117947 DK5000400440116243 FI2112345600000785
IE29AIBK93115212345678 PT50000201231234567890154 GR1601101250000000012300695 CZ6508000000192000145399
HU42117730161111101800000000 RO49AAAA1B31007593840000 SA0380000000608010167519 TR330006100519786457841326
LU280019400644750000 HR1210010051863000160 SI56263300012039086 EE382200221020145685 LT121000011101001000
MT84MALT011000012345MTLCAST001S UA213223130000026007233566001
""".split()

CHECKS = """
1 TE03 AGNT|2 TE04 AGNT|3 TE07 AGNT|4 TE08|5 H026 RR04|6 DU01 DU01|7 H037 RR04|8 H005 AGNT|9 N002 RR04|10 KV03 RR04
11 KV02 RR04|12 N029|13 N028|14 N027|15 N015|16 N026|17 DU03 DU03|18 N031|19 N030|20 A001 RR04|21 A002 RR04|22 M001 AM04
23 M003 RR04|24 A018 RR04|25 X002 AGNT|26 H018 RC10|27 X001 AGNT|28 H065 CNOR|29 H066 CNOR|30 H008 AGNT|31 H019 AGNT
32 H012 RC09|33 H013 RC09|34 T003 AC03|35 X003 NARR|36 TE10 FF10|37 X004 NARR
""".strip().replace("\n", "|").split("|")

asked, answered = [], []


def vector(question, answer):
    asked.append(question)
    answered.append(question + answer)


def iban(s):
    plain = len(s) >= 4 and re.fullmatch("[0-9A-Z]*", s)
    number = plain and int("".join(str(int(c, 36)) for c in s[4:] + s[:4]))
    shaped = re.fullmatch("UA[0-9]{8}[0-9A-Z]{19}", s)
    vector("iban " + s, (f" {number % 97}" if plain else " none") + (" yes" if shaped else " no"))
    return number % 97 if plain else None


def ibans():
    for s in IBANS:
        assert iban(s) == 1
        at = max(i for i, c in enumerate(s) if c.isdigit())
        assert iban(s[:at] + str((int(s[at]) + 1) % 10) + s[at + 1 :]) != 1
    for s in ["", "UA2", "ua213223130000026007233566001", "UA21 3223130000026007233566001", "GB82", "0000"]:
        iban(s)


def dates():
    for s in """20240301 20240229 20230301 20230229 20000301 20000229 20000101 19991231 20991231 21000101 20240101 20240501
                20241301 20240132 20240431 20240430 20240701 20240001 20240100 2024 20960301 20960229""".split():
        day = real_date(s[:4], s[4:6], s[6:]) if len(s) == 8 else None
        before = day and day - datetime.timedelta(days=1)
        known = before is not None and before.year >= 2000
        vector("date " + s, (" yes" if day else " no") + (f" {before:%Y%m%d}" if known else " none"))


def times():
    for s in [
        "2024-03-01T12:34:56", "2024-02-29T00:00:00", "2023-02-29T00:00:00", "2099-12-31T23:59:59", "2100-01-01T00:00:00",
        "1999-12-31T23:59:59", "2024-03-01T24:00:00", "2024-03-01T23:60:00", "2024-03-01T23:59:60", "2024-03-01 12:34:56",
        "2024-03-01T12:34:56Z", "2024-03-01T12:34", "2024-3-01T12:34:56", "",
    ]:
        vector("time " + s, number_as(time_in(s)))


def amounts():
    for s in [
        "500.00", "500.01", "0.01", "0.00", "0.10", "10.00", "99999999999.99", "100000000000.00", "00.01", "01.00", "1.0",
        "1.000", "1", ".01", "1,00", "-1.00", "1.0a", "", "12.3.4", "1 0.00",
    ]:
        vector("amount " + s, number_as(kopecks_in(s) or None))


def texts():
    for s in ["300001", "000000", "999999", "30000", "3000011", "30000a", ""]:
        vector("code " + s, f" {int(s)}" if re.fullmatch("[0-9]{6}", s) else " none")
    for s in ["UAH", "USD", "uah", "UAHH", "UA", "U1H", ""]:
        vector("currency " + s, f" {packed(s)}" if re.fullmatch("[A-Z]{3}", s) else " none")
    for s in ["1300001UAH", "2300001UAH", "0000000AAA", "1300001uah", "130000UAH", "13000011UAH", "A300001UAH", ""]:
        m = re.fullmatch("([0-9])([0-9]{6})([A-Z]{3})", s)
        vector("account " + s, f" {int(m[1])} {int(m[2])} {packed(m[3])}" if m else " 0 0 0")
    for s in [
        "300001202403010000000A", "3000012024022900000001", "3000012023022900000001", "3000012024030100000a01",
        "300001202403010000001", "30000120240301000000011", "000000200001010000ZZZZ", "",
    ]:
        m = re.fullmatch("([0-9]{6})([0-9]{4})([0-9]{2})([0-9]{2})[0-9A-Z]{8}", s)
        vector("message " + s, f" {int(m[1])}" if m and real_date(m[2], m[3], m[4]) else " none")
    for s in ["SEP", "ASP", "sep", "SE", "SEPA", ""]:
        vector("system " + s, " " + (s if s in ("SEP", "ASP") else "neither"))
    for s in ["pacs.008", "pacs.008.001.08", "pacs.00", "pacs.009", "Pacs.008", "pacs.008" + "x" * 27, "pacs.008" + "x" * 28, ""]:
        vector("original " + s, " yes" if len(s) <= 35 and s.startswith("pacs.008") else " no")


def stored():
    for s in [
        "eb6305c9-1f7f-49de-aed0-16487c27b42d", "00000000-0000-4000-8000-000000000000", "ffffffff-ffff-4fff-bfff-ffffffffffff",
        "123e4567-e89b-42d3-a456-426614174000", "123e4567-e89b-12d3-a456-426614174000", "123e4567-e89b-42d3-c456-426614174000",
        "123E4567-E89B-42D3-A456-426614174000", "123e4567e89b42d3a456426614174000", "123e4567-e89b-42d3-a456-42661417400",
        "123e4567-e89b-42d3-a456-4266141740000", "123e4567_e89b-42d3-a456-426614174000", "",
    ]:
        good = re.fullmatch(UUID4, s)
        digits = s.replace("-", "") if good else "0" * 32
        vector("uetr " + s, (" yes " if good else " no ") + digits[:16] + " " + digits[16:])
    for s in ["3000012024030100000001", "A", "a" * 35, "a" * 36, "Lan & Son", "x<y", "12345678", "with a blank", ""]:
        good = 1 <= len(s) <= 35 and all(32 <= ord(c) <= 126 and c not in "<>&" for c in s)
        raw = (s if good else "").encode().ljust(35, b"\0")
        vector("identifier " + s, "".join(" " + raw[k : k + 7].hex() for k in range(0, 35, 7)))


def table():
    for row in CHECKS:
        number, sep, iso = (row.split() + [""])[:3]
        vector("check " + number, f" {sep:4} {iso:4}")
    for number in ["0", str(1 + len(CHECKS))]:
        vector("check " + number, " " * 10)
    for name, kind in KIND_NUMBERS.items():
        vector("order " + name, "".join(f" {n}" for n in ORDERS[kind]))


# The five-byte slips that mark books and pages hold: of the first transfer, of the page for teachers, of the lesson with every answer.
MARK_BOOKS = """
480c000401 280c000402 52cc000801 526c000401 4800000401 5060000402 5080000403 50a0000404 50a0000405 50e0000406 5180000407 51a0000408
51c0000409 51e000040a 520000040b 50c000040c 522000040d 524000040e 5280000410 52a0000412 52c0000413 52e0000415 5300000417 2800000801
3100000802 3320000803 3360000804 3340000805 3380000806 33a0000807 33c0000808 33e0000809 340000080a 342000080b 344000080c 32c000080d
322000080e 280000080f 2800000810 6800000810 7440000811 6120000812 6140000813 6160000814
""".split()

# Six-byte slips of the two stages of a transfer: a pacs.008 that waits; a pacs.002 that settled it, with 36, with 35, with 37 in the last
# step of the last seat; a pacs.028 about one that waits and about one whose client was refused.
STAGES = {
    "380000020080": (1, 3, 0, 0, 1, 1), "880000020100": (4, 1, 0, 0, 1, 2), "948000020100": (4, 2, 36, 0, 1, 2),
    "946000020100": (4, 2, 35, 0, 1, 2), "94b7fffe0c00": (4, 2, 37, 11, 65535, 24), "614000020100": (3, 0, 10, 0, 1, 2),
    "74a000020180": (3, 2, 37, 0, 1, 3),
}

# Close to them and no slips, by kind, status and check: kinds that are none; status 3 of another kind or with a check; a pacs.002 that is
# pending, or has a check that is not its own; a pacs.008 with an answer's checks; a pacs.028 with 35.
NO_SAYINGS = [
    (0, 1, 0), (5, 1, 0), (6, 1, 0), (7, 1, 0), (2, 3, 0), (3, 3, 0), (4, 3, 0), (1, 3, 3), (1, 3, 36), (4, 0, 0), (4, 0, 3), (4, 0, 35),
    (4, 1, 36), (4, 2, 0), (4, 2, 1), (4, 2, 2), (4, 2, 4), (4, 2, 8), (4, 2, 17), (4, 2, 25), (4, 2, 34), (4, 2, 38), (1, 2, 35),
    (1, 2, 36), (1, 2, 37), (2, 2, 35), (2, 2, 36), (3, 2, 35), (3, 0, 35), (3, 0, 36), (3, 2, 38),
]


def write(values):
    """Asks for a slip in a buffer that is two bytes longer; whether it is written."""
    buffer = bytearray([0xEE] * (WRITTEN.long + 2))
    number, _ = write_slip(values, buffer)
    vector("write " + " ".join(map(str, values)), f" {number} {buffer.hex()}")
    return number == 0


def slip(digits):
    """Asks what bytes say; their six values, or None where they are no slip."""
    values = meaning(bytes.fromhex(digits))
    vector("read " + digits, "".join(f" {value}" for value in values) if values else " no slip")
    return values


def slips_written():
    for values in [
        (2, 1, 0, 3, 1, 1), (1, 1, 0, 0, 1, 1), (1, 2, 34, 7, 65535, 24), (3, 0, 3, 5, 300, 12), (3, 2, 22, 1, 2, 3),
        (3, 1, 0, 1, 2, 3), (2, 2, 19, 0, 1, 1), (1, 2, 34, 11, 65535, 24), (3, 0, 11, 10, 32768, 16),
    ]:
        assert write(values)
    for values in [
        (2, 2, 25, 0, 1, 1), (1, 2, 4, 0, 1, 1), (1, 2, 1, 0, 1, 1), (1, 2, 2, 0, 1, 1), (3, 0, 22, 0, 1, 1), (3, 0, 0, 0, 1, 1),
        (1, 0, 3, 0, 1, 1), (1, 1, 3, 0, 1, 1), (1, 2, 0, 0, 1, 1),
        (2, 1, 0, 0, 0, 1), (2, 1, 0, 0, 65536, 1), (2, 1, 0, 0, 1, 0), (2, 1, 0, 0, 1, 25), (2, 1, 0, 16, 1, 1),
    ]:
        assert not write(values)
    for seat in HIGH_SEATS:
        assert write((2, 1, 0, seat, 1, 1))
    for seat in NO_SEATS:
        assert not write((2, 1, 0, seat, 1, 1))


def slips_of_five_bytes():
    for digits in MARK_BOOKS:
        assert image(FIVE_BYTES, slip(digits)).hex() == digits
    for digits in ["2800000401", "2800000405", "345ffffc18"]:
        assert slip(digits)
    for digits in [
        "480c000000", "480c000019", "480c000419", "480c000400", "400c000401", "e80c000401", "0000000000", "ffffffffff", "351bfffc18",
        "352bfffc18", "615400ffff",
    ]:
        assert not slip(digits)


def slips_of_six_bytes():
    # case 8 in both forms; then its five bytes and a zero byte, which say something else
    assert slip("480c000401") == slip("480600020080") == (2, 1, 0, 3, 1, 1)
    assert slip("480c00040100") == (2, 1, 0, 6, 2, 2)
    assert slip("344ffffe0c00") == (1, 2, 34, 7, 65535, 24)
    assert slip("3457fffe0c00") == (1, 2, 34, 11, 65535, 24)
    # each of the last seven bits
    for bit in range(SIX_BYTES.zeros):
        assert not slip(f"4806000200{0x80 | 1 << bit:02x}")
    for seat in HIGH_SEATS:
        assert slip(image(SIX_BYTES, (2, 1, 0, seat, 1, 1)).hex()) == (2, 1, 0, seat, 1, 1)
    for seat in NO_SEATS:
        assert not slip(image(SIX_BYTES, (2, 1, 0, seat, 1, 1)).hex())
    # a camt.050 with PDNG; checks 1 and 40; opening 0; steps 0, 25 and 1023
    for digits in [
        "400600020080", "502600020080", "350600020080", "480600000080", "480600020000", "480600020c80", "48060003ff80", "000000000000",
        "ffffffffffff", "480c000401ee", "480c000401ff",
    ]:
        assert not slip(digits)


def slips_of_other_lengths():
    for digits in ["", "605700", "480c0004", "48060002", "48060002008000", "480c0004010000", "4806000200800000", "480c000401000000"]:
        assert not slip(digits)
    # six bytes cut to five
    assert not slip("4806000200")


def slips_of_stages():
    for digits, values in STAGES.items():
        assert write(values) and answered[-1].endswith(f" 0 {digits}eeee")
        assert slip(digits) == values
    for saying in NO_SAYINGS:
        assert not write((*saying, 0, 1, 1))
        assert not slip(image(SIX_BYTES, (*saying, 0, 1, 1)).hex())


def all_sayings():
    """All that can be said, written and read in six bytes. In five bytes an answer's sayings are no slip."""
    for k, saying in enumerate([*sorted(FIRST_SAYINGS), *sorted(ANSWER_SAYINGS)]):
        opening, step = 1 + k, 1 + k % STEPS
        five = slip(image(FIVE_BYTES, (*saying, k % FIVE_BYTES.seats, opening, step)).hex())
        assert (five is None) == (saying in ANSWER_SAYINGS)
        assert write((*saying, k % SEATS, opening, step))
        assert slip(image(SIX_BYTES, (*saying, k % SEATS, opening, step)).hex())


def slips():
    slips_written()
    slips_of_five_bytes()
    slips_of_six_bytes()
    slips_of_other_lengths()
    slips_of_stages()
    all_sayings()


def sheet(s):
    reader, broken = read(s)
    vector("sheet " + s, f" refused at {broken}" if broken else f" accepted {reader.count}")


def listing(s):
    reader, broken = read(s)
    lines = [f"refused 7 at {broken}"] if broken else [*reader.fields, f"{len(reader.fields)} fields"]
    vector("list " + s, "\n" + "\n".join(lines) + "\n")


def wrapped(levels, inner):
    return "<A>" * levels + inner + "</A>" * levels


def sheets():
    whole = '<Document><A><B>x</B><C Ccy="UAH">1.00</C></A></Document>'
    for n in range(len(whole) + 1):
        sheet(whole[:n])
    for s in ["<A></A>", "<A>x</B>", "<A>x</A>", "<A>x</A> ", "<A>x</A><A>x</A>", "<1>x</1>", "<>x</>", "< A>x</A>", "<A >x</A>", "<A>x</A >",
              "<A>a&b</A>", "<A>a>b</A>", "<A>\x7f</A>", "<A>x</AA>", "<AA>x</A>", "<A><B>x</B>y</A>", "<A>y<B>x</B></A>", "<A/>", "x", "<A>x<"]:
        sheet(s)
    for ccy in [' Ccy="UAH"', ' Ccy="UAh"', ' Ccy="UA"', ' Ccy="UAHX"', " Ccy='UAH'", ' ccy="UAH"', '  Ccy="UAH"', ' Ccy ="UAH"', ' Ccy="UAH" ', ' Ccy=UAH']:
        sheet("<A" + ccy + ">1</A>")
    sheet('<A Ccy="UAH"><B>x</B></A>')
    for n in (35, 36):
        sheet("<" + "N" * n + ">x</" + "N" * n + ">")
    for n in (140, 141):
        sheet("<A>" + "t" * n + "</A>")
    for n in (12, 13):
        sheet(wrapped(n - 1, "<B>x</B>"))
    for n in (256, 257):
        sheet("<A>" + "<B>x</B>" * (n - 1) + "</A>")
    sheet("<A>" + "<B>x</B>" * 254 + "<C><D>x</D></C></A>")
    for n in (8192, 8193):
        body = "<A>" + "".join("<B>" + "t" * 140 + "</B>" for _ in range(55))
        sheet(body + "<B>" + "t" * (n - len(body) - len("<B></B></A>")) + "</B></A>")


def listings():
    for s in ['<Document><A><B>x</B><C Ccy="UAH">1.00</C></A></Document>', "<A></A>", "<A>x</B>", "", "<A>x</A>", '<A Ccy="EUR">x y</A>',
              "<A><B><C>1</C></B><D>2</D><B><C>3</C><E><F>4</F></E></B><G>5</G></A>", "<A>x</A>\t"]:
        listing(s)
    for n in (9, 10, 99, 100, 255):
        listing("<A>" + "<B>x</B>" * n + "</A>")
    for n in (12, 13):
        listing(wrapped(n - 1, "<B>x</B>"))
    names = [letter * 35 for letter in "ABCDEFGHIJK"]
    listing("".join(f"<{name}>" for name in names) + "<L>x</L>" * 244 + "".join(f"</{name}>" for name in reversed(names)))
    listing("<A>" + "<B>" + "t" * 8186)
    listing("<A>" + "<B>" + "t" * 8187)


for part in (ibans, dates, times, amounts, texts, stored, table, slips, sheets, listings):
    part()
for question, answer in messages():
    vector(question, answer)
with open("crates/vectors/stdin", "w") as file:
    file.write("\n".join(asked) + "\n")
with open("crates/vectors/stdout", "w") as file:
    file.write("\n".join(answered) + "\n")
print(len(asked), "vectors")
