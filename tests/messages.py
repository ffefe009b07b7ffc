"""The vectors of messages: every field of every kind missing, doubled and of each shape, and the rules of document 01's section on fields
and of request 9 of document 02, each with the answer that is worked out here a second time. The assertions say what a vector is there
for."""
import re

from second import account_as, kopecks_in, name_as, number_as, packed, read, stored_as, time_in, UUID4

M, S = "FinInstnId/ClrSysMmbId/MmbId", "FinInstnId/ClrSysMmbId/ClrSysId/Prtry"

# Of each kind its body and its fields in the documents' order: a shape and a path below the body. A `?` marks the optional one.
KINDS = {
    "pacs.008": ("FIToFICstmrCdtTrf", f"""
        identifier GrpHdr/MsgId|time GrpHdr/CreDtTm|code GrpHdr/InstgAgt/{M}|code GrpHdr/InstdAgt/{M}
        identifier CdtTrfTxInf/PmtId/EndToEndId|uetr CdtTrfTxInf/PmtId/UETR|hryvnias CdtTrfTxInf/IntrBkSttlmAmt
        code? CdtTrfTxInf/PrvsInstgAgt1/{M}|system CdtTrfTxInf/DbtrAgt/{S}|code CdtTrfTxInf/DbtrAgt/{M}
        iban CdtTrfTxInf/DbtrAcct/Id/IBAN|system CdtTrfTxInf/CdtrAgt/{S}|code CdtTrfTxInf/CdtrAgt/{M}
        iban CdtTrfTxInf/CdtrAcct/Id/IBAN"""),
    "camt.050": ("LqdyCdtTrf", """
        identifier MsgHdr/MsgId|time MsgHdr/CreDtTm|uetr LqdyCdtTrf/LqdyTrfId/UETR|amount LqdyCdtTrf/LqdyTrfId/TrfdAmt
        account LqdyCdtTrf/LqdyTrfId/DbtrAcct/Id/Othr/Id|account LqdyCdtTrf/LqdyTrfId/CdtrAcct/Id/Othr/Id"""),
    "pacs.028": ("FIToFIPmtStsReq", f"""
        identifier GrpHdr/MsgId|time GrpHdr/CreDtTm|code GrpHdr/InstgAgt/{M}|identifier TxInf/OrgnlGrpInf/OrgnlMsgId
        original TxInf/OrgnlGrpInf/OrgnlMsgNmId|time TxInf/OrgnlGrpInf/OrgnlCreDtTm|uetr TxInf/OrgnlUETR
        identifier TxInf/OrgnlEndToEndId"""),
    "pacs.002": ("FIToFIPmtStsRpt", """
        identifier GrpHdr/MsgId|time GrpHdr/CreDtTm|identifier OrgnlGrpInfAndSts/OrgnlMsgId|group OrgnlGrpInfAndSts/GrpSts
        client? TxInfAndSts/TxSts"""),
}
KINDS = {
    kind: (body, [tuple(field.split()) for field in fields.strip().replace("\n", "|").split("|")])
    for kind, (body, fields) in KINDS.items()
}

# The most fields that a kind has.
FIELDS_MOST = 14

# The places of GrpSts and TxSts among the fields of a pacs.002.
GROUP_AT, CLIENT_AT = 3, 4

SHAPES = {
    "identifier": lambda s: len(s) <= 35,
    "time": lambda s: time_in(s) is not None,
    "code": lambda s: re.fullmatch("[0-9]{6}", s),
    "system": lambda s: s in ("SEP", "ASP"),
    "uetr": lambda s: re.fullmatch(UUID4, s),
    "amount": lambda s: kopecks_in(s) > 0,
    "iban": lambda s: re.fullmatch("UA[0-9]{8}[0-9A-Z]{19}", s),
    "account": lambda s: re.fullmatch("[0-9]{7}[A-Z]{3}", s),
    "original": lambda s: len(s) <= 35 and s.startswith("pacs.008"),
    "group": lambda s: s in ("ACCP", "RJCT"),
    "client": lambda s: s == "RJCT",
}


def is_good(shape, rows):
    if len(rows) != 1:
        return not rows and shape.endswith("?")
    row, shape = rows[0], shape.rstrip("?")
    if row["text"] is None:
        return False
    if shape == "hryvnias":
        return row["ccy"] == "[UAH]" and SHAPES["amount"](row["text"])
    return bool(row["ccy"]) == (shape == "amount") and bool(SHAPES[shape](row["text"]))


def goes_with(kind, at, found):
    """The rule between two fields: beside GrpSts ACCP no TxSts may stand, whatever its text."""
    if kind != "pacs.002" or at != CLIENT_AT:
        return True
    return not (found[CLIENT_AT] and [row["text"] for row in found[GROUP_AT]] == ["ACCP"])


def reply_as(kind, text):
    """How a pacs.002 answers a transfer."""
    if kind != "pacs.002":
        return " none"
    if text[1 + GROUP_AT] == "ACCP":
        return " accepts"
    return " refuses" if text[1 + CLIENT_AT] else " declines"


def message_as(kind, rows):
    """What a message holds, in the order in which the program prints it."""
    text = [""] + [row["text"] if row else "" for row in rows]

    def of(*numbers):
        number = numbers[list(KINDS).index(kind)]
        return text[number] if number else ""

    amount = {"pacs.008": 7, "camt.050": 4}.get(kind, 0)
    uetr = of(6, 3, 7, 0).replace("-", "") or "0" * 32
    creditor = of(14, 0, 0, 0)
    common = [" " + kind, name_as(of(1, 1, 1, 1)), number_as(time_in(of(2, 2, 2, 2))), number_as(of(3, 0, 3, 0)), name_as(of(0, 0, 4, 3)),
              number_as(time_in(of(0, 0, 6, 0)))]
    transfer = [stored_as(of(5, 0, 8, 0)), f" {uetr[:16]} {uetr[16:]}", number_as(kopecks_in(of(7, 4, 0, 0)) or None),
                number_as(packed(rows[amount - 1]["ccy"][1:4]) if amount else None), account_as(of(0, 5, 0, 0)),
                account_as(of(0, 6, 0, 0))]
    parties = [number_as(of(4, 0, 0, 0)), number_as(of(8, 0, 0, 0)), f" {of(9, 0, 0, 0) or 'neither'}", number_as(of(10, 0, 0, 0)),
               f" {of(12, 0, 0, 0) or 'neither'}", number_as(of(13, 0, 0, 0)),
               f" {int(''.join(str(int(c, 36)) for c in creditor[4:] + creditor[:4])) % 97}" if creditor else " none",
               reply_as(kind, text)]
    return "".join(common + transfer + parties)


def received(s):
    """What is printed of a sheet: its refusal, or its message and where each field stands."""
    reader, broken = read(s)
    if broken:
        return f" 7 {broken}"
    below = [row["path"] for row in reader.rows if row["path"].count("/") == 2]
    for kind, (body, fields) in KINDS.items():
        if below == ["/Document/" + body]:
            break
    else:
        return " 8 0"
    found = [[row for row in reader.rows if row["path"] == f"/Document/{body}/{path}"] for _, path in fields]
    bad = [at for at, (shape, _) in enumerate(fields) if not (is_good(shape, found[at]) and goes_with(kind, at, found))]
    if bad:
        return f" 8 {1 + bad[0]}"
    rows = [rows[0] if rows else None for rows in found]
    shown = "".join(f" {row['start']}[{row['text']}]" if row else " 0[]" for row in rows + [None] * (FIELDS_MOST - len(rows)))
    return " 0" + message_as(kind, rows) + shown + "[]"


asked = []


def receive(s):
    """Asks after a sheet; its refusal's number and detail."""
    answer = received(s)
    asked.append(("receive " + s, answer))
    return " ".join(answer.split()[:2]) if answer[1] != "0" else "0"


EXAMPLES = {
    "pacs.008": ["3000012024030100000001", "2024-03-01T12:34:56", "300001", "300002", "E2E-1", "eb6305c9-1f7f-49de-aed0-16487c27b42d",
                 "500.00", "300001", "SEP", "300001", "UA213223130000026007233566001", "ASP", "300002", "UA213223130000026007233566001"],
    "camt.050": ["3000012024030100000002", "2024-02-29T00:00:00", "123e4567-e89b-42d3-a456-426614174000", "0.01", "1300001UAH", "2300001UAH"],
    "pacs.028": ["3000012024030100000003", "2099-12-31T23:59:59", "300001", "3000012024030100000001", "pacs.008.001.08",
                 "2024-03-01T12:34:56", "eb6305c9-1f7f-49de-aed0-16487c27b42d", "E2E-1"],
    "pacs.002": ["3000022024030100000004", "2024-03-01T12:35:00", "3000012024030100000001", "RJCT", "RJCT"],
}

# Of each shape texts that have it and texts that have not. An empty text is none: the sheet itself would be refused. ACCP fits too, but
# not beside the TxSts of the example.
FITS = {
    "identifier": (["x", "i" * 35, "a blank", "~!\"#"], ["i" * 36]),
    "time": (["2000-01-01T00:00:00"], ["2024-02-30T00:00:00", "2024-03-01T00:00:60", "2024-03-01T00:00:00Z", "1999-12-31T00:00:00"]),
    "code": (["000000", "999999"], ["30000", "3000001", "30000A"]),
    "system": (["SEP", "ASP"], ["sep", "SE", "SEPA", "PAS"]),
    "uetr": (["00000000-0000-4000-8000-000000000000"],
             ["123e4567-e89b-12d3-a456-426614174000", "123E4567-E89B-42D3-A456-426614174000", "123e4567-e89b-42d3-a456-42661417400"]),
    "amount": (["99999999999.99", "0.01", "10.00"], ["0.00", "100000000000.00", "00.01", "1.0", "1", "1,00"]),
    "iban": (["UA00000000ZZZZZZZZZZZZZZZZZZZ"], ["UA21322313000002600723356600", "UA21322A130000026007233566001", "PL213223130000026007233566001"]),
    "account": (["0000000AAA", "9999999ZZZ"], ["1300001uah", "130001UAH", "13000011UAH"]),
    "original": (["pacs.008", "pacs.008" + "x" * 27], ["pacs.00", "pacs.009.001.08", "Pacs.008", "pacs.008" + "x" * 28]),
    "group": (["RJCT"], ["ACCC", "accp", "rjct", "ACC", "ACCPT", "RJC", "RJCT ", "ACSC", "PDNG"]),
    "client": (["RJCT"], ["ACCP", "rjct", "RJC", "RJCT ", " RJCT"]),
}


def together(leaves):
    """Elements at their paths, each a path, a text and a Ccy; those that follow each other share the parents that they can."""
    written, around = [], []

    def leave(names):
        while around[: len(names)] != names or len(around) > len(names):
            written.append(f"</{around.pop()}>")

    for path, text, ccy in leaves:
        *names, last = path.split("/")
        common = 0
        while common < min(len(names), len(around)) and names[common] == around[common]:
            common += 1
        leave(around[:common])
        for name in names[common:]:
            around.append(name)
            written.append(f"<{name}>")
        written.append(f"<{last}{ccy}>{text}</{last}>")
    leave([])
    return "".join(written)


def is_money(shape):
    return shape in ("hryvnias", "amount")


def leaves(kind):
    """The elements of a good message of a kind, one for each field."""
    return [
        (path, text, ' Ccy="UAH"' if is_money(shape) else "")
        for (shape, path), text in zip(KINDS[kind][1], EXAMPLES[kind])
    ]


def document(kind, parts):
    body = KINDS[kind][0]
    return f"<Document><{body}>{together(parts)}</{body}></Document>"


def split(kind, parts):
    """The same with a parent of its own for each element."""
    body = KINDS[kind][0]
    return f"<Document><{body}>{''.join(together([part]) for part in parts)}</{body}></Document>"


def fields_of(kind):
    """Each field of a kind missing, doubled, and of every shape."""
    good = leaves(kind)
    assert receive(document(kind, good)) == "0"
    assert receive(split(kind, good)) == "0"
    for k, (shape, path) in enumerate(KINDS[kind][1], 1):
        def changed(*parts):
            return receive(document(kind, [*good[: k - 1], *parts, *good[k:]]))

        text, ccy = good[k - 1][1:]
        assert changed() == ("0" if shape.endswith("?") else f"8 {k}")
        assert changed(good[k - 1], good[k - 1]) == f"8 {k}"
        assert receive(split(kind, [*good, good[k - 1]])) == f"8 {k}"
        assert changed((path + "/X", text, "")) == f"8 {k}"
        assert changed((path, text, "" if ccy else ' Ccy="UAH"')) == f"8 {k}"
        fits, misfits = FITS["amount" if is_money(shape) else shape.rstrip("?")]
        for text in fits:
            assert changed((path, text, ccy)) == "0"
        for text in misfits:
            assert changed((path, text, ccy)) == f"8 {k}"


def how(s):
    """Asks after a pacs.002; its refusal, or how it answers."""
    refusal = receive(s)
    return refusal if refusal != "0" else next(word for word in asked[-1][1].split() if word in ("accepts", "declines", "refuses"))


def statuses(groups, clients):
    """A pacs.002 with these elements for GrpSts and for TxSts: each a text, or a text and a Ccy."""
    given = [(path, *(part if isinstance(part, tuple) else (part, "")))
             for (_, path), parts in zip(KINDS["pacs.002"][1][GROUP_AT:], (groups, clients)) for part in parts]
    return document("pacs.002", leaves("pacs.002")[:GROUP_AT] + given)


def answers():
    """A pacs.002's GrpSts and TxSts together, and what else may stand in it."""
    for groups, clients, wants in [
        (["ACCP"], [], "accepts"), (["RJCT"], [], "declines"), (["RJCT"], ["RJCT"], "refuses"),
        # beside ACCP no TxSts may stand, of whatever shape
        (["ACCP"], ["RJCT"], "8 5"), (["ACCP"], ["ACCP"], "8 5"), (["ACCP"], ["x" * 36], "8 5"), (["ACCP"], ["RJCT", "RJCT"], "8 5"),
        (["ACCP"], [("RJCT", ' Ccy="UAH"')], "8 5"), (["ACCP"], ["<X>RJCT</X>"], "8 5"),
        # a GrpSts that is bad itself goes before
        ([], ["RJCT"], "8 4"), (["ACCP", "ACCP"], ["RJCT"], "8 4"), (["ACCP", "RJCT"], ["ACCP"], "8 4"), (["ACCPX"], ["x"], "8 4"),
        ([("ACCP", ' Ccy="UAH"')], ["RJCT"], "8 4"), (["<X>ACCP</X>"], ["RJCT"], "8 4"), ([], [], "8 4"),
    ]:
        assert how(statuses(groups, clients)) == wants
    good = leaves("pacs.002")
    accepting = [*good[:GROUP_AT], (good[GROUP_AT][0], "ACCP", "")]
    # TxSts may stand first, and then breaks the rule as well; a lower field goes before it
    assert how(document("pacs.002", good[::-1])) == "refuses"
    assert how(document("pacs.002", [good[CLIENT_AT], *accepting])) == "8 5"
    assert how(document("pacs.002", [*accepting[:2], *accepting[3:], good[CLIENT_AT]])) == "8 3"
    # no TxSts are a TxInfAndSts without one, and one that stands elsewhere
    others = [("TxInfAndSts/StsId", "RJCT", ""), ("TxInfAndSts/X/TxSts", "RJCT", ""), ("OrgnlGrpInfAndSts/TxSts", "RJCT", ""),
              ("TxSts", "RJCT", ' Ccy="UAH"'), ("TxInfAndSts/GrpSts", "RJCT", ""), ("OrgnlGrpInfAndSts/StsRsnInf/Rsn/Cd", "AC04", "")]
    assert how(document("pacs.002", [*others, *accepting])) == "accepts"
    assert how(document("pacs.002", [*good[:CLIENT_AT], *others])) == "declines"
    assert how(document("pacs.002", [*others, *good, *others])) == "refuses"
    # under the name of a pacs.028 it lacks InstgAgt; under a name that is almost its own it is unknown
    for name, wants in [("FIToFIPmtStsReq", "8 3"), ("FIToFIPmtStsRp", "8 0"), ("FIToFIPmtStsRptt", "8 0")]:
        assert how(document("pacs.002", accepting).replace(KINDS["pacs.002"][0], name)) == wants


def messages():
    for kind in KINDS:
        fields_of(kind)
    answers()
    transfer, liquidity = leaves("pacs.008"), leaves("camt.050")
    # another currency: refused in pacs.008 alone
    assert receive(document("pacs.008", transfer).replace('"UAH"', '"USD"')) == "8 7"
    assert receive(document("camt.050", liquidity).replace('"UAH"', '"USD"')) == "0"
    # the lowest number wins, wherever the faults stand
    assert receive(document("pacs.008", transfer[:9] + transfer[10:13] + transfer[3:4])) == "8 4"
    assert receive(document("pacs.008", transfer[::-1])) == "0"
    # a body that holds a text is known
    for body, _ in KINDS.values():
        assert receive(f"<Document><{body}>x</{body}></Document>") == "8 1"
    # other elements are ignored, anywhere, also such as are named like a field elsewhere or have a Ccy
    assert receive(document("camt.050", [("X", "y", ""), *liquidity, ("MsgId", "z", ' Ccy="UAH"'), ("LqdyCdtTrf/Y/UETR", "1", "")])) == "0"
    assert receive(document("pacs.008", [*[("GrpHdr/" + name, "x", "") for name in ("MsgId1", "MsgI", "msgid")], *transfer])) == "0"
    # unknown messages
    good = document("camt.050", liquidity)
    for s in ["<Document>x</Document>", "<A>x</A>", good.replace("Document", "Documents"), good.replace("LqdyCdtTrf>", "LqdyCdtTrg>"),
              good.replace("</Document>", "<A>x</A></Document>"), good.replace("</Document>", good[len("<Document>") :]),
              good[len("<Document>") : -len("</Document>")], "<Document>" + good + "</Document>",
              "<Document><A><LqdyCdtTrf>x</LqdyCdtTrf></A></Document>"]:
        assert receive(s) == "8 0"
    # ill-formed sheets
    for s in ["", "<A></A>", good[:-1], good + " ", good.replace("0.01", "0.0&1")]:
        assert receive(s).startswith("7 ")
    return asked
