"""What bytes mean and what a sheet is, worked out a second time from the documents, with Python's own calendar, long numbers and regular
expressions; nothing is taken from the Rattle code."""
import datetime
import re

UUID4 = "[a-f0-9]{8}-[a-f0-9]{4}-4[a-f0-9]{3}-[89ab][a-f0-9]{3}-[a-f0-9]{12}"


def real_date(y, m, d):
    try:
        day = datetime.date(int(y), int(m), int(d))
    except ValueError:
        return None
    return day if 2000 <= day.year <= 2099 else None


def time_in(s):
    m = re.fullmatch(r"(\d{4})-(\d\d)-(\d\d)T(\d\d):(\d\d):(\d\d)", s, re.A)
    good = m and real_date(*m.groups()[:3]) and int(m[4]) < 24 and int(m[5]) < 60 and int(m[6]) < 60
    return int("".join(m.groups())) if good else None


def kopecks_in(s):
    m = re.fullmatch(r"(0|[1-9][0-9]{0,10})\.([0-9]{2})", s)
    return int(m[1]) * 100 + int(m[2]) if m else 0


def packed(text):
    return int.from_bytes(text.encode(), "big")


def stored_as(text):
    raw = text.encode().ljust(35, b"\0")
    return "".join(" " + raw[k : k + 7].hex() for k in range(0, 35, 7))


def name_as(text):
    m = re.fullmatch("([0-9]{6})([0-9]{4})([0-9]{2})([0-9]{2})[0-9A-Z]{8}", text)
    return stored_as(text) + (f" {int(m[1])}" if m and real_date(m[2], m[3], m[4]) else " none")


def number_as(value):
    return " none" if value is None or value == "" else f" {int(value)}"


def account_as(text):
    return f" {text[0]} {int(text[1:7])} {packed(text[7:])}" if text else " 0 0 0"


class Broken(Exception):
    pass


class Reader:
    """A sheet by recursive descent; what cannot go on is broken at the place where it stands."""

    def __init__(self, text):
        self.text, self.at, self.count = text, 0, 0
        self.path, self.fields, self.rows = [], [], []

    def byte(self, allowed):
        if self.at < len(self.text) and allowed(self.text[self.at]):
            self.at += 1
            return self.text[self.at - 1]
        raise Broken(self.at)

    def word(self, word):
        for c in word:
            self.byte(lambda b, c=c: b == c)

    def many(self, allowed, most):
        start = self.at
        while self.at < len(self.text) and self.at - start < most and allowed(self.text[self.at]):
            self.at += 1
        return self.text[start : self.at]

    def element(self, depth):
        name = self.byte(lambda b: re.fullmatch("[A-Za-z]", b)) + self.many(lambda b: re.fullmatch("[A-Za-z0-9]", b), 34)
        self.count += 1
        self.path.append(name)
        self.content(name, depth, self.ccy())
        self.path.pop()

    def ccy(self):
        if self.text[self.at : self.at + 1] != " ":
            return ""
        self.word(' Ccy="')
        ccy = "".join(self.byte(lambda b: re.fullmatch("[A-Z]", b)) for _ in range(3))
        self.word('"')
        return f"[{ccy}]"

    def content(self, name, depth, ccy):
        self.word(">")
        row = {"path": "/" + "/".join(self.path), "ccy": ccy, "start": self.at, "text": None}
        self.rows.append(row)
        text = self.many(is_text, 140)
        row["text"] = text or None
        if text:
            self.word("</" + name + ">")
            self.fields.append("/" + "/".join(self.path) + ccy + " " + text)
            return
        self.byte(lambda b: b == "<" and not ccy and depth < 12 and self.count < 256)
        while True:
            self.element(depth + 1)
            self.word("<")
            if self.text[self.at : self.at + 1] == "/":
                self.word("/" + name + ">")
                return
            if self.count == 256:
                raise Broken(self.at)


def is_text(b):
    return 32 <= ord(b) <= 126 and b not in "<>&"


def read(s):
    """The reader once it has read the sheet, and where the sheet is broken, if it is."""
    reader = Reader(s)
    try:
        if len(s) > 8192:
            raise Broken(8192)
        reader.word("<")
        reader.element(1)
        if reader.at < len(s):
            raise Broken(reader.at)
        return reader, None
    except Broken as broken:
        return reader, broken
