"""The scene of checks that fail each by itself: of a message all of them are listed, in the order of its kind."""
from script import BAD_IBAN, DECLINES, REFUSES, note, payment, play, put, reply, request, rows, start, submit, transfer

ONE, TWO = 300001, 300002


def rows_alone():
    note("Every check that fails is listed, each by itself. camt.050, with both accounts of 300001 blocked and limited.")
    start(7, 50000, 10000, 70000, 20000)
    put(7, ONE, 1, out=1, lpo=0)
    put(7, ONE, 2, into=1, lpo=1)
    put(7, TWO, 2, out=1, lpo=0)
    rows([1], 7, 300099, transfer(300099))
    rows([2, 3, 4], 7, 300015, transfer(300015))
    wrong = transfer(ONE, "900.00", "EUR", id="X", created="2024-02-28T00:00:00", debtor="3300002USD", creditor="2300003UAH")
    rows([5, 7, 12, 13, 14, 15, 16, 19], 7, ONE, wrong)
    rows([18, 19, 20, 21, 22, 24], 7, ONE, transfer(ONE, "900.00", "USD", debtor="1300001USD", creditor="2300001USD"))
    rows([23], 7, ONE, transfer(ONE, way="21"))
    rows([6, 17, 20, 21, 24], 7, ONE, submit("RJCT 20", 7, ONE, transfer(ONE)))
    note("pacs.008.")
    rows([1, 25, 33], 7, 300021, payment(300021))
    rows([2, 3], 7, 300015, payment(300015))
    rows([5, 7, 8, 25, 27, 26, 30, 33, 34], 7, ONE, payment(
        ONE, id="X", created="2024-02-28T00:00:00", instructing="300002", instructed="300015", amount="900.00", debtor="300021",
        creditor_system="ASP", creditor="300003", creditor_iban=BAD_IBAN))
    rows([27, 28, 29, 31, 32], 7, ONE, payment(
        ONE, instructed="300003", previous="300002", debtor_system="ASP", debtor="300021", creditor="300023"))
    paid = submit("WAITS 0", 7, TWO, payment(TWO, ONE, amount="900.00"))
    rows([6, 17], 7, TWO, paid)
    rows([], 7, TWO, payment(TWO, ONE, amount="900.00"))
    rows_of_answers(paid)
    note("pacs.028, first about a transfer that waits, then about one that was rejected; and messages that fail nothing.")
    rows([10], 7, TWO, request(TWO, paid))
    rows([10, 11], 7, TWO, request(TWO, paid, original_created="2024-03-01T12:34:57"))
    submit("RJCT 20", 7, ONE, reply(ONE, paid))
    rows([1, 9], 7, 300021, request(300021, paid))
    rows([2, 3, 9], 7, 300015, request(300015, paid))
    rows([5, 7, 8, 9, 10], 7, ONE, request(ONE, paid, id="X", created="2024-02-28T00:00:00", instructing="300002", original="X"))
    rows([11], 7, TWO, request(TWO, paid, reference="another"))
    rows([6], 7, TWO, submit("RJCT 20", 7, TWO, request(TWO, paid)))
    rows([], 7, TWO, request(TWO, paid))
    rows([], 7, TWO, transfer(TWO))
    play("dump 7")


def rows_of_answers(paid):
    """Of a transfer that waits for 300001."""
    note("pacs.002. Where it declines or refuses, or no transfer fits, 20 to 24 do not fail; 35 fails by itself beside 36 and 37.")
    rows([1, 35], 7, 300021, reply(300021, paid))
    rows([2, 3, 35, 36], 7, 300015, reply(300015, paid, DECLINES))
    rows([5, 7, 35, 37], 7, TWO, reply(TWO, paid, REFUSES, id="X", created="2024-02-28T00:00:00"))
    rows([35], 7, TWO, reply(TWO, paid))
    rows([20, 21, 22, 24], 7, ONE, reply(ONE, paid))
    rows([5, 6, 20, 21, 22, 24], 7, ONE, reply(ONE, paid, id=paid["id"]))
    rows([36], 7, ONE, reply(ONE, paid, DECLINES))
    rows([37], 7, ONE, reply(ONE, paid, REFUSES))
    limited = submit("WAITS 0", 7, ONE, payment(ONE, amount="100.01"))
    rows([22, 23], 7, TWO, reply(TWO, limited))


SCENES = (rows_alone,)
