#!/usr/bin/env python3
"""Writes crates/play/stdout: what the small lesson must print, worked out here with a plain model of one seat and nothing of the Rattle code.
Run it from the project's root."""


def opened_account(opening_sum):
    """LPO, stored last as one more than the limit, is the opening sum; where that is 0 there is none, stored as 0."""
    return [opening_sum, opening_sum, 0, 0, 0, 0, opening_sum + 1 if opening_sum else 0]


class Seat:
    def __init__(self):
        self.opening, self.is_open, self.steps, self.accounts = 0, 0, [], [[0] * 7 for _ in range(32)]

    def show(self):
        lines = [f" {self.opening} {self.is_open} {len(self.steps)}"]
        return "\n".join(lines + ["  " + " ".join(map(str, account)) for account in self.accounts[:4]]) + "\n"

    def open(self, sums):
        if self.is_open:
            return 4
        if len(sums) != 4 or max(sums) > 10**15:
            return 6
        self.opening, self.is_open, self.steps = self.opening + 1, 1, []
        self.accounts = [opened_account(opening_sum) for opening_sum in sums] + [[0] * 7 for _ in range(28)]
        return 0

    def ticket(self, opening):
        return self.is_open and self.opening == opening

    def close(self, opening):
        if not self.ticket(opening):
            return 3
        self.is_open, self.steps, self.accounts = 0, [], [[0] * 7 for _ in range(32)]
        return 0

    def set(self, opening, number, settings):
        if not self.ticket(opening):
            return 3
        if number not in (1, 2):
            return 6
        if len(self.steps) == 24:
            return 9
        self.steps.append([account[:] for account in self.accounts])
        self.accounts[number - 1][3:] = settings
        return 0

    def move(self, amount):
        if self.accounts[0][1] < amount:
            return None
        self.steps.append([account[:] for account in self.accounts])
        self.accounts[0][1] -= amount
        self.accounts[0][2] += amount
        self.accounts[1][1] += amount
        return 0

    def back(self, opening):
        if not self.ticket(opening):
            return 3
        if not self.steps:
            return 10
        self.accounts = self.steps.pop()
        return 0


seat, out = Seat(), []


def play(word, answer):
    out.append(f"{word} {answer}{seat.show()}")


def record(amount):
    out.append("record not possible\n" if seat.move(amount) is None else "record" + seat.show())


# No block outgoing, a block incoming, LTK 100.00, LPO 0, which is stored as 1.
LIMITS = [0, 1, 10000, 1]
play("open", seat.open([50000, 10000, 0]))
play("open", seat.open([50000, 10000, 0, 0]))
play("set", seat.set(1, 1, LIMITS))
play("set", seat.set(1, 3, LIMITS))
record(50000)
record(1)
play("back", seat.back(1))
play("back", seat.back(2))
play("back", seat.back(1))
play("back", seat.back(1))
play("close", seat.close(1))
play("close", seat.close(1))
play("open", seat.open([0, 0, 7, 8]))
with open("crates/play/stdout", "w") as file:
    file.write("room fit\n" + "".join(out) + "room fit\n")
