//! What a lesson does to accounts so that money moves or does not: settings, and money brought or taken while a transfer
//! waits.

use super::answers::{Transfer, AGREES, VERDICTS};
use super::attempts::{payable, Attempt};
use super::drafts::{self, amount_field, Draft, CREDITOR_ACCOUNT, DEBTOR_ACCOUNT, MSG_ID};
use super::limits::{limit_left, LIMIT_ZERO};
use super::{Maker, Touched};
use crate::directory::{self, Kind};
use crate::room::{self, ANSWER, LIQUIDITY, NO_LIMIT, OPENING, REQUEST, SUM_MOST};
use crate::shapes::AMOUNT_MOST;

/// An account by its owner's code and its number, 1 or 2.
type Named = (u64, u64);

/// Gives a camt.050 an amount that is one kopeck too high for the money of its account (22) or for its limit (23); false
/// where that is not to be had.
fn overdraw(draft: &mut Draft, account: &[u64], check: u64) -> bool {
    let most = match check {
        22 => account[room::BALANCE].saturating_sub(account[room::LTK]),
        23 if account[room::LPO] > LIMIT_ZERO => limit_left(account),
        _ => return false,
    };
    let is_alterable = draft.kind == LIQUIDITY && most < AMOUNT_MOST;
    if is_alterable {
        draft.put(amount_field(LIQUIDITY), &drafts::amount(most + 1));
    }
    is_alterable
}

impl Maker {
    /// The owner that now stands at the place of an account, and the account's number, 1 or 2.
    pub(super) fn owner_at(&self, account: usize) -> Option<Named> {
        let record = self.player.directory.get(account / 2).filter(|record| record.kind == Kind::Owner)?;
        Some((record.code, 1 + account as u64 % 2))
    }

    /// What a message moves: from which account to which, and how much. For a pacs.002 it is what the transfer keeps.
    fn movement_of(&self, attempt: &Attempt) -> Option<([Named; 2], u64)> {
        let draft = &attempt.draft;
        let code = |text: &str| text.parse::<u64>().ok();
        let named = |text: &str| Some((code(text.get(1..7)?)?, code(text.get(..1)?)?));
        match draft.kind {
            LIQUIDITY => {
                let amount = draft.text(amount_field(LIQUIDITY)).replace('.', "").parse().unwrap_or(1);
                Some(([named(draft.text(DEBTOR_ACCOUNT))?, named(draft.text(CREDITOR_ACCOUNT))?], amount))
            }
            ANSWER => {
                let transfer = self.answered_by(attempt)?;
                Some(([self.owner_at(transfer.debit)?, self.owner_at(transfer.credit)?], transfer.amount))
            }
            _ => None,
        }
    }

    /// 20 to 24: a set call before the message, or an amount that is one kopeck too high. An answer mostly agrees then,
    /// since the others fail none of them.
    pub(super) fn spoil_money(&mut self, attempt: &mut Attempt, check: u64) {
        if attempt.draft.kind == ANSWER && self.dice.chance(70) {
            self.put_verdict(&mut attempt.draft, AGREES);
        }
        let (accounts, amount) = match self.movement_of(attempt) {
            Some(movement) => movement,
            None => return,
        };
        let (owner, number) = accounts[if check == 21 { 1 } else { 0 }];
        let place = match directory::owner_place(&self.player.directory, owner) {
            Some(place) if number == 1 || number == 2 => place,
            _ => return,
        };
        let account = self.account(attempt.seat, room::account_number(place, number)).to_vec();
        if self.dice.chance(60) && overdraw(&mut attempt.draft, &account, check) {
            return;
        }
        let less = self.dice.below(2); // just met, or one kopeck too little
        let mut settings = account[room::SETTINGS].to_vec();
        match check {
            20 => settings[0] = 1,
            21 => settings[1] = 1,
            22 => settings[2] = (account[room::BALANCE] + less).saturating_sub(amount).min(SUM_MOST),
            23 => settings[3] = (account[room::TURNOVER] + amount - less).min(SUM_MOST) + 1,
            _ => settings[3] = 1,
        }
        self.set_stored(attempt.seat, (owner, number), &settings);
    }

    /// Gives an account settings in the form in which a room keeps them.
    fn set_stored(&mut self, seat: u64, (owner, number): Named, settings: &[u64]) {
        let opening = self.seat(seat)[OPENING];
        let lpo = if settings[3] == 0 { "-".to_string() } else { (settings[3] - 1).to_string() };
        let words = format!("{} {} {} {}", settings[0], settings[1], settings[2], lpo);
        self.line(&format!("set {} {} {} {} {}", seat, opening, owner, number, words));
        self.touched.push(Touched { seat, owner, number });
    }

    /// What may come between a transfer and its answer: settings, money for it or away from it, other transfers.
    pub(super) fn meanwhile(&mut self, seat: u64, transfer: &Transfer) {
        match self.dice.below(9) {
            0 | 1 => self.set_kept_account(seat, transfer),
            2..=4 => self.bring_money(seat, transfer),
            5 => self.take_money(seat, transfer),
            6 => {
                self.send_transfer(seat);
            }
            7 => self.look_at(seat, transfer),
            _ => {
                let attempt = self.valid(seat);
                self.send(&attempt, attempt.draft.sheet());
            }
        }
    }

    /// Every check that a request about a transfer fails, or an answer to it.
    fn look_at(&mut self, seat: u64, transfer: &Transfer) {
        let mut attempt = match self.request_for(seat, &transfer.id) {
            Some(attempt) if self.dice.chance(50) => attempt,
            _ => {
                let verdict = self.dice.pick(&VERDICTS);
                self.answer_for(seat, transfer, verdict)
            }
        };
        let check = if attempt.draft.kind == REQUEST { 11 } else { self.check_of(ANSWER) };
        self.spoil(&mut attempt, check);
        let sheet = attempt.draft.sheet();
        self.rows(&attempt, &sheet);
    }

    fn set_kept_account(&mut self, seat: u64, transfer: &Transfer) {
        let account = self.dice.pick(&[transfer.debit, transfer.debit, transfer.credit]);
        if let Some((owner, number)) = self.owner_at(account) {
            let settings = self.settings();
            let opening = self.seat(seat)[OPENING];
            self.line(&format!("set {} {} {} {} {}", seat, opening, owner, number, settings));
            self.touched.push(Touched { seat, owner, number });
        }
    }

    /// Lifts the limit of the account that a transfer debits where it is in the way, so often in a hundred: the account has
    /// none then, or lets out what the transfer asks for, or one kopeck less.
    pub(super) fn make_way(&mut self, seat: u64, transfer: &Transfer, percent: u64) {
        let mut account = self.account(seat, transfer.debit).to_vec();
        let is_in_the_way = account[room::LPO] != NO_LIMIT && limit_left(&account) < transfer.amount;
        if !is_in_the_way || !self.dice.chance(percent) {
            return;
        }
        let enough = (account[room::TURNOVER] + transfer.amount).min(SUM_MOST) + LIMIT_ZERO;
        account[room::LPO] = self.dice.pick(&[NO_LIMIT, NO_LIMIT, enough, enough - 1]);
        if let Some(named) = self.owner_at(transfer.debit) {
            self.set_stored(seat, named, &account[room::SETTINGS]);
        }
    }

    /// Moves money to the account that a transfer debits: as much as it lacks, or one kopeck less, or any.
    fn bring_money(&mut self, seat: u64, transfer: &Transfer) {
        self.make_way(seat, transfer, 60);
        let account = self.account(seat, transfer.debit);
        let lacking = (account[room::LTK] + transfer.amount).saturating_sub(account[room::BALANCE]);
        let most = payable(self.account(seat, transfer.debit - 1));
        let amount = match self.dice.below(4) {
            0 => lacking.saturating_sub(1),
            1 => self.sum(most),
            _ => lacking,
        };
        self.move_kept_money(seat, transfer, 1, amount.min(most));
    }

    /// Moves money away from it: so that just enough is left, or one kopeck less.
    fn take_money(&mut self, seat: u64, transfer: &Transfer) {
        let most = payable(self.account(seat, transfer.debit));
        let amount = most.saturating_sub(transfer.amount) + self.dice.below(2);
        self.move_kept_money(seat, transfer, 2, amount.min(most));
    }

    /// Moves money from one account of the owner whose account a transfer debits, to the other.
    fn move_kept_money(&mut self, seat: u64, transfer: &Transfer, from: u64, amount: u64) {
        if let Some((owner, _)) = self.owner_at(transfer.debit) {
            self.move_money(seat, owner, from, amount);
        }
    }

    /// Moves money from one account of an owner to the other, if it is any.
    pub(super) fn move_money(&mut self, seat: u64, owner: u64, from: u64, amount: u64) {
        if amount > 0 {
            let draft = self.liquidity_of(owner, from, amount.min(AMOUNT_MOST));
            let opening = self.seat(seat)[OPENING];
            let attempt = self.attempt(seat, opening, owner, draft);
            self.send(&attempt, attempt.draft.sheet());
        }
    }

    /// Sends a transfer of an amount, to which its receiver agrees.
    pub(super) fn pay(&mut self, seat: u64, sender: u64, amount: u64) {
        let draft = self.payment_of(sender, amount.min(AMOUNT_MOST));
        let opening = self.seat(seat)[OPENING];
        let attempt = self.attempt(seat, opening, sender, draft);
        self.send(&attempt, attempt.draft.sheet());
        let id = attempt.draft.text(MSG_ID);
        if let Some(transfer) = self.transfers(seat).into_iter().find(|transfer| transfer.waits && transfer.id == id) {
            self.send_answer(seat, &transfer, AGREES);
        }
    }
}
