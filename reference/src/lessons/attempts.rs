//! Messages for a lesson that pass every check, as far as the directory and the room as it stands allow.

use super::drafts::{self, uetr_field, Draft, CREATED, INSTRUCTING, MSG_ID, REFERENCE};
use super::Maker;
use crate::directory::{self, Kind, Record};
use crate::room::{self, ANSWER, LIQUIDITY, PAYMENT, REQUEST};
use crate::shapes::{self, AMOUNT_MOST, CODE_MOST};
use crate::slip::WAITS;

/// A submit call that is yet to be made.
#[derive(Clone)]
pub struct Attempt {
    pub seat: u64,
    pub opening: u64,
    pub sender: u64,
    pub date: u64,
    pub long: u64,
    pub draft: Draft,
}

/// So many transfers in a hundred ask for more than there is when they are sent.
const LARGE_PERCENT: u64 = 15;

/// What may leave an account: nothing where it is blocked or its limit is used up.
pub fn payable(account: &[u64]) -> u64 {
    let available = account[room::BALANCE].saturating_sub(account[room::LTK]).min(AMOUNT_MOST);
    match (account[room::OUT], account[room::LPO]) {
        (1, _) | (_, 1) => 0,
        (_, 0) => available,
        (_, lpo) => available.min((lpo - 1).saturating_sub(account[room::TURNOVER])),
    }
}

pub fn is_bank(record: &Record) -> bool {
    matches!(record.kind, Kind::Owner | Kind::Direct(_))
}

pub fn member(code: u64) -> String {
    format!("{:06}", code)
}

impl Maker {
    /// A listed code of some sort, where there is one.
    pub(super) fn code(&mut self, sort: impl Fn(&Record) -> bool) -> Option<u64> {
        let codes: Vec<u64> =
            self.player.directory.iter().filter(|record| sort(record)).map(|record| record.code).collect();
        if codes.is_empty() {
            None
        } else {
            Some(self.dice.pick(&codes))
        }
    }

    pub(super) fn unlisted(&mut self) -> u64 {
        loop {
            let code = self.dice.below(CODE_MOST + 1);
            if self.player.directory.iter().all(|record| record.code != code) {
                return code;
            }
        }
    }

    /// Any code, listed or not.
    pub(super) fn any_code(&mut self) -> u64 {
        let listed = self.code(|_| true);
        match listed {
            Some(code) if self.dice.chance(85) => code,
            _ => self.unlisted(),
        }
    }

    pub(super) fn account(&self, seat: u64, number: usize) -> &[u64] {
        room::account(room::seat(self.player.room(), seat as usize), number)
    }

    pub(super) fn sum(&mut self, most: u64) -> u64 {
        if most == 0 {
            return self.dice.between(1, 100);
        }
        match self.dice.below(10) {
            0 | 1 => most,
            2 => 1,
            3 => self.dice.between(1, most),
            _ => self.dice.between(1, most / 4 + 1).min(most),
        }
    }

    /// The day of the call or, now and then, the day before it.
    pub(super) fn created(&mut self, date: u64) -> String {
        let before = shapes::day_before(date);
        let day = if self.dice.chance(25) && shapes::is_date(before) { before } else { date };
        drafts::time(&mut self.dice, day)
    }

    /// A message that passes every check as far as the directory and the money allow.
    pub(super) fn valid(&mut self, seat: u64) -> Attempt {
        let kind = [PAYMENT, LIQUIDITY, REQUEST, ANSWER][self.dice.weighed(&[26, 34, 14, 26])];
        self.valid_of(seat, kind)
    }

    pub(super) fn valid_of(&mut self, seat: u64, kind: u64) -> Attempt {
        let opening = room::seat(self.player.room(), seat as usize)[room::OPENING];
        let (sender, draft) = match kind {
            PAYMENT => self.payment(seat),
            LIQUIDITY => self.liquidity(seat),
            REQUEST => self.request(seat),
            _ => self.answer(seat),
        };
        self.attempt(seat, opening, sender, draft)
    }

    pub(super) fn attempt(&mut self, seat: u64, opening: u64, sender: u64, draft: Draft) -> Attempt {
        let long = self.buffer();
        Attempt { seat, opening, sender, date: self.date, long, draft }
    }

    pub(super) fn liquidity(&mut self, seat: u64) -> (u64, Draft) {
        let mut sender = 0;
        let mut digit = 1;
        let mut most = 0;
        for _ in 0..6 {
            sender = self.code(|record| record.instant && record.kind == Kind::Owner).unwrap_or(300_001);
            digit = self.dice.between(1, 2);
            let place = directory::owner_place(&self.player.directory, sender).unwrap_or(0);
            most = payable(self.account(seat, room::account_number(place, digit)));
            if most > 0 {
                break;
            }
        }
        let amount = self.sum(most);
        (sender, self.liquidity_of(sender, digit, amount))
    }

    /// A camt.050 that moves an amount from an owner's account to its other one.
    pub(super) fn liquidity_of(&mut self, owner: u64, from: u64, amount: u64) -> Draft {
        let texts = [
            drafts::identifier(&mut self.dice, owner, self.date),
            self.created(self.date),
            drafts::uetr(&mut self.dice),
            drafts::amount(amount),
            drafts::account(from, owner, "UAH"),
            drafts::account(3 - from, owner, "UAH"),
        ];
        Draft::new(LIQUIDITY, &texts)
    }

    /// An agent of a bank: the bank itself, its indirect branch, or a provider that it serves.
    pub(super) fn agent(&mut self, bank: u64, must_be_instant: bool) -> (&'static str, u64) {
        let suits = |record: &Record| record.instant || !must_be_instant;
        let roll = self.dice.below(3);
        let branch = self.code(|record| record.kind == Kind::Indirect(bank) && suits(record));
        let provider = self.code(|record| record.kind == Kind::Provider(bank) && suits(record));
        match (roll, branch, provider) {
            (0, Some(code), _) => ("SEP", code),
            (1, _, Some(code)) => ("ASP", code),
            _ => ("SEP", bank),
        }
    }

    /// What a transfer asks for: mostly what can be paid when it is sent, else a kopeck more or whatever can be written.
    fn transfer_sum(&mut self, most: u64) -> u64 {
        if !self.dice.chance(LARGE_PERCENT) {
            return self.sum(most);
        }
        match self.dice.below(4) {
            0 => most + 1,
            1 => AMOUNT_MOST,
            _ => most + self.dice.between(1, most / 2 + 100),
        }
        .min(AMOUNT_MOST)
    }

    pub(super) fn payment(&mut self, seat: u64) -> (u64, Draft) {
        let mut sender = 0;
        let mut most = 0;
        for _ in 0..6 {
            sender = self.code(|record| record.instant && is_bank(record)).unwrap_or(300_001);
            let place = directory::using_place(&self.player.directory, sender).unwrap_or(0);
            most = payable(self.account(seat, room::account_number(place, 2)));
            if most > 0 {
                break;
            }
        }
        let amount = self.transfer_sum(most);
        (sender, self.payment_of(sender, amount))
    }

    /// A pacs.008 of an amount, from a bank to any that may receive it.
    pub(super) fn payment_of(&mut self, sender: u64, amount: u64) -> Draft {
        let instructed = self.code(|record| record.instant && is_bank(record)).unwrap_or(300_002);
        let (debtor_list, debtor) = self.agent(sender, false);
        let (creditor_list, creditor) = self.agent(instructed, true);
        let previous = match debtor_list {
            "ASP" if self.dice.chance(40) => member(sender),
            "SEP" if self.dice.chance(20) => member(self.any_code()),
            _ => String::new(),
        };
        let texts = [
            drafts::identifier(&mut self.dice, sender, self.date),
            self.created(self.date),
            member(sender),
            member(instructed),
            drafts::reference(&mut self.dice),
            drafts::uetr(&mut self.dice),
            drafts::amount(amount),
            previous,
            debtor_list.to_string(),
            member(debtor),
            drafts::iban(&mut self.dice),
            creditor_list.to_string(),
            member(creditor),
            drafts::iban(&mut self.dice),
        ];
        Draft::new(PAYMENT, &texts)
    }

    /// A pacs.008 sent before: one of this seat's journal, each result about as often as another but for waiting ones, or
    /// any.
    fn asked(&mut self, seat: u64) -> Option<Draft> {
        let is_near = self.dice.chance(85);
        let is_over = self.dice.chance(75);
        let seat = room::seat(self.player.room(), seat as usize);
        let result = |draft: &Draft| {
            let id = shapes::identifier(draft.text(MSG_ID).as_bytes())?;
            let mut steps = room::numbered(seat);
            let (number, _) =
                steps.find(|(_, step)| step[room::STEP_KIND] == PAYMENT && step[room::STEP_ID] == id.stored)?;
            Some(room::result_now(seat, number))
        };
        let payments = self.sent.iter().map(|sent| &sent.draft).filter(|draft| draft.kind == PAYMENT);
        let mut asked: Vec<(Option<(u64, u64)>, &Draft)> = payments.map(|draft| (result(draft), draft)).collect();
        asked.retain(|(result, _)| result.is_some() || !is_near);
        if is_over && asked.iter().any(|(result, _)| *result != Some((WAITS, 0))) {
            asked.retain(|(result, _)| *result != Some((WAITS, 0)));
        }
        let mut results: Vec<Option<(u64, u64)>> = asked.iter().map(|(result, _)| *result).collect();
        results.sort_unstable();
        results.dedup();
        if results.is_empty() {
            return None;
        }
        let wanted = self.dice.pick(&results);
        asked.retain(|(result, _)| *result == wanted);
        Some(asked[self.dice.place(asked.len())].1.clone())
    }

    /// A request about a transfer sent before.
    pub(super) fn request(&mut self, seat: u64) -> (u64, Draft) {
        let asked = match self.asked(seat) {
            Some(asked) => asked,
            None => self.payment(seat).1,
        };
        self.request_about(&asked)
    }

    /// A request about a transfer, mostly by the bank whose code the transfer's MsgId has.
    pub(super) fn request_about(&mut self, asked: &Draft) -> (u64, Draft) {
        let named = asked.text(MSG_ID).get(..6).and_then(|code| code.parse().ok());
        let sender = match named {
            Some(code) if self.dice.chance(90) => code,
            _ => asked.text(INSTRUCTING).parse().unwrap_or(0),
        };
        let texts = [
            drafts::identifier(&mut self.dice, sender, self.date),
            self.created(self.date),
            member(sender),
            asked.text(MSG_ID).to_string(),
            self.dice.pick(&["pacs.008.001.08", "pacs.008", "pacs.0081"]).to_string(),
            asked.text(CREATED).to_string(),
            asked.text(uetr_field(PAYMENT)).to_string(),
            asked.text(REFERENCE).to_string(),
        ];
        (sender, Draft::new(REQUEST, &texts))
    }
}
