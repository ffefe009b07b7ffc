//! What a lesson changes in a message so that a check fails: one function for each group of checks.

use super::attempts::{member, Attempt};
use super::drafts::{
    self, amount_field, uetr_field, Draft, CREATED, CREDITOR, CREDITOR_ACCOUNT, CREDITOR_IBAN, CREDITOR_LIST, DEBTOR,
    DEBTOR_ACCOUNT, DEBTOR_LIST, INSTRUCTED, INSTRUCTING, MSG_ID, ORIGINAL_CREATED, ORIGINAL_ID, ORIGINAL_REFERENCE,
    PREVIOUS,
};
use super::Maker;
use crate::checks;
use crate::directory::{self, Kind, Record};
use crate::room::{ANSWER, LIQUIDITY, PAYMENT, REQUEST};
use crate::shapes;

/// First digits that are not 1 and 2, either way.
const WRONG_DIGITS: [(&str, &str); 7] =
    [("1", "1"), ("2", "2"), ("3", "2"), ("1", "0"), ("9", "9"), ("3", "1"), ("0", "2")];

fn order_of(kind: u64) -> &'static [u64] {
    match kind {
        PAYMENT => &checks::PAYMENT_ORDER,
        LIQUIDITY => &checks::LIQUIDITY_ORDER,
        REQUEST => &checks::REQUEST_ORDER,
        _ => &checks::ANSWER_ORDER,
    }
}

/// The owner that a record names, or is.
fn owner_of(record: &Record) -> u64 {
    match record.kind {
        Kind::Owner => record.code,
        Kind::Direct(owner) | Kind::Indirect(owner) | Kind::Provider(owner) => owner,
    }
}

fn other_list(list: &str) -> &'static str {
    if list == "SEP" {
        "ASP"
    } else {
        "SEP"
    }
}

fn is_provider(record: &Record) -> bool {
    matches!(record.kind, Kind::Provider(_))
}

impl Maker {
    /// A check of a kind's order, each about as often as another.
    pub(super) fn check_of(&mut self, kind: u64) -> u64 {
        match kind {
            REQUEST if self.dice.chance(30) => 11, // 11 shows only where nothing before it fails
            LIQUIDITY if self.dice.chance(20) => self.dice.pick(&[22, 23, 24, 24]),
            _ => self.dice.pick(order_of(kind)),
        }
    }

    /// A check that stands next to another in the order or next but one, so that it shows which of them comes first.
    pub(super) fn check_near(&mut self, kind: u64, check: u64) -> u64 {
        let order = order_of(kind);
        let place = order.iter().position(|other| *other == check).unwrap_or(0);
        let distance = if self.dice.chance(70) { 1 } else { 2 };
        let near = if self.dice.chance(50) { place + distance } else { place.saturating_sub(distance) };
        order[near.min(order.len() - 1)]
    }

    /// Changes an attempt so that a check fails, other checks aside.
    pub(super) fn spoil(&mut self, attempt: &mut Attempt, check: u64) {
        match check {
            1..=4 => self.spoil_sender(attempt, check),
            5 | 9 => {
                let text = self.bad_identifier(attempt.sender);
                attempt.draft.put(if check == 5 { MSG_ID } else { ORIGINAL_ID }, &text);
            }
            6 | 17 => self.spoil_by_repeating(attempt, check),
            7 => self.spoil_day(attempt),
            8 => {
                let code = self.any_code();
                attempt.draft.put(INSTRUCTING, &member(code));
            }
            10 | 11 => self.spoil_original(attempt, check),
            35 => self.spoil_answerer(attempt),
            36 | 37 => self.put_verdict(&mut attempt.draft, check),
            12..=16 | 18 | 19 => self.spoil_accounts(attempt, check),
            20..=24 => self.spoil_money(attempt, check),
            34 => {
                let last = attempt.draft.text(CREDITOR_IBAN).as_bytes()[28];
                let other = if last == b'1' { "2" } else { "1" };
                let text = attempt.draft.text(CREDITOR_IBAN)[..28].to_string() + other;
                attempt.draft.put(CREDITOR_IBAN, &text);
            }
            _ => self.spoil_agents(attempt, check),
        }
    }

    /// 1 to 4: another sender, in whose name the message mostly is.
    pub(super) fn spoil_sender(&mut self, attempt: &mut Attempt, check: u64) {
        let found = match check {
            1 if self.dice.chance(50) => self.code(is_provider),
            2 => self.code(|record| matches!(record.kind, Kind::Indirect(_))),
            3 => self.code(|record| !record.instant),
            4 => self.code(|record| matches!(record.kind, Kind::Direct(_))),
            _ => None,
        };
        attempt.sender = match found {
            Some(code) => code,
            None => self.unlisted(),
        };
        // what fails 3 under another bank's MsgId can be asked after by that bank
        if self.dice.chance(if check == 3 { 45 } else { 70 }) {
            let id = drafts::identifier(&mut self.dice, attempt.sender, attempt.date);
            attempt.draft.put(MSG_ID, &id);
            match attempt.draft.kind {
                LIQUIDITY => {
                    attempt.draft.put(DEBTOR_ACCOUNT, &drafts::account(1, attempt.sender, "UAH"));
                    attempt.draft.put(CREDITOR_ACCOUNT, &drafts::account(2, attempt.sender, "UAH"));
                }
                ANSWER => {}
                _ => attempt.draft.put(INSTRUCTING, &member(attempt.sender)),
            }
        }
    }

    pub(super) fn bad_identifier(&mut self, code: u64) -> String {
        let good = drafts::identifier(&mut self.dice, code, self.date);
        let other = self.any_code();
        let date = self.dice.pick(&[20230229, 20240431, 19991231, 21000101, 20241301, 20240100, 0]);
        match self.dice.below(9) {
            0 | 1 => drafts::identifier(&mut self.dice, other, self.date),
            2 | 3 => drafts::identifier(&mut self.dice, code, date),
            4 => good[..21].to_string(),
            5 => good + "0",
            6 => good[..21].to_string() + "a",
            7 => good[..13].to_string() + "x" + &good[14..],
            _ => self.dice.pick(&["X", "12345678901234567890123456789012345", " ", "300001"]).to_string(),
        }
    }

    /// 6 and 17: what an earlier message of this seat had, of any kind that has it. A MsgId is mostly one of the sender's,
    /// since another fails 5 first, and often of another kind.
    pub(super) fn spoil_by_repeating(&mut self, attempt: &mut Attempt, check: u64) {
        let near = self.dice.chance(70);
        let alike = self.dice.chance(40);
        let code = member(attempt.sender);
        let kind = attempt.draft.kind;
        let suits = |draft: &Draft| match check {
            6 => (!near || draft.text(MSG_ID).starts_with(&code)) && (alike || draft.kind != kind),
            _ => draft.kind != ANSWER,
        };
        let here = self.sent.iter().filter(|sent| sent.seat == attempt.seat && suits(&sent.draft));
        let drafts: Vec<Draft> = here.map(|sent| sent.draft.clone()).collect();
        if drafts.is_empty() {
            return;
        }
        let earlier = &drafts[self.dice.place(drafts.len())];
        if check == 6 {
            attempt.draft.put(MSG_ID, earlier.text(MSG_ID));
        } else {
            attempt.draft.put(uetr_field(attempt.draft.kind), earlier.text(uetr_field(earlier.kind)));
        }
    }

    /// 7: created two days before, or a day later, or at another time altogether.
    pub(super) fn spoil_day(&mut self, attempt: &mut Attempt) {
        let before = shapes::day_before(shapes::day_before(attempt.date));
        let later = attempt.date + 1;
        let day = match self.dice.below(3) {
            0 => before,
            1 => later,
            _ => self.dice.pick(&[20000101, 20240229, 20991231, 20231231]),
        };
        let day = if shapes::is_date(day) { day } else { 20500615 };
        let text = drafts::time(&mut self.dice, day);
        attempt.draft.put(CREATED, &text);
    }

    /// 10 and 11: an identifier that nobody had; another time, UETR or end-to-end identifier.
    pub(super) fn spoil_original(&mut self, attempt: &mut Attempt, check: u64) {
        let (field, text) = match (check, self.dice.below(3)) {
            (10, 0) if !self.sent.is_empty() => {
                (ORIGINAL_ID, self.sent[self.dice.place(self.sent.len())].draft.text(MSG_ID).to_string())
            }
            (10, _) => (ORIGINAL_ID, drafts::identifier(&mut self.dice, attempt.sender, self.date)),
            (_, 0) => (ORIGINAL_CREATED, drafts::time(&mut self.dice, self.date)),
            (_, 1) => (uetr_field(REQUEST), drafts::uetr(&mut self.dice)),
            _ => (ORIGINAL_REFERENCE, drafts::reference(&mut self.dice)),
        };
        attempt.draft.put(field, &text);
    }

    /// 12 to 16, 18 and 19: codes, digits and currencies of a camt.050's accounts.
    pub(super) fn spoil_accounts(&mut self, attempt: &mut Attempt, check: u64) {
        let draft = &mut attempt.draft;
        let currency = self.dice.pick(&["USD", "EUR", "UAX", "XAH"]);
        let with_digit = |text: &str, digit: &str| digit.to_string() + &text[1..];
        match check {
            12 | 13 => {
                let field = if check == 12 { CREDITOR_ACCOUNT } else { DEBTOR_ACCOUNT };
                let digit = draft.text(field)[..1].to_string();
                let code = self.any_code();
                draft.put(field, &(digit + &member(code) + "UAH"));
            }
            15 => {
                let (one, other) = self.dice.pick(&WRONG_DIGITS);
                let debtor = with_digit(draft.text(DEBTOR_ACCOUNT), one);
                let creditor = with_digit(draft.text(CREDITOR_ACCOUNT), other);
                draft.put(DEBTOR_ACCOUNT, &debtor);
                draft.put(CREDITOR_ACCOUNT, &creditor);
            }
            16 => draft.put_currency(amount_field(LIQUIDITY), Some(currency)),
            18 => self.put_account_currency(draft, &[DEBTOR_ACCOUNT, CREDITOR_ACCOUNT], currency),
            _ => {
                let field = self.dice.pick(&[DEBTOR_ACCOUNT, CREDITOR_ACCOUNT]);
                self.put_account_currency(draft, &[field], currency);
            }
        }
    }

    /// Another currency in some of a camt.050's accounts, and in its amount where both have it or by chance.
    fn put_account_currency(&mut self, draft: &mut Draft, fields: &[usize], currency: &str) {
        for field in fields {
            let text = draft.text(*field)[..7].to_string() + currency;
            draft.put(*field, &text);
        }
        if fields.len() == 2 || self.dice.chance(30) {
            draft.put_currency(amount_field(LIQUIDITY), Some(currency));
        }
    }

    /// A code that is tied to another: its head or bank, or one that names the same owner.
    pub(super) fn relative(&mut self, code: u64) -> u64 {
        let owner = directory::find(&self.player.directory, code).map(owner_of);
        self.code(|record| Some(owner_of(record)) == owner).unwrap_or(code)
    }

    /// 25 to 33: agents that do not belong together.
    pub(super) fn spoil_agents(&mut self, attempt: &mut Attempt, check: u64) {
        let draft = &mut attempt.draft;
        let bank =
            draft.text(if matches!(check, 25 | 30 | 32 | 33) { INSTRUCTING } else { INSTRUCTED }).parse().unwrap_or(0);
        let any = member(if self.dice.chance(50) { self.relative(bank) } else { self.any_code() });
        let list = self.dice.pick(&["SEP", "ASP"]);
        let provider = self.code(is_provider).map(member);
        match check {
            25 if self.dice.chance(40) => draft.put(DEBTOR_LIST, other_list(draft.text(DEBTOR_LIST))),
            25 | 30 => draft.put(DEBTOR, &any),
            27 => draft.put(INSTRUCTED, &any),
            26 | 28 | 29 if self.dice.chance(40) => draft.put(CREDITOR_LIST, other_list(draft.text(CREDITOR_LIST))),
            26 | 28 | 31 => draft.put(CREDITOR, &any),
            29 => {
                draft.put(CREDITOR_LIST, if self.dice.chance(80) { "ASP" } else { "SEP" });
                draft.put(CREDITOR, &provider.clone().unwrap_or(any));
                if let Some(code) = provider.filter(|_| self.dice.chance(50)) {
                    let bank = directory::find(&self.player.directory, code.parse().unwrap_or(0)).map_or(0, owner_of);
                    let branch = self.code(|record| record.instant && record.kind == Kind::Direct(bank));
                    draft.put(INSTRUCTED, &member(branch.unwrap_or(bank)));
                }
            }
            _ => {
                draft.put(DEBTOR_LIST, if self.dice.chance(80) { "ASP" } else { list });
                draft.put(DEBTOR, &provider.unwrap_or_else(|| any.clone()));
                draft.remove(PREVIOUS);
                if check == 32 {
                    let previous = if self.dice.chance(50) { any } else { draft.text(INSTRUCTING).to_string() };
                    draft.put(PREVIOUS, &previous);
                }
            }
        }
    }
}
