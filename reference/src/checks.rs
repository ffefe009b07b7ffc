//! The 37 checks (document 01, "The checks"; document 02, request 9; docs/CHECKS.md): their codes, each kind's order, and
//! when each fails.

use crate::directory::{self, Kind, Record};
use crate::message::{Agent, Answer, Body, Liquidity, List, Message, Payment, Request, Verdict};
use crate::room;
use crate::shapes::{day_before, iban_remainder, is_good_identifier_of, NamedAccount, HRYVNIA};

pub const CHECKS: usize = 37;

/// The SEP and ISO codes of checks 1 to 37. A row of camt.050 alone has no ISO code, and no camt.050 uses one.
pub const CODES: [(&str, &str); CHECKS] = [
    ("TE03", "AGNT"),
    ("TE04", "AGNT"),
    ("TE07", "AGNT"),
    ("TE08", ""),
    ("H026", "RR04"),
    ("DU01", "DU01"),
    ("H037", "RR04"),
    ("H005", "AGNT"),
    ("N002", "RR04"),
    ("KV03", "RR04"),
    ("KV02", "RR04"),
    ("N029", ""),
    ("N028", ""),
    ("N027", ""),
    ("N015", ""),
    ("N026", ""),
    ("DU03", "DU03"),
    ("N031", ""),
    ("N030", ""),
    ("A001", "RR04"),
    ("A002", "RR04"),
    ("M001", "AM04"),
    ("M003", "RR04"),
    ("A018", "RR04"),
    ("X002", "AGNT"),
    ("H018", "RC10"),
    ("X001", "AGNT"),
    ("H065", "CNOR"),
    ("H066", "CNOR"),
    ("H008", "AGNT"),
    ("H019", "AGNT"),
    ("H012", "RC09"),
    ("H013", "RC09"),
    ("T003", "AC03"),
    ("X003", "NARR"),
    ("TE10", "FF10"),
    ("X004", "NARR"),
];

/// What a pacs.008 fails by at its submit; the money checks run when it is answered.
pub const PAYMENT_ORDER: [u64; 18] = [1, 2, 3, 5, 6, 7, 8, 17, 25, 27, 26, 28, 29, 30, 31, 32, 33, 34];
pub const LIQUIDITY_ORDER: [u64; 20] = [1, 2, 3, 4, 5, 7, 12, 13, 14, 15, 16, 6, 17, 18, 19, 20, 21, 22, 23, 24];
pub const REQUEST_ORDER: [u64; 10] = [1, 2, 3, 5, 6, 7, 8, 9, 10, 11];
pub const ANSWER_ORDER: [u64; 14] = [1, 2, 3, 5, 6, 7, 35, 36, 37, 20, 21, 22, 23, 24];

/// Blocks, money and limits: the last checks of whatever moves money.
pub const MONEY_CHECKS: [u64; 5] = [20, 21, 22, 23, 24];

/// The checks that speak of what a receiver refuses: without TxSts, and with it.
pub const REFUSAL_CHECKS: [u64; 2] = [36, 37];

/// Checks 1 and 2 are refusals and appear on no slip.
pub const CHECK_REFUSED_MOST: u64 = 2;

/// The order of a message's kind.
pub fn order(message: &Message) -> &'static [u64] {
    match message.body {
        Body::Payment(_) => &PAYMENT_ORDER,
        Body::Liquidity(_) => &LIQUIDITY_ORDER,
        Body::Request(_) => &REQUEST_ORDER,
        Body::Answer(_) => &ANSWER_ORDER,
    }
}

/// Whether a pacs.002 that fails this check first rejects the transfer: the checks of its order from 36 on. With one
/// before 36 the transfer goes on waiting.
pub fn rejects_transfer(check: u64) -> bool {
    REFUSAL_CHECKS.contains(&check) || MONEY_CHECKS.contains(&check)
}

/// A message held against the checks: who sends it on which day, in which exercise.
pub struct Case<'a> {
    pub directory: &'a [Record],
    pub seat: &'a [u64],
    pub sender: u64,
    pub date: u64,
    pub message: &'a Message<'a>,
}

/// The accounts that a transfer debits and credits, by their numbers in the seat, as far as there are any.
pub struct Accounts {
    pub debit: Option<usize>,
    pub credit: Option<usize>,
}

/// A pacs.008's accounts: account 2 of InstgAgt and of InstdAgt, for a direct branch its head's.
pub fn payment_accounts(directory: &[Record], payment: &Payment) -> Accounts {
    let second = |code| directory::using_place(directory, code).map(|place| room::account_number(place, 2));
    Accounts { debit: second(payment.instructing), credit: second(payment.instructed) }
}

/// The accounts that a waiting transfer keeps, whichever directory has come since.
fn kept_accounts(transfer: &[u64]) -> Accounts {
    let kept = |number| Some(transfer[number] as usize);
    Accounts { debit: kept(room::STEP_DEBIT), credit: kept(room::STEP_CREDIT) }
}

/// A camt.050's accounts: those that digit and code name, where the code is an owner's and the digit 1 or 2.
pub fn liquidity_accounts(directory: &[Record], liquidity: &Liquidity) -> Accounts {
    let named = |account: NamedAccount| match account.digit {
        1 | 2 => {
            directory::owner_place(directory, account.code).map(|place| room::account_number(place, account.digit))
        }
        _ => None,
    };
    Accounts { debit: named(liquidity.debtor), credit: named(liquidity.creditor) }
}

/// The pacs.008 steps that have the OrgnlMsgId of a request, each with its number.
fn original_steps<'a>(seat: &'a [u64], request: &'a Request<'a>) -> impl Iterator<Item = (u64, &'a [u64])> {
    room::numbered(seat).filter(move |(_, step)| {
        step[room::STEP_KIND] == room::PAYMENT && step[room::STEP_ID] == request.original_id.stored
    })
}

/// The first of them, which a request is compared with.
pub fn original_step<'a>(seat: &'a [u64], request: &'a Request<'a>) -> Option<(u64, &'a [u64])> {
    original_steps(seat, request).next()
}

impl<'a> Case<'a> {
    /// The first check of the kind's order that fails.
    pub fn first_failing(&self) -> Option<u64> {
        order(self.message).iter().copied().find(|check| self.fails(*check))
    }

    /// Whether a check fails, whatever the others say. A check that the kind's order lacks does not.
    pub fn fails(&self, check: u64) -> bool {
        match (&self.message.body, check) {
            (_, 1..=4) => self.sender_fails(check),
            (_, 5) => !is_good_identifier_of(self.message.id.text, self.sender),
            (_, 6) => room::journal(self.seat).any(|step| step[room::STEP_ID] == self.message.id.stored),
            (_, 7) => {
                let day = self.message.created / 1_000_000;
                day != self.date && day != day_before(self.date)
            }
            (Body::Request(request), _) => self.request_fails(request, check),
            (Body::Answer(answer), _) => self.answer_fails(answer, check),
            (_, 17) => room::journal(self.seat).any(|step| {
                matches!(step[room::STEP_KIND], room::PAYMENT | room::LIQUIDITY)
                    && step[room::STEP_UETR] == self.message.uetr
            }),
            (Body::Liquidity(liquidity), 20..=24) => {
                self.money_fails(liquidity_accounts(self.directory, liquidity), liquidity.amount, check)
            }
            (Body::Payment(payment), _) => self.payment_fails(payment, check),
            (Body::Liquidity(liquidity), _) => self.liquidity_fails(liquidity, check),
        }
    }

    /// 1 to 4: the sender's record. An unlisted sender fails 1 alone.
    fn sender_fails(&self, check: u64) -> bool {
        match (directory::find(self.directory, self.sender), check) {
            (None, _) => check == 1,
            (Some(record), 1) => matches!(record.kind, Kind::Provider(_)),
            (Some(record), 2) => matches!(record.kind, Kind::Indirect(_)),
            (Some(record), 3) => !record.instant,
            (Some(record), _) => record.kind != Kind::Owner,
        }
    }

    /// 8 to 11 of a pacs.028. A transfer that waits cannot be asked after, and hides others that have its MsgId.
    fn request_fails(&self, request: &Request, check: u64) -> bool {
        match check {
            8 => request.instructing != self.sender,
            9 => !is_good_identifier_of(request.original_id.text, self.sender),
            10 => {
                original_step(self.seat, request).is_none()
                    || original_steps(self.seat, request).any(|(number, _)| room::waits(self.seat, number))
            }
            11 => original_step(self.seat, request).map_or(false, |(_, step)| {
                step[room::STEP_CREATED] != request.original_created
                    || step[room::STEP_UETR] != self.message.uetr
                    || step[room::STEP_REFERENCE] != request.original_reference.stored
            }),
            _ => false,
        }
    }

    /// The transfer that a pacs.002 answers, and its number: the first that waits for this sender under that MsgId.
    pub fn answered_step(&self, answer: &Answer) -> Option<(u64, &'a [u64])> {
        room::numbered(self.seat).find(|(number, step)| {
            room::waits(self.seat, *number)
                && step[room::STEP_RECEIVER] == self.sender
                && step[room::STEP_ID] == answer.original_id.stored
        })
    }

    /// 35 to 37 of a pacs.002, and 20 to 24 where it agrees to a transfer: on the accounts that the transfer keeps.
    fn answer_fails(&self, answer: &Answer, check: u64) -> bool {
        match (check, self.answered_step(answer)) {
            (35, transfer) => transfer.is_none(),
            (36, _) => answer.verdict == Verdict::RefusesTechnically,
            (37, _) => answer.verdict == Verdict::RefusesToCredit,
            (20..=24, Some((_, transfer))) if answer.verdict == Verdict::Agrees => {
                self.money_fails(kept_accounts(transfer), transfer[room::STEP_AMOUNT], check)
            }
            _ => false,
        }
    }

    /// 12 to 16, 18 and 19: what a camt.050 says of its two accounts.
    fn liquidity_fails(&self, liquidity: &Liquidity, check: u64) -> bool {
        let (debtor, creditor) = (liquidity.debtor, liquidity.creditor);
        match check {
            12 => creditor.code != self.sender,
            13 => debtor.code != self.sender,
            14 => debtor.currency != creditor.currency,
            15 => !matches!((debtor.digit, creditor.digit), (1, 2) | (2, 1)),
            16 => liquidity.currency != debtor.currency || liquidity.currency != creditor.currency,
            18 => creditor.currency != HRYVNIA,
            19 => debtor.currency != HRYVNIA,
            _ => false,
        }
    }

    /// 20 to 24: blocks, money and limits. A missing account fails none of them.
    fn money_fails(&self, accounts: Accounts, amount: u64, check: u64) -> bool {
        let number = if check == 21 { accounts.credit } else { accounts.debit };
        let account = match number {
            Some(number) => room::account(self.seat, number),
            None => return false,
        };
        match check {
            20 => account[room::OUT] == 1,
            21 => account[room::INTO] == 1,
            // available money is balance minus LTK and may be below zero
            22 => account[room::BALANCE] < account[room::LTK] + amount,
            // LPO is kept as limit + 1, none as 0: 23 is for a limit above 0, 24 for the limit 0
            23 => account[room::LPO] > 1 && account[room::TURNOVER] + amount > account[room::LPO] - 1,
            _ => account[room::LPO] == 1,
        }
    }

    /// 8 and 25 to 34 of a pacs.008: the agents on its way, and the creditor's IBAN.
    fn payment_fails(&self, payment: &Payment, check: u64) -> bool {
        let creditor = directory::find(self.directory, payment.creditor.code);
        match check {
            8 => payment.instructing != self.sender,
            25 => !is_listed_under(directory::find(self.directory, payment.debtor.code), payment.debtor.list),
            26 => payment.creditor.list == List::Asp && !is_listed_under(creditor, List::Asp),
            27 => !directory::find(self.directory, payment.instructed).map_or(false, is_instant_bank),
            28 => {
                payment.creditor.list == List::Sep
                    && !(is_listed_under(creditor, List::Sep) && creditor.map_or(false, |record| record.instant))
            }
            29 => match creditor {
                Some(Record { instant, kind: Kind::Provider(bank), .. }) => !instant || *bank != payment.instructed,
                _ => false,
            },
            30 => self.is_elsewhere(payment.debtor, payment.instructing),
            31 => self.is_elsewhere(payment.creditor, payment.instructed),
            32 => payment.previous.map_or(false, |bank| self.is_served_by_another(payment.debtor, bank)),
            33 => payment.previous.is_none() && self.is_served_by_another(payment.debtor, payment.instructing),
            34 => iban_remainder(payment.creditor_iban) != 1,
            _ => false,
        }
    }

    /// 30 and 31: an agent under SEP that is neither the bank itself nor an indirect branch of it.
    fn is_elsewhere(&self, agent: Agent, bank: u64) -> bool {
        let is_branch =
            directory::find(self.directory, agent.code).map_or(false, |record| record.kind == Kind::Indirect(bank));
        agent.list == List::Sep && agent.code != bank && !is_branch
    }

    /// 32 and 33: an agent listed as a provider that names another bank.
    fn is_served_by_another(&self, agent: Agent, bank: u64) -> bool {
        match directory::find(self.directory, agent.code) {
            Some(Record { kind: Kind::Provider(serving), .. }) => *serving != bank,
            _ => false,
        }
    }
}

/// `SEP` lists owners and branches, `ASP` providers.
fn is_listed_under(record: Option<&Record>, list: List) -> bool {
    record.map_or(false, |record| matches!(record.kind, Kind::Provider(_)) == (list == List::Asp))
}

/// 27: an instant owner or direct branch.
fn is_instant_bank(record: &Record) -> bool {
    record.instant && matches!(record.kind, Kind::Owner | Kind::Direct(_))
}
