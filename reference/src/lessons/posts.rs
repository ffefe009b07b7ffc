//! The messages that a lesson sends: right ones, spoiled ones, faulty ones, damaged ones.

use super::attempts::{member, Attempt};
use super::damage;
use super::drafts::{
    self, amount_field, uetr_field, Draft, Leaf, ANSWERED_ID, DEBTOR_ACCOUNT, GROUP_STATUS, INSTRUCTING, MSG_ID,
    PREVIOUS, TRANSFER_STATUS,
};
use super::{Maker, Sent, EDGES};
use crate::room::{self, ANSWER, LIQUIDITY, PAYMENT};

const BAD_DATES: [u64; 10] =
    [0, 20230229, 20240230, 20240431, 20241301, 20240100, 19991231, 21000101, 202403011, u64::MAX];

impl Maker {
    /// Submits; remembers what became a step.
    pub(super) fn send(&mut self, attempt: &Attempt, sheet: Vec<u8>) -> bool {
        let Attempt { seat, opening, sender, date, long, .. } = attempt;
        let mut line = format!("submit {} {} {} {} {} ", seat, opening, sender, date, long).into_bytes();
        line.extend_from_slice(&sheet);
        let done = self.bytes(&line);
        if done {
            self.sent.push(Sent { seat: *seat, draft: attempt.draft.clone() });
        }
        done
    }

    pub(super) fn send_valid(&mut self) {
        let seat = self.some_seat();
        let attempt = self.valid(seat);
        self.send(&attempt, attempt.draft.sheet());
    }

    /// A message that fails one check or, so that the order shows, several.
    pub(super) fn send_spoiled(&mut self) {
        let seat = self.some_seat();
        let kind = 1 + self.dice.weighed(&[36, 28, 13, 23]) as u64;
        let mut attempt = self.valid_of(seat, kind);
        let mut check = self.check_of(kind);
        self.spoil(&mut attempt, check);
        for _ in 0..self.dice.weighed(&[40, 40, 20]) {
            check = if self.dice.chance(75) { self.check_near(kind, check) } else { self.check_of(kind) };
            self.spoil(&mut attempt, check);
        }
        let sheet = attempt.draft.sheet();
        if self.dice.chance(15) {
            self.rows(&attempt, &sheet);
        }
        if self.dice.chance(3) {
            self.put_bad_numbers(&mut attempt, 40);
        }
        if self.send(&attempt, sheet) {
            self.ask_after(&attempt);
        }
    }

    /// Asks about the transfer that was just sent or answered: seldom where it waits, since then it is only told so, and
    /// mostly where it failed a check that hardly any request tells of.
    fn ask_after(&mut self, attempt: &Attempt) {
        let id = match attempt.draft.kind {
            PAYMENT => attempt.draft.text(MSG_ID),
            ANSWER => attempt.draft.text(ANSWERED_ID),
            _ => return,
        };
        let check = room::journal(self.seat(attempt.seat)).last().map_or(0, |step| step[room::STEP_CHECK]);
        let waits = self.transfers(attempt.seat).iter().any(|transfer| transfer.waits && transfer.id == id);
        let percent = match check {
            3 | 5 | 6 | 29 if attempt.draft.kind == PAYMENT => 80,
            _ if waits => 6,
            _ => 45,
        };
        if self.dice.chance(percent) {
            self.ask(attempt.seat, id);
        }
    }

    pub(super) fn rows(&mut self, attempt: &Attempt, sheet: &[u8]) {
        let mut line = format!("rows {} {} {} ", attempt.seat, attempt.sender, attempt.date).into_bytes();
        line.extend_from_slice(sheet);
        self.bytes(&line);
    }

    pub(super) fn put_bad_numbers(&mut self, attempt: &mut Attempt, percent: u64) {
        if self.dice.chance(percent) {
            attempt.long = self.bad_buffer();
        }
        if self.dice.chance(percent) {
            attempt.date = self.dice.pick(&BAD_DATES);
        }
        if self.dice.chance(percent) {
            attempt.sender = self.dice.pick(&EDGES);
        }
    }

    pub(super) fn send_with_bad_numbers(&mut self) {
        let seat = self.some_seat();
        let mut attempt = self.valid(seat);
        self.put_bad_numbers(&mut attempt, 45);
        let sheet = if self.dice.chance(80) { attempt.draft.sheet() } else { damage::small(&mut self.dice) };
        self.send(&attempt, sheet);
    }

    /// An earlier message once more, in its seat or another, as it was or with another MsgId or UETR.
    pub(super) fn send_again(&mut self) {
        let seat = self.some_seat();
        let mut attempt = self.valid(seat);
        if self.sent.is_empty() {
            return;
        }
        let place = self.dice.place(self.sent.len());
        attempt.draft = self.sent[place].draft.clone();
        let code = match attempt.draft.kind {
            LIQUIDITY => attempt.draft.text(DEBTOR_ACCOUNT).get(1..7).unwrap_or("").to_string(),
            ANSWER => attempt.draft.text(MSG_ID).get(..6).unwrap_or("").to_string(),
            _ => attempt.draft.text(INSTRUCTING).to_string(),
        };
        attempt.sender = code.parse().unwrap_or(attempt.sender);
        match self.dice.below(4) {
            0 => {
                let id = drafts::identifier(&mut self.dice, attempt.sender, self.date);
                attempt.draft.put(MSG_ID, &id);
            }
            1 if attempt.draft.kind != ANSWER => {
                let uetr = drafts::uetr(&mut self.dice);
                attempt.draft.put(uetr_field(attempt.draft.kind), &uetr);
            }
            _ => {}
        }
        self.send(&attempt, attempt.draft.sheet());
    }

    /// A message of which one field, or two, are missing, doubled, ill-shaped or beside the point.
    pub(super) fn send_faulty(&mut self) {
        let seat = self.some_seat();
        let kind = 1 + self.dice.weighed(&[38, 19, 19, 24]) as u64;
        let mut attempt = self.valid_of(seat, kind);
        if kind == ANSWER && self.dice.chance(30) {
            self.put_transfer_status(&mut attempt.draft);
        } else {
            self.put_faults(&mut attempt.draft);
        }
        if self.dice.chance(10) {
            attempt.sender = self.any_code();
        }
        self.send(&attempt, attempt.draft.sheet());
    }

    fn put_faults(&mut self, draft: &mut Draft) {
        for _ in 0..1 + self.dice.weighed(&[60, 40]) {
            self.put_optional(draft);
            self.put_fault(draft);
        }
    }

    /// Gives a message the field that it may leave out, by chance.
    fn put_optional(&mut self, draft: &mut Draft) {
        match draft.kind {
            PAYMENT if self.dice.chance(20) => {
                let code = self.any_code();
                draft.put(PREVIOUS, &member(code));
            }
            ANSWER if self.dice.chance(40) => self.put_transfer_status(draft),
            _ => {}
        }
    }

    /// A TxSts, right or not, at the end or in front. Beside ACCP it is ill-shaped wherever it stands.
    fn put_transfer_status(&mut self, draft: &mut Draft) {
        let text = drafts::ill_shaped(&mut self.dice, "TxSts");
        draft.put(TRANSFER_STATUS, if self.dice.chance(50) { "RJCT" } else { &text });
        if self.dice.chance(40) {
            draft.leaves.rotate_right(1);
        }
    }

    pub(super) fn put_fault(&mut self, draft: &mut Draft) {
        if draft.leaves.is_empty() {
            return;
        }
        let wanted = match (draft.kind, self.dice.chance(60)) {
            (ANSWER, true) => GROUP_STATUS,
            (ANSWER, false) => TRANSFER_STATUS,
            (_, true) => amount_field(draft.kind),
            (_, false) => PREVIOUS,
        };
        let place = match draft.leaves.iter().position(|leaf| leaf.field == wanted) {
            Some(place) if self.dice.chance(35) => place,
            _ => self.dice.place(draft.leaves.len()),
        };
        let leaf = draft.leaves[place].clone();
        match self.dice.below(14) {
            0 => {
                draft.leaves.remove(place);
            }
            1 => draft.leaves.insert(place, leaf),
            2 => draft.leaves.push(leaf),
            3..=6 => draft.leaves[place].text = drafts::ill_shaped(&mut self.dice, &leaf.path),
            7 => draft.leaves[place].path = leaf.path + "/X",
            8 => draft.leaves[place].currency = Some("UAH".to_string()),
            9 | 13 => {
                let currency = self.dice.pick(&[None, Some("USD"), Some("UAX")]);
                draft.put_currency(amount_field(draft.kind), currency);
            }
            10 => self.dice.shuffle(&mut draft.leaves),
            11 => self.put_edge(draft),
            _ => self.put_beside(draft, place),
        }
    }

    /// Texts at the ends of their shapes.
    pub(super) fn put_edge(&mut self, draft: &mut Draft) {
        let amount = self.dice.pick(&["0.01", "99999999999.99", "0.10", "10000000000.00"]);
        match self.dice.below(3) {
            0 => draft.put(amount_field(draft.kind), amount),
            1 => {
                let id = drafts::capitals(&mut self.dice, 35);
                draft.put(MSG_ID, &id);
            }
            _ => {
                let id = drafts::reference(&mut self.dice);
                draft.put(MSG_ID, &id);
            }
        }
    }

    /// Elements that are ignored; or an outer element or a body that make the message unknown.
    pub(super) fn put_beside(&mut self, draft: &mut Draft, place: usize) {
        let path = draft.leaves[place].path.clone();
        let extra = |path: String| Leaf { field: 0, path, text: "x".to_string(), currency: None };
        match self.dice.below(8) {
            0 => draft.leaves.insert(place, extra(path + "x")),
            1 => draft.leaves.insert(place, extra("Extra/".to_string() + &path)),
            2 => draft.leaves.push(extra("MsgId".to_string())),
            3 => draft.leaves[place].path = path.to_lowercase(),
            4 => draft.outer = self.dice.pick(&["Documents", "document", "Document Ccy=\"UAH\""]).to_string(),
            5 => {
                let bodies = [
                    "FIToFICstmrCdtTrf",
                    "LqdyCdtTrf",
                    "FIToFIPmtStsReq",
                    "FIToFIPmtStsRpt",
                    "FIToFIPmtSts",
                    "CstmrCdtTrf",
                ];
                draft.body = self.dice.pick(&bodies).to_string()
            }
            6 => draft.tail = self.dice.pick(&["<A>x</A>", "<LqdyCdtTrf>x</LqdyCdtTrf>", "x"]).to_string(),
            _ => draft.leaves.insert(place, extra(path.rsplit('/').next().unwrap_or("").to_string())),
        }
    }

    /// A sheet at the limits of the well-formed, or one byte beside them.
    pub(super) fn send_damaged(&mut self) {
        let seat = self.some_seat();
        let attempt = self.valid(seat);
        let mut sheet = attempt.draft.sheet();
        let dice = &mut self.dice;
        match dice.below(20) {
            0 => damage::deep(dice, &mut sheet),
            1 => damage::many(dice, &mut sheet),
            2 => damage::long(dice, &mut sheet),
            3 => damage::wide(dice, &mut sheet),
            4 => damage::currency(dice, &mut sheet),
            5..=7 => sheet = damage::small(dice),
            _ => damage::one_byte(dice, &mut sheet),
        }
        if self.dice.chance(15) && !sheet.is_empty() {
            damage::one_byte(&mut self.dice, &mut sheet);
        }
        self.send(&attempt, sheet);
    }
}
