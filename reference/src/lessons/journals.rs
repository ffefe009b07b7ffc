//! A lesson's meddling with the rows of transfers and their answers: rooms that no call makes, fit ones and others.

use super::answers::{Transfer, VERDICTS};
use super::pokes::JOURNAL;
use super::Maker;
use crate::checks::{rejects_transfer, ANSWER_ORDER, CHECKS, PAYMENT_ORDER, REQUEST_ORDER};
use crate::room::{
    self, ANSWER, OPENING, PAYMENT, REQUEST, SEAT_LONG, STEPS, STEP_ACCOUNT, STEP_ANSWERS, STEP_CHECK, STEP_ID,
    STEP_KIND, STEP_LONG, STEP_MOVEMENT, STEP_RECEIVER, STEP_REFERENCE, STEP_STATUS, STEP_UETR,
};
use crate::shapes::{AMOUNT_MOST, CODE_MOST};
use crate::slip::{ACCC, PDNG, RJCT, WAITS};

/// Checks that an answer may fail and a transfer's submit does not run.
const LATER_CHECKS: [u64; 8] = [20, 21, 22, 23, 24, 35, 36, 37];

/// Where the numbers begin and end that some steps lack: UETR, end-to-end identifier, movement, account and settings of a
/// set, receiver, the step answered.
const LACKED: [(usize, usize); 6] = [
    (STEP_UETR.start, STEP_UETR.end),
    (STEP_REFERENCE.start, STEP_REFERENCE.end),
    (STEP_MOVEMENT.start, STEP_MOVEMENT.end),
    (STEP_ACCOUNT, STEP_RECEIVER),
    (STEP_RECEIVER, STEP_ANSWERS),
    (STEP_ANSWERS, STEP_LONG),
];

fn is_transfer(step: &[u64]) -> bool {
    step[STEP_KIND] == PAYMENT && step[STEP_STATUS] == WAITS
}

impl Maker {
    fn number_at(&self, place: usize) -> u64 {
        self.player.room()[place]
    }

    fn movement_at(&self, step: usize) -> [u64; 3] {
        [0, 1, 2].map(|number| self.number_at(step + STEP_MOVEMENT.start + number))
    }

    /// Changes rows of transfers and answers; where a journal has none, some are sent first.
    pub(super) fn poke_transfers(&mut self, seat: u64) {
        let answers = room::journal(self.seat(seat)).filter(|step| step[STEP_ANSWERS] != 0).count();
        if answers == 0 {
            self.send_group(seat, 1);
        }
        if self.waiting(seat).is_none() && self.dice.chance(50) {
            self.send_transfer(seat);
        }
        if self.dice.chance(15) {
            self.poke_twins(seat);
        }
        let changes = [
            Maker::poke_answered,
            Maker::poke_settled,
            Maker::poke_receiver,
            Maker::poke_kept,
            Maker::poke_result,
            Maker::poke_lacking,
        ];
        for _ in 0..self.dice.between(1, 3) {
            let change = changes[self.dice.weighed(&[6, 5, 2, 4, 10, 4])];
            self.poke_alike(seat, change);
        }
    }

    /// A step gets what its kind or its result lacks, as another step has it where there is one that does.
    fn poke_lacking(&mut self, from: usize) {
        let lacked = self.dice.pick(&LACKED);
        let numbers = lacked.0..lacked.1;
        let is_zero = |step: &[u64]| step[numbers.clone()].iter().all(|number| *number == 0);
        let (step, other) = match (self.step_where(from, is_zero), self.step_where(from, |step| !is_zero(step))) {
            (Some(step), Some(other)) => (step, other),
            (Some(step), None) => return self.put(step + numbers.start, 1),
            _ => return,
        };
        for number in numbers {
            self.put(step + number, self.number_at(other + number));
        }
    }

    /// A transfer by its place in the room, mostly one that was not answered.
    fn transfer_place(&mut self, from: usize) -> Option<usize> {
        let seat = from / SEAT_LONG;
        match self.waiting(seat as u64) {
            Some(transfer) if self.dice.chance(80) => Some(from + JOURNAL + (transfer.number as usize - 1) * STEP_LONG),
            _ => self.step_where(from, is_transfer),
        }
    }

    /// The number in the journal of a step at a place, from 1.
    fn step_number(from: usize, place: usize) -> u64 {
        ((place - from - JOURNAL) / STEP_LONG + 1) as u64
    }

    /// The step that an answer names: itself, a later one, one that does not wait, one that was answered, another that
    /// waits, none, or one that there is not.
    fn poke_answered(&mut self, from: usize) {
        let is_rejecting = self.dice.chance(60);
        let sort = |step: &[u64]| step[STEP_KIND] == ANSWER && (!is_rejecting || step[STEP_STATUS] == RJCT);
        let step = match self.step_where(from, sort) {
            Some(step) => step,
            None => return,
        };
        let own = Maker::step_number(from, step);
        let transfer = self.step_where(from, is_transfer).map_or(0, |place| Maker::step_number(from, place));
        let other = self.step_where(from, |step| !is_transfer(step)).map_or(0, |place| Maker::step_number(from, place));
        let answered = match self.dice.below(11) {
            0 => own,
            1 => own + 1,
            2 => self.dice.pick(&[0, STEPS as u64, STEPS as u64 + 1, u64::MAX]),
            3..=5 => other,
            _ => transfer,
        };
        self.put(step + STEP_ANSWERS, answered);
        let status = self.number_at(step + STEP_STATUS);
        if status == RJCT && !rejects_transfer(self.number_at(step + STEP_CHECK)) && self.dice.chance(80) {
            // one that touched no transfer rejects it then
            let check = self.dice.pick(&[36, 37, 20, 22, 24]);
            self.put(step + STEP_CHECK, check);
        }
    }

    /// An answer moves a kopeck less than its transfer keeps, or between other accounts 2; balances and turnovers match.
    fn poke_settled(&mut self, from: usize) {
        let step = match self.step_where(from, |step| step[STEP_KIND] == ANSWER && step[STEP_STATUS] == ACCC) {
            Some(step) => step,
            None => return,
        };
        let old = self.movement_at(step);
        let mut movement = old;
        let other = 2 * self.dice.below(self.player.directory.len() as u64) + 1;
        match self.dice.below(5) {
            0 | 1 => movement[1] = other,
            2 => movement[0] = other,
            _ => movement[2] = old[2].max(2) - 1,
        }
        self.unmove(from, old);
        self.unmove(from, [movement[0], movement[1], movement[2].wrapping_neg()]);
        self.put_movement(step, movement);
    }

    fn put_movement(&mut self, step: usize, movement: [u64; 3]) {
        for (number, value) in STEP_MOVEMENT.zip(movement) {
            self.put(step + number, value);
        }
    }

    /// The receiver of a transfer, or one where none is kept.
    fn poke_receiver(&mut self, from: usize) {
        let is_kept = self.dice.chance(50);
        let is_payment = |step: &[u64]| step[STEP_KIND] == PAYMENT;
        if let Some(step) = self.step_where(from, |step| is_payment(step) && is_kept == is_transfer(step)) {
            let code = match self.dice.below(4) {
                0 => CODE_MOST + self.dice.below(2),
                1 => self.dice.pick(&[0, 1, u64::MAX]),
                _ => self.any_code(),
            };
            self.put(step + STEP_RECEIVER, code);
        }
    }

    /// The accounts or the amount that a transfer keeps; where it was answered, its answer knows others.
    fn poke_kept(&mut self, from: usize) {
        let step = match self.transfer_place(from) {
            Some(step) => step,
            None => return,
        };
        let [debit, credit, amount] = self.movement_at(step);
        let (other_debit, other_credit) = self.other_accounts(PAYMENT, debit, credit);
        let edge = self.dice.pick(&[1, 30, 31, 32, 33]);
        match self.dice.below(6) {
            0 => self.put(step + room::STEP_DEBIT, edge),
            1 => self.put(step + room::STEP_CREDIT, edge),
            2 => {
                self.put(step + room::STEP_DEBIT, other_debit);
                self.put(step + room::STEP_CREDIT, other_credit);
            }
            _ => {
                let other = self.dice.pick(&[0, 0, amount + 1, AMOUNT_MOST, AMOUNT_MOST + 1]);
                self.put(step + room::STEP_AMOUNT, other);
            }
        }
    }

    /// A step gets another result, with what belongs to it or without.
    fn poke_result(&mut self, from: usize) {
        let kind = self.dice.pick(&[PAYMENT, PAYMENT, REQUEST, REQUEST, ANSWER, ANSWER]);
        let wanted = self.step_where(from, |step| step[STEP_KIND] == kind);
        let step = match wanted.or_else(|| self.step_where(from, is_transfer)) {
            Some(step) => step,
            None => return,
        };
        match (self.number_at(step + STEP_KIND), self.number_at(step + STEP_STATUS)) {
            (PAYMENT, WAITS) => self.end_waiting(from),
            (PAYMENT, _) if self.dice.chance(40) => self.begin_waiting(step),
            (PAYMENT, _) => {
                let check = self.check_among(&LATER_CHECKS, &PAYMENT_ORDER);
                self.put(step + STEP_CHECK, check);
            }
            (ANSWER, ACCC) => self.unsettle(from, step),
            (ANSWER, _) => self.settle(from, step),
            _ => {
                let check = self.check_among(&[35, 35, 35, 36, 20, 0], &REQUEST_ORDER);
                let status = self.dice.pick(&[PDNG, ACCC, RJCT, RJCT, RJCT, RJCT, RJCT, WAITS]);
                self.put(step + STEP_CHECK, check);
                self.put(step + STEP_STATUS, status);
            }
        }
    }

    /// A check of one list or another, or any.
    fn check_among(&mut self, likely: &[u64], order: &[u64]) -> u64 {
        match self.dice.below(5) {
            0 | 1 => self.dice.pick(likely),
            2 | 3 => self.dice.pick(order),
            _ => self.dice.between(0, CHECKS as u64 + 1),
        }
    }

    /// A transfer that waits becomes a rejected one, or one that moved its money itself.
    fn end_waiting(&mut self, from: usize) {
        let step = match self.transfer_place(from) {
            Some(step) => step,
            None => return,
        };
        if self.dice.chance(30) {
            let [debit, credit, amount] = self.movement_at(step);
            self.unmove(from, [debit, credit, amount.wrapping_neg()]);
            self.put(step + STEP_STATUS, ACCC);
            if self.dice.chance(50) {
                self.put(step + STEP_RECEIVER, 0);
            }
            return;
        }
        let check = self.check_among(&LATER_CHECKS, &PAYMENT_ORDER);
        self.put(step + STEP_STATUS, RJCT);
        self.put(step + STEP_CHECK, check);
        if self.dice.chance(85) {
            self.put_movement(step, [0; 3]);
            self.put(step + STEP_RECEIVER, 0);
        }
    }

    /// A rejected transfer waits, mostly with what it needs for that.
    fn begin_waiting(&mut self, step: usize) {
        let receiver = self.any_code();
        let places = self.player.directory.len() as u64;
        let movement = [2 * self.dice.below(places) + 1, 2 * self.dice.below(places) + 1, self.dice.between(1, 10_000)];
        self.put(step + STEP_STATUS, WAITS);
        self.put(step + STEP_CHECK, 0);
        self.put(step + STEP_RECEIVER, receiver);
        if self.dice.chance(85) {
            self.put_movement(step, movement);
        }
    }

    /// An answer that settled a transfer rejects it or, where it names none, touches none; the money goes back.
    fn unsettle(&mut self, from: usize, step: usize) {
        let movement = self.movement_at(step);
        let check = self.check_among(&[20, 22, 35, 36, 37], &ANSWER_ORDER);
        self.put(step + STEP_STATUS, RJCT);
        self.put(step + STEP_CHECK, check);
        self.unmove(from, movement);
        self.put_movement(step, [0; 3]);
        if !rejects_transfer(check) && self.dice.chance(70) {
            self.put(step + STEP_ANSWERS, 0);
        }
    }

    /// An answer that did not settle a transfer fails another check, or settles it with the money of the transfer.
    fn settle(&mut self, from: usize, step: usize) {
        let answered = self.number_at(step + STEP_ANSWERS) as usize;
        if answered == 0 || answered > STEPS || self.dice.chance(50) {
            let check = self.check_among(&[35, 36, 37, 20, 24], &ANSWER_ORDER);
            return self.put(step + STEP_CHECK, check);
        }
        let [debit, credit, amount] = self.movement_at(from + JOURNAL + (answered - 1) * STEP_LONG);
        self.put(step + STEP_STATUS, ACCC);
        self.put(step + STEP_CHECK, 0);
        self.put_movement(step, [debit, credit, amount]);
        self.unmove(from, [debit, credit, amount.wrapping_neg()]);
    }

    /// Two transfers get one MsgId, mostly for one bank: the first that fits is the one answered, and while one of them
    /// waits neither can be asked after.
    fn poke_twins(&mut self, seat: u64) {
        for _ in self.transfers(seat).iter().filter(|transfer| transfer.waits).count()..2 {
            self.send_transfer(seat);
        }
        let mut waiting: Vec<Transfer> = self.transfers(seat).into_iter().filter(|transfer| transfer.waits).collect();
        self.dice.shuffle(&mut waiting);
        let (one, other) = match &waiting[..] {
            [one, other, ..] => (one, other),
            _ => return,
        };
        let from = seat as usize * SEAT_LONG + JOURNAL;
        let place = |number: u64| from + (number as usize - 1) * STEP_LONG;
        for number in STEP_ID {
            self.put(place(other.number) + number, self.number_at(place(one.number) + number));
        }
        if self.dice.chance(75) {
            self.put(place(other.number) + STEP_RECEIVER, one.receiver);
        }
        for _ in 0..self.dice.between(2, 4) {
            self.use_twins(seat, &one.id);
        }
        let opening = self.seat(seat)[OPENING];
        if self.dice.chance(40) {
            self.line(&format!("back {} {}", seat, opening));
        }
    }

    /// An answer to one of several transfers with an identifier, or a request about it.
    fn use_twins(&mut self, seat: u64, id: &str) {
        let transfer = match self.transfers(seat).into_iter().find(|transfer| transfer.id == id) {
            Some(transfer) => transfer,
            None => return,
        };
        if self.dice.chance(60) {
            let verdict = self.dice.pick(&VERDICTS);
            self.send_answer(seat, &transfer, verdict);
        } else {
            self.ask(seat, id);
        }
    }
}
