//! A lesson's meddling with the room: numbers changed and mostly changed back soon, wrong lengths; and looks at it.

use super::{Maker, EDGES};
use crate::room::{
    self, ACCOUNT_LONG, ANSWER, HEAD_LONG, LIQUIDITY, PAYMENT, ROOM_LONG, SEATS, SEAT_LONG, STEPS, STEP_LONG, SUM_MOST,
};
use crate::shapes;
use crate::slip::ACCC;

/// Where a seat's journal begins.
pub const JOURNAL: usize = SEAT_LONG - STEPS * STEP_LONG;

/// A room of eight seats, as document 01 has them.
const EIGHT_SEATS_LONG: usize = 8 * SEAT_LONG;

/// A room whose steps keep neither a receiver nor what they answer.
const SHORT_STEPS_LONG: usize = ROOM_LONG - 2 * SEATS * STEPS;

/// Lengths that no room has; those that a room had once come up more often.
const WRONG_LENGTHS: [usize; 13] = [
    0,
    1,
    SEAT_LONG,
    EIGHT_SEATS_LONG,
    EIGHT_SEATS_LONG,
    SHORT_STEPS_LONG,
    SHORT_STEPS_LONG,
    SHORT_STEPS_LONG,
    ROOM_LONG - SEAT_LONG,
    ROOM_LONG - 1,
    ROOM_LONG + 1,
    ROOM_LONG + 8,
    ROOM_LONG + 16,
];

/// So often in a hundred a set comes before meddling with settings.
const SET_PERCENT: u64 = 40;

impl Maker {
    /// A place of the room: mostly in the head, the accounts or the used steps of an open seat.
    fn place(&mut self) -> usize {
        let number = self.some_seat() as usize;
        let from = number * SEAT_LONG;
        let steps = room::steps(room::seat(self.player.room(), number)).min(STEPS);
        match self.dice.below(12) {
            0 => from + self.dice.place(HEAD_LONG),
            1 | 2 => from + HEAD_LONG + self.dice.place(room::ACCOUNTS * ACCOUNT_LONG),
            3 => from + self.dice.place(SEAT_LONG),
            4 => self.dice.place(ROOM_LONG),
            5 => self.dice.place(SEATS) * SEAT_LONG + self.dice.place(HEAD_LONG),
            6 if steps > 0 => from + JOURNAL + (steps - 1) * STEP_LONG + self.dice.place(STEP_LONG),
            7 if steps > 0 => {
                let telling = [room::STEP_KIND, room::STEP_STATUS, room::STEP_CHECK, room::STEP_UETR.start];
                let number = if self.dice.chance(50) {
                    self.dice.pick(&[room::STEP_RECEIVER, room::STEP_ANSWERS])
                } else {
                    self.dice.pick(&telling)
                };
                from + JOURNAL + self.dice.place(steps) * STEP_LONG + number
            }
            8 if steps > 0 => from + JOURNAL + self.dice.place(steps) * STEP_LONG + self.dice.place(room::STEP_ID.end),
            _ => from + JOURNAL + self.dice.place((steps.max(1)) * STEP_LONG),
        }
    }

    /// A number that is nearly another.
    pub(super) fn near(&mut self, number: u64) -> u64 {
        match self.dice.below(13) {
            0 | 1 => number.wrapping_add(1),
            2 | 3 => number.wrapping_sub(1),
            4 => 0,
            5 => self.dice.pick(&EDGES),
            6 | 7 => number ^ 1 << self.dice.below(64),
            8 => number ^ 1 << self.dice.below(16),
            9 => number.wrapping_add(10u64.pow(self.dice.below(13) as u32)),
            10 | 11 => {
                let mut bytes = number.to_be_bytes();
                bytes[self.dice.place(8)] = self.dice.pick(&[0, 31, 32, b'&', b'<', b'>', 126, 127, 128]);
                u64::from_be_bytes(bytes)
            }
            _ => self.dice.between(1, 4),
        }
    }

    pub(super) fn put(&mut self, place: usize, number: u64) {
        if self.player.room()[place] != number {
            self.line(&format!("poke {} {}", place, number));
        }
    }

    /// A number of the room is changed, a call or two are made, and it is mostly changed back.
    pub(super) fn poke(&mut self) {
        let seat = self.some_seat();
        match self.dice.below(31) {
            0..=2 => self.poke_alike(seat, Maker::poke_sums),
            3..=5 => self.poke_alike(seat, Maker::poke_movement),
            6..=8 => self.poke_set(seat, Maker::poke_setting),
            9..=20 => self.poke_transfers(seat),
            21..=23 => self.poke_set(seat, Maker::poke_opening_limits),
            _ => {
                let place = self.place();
                let old = self.player.room()[place];
                let other = self.near(old);
                self.put(place, other);
                for _ in 0..self.dice.between(1, 2) {
                    self.any_call();
                }
                if self.dice.chance(92) {
                    self.put(place, old);
                }
            }
        }
    }

    /// Several numbers are changed alike, so that the journal comes out; ranges or a balance on the way may be wrong. A
    /// room that is unfit then is mostly put right number by number.
    pub(super) fn poke_alike(&mut self, seat: u64, change: fn(&mut Maker, usize)) {
        let before = self.player.room().to_vec();
        change(self, seat as usize * SEAT_LONG);
        let is_fit = room::is_fit(self.player.room());
        self.any_call();
        if !is_fit && self.dice.chance(85) {
            for (place, number) in before.iter().enumerate() {
                self.put(place, *number);
            }
        }
    }

    /// The same, often after an account was set.
    fn poke_set(&mut self, seat: u64, change: fn(&mut Maker, usize)) {
        if self.dice.chance(SET_PERCENT) {
            self.set_account();
        }
        self.poke_alike(seat, change);
    }

    /// The lowest balance that an account has on its way through the journal.
    fn lowest(&self, from: usize, account: usize) -> u64 {
        let seat = &self.player.room()[from..from + SEAT_LONG];
        let mut balance = room::account(seat, account)[room::OPENING_SUM];
        let mut lowest = balance;
        for step in room::journal(seat).filter(|step| step[room::STEP_KIND] != PAYMENT) {
            if step[room::STEP_DEBIT] != step[room::STEP_CREDIT] && step[room::STEP_DEBIT] == account as u64 {
                balance = balance.wrapping_sub(step[room::STEP_AMOUNT]);
            } else if step[room::STEP_DEBIT] != step[room::STEP_CREDIT] && step[room::STEP_CREDIT] == account as u64 {
                balance = balance.wrapping_add(step[room::STEP_AMOUNT]);
            }
            lowest = lowest.min(balance);
        }
        lowest
    }

    /// An account's opening sum, and its balance and opening limit by as much: on the way nothing may be left, or one
    /// kopeck less.
    fn poke_sums(&mut self, from: usize) {
        let mut account = 0;
        for _ in 0..8 {
            account = self.dice.place(room::ACCOUNTS.min(2 * self.player.directory.len()));
            let values = room::account(&self.player.room()[from..from + SEAT_LONG], account);
            if values[room::TURNOVER] > 0 && values[room::BALANCE] > self.lowest(from, account) {
                break;
            }
        }
        let at = from + HEAD_LONG + account * ACCOUNT_LONG;
        let (opening, balance) = (self.player.room()[at], self.player.room()[at + 1]);
        let lowest = self.lowest(from, account);
        let most = opening.min(balance);
        let other = match self.dice.below(6) {
            0 => SUM_MOST + self.dice.below(2),
            1 => opening - most,
            2 | 3 => opening.wrapping_sub(lowest),
            _ => opening.wrapping_sub(lowest + 1),
        };
        self.put(at, other);
        self.put(at + 1, balance.wrapping_add(other).wrapping_sub(opening));
        self.follow_opening_sum(from, account);
    }

    /// A step of a kind in the seat's journal, by its place in the room.
    pub(super) fn step_where(&mut self, from: usize, sort: impl Fn(&[u64]) -> bool) -> Option<usize> {
        let seat = &self.player.room()[from..from + SEAT_LONG];
        let places: Vec<usize> = room::journal(seat)
            .enumerate()
            .filter(|(_, step)| sort(step))
            .map(|(number, _)| from + JOURNAL + number * STEP_LONG)
            .collect();
        if places.is_empty() {
            None
        } else {
            Some(self.dice.pick(&places))
        }
    }

    /// Adds to an account's number, or takes from it.
    pub(super) fn shift(&mut self, from: usize, account: u64, number: usize, by: u64) {
        let at = from + HEAD_LONG + (account as usize).min(room::ACCOUNTS - 1) * ACCOUNT_LONG + number;
        let sum = self.player.room()[at].wrapping_add(by);
        self.put(at, sum);
    }

    /// The accounts of a movement, or others in their place: mostly near ones, since those have money.
    pub(super) fn other_accounts(&mut self, kind: u64, debit: u64, credit: u64) -> (u64, u64) {
        let accounts = 2 * self.player.directory.len() as u64;
        let other_debit = match self.dice.below(4) {
            0 | 1 => debit,
            2 => debit ^ 1,
            _ => self.dice.below(accounts),
        };
        let other_credit = match self.dice.below(4) {
            0 => other_debit,
            1 if kind == LIQUIDITY => other_debit ^ 1,
            1 | 2 => credit,
            _ => self.dice.below(accounts),
        };
        (other_debit, other_credit)
    }

    /// Puts a movement into a step and, mostly, into the transfer that it answers.
    fn put_movements(&mut self, from: usize, step: usize, movement: [u64; 3]) {
        let answered = self.player.room()[step + room::STEP_ANSWERS];
        let is_pair = (1..=STEPS as u64).contains(&answered) && self.dice.chance(75);
        for (number, value) in (room::STEP_DEBIT..).zip(movement) {
            self.put(step + number, value);
            if is_pair {
                self.put(from + JOURNAL + (answered as usize - 1) * STEP_LONG + number, value);
            }
        }
    }

    /// A movement between other accounts or of another amount, with balances and turnovers to match.
    fn poke_movement(&mut self, from: usize) {
        let has_moved =
            |step: &[u64]| step[room::STEP_STATUS] == ACCC && matches!(step[room::STEP_KIND], LIQUIDITY | ANSWER);
        let step = match self.step_where(from, has_moved) {
            Some(step) => step,
            None => return,
        };
        let kind = self.player.room()[step];
        let old = self.player.room()[step + room::STEP_DEBIT..step + room::STEP_ACCOUNT].to_vec();
        let (debit, credit) = self.other_accounts(kind, old[0], old[1]);
        let amount =
            if self.dice.chance(60) { old[2] } else { self.dice.pick(&[0, 1, 9_999_999_999_999, 10_000_000_000_000]) };
        self.unmove(from, [old[0], old[1], old[2]]);
        self.unmove(from, [debit, credit, amount.wrapping_neg()]);
        if self.dice.chance(50) {
            // opened with as much more, the account has the money at that step
            self.shift(from, debit, room::OPENING_SUM, amount);
            self.shift(from, debit, room::BALANCE, amount);
            self.follow_opening_sum(from, (debit as usize).min(room::ACCOUNTS - 1));
        }
        self.put_movements(from, step, [debit, credit, amount]);
    }

    /// Takes a movement out of balances and turnover; one of the opposite amount is put in.
    pub(super) fn unmove(&mut self, from: usize, [debit, credit, amount]: [u64; 3]) {
        self.shift(from, debit, room::TURNOVER, amount.wrapping_neg());
        self.shift(from, debit, room::BALANCE, amount);
        self.shift(from, credit, room::BALANCE, amount.wrapping_neg());
    }

    /// The last set of the account that a set concerns, by its place in the room.
    fn last_set_of(&self, from: usize, set: usize) -> usize {
        let room = self.player.room();
        let is_same = |place: &usize| {
            room[*place] == room::SET && room[place + room::STEP_ACCOUNT] == room[set + room::STEP_ACCOUNT]
        };
        (0..STEPS).rev().map(|number| from + JOURNAL + number * STEP_LONG).find(is_same).unwrap_or(set)
    }

    /// A setting that was given, with what stands in the account to match; or one that stood before, alone.
    fn poke_setting(&mut self, from: usize) {
        let some = match self.step_where(from, |step| step[room::STEP_KIND] == room::SET) {
            Some(step) => step,
            None => return,
        };
        if self.dice.chance(30) {
            let old = some + room::STEP_OLD.start + self.dice.place(room::SETTINGS.len());
            let other = self.near(self.player.room()[old]);
            return self.put(old, other);
        }
        let step = self.last_set_of(from, some);
        let account = (self.player.room()[step + room::STEP_ACCOUNT] as usize).min(room::ACCOUNTS - 1);
        let number = self.dice.weighed(&[1, 1, 2, 3]);
        let given = step + room::STEP_GIVEN.start + number;
        let old = self.player.room()[given];
        let other = match (number, self.dice.below(3)) {
            (0 | 1, 0) => 2,
            (0 | 1, _) => 1 - old.min(1),
            (2, 0 | 1) => SUM_MOST + self.dice.below(2),
            (_, 0 | 1) => SUM_MOST + 1 + self.dice.below(2),
            _ => self.near(old),
        };
        self.put(given, other);
        self.put(from + HEAD_LONG + account * ACCOUNT_LONG + room::SETTINGS.start + number, other);
    }

    pub(super) fn lay_or_change(&mut self) {
        if self.dice.chance(50) {
            let long = self.dice.pick(&WRONG_LENGTHS);
            self.line(&format!("lay {}", long));
            self.any_call();
            self.lay();
        } else if self.dice.chance(40) {
            self.good = self.new_directory();
            self.write_directory(&self.good.clone());
        } else {
            let next = self.date + 1;
            self.date = if shapes::is_date(next) { next } else { 20240301 };
        }
    }

    /// All that a seat holds; or every check that a message fails.
    pub(super) fn show(&mut self) {
        let number = if self.dice.chance(90) { self.some_seat() } else { self.dice.below(SEATS as u64 + 2) };
        if self.dice.chance(35) || number >= SEATS as u64 {
            self.line(&format!("dump {}", number));
            return;
        }
        let kind = self.dice.between(PAYMENT, ANSWER);
        let mut attempt = self.valid_of(number, kind);
        let mut check = self.check_of(kind);
        for _ in 0..self.dice.between(0, 4) {
            self.spoil(&mut attempt, check);
            check = if self.dice.chance(50) { self.check_near(kind, check) } else { self.check_of(kind) };
        }
        let sheet = attempt.draft.sheet();
        self.rows(&attempt, &sheet);
    }
}
