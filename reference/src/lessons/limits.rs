//! The limits that accounts open with, in a lesson: money sent on against them, limits lifted, and rooms in which an
//! account opened otherwise.

use super::attempts::payable;
use super::pokes::JOURNAL;
use super::Maker;
use crate::directory::{self, Kind};
use crate::room::{
    self, ACCOUNTS, ACCOUNT_LONG, HEAD_LONG, LPO, NO_LIMIT, OPENING_SUM, SEAT_LONG, SET, SETTINGS, STEP_ACCOUNT,
    STEP_KIND, STEP_LONG, STEP_OLD, SUM_MOST,
};

/// The limit 0 as it is kept.
pub const LIMIT_ZERO: u64 = NO_LIMIT + 1;

/// So often in a hundred an opening limit follows the opening sum that is changed, and a seat that was opened has some
/// accounts set to have none.
const FOLLOW_PERCENT: u64 = 85;
const LIFT_PERCENT: u64 = 20;

/// What may leave an account by its limit alone: where it has none, whatever is there.
pub fn limit_left(account: &[u64]) -> u64 {
    match account[LPO] {
        NO_LIMIT => account[room::BALANCE].saturating_sub(account[room::LTK]),
        kept => (kept - LIMIT_ZERO).saturating_sub(account[room::TURNOVER]),
    }
}

impl Maker {
    /// Money that comes in raises no limit: some is brought to an account from the owner's other one, and as much is sent on
    /// as the limit lets out, or one kopeck more. An account that opened with nothing sends on whatever came.
    pub(super) fn send_on(&mut self) {
        let seat = self.some_seat();
        let owner = match self.code(|record| record.instant && record.kind == Kind::Owner) {
            Some(owner) => owner,
            None => return,
        };
        let place = directory::owner_place(&self.player.directory, owner).unwrap_or(0);
        let number = self.second_or_first();
        let account = room::account_number(place, number);
        let (other, other_account) = (3 - number, account ^ 1);
        let most = payable(self.account(seat, other_account));
        if most > 0 {
            let brought = self.sum(most);
            self.move_money(seat, owner, other, brought);
        }
        for _ in 0..self.dice.between(1, 2) {
            let left = limit_left(self.account(seat, account));
            let amount = (left + self.dice.below(2)).max(1);
            if number == 2 && self.dice.chance(70) {
                self.pay(seat, owner, amount);
            } else {
                self.move_money(seat, owner, number, amount);
            }
        }
    }

    /// Account 2, which transfers are paid from, more often than account 1.
    fn second_or_first(&mut self) -> u64 {
        if self.dice.chance(70) {
            2
        } else {
            1
        }
    }

    /// Lessons that want no limits set some accounts so, as steps, as soon as a seat is open.
    pub(super) fn lift_limits(&mut self, seat: u64) {
        if !self.dice.chance(LIFT_PERCENT) {
            return;
        }
        for _ in 0..self.dice.between(1, 3) {
            if let Some(owner) = self.code(|record| record.kind == Kind::Owner) {
                let number = self.second_or_first();
                self.free_account(seat, owner, number);
            }
        }
    }

    /// Where a room keeps the limit that an account opened with: in the old settings of its first set, or in the account
    /// where it has no set.
    fn opening_limit_place(&self, from: usize, account: usize) -> usize {
        let seat = &self.player.room()[from..from + SEAT_LONG];
        let is_set = |step: &[u64]| step[STEP_KIND] == SET && step[STEP_ACCOUNT] == account as u64;
        match room::journal(seat).position(is_set) {
            Some(number) => from + JOURNAL + number * STEP_LONG + STEP_OLD.start + LPO - SETTINGS.start,
            None => from + HEAD_LONG + account * ACCOUNT_LONG + LPO,
        }
    }

    fn opening_sum(&self, from: usize, account: usize) -> u64 {
        self.player.room()[from + HEAD_LONG + account * ACCOUNT_LONG + OPENING_SUM]
    }

    fn put_opening_limit(&mut self, from: usize, account: usize, kept: u64) {
        let place = self.opening_limit_place(from, account);
        self.put(place, kept);
    }

    /// After a change of an account's opening sum mostly its opening limit changes too: else the room is unfit for the
    /// limit alone.
    pub(super) fn follow_opening_sum(&mut self, from: usize, account: usize) {
        if self.dice.chance(FOLLOW_PERCENT) {
            let sum = self.opening_sum(from, account).min(SUM_MOST + 1);
            self.put_opening_limit(from, account, room::opening_limit(sum));
        }
    }

    /// An account whose opening sum is of some sort, mostly a listed one, and often one that was set.
    fn account_opened(&mut self, from: usize, sort: impl Fn(u64) -> bool) -> Option<usize> {
        let listed = 2 * self.player.directory.len();
        let count = if self.dice.chance(70) { listed.min(ACCOUNTS) } else { ACCOUNTS };
        let is_set_wanted = self.dice.chance(50);
        let mut accounts: Vec<usize> = (0..count).filter(|account| sort(self.opening_sum(from, *account))).collect();
        let was_set = |account: &usize| self.opening_limit_place(from, *account) >= from + JOURNAL;
        if is_set_wanted && accounts.iter().any(was_set) {
            accounts.retain(was_set);
        }
        if accounts.is_empty() {
            None
        } else {
            Some(self.dice.pick(&accounts))
        }
    }

    /// Accounts that opened otherwise: none with a limit, accounts 1 or accounts 2 without, one with the limit 0 in place of
    /// none, one without or with a limit that is one kopeck off. All else comes out.
    pub(super) fn poke_opening_limits(&mut self, from: usize) {
        match self.dice.below(10) {
            0 | 1 => self.drop_opening_limits(from, &[1, 2]),
            2 => self.drop_opening_limits(from, &[1]),
            3 => self.drop_opening_limits(from, &[2]),
            4 | 5 => {
                if let Some(account) = self.account_opened(from, |sum| sum == 0) {
                    self.put_opening_limit(from, account, LIMIT_ZERO);
                }
            }
            _ => {
                if let Some(account) = self.account_opened(from, |sum| sum > 0) {
                    let kept = room::opening_limit(self.opening_sum(from, account));
                    let other = self.dice.pick(&[kept + 1, kept - 1, NO_LIMIT]);
                    self.put_opening_limit(from, account, other);
                }
            }
        }
    }

    /// Leaves the accounts 1 or 2 of every place, or both, without an opening limit.
    fn drop_opening_limits(&mut self, from: usize, numbers: &[u64]) {
        for place in 0..self.player.directory.len() {
            for number in numbers {
                self.put_opening_limit(from, room::account_number(place, *number), NO_LIMIT);
            }
        }
    }
}
