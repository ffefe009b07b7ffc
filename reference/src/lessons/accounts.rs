//! A lesson's calls on accounts and steps.

use super::{Maker, Touched, EDGES};
use crate::directory::Kind;
use crate::room::{OPENING, STEPS, SUM_MOST};

impl Maker {
    pub(super) fn settings(&mut self) -> String {
        let out = u64::from(self.dice.chance(12));
        let into = u64::from(self.dice.chance(12));
        let limits = [0, 1, 5_000, 1_000_000, SUM_MOST, SUM_MOST + 1, u64::MAX];
        let ltk = limits[self.dice.weighed(&[44, 12, 22, 12, 5, 4, 1])];
        let lpo = match self.dice.weighed(&[40, 12, 48]) {
            0 => "-".to_string(),
            1 => "0".to_string(),
            _ => limits[self.dice.weighed(&[5, 10, 20, 50, 10, 4, 1])].to_string(),
        };
        format!("{} {} {} {}", out, into, ltk, lpo)
    }

    pub(super) fn set_account(&mut self) {
        let (number, opening) = self.ticket();
        let owner = self.code(|record| record.kind == Kind::Owner);
        let owner = if self.dice.chance(88) { owner.unwrap_or(0) } else { self.any_code() };
        let account = if self.dice.chance(92) { self.dice.between(1, 2) } else { self.dice.pick(&EDGES) };
        let settings = self.settings();
        if self.line(&format!("set {} {} {} {} {}", number, opening, owner, account, settings)) {
            self.touched.push(Touched { seat: number, owner, number: account });
        }
    }

    /// Frees an account of blocks and limits, as a step: LPO is none then.
    pub(super) fn free_account(&mut self, seat: u64, owner: u64, number: u64) {
        let opening = self.seat(seat)[OPENING];
        self.line(&format!("set {} {} {} {} 0 0 0 -", seat, opening, owner, number));
    }

    pub(super) fn take_back(&mut self) {
        let (number, opening) = self.ticket();
        let count = if self.dice.chance(10) { STEPS as u64 + 1 } else { self.dice.between(1, 3) };
        for _ in 0..count {
            if !self.line(&format!("back {} {}", number, opening)) {
                break;
            }
        }
    }

    pub(super) fn read_account(&mut self) {
        let (number, opening) = self.ticket();
        let code = match self.code(|record| record.kind == Kind::Owner) {
            Some(code) if self.dice.chance(88) => code,
            _ => self.any_code(),
        };
        let account = if self.dice.chance(92) { self.dice.between(1, 2) } else { self.dice.pick(&EDGES) };
        self.line(&format!("read {} {} {} {}", number, opening, code, account));
    }
}
