//! A lesson's directories, seats and tickets: right ones, and such as are refused.

use super::{Maker, EDGES};
use crate::directory::{self, Kind, Record, RECORDS_MOST};
use crate::room::{OPENED, OPENING, SEATS, SEAT_LONG, SUM_MOST};
use crate::shapes::CODE_MOST;
use crate::slip::FIVE_BYTES;

fn kind_words(kind: Kind) -> String {
    match kind {
        Kind::Owner => "0 0".to_string(),
        Kind::Direct(code) => format!("1 {}", code),
        Kind::Indirect(code) => format!("2 {}", code),
        Kind::Provider(code) => format!("3 {}", code),
    }
}

impl Maker {
    pub(super) fn new_directory(&mut self) -> Vec<Record> {
        let count = match self.dice.below(10) {
            0 => RECORDS_MOST,
            1 => self.dice.between(1, 4) as usize,
            _ => self.dice.between(6, 14) as usize,
        };
        let mut codes = Vec::new();
        let first = self.dice.pick(&[300_001, 0, 999_960, 100_000]);
        while codes.len() < count {
            let code = if self.dice.chance(80) { first + self.dice.below(39) } else { self.dice.below(CODE_MOST + 1) };
            if !codes.contains(&code) {
                codes.push(code);
            }
        }
        let most = if self.dice.chance(10) { 1 } else { self.dice.between(2, 5) as usize };
        let owners: Vec<u64> = codes[..count.min(most)].to_vec();
        let mut records: Vec<Record> = Vec::new();
        for code in codes {
            let named = self.dice.pick(&owners);
            let kinds = [Kind::Direct(named), Kind::Indirect(named), Kind::Provider(named)];
            let kind = if owners.contains(&code) { Kind::Owner } else { self.dice.pick(&kinds) };
            let instant = self.dice.chance(if kind == Kind::Owner { 90 } else { 75 });
            records.push(Record { code, instant, kind });
        }
        records.sort_by_key(|record| record.code);
        records
    }

    pub(super) fn write_directory(&mut self, records: &[Record]) {
        self.line("forget");
        for record in records {
            let instant = u64::from(record.instant);
            self.line(&format!("record {} {} {}", record.code, instant, kind_words(record.kind)));
        }
    }

    /// The directory with a change or a few that leave it fit, mostly to a bank's record.
    pub(super) fn varied_directory(&mut self, bank: u64) -> Vec<Record> {
        let mut records = self.good.clone();
        for _ in 0..self.dice.between(1, 3) {
            let mut changed = records.clone();
            self.change_record(&mut changed, bank);
            changed.sort_by_key(|record| record.code);
            if directory::is_fit(&changed) {
                records = changed;
            }
        }
        records
    }

    fn change_record(&mut self, records: &mut Vec<Record>, bank: u64) {
        let one = match records.iter().position(|record| record.code == bank) {
            Some(place) if self.dice.chance(50) => place,
            _ => self.dice.place(records.len()),
        };
        let named = records[self.dice.place(records.len())].code;
        let kinds = [Kind::Owner, Kind::Direct(named), Kind::Indirect(named), Kind::Provider(named)];
        match self.dice.below(10) {
            0 | 1 => {
                records.remove(one);
            }
            2 => records[one].instant = !records[one].instant,
            3 | 4 => records[one].kind = self.dice.pick(&kinds),
            5..=8 => {
                // records of higher codes move to other places
                let code = self.unlisted();
                records.push(Record { code, instant: true, kind: Kind::Owner });
            }
            _ => {
                // the bank alone, so that kept places have no record
                records.retain(|record| record.code == bank);
                records.iter_mut().for_each(|record| record.kind = Kind::Owner);
            }
        }
    }

    /// A directory that is mostly unfit, under a call or two.
    pub(super) fn use_unfit_directory(&mut self) {
        let mut records = self.good.clone();
        let one = self.dice.place(records.len());
        let other = self.dice.place(records.len());
        match self.dice.below(9) {
            0 => records.swap(one, other),
            1 => records.insert(one, records[one]),
            2 => {
                records.remove(one);
            }
            3 => records.clear(),
            4 => {
                while records.len() <= RECORDS_MOST {
                    let code = records[records.len() - 1].code + 1;
                    records.push(Record { code, instant: true, kind: Kind::Owner });
                }
            }
            5 => records[one].code = self.dice.pick(&[1_000_000, 0, u64::MAX, 999_999]),
            6 => records[one].kind = Kind::Direct(records[other].code),
            7 => records[one].kind = Kind::Provider(self.unlisted()),
            _ => records[one].kind = Kind::Indirect(records[other].code),
        }
        self.write_directory(&records);
        for _ in 0..self.dice.between(1, 2) {
            self.any_call();
        }
        self.write_directory(&self.good.clone());
    }

    pub(super) fn sums(&mut self) -> Vec<u64> {
        let mut sums = Vec::new();
        for record in self.player.directory.clone() {
            for _ in 0..2 {
                let sum = match self.dice.below(24) {
                    0..=2 => 0,
                    3 | 4 => SUM_MOST,
                    5 | 6 => self.dice.between(1, SUM_MOST),
                    7 => 1,
                    8 => self.dice.between(1, 100),
                    _ => self.dice.between(1_000, 10_000_000),
                };
                sums.push(if record.kind == Kind::Owner { sum } else { 0 });
            }
        }
        sums
    }

    pub(super) fn open_with(&mut self, number: u64, sums: &[u64]) -> bool {
        let words: Vec<String> = sums.iter().take(34).map(|sum| format!(" {}", sum)).collect();
        self.line(&format!("open {}{}", number, words.concat()))
    }

    pub(super) fn open(&mut self, number: u64) -> bool {
        let sums = self.sums();
        self.sent.retain(|sent| sent.seat != number);
        self.touched.retain(|touched| touched.seat != number);
        let done = self.open_with(number, &sums);
        if done {
            self.lift_limits(number);
        }
        done
    }

    /// Opens with sums of which one, or their count, is bad.
    pub(super) fn open_badly(&mut self) {
        let mut sums = self.sums();
        let number = if self.dice.chance(80) { self.dice.below(SEATS as u64) } else { self.dice.pick(&EDGES) };
        match self.dice.below(7) {
            0 => {
                sums.pop();
            }
            1 => sums.push(0),
            2 => sums.extend_from_slice(&[0, 0]),
            3 if !sums.is_empty() => {
                let place = self.dice.place(sums.len());
                sums[place] = self.dice.pick(&[1, SUM_MOST, SUM_MOST + 1, u64::MAX]);
            }
            4 | 5 => {
                // an owner's sum, the highest there may be or one kopeck more
                if let Some(place) = sums.iter().position(|sum| *sum > 0) {
                    sums[place] = SUM_MOST + self.dice.below(2);
                }
            }
            _ => sums.clear(),
        }
        self.open_with(number, &sums);
    }

    pub(super) fn open_or_close(&mut self) {
        let (number, opening) = self.ticket();
        let other = self.dice.below(SEATS as u64);
        match self.dice.below(8) {
            0 => {
                self.open(other);
            }
            1 => {
                let any = self.dice.below(SEATS as u64 + 2);
                self.open(any);
            }
            2 | 3 => self.open_badly(),
            4 => {
                self.line(&format!("close {} {}", number, opening));
            }
            5 | 6 => {
                self.line(&format!("close {} {}", number, opening));
                self.open(number);
            }
            _ => self.use_last_opening(other),
        }
    }

    /// A closed seat whose opening count is nearly used up.
    pub(super) fn use_last_opening(&mut self, number: u64) {
        if self.seat(number)[OPENED] == 0 {
            let count = self.dice.pick(&[65_533, 65_534, 65_535]);
            self.line(&format!("poke {} {}", number * SEAT_LONG as u64, count));
            if self.open(number) && self.dice.chance(60) {
                let opening = self.seat(number)[OPENING];
                self.line(&format!("close {} {}", number, opening));
                self.open(number);
            }
        }
    }

    pub(super) fn wrong_ticket(&mut self) -> (u64, u64) {
        let (number, opening) = self.ticket();
        match self.dice.below(6) {
            0 => (self.dice.pick(&EDGES), opening),
            // seats that a five-byte slip lacks, and the first that a room lacks
            1 => (self.dice.between(FIVE_BYTES.seats, SEATS as u64), opening),
            2 => (number, self.dice.pick(&EDGES)),
            3 => (number, opening.wrapping_sub(1)),
            4 => (number, opening + self.dice.pick(&[1, 65_535, 65_536, 1 << 32])),
            _ => {
                let other = self.dice.below(SEATS as u64);
                (other, self.seat(other)[OPENING])
            }
        }
    }

    pub(super) fn use_wrong_ticket(&mut self) {
        let ticket = self.wrong_ticket();
        self.call(ticket);
    }

    /// Any room call with a right or wrong ticket.
    pub(super) fn any_call(&mut self) {
        let ticket = if self.dice.chance(70) { self.ticket() } else { self.wrong_ticket() };
        self.call(ticket);
    }

    pub(super) fn call(&mut self, (number, opening): (u64, u64)) {
        let code = self.any_code();
        match self.dice.below(9) {
            0 => {
                self.line(&format!("back {} {}", number, opening));
            }
            1 => {
                self.line(&format!("close {} {}", number, opening));
            }
            2 | 3 => {
                let account = self.dice.below(4);
                self.line(&format!("read {} {} {} {}", number, opening, code, account));
            }
            4 => {
                let settings = self.settings();
                self.line(&format!("set {} {} {} 1 {}", number, opening, code, settings));
            }
            5 => self.open_badly(),
            6 => {
                self.open(number.min(SEATS as u64));
            }
            _ => {
                let seat = self.some_seat();
                let mut attempt = self.valid(seat);
                attempt.seat = number;
                attempt.opening = opening;
                self.put_bad_numbers(&mut attempt, 25);
                self.send(&attempt, attempt.draft.sheet());
            }
        }
    }
}
