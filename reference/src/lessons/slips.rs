//! A lesson's slips: written, and read in both forms; right ones, and such as are none.

use super::{Maker, EDGES};
use crate::checks::CHECKS;
use crate::room::{ANSWER, OPENING_MOST, SET, STEPS};
use crate::script::BUFFER_BYTE;
use crate::slip::{results, Form, Slip, FIVE_BYTES, PDNG, RJCT, SIX_BYTES, SLIP_LONG, WAITS};

/// Buffers for a slip: too short, and longer than one.
const SHORT_BUFFERS: [u64; 3] = [0, 4, 5];
const LONG_BUFFERS: [u64; 2] = [7, 8];

/// Lengths that no slip has.
const NO_SLIP_LENGTHS: [usize; 4] = [0, 4, 7, 8];

/// The last seats that three bits, a room and four bits hold, and those beyond them.
const SEAT_EDGES: [u64; 8] = [7, 8, 11, 12, 13, 14, 15, 16];

/// The ends of each field's range, and what lies beyond them.
const FIELD_EDGES: [&[u64]; 6] = [
    &[0, 1, ANSWER, SET, 6, 7, 8],
    &[PDNG, RJCT, WAITS, WAITS, WAITS + 1],
    &[0, 1, 2, 35, 36, CHECKS as u64, CHECKS as u64 + 1],
    &SEAT_EDGES,
    &[0, 1, OPENING_MOST, OPENING_MOST + 1],
    &[0, 1, STEPS as u64, STEPS as u64 + 1],
];
const KIND: usize = 0;
const STATUS: usize = 1;
const CHECK: usize = 2;
const SEAT: usize = 3;

/// What three bits, two bits and some more than the checks hold.
const KIND_FIELD_MOST: u64 = 7;
const STATUS_FIELD_MOST: u64 = 3;
const CHECK_FIELD_MOST: u64 = 40;

/// So many kinds with a status and a check does a lesson read in turn.
const IN_TURN: u64 = 3;

fn joined([kind, status, check]: [u64; 3], [seat, opening, step]: [u64; 3]) -> [u64; 6] {
    [kind, status, check, seat, opening, step]
}

impl Maker {
    /// How many bytes the buffer of a call has: mostly as many as a slip, seldom too few.
    pub(super) fn buffer(&mut self) -> u64 {
        match self.dice.weighed(&[76, 20, 4]) {
            0 => SLIP_LONG as u64,
            1 => self.dice.pick(&LONG_BUFFERS),
            _ => self.dice.pick(&SHORT_BUFFERS),
        }
    }

    /// The same, too few as often as not.
    pub(super) fn bad_buffer(&mut self) -> u64 {
        if self.dice.chance(50) {
            self.dice.pick(&SHORT_BUFFERS)
        } else {
            self.buffer()
        }
    }

    /// Six fields for a seat of a form, with a kind, status and check of some sort.
    fn slip_values(&mut self, form: Form, is_wanted: impl Fn(u64, u64, u64) -> bool) -> [u64; 6] {
        let (mut kind, mut status, mut check) = (0, 0, 0);
        while !is_wanted(kind, status, check) {
            kind = self.dice.between(1, ANSWER);
            status = self.dice.between(PDNG, WAITS);
            check = self.dice.between(0, CHECKS as u64);
        }
        let seat = self.dice.below(form.seats);
        [kind, status, check, seat, self.dice.between(1, OPENING_MOST), self.dice.between(1, STEPS as u64)]
    }

    /// Puts one of a slip's fields at the end of its range, or beside it.
    fn bend_field(&mut self, values: &mut [u64; 6]) {
        let place = self.dice.place(values.len());
        match self.dice.below(12) {
            0..=3 => values[place] = self.dice.pick(FIELD_EDGES[place]),
            4 | 5 => values[SEAT] = self.dice.pick(&SEAT_EDGES),
            6 => values[KIND] = self.dice.between(0, KIND_FIELD_MOST),
            7 => values[STATUS] = self.dice.between(0, STATUS_FIELD_MOST),
            8..=10 => values[CHECK] = self.dice.between(0, CHECK_FIELD_MOST),
            _ => values[place] = self.dice.pick(&EDGES),
        }
    }

    /// Leaves a slip as it is, or changes its length or a bit of it.
    fn change_bytes(&mut self, form: Form, bytes: &mut Vec<u8>) {
        let last = form.long - 1;
        let is_six = form.long == SIX_BYTES.long;
        match self.dice.below(15) {
            0 | 1 if is_six => bytes.truncate(FIVE_BYTES.long),
            0 | 1 => bytes.push(0),
            2 | 3 => {
                let filler = self.dice.pick(&[0, BUFFER_BYTE]);
                bytes.resize(self.dice.pick(&NO_SLIP_LENGTHS), filler);
            }
            4..=7 if is_six => bytes[last] ^= 1 << self.dice.below(u64::from(SIX_BYTES.zero_bits)),
            8 => bytes[self.dice.place(form.long)] ^= 1 << self.dice.below(8),
            _ => {}
        }
    }

    /// Writes a slip that is right or has one field beside its range.
    fn write_slip(&mut self) {
        let mut values = self.slip_values(SIX_BYTES, SIX_BYTES.has_result);
        if self.dice.chance(60) {
            self.bend_field(&mut values);
        }
        let long = if self.dice.chance(80) { self.buffer() } else { self.bad_buffer() };
        let words: Vec<String> = values.iter().map(u64::to_string).collect();
        self.line(&format!("write {} {}", words.join(" "), long));
    }

    /// Reads a slip of either form that is right, or right but for a field, a bit or its length. Of those with five bytes
    /// some say what only six can.
    fn read_slip(&mut self) {
        let form = [FIVE_BYTES, SIX_BYTES][self.dice.weighed(&[2, 3])];
        let is_later = |kind, status, check| {
            (SIX_BYTES.has_result)(kind, status, check) && !(FIVE_BYTES.has_result)(kind, status, check)
        };
        let mut values = if form.long == FIVE_BYTES.long && self.dice.chance(20) {
            self.slip_values(form, is_later)
        } else {
            self.slip_values(form, form.has_result)
        };
        match self.dice.below(10) {
            0..=2 => self.bend_field(&mut values),
            3 | 4 => values[SEAT] = self.dice.pick(&SEAT_EDGES),
            _ => {}
        }
        let mut bytes = vec![0; form.long];
        form.put(&Slip::new(values), &mut bytes);
        self.change_bytes(form, &mut bytes);
        self.read_bytes(&bytes);
    }

    fn read_as(&mut self, form: Form, values: [u64; 6]) {
        let mut bytes = vec![0; form.long];
        form.put(&Slip::new(values), &mut bytes);
        self.read_bytes(&bytes);
    }

    fn read_bytes(&mut self, bytes: &[u8]) {
        let hex: String = bytes.iter().map(|byte| format!("{:02x}", byte)).collect();
        self.line(&format!("slip {}", hex));
    }

    /// Slips whose turn it is. The first is right, and written and read, also with one of the last seven bits set; its five
    /// bytes may be none. So 87 lessons in a row have every kind, status and check. The others may be none: every kind and
    /// status without a check comes up in 32 lessons, every kind of message with every status and check in 203.
    pub(super) fn use_slips_in_turn(&mut self, turn: u64) {
        let results: Vec<[u64; 3]> = results().collect();
        let [kind, status, check] = results[(turn % results.len() as u64) as usize];
        let seat = self.dice.below(FIVE_BYTES.seats);
        let values =
            [kind, status, check, seat, self.dice.between(1, OPENING_MOST), self.dice.between(1, STEPS as u64)];
        let words: Vec<String> = values.iter().map(u64::to_string).collect();
        self.line(&format!("write {} {}", words.join(" "), SLIP_LONG));
        self.read_as(SIX_BYTES, values);
        self.read_as(FIVE_BYTES, values);
        let mut bytes = [0; SIX_BYTES.long];
        SIX_BYTES.put(&Slip::new(values), &mut bytes);
        bytes[SIX_BYTES.long - 1] ^= 1 << (turn % u64::from(SIX_BYTES.zero_bits));
        self.read_bytes(&bytes);
        let statuses = STATUS_FIELD_MOST + 1;
        let rest = [values[3], values[4], values[5]];
        self.read_as(SIX_BYTES, joined([turn / statuses % (KIND_FIELD_MOST + 1), turn % statuses, 0], rest));
        let checks = CHECKS as u64 + 1;
        for number in turn * IN_TURN..(turn + 1) * IN_TURN {
            let kind = 1 + number / (checks * statuses) % ANSWER;
            self.read_as(SIX_BYTES, joined([kind, number / checks % statuses, number % checks], rest));
        }
    }

    /// Reads a slip or two, mostly after writing one.
    pub(super) fn use_slip(&mut self) {
        if self.dice.chance(65) {
            self.write_slip();
        }
        for _ in 0..self.dice.between(1, 2) {
            self.read_slip();
        }
    }
}
