//! The slip (document 01, "The slip"; document 02, requests 8 and 9): fields of bits, the most significant first, in one
//! of two forms. Both are read, and the length alone says which form it is; the six-byte form alone is written.

use crate::checks::{
    ANSWER_ORDER, CHECKS, CHECK_REFUSED_MOST, LIQUIDITY_ORDER, MONEY_CHECKS, PAYMENT_ORDER, REFUSAL_CHECKS,
    REQUEST_ORDER,
};
use crate::room::{ANSWER, LIQUIDITY, OPENING_MOST, PAYMENT, REQUEST, SEATS, STEPS};

pub const PDNG: u64 = 0;
pub const ACCC: u64 = 1;
pub const RJCT: u64 = 2;
/// A pacs.008 that the receiving bank is yet to answer.
pub const WAITS: u64 = 3;

/// What slips of one length look like.
#[derive(Clone, Copy)]
pub struct Form {
    /// How many bytes they have.
    pub long: usize,
    /// The bits of kind, status, check, seat, opening and step.
    widths: [u32; 6],
    /// How many bits after the step must be zero.
    pub zero_bits: u32,
    /// They are for seats below this.
    pub seats: u64,
    /// Whether they can have this kind, status and check.
    pub has_result: fn(u64, u64, u64) -> bool,
}

/// Document 01's form. Mark books hold such slips, so it keeps its eight seats and its results and is read for good; no
/// call writes it.
pub const FIVE_BYTES: Form =
    Form { long: 5, widths: [3, 2, 6, 3, 16, 10], zero_bits: 0, seats: 8, has_result: is_first_result };

/// The form that is written. Seats 12 to 15 fit into its four bits and are no slip.
pub const SIX_BYTES: Form =
    Form { long: 6, widths: [3, 2, 6, 4, 16, 10], zero_bits: 7, seats: SEATS as u64, has_result: is_result };

/// How many bytes a call writes.
pub const SLIP_LONG: usize = SIX_BYTES.long;

#[derive(Clone, Copy)]
pub struct Slip {
    pub kind: u64,
    pub status: u64,
    pub check: u64,
    pub seat: u64,
    pub opening: u64,
    pub step: u64,
}

/// Whether a slip can have this check by one of these lists. Checks 1 and 2 never appear.
fn is_of(check: u64, lists: &[&[u64]]) -> bool {
    check > CHECK_REFUSED_MOST && lists.iter().any(|list| list.contains(&check))
}

/// The 71 triples of document 01, which both forms have. A transfer is ACCC or RJCT by a check of its order, to which
/// the money checks belonged for a pacs.008 too; a pacs.028 is PDNG by a check of its own or has the result of a pacs.008.
fn is_first_result(kind: u64, status: u64, check: u64) -> bool {
    match (kind, status) {
        (PAYMENT | LIQUIDITY | REQUEST, ACCC) => check == 0,
        (PAYMENT | REQUEST, RJCT) => is_of(check, &[&PAYMENT_ORDER, &MONEY_CHECKS]),
        (LIQUIDITY, RJCT) => is_of(check, &[&LIQUIDITY_ORDER]),
        (REQUEST, PDNG) => is_of(check, &[&REQUEST_ORDER]),
        _ => false,
    }
}

/// The 87 triples of six bytes: also a pacs.008 that waits, a pacs.028 about one that its receiver refused, and a
/// pacs.002, ACCC or RJCT by a check of its order.
pub fn is_result(kind: u64, status: u64, check: u64) -> bool {
    let is_later = match (kind, status) {
        (PAYMENT, WAITS) | (ANSWER, ACCC) => check == 0,
        (REQUEST, RJCT) => is_of(check, &[&REFUSAL_CHECKS]),
        (ANSWER, RJCT) => is_of(check, &[&ANSWER_ORDER]),
        _ => false,
    };
    is_later || is_first_result(kind, status, check)
}

/// The 87 triples in ascending order.
pub fn results() -> impl Iterator<Item = [u64; 3]> {
    let pairs = (PAYMENT..=ANSWER).flat_map(|kind| (PDNG..=WAITS).map(move |status| (kind, status)));
    let all = pairs.flat_map(|(kind, status)| (0..=CHECKS as u64).map(move |check| [kind, status, check]));
    all.filter(|[kind, status, check]| is_result(*kind, *status, *check))
}

impl Slip {
    /// Kind, status, check, seat, opening and step.
    pub fn new([kind, status, check, seat, opening, step]: [u64; 6]) -> Slip {
        Slip { kind, status, check, seat, opening, step }
    }

    pub fn values(&self) -> [u64; 6] {
        [self.kind, self.status, self.check, self.seat, self.opening, self.step]
    }

    /// The slip that stands in exactly as many bytes as one of the forms has.
    pub fn read(bytes: &[u8]) -> Option<Slip> {
        [FIVE_BYTES, SIX_BYTES].iter().find(|form| form.long == bytes.len())?.read(bytes)
    }
}

/// The lowest bits of a number, so many of them.
fn lowest(number: u64, bits: u32) -> u64 {
    number & ((1 << bits) - 1)
}

impl Form {
    /// Whether there is such a slip, reachable or not.
    fn has(&self, slip: &Slip) -> bool {
        (self.has_result)(slip.kind, slip.status, slip.check)
            && slip.seat < self.seats
            && (1..=OPENING_MOST).contains(&slip.opening)
            && (1..=STEPS as u64).contains(&slip.step)
    }

    /// Puts six values into the first bytes of a buffer, whether or not they are a slip's: one that is above its width
    /// runs into the fields before it.
    pub fn put(&self, slip: &Slip, buffer: &mut [u8]) {
        let fields = slip.values().iter().zip(self.widths).fold(0u64, |bits, (value, width)| bits << width | value);
        let eight = (fields << self.zero_bits).to_be_bytes();
        buffer[..self.long].copy_from_slice(&eight[eight.len() - self.long..]);
    }

    /// Writes a slip into the first bytes of a buffer; false where that is too short, or where there is no such slip.
    pub fn write(&self, slip: &Slip, buffer: &mut [u8]) -> bool {
        let is_written = buffer.len() >= self.long && self.has(slip);
        if is_written {
            self.put(slip, buffer);
        }
        is_written
    }

    /// The slip that stands in bytes of this form's length.
    fn read(&self, bytes: &[u8]) -> Option<Slip> {
        let bits = bytes.iter().fold(0u64, |bits, byte| bits << 8 | u64::from(*byte));
        if lowest(bits, self.zero_bits) != 0 {
            return None;
        }
        let mut rest = bits >> self.zero_bits;
        let mut values = [0; 6];
        for (value, width) in values.iter_mut().zip(self.widths).rev() {
            *value = lowest(rest, width);
            rest >>= width;
        }
        Some(Slip::new(values)).filter(|slip| self.has(slip))
    }
}
