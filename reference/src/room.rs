//! The room (docs/LAYOUT.md): 12 seats in one slice of numbers, how an account opens, and when such a slice is fit.

use crate::checks::{self, MONEY_CHECKS};
use crate::shapes::{self, AMOUNT_MOST, CODE_MOST};
use crate::slip;

pub const SEATS: usize = 12;
pub const PLACES: usize = 16;
pub const ACCOUNTS: usize = 2 * PLACES;
pub const STEPS: usize = 24;

pub const HEAD_LONG: usize = 3;
pub const ACCOUNT_LONG: usize = 7;
pub const STEP_LONG: usize = 31;
const ACCOUNTS_FROM: usize = HEAD_LONG;
const JOURNAL_FROM: usize = ACCOUNTS_FROM + ACCOUNTS * ACCOUNT_LONG;
pub const SEAT_LONG: usize = JOURNAL_FROM + STEPS * STEP_LONG;
pub const ROOM_LONG: usize = SEATS * SEAT_LONG;

/// The highest opening number, and the highest opening sum, LTK and LPO in kopecks.
pub const OPENING_MOST: u64 = 65_535;
pub const SUM_MOST: u64 = 1_000_000_000_000_000;

// the head of a seat
pub const OPENING: usize = 0;
pub const OPENED: usize = 1;
pub const STEP_COUNT: usize = 2;

// an account; LPO is kept as limit + 1, none as 0
pub const OPENING_SUM: usize = 0;
pub const BALANCE: usize = 1;
pub const TURNOVER: usize = 2;
pub const OUT: usize = 3;
pub const INTO: usize = 4;
pub const LTK: usize = 5;
pub const LPO: usize = 6;
pub const SETTINGS: std::ops::Range<usize> = 3..7;
pub const NO_LIMIT: u64 = 0;

// a step
pub const STEP_KIND: usize = 0;
pub const STEP_STATUS: usize = 1;
pub const STEP_CHECK: usize = 2;
pub const STEP_SENDER: usize = 3;
pub const STEP_ID: std::ops::Range<usize> = 4..9;
pub const STEP_UETR: std::ops::Range<usize> = 9..11;
pub const STEP_CREATED: usize = 11;
pub const STEP_REFERENCE: std::ops::Range<usize> = 12..17;
pub const STEP_DEBIT: usize = 17;
pub const STEP_CREDIT: usize = 18;
pub const STEP_AMOUNT: usize = 19;
pub const STEP_ACCOUNT: usize = 20;
pub const STEP_OLD: std::ops::Range<usize> = 21..25;
pub const STEP_GIVEN: std::ops::Range<usize> = 25..29;
pub const STEP_RECEIVER: usize = 29;
pub const STEP_ANSWERS: usize = 30;
pub const STEP_MOVEMENT: std::ops::Range<usize> = 17..20;
const STEP_SETTING: std::ops::Range<usize> = 20..29;

// kinds of steps; the first four are those of messages and stand on slips
pub const PAYMENT: u64 = 1;
pub const LIQUIDITY: u64 = 2;
pub const REQUEST: u64 = 3;
pub const ANSWER: u64 = 4;
pub const SET: u64 = 5;

pub type Step = [u64; STEP_LONG];

pub fn seat(room: &[u64], number: usize) -> &[u64] {
    &room[number * SEAT_LONG..(number + 1) * SEAT_LONG]
}

pub fn seat_mut(room: &mut [u64], number: usize) -> &mut [u64] {
    &mut room[number * SEAT_LONG..(number + 1) * SEAT_LONG]
}

/// The number in the seat of account 1 or 2 of a place.
pub fn account_number(place: usize, account: u64) -> usize {
    2 * place + if account == 2 { 1 } else { 0 }
}

pub fn account(seat: &[u64], number: usize) -> &[u64] {
    let from = ACCOUNTS_FROM + number * ACCOUNT_LONG;
    &seat[from..from + ACCOUNT_LONG]
}

pub fn accounts_mut(seat: &mut [u64]) -> &mut [u64] {
    &mut seat[ACCOUNTS_FROM..JOURNAL_FROM]
}

pub fn steps(seat: &[u64]) -> usize {
    seat[STEP_COUNT] as usize
}

/// LPO, as it is kept, of an account that opens with a sum (document 02, request 2): a limit of as much, or none where the
/// sum is 0. The limit 0 would let nothing out, whatever comes in.
pub fn opening_limit(sum: u64) -> u64 {
    if sum == 0 {
        NO_LIMIT
    } else {
        sum + 1
    }
}

/// Opens an account of zeros with a sum: by the call, and where a seat is worked forward.
pub fn open_account(account: &mut [u64], sum: u64) {
    account[OPENING_SUM] = sum;
    account[BALANCE] = sum;
    account[LPO] = opening_limit(sum);
}

/// The steps of a fit seat's journal, the first one first.
pub fn journal(seat: &[u64]) -> impl Iterator<Item = &[u64]> {
    seat[JOURNAL_FROM..].chunks_exact(STEP_LONG).take(steps(seat))
}

/// The steps of a fit seat's journal with their numbers, which begin with 1.
pub fn numbered(seat: &[u64]) -> impl Iterator<Item = (u64, &[u64])> {
    (1..).zip(journal(seat))
}

/// The first step that answers the one with a number, and its own number.
fn answer_to(seat: &[u64], number: u64) -> Option<(u64, &[u64])> {
    numbered(seat).find(|(_, step)| step[STEP_ANSWERS] == number)
}

fn is_waiting(step: &[u64]) -> bool {
    step[STEP_KIND] == PAYMENT && step[STEP_STATUS] == slip::WAITS
}

/// Whether the step with a number is a transfer that no step has answered.
pub fn waits(seat: &[u64], number: u64) -> bool {
    is_waiting(step(seat, number)) && answer_to(seat, number).is_none()
}

/// Status and check of the step with a number as they stand: its answer's where there is one, else its own.
pub fn result_now(seat: &[u64], number: u64) -> (u64, u64) {
    let step = answer_to(seat, number).map_or(step(seat, number), |(_, answer)| answer);
    (step[STEP_STATUS], step[STEP_CHECK])
}

/// The step with a number, 1 to 24.
pub fn step(seat: &[u64], number: u64) -> &[u64] {
    let from = JOURNAL_FROM + (number as usize - 1) * STEP_LONG;
    &seat[from..from + STEP_LONG]
}

/// Puts a step behind the last one and carries it out. There is room for it, and it does not take more than there is.
pub fn add_step(seat: &mut [u64], step: &Step) {
    let from = JOURNAL_FROM + steps(seat) * STEP_LONG;
    seat[from..from + STEP_LONG].copy_from_slice(step);
    seat[STEP_COUNT] += 1;
    carry_out(accounts_mut(seat), step);
}

/// Takes back the last step: money, turnover and settings are as before it, and its place is zeros again.
pub fn take_step_back(seat: &mut [u64]) {
    seat[STEP_COUNT] -= 1;
    let from = JOURNAL_FROM + steps(seat) * STEP_LONG;
    let (before, behind) = seat.split_at_mut(from);
    let step = &mut behind[..STEP_LONG];
    undo(&mut before[ACCOUNTS_FROM..JOURNAL_FROM], step);
    step.fill(0);
}

fn at(account: u64, place: usize) -> usize {
    account as usize * ACCOUNT_LONG + place
}

/// What a step of right ranges does to the accounts: false where a balance would fall below zero, or where the old
/// settings of a set are not those that stand there.
fn carry_out(accounts: &mut [u64], step: &[u64]) -> bool {
    if step[STEP_KIND] == SET {
        let settings = &mut accounts[at(step[STEP_ACCOUNT], SETTINGS.start)..][..SETTINGS.len()];
        let are_old = *settings == step[STEP_OLD];
        settings.copy_from_slice(&step[STEP_GIVEN]);
        return are_old;
    }
    if is_waiting(step) {
        return true; // what it keeps is moved by its answer
    }
    let (debit, credit, amount) = (step[STEP_DEBIT], step[STEP_CREDIT], step[STEP_AMOUNT]);
    accounts[at(debit, TURNOVER)] += amount;
    if debit == credit {
        return true; // one account both times: the balance stays
    }
    accounts[at(credit, BALANCE)] += amount;
    let balance = &mut accounts[at(debit, BALANCE)];
    let is_enough = amount <= *balance;
    *balance = balance.saturating_sub(amount);
    is_enough
}

/// The accounts as they were before a step that was carried out.
fn undo(accounts: &mut [u64], step: &[u64]) {
    if step[STEP_KIND] == SET {
        let from = at(step[STEP_ACCOUNT], SETTINGS.start);
        accounts[from..from + SETTINGS.len()].copy_from_slice(&step[STEP_OLD]);
        return;
    }
    if is_waiting(step) {
        return;
    }
    let (debit, credit, amount) = (step[STEP_DEBIT], step[STEP_CREDIT], step[STEP_AMOUNT]);
    accounts[at(debit, TURNOVER)] -= amount;
    if debit != credit {
        accounts[at(credit, BALANCE)] -= amount;
        accounts[at(debit, BALANCE)] += amount;
    }
}

/// All bits are gathered without a way out in between: most of a room is zeros, and so it goes fastest.
fn are_zeros(numbers: &[u64]) -> bool {
    numbers.iter().fold(0, |bits, number| bits | number) == 0
}

/// Length and ranges are right, and each journal, worked forward, gives what is stored.
pub fn is_fit(room: &[u64]) -> bool {
    room.len() == ROOM_LONG && room.chunks_exact(SEAT_LONG).all(is_fit_seat)
}

fn is_fit_seat(seat: &[u64]) -> bool {
    seat[OPENING] <= OPENING_MOST
        && match seat[OPENED] {
            0 => are_zeros(&seat[OPENED..]),
            1 => seat[OPENING] >= 1 && seat[STEP_COUNT] <= STEPS as u64 && comes_out(seat),
            _ => false,
        }
}

/// An open seat's journal worked forward from its opening sums and their limits, no balance below zero behind any step.
fn comes_out(seat: &[u64]) -> bool {
    let mut accounts = [0; ACCOUNTS * ACCOUNT_LONG];
    let stored = &seat[ACCOUNTS_FROM..JOURNAL_FROM];
    for (worked, account) in accounts.chunks_exact_mut(ACCOUNT_LONG).zip(stored.chunks_exact(ACCOUNT_LONG)) {
        if account[OPENING_SUM] > SUM_MOST {
            return false;
        }
        open_account(worked, account[OPENING_SUM]);
    }
    let unused = JOURNAL_FROM + steps(seat) * STEP_LONG;
    numbered(seat).all(|(number, step)| {
        has_ranges(step) && answers_a_waiting_one(seat, number, step) && carry_out(&mut accounts, step)
    }) && are_zeros(&seat[unused..])
        && accounts == *stored
}

/// A step that answers another stands after it; that one waits, no step in between has answered it, and where the answer
/// moves money it is what the other keeps.
fn answers_a_waiting_one(seat: &[u64], number: u64, answer: &[u64]) -> bool {
    let answered = answer[STEP_ANSWERS];
    if answered == 0 || answered >= number {
        return answered == 0;
    }
    let transfer = step(seat, answered);
    is_waiting(transfer)
        && answer_to(seat, answered).map_or(false, |(first, _)| first == number)
        && (answer[STEP_STATUS] != slip::ACCC || answer[STEP_MOVEMENT] == transfer[STEP_MOVEMENT])
}

/// The ranges of a step: what its kind has is right, what it lacks is zero.
fn has_ranges(step: &[u64]) -> bool {
    match step[STEP_KIND] {
        PAYMENT | LIQUIDITY | REQUEST | ANSWER => {
            has_result(step)
                && step[STEP_SENDER] <= CODE_MOST
                && shapes::is_stored_identifier(&step[STEP_ID])
                && shapes::is_time(step[STEP_CREATED])
                && has_uetr(step)
                && has_reference(step)
                && has_movement(step)
                && are_zeros(&step[STEP_SETTING])
                && has_receiver(step)
                && has_answered(step)
        }
        SET => {
            are_zeros(&step[STEP_STATUS..STEP_ACCOUNT])
                && step[STEP_ACCOUNT] < ACCOUNTS as u64
                && are_settings(&step[STEP_OLD])
                && are_settings(&step[STEP_GIVEN])
                && are_zeros(&step[STEP_GIVEN.end..])
        }
        _ => false,
    }
}

/// A result that the kind's slips have. A pacs.008's submit neither carries it out nor looks at money, though a slip may
/// say so.
fn has_result(step: &[u64]) -> bool {
    let (kind, status, check) = (step[STEP_KIND], step[STEP_STATUS], step[STEP_CHECK]);
    let is_settled = kind == PAYMENT && (status == slip::ACCC || MONEY_CHECKS.contains(&check));
    slip::is_result(kind, status, check) && !is_settled
}

/// A pacs.002 has no UETR.
fn has_uetr(step: &[u64]) -> bool {
    if step[STEP_KIND] == ANSWER {
        step[STEP_UETR] == shapes::NO_UETR
    } else {
        shapes::is_stored_uetr(&step[STEP_UETR])
    }
}

/// A camt.050 has no end-to-end identifier, and neither has a pacs.002.
fn has_reference(step: &[u64]) -> bool {
    if matches!(step[STEP_KIND], LIQUIDITY | ANSWER) {
        are_zeros(&step[STEP_REFERENCE])
    } else {
        shapes::is_stored_identifier(&step[STEP_REFERENCE])
    }
}

/// The receiver is kept exactly by a transfer that waits or waited.
fn has_receiver(step: &[u64]) -> bool {
    step[STEP_RECEIVER] <= if is_waiting(step) { CODE_MOST } else { 0 }
}

/// A pacs.002 names the step that it answers exactly where it settled or rejected it.
fn has_answered(step: &[u64]) -> bool {
    let is_answer =
        step[STEP_KIND] == ANSWER && (step[STEP_STATUS] == slip::ACCC || checks::rejects_transfer(step[STEP_CHECK]));
    (step[STEP_ANSWERS] != 0) == is_answer
}

/// A movement stands exactly where money was moved or is to be: between the two accounts of one place for camt.050,
/// between accounts 2 for a pacs.008 that waits and for the pacs.002 that settles it.
fn has_movement(step: &[u64]) -> bool {
    let (debit, credit, amount) = (step[STEP_DEBIT], step[STEP_CREDIT], step[STEP_AMOUNT]);
    let are_accounts = debit < ACCOUNTS as u64 && credit < ACCOUNTS as u64 && (1..=AMOUNT_MOST).contains(&amount);
    match (step[STEP_KIND], step[STEP_STATUS]) {
        (PAYMENT, slip::WAITS) | (ANSWER, slip::ACCC) => are_accounts && debit % 2 == 1 && credit % 2 == 1,
        (LIQUIDITY, slip::ACCC) => are_accounts && debit ^ credit == 1,
        _ => are_zeros(&step[STEP_MOVEMENT]),
    }
}

/// Blocks outgoing and incoming, LTK, and LPO as none or limit + 1.
fn are_settings(settings: &[u64]) -> bool {
    settings[0] <= 1 && settings[1] <= 1 && settings[2] <= SUM_MOST && settings[3] <= SUM_MOST + 1
}
