//! The two sides of a call, and rooms that both of them make.

use crate::fail;
use crate::lesson::{step, School, Step, DATE, PATTERN_GIVES};
use reference::calls::{self, AccountName, Refusal, Sent, Settings, Ticket};
use reference::room::{ROOM_LONG, SEAT_LONG, STEPS, STEP_COUNT, STEP_LONG};
use reference::slip::SLIP_LONG;

// The proved library. A directory is four numbers a record: code, instant flag, kind, named owner. A result is the call's number and 256
// times its detail.
extern "C" {
    fn damvurit_lay_out(room: *mut u64, n: usize) -> u64;
    fn damvurit_open(room: *mut u64, n: usize, dir: *const u64, d: usize, seat: u64, sums: *const u64, k: usize) -> u64;
    fn damvurit_set(
        room: *mut u64,
        n: usize,
        dir: *const u64,
        d: usize,
        seat: u64,
        opening: u64,
        owner: u64,
        account: u64,
        block_out: u64,
        block_in: u64,
        ltk: u64,
        lpo: u64,
    ) -> u64;
    fn damvurit_submit(
        room: *mut u64,
        n: usize,
        dir: *const u64,
        d: usize,
        seat: u64,
        opening: u64,
        sender: u64,
        date: u64,
        sheet: *const u8,
        m: usize,
        slip: *mut u8,
        l: usize,
    ) -> u64;
}

/// What a slip's buffer holds before a call.
pub const BUFFER_BYTE: u8 = 170;
/// The opening number of every seat.
pub const OPENING: u64 = 1;

/// A call of submit.
pub struct Call {
    pub seat: u64,
    pub opening: u64,
    pub sender: u64,
    pub sheet: Vec<u8>,
}

pub type Side = fn(&mut [u64], &School, &Call, &mut [u8]) -> u64;

/// A call's number and 256 times its detail.
fn number_of(answer: Result<(), Refusal>) -> u64 {
    answer.map_or_else(|refusal| refusal.number() + 256 * refusal.detail(), |()| 0)
}

pub fn ours(room: &mut [u64], school: &School, call: &Call, slip: &mut [u8]) -> u64 {
    let (n, dir, sheet) = (room.len(), &school.numbers, &call.sheet);
    unsafe {
        damvurit_submit(
            room.as_mut_ptr(),
            n,
            dir.as_ptr(),
            dir.len(),
            call.seat,
            call.opening,
            call.sender,
            DATE,
            sheet.as_ptr(),
            sheet.len(),
            slip.as_mut_ptr(),
            slip.len(),
        )
    }
}

pub fn second(room: &mut [u64], school: &School, call: &Call, slip: &mut [u8]) -> u64 {
    let ticket = Ticket { seat: call.seat, opening: call.opening };
    let sent = Sent { sender: call.sender, date: DATE, sheet: &call.sheet };
    number_of(calls::submit(room, &school.records, ticket, sent, slip))
}

/// No call at all: what is timed of it is the copying back.
pub fn neither(_: &mut [u64], _: &School, _: &Call, _: &mut [u8]) -> u64 {
    0
}

fn same(are_same: bool, what: &str) {
    if !are_same {
        fail(&format!("the two sides differ, or are not as meant, in {}", what));
    }
}

/// A room with so many seats open, each with so many steps. Each side makes its own, by its own calls.
pub fn room_with(school: &School, seats: usize, steps: u64) -> Vec<u64> {
    let (mut mine, mut other) = (vec![1; ROOM_LONG], vec![1; ROOM_LONG]);
    let (dir, sums) = (&school.numbers, &school.sums);
    let laid = unsafe { damvurit_lay_out(mine.as_mut_ptr(), ROOM_LONG) };
    same(laid == 0 && calls::lay_out(&mut other).is_ok(), "laying out a room");
    for seat in 0..seats as u64 {
        let opened = unsafe { damvurit_open(mine.as_mut_ptr(), ROOM_LONG, dir.as_ptr(), dir.len(), seat, sums.as_ptr(), sums.len()) };
        same(opened == 256 * OPENING && calls::open(&mut other, &school.records, seat, sums) == Ok(OPENING), "opening a seat");
        for number in 1..=steps {
            add_step(school, &mut mine, &mut other, seat, number);
        }
    }
    same(mine == other, "a room before the timed call");
    for seat in mine.chunks_exact(SEAT_LONG).take(seats) {
        let journal = seat[SEAT_LONG - STEPS * STEP_LONG..].chunks_exact(STEP_LONG).take(steps as usize);
        let is_pattern = journal.zip(PATTERN_GIVES.iter().cycle()).all(|(step, gives)| step[..3] == gives[..]);
        same(seat[STEP_COUNT] == steps && is_pattern, "a journal before the timed call");
    }
    mine
}

/// One step more in a seat of both rooms.
fn add_step(school: &School, mine: &mut [u64], other: &mut [u64], seat: u64, number: u64) {
    match step(number) {
        Step::Message { sender, sheet } => {
            let call = Call { seat, opening: OPENING, sender, sheet: sheet.into_bytes() };
            let mut slips = [[BUFFER_BYTE; SLIP_LONG]; 2];
            let answers = [ours(mine, school, &call, &mut slips[0]), second(other, school, &call, &mut slips[1])];
            same(answers == [0, 0] && slips[0] == slips[1], "a message of a journal");
        }
        Step::Set { owner, account, ltk, limit } => {
            let (n, dir, lpo) = (mine.len(), &school.numbers, limit.map_or(0, |limit| limit + 1));
            let mine = mine.as_mut_ptr();
            let answer = unsafe { damvurit_set(mine, n, dir.as_ptr(), dir.len(), seat, OPENING, owner, account, 0, 0, ltk, lpo) };
            let (ticket, name) = (Ticket { seat, opening: OPENING }, AccountName { owner, number: account });
            let settings = Settings { out: false, into: false, ltk, lpo: limit };
            same(answer == 0 && calls::set(other, &school.records, ticket, name, settings).is_ok(), "a set of a journal");
        }
    }
}
