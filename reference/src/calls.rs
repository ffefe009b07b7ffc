//! The nine calls and their refusals (document 01, "Calls and refusals", with requests 2, 8 and 9 of document 02). A
//! refused call changes nothing that was lent.

use crate::checks::{self, Accounts, Case, CHECK_REFUSED_MOST};
use crate::directory::{self, Record};
use crate::message::{self, Answer, Body, Message};
use crate::room::{self, Step};
use crate::shapes::{self, CODE_MOST};
use crate::sheet::Sheet;
use crate::slip::{self, Slip, SIX_BYTES, SLIP_LONG};

/// Why a call was refused, by document 01's table.
#[derive(Clone, Copy, PartialEq, Eq, Debug)]
pub enum Refusal {
    RoomUnfit,
    DirectoryUnfit,
    NoSuchTicket,
    SeatOpen,
    OpeningsUsedUp,
    BadNumber,
    SheetIllFormed(usize),
    FieldAtFault(u64),
    JournalFull,
    NoStep,
    SlipUnfit,
    SenderRefused(u64),
}

impl Refusal {
    pub fn number(self) -> u64 {
        match self {
            Refusal::RoomUnfit => 1,
            Refusal::DirectoryUnfit => 2,
            Refusal::NoSuchTicket => 3,
            Refusal::SeatOpen => 4,
            Refusal::OpeningsUsedUp => 5,
            Refusal::BadNumber => 6,
            Refusal::SheetIllFormed(_) => 7,
            Refusal::FieldAtFault(_) => 8,
            Refusal::JournalFull => 9,
            Refusal::NoStep => 10,
            Refusal::SlipUnfit => 11,
            Refusal::SenderRefused(_) => 12,
        }
    }

    /// The place of 7, the field of 8, the check of 12.
    pub fn detail(self) -> u64 {
        match self {
            Refusal::SheetIllFormed(place) => place as u64,
            Refusal::FieldAtFault(number) => number,
            Refusal::SenderRefused(check) => check,
            _ => 0,
        }
    }
}

#[derive(Clone, Copy)]
pub struct Ticket {
    pub seat: u64,
    pub opening: u64,
}

/// An account's owner, by its own code, and 1 (TKR) or 2 (TKRMP).
#[derive(Clone, Copy)]
pub struct AccountName {
    pub owner: u64,
    pub number: u64,
}

#[derive(Clone, Copy)]
pub struct Settings {
    pub out: bool,
    pub into: bool,
    pub ltk: u64,
    pub lpo: Option<u64>,
}

impl Settings {
    fn stored(&self) -> [u64; 4] {
        let lpo = self.lpo.map_or(0, |limit| limit + 1);
        [u64::from(self.out), u64::from(self.into), self.ltk, lpo]
    }
}

/// What is sent: by whom, on which day (yyyymmdd), and the sheet.
#[derive(Clone, Copy)]
pub struct Sent<'a> {
    pub sender: u64,
    pub date: u64,
    pub sheet: &'a [u8],
}

fn unless(is_right: bool, refusal: Refusal) -> Result<(), Refusal> {
    if is_right {
        Ok(())
    } else {
        Err(refusal)
    }
}

/// Refusals 1 and 2 of the calls that take a directory.
fn fit(room: &[u64], directory: &[Record]) -> Result<(), Refusal> {
    unless(room::is_fit(room), Refusal::RoomUnfit)?;
    unless(directory::is_fit(directory), Refusal::DirectoryUnfit)
}

/// Refusal 3, for opening too: a seat from 12 on.
fn seat_number(seat: u64) -> Result<usize, Refusal> {
    unless(seat < room::SEATS as u64, Refusal::NoSuchTicket)?;
    Ok(seat as usize)
}

/// Refusal 3: the seat is closed, or its opening number differs.
fn ticket_seat(room: &[u64], ticket: Ticket) -> Result<usize, Refusal> {
    let number = seat_number(ticket.seat)?;
    let seat = room::seat(room, number);
    let is_good = seat[room::OPENED] == 1 && seat[room::OPENING] == ticket.opening;
    unless(is_good, Refusal::NoSuchTicket)?;
    Ok(number)
}

/// Refusal 6: the account's number is 1 or 2 and its owner a listed one.
fn account_number(directory: &[Record], name: AccountName) -> Result<usize, Refusal> {
    unless(matches!(name.number, 1 | 2), Refusal::BadNumber)?;
    let place = directory::owner_place(directory, name.owner).ok_or(Refusal::BadNumber)?;
    Ok(room::account_number(place, name.number))
}

/// Lays out a room: only its length is looked at, and everything becomes zero.
pub fn lay_out(room: &mut [u64]) -> Result<(), Refusal> {
    unless(room.len() == room::ROOM_LONG, Refusal::RoomUnfit)?;
    room.fill(0);
    Ok(())
}

/// Opens a seat with two sums per record, account 1 then account 2; gives the opening number.
pub fn open(room: &mut [u64], directory: &[Record], seat: u64, sums: &[u64]) -> Result<u64, Refusal> {
    fit(room, directory)?;
    let number = seat_number(seat)?;
    let seat = room::seat_mut(room, number);
    unless(seat[room::OPENED] == 0, Refusal::SeatOpen)?;
    unless(seat[room::OPENING] < room::OPENING_MOST, Refusal::OpeningsUsedUp)?;
    unless(are_sums(directory, sums), Refusal::BadNumber)?;
    seat[room::OPENING] += 1;
    seat[room::OPENED] = 1;
    for (account, sum) in room::accounts_mut(seat).chunks_exact_mut(room::ACCOUNT_LONG).zip(sums) {
        room::open_account(account, *sum);
    }
    Ok(seat[room::OPENING])
}

/// Two sums for each record, at most 10^15, and 0 for who is no owner.
fn are_sums(directory: &[Record], sums: &[u64]) -> bool {
    sums.len() == 2 * directory.len()
        && sums.chunks_exact(2).zip(directory).all(|(pair, record)| {
            let most = if record.kind == directory::Kind::Owner { room::SUM_MOST } else { 0 };
            pair[0] <= most && pair[1] <= most
        })
}

/// Closes a seat: all zeros but for its opening count.
pub fn close(room: &mut [u64], ticket: Ticket) -> Result<(), Refusal> {
    unless(room::is_fit(room), Refusal::RoomUnfit)?;
    let number = ticket_seat(room, ticket)?;
    room::seat_mut(room, number)[room::OPENED..].fill(0);
    Ok(())
}

/// Sets an account's blocks and limits: one step.
pub fn set(
    room: &mut [u64],
    directory: &[Record],
    ticket: Ticket,
    name: AccountName,
    settings: Settings,
) -> Result<(), Refusal> {
    fit(room, directory)?;
    let number = ticket_seat(room, ticket)?;
    let account = account_number(directory, name)?;
    let are_limits = settings.ltk <= room::SUM_MOST && settings.lpo.map_or(true, |limit| limit <= room::SUM_MOST);
    unless(are_limits, Refusal::BadNumber)?;
    let seat = room::seat_mut(room, number);
    unless(room::steps(seat) < room::STEPS, Refusal::JournalFull)?;
    let mut step: Step = [0; room::STEP_LONG];
    step[room::STEP_KIND] = room::SET;
    step[room::STEP_ACCOUNT] = account as u64;
    step[room::STEP_OLD].copy_from_slice(&room::account(seat, account)[room::SETTINGS]);
    step[room::STEP_GIVEN].copy_from_slice(&settings.stored());
    room::add_step(seat, &step);
    Ok(())
}

/// Takes back the last step.
pub fn take_back(room: &mut [u64], ticket: Ticket) -> Result<(), Refusal> {
    unless(room::is_fit(room), Refusal::RoomUnfit)?;
    let number = ticket_seat(room, ticket)?;
    let seat = room::seat_mut(room, number);
    unless(room::steps(seat) > 0, Refusal::NoStep)?;
    room::take_step_back(seat);
    Ok(())
}

/// All that an account holds: opening sum, balance, turnover, blocks outgoing and incoming, LTK, LPO as stored.
pub fn read_account(
    room: &[u64],
    directory: &[Record],
    ticket: Ticket,
    name: AccountName,
) -> Result<[u64; room::ACCOUNT_LONG], Refusal> {
    fit(room, directory)?;
    let number = ticket_seat(room, ticket)?;
    let account = account_number(directory, name)?;
    let mut values = [0; room::ACCOUNT_LONG];
    values.copy_from_slice(room::account(room::seat(room, number), account));
    Ok(values)
}

/// Submits a sheet. What passes refusal 12 is a step, carried out or not, and its slip stands in the buffer.
pub fn submit(
    room: &mut [u64],
    directory: &[Record],
    ticket: Ticket,
    sent: Sent,
    buffer: &mut [u8],
) -> Result<(), Refusal> {
    fit(room, directory)?;
    let number = ticket_seat(room, ticket)?;
    unless(shapes::is_date(sent.date) && sent.sender <= CODE_MOST, Refusal::BadNumber)?;
    unless(buffer.len() >= SLIP_LONG, Refusal::SlipUnfit)?;
    let seat = room::seat_mut(room, number);
    unless(room::steps(seat) < room::STEPS, Refusal::JournalFull)?;
    let sheet = Sheet::read(sent.sheet).map_err(Refusal::SheetIllFormed)?;
    let message = message::message(&sheet).map_err(Refusal::FieldAtFault)?;
    let case = Case { directory, seat, sender: sent.sender, date: sent.date, message: &message };
    let failing = case.first_failing();
    if let Some(check) = failing.filter(|check| *check <= CHECK_REFUSED_MOST) {
        return Err(Refusal::SenderRefused(check));
    }
    let step = judged_step(&case, failing);
    room::add_step(seat, &step);
    let slip = Slip {
        kind: step[room::STEP_KIND],
        status: step[room::STEP_STATUS],
        check: step[room::STEP_CHECK],
        seat: ticket.seat,
        opening: ticket.opening,
        step: seat[room::STEP_COUNT],
    };
    write_slip(&slip, buffer)
}

/// The step of a message that fails this check or none.
fn judged_step(case: &Case, failing: Option<u64>) -> Step {
    let mut step = message_step(case.message, case.sender);
    let (status, check) = match (&case.message.body, failing) {
        (Body::Answer(answer), failing) => put_answer(&mut step, case, answer, failing),
        (Body::Payment(_), Some(check)) | (Body::Liquidity(_), Some(check)) => (slip::RJCT, check),
        (Body::Request(_), Some(check)) => (slip::PDNG, check),
        (Body::Payment(payment), None) => {
            put_movement(&mut step, checks::payment_accounts(case.directory, payment), payment.amount);
            step[room::STEP_RECEIVER] = payment.instructed;
            (slip::WAITS, 0)
        }
        (Body::Liquidity(liquidity), None) => {
            put_movement(&mut step, checks::liquidity_accounts(case.directory, liquidity), liquidity.amount);
            (slip::ACCC, 0)
        }
        (Body::Request(request), None) => {
            let (number, _) = checks::original_step(case.seat, request).expect("check 10 has passed");
            room::result_now(case.seat, number)
        }
    };
    step[room::STEP_STATUS] = status;
    step[room::STEP_CHECK] = check;
    step
}

/// The result of a pacs.002, and in its step the transfer that it settles or rejects. One that fails a check before 36
/// touches no transfer.
fn put_answer(step: &mut Step, case: &Case, answer: &Answer, failing: Option<u64>) -> (u64, u64) {
    if failing.map_or(true, checks::rejects_transfer) {
        let (number, transfer) = case.answered_step(answer).expect("check 35 has passed");
        step[room::STEP_ANSWERS] = number;
        if failing.is_none() {
            step[room::STEP_MOVEMENT].copy_from_slice(&transfer[room::STEP_MOVEMENT]);
        }
    }
    failing.map_or((slip::ACCC, 0), |check| (slip::RJCT, check))
}

/// What a step keeps of its message: a pacs.028 has OrgnlUETR and OrgnlEndToEndId in those places.
fn message_step(message: &Message, sender: u64) -> Step {
    let mut step: Step = [0; room::STEP_LONG];
    let (kind, reference) = match &message.body {
        Body::Payment(payment) => (room::PAYMENT, Some(&payment.reference)),
        Body::Liquidity(_) => (room::LIQUIDITY, None),
        Body::Request(request) => (room::REQUEST, Some(&request.original_reference)),
        Body::Answer(_) => (room::ANSWER, None),
    };
    step[room::STEP_KIND] = kind;
    step[room::STEP_SENDER] = sender;
    step[room::STEP_ID].copy_from_slice(&message.id.stored);
    step[room::STEP_UETR].copy_from_slice(&message.uetr);
    step[room::STEP_CREATED] = message.created;
    if let Some(reference) = reference {
        step[room::STEP_REFERENCE].copy_from_slice(&reference.stored);
    }
    step
}

/// The movement of a transfer that fails no check; then both accounts are there.
fn put_movement(step: &mut Step, accounts: Accounts, amount: u64) {
    let (debit, credit) = accounts.debit.zip(accounts.credit).expect("checks 1, 2, 4, 8, 12, 13, 15, 27 have passed");
    step[room::STEP_DEBIT] = debit as u64;
    step[room::STEP_CREDIT] = credit as u64;
    step[room::STEP_AMOUNT] = amount;
}

/// Writes a slip into the first six bytes of a buffer.
pub fn write_slip(slip: &Slip, buffer: &mut [u8]) -> Result<(), Refusal> {
    unless(SIX_BYTES.write(slip, buffer), Refusal::SlipUnfit)
}

/// Reads a slip of exactly five or exactly six bytes.
pub fn read_slip(bytes: &[u8]) -> Result<Slip, Refusal> {
    Slip::read(bytes).ok_or(Refusal::SlipUnfit)
}
