//! The directory (document 01, "Room, seats, directory"): a lent list of records in ascending order of code.

use crate::shapes::CODE_MOST;

pub const RECORDS_MOST: usize = 16;

/// A record's kind. All but owners name an owner: their head or serving bank.
#[derive(Clone, Copy, PartialEq, Eq, Debug)]
pub enum Kind {
    Owner,
    Direct(u64),
    Indirect(u64),
    Provider(u64),
}

#[derive(Clone, Copy, PartialEq, Eq, Debug)]
pub struct Record {
    pub code: u64,
    pub instant: bool,
    pub kind: Kind,
}

/// 1 to 16 records, codes 0 to 999999 growing, each named owner in the list.
pub fn is_fit(directory: &[Record]) -> bool {
    (1..=RECORDS_MOST).contains(&directory.len())
        && directory.windows(2).all(|pair| pair[0].code < pair[1].code)
        && directory.iter().all(|record| record.code <= CODE_MOST && names_an_owner(directory, record))
}

fn names_an_owner(directory: &[Record], record: &Record) -> bool {
    match record.kind {
        Kind::Owner => true,
        Kind::Direct(code) | Kind::Indirect(code) | Kind::Provider(code) => owner_place(directory, code).is_some(),
    }
}

fn place(directory: &[Record], code: u64) -> Option<usize> {
    directory.binary_search_by_key(&code, |record| record.code).ok()
}

/// The record with a code.
pub fn find(directory: &[Record], code: u64) -> Option<&Record> {
    place(directory, code).map(|at| &directory[at])
}

/// The place of the owner with a code.
pub fn owner_place(directory: &[Record], code: u64) -> Option<usize> {
    place(directory, code).filter(|at| directory[*at].kind == Kind::Owner)
}

/// The place whose accounts a code uses: its own for an owner, the head's for a direct branch.
pub fn using_place(directory: &[Record], code: u64) -> Option<usize> {
    match find(directory, code)?.kind {
        Kind::Owner => place(directory, code),
        Kind::Direct(head) => owner_place(directory, head),
        Kind::Indirect(_) | Kind::Provider(_) => None,
    }
}
