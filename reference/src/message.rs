//! A message's fields by their paths (document 01, "Fields"; for pacs.002 document 02, request 9). A fault is told by the
//! field's number in its kind's list; 0 tells that the message is unknown.

use crate::shapes::{self, Currency, Identifier, NamedAccount, Uetr, HRYVNIA, NO_UETR};
use crate::sheet::Sheet;

pub struct Message<'a> {
    pub id: Identifier<'a>,
    pub created: u64,
    pub uetr: Uetr,
    pub body: Body<'a>,
}

pub enum Body<'a> {
    Payment(Payment<'a>),
    Liquidity(Liquidity),
    Request(Request<'a>),
    Answer(Answer<'a>),
}

/// pacs.008
pub struct Payment<'a> {
    pub instructing: u64,
    pub instructed: u64,
    pub reference: Identifier<'a>,
    pub amount: u64,
    pub previous: Option<u64>,
    pub debtor: Agent,
    pub creditor: Agent,
    pub creditor_iban: &'a [u8],
}

/// An agent: its code, and the list it is said to stand in.
#[derive(Clone, Copy)]
pub struct Agent {
    pub list: List,
    pub code: u64,
}

/// S: `SEP` for owners and branches, `ASP` for providers.
#[derive(Clone, Copy, PartialEq, Eq)]
pub enum List {
    Sep,
    Asp,
}

/// camt.050
pub struct Liquidity {
    pub amount: u64,
    pub currency: Currency,
    pub debtor: NamedAccount,
    pub creditor: NamedAccount,
}

/// pacs.028. Its message's UETR is OrgnlUETR.
pub struct Request<'a> {
    pub instructing: u64,
    pub original_id: Identifier<'a>,
    pub original_created: u64,
    pub original_reference: Identifier<'a>,
}

/// pacs.002. Its message has no UETR.
pub struct Answer<'a> {
    pub original_id: Identifier<'a>,
    pub verdict: Verdict,
}

/// What the receiving bank says to a transfer.
#[derive(Clone, Copy, PartialEq, Eq)]
pub enum Verdict {
    /// GrpSts ACCP
    Agrees,
    /// GrpSts RJCT without TxSts
    RefusesTechnically,
    /// GrpSts RJCT with TxSts
    RefusesToCredit,
}

pub type Path = &'static [&'static [u8]];

const FIELDS_MOST: usize = 14;

pub const PAYMENT_BODY: &[u8] = b"FIToFICstmrCdtTrf";
pub const PAYMENT_FIELDS: [Path; 14] = [
    &[b"GrpHdr", b"MsgId"],
    &[b"GrpHdr", b"CreDtTm"],
    &[b"GrpHdr", b"InstgAgt", b"FinInstnId", b"ClrSysMmbId", b"MmbId"],
    &[b"GrpHdr", b"InstdAgt", b"FinInstnId", b"ClrSysMmbId", b"MmbId"],
    &[b"CdtTrfTxInf", b"PmtId", b"EndToEndId"],
    &[b"CdtTrfTxInf", b"PmtId", b"UETR"],
    &[b"CdtTrfTxInf", b"IntrBkSttlmAmt"],
    &[b"CdtTrfTxInf", b"PrvsInstgAgt1", b"FinInstnId", b"ClrSysMmbId", b"MmbId"],
    &[b"CdtTrfTxInf", b"DbtrAgt", b"FinInstnId", b"ClrSysMmbId", b"ClrSysId", b"Prtry"],
    &[b"CdtTrfTxInf", b"DbtrAgt", b"FinInstnId", b"ClrSysMmbId", b"MmbId"],
    &[b"CdtTrfTxInf", b"DbtrAcct", b"Id", b"IBAN"],
    &[b"CdtTrfTxInf", b"CdtrAgt", b"FinInstnId", b"ClrSysMmbId", b"ClrSysId", b"Prtry"],
    &[b"CdtTrfTxInf", b"CdtrAgt", b"FinInstnId", b"ClrSysMmbId", b"MmbId"],
    &[b"CdtTrfTxInf", b"CdtrAcct", b"Id", b"IBAN"],
];

pub const LIQUIDITY_BODY: &[u8] = b"LqdyCdtTrf";
pub const LIQUIDITY_FIELDS: [Path; 6] = [
    &[b"MsgHdr", b"MsgId"],
    &[b"MsgHdr", b"CreDtTm"],
    &[b"LqdyCdtTrf", b"LqdyTrfId", b"UETR"],
    &[b"LqdyCdtTrf", b"LqdyTrfId", b"TrfdAmt"],
    &[b"LqdyCdtTrf", b"LqdyTrfId", b"DbtrAcct", b"Id", b"Othr", b"Id"],
    &[b"LqdyCdtTrf", b"LqdyTrfId", b"CdtrAcct", b"Id", b"Othr", b"Id"],
];

pub const REQUEST_BODY: &[u8] = b"FIToFIPmtStsReq";
pub const REQUEST_FIELDS: [Path; 8] = [
    &[b"GrpHdr", b"MsgId"],
    &[b"GrpHdr", b"CreDtTm"],
    &[b"GrpHdr", b"InstgAgt", b"FinInstnId", b"ClrSysMmbId", b"MmbId"],
    &[b"TxInf", b"OrgnlGrpInf", b"OrgnlMsgId"],
    &[b"TxInf", b"OrgnlGrpInf", b"OrgnlMsgNmId"],
    &[b"TxInf", b"OrgnlGrpInf", b"OrgnlCreDtTm"],
    &[b"TxInf", b"OrgnlUETR"],
    &[b"TxInf", b"OrgnlEndToEndId"],
];

pub const ANSWER_BODY: &[u8] = b"FIToFIPmtStsRpt";
pub const ANSWER_FIELDS: [Path; 5] = [
    &[b"GrpHdr", b"MsgId"],
    &[b"GrpHdr", b"CreDtTm"],
    &[b"OrgnlGrpInfAndSts", b"OrgnlMsgId"],
    &[b"OrgnlGrpInfAndSts", b"GrpSts"],
    &[b"TxInfAndSts", b"TxSts"],
];

/// The message of a sheet, or the number of the first field in the list that is at fault.
pub fn message<'a>(sheet: &Sheet<'a>) -> Result<Message<'a>, u64> {
    match body_name(sheet) {
        Some(name) if name == PAYMENT_BODY => payment(&Fields::find(sheet, &PAYMENT_FIELDS)),
        Some(name) if name == LIQUIDITY_BODY => liquidity(&Fields::find(sheet, &LIQUIDITY_FIELDS)),
        Some(name) if name == REQUEST_BODY => request(&Fields::find(sheet, &REQUEST_FIELDS)),
        Some(name) if name == ANSWER_BODY => answer(&Fields::find(sheet, &ANSWER_FIELDS)),
        _ => Err(0),
    }
}

/// The name of Document's only child. The child, where there is one, stands right behind its parent in the list.
fn body_name<'a>(sheet: &Sheet<'a>) -> Option<&'a [u8]> {
    let children = (0..sheet.count()).filter(|element| sheet.depth(*element) == 2).count();
    if sheet.name(0) == b"Document" && children == 1 {
        Some(sheet.name(1))
    } else {
        None
    }
}

/// How often a path stands in the sheet, and the last element that stands there.
#[derive(Clone, Copy)]
struct Found {
    times: usize,
    element: usize,
}

struct Fields<'s, 'a> {
    sheet: &'s Sheet<'a>,
    found: [Found; FIELDS_MOST],
}

/// Whether an element's names, from the body's children down to its own, are those of a path.
fn stands_at(sheet: &Sheet, element: usize, path: Path) -> bool {
    let mut at = element;
    sheet.depth(element) == path.len() + 2
        && path.iter().rev().all(|name| {
            let same = sheet.name(at) == *name;
            at = sheet.parent(at);
            same
        })
}

impl<'s, 'a> Fields<'s, 'a> {
    fn find(sheet: &'s Sheet<'a>, paths: &[Path]) -> Fields<'s, 'a> {
        let mut found = [Found { times: 0, element: 0 }; FIELDS_MOST];
        for element in 2..sheet.count() {
            for (field, path) in found.iter_mut().zip(paths) {
                if stands_at(sheet, element, path) {
                    field.times += 1;
                    field.element = element;
                }
            }
        }
        Fields { sheet, found }
    }

    /// A field that must stand once and have the shape; Ccy belongs to amounts alone.
    fn one<T>(&self, number: usize, shape: impl Fn(&'a [u8]) -> Option<T>) -> Result<T, u64> {
        let field = self.found[number - 1];
        if field.times != 1 || self.sheet.currency(field.element).is_some() {
            return Err(number as u64);
        }
        self.sheet.text(field.element).and_then(shape).ok_or(number as u64)
    }

    fn optional<T>(&self, number: usize, shape: impl Fn(&'a [u8]) -> Option<T>) -> Result<Option<T>, u64> {
        match self.found[number - 1].times {
            0 => Ok(None),
            _ => self.one(number, shape).map(Some),
        }
    }

    /// An amount, which has a Ccy.
    fn amount(&self, number: usize) -> Result<(u64, Currency), u64> {
        let field = self.found[number - 1];
        if field.times != 1 {
            return Err(number as u64);
        }
        let amount = self.sheet.text(field.element).and_then(shapes::amount);
        amount.zip(self.sheet.currency(field.element)).ok_or(number as u64)
    }

    fn agent(&self, list: usize, code: usize) -> Result<Agent, u64> {
        Ok(Agent { list: self.one(list, named_list)?, code: self.one(code, shapes::member)? })
    }

    fn iban(&self, number: usize) -> Result<&'a [u8], u64> {
        self.one(number, |text| if shapes::is_iban(text) { Some(text) } else { None })
    }
}

fn named_list(text: &[u8]) -> Option<List> {
    match text {
        b"SEP" => Some(List::Sep),
        b"ASP" => Some(List::Asp),
        _ => None,
    }
}

/// OrgnlMsgNmId: an identifier that begins `pacs.008`.
fn payment_name(text: &[u8]) -> Option<Identifier<'_>> {
    shapes::identifier(text).filter(|name| name.text.starts_with(b"pacs.008"))
}

/// GrpSts: whether it agrees.
fn group_status(text: &[u8]) -> Option<bool> {
    match text {
        b"ACCP" => Some(true),
        b"RJCT" => Some(false),
        _ => None,
    }
}

/// TxSts has but one text.
fn transfer_status(text: &[u8]) -> Option<()> {
    if text == b"RJCT" {
        Some(())
    } else {
        None
    }
}

// The fields are asked for in the order of their numbers, so the first fault found has the lowest.

fn payment<'a>(fields: &Fields<'_, 'a>) -> Result<Message<'a>, u64> {
    let id = fields.one(1, shapes::identifier)?;
    let created = fields.one(2, shapes::time)?;
    let instructing = fields.one(3, shapes::member)?;
    let instructed = fields.one(4, shapes::member)?;
    let reference = fields.one(5, shapes::identifier)?;
    let uetr = fields.one(6, shapes::uetr)?;
    let (amount, currency) = fields.amount(7)?;
    if currency != HRYVNIA {
        return Err(7);
    }
    let previous = fields.optional(8, shapes::member)?;
    let debtor = fields.agent(9, 10)?;
    fields.iban(11)?;
    let creditor = fields.agent(12, 13)?;
    let creditor_iban = fields.iban(14)?;
    let payment = Payment { instructing, instructed, reference, amount, previous, debtor, creditor, creditor_iban };
    Ok(Message { id, created, uetr, body: Body::Payment(payment) })
}

fn liquidity<'a>(fields: &Fields<'_, 'a>) -> Result<Message<'a>, u64> {
    let id = fields.one(1, shapes::identifier)?;
    let created = fields.one(2, shapes::time)?;
    let uetr = fields.one(3, shapes::uetr)?;
    let (amount, currency) = fields.amount(4)?;
    let debtor = fields.one(5, shapes::named_account)?;
    let creditor = fields.one(6, shapes::named_account)?;
    let liquidity = Liquidity { amount, currency, debtor, creditor };
    Ok(Message { id, created, uetr, body: Body::Liquidity(liquidity) })
}

fn request<'a>(fields: &Fields<'_, 'a>) -> Result<Message<'a>, u64> {
    let id = fields.one(1, shapes::identifier)?;
    let created = fields.one(2, shapes::time)?;
    let instructing = fields.one(3, shapes::member)?;
    let original_id = fields.one(4, shapes::identifier)?;
    fields.one(5, payment_name)?;
    let original_created = fields.one(6, shapes::time)?;
    let uetr = fields.one(7, shapes::uetr)?;
    let original_reference = fields.one(8, shapes::identifier)?;
    let request = Request { instructing, original_id, original_created, original_reference };
    Ok(Message { id, created, uetr, body: Body::Request(request) })
}

fn answer<'a>(fields: &Fields<'_, 'a>) -> Result<Message<'a>, u64> {
    let id = fields.one(1, shapes::identifier)?;
    let created = fields.one(2, shapes::time)?;
    let original_id = fields.one(3, shapes::identifier)?;
    let agrees = fields.one(4, group_status)?;
    let verdict = match (agrees, fields.optional(5, transfer_status)?) {
        (true, None) => Verdict::Agrees,
        (true, Some(())) => return Err(5), // beside ACCP any TxSts is ill-shaped
        (false, None) => Verdict::RefusesTechnically,
        (false, Some(())) => Verdict::RefusesToCredit,
    };
    Ok(Message { id, created, uetr: NO_UETR, body: Body::Answer(Answer { original_id, verdict }) })
}
