//! Messages to be sent, field by field, so that a lesson can change one of them; and the texts that fields may have.

use super::dice::Dice;
use crate::message::{
    Path, ANSWER_BODY, ANSWER_FIELDS, LIQUIDITY_BODY, LIQUIDITY_FIELDS, PAYMENT_BODY, PAYMENT_FIELDS, REQUEST_BODY,
    REQUEST_FIELDS,
};
use crate::room::{ANSWER, LIQUIDITY, PAYMENT, REQUEST};
use crate::shapes::iban_remainder;

/// An element with text: its path below the body, and its number in the kind's list (0: none).
#[derive(Clone)]
pub struct Leaf {
    pub field: usize,
    pub path: String,
    pub text: String,
    pub currency: Option<String>,
}

#[derive(Clone)]
pub struct Draft {
    pub kind: u64,
    pub outer: String,
    pub body: String,
    pub leaves: Vec<Leaf>,
    /// What stands behind the body.
    pub tail: String,
}

// numbers of fields: of all kinds
pub const MSG_ID: usize = 1;
pub const CREATED: usize = 2;
// of a pacs.008 and a pacs.028
pub const INSTRUCTING: usize = 3;
// of a pacs.008; PrvsInstgAgt1 may be left out
pub const INSTRUCTED: usize = 4;
pub const REFERENCE: usize = 5;
pub const PREVIOUS: usize = 8;
pub const DEBTOR_LIST: usize = 9;
pub const DEBTOR: usize = 10;
pub const CREDITOR_LIST: usize = 12;
pub const CREDITOR: usize = 13;
pub const CREDITOR_IBAN: usize = 14;
// of a camt.050
pub const DEBTOR_ACCOUNT: usize = 5;
pub const CREDITOR_ACCOUNT: usize = 6;
// of a pacs.028
pub const ORIGINAL_ID: usize = 4;
pub const ORIGINAL_CREATED: usize = 6;
pub const ORIGINAL_REFERENCE: usize = 8;
// of a pacs.002; TxSts may be left out
pub const ANSWERED_ID: usize = 3;
pub const GROUP_STATUS: usize = 4;
pub const TRANSFER_STATUS: usize = 5;

fn joined(path: Path) -> String {
    let names: Vec<_> = path.iter().map(|name| String::from_utf8_lossy(name)).collect();
    names.join("/")
}

/// The number of the amount in a kind's list.
pub fn amount_field(kind: u64) -> usize {
    match kind {
        PAYMENT => 7,
        LIQUIDITY => 4,
        _ => 0,
    }
}

/// The number of the UETR, for a pacs.028 of OrgnlUETR; a pacs.002 has none.
pub fn uetr_field(kind: u64) -> usize {
    match kind {
        PAYMENT => 6,
        LIQUIDITY => 3,
        REQUEST => 7,
        _ => 0,
    }
}

/// The number and the path of the field that a kind may leave out.
fn optional_field(kind: u64) -> Option<(usize, Path)> {
    match kind {
        PAYMENT => Some((PREVIOUS, PAYMENT_FIELDS[PREVIOUS - 1])),
        ANSWER => Some((TRANSFER_STATUS, ANSWER_FIELDS[TRANSFER_STATUS - 1])),
        _ => None,
    }
}

impl Draft {
    /// A message of a kind whose fields have these texts, in the order of the list; an empty one is left out.
    pub fn new(kind: u64, texts: &[String]) -> Draft {
        let (body, paths): (&[u8], &[Path]) = match kind {
            PAYMENT => (PAYMENT_BODY, &PAYMENT_FIELDS),
            LIQUIDITY => (LIQUIDITY_BODY, &LIQUIDITY_FIELDS),
            REQUEST => (REQUEST_BODY, &REQUEST_FIELDS),
            _ => (ANSWER_BODY, &ANSWER_FIELDS),
        };
        let mut leaves = Vec::new();
        for (at, (path, text)) in paths.iter().zip(texts).enumerate() {
            let field = at + 1;
            let currency = if field == amount_field(kind) { Some("UAH".to_string()) } else { None };
            if !text.is_empty() {
                leaves.push(Leaf { field, path: joined(path), text: text.clone(), currency });
            }
        }
        Draft {
            kind,
            outer: "Document".to_string(),
            body: String::from_utf8_lossy(body).into_owned(),
            leaves,
            tail: String::new(),
        }
    }

    pub fn text(&self, field: usize) -> &str {
        self.leaves.iter().find(|leaf| leaf.field == field).map_or("", |leaf| &leaf.text)
    }

    /// Gives a field another text; a field that was left out comes in.
    pub fn put(&mut self, field: usize, text: &str) {
        let found = self.leaves.iter_mut().find(|leaf| leaf.field == field);
        match (found, optional_field(self.kind)) {
            (Some(leaf), _) => leaf.text = text.to_string(),
            (None, Some((number, path))) if number == field => {
                self.leaves.push(Leaf { field, path: joined(path), text: text.to_string(), currency: None });
            }
            _ => {}
        }
    }

    pub fn remove(&mut self, field: usize) {
        self.leaves.retain(|leaf| leaf.field != field);
    }

    pub fn put_currency(&mut self, field: usize, currency: Option<&str>) {
        for leaf in self.leaves.iter_mut().filter(|leaf| leaf.field == field) {
            leaf.currency = currency.map(str::to_string);
        }
    }

    /// The sheet: leaves that follow each other share their parents as far as these have the same names.
    pub fn sheet(&self) -> Vec<u8> {
        let mut sheet = format!("<{}><{}>", self.outer, self.body);
        let mut open: Vec<&str> = Vec::new();
        for leaf in &self.leaves {
            let names: Vec<&str> = leaf.path.split('/').collect();
            let (name, parents) = names.split_last().expect("a path has a name");
            let shared = open.iter().zip(parents).take_while(|(one, other)| one == other).count();
            for closed in open.drain(shared..).rev() {
                sheet += &format!("</{}>", closed);
            }
            for parent in &parents[shared..] {
                sheet += &format!("<{}>", parent);
                open.push(parent);
            }
            let currency = leaf.currency.as_ref().map_or(String::new(), |letters| format!(" Ccy=\"{}\"", letters));
            sheet += &format!("<{}{}>{}</{}>", name, currency, leaf.text, name);
        }
        for closed in open.iter().rev() {
            sheet += &format!("</{}>", closed);
        }
        sheet += &format!("</{}>{}</{}>", self.body, self.tail, self.outer.split(' ').next().unwrap_or(""));
        sheet.into_bytes()
    }
}

/// The text of an identifier that a room keeps.
pub fn stored_text(numbers: &[u64]) -> String {
    let bytes = numbers.iter().flat_map(|number| number.to_be_bytes()).filter(|byte| *byte != 0);
    bytes.map(char::from).collect()
}

const DIGITS_AND_CAPITALS: &[u8] = b"0123456789ABCDEFGHIJKLMNOPQRSTUVWXYZ";

/// So many digits or capitals.
pub fn capitals(dice: &mut Dice, count: usize) -> String {
    (0..count).map(|_| dice.pick(DIGITS_AND_CAPITALS) as char).collect()
}

/// A good message identifier, or one that differs in its date alone.
pub fn identifier(dice: &mut Dice, code: u64, date: u64) -> String {
    format!("{:06}{:08}{}", code, date, capitals(dice, 8))
}

pub fn uetr(dice: &mut Dice) -> String {
    let high = dice.number();
    let low = dice.number();
    let variant = 8 + (low >> 60) % 4;
    format!(
        "{:08x}-{:04x}-4{:03x}-{:x}{:03x}-{:012x}",
        high >> 32,
        high >> 16 & 0xffff,
        high & 0xfff,
        variant,
        low >> 48 & 0xfff,
        low & 0xffff_ffff_ffff
    )
}

pub fn amount(kopecks: u64) -> String {
    format!("{}.{:02}", kopecks / 100, kopecks % 100)
}

/// A time of a day, yyyymmdd.
pub fn time(dice: &mut Dice, date: u64) -> String {
    let hour = dice.pick(&[0, 9, 12, 23]);
    let minute = dice.pick(&[0, 34, 59]);
    let second = dice.pick(&[0, 1, 56, 59]);
    let (year, month, day) = (date / 10_000, date / 100 % 100, date % 100);
    format!("{:04}-{:02}-{:02}T{:02}:{:02}:{:02}", year, month, day, hour, minute, second)
}

/// An IBAN whose remainder is 1.
pub fn iban(dice: &mut Dice) -> String {
    let mut rest = format!("{:06}", dice.below(1_000_000));
    rest += &if dice.chance(70) { format!("{:019}", dice.number() % 10u64.pow(18)) } else { capitals(dice, 19) };
    let digits = 98 - iban_remainder(format!("UA00{}", rest).as_bytes());
    format!("UA{:02}{}", digits, rest)
}

pub fn account(digit: u64, code: u64, currency: &str) -> String {
    format!("{}{:06}{}", digit, code, currency)
}

/// An end-to-end identifier: any text bytes, 1 to 35 of them.
pub fn reference(dice: &mut Dice) -> String {
    match dice.below(5) {
        0 => "NOTPROVIDED".to_string(),
        1 => capitals(dice, 35),
        2 => dice.pick(&["x", " ", "~", "a b", "\"'=/;", "0", "-", " x "]).to_string(),
        _ => {
            let count = 1 + dice.place(20);
            capitals(dice, count)
        }
    }
}

/// Texts that the shape of a field does not have, by the field's path.
pub fn ill_shaped(dice: &mut Dice, path: &str) -> String {
    let name = path.rsplit('/').next().unwrap_or("");
    let texts: &[&str] = match name {
        "CreDtTm" | "OrgnlCreDtTm" => &BAD_TIMES,
        "MmbId" => &["30000", "3000010", "30000a", " 30000", "+30000", "......"],
        "Prtry" => &["sep", "SEPA", "SE", "ASp", "UAH", "SEP ", " ASP"],
        "UETR" | "OrgnlUETR" => &BAD_UETRS,
        "IntrBkSttlmAmt" | "TrfdAmt" => &BAD_AMOUNTS,
        "IBAN" => &BAD_IBANS,
        "Id" => {
            &["130001UAH", "13000011UAH", "a300001UAH", "1300001uah", "1300001UA1", "1300001UAHH", "130000AUAH", "1"]
        }
        "OrgnlMsgNmId" => {
            &["pacs.009.001.08", "pacs.00", "Pacs.008", " pacs.008", "pacs.008aaaaaaaaaaaaaaaaaaaaaaaaaaaa", "x"]
        }
        "GrpSts" => &["ACCC", "ACSP", "accp", "ACCP ", " RJCT", "ACC", "RJCTX", "Rjct", "PDNG"],
        "TxSts" => &["ACCP", "ACCP", "rjct", "RJCT ", "RJC", "RJCTX", "PDNG"],
        _ => &["123456789012345678901234567890123456", "x                                  x"],
    };
    dice.pick(texts).to_string()
}

const BAD_TIMES: [&str; 18] = [
    "2024-02-30T10:00:00",
    "2023-02-29T10:00:00",
    "2024-04-31T10:00:00",
    "2024-13-01T10:00:00",
    "2024-00-10T10:00:00",
    "2024-03-00T10:00:00",
    "2024-03-01T24:00:00",
    "2024-03-01T10:60:00",
    "2024-03-01T10:00:60",
    "1999-12-31T10:00:00",
    "2100-01-01T10:00:00",
    "2024-03-01 10:00:00",
    "2024-03-01T10:00:00Z",
    "2024-03-01T10:00:0",
    "2024-03-01T10:00",
    "2024/03/01T10:00:00",
    "2024-03-01T10.00.00",
    "2024-03-01T1a:00:00",
];

const BAD_UETRS: [&str; 12] = [
    "9e3779b9-7f4a-5c15-939c-d1ed1c3b2a75",
    "9e3779b9-7f4a-4c15-c39c-d1ed1c3b2a75",
    "9e3779b9-7f4a-4c15-739c-d1ed1c3b2a75",
    "9E3779b9-7f4a-4c15-939c-d1ed1c3b2a75",
    "9e3779g9-7f4a-4c15-939c-d1ed1c3b2a75",
    "9e3779b97f4a-4c15-939c-d1ed1c3b2a755",
    "9e3779b9-7f4a-4c15-939c-d1ed1c3b2a7",
    "9e3779b9-7f4a-4c15-939c-d1ed1c3b2a755",
    "9e3779b97f4a4c15939cd1ed1c3b2a75",
    "9e3779b9-7f4a-4c15-939c_d1ed1c3b2a75",
    "9e3779b9 7f4a 4c15 939c d1ed1c3b2a75",
    "9e3779b9-7f4a-4c15-939c-d1ed1c3b2a7A",
];

const BAD_AMOUNTS: [&str; 16] = [
    "0.00",
    "00.01",
    "01.00",
    "1.0",
    "1.000",
    "1",
    ".50",
    "1,00",
    "123456789012.00",
    "-1.00",
    "100000000000.00",
    "+1.00",
    "1.-1",
    "1a.00",
    "1..0",
    " 1.00",
];

const BAD_IBANS: [&str; 7] = [
    "UA21322313000002600723356600",
    "UA2132231300000260072335660011",
    "UB213223130000026007233566001",
    "UA21322313a000026007233566001",
    "UAA13223130000026007233566001",
    "ua213223130000026007233566001",
    "UA21322A130000026007233566001",
];
