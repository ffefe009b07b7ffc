//! What is played: a directory, sheets of the four kinds, and the steps of a journal.

use reference::directory::{Kind, Record};

/// The day of every call.
pub const DATE: u64 = 20_251_114;

// ---- The directory: as many records as it may have ----

pub const BANK: u64 = 300_001;
pub const OTHER_BANK: u64 = 300_002;
const THIRD_BANK: u64 = 300_003;
const BRANCH: u64 = 310_001;
const PROVIDER: u64 = 900_002;

/// Code, instant flag, kind (0 owner, 1 direct branch, 2 indirect branch, 3 provider), the owner it names or 0.
pub const DIRECTORY: [[u64; 4]; 16] = [
    [BANK, 1, 0, 0],
    [OTHER_BANK, 1, 0, 0],
    [THIRD_BANK, 1, 0, 0],
    [300_004, 1, 0, 0],
    [300_005, 0, 0, 0],
    [300_006, 1, 0, 0],
    [BRANCH, 1, 1, BANK],
    [310_002, 1, 1, OTHER_BANK],
    [320_001, 1, 2, BANK],
    [320_002, 1, 2, OTHER_BANK],
    [320_003, 0, 2, THIRD_BANK],
    [900_001, 1, 3, BANK],
    [PROVIDER, 1, 3, OTHER_BANK],
    [900_003, 1, 3, THIRD_BANK],
    [900_004, 0, 3, 300_004],
    [900_005, 1, 3, BANK],
];

const SUM: u64 = 500_000_000;

/// The same directory as each side takes it, and the opening sums.
pub struct School {
    pub numbers: Vec<u64>,
    pub records: Vec<Record>,
    pub sums: Vec<u64>,
}

impl School {
    pub fn new() -> School {
        let records = DIRECTORY.iter().map(|&[code, instant, kind, named]| Record {
            code,
            instant: instant == 1,
            kind: [Kind::Owner, Kind::Direct(named), Kind::Indirect(named), Kind::Provider(named)][kind as usize],
        });
        let sums = DIRECTORY.iter().flat_map(|record| if record[2] == 0 { [SUM, SUM] } else { [0, 0] });
        School { numbers: DIRECTORY.concat(), records: records.collect(), sums: sums.collect() }
    }
}

// ---- The sheets ----

fn element(name: &str, content: &str) -> String {
    format!("<{}>{}</{}>", name, content, name)
}

fn agent(name: &str, list: &str, code: u64) -> String {
    let listed = if list.is_empty() { String::new() } else { element("ClrSysId", &element("Prtry", list)) };
    let member = element("MmbId", &format!("{:06}", code));
    element(name, &element("FinInstnId", &element("ClrSysMmbId", &(listed + &member))))
}

fn iban(name: &str, number: &str) -> String {
    element(name, &element("Id", &element("IBAN", number)))
}

fn identifier(sender: u64, number: u64) -> String {
    format!("{:06}{:08}{:08}", sender, DATE, number)
}

fn uetr(number: u64) -> String {
    format!("7a562c67-ca16-48ba-b074-{:012x}", number)
}

fn reference_text(number: u64) -> String {
    format!("INVOICE-2025-{:06}-PART-2", number)
}

fn amount(name: &str, kopecks: u64) -> String {
    format!("<{} Ccy=\"UAH\">{}.{:02}</{}>", name, kopecks / 100, kopecks % 100, name)
}

const CREATED: &str = "2025-11-14T10:15:30";

fn header(name: &str, sender: u64, number: u64, agents: &str) -> String {
    element(name, &(element("MsgId", &identifier(sender, number)) + &element("CreDtTm", CREATED) + agents))
}

/// A pacs.008 as a clerk would send it, for an account with a bank or, under `ASP`, with a provider that the bank serves.
pub fn payment(number: u64, from: u64, to: u64, creditor: (&str, u64), kopecks: u64) -> String {
    let agents = agent("InstgAgt", "", from) + &agent("InstdAgt", "", to);
    let names = element("EndToEndId", &reference_text(number)) + &element("UETR", &uetr(number));
    let transfer = element("PmtId", &names)
        + &amount("IntrBkSttlmAmt", kopecks)
        + &element("Dbtr", &element("Nm", "Kyiv Bakery Works, limited liability company, Podil"))
        + &iban("DbtrAcct", "UA663000010000026007233566001")
        + &agent("DbtrAgt", "SEP", from)
        + &agent("CdtrAgt", creditor.0, creditor.1)
        + &element("Cdtr", &element("Nm", "Lviv Flour Mill and Trading House, joint stock company"))
        + &iban("CdtrAcct", "UA723000020000026003012345678");
    let body = header("GrpHdr", from, number, &agents) + &element("CdtTrfTxInf", &transfer);
    element("Document", &element("FIToFICstmrCdtTrf", &body))
}

/// A camt.050 between accounts that the first digits name.
pub fn liquidity(number: u64, owner: u64, digits: (u64, u64), kopecks: u64) -> String {
    let account = |name, digit| element(name, &element("Id", &element("Othr", &element("Id", &format!("{}{:06}UAH", digit, owner)))));
    let transfer =
        element("UETR", &uetr(number)) + &amount("TrfdAmt", kopecks) + &account("DbtrAcct", digits.0) + &account("CdtrAcct", digits.1);
    let body = header("MsgHdr", owner, number, "") + &element("LqdyCdtTrf", &element("LqdyTrfId", &transfer));
    element("Document", &element("LqdyCdtTrf", &body))
}

/// A pacs.028 that asks what became of a pacs.008.
pub fn request(number: u64, sender: u64, original: u64) -> String {
    let group = element("OrgnlMsgId", &identifier(sender, original))
        + &element("OrgnlMsgNmId", "pacs.008.001.08")
        + &element("OrgnlCreDtTm", CREATED);
    let transfer =
        element("OrgnlGrpInf", &group) + &element("OrgnlEndToEndId", &reference_text(original)) + &element("OrgnlUETR", &uetr(original));
    let body = header("GrpHdr", sender, number, &agent("InstgAgt", "", sender)) + &element("TxInf", &transfer);
    element("Document", &element("FIToFIPmtStsReq", &body))
}

/// A pacs.002 by which the receiver of a pacs.008 accepts it.
pub fn acceptance(number: u64, receiver: u64, sender: u64, original: u64) -> String {
    let group = element("OrgnlMsgId", &identifier(sender, original)) + &element("GrpSts", "ACCP");
    let body = header("GrpHdr", receiver, number, "") + &element("OrgnlGrpInfAndSts", &group);
    element("Document", &element("FIToFIPmtStsRpt", &body))
}

// ---- The journals: the same twelve steps over and over ----

pub enum Step {
    Message { sender: u64, sheet: String },
    Set { owner: u64, account: u64, ltk: u64, limit: Option<u64> },
}

pub const PATTERN: u64 = 12;

// Two pacs.008 of the pattern, as steps counted from 1.
/// From `OTHER_BANK` to `BANK`: it waits, and gets no answer.
pub const UNANSWERED: u64 = 3;
/// From `BANK`: the step after it settles it.
pub const SETTLED: u64 = 9;

fn message(sender: u64, sheet: String) -> Step {
    Step::Message { sender, sheet }
}

/// The step with a number, counted from 1. Every message of a journal has a number of its own.
pub fn step(number: u64) -> Step {
    let back = |steps| number - steps;
    match (number - 1) % PATTERN {
        0 => message(BANK, payment(number, BANK, OTHER_BANK, ("SEP", OTHER_BANK), 900_000_000)), // more than there is
        1 => message(BANK, liquidity(number, BANK, (1, 2), 1_000_000)),
        2 => message(OTHER_BANK, payment(number, OTHER_BANK, BANK, ("SEP", BANK), 40_000)), // unanswered
        3 => message(OTHER_BANK, acceptance(number, OTHER_BANK, BANK, back(3))),
        4 => Step::Set { owner: THIRD_BANK, account: 2, ltk: 10_000, limit: None },
        5 => message(BRANCH, request(number, BRANCH, 999_999)), // about what was never sent
        6 => message(BANK, payment(number, BANK, THIRD_BANK, ("SEP", THIRD_BANK), 7_250)), // unanswered
        7 => message(BANK, liquidity(number, BANK, (1, 1), 1_000_000)), // to the account that it comes from
        8 => message(BANK, payment(number, BANK, OTHER_BANK, ("ASP", PROVIDER), 65_000)),
        9 => message(OTHER_BANK, acceptance(number, OTHER_BANK, BANK, back(1))),
        10 => Step::Set { owner: BANK, account: 2, ltk: 10_000, limit: Some(400_000_000) },
        _ => message(BANK, request(number, BANK, back(3))),
    }
}

/// Kind, status and check of the twelve steps, as a room keeps them: 1 pacs.008, 2 camt.050, 3 pacs.028, 4 pacs.002, 5 a set; 0 PDNG,
/// 1 ACCC, 2 RJCT, 3 waits. An answer leaves the row of its pacs.008 as it is, and a set has no status.
pub const PATTERN_GIVES: [[u64; 3]; PATTERN as usize] = [
    [1, 3, 0],
    [2, 1, 0],
    [1, 3, 0],
    [4, 2, 22],
    [5, 0, 0],
    [3, 0, 10],
    [1, 3, 0],
    [2, 2, 15],
    [1, 3, 0],
    [4, 1, 0],
    [5, 0, 0],
    [3, 1, 0],
];
