//! Plays a script in the drill program's language and writes the lines that program prints. A line is a word and
//! numbers; behind a call stand ` ->`, the answer's number, its detail and its values, and for a slip its buffer.

use std::collections::BTreeMap;

use crate::calls::{self, AccountName, Refusal, Sent, Settings, Ticket};
use crate::checks::{self, Case, CHECKS};
use crate::directory::{self, Kind, Record};
use crate::message;
use crate::room::{self, ACCOUNTS, ACCOUNT_LONG, ROOM_LONG, SEATS};
use crate::sheet::Sheet;
use crate::slip::{Slip, SLIP_LONG};

/// Numbers kept behind the room, so that rooms that are too long can be lent.
const BEHIND: usize = 16;
/// A line has at most a seat and the sums of 17 records.
const NUMBERS_MOST: usize = 35;
/// A slip's buffer has at most 8 bytes, each 170 before the call.
const BUFFER_MOST: u64 = 8;
pub const BUFFER_BYTE: u8 = 170;

/// How often a slip had a kind, a status and a check.
pub type Triples = BTreeMap<[u64; 3], u64>;

/// How often each answer was given; how often each check was the one answered; how often `rows` listed it; how often each
/// triple stood on the slip of a submit, was written and was read.
#[derive(Clone)]
pub struct Tally {
    pub calls: u64,
    pub answers: [u64; 13],
    pub answered: [u64; CHECKS + 1],
    pub listed: [u64; CHECKS + 1],
    pub submitted: Triples,
    pub written: Triples,
    pub read: Triples,
}

impl Tally {
    pub fn new() -> Tally {
        Tally {
            calls: 0,
            answers: [0; 13],
            answered: [0; CHECKS + 1],
            listed: [0; CHECKS + 1],
            submitted: Triples::new(),
            written: Triples::new(),
            read: Triples::new(),
        }
    }
}

fn count(triples: &mut Triples, slip: &Slip) {
    *triples.entry([slip.kind, slip.status, slip.check]).or_insert(0) += 1;
}

/// One room with one directory, and what has come up so far.
pub struct Player {
    store: Vec<u64>,
    lent: usize,
    pub directory: Vec<Record>,
    pub tally: Tally,
}

/// The words of a line; a number that is not there is 0.
struct Line<'a> {
    bytes: &'a [u8],
    words: Vec<&'a [u8]>,
    numbers: Vec<u64>,
}

/// The number that digits write, or the highest one. What is no digit changes nothing.
fn number(word: &[u8]) -> u64 {
    word.iter()
        .filter(|byte| byte.is_ascii_digit())
        .fold(0u64, |number, byte| number.saturating_mul(10).saturating_add(u64::from(byte - b'0')))
}

impl<'a> Line<'a> {
    fn new(bytes: &'a [u8]) -> Line<'a> {
        let mut words: Vec<&[u8]> = bytes.split(|byte| *byte == b' ').take(NUMBERS_MOST + 1).collect();
        if words.len() > 1 && words.last().map_or(false, |word| word.is_empty()) {
            words.pop();
        }
        let numbers = words[1..].iter().map(|word| number(word)).collect();
        Line { bytes, words, numbers }
    }

    fn number(&self, at: usize) -> u64 {
        self.numbers.get(at).copied().unwrap_or(0)
    }

    fn ticket(&self) -> Ticket {
        Ticket { seat: self.number(0), opening: self.number(1) }
    }

    fn account(&self) -> AccountName {
        AccountName { owner: self.number(2), number: self.number(3) }
    }

    /// The line up to a word, and what stands behind the space that follows.
    fn parted(&self, words: usize) -> (&'a [u8], &'a [u8]) {
        let mut spaces = self.bytes.iter().enumerate().filter(|(_, byte)| **byte == b' ');
        match spaces.nth(words - 1) {
            Some((space, _)) => (&self.bytes[..space], &self.bytes[space + 1..]),
            None => (self.bytes, b""),
        }
    }
}

fn put_numbers(out: &mut Vec<u8>, numbers: &[u64]) {
    for number in numbers {
        out.extend_from_slice(format!(" {}", number).as_bytes());
    }
}

fn put_slip(out: &mut Vec<u8>, buffer: &[u8]) {
    out.extend_from_slice(b" slip ");
    for byte in buffer {
        out.extend_from_slice(format!("{:02x}", byte).as_bytes());
    }
}

/// The bytes that pairs of hexadecimal digits write; none where they write none.
fn bytes_of(word: &[u8]) -> Vec<u8> {
    let digit = |byte: u8| (byte as char).to_digit(16).map(|digit| digit as u8);
    let pairs: Option<Vec<u8>> =
        word.chunks(2).map(|pair| Some(digit(pair[0])? << 4 | digit(*pair.get(1)?)?)).collect();
    pairs.unwrap_or_default()
}

fn buffer_of(long: u64) -> Vec<u8> {
    vec![BUFFER_BYTE; long.min(BUFFER_MOST) as usize]
}

impl Player {
    pub fn new() -> Player {
        Player { store: vec![0; ROOM_LONG + BEHIND], lent: ROOM_LONG, directory: Vec::new(), tally: Tally::new() }
    }

    /// The room as it stands, whatever part of it is lent.
    pub fn room(&self) -> &[u64] {
        &self.store[..ROOM_LONG]
    }

    /// Plays a whole script.
    pub fn play(&mut self, script: &[u8]) -> Vec<u8> {
        let mut out = Vec::new();
        for line in lines(script) {
            self.play_line(line, &mut out);
        }
        out
    }

    /// Plays a line and writes what it gives.
    pub fn play_line(&mut self, bytes: &[u8], out: &mut Vec<u8>) {
        let line = Line::new(bytes);
        match line.words[0] {
            b"submit" => self.submit(&line, out),
            b"rows" => self.rows(&line, out),
            word => {
                out.extend_from_slice(bytes);
                match word {
                    b"lay" => self.lay(&line, out),
                    b"open" => self.open(&line, out),
                    b"close" => self.close(&line, out),
                    b"back" => self.back(&line, out),
                    b"read" => self.read(&line, out),
                    b"set" => self.set(&line, out),
                    b"write" => self.write(&line, out),
                    b"slip" => self.slip(&line, out),
                    b"dump" => self.dump(&line, out),
                    _ => self.other(word, &line),
                }
            }
        }
        out.push(b'\n');
    }

    /// Lines that are no calls.
    fn other(&mut self, word: &[u8], line: &Line) {
        match word {
            b"forget" => self.directory.clear(),
            b"record" => self.record(line),
            b"poke" => {
                let place = line.number(0);
                if place < self.store.len() as u64 {
                    self.store[place as usize] = line.number(1);
                }
            }
            _ => {}
        }
    }

    fn record(&mut self, line: &Line) {
        let named = line.number(3);
        let kind = match line.number(2) {
            1 => Kind::Direct(named),
            2 => Kind::Indirect(named),
            3 => Kind::Provider(named),
            _ => Kind::Owner,
        };
        if self.directory.len() <= directory::RECORDS_MOST {
            self.directory.push(Record { code: line.number(0), instant: line.number(1) == 1, kind });
        }
    }

    /// The answer's number, its detail, and its values or as many zeros.
    fn answer<const N: usize>(&mut self, answer: Result<[u64; N], Refusal>, out: &mut Vec<u8>) {
        let (number, detail, values) = match answer {
            Ok(values) => (0, 0, values),
            Err(refusal) => (refusal.number(), refusal.detail(), [0; N]),
        };
        self.tally.calls += 1;
        self.tally.answers[number as usize] += 1;
        out.extend_from_slice(b" ->");
        put_numbers(out, &[number, detail]);
        put_numbers(out, &values);
    }

    fn lay(&mut self, line: &Line, out: &mut Vec<u8>) {
        self.lent = line.number(0).min(self.store.len() as u64) as usize;
        let answer = calls::lay_out(&mut self.store[..self.lent]);
        self.answer(answer.map(|()| []), out);
    }

    fn open(&mut self, line: &Line, out: &mut Vec<u8>) {
        let sums = line.numbers.get(1..).unwrap_or(&[]);
        let answer = calls::open(&mut self.store[..self.lent], &self.directory, line.number(0), sums);
        self.answer(answer.map(|opening| [opening]), out);
    }

    fn close(&mut self, line: &Line, out: &mut Vec<u8>) {
        let answer = calls::close(&mut self.store[..self.lent], line.ticket());
        self.answer(answer.map(|()| []), out);
    }

    fn back(&mut self, line: &Line, out: &mut Vec<u8>) {
        let answer = calls::take_back(&mut self.store[..self.lent], line.ticket());
        self.answer(answer.map(|()| []), out);
    }

    fn read(&mut self, line: &Line, out: &mut Vec<u8>) {
        let room = &self.store[..self.lent];
        let answer = calls::read_account(room, &self.directory, line.ticket(), line.account());
        self.answer(answer, out);
    }

    fn set(&mut self, line: &Line, out: &mut Vec<u8>) {
        let is_none = line.words.get(8).map_or(false, |word| *word == b"-");
        let settings = Settings {
            out: line.number(4) == 1,
            into: line.number(5) == 1,
            ltk: line.number(6),
            lpo: if is_none { None } else { Some(line.number(7)) },
        };
        let room = &mut self.store[..self.lent];
        let answer = calls::set(room, &self.directory, line.ticket(), line.account(), settings);
        self.answer(answer.map(|()| []), out);
    }

    fn submit(&mut self, line: &Line, out: &mut Vec<u8>) {
        let (shown, sheet) = line.parted(6);
        out.extend_from_slice(shown);
        let mut buffer = buffer_of(line.number(4));
        let sent = Sent { sender: line.number(2), date: line.number(3), sheet };
        let room = &mut self.store[..self.lent];
        let answer = calls::submit(room, &self.directory, line.ticket(), sent, &mut buffer);
        match answer {
            Ok(()) => {
                let slip = Slip::read(&buffer[..SLIP_LONG]).expect("a submit that is done writes a slip");
                self.tally.answered[slip.check as usize] += 1;
                count(&mut self.tally.submitted, &slip);
            }
            Err(Refusal::SenderRefused(check)) => self.tally.answered[check as usize] += 1,
            Err(_) => {}
        }
        self.answer(answer.map(|()| []), out);
        put_slip(out, &buffer);
    }

    fn write(&mut self, line: &Line, out: &mut Vec<u8>) {
        let mut buffer = buffer_of(line.number(6));
        let slip = Slip::new([0, 1, 2, 3, 4, 5].map(|at| line.number(at)));
        let answer = calls::write_slip(&slip, &mut buffer);
        if answer.is_ok() {
            count(&mut self.tally.written, &slip);
        }
        self.answer(answer.map(|()| []), out);
        put_slip(out, &buffer);
    }

    fn slip(&mut self, line: &Line, out: &mut Vec<u8>) {
        let bytes = line.words.get(1).map_or(Vec::new(), |word| bytes_of(word));
        let answer = calls::read_slip(&bytes);
        if let Ok(slip) = &answer {
            count(&mut self.tally.read, slip);
        }
        self.answer(answer.map(|slip| slip.values()), out);
    }

    /// Every check of its order that a message fails, each by itself, where there is a message.
    fn rows(&mut self, line: &Line, out: &mut Vec<u8>) {
        let (shown, bytes) = line.parted(4);
        out.extend_from_slice(shown);
        if line.number(0) >= SEATS as u64 || !directory::is_fit(&self.directory) {
            return;
        }
        let sheet = match Sheet::read(bytes) {
            Ok(sheet) => sheet,
            Err(_) => return,
        };
        if let Ok(message) = message::message(&sheet) {
            let seat = room::seat(&self.store, line.number(0) as usize);
            let (sender, date) = (line.number(1), line.number(2));
            let case = Case { directory: &self.directory, seat, sender, date, message: &message };
            out.extend_from_slice(b" ->");
            for check in checks::order(&message).iter().filter(|check| case.fails(**check)) {
                self.tally.listed[*check as usize] += 1;
                put_numbers(out, &[*check]);
            }
        }
    }

    /// The head of a seat, its accounts that are not all zeros, and its steps.
    fn dump(&mut self, line: &Line, out: &mut Vec<u8>) {
        if line.number(0) >= SEATS as u64 {
            return;
        }
        let seat = room::seat(&self.store, line.number(0) as usize);
        out.extend_from_slice(b"\nhead");
        put_numbers(out, &seat[..room::HEAD_LONG]);
        for number in 0..ACCOUNTS {
            let account = room::account(seat, number);
            if *account != [0; ACCOUNT_LONG] {
                out.extend_from_slice(b"\naccount");
                put_numbers(out, &[number as u64]);
                put_numbers(out, account);
            }
        }
        for (k, step) in room::journal(seat).enumerate() {
            out.extend_from_slice(b"\nstep");
            put_numbers(out, &[k as u64 + 1]);
            put_numbers(out, step);
        }
    }
}

/// The lines of a text; a line feed at its end opens no further line.
pub fn lines(text: &[u8]) -> impl Iterator<Item = &[u8]> {
    let whole = text.strip_suffix(b"\n").unwrap_or(text);
    let count = if text.is_empty() { 0 } else { usize::MAX };
    whole.split(|byte| *byte == b'\n').take(count)
}
