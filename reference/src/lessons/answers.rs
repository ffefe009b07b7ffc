//! Transfers that wait and what is said to them: by the right bank and by others, once and again, with other steps and
//! another directory in between.

use super::attempts::{is_bank, Attempt};
use super::drafts::{self, Draft, Leaf, ANSWERED_ID, GROUP_STATUS, MSG_ID, TRANSFER_STATUS};
use super::{Maker, Sent};
use crate::directory::{self, Kind};
use crate::room::{self, ANSWER, OPENING, PAYMENT, REQUEST, STEPS};
use crate::slip::WAITS;

/// A transfer of a journal that waits or waited, with what it keeps.
#[derive(Clone)]
pub struct Transfer {
    pub number: u64,
    pub id: String,
    pub sender: u64,
    pub receiver: u64,
    pub debit: usize,
    pub credit: usize,
    pub amount: u64,
    pub waits: bool,
}

/// The check that an answer is meant to give: none for one that agrees.
pub const AGREES: u64 = 0;
pub const VERDICTS: [u64; 3] = [AGREES, 36, 37];

/// Elements that may stand in a pacs.002 and are ignored, such as a TxInfAndSts without a TxSts.
const BESIDE: [&str; 4] = [
    "TxInfAndSts/StsRsnInf/Rsn/Prtry",
    "TxInfAndSts/OrgnlTxId",
    "OrgnlGrpInfAndSts/StsRsnInf/AddtlInf",
    "OrgnlGrpInfAndSts/TxSts",
];

impl Maker {
    /// The transfers of a seat that passed their submit.
    pub(super) fn transfers(&self, seat: u64) -> Vec<Transfer> {
        let seat = self.seat(seat);
        room::numbered(seat)
            .filter(|(_, step)| step[room::STEP_KIND] == PAYMENT && step[room::STEP_STATUS] == WAITS)
            .map(|(number, step)| Transfer {
                number,
                id: drafts::stored_text(&step[room::STEP_ID]),
                sender: step[room::STEP_SENDER],
                receiver: step[room::STEP_RECEIVER],
                debit: step[room::STEP_DEBIT] as usize,
                credit: step[room::STEP_CREDIT] as usize,
                amount: step[room::STEP_AMOUNT],
                waits: room::waits(seat, number),
            })
            .collect()
    }

    fn some_transfer(&mut self, seat: u64, sort: impl Fn(&Transfer) -> bool) -> Option<Transfer> {
        let transfers: Vec<Transfer> = self.transfers(seat).into_iter().filter(|transfer| sort(transfer)).collect();
        match transfers.len() {
            0 => None,
            count => Some(transfers[self.dice.place(count)].clone()),
        }
    }

    pub(super) fn waiting(&mut self, seat: u64) -> Option<Transfer> {
        self.some_transfer(seat, |transfer| transfer.waits)
    }

    /// A transfer that waits for a bank that may answer.
    fn answerable(&mut self, seat: u64) -> Option<Transfer> {
        let banks: Vec<u64> =
            self.player.directory.iter().filter(|record| is_bank(record)).map(|record| record.code).collect();
        self.some_transfer(seat, |transfer| transfer.waits && banks.contains(&transfer.receiver))
    }

    /// The transfer that a pacs.002 answers if it is sent as it is.
    pub(super) fn answered_by(&self, attempt: &Attempt) -> Option<Transfer> {
        let id = attempt.draft.text(ANSWERED_ID);
        let fits = |transfer: &Transfer| transfer.waits && transfer.receiver == attempt.sender && transfer.id == id;
        self.transfers(attempt.seat).into_iter().find(fits)
    }

    pub(super) fn send_transfer(&mut self, seat: u64) -> bool {
        let attempt = self.valid_of(seat, PAYMENT);
        self.send(&attempt, attempt.draft.sheet())
    }

    /// An answer to a transfer that waits, by the bank that it waits for. Where none waits, one is mostly sent first.
    pub(super) fn answer(&mut self, seat: u64) -> (u64, Draft) {
        if self.answerable(seat).is_none() && self.dice.chance(85) {
            self.send_transfer(seat);
        }
        let (sender, id) = match (self.answerable(seat), self.some_transfer(seat, |_| true)) {
            (Some(transfer), _) | (None, Some(transfer)) => (transfer.receiver, transfer.id),
            (None, None) => {
                let code = self.any_code();
                (code, drafts::identifier(&mut self.dice, code, self.date))
            }
        };
        let verdict = VERDICTS[self.dice.weighed(&[60, 20, 20])];
        (sender, self.answer_about(sender, &id, verdict))
    }

    fn answer_about(&mut self, sender: u64, id: &str, verdict: u64) -> Draft {
        let texts = [
            drafts::identifier(&mut self.dice, sender, self.date),
            self.created(self.date),
            id.to_string(),
            "ACCP".to_string(),
        ];
        let mut draft = Draft::new(ANSWER, &texts);
        self.put_verdict(&mut draft, verdict);
        if self.dice.chance(15) {
            let path = self.dice.pick(&BESIDE).to_string();
            draft.leaves.push(Leaf { field: 0, path, text: "RJCT".to_string(), currency: None });
        }
        if self.dice.chance(12) {
            self.dice.shuffle(&mut draft.leaves);
        }
        draft
    }

    /// Makes an answer agree, or fail 36 or 37.
    pub(super) fn put_verdict(&mut self, draft: &mut Draft, verdict: u64) {
        draft.put(GROUP_STATUS, if verdict == AGREES { "ACCP" } else { "RJCT" });
        draft.remove(TRANSFER_STATUS);
        if verdict == 37 {
            draft.put(TRANSFER_STATUS, "RJCT");
        }
    }

    /// 35: an answer from a bank that the transfer does not wait for, or about another message.
    pub(super) fn spoil_answerer(&mut self, attempt: &mut Attempt) {
        if self.dice.chance(40) {
            let id = self.other_id(attempt);
            return attempt.draft.put(ANSWERED_ID, &id);
        }
        let own = self.answered_by(attempt).map_or(attempt.sender, |transfer| transfer.sender);
        attempt.sender = match self.dice.below(9) {
            0..=3 => self.kin(attempt.sender),
            4 => self.relative(attempt.sender),
            5 | 6 => own,
            7 => self.code(|record| record.instant && record.kind == Kind::Owner).unwrap_or(own),
            _ => self.any_code(),
        };
        if self.dice.chance(80) {
            let id = drafts::identifier(&mut self.dice, attempt.sender, attempt.date);
            attempt.draft.put(MSG_ID, &id);
        }
    }

    /// A bank that uses the same account: the head of a direct branch, or an instant direct branch of an owner.
    fn kin(&mut self, bank: u64) -> u64 {
        let head = directory::find(&self.player.directory, bank).and_then(|record| match record.kind {
            Kind::Direct(head) => Some(head),
            _ => None,
        });
        let branch = self.code(|record| record.instant && record.kind == Kind::Direct(bank));
        head.or(branch).unwrap_or(bank)
    }

    /// The MsgId of a transfer that was answered, or that waits for another bank, or of any other step; or a MsgId that
    /// is nearly the right one.
    fn other_id(&mut self, attempt: &Attempt) -> String {
        let id = attempt.draft.text(ANSWERED_ID).to_string();
        let sender = attempt.sender;
        let answered = self.some_transfer(attempt.seat, |transfer| !transfer.waits && transfer.receiver == sender);
        let elsewhere = self.some_transfer(attempt.seat, |transfer| transfer.receiver != sender);
        let steps = room::journal(self.seat(attempt.seat)).filter(|step| step[room::STEP_KIND] <= ANSWER);
        let ids: Vec<String> = steps.map(|step| drafts::stored_text(&step[room::STEP_ID])).collect();
        match (self.dice.below(8), answered, elsewhere) {
            (0 | 1, Some(transfer), _) | (2, _, Some(transfer)) => transfer.id,
            (3 | 4, _, _) if !ids.is_empty() => ids[self.dice.place(ids.len())].clone(),
            (5, _, _) => attempt.draft.text(MSG_ID).to_string(),
            (6, _, _) => id.get(1..).filter(|rest| !rest.is_empty()).unwrap_or("x").to_string(),
            _ => id + self.dice.pick(&["0", " ", "x"]),
        }
    }

    /// An answer to a transfer by the bank that it waits for.
    pub(super) fn answer_for(&mut self, seat: u64, transfer: &Transfer, verdict: u64) -> Attempt {
        let draft = self.answer_about(transfer.receiver, &transfer.id, verdict);
        let opening = self.seat(seat)[OPENING];
        self.attempt(seat, opening, transfer.receiver, draft)
    }

    pub(super) fn send_answer(&mut self, seat: u64, transfer: &Transfer, verdict: u64) {
        let attempt = self.answer_for(seat, transfer, verdict);
        self.send(&attempt, attempt.draft.sheet());
    }

    /// A request about the transfer with an identifier that was sent in a seat.
    pub(super) fn request_for(&mut self, seat: u64, id: &str) -> Option<Attempt> {
        let is_it = |sent: &&Sent| sent.seat == seat && sent.draft.kind == PAYMENT && sent.draft.text(MSG_ID) == id;
        let asked = self.sent.iter().find(is_it)?.draft.clone();
        let (sender, draft) = self.request_about(&asked);
        let opening = self.seat(seat)[OPENING];
        Some(self.attempt(seat, opening, sender, draft))
    }

    pub(super) fn ask(&mut self, seat: u64, id: &str) {
        let attempt = match self.request_for(seat, id) {
            Some(attempt) => attempt,
            None => self.valid_of(seat, REQUEST),
        };
        self.send(&attempt, attempt.draft.sheet());
    }

    /// A transfer from its submit to its answer and on, with what comes in between.
    pub(super) fn follow_transfer(&mut self) {
        let seat = self.some_seat();
        if self.dice.chance(70) {
            self.send_transfer(seat);
        }
        let transfer = match self.answerable(seat) {
            Some(transfer) => transfer,
            None => return,
        };
        for _ in 0..self.dice.below(3) {
            self.meanwhile(seat, &transfer);
        }
        if self.dice.chance(25) {
            self.ask(seat, &transfer.id);
        }
        self.make_way(seat, &transfer, 30);
        let verdict = VERDICTS[self.dice.weighed(&[70, 15, 15])];
        if self.dice.chance(45) {
            self.answer_by_other_directory(seat, &transfer, verdict);
        } else {
            self.send_answer(seat, &transfer, verdict);
        }
        match self.dice.below(6) {
            0 => self.ask(seat, &transfer.id),
            1 => self.send_answer(seat, &transfer, verdict),
            2 | 3 => self.answer_anew(seat, &transfer),
            _ => {}
        }
    }

    /// Takes steps back until a transfer waits again, and answers it once more.
    fn answer_anew(&mut self, seat: u64, transfer: &Transfer) {
        let opening = self.seat(seat)[OPENING];
        let back = format!("back {} {}", seat, opening);
        let is_answered =
            |seat: &[u64]| room::steps(seat) as u64 > transfer.number && !room::waits(seat, transfer.number);
        while is_answered(self.seat(seat)) && self.line(&back) {}
        if self.dice.chance(40) {
            self.ask(seat, &transfer.id);
        }
        let verdict = self.dice.pick(&VERDICTS);
        self.send_answer(seat, transfer, verdict);
        if self.dice.chance(60) {
            self.ask(seat, &transfer.id);
        }
    }

    /// An answer that comes with a directory in which the bank, or whoever stood at the places kept, is another or gone.
    fn answer_by_other_directory(&mut self, seat: u64, transfer: &Transfer, verdict: u64) {
        let records = self.varied_directory(transfer.receiver);
        self.write_directory(&records);
        if self.dice.chance(30) {
            self.meanwhile(seat, transfer);
        }
        self.send_answer(seat, transfer, verdict);
        if self.dice.chance(25) {
            self.ask(seat, &transfer.id);
        }
        if self.dice.chance(80) {
            self.write_directory(&self.good.clone());
        } else {
            self.good = records;
        }
    }

    /// Transfers and their answers, a few or as many as a journal takes: in turn, or first the ones and then the others.
    pub(super) fn send_pairs(&mut self) {
        let seat = self.some_seat();
        let pairs = if self.dice.chance(40) { STEPS as u64 / 2 } else { self.dice.between(2, 5) };
        let group = if self.dice.chance(50) { 1 } else { pairs };
        for _ in 0..pairs / group {
            self.send_group(seat, group);
        }
    }

    pub(super) fn send_group(&mut self, seat: u64, transfers: u64) {
        for _ in 0..transfers {
            self.send_transfer(seat);
        }
        let mut waiting: Vec<Transfer> = self.transfers(seat).into_iter().filter(|transfer| transfer.waits).collect();
        self.dice.shuffle(&mut waiting);
        for transfer in waiting {
            let verdict = VERDICTS[self.dice.weighed(&[80, 10, 10])];
            self.send_answer(seat, &transfer, verdict);
        }
    }
}
