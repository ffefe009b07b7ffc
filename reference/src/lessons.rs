//! Lessons by chance: a script in the drill program's language from a seed. The maker plays each line as it writes it,
//! so that it knows the room and can send messages that mean something there.

mod accounts;
mod answers;
mod attempts;
mod damage;
mod dice;
mod drafts;
mod journals;
mod limits;
mod money;
mod pokes;
mod posts;
mod seats;
mod slips;
mod spoils;

use crate::directory::{self, Record};
use crate::room::{self, OPENED, OPENING, ROOM_LONG, SEATS, STEPS, SUM_MOST};
use crate::script::Player;
use dice::Dice;
use drafts::Draft;

/// Seeds so far apart have the same turn; it is more than any number of turns.
const TURNS: u64 = 1 << 32;

/// A lesson ends before it has so many bytes.
const BYTES_MOST: usize = 480_000;

/// Numbers at and beyond the limits of documents 01 and 02.
const EDGES: [u64; 18] =
    [0, 1, 2, 3, 11, 12, 24, 25, 31, 32, 65_535, 65_536, 999_999, 1_000_000, SUM_MOST, SUM_MOST + 1, 1 << 63, u64::MAX];

/// What a lesson does next, by weight.
const ACTIONS: [fn(&mut Maker); 19] = [
    Maker::follow_transfer,
    Maker::send_pairs,
    Maker::send_on,
    Maker::send_valid,
    Maker::send_spoiled,
    Maker::send_faulty,
    Maker::send_damaged,
    Maker::send_again,
    Maker::send_with_bad_numbers,
    Maker::set_account,
    Maker::take_back,
    Maker::read_account,
    Maker::open_or_close,
    Maker::use_wrong_ticket,
    Maker::use_slip,
    Maker::poke,
    Maker::use_unfit_directory,
    Maker::lay_or_change,
    Maker::show,
];

/// The weights of a theme: a bit of all, one full journal, sheets, rooms and tickets, money, transfers and their answers.
const THEMES: [[u64; 19]; 6] = [
    [5, 0, 1, 18, 28, 7, 7, 5, 3, 6, 6, 5, 5, 6, 7, 13, 4, 3, 4],
    [5, 2, 1, 24, 44, 2, 2, 6, 4, 4, 2, 4, 0, 3, 3, 10, 2, 0, 3],
    [1, 0, 0, 9, 9, 34, 37, 3, 2, 2, 2, 1, 2, 1, 5, 1, 1, 1, 2],
    [3, 0, 1, 12, 10, 2, 2, 3, 5, 6, 5, 5, 9, 13, 14, 44, 9, 5, 3],
    [7, 1, 5, 16, 34, 1, 1, 5, 1, 12, 10, 6, 2, 1, 2, 10, 1, 0, 3],
    [13, 1, 2, 10, 28, 4, 1, 4, 1, 3, 6, 3, 1, 1, 4, 27, 1, 3, 6],
];
const THEME_WEIGHTS: [u64; 6] = [28, 14, 16, 15, 12, 15];
const FULL_JOURNAL: usize = 1;
/// So many lessons in a hundred begin with all seats open, as a full class has them.
const CLASS_PERCENT: u64 = 6;

/// The days on which lessons take place.
const DAYS: [u64; 9] = [20240301, 20240301, 20240229, 20000101, 20991231, 20250101, 20230301, 20000229, 20260731];

/// A message that became a step once.
struct Sent {
    seat: u64,
    draft: Draft,
}

/// An account whose settings may stand in the way of later messages.
struct Touched {
    seat: u64,
    owner: u64,
    number: u64,
}

pub struct Maker {
    dice: Dice,
    player: Player,
    script: Vec<u8>,
    date: u64,
    /// The directory to come back to.
    good: Vec<Record>,
    sent: Vec<Sent>,
    touched: Vec<Touched>,
}

/// The lesson of a seed, of about so many calls. It begins with an empty directory and a room laid out.
pub fn lesson(seed: u64, calls: u64) -> Vec<u8> {
    let mut dice = Dice::new(seed);
    let theme = dice.weighed(&THEME_WEIGHTS);
    let seats = match theme {
        FULL_JOURNAL => 1,
        _ if dice.chance(CLASS_PERCENT) => SEATS,
        _ => 1 + dice.place(3),
    };
    let date = dice.pick(&DAYS);
    let mut maker = Maker {
        dice,
        player: Player::new(),
        script: Vec::new(),
        date,
        good: Vec::new(),
        sent: Vec::new(),
        touched: Vec::new(),
    };
    maker.start(seats);
    maker.use_slips_in_turn(seed % TURNS);
    while maker.player.tally.calls < calls && maker.script.len() < BYTES_MOST {
        maker.mend();
        let action = ACTIONS[maker.dice.weighed(&THEMES[theme])];
        action(&mut maker);
    }
    maker.script
}

impl Maker {
    /// Writes a line and plays it; true where the answer is 0.
    fn bytes(&mut self, line: &[u8]) -> bool {
        let mut out = Vec::new();
        self.script.extend_from_slice(line);
        self.script.push(b'\n');
        self.player.play_line(line, &mut out);
        out.windows(6).any(|part| part == b" -> 0 ")
    }

    fn line(&mut self, line: &str) -> bool {
        self.bytes(line.as_bytes())
    }

    fn seat(&self, number: u64) -> &[u64] {
        room::seat(self.player.room(), number as usize)
    }

    fn open_seats(&self) -> Vec<u64> {
        (0..SEATS as u64).filter(|number| self.seat(*number)[OPENED] == 1).collect()
    }

    /// An open seat; one is opened where there is none.
    fn some_seat(&mut self) -> u64 {
        if self.open_seats().is_empty() {
            let number = self.dice.below(SEATS as u64);
            self.open(number);
        }
        match self.open_seats() {
            open if open.is_empty() => 0,
            open => self.dice.pick(&open),
        }
    }

    fn ticket(&mut self) -> (u64, u64) {
        let number = self.some_seat();
        (number, self.seat(number)[OPENING])
    }

    fn start(&mut self, seats: usize) {
        self.line("forget");
        self.lay();
        self.good = self.new_directory();
        self.write_directory(&self.good.clone());
        let mut numbers: Vec<u64> = (0..SEATS as u64).collect();
        self.dice.shuffle(&mut numbers);
        for number in numbers.iter().take(seats) {
            self.open(*number);
        }
    }

    fn lay(&mut self) {
        self.line(&format!("lay {}", ROOM_LONG));
        self.sent.clear();
        self.touched.clear();
    }

    /// Makes room and directory fit again; now and then a full journal shorter, and an account free again.
    fn mend(&mut self) {
        if !directory::is_fit(&self.player.directory) {
            self.write_directory(&self.good.clone());
        }
        if !room::is_fit(self.player.room()) || self.dice.below(400) == 0 {
            self.lay();
        }
        let (number, opening) = self.ticket();
        if room::steps(self.seat(number)) == STEPS && self.dice.chance(45) {
            for _ in 0..self.dice.between(1, 7) {
                self.line(&format!("back {} {}", number, opening));
            }
        }
        if !self.touched.is_empty() && self.dice.chance(25) {
            let Touched { seat, owner, number } = self.touched.remove(0);
            self.free_account(seat, owner, number);
        }
    }
}
