//! A whole submit: the proved library of this repository and the second engine (`reference/`) on the same rooms, directory and sheets.
//! First both must give the same answer, room and slip in every row; then both are timed, in turns. See README.md beside this file.

mod lesson;
mod sides;

use lesson::{acceptance, liquidity, payment, request, School, BANK, DIRECTORY, OTHER_BANK, PATTERN, SETTLED, UNANSWERED};
use reference::room::{ANSWER, LIQUIDITY, PAYMENT, REQUEST, ROOM_LONG, SEATS, SEAT_LONG, STEPS};
use reference::slip::{Slip, ACCC, PDNG, RJCT, SLIP_LONG, WAITS};
use sides::{neither, ours, room_with, second, Call, Side, BUFFER_BYTE, OPENING};

/// Calls before the clock starts, so that a side finds its own code and data at hand.
const WARM_CALLS: usize = 2;

/// Seats that are open: one, as many as a room of document 01 has, and all.
const ONE_SEAT: usize = 1;
const EIGHT_SEATS: usize = 8;
const OPEN_SEATS: [usize; 3] = [ONE_SEAT, EIGHT_SEATS, SEATS];

/// Steps in each journal before the call: none, those of the pattern, and all but the last that there may be.
const ALL_BUT_ONE: u64 = STEPS as u64 - 1;
const STEPS_BEFORE: [u64; 3] = [0, PATTERN, ALL_BUT_ONE];

fn fail(why: &str) -> ! {
    eprintln!("submit: {}", why);
    std::process::exit(1);
}

// ---- The rows ----

/// What a call must come to on both sides.
enum Meant {
    /// The number of a refusal, and 256 times its detail.
    Refused(u64),
    /// A step: its kind, status and check.
    Taken([u64; 3]),
}

impl Meant {
    fn answer(&self) -> u64 {
        match self {
            Meant::Refused(answer) => *answer,
            Meant::Taken(_) => 0,
        }
    }
}

struct Row {
    what: String,
    steps: u64,
    seats: usize,
    call: Call,
    room: Vec<u64>,
    meant: Meant,
    times: usize,
    /// Nanoseconds of a call with the copying back before it, in each round: ours, the second engine's, and the copying alone.
    spent: [Vec<f64>; 3],
}

const MINE: usize = 0;
const OTHER: usize = 1;
const COPYING: usize = 2;
const SIDES: [Side; 3] = [ours, second, neither];

fn seats_in_words(seats: usize) -> String {
    format!("{} seat{}", seats, if seats == ONE_SEAT { "" } else { "s" })
}

impl Row {
    fn new(what: &str, steps: u64, seats: usize, call: Call, room: Vec<u64>, meant: Meant) -> Row {
        Row { what: what.to_string(), steps, seats, call, room, meant, times: 0, spent: [Vec::new(), Vec::new(), Vec::new()] }
    }

    fn name(&self) -> String {
        format!("{}, {} steps, {}", self.what, self.steps, seats_in_words(self.seats))
    }

    /// Whether a slip is that of the step meant; with a refusal no slip is written.
    fn is_slip(&self, slip: &[u8]) -> bool {
        match self.meant {
            Meant::Refused(_) => slip.iter().all(|byte| *byte == BUFFER_BYTE),
            Meant::Taken([kind, status, check]) => {
                let values = [kind, status, check, self.call.seat, self.call.opening, self.steps + 1];
                Slip::read(slip).map(|slip| slip.values()) == Some(values)
            }
        }
    }

    /// Nanoseconds of a call alone, in each round.
    fn alone(&self, side: usize) -> Vec<f64> {
        let copying = middle(&self.spent[COPYING]);
        self.spent[side].iter().map(|spent| spent - copying).collect()
    }
}

/// The number of the timed message: above those of the journal.
const TIMED: u64 = 500;

/// A timed message: its kind in words, and the kind, status and check of the step that it makes.
struct Timed {
    what: &'static str,
    sheet: String,
    gives: [u64; 3],
}

const KINDS: usize = 4;

/// The last pacs.008 of `BANK` that was settled, or one that was never sent where none was.
fn last_settled(steps: u64) -> u64 {
    SETTLED + steps.saturating_sub(SETTLED + 1) / PATTERN * PATTERN
}

/// The timed messages, one of each kind, all from `BANK`. The pacs.028 asks about the last transfer that was settled; the pacs.002 accepts
/// the first that waits for its sender.
fn timed(steps: u64) -> [Timed; KINDS] {
    let has = |number| steps >= number;
    let asked = if has(SETTLED + 1) { [REQUEST, ACCC, 0] } else { [REQUEST, PDNG, 10] };
    let answered = if has(UNANSWERED) { [ANSWER, ACCC, 0] } else { [ANSWER, RJCT, 35] };
    let transfer = payment(TIMED, BANK, OTHER_BANK, ("SEP", OTHER_BANK), 125_075);
    [
        Timed { what: "pacs.008", sheet: transfer, gives: [PAYMENT, WAITS, 0] },
        Timed { what: "camt.050", sheet: liquidity(TIMED, BANK, (1, 2), 1_000_000), gives: [LIQUIDITY, ACCC, 0] },
        Timed { what: "pacs.028", sheet: request(TIMED, BANK, last_settled(steps)), gives: asked },
        Timed { what: "pacs.002", sheet: acceptance(TIMED, BANK, OTHER_BANK, UNANSWERED), gives: answered },
    ]
}

/// The timed pacs.008: with any number of steps it is the same.
fn timed_payment() -> Timed {
    let [first, ..] = timed(0);
    first
}

fn call(sheet: &str) -> Call {
    Call { seat: 0, opening: OPENING, sender: BANK, sheet: sheet.as_bytes().to_vec() }
}

/// Whole submits of each kind, and the refusal of the one that finds the journal full.
fn whole_rows(school: &School) -> Vec<Row> {
    let mut rows = Vec::new();
    for kind in 0..KINDS {
        for steps in STEPS_BEFORE {
            for seats in OPEN_SEATS {
                let room = room_with(school, seats, steps);
                let message = &timed(steps)[kind];
                rows.push(Row::new(message.what, steps, seats, call(&message.sheet), room, Meant::Taken(message.gives)));
            }
        }
    }
    for seats in OPEN_SEATS {
        let room = room_with(school, seats, STEPS as u64);
        rows.push(Row::new("refused by 9", STEPS as u64, seats, call(&timed_payment().sheet), room, Meant::Refused(9)));
    }
    rows
}

/// Calls of the pacs.008 that stop on the way, each behind more work than the one before.
fn part_rows(school: &School) -> Vec<Row> {
    let mut rows = Vec::new();
    let Timed { sheet, gives, .. } = timed_payment();
    for (steps, seats) in [(0, ONE_SEAT), (ALL_BUT_ONE, EIGHT_SEATS), (ALL_BUT_ONE, SEATS)] {
        let room = room_with(school, seats, steps);
        let mut add = |what, change: &dyn Fn(&mut Call, &mut [u64]), meant| {
            let (mut call, mut room) = (call(&sheet), room.clone());
            change(&mut call, &mut room);
            rows.push(Row::new(what, steps, seats, call, room, meant));
        };
        add("refused by 1", &|_, room| room[ROOM_LONG - 1] = 1, Meant::Refused(1));
        add("refused by 3", &|call, _| call.opening = OPENING + 1, Meant::Refused(3));
        add("refused by 7", &|call, _| call.sheet.push(b'x'), Meant::Refused(7 + 256 * sheet.len() as u64));
        let last = sheet.replace("UA723", "ua723");
        add("refused by 8", &|call, _| call.sheet = last.as_bytes().to_vec(), Meant::Refused(8 + 256 * 14));
        add("refused by 12", &|call, _| call.sender = 999_999, Meant::Refused(12 + 256));
        add("taken", &|_, _| (), Meant::Taken(gives));
    }
    rows
}

/// Both sides must give the answer and the slip meant, and the same room.
fn agree(school: &School, row: &Row) {
    let mut results = Vec::new();
    for side in &SIDES[..COPYING] {
        let (mut room, mut slip) = (row.room.clone(), [BUFFER_BYTE; SLIP_LONG]);
        let answer = side(&mut room, school, &row.call, &mut slip);
        results.push((answer, slip, room));
    }
    let (mine, other) = (&results[MINE], &results[OTHER]);
    let answer = row.meant.answer();
    if mine.0 != answer || other.0 != answer {
        fail(&format!("{}: ours answers {}, the second engine {}, meant is {}", row.name(), mine.0, other.0, answer));
    }
    if mine.1 != other.1 || !row.is_slip(&mine.1) {
        fail(&format!("{}: the slips differ, or are not as meant: ours {:02x?}, the second engine's {:02x?}", row.name(), mine.1, other.1));
    }
    if let Some(place) = (0..ROOM_LONG).find(|place| mine.2[*place] != other.2[*place]) {
        fail(&format!(
            "{}: the rooms differ at place {}: ours {}, the second engine's {}",
            row.name(),
            place,
            mine.2[place],
            other.2[place]
        ));
    }
}

// ---- The measurement ----

/// A time as Linux writes it.
#[repr(C)]
struct Time {
    seconds: i64,
    nanoseconds: i64,
}

extern "C" {
    fn clock_gettime(clock: i32, time: *mut Time) -> i32;
}

/// The clock of the time that this thread has had a processor: while the machine does something else, it stands still.
const OWN_TIME: i32 = 3;

fn now() -> f64 {
    let mut time = Time { seconds: 0, nanoseconds: 0 };
    if unsafe { clock_gettime(OWN_TIME, &mut time) } != 0 {
        fail("there is no clock of a thread's own time");
    }
    time.seconds as f64 * 1e9 + time.nanoseconds as f64
}

/// Nanoseconds of a call, with copying the seat back before it.
fn nanoseconds(side: usize, school: &School, row: &Row, room: &mut [u64], times: usize) -> f64 {
    let call = SIDES[side];
    let answer = if side == COPYING { 0 } else { row.meant.answer() };
    let mut slip = [BUFFER_BYTE; SLIP_LONG];
    let mut run = |times: usize| {
        let mut sum = 0u64;
        for _ in 0..times {
            room[..SEAT_LONG].copy_from_slice(&row.room[..SEAT_LONG]);
            sum = sum.wrapping_add(call(room, school, &row.call, &mut slip));
        }
        sum
    };
    run(WARM_CALLS);
    let from = now();
    let sum = run(times);
    let spent = now() - from;
    if sum != answer.wrapping_mul(times as u64) {
        fail(&format!("{}: an answer changed while the clock ran", row.name()));
    }
    spent / times as f64
}

fn middle(numbers: &[f64]) -> f64 {
    let mut sorted = numbers.to_vec();
    sorted.sort_by(|one, other| one.partial_cmp(other).expect("times are numbers"));
    sorted[sorted.len() / 2]
}

/// Each round goes through all rows, so that the rows of a round met the same load of the machine. The sides take turns in being first.
fn measure(school: &School, rows: &mut [Row], rounds: usize, slice: f64) {
    for row in rows.iter_mut() {
        agree(school, row);
        let mut room = row.room.clone();
        let once = nanoseconds(MINE, school, row, &mut room, 20).max(nanoseconds(OTHER, school, row, &mut room, 20));
        row.times = ((slice * 1e6 / once) as usize).max(5);
    }
    for round in 0..rounds {
        let turns = if round % 2 == 0 { [MINE, OTHER, COPYING] } else { [OTHER, MINE, COPYING] };
        for row in rows.iter_mut() {
            let mut room = row.room.clone();
            for side in turns {
                let spent = nanoseconds(side, school, row, &mut room, row.times);
                row.spent[side].push(spent);
            }
        }
    }
}

/// How many times one list of nanoseconds is the other, round by round: the middle one of all rounds.
fn ratio(these: &[f64], those: &[f64]) -> f64 {
    middle(&these.iter().zip(those).map(|(this, that)| this / that).collect::<Vec<_>>())
}

fn print_rows(title: &str, rows: &[Row]) {
    println!("\n{}", title);
    println!("  {:<34} {:>10} {:>10} {:>10} {:>10} {:>8}", "", "damvurit", "best", "second", "best", "ratio");
    for row in rows {
        let [mine, other] = [MINE, OTHER].map(|side| row.alone(side));
        let best = |spent: &[f64]| spent.iter().cloned().fold(f64::INFINITY, f64::min);
        println!(
            "  {:<34} {:>10.0} {:>10.0} {:>10.0} {:>10.0} {:>8.2}",
            row.name(),
            middle(&mine),
            best(&mine),
            middle(&other),
            best(&other),
            ratio(&mine, &other)
        );
    }
}

fn print_growth(what: &str, row: &Row, base: &Row) {
    let [mine, other] = [MINE, OTHER].map(|side| ratio(&row.alone(side), &base.alone(side)));
    println!("  {:<44} {:>8.2} {:>8.2}", what, mine, other);
}

fn print_growths(rows: &[Row]) {
    let find = |what: &str, steps, seats| {
        rows.iter().find(|row| row.what == what && row.steps == steps && row.seats == seats).expect("the row is measured")
    };
    println!("\nGrowth: the time over that of another row, for each side");
    println!("  {:<44} {:>8} {:>8}", "", "damvurit", "second");
    for Timed { what, .. } in timed(0) {
        for seats in [ONE_SEAT, SEATS] {
            for &steps in &STEPS_BEFORE[1..] {
                let growth = format!("{}, {}: {} steps over 0", what, seats_in_words(seats), steps);
                print_growth(&growth, find(what, steps, seats), find(what, 0, seats));
            }
        }
        for steps in STEPS_BEFORE {
            for (fewer, more) in [(ONE_SEAT, EIGHT_SEATS), (EIGHT_SEATS, SEATS)] {
                let growth = format!("{}, {} steps: {} over {}", what, steps, seats_in_words(more), fewer);
                print_growth(&growth, find(what, steps, more), find(what, steps, fewer));
            }
        }
    }
}

fn main() {
    let words: Vec<String> = std::env::args().collect();
    let rounds = words.get(1).map_or(Ok(101), |word| word.parse::<usize>());
    let slice = words.get(2).map_or(Ok(2.0), |word| word.parse::<f64>());
    let (rounds, slice) = match (rounds, slice) {
        (Ok(rounds), Ok(slice)) if rounds > 0 && slice > 0.0 => (rounds, slice),
        _ => fail("usage: submit [ROUNDS] [MILLISECONDS OF A ROUND]"),
    };
    let school = School::new();
    let mut whole = whole_rows(&school);
    let mut parts = part_rows(&school);
    measure(&school, &mut whole, rounds, slice);
    measure(&school, &mut parts, rounds, slice);
    println!("{} rounds of {} ms for each side in each row, in turns; {} records in the directory", rounds, slice, DIRECTORY.len());
    println!("sheets: {}", timed(0).map(|message| format!("{} {} bytes", message.what, message.sheet.len())).join(", "));
    println!("both sides gave the same answer, room and slip in every row");
    print_rows("A whole submit: nanoseconds, median and best of the rounds", &whole);
    print_growths(&whole);
    print_rows("The same pacs.008, refused on the way or taken: nanoseconds", &parts);
}
