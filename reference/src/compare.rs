//! Holds another program against the engine: lessons by chance, played by both, line by line.

use std::io::{Read, Write};
use std::process::{Child, Command, Stdio};
use std::sync::mpsc;
use std::thread;
use std::time::{Duration, Instant};

use crate::checks::CODES;
use crate::lessons::lesson;
use crate::room::ANSWER;
use crate::script::{lines, Player, Tally, Triples};
use crate::slip::{self, WAITS};

/// A run of the program that takes longer is ended and counts as a difference.
const TIME_LIMIT: Duration = Duration::from_secs(60);

/// Lessons are played in one run while they have fewer bytes than this: starting a program costs more than a lesson.
const BATCH_BYTES: usize = 400_000;

/// What is to be compared: so many lessons of so many calls, from a seed on.
pub struct Plan {
    pub lessons: u64,
    pub calls: u64,
    pub seed: u64,
    pub command: Vec<String>,
}

/// A lesson by its seed.
struct Lesson {
    seed: u64,
    script: Vec<u8>,
}

/// What the program printed, and how it ended where it did not end well.
struct Printed {
    text: Vec<u8>,
    trouble: Option<String>,
}

/// Compares until the first difference; true where there is none.
pub fn compare(plan: &Plan) -> bool {
    let mut tally = Tally::new();
    let mut batch: Vec<Lesson> = Vec::new();
    for number in 0..plan.lessons {
        let seed = plan.seed.wrapping_add(number);
        let script = lesson(seed, plan.calls);
        let bytes: usize = batch.iter().map(|lesson| lesson.script.len()).sum();
        if !batch.is_empty() && bytes + script.len() > BATCH_BYTES {
            if !is_alike(plan, &batch, &mut tally) {
                return false;
            }
            batch.clear();
        }
        batch.push(Lesson { seed, script });
    }
    if !batch.is_empty() && !is_alike(plan, &batch, &mut tally) {
        return false;
    }
    print_summary(plan, &tally);
    true
}

/// Plays some lessons in one run of the program. Each begins with an empty directory and a room laid out.
fn is_alike(plan: &Plan, batch: &[Lesson], tally: &mut Tally) -> bool {
    let input: Vec<u8> = batch.iter().flat_map(|lesson| lesson.script.iter().copied()).collect();
    let printed = run(&plan.command, input);
    let mut place = 0;
    for lesson in batch {
        let mut player = Player::new();
        player.tally = tally.clone();
        for (number, line) in lines(&lesson.script).enumerate() {
            let mut wanted = Vec::new();
            player.play_line(line, &mut wanted);
            let rest = &printed.text[place..];
            if !rest.starts_with(&wanted) {
                print_difference(plan, lesson.seed, number + 1, line, &wanted, rest);
                if lesson.seed != batch[0].seed {
                    println!("in the same run the lessons from seed {} on came before it", batch[0].seed);
                }
                print_trouble(&printed);
                return false;
            }
            place += wanted.len();
        }
        *tally = player.tally;
    }
    if place < printed.text.len() || printed.trouble.is_some() {
        println!("difference behind the last line of lesson {}", batch[batch.len() - 1].seed);
        println!("program: {}", shown(&printed.text[place..], 1));
        print_trouble(&printed);
        return false;
    }
    true
}

/// Some lines of a text, cut short where they are long.
fn shown(text: &[u8], count: usize) -> String {
    let some: Vec<String> = lines(text)
        .take(count)
        .map(|line| String::from_utf8_lossy(&line[..line.len().min(3_000)]).into_owned())
        .collect();
    some.join("\n         ")
}

fn print_difference(plan: &Plan, seed: u64, number: usize, line: &[u8], wanted: &[u8], printed: &[u8]) {
    let same = lines(wanted).zip(lines(printed)).take_while(|(one, other)| one == other).count();
    println!("difference: lesson of seed {}, line {}", seed, number);
    println!("script:  {}", String::from_utf8_lossy(line));
    if same > 0 {
        println!("the first {} lines of its answer are alike", same);
    }
    let behind = |text: &[u8]| lines(text).skip(same).take(1).map(|line| shown(line, 1)).collect::<String>();
    println!("engine:  {}", behind(wanted));
    println!("program: {}", behind(printed));
    println!("to repeat: reference lesson {} {} > lesson", seed, plan.calls);
    println!("           reference play < lesson");
    println!("           {} < lesson", plan.command.join(" "));
}

fn print_trouble(printed: &Printed) {
    if let Some(trouble) = &printed.trouble {
        println!("the program {}", trouble);
    }
}

/// Runs the program on an input until it ends or its time is up.
fn run(command: &[String], input: Vec<u8>) -> Printed {
    let started = Command::new(&command[0]).args(&command[1..]).stdin(Stdio::piped()).stdout(Stdio::piped()).spawn();
    let mut child = match started {
        Ok(child) => child,
        Err(error) => return Printed { text: Vec::new(), trouble: Some(format!("could not be started: {}", error)) },
    };
    let end = Instant::now() + TIME_LIMIT;
    if let Some(mut stdin) = child.stdin.take() {
        // a program that ends early breaks the pipe; what it printed tells the rest
        thread::spawn(move || stdin.write_all(&input).unwrap_or(()));
    }
    let (sender, receiver) = mpsc::channel();
    if let Some(mut stdout) = child.stdout.take() {
        thread::spawn(move || {
            let mut text = Vec::new();
            let result = stdout.read_to_end(&mut text);
            sender.send((text, result.err())).unwrap_or(());
        });
    }
    match receiver.recv_timeout(TIME_LIMIT) {
        Ok((text, None)) => Printed { text, trouble: trouble_of(&mut child, end) },
        Ok((text, Some(error))) => Printed { text, trouble: Some(format!("could not be read: {}", error)) },
        Err(_) => {
            stop(&mut child);
            Printed { text: Vec::new(), trouble: Some(format!("did not end within {} s", TIME_LIMIT.as_secs())) }
        }
    }
}

/// How a program that prints no more ends, where it does not end well.
fn trouble_of(child: &mut Child, end: Instant) -> Option<String> {
    loop {
        match child.try_wait() {
            Ok(Some(status)) if status.success() => return None,
            Ok(Some(status)) => return Some(format!("ended with {}", status)),
            Ok(None) if Instant::now() < end => thread::sleep(Duration::from_millis(1)),
            Ok(None) => {
                stop(child);
                return Some(format!("did not end within {} s", TIME_LIMIT.as_secs()));
            }
            Err(error) => return Some(format!("could not be waited for: {}", error)),
        }
    }
}

fn stop(child: &mut Child) {
    // it may have ended by itself in the meantime
    child.kill().unwrap_or(());
    child.wait().map(|_| ()).unwrap_or(());
}

/// One line, then how often each answer, each check and each triple came up.
fn print_summary(plan: &Plan, tally: &Tally) {
    println!("{} lessons, {} calls, seeds from {}: no difference", plan.lessons, tally.calls, plan.seed);
    let answers: Vec<String> =
        tally.answers.iter().enumerate().map(|(number, times)| format!("{}: {}", number, times)).collect();
    println!("answers  {}", answers.join("  "));
    print_checks(tally);
    print_triples(tally);
}

/// Each check with its codes: how often it was the one answered, and in a list of `rows`.
fn print_checks(tally: &Tally) {
    println!("checks, answered and in rows (0 is none: {}):", tally.answered[0]);
    let cells: Vec<String> = (1..tally.answered.len())
        .map(|check| {
            let (sep, iso) = CODES[check - 1];
            let codes = format!("{} {}", sep, iso);
            format!("{:>2} {:<9} {:>6} {:>5}", check, codes, tally.answered[check], tally.listed[check])
        })
        .collect();
    for row in cells.chunks(4) {
        println!("  {}", row.join("  | "));
    }
}

/// The names of kinds from 1 on and of statuses from 0 on.
const KIND_NAMES: [&str; ANSWER as usize] = ["pacs.008", "camt.050", "pacs.028", "pacs.002"];
const STATUS_NAMES: [&str; WAITS as usize + 1] = ["PDNG", "ACCC", "RJCT", "waits"];

/// So many checks stand on a line.
const CHECKS_ON_A_LINE: usize = 9;

/// The triples of each kind and status, under a name.
fn named_results() -> Vec<(String, Vec<[u64; 3]>)> {
    let mut groups: Vec<(String, Vec<[u64; 3]>)> = Vec::new();
    for triple in slip::results() {
        let name = format!("{} {}", KIND_NAMES[triple[0] as usize - 1], STATUS_NAMES[triple[1] as usize]);
        match groups.last_mut() {
            Some((last, triples)) if *last == name => triples.push(triple),
            _ => groups.push((name, vec![triple])),
        }
    }
    groups
}

/// Each triple that a slip can have, by its check: how often a submit gave it, and how often it was written and read.
fn print_triples(tally: &Tally) {
    println!("slips, each check with submits/written/read:");
    let cell = |triple: &[u64; 3]| {
        let [submitted, written, read] =
            [&tally.submitted, &tally.written, &tally.read].map(|counted| counted.get(triple).copied().unwrap_or(0));
        format!("{:>2} {:<9}", triple[2], format!("{}/{}/{}", submitted, written, read))
    };
    for (name, triples) in named_results() {
        let rows: Vec<String> = triples
            .chunks(CHECKS_ON_A_LINE)
            .map(|some| some.iter().map(cell).collect::<Vec<String>>().join(" ").trim_end().to_string())
            .collect();
        println!("  {:<14} {}", name, rows.join("\n                 "));
    }
    println!("given by no submit: {}", missing(&tally.submitted));
    println!("never written: {}; never read: {}", missing(&tally.written), missing(&tally.read));
}

/// The triples that did not come up.
fn missing(counted: &Triples) -> String {
    let mut named = Vec::new();
    for (name, triples) in named_results() {
        let never = triples.iter().filter(|triple| !counted.contains_key(*triple));
        let checks: Vec<String> = never.map(|triple| triple[2].to_string()).collect();
        if !checks.is_empty() {
            named.push(format!("{} {}", name, checks.join(" ")));
        }
    }
    if named.is_empty() {
        "none".to_string()
    } else {
        named.join(", ")
    }
}
