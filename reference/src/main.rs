//! The program of the second engine: plays scripts, makes lessons, holds another program against the engine.

mod calls;
mod checks;
mod compare;
mod directory;
mod lessons;
mod message;
mod room;
mod script;
mod shapes;
mod sheet;
mod slip;

use std::io::{self, Read, Write};
use std::process::exit;

const USAGE: &str = "reference play < SCRIPT
reference lesson SEED CALLS
reference compare LESSONS CALLS SEED -- COMMAND...";

fn main() {
    let words: Vec<String> = std::env::args().skip(1).collect();
    let word = words.first().map_or("", String::as_str);
    let done = match (word, words.len()) {
        ("play", 1) => play(),
        ("lesson", 3) => print(&lessons::lesson(number(&words[1]), number(&words[2]))),
        ("compare", count) if count > 5 && words[4] == "--" => {
            let plan = compare::Plan {
                lessons: number(&words[1]),
                calls: number(&words[2]),
                seed: number(&words[3]),
                command: words[5..].to_vec(),
            };
            if !compare::compare(&plan) {
                exit(1);
            }
            Ok(())
        }
        _ => usage(),
    };
    if let Err(error) = done {
        eprintln!("reference: {}", error);
        exit(2);
    }
}

fn usage() -> ! {
    eprintln!("{}", USAGE);
    exit(2)
}

fn number(word: &str) -> u64 {
    match word.parse() {
        Ok(number) => number,
        Err(_) => usage(),
    }
}

fn play() -> io::Result<()> {
    let mut script = Vec::new();
    io::stdin().read_to_end(&mut script)?;
    print(&script::Player::new().play(&script))
}

fn print(text: &[u8]) -> io::Result<()> {
    io::stdout().write_all(text)
}
