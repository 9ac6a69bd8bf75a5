//! Compares the programs `cards`, `messages`, `player` and `lms_vectors` with the model, on random input.
//!
//! `programs DIRECTORY [SEED]`: DIRECTORY has the crates, in whose folders `out` the programs lie. Built by
//! `rustc -O --edition 2021 tests/programs/main.rs -o target/programs`.
mod cards;
#[allow(dead_code)] // the other comparisons use more of it
#[path = "../forge.rs"]
mod forge;
mod handings;
mod judgements;
mod messages;
#[allow(dead_code)] // the other comparisons use more of it
#[path = "../../model/mod.rs"]
mod model;
mod odd;
mod player;
mod plays;
mod program;
mod signatures;
mod tally;

use model::random::Random;
use program::{Failure, Program};
use std::process::ExitCode;
use std::time::{SystemTime, UNIX_EPOCH};
use tally::Tally;

/// Compares one program on input of its own, and counts what occurred.
struct Comparison {
    name: &'static str,
    run: fn(&Program, &mut Random, &mut Tally) -> Result<(), Failure>,
    /// How often what must occur at least, for the comparison to mean something.
    floors: &'static [(&'static str, usize)],
}

const COMPARISONS: [Comparison; 6] = [
    Comparison {
        name: "cards",
        run: cards::compare,
        floors: &cards::FLOORS,
    },
    Comparison {
        name: "messages",
        run: messages::compare,
        floors: &messages::FLOORS,
    },
    Comparison {
        name: "messages",
        run: judgements::compare,
        floors: &judgements::FLOORS,
    },
    Comparison {
        name: "messages",
        run: handings::compare,
        floors: &handings::FLOORS,
    },
    Comparison {
        name: "player",
        run: plays::compare,
        floors: &plays::FLOORS,
    },
    Comparison {
        name: "lms_vectors",
        run: signatures::compare,
        floors: &signatures::FLOORS,
    },
];

impl Comparison {
    fn passes(&self, directory: &str, seed: u64) -> bool {
        let program = Program::new(directory, self.name);
        let mut tally = Tally::default();
        println!("{}, seed {seed}", self.name);
        if let Err(failure) = (self.run)(&program, &mut Random::new(seed), &mut tally) {
            println!("{failure}");
            return false;
        }
        println!("{tally}");
        let shortfalls = tally.shortfalls(self.floors);
        for shortfall in &shortfalls {
            println!("too seldom: {shortfall}");
        }
        shortfalls.is_empty()
    }
}

fn clock() -> u64 {
    SystemTime::now()
        .duration_since(UNIX_EPOCH)
        .map_or(1, |since| since.as_secs())
}

fn main() -> ExitCode {
    let words: Vec<String> = std::env::args().skip(1).collect();
    let (directory, seed) = match &words[..] {
        [directory] => (directory, Some(clock())),
        [directory, seed] => (directory, seed.parse().ok()),
        _ => {
            eprintln!("programs DIRECTORY [SEED]");
            return ExitCode::from(2);
        }
    };
    let Some(seed) = seed else {
        eprintln!("programs: the seed is a number");
        return ExitCode::from(2);
    };
    let passed = COMPARISONS
        .iter()
        .filter(|comparison| comparison.passes(directory, seed))
        .count();
    if passed < COMPARISONS.len() {
        return ExitCode::FAILURE;
    }
    println!("cards, messages, player and lms_vectors compared, seed {seed}: all equal");
    ExitCode::SUCCESS
}
