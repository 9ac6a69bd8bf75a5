//! The arguments that the comparisons share.
use std::process::exit;
use std::time::{SystemTime, UNIX_EPOCH};

/// How many calls are compared, if the words do not say.
pub const CALLS: usize = 500_000;

fn number(word: &String) -> u64 {
    word.parse().unwrap_or_else(|_| {
        eprintln!("{word} is no number: give a seed, and how many to compare");
        exit(2)
    })
}

/// `[SEED [NUMBER]]`: without a seed the clock's seconds. Another word ends the program.
pub fn seed_and_number(words: &[String], default: usize) -> (u64, usize) {
    let now = SystemTime::now()
        .duration_since(UNIX_EPOCH)
        .map_or(1, |since| since.as_secs());
    (
        words.first().map_or(now, number),
        words.get(1).map_or(default, |word| number(word) as usize),
    )
}
