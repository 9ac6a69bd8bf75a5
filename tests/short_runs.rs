//! Plays all short runs with the model of the player, and writes them: what the program `short_runs` must print.
//!
//! Built by `rustc -O --edition 2021 tests/short_runs.rs -o target/short-runs`.
#[allow(dead_code)] // the comparisons use more of it
#[path = "../model/mod.rs"]
mod model;
#[allow(dead_code)] // the comparison of the programs uses more of it
#[path = "programs/player.rs"]
mod player;

use model::short_runs::{runs, text};
use player::{printed, HEADER};
use std::io::{self, Write};
use std::process::ExitCode;

/// Each line sends a message, and so message i is line i's.
fn sends_each_line(run: &str) -> bool {
    let sent = (1..=run.lines().count()).map(|line| format!("{line} sent {line}"));
    printed(run.as_bytes())
        .into_iter()
        .eq(std::iter::once(HEADER.to_string()).chain(sent))
}

fn main() -> ExitCode {
    let texts: Vec<String> = (1..=4).flat_map(runs).map(|run| text(&run)).collect();
    if let Some(run) = texts.iter().find(|run| !sends_each_line(run)) {
        eprint!("short-runs: the model answers this run otherwise:\n{run}");
        return ExitCode::FAILURE;
    }
    match io::stdout().write_all(texts.concat().as_bytes()) {
        Ok(()) => ExitCode::SUCCESS,
        Err(error) => {
            eprintln!("short-runs: {error}");
            ExitCode::FAILURE
        }
    }
}
