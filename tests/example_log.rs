//! Makes a log for the examples, with the model's replica.
//!
//! `example-log ID` writes what a correct replica logs of a script on standard input, whose keys and orders are spelled out, as
//! `show/spell.awk` does; its signatures are zeros. `example-log ID forgets` does so for a replica that answers each order with
//! "taken" and serves the withdrawn client all the same. Built by
//! `rustc -O --edition 2021 tests/example_log.rs -o target/example-log`.
#[path = "logs/calls.rs"]
mod calls;
#[allow(dead_code)] // the comparisons use more of it
#[path = "../model/mod.rs"]
mod model;

use calls::{runs, Run};
use model::log::{Call, Entry, Given, Log};
use model::replica::Replica;
use model::script::Player;
use std::io::{self, Write};
use std::process::ExitCode;

fn given(replica: &mut Replica, call: &Call, forgets: bool) -> Given {
    if forgets && call.is_order() {
        return Given::Reply(Vec::new());
    }
    call.make(replica)
}

fn logged(run: &Run, forgets: bool) -> Option<Log> {
    let mut log = run.log.clone();
    let mut replica = Replica::new(log.f, log.id, &log.key).ok()?;
    for call in run.calls.iter().filter(|call| call.is_logged()) {
        let given = given(&mut replica, call, forgets);
        let call = call.clone();
        log.entries.push(Entry { call, given });
    }
    Some(log)
}

/// What the words ask for.
fn made(words: &[&str]) -> Option<Vec<u8>> {
    let (id, forgets) = match *words {
        [id] => (id, false),
        [id, "forgets"] => (id, true),
        _ => return None,
    };
    let id: u8 = id.parse().ok()?;
    let lines: Vec<String> = io::stdin().lines().collect::<Result<_, _>>().ok()?;
    let mut player = Player::default();
    let answers: Vec<_> = lines.iter().map(|line| player.play(line)).collect();
    let run = runs(&lines, &answers)
        .into_iter()
        .find(|run| run.log.id == id)?;
    Some(logged(&run, forgets)?.encode())
}

fn main() -> ExitCode {
    let words: Vec<String> = std::env::args().skip(1).collect();
    let words: Vec<&str> = words.iter().map(String::as_str).collect();
    let Some(made) = made(&words) else {
        eprintln!(
            "example-log ID [forgets], with a script on standard input that has this replica"
        );
        return ExitCode::from(2);
    };
    match io::stdout().write_all(&made) {
        Ok(()) => ExitCode::SUCCESS,
        Err(error) => {
            eprintln!("example-log: {error}");
            ExitCode::FAILURE
        }
    }
}
