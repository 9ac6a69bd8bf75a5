//! Compares the proved program with the model over scripts: of random runs, of WRITEs in either order, or those in files.
//!
//! `compare PROGRAM [SEED [CALLS]]`, `compare PROGRAM --writes [SEED [PAIRS]]` or `compare PROGRAM --files FILE...`: PROGRAM
//! reads a script and prints a line per line of it. Built by `rustc -O --edition 2021 tests/compare.rs -o target/compare`.
mod arguments;
mod counts;
mod difference;
mod forge;
mod generate;
#[path = "../model/mod.rs"]
mod model;
#[path = "programs/tally.rs"]
mod occurred;
mod office;
mod tally;
mod writes;

use difference::Difference;
use generate::Script;
use model::random;
use office::Office;
use std::io;
use std::process::ExitCode;
use tally::Tally;

/// One action in so many is an order.
const ORDER_IN: usize = 300;

/// Compares on a script, and counts what occurred. `Ok(false)` where they differ.
fn compare_script(program: &str, seed: u64, script: Script, tally: &mut Tally) -> io::Result<bool> {
    if difference::play(program, seed, &script)?.is_none() {
        return Ok(false);
    }
    tally.count_script(&script);
    tally.count_ends(counts::ends(script.lines.iter().zip(&script.expected)));
    Ok(true)
}

/// Compares until `calls` calls were made. `Ok(false)` where the comparison failed.
fn compare(program: &str, seed: u64, calls: usize) -> io::Result<bool> {
    let mut random = random::Random::new(seed);
    let mut tally = Tally::default();
    let office = Office::new(&mut random, ORDER_IN);
    for script in generate::fixed(&mut random, &office) {
        if !compare_script(program, seed, script, &mut tally)? {
            return Ok(false);
        }
    }
    while tally.calls < calls {
        let script = generate::script(&mut random, &office);
        if !compare_script(program, seed, script, &mut tally)? {
            return Ok(false);
        }
    }
    Ok(occurred_as_wanted(&tally, seed))
}

fn occurred_as_wanted(tally: &Tally, seed: u64) -> bool {
    tally.print();
    let faults = tally.faults();
    for fault in &faults {
        println!("{fault}");
    }
    if faults.is_empty() {
        println!("{} calls compared, seed {seed}: all equal", tally.calls);
    }
    faults.is_empty()
}

/// Compares on the scripts in files. `Ok(false)` where one differs.
fn compare_files(program: &str, files: &[String]) -> io::Result<bool> {
    for file in files {
        let text = std::fs::read_to_string(file)
            .map_err(|error| io::Error::new(error.kind(), format!("{file}: {error}")))?;
        let lines: Vec<String> = text.lines().map(String::from).collect();
        if let Some(Difference {
            at,
            expected,
            given,
        }) = difference::find(program, &lines)?
        {
            println!("{file}, line {}, must print\n{expected}", at + 1);
            println!("but {program} prints\n{given}");
            return Ok(false);
        }
    }
    println!("{} scripts in files compared: all equal", files.len());
    Ok(true)
}

fn main() -> ExitCode {
    let words: Vec<String> = std::env::args().skip(1).collect();
    let Some((program, words)) = words.split_first() else {
        eprintln!("compare PROGRAM [SEED [CALLS]], compare PROGRAM --writes [SEED [PAIRS]] or compare PROGRAM --files FILE...");
        return ExitCode::from(2);
    };
    let equal = match words {
        [word, files @ ..] if word == "--files" => compare_files(program, files),
        [word, words @ ..] if word == "--writes" => {
            let (seed, pairs) = arguments::seed_and_number(words, writes::PAIRS);
            println!("WRITEs in either order, seed {seed}");
            writes::compare(program, seed, pairs)
        }
        _ => {
            let (seed, calls) = arguments::seed_and_number(words, arguments::CALLS);
            println!("seed {seed}");
            compare(program, seed, calls)
        }
    };
    match equal {
        Ok(true) => ExitCode::SUCCESS,
        Ok(false) => ExitCode::FAILURE,
        Err(error) => {
            eprintln!("{program}: {error}");
            ExitCode::from(2)
        }
    }
}
