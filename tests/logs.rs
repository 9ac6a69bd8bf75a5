//! Compares the program `judge` with the model, on logs as correct replicas write them and on such logs changed.
//!
//! `logs JUDGE SEED`: JUDGE is the program. Built by `rustc -O --edition 2021 tests/logs.rs -o target/logs`.
#[path = "logs/calls.rs"]
mod calls;
#[path = "logs/changes.rs"]
mod changes;
#[allow(dead_code)] // the other comparisons use more of it
mod forge;
#[allow(dead_code)] // the other comparisons use more of it
mod generate;
#[allow(dead_code)] // the other comparisons use more of it
#[path = "../model/mod.rs"]
mod model;
#[path = "programs/tally.rs"]
mod occurred;
mod office;
#[path = "logs/record.rs"]
mod record;
#[path = "logs/tallies.rs"]
mod tallies;
#[allow(dead_code)] // the comparison of scripts uses more of it
mod tally;

use calls::runs;
use changes::{changed, Change, CHANGES};
use forge::some_of;
use model::log::{judge, Given, Log, HEAD_LENGTH};
use model::random::Random;
use office::Office;
use record::{record, record_long, record_many, sign};
use std::fs;
use std::io::{self, Write};
use std::process::{Command, ExitCode, Stdio};
use std::thread;
use tallies::Tallies;

/// How much of a log the program has at hand at a time.
pub const WINDOW: usize = 262_144;
/// Where the entries end that it has at hand first: it judges the head, drops it and fills the window up.
pub const SEAM: usize = HEAD_LENGTH + WINDOW;

/// One action in so many is an order.
const ORDER_IN: usize = 300;
/// So many scripts are made, and of each so many replicas recorded.
const SCRIPTS: usize = 15;
const RECORDED: usize = 45;
/// Then logs beyond the window, with an entry that begins so many places before the seam and before the end of the first filling.
const BEFORE: usize = 12;
/// So many logs have each change, and so many beyond the window.
const CHANGED: usize = 60;
const LONG_CHANGED: usize = 3;
/// So many logs are tried for a change: not each has what it needs.
const TRIES: usize = 1_000;
/// Where some logs are read from, and where one is left that the program judges otherwise.
const FILE: &str = "target/judged.log";

struct Comparison<'a> {
    program: &'a str,
    random: Random,
    tallies: Tallies,
    /// How many were judged.
    logs: usize,
}

impl Comparison<'_> {
    /// What the program prints and says of a log, which is a file, or is piped in one piece or more.
    fn run(&mut self, log: &[u8]) -> io::Result<[String; 2]> {
        let input = if self.random.percent(30) {
            fs::write(FILE, log)?;
            fs::File::open(FILE)?.into()
        } else {
            Stdio::piped()
        };
        let mut child = Command::new(self.program)
            .stdin(input)
            .stdout(Stdio::piped())
            .stderr(Stdio::piped())
            .spawn()?;
        let pipe = child.stdin.take();
        let size = log.len() / self.random.pick(&[1, 1, 3, 40]) + 1;
        let output = thread::scope(|scope| {
            // The program may end before it has read all: what it prints tells whether it was enough.
            scope.spawn(move || {
                pipe.map(|mut pipe| log.chunks(size).try_for_each(|piece| pipe.write_all(piece)))
            });
            child.wait_with_output()
        })?;
        let mut printed = String::from_utf8_lossy(&output.stdout).into_owned();
        if !output.status.success() {
            printed.push_str(&format!("({})\n", output.status));
        }
        let said = String::from_utf8_lossy(&output.stderr).into_owned();
        Ok([printed, said])
    }

    /// Answers what both print.
    fn compare(&mut self, log: &[u8], name: &str) -> Result<String, String> {
        self.logs += 1;
        let judgement = judge(log);
        let expected = [judgement.printed(), judgement.said()];
        let given = self.run(log);
        let given = given.map_err(|error| format!("{}: {error}", self.program))?;
        if given != expected {
            return Err(self.difference(log, name, expected, given));
        }
        self.tallies.count(&judgement, log.len());
        Ok(judgement.printed())
    }

    fn difference(
        &self,
        log: &[u8],
        name: &str,
        expected: [String; 2],
        given: [String; 2],
    ) -> String {
        let Comparison { program, logs, .. } = self;
        let kept = keep(log);
        format!("A difference. Log {logs} ({name}) {kept}. It must give\n{expected:?}\nbut {program} gives\n{given:?}")
    }

    /// A log of which is known what must be printed.
    fn must_print(&mut self, log: &[u8], name: &str, words: String) -> Result<(), String> {
        let printed = self.compare(log, name)?;
        if printed != words {
            let kept = keep(log);
            let logs = self.logs;
            return Err(format!(
                "Log {logs} ({name}) {kept}. Both print {printed:?} for it, and not {words:?}"
            ));
        }
        Ok(())
    }

    /// Logs of correct replicas, which must be accepted. With a byte more the number of their entries shows.
    fn compare_recorded(&mut self, logs: &[Log]) -> Result<(), String> {
        let accepted = || "accepted\n".to_string();
        for log in logs {
            let mut bytes = log.encode();
            self.must_print(&bytes, "as recorded", accepted())?;
            let any = self.random.byte();
            bytes.push(self.random.pick(&[0, 1, 2, 255, any, any]));
            let number = log.entries.len() + 1;
            self.must_print(&bytes, "a stray byte behind", format!("{number}\n"))?;
            if self.random.percent(25) {
                let bytes = signed_otherwise(&mut self.random, log.clone()).encode();
                self.must_print(&bytes, "other signatures", accepted())?;
                self.tallies.occurred.count("other signatures");
            }
        }
        Ok(())
    }

    /// Some logs with each change.
    fn compare_changed(&mut self, logs: &[Log], times: usize) -> Result<(), String> {
        for change in CHANGES {
            for _ in 0..times {
                let log = self.some_changed(logs, change)?;
                self.compare(&log, change.0)?;
            }
        }
        Ok(())
    }

    fn some_changed(&mut self, logs: &[Log], change: (&str, Change)) -> Result<Vec<u8>, String> {
        for _ in 0..TRIES {
            let log = &logs[self.random.below(logs.len())];
            if let Some(log) = changed(&mut self.random, log, change) {
                return Ok(log);
            }
        }
        Err(format!("too few logs have what '{}' changes", change.0))
    }

    fn compare_all(&mut self) -> Result<(), String> {
        let Comparison {
            random, tallies, ..
        } = self;
        let tally = &mut tallies.occurred;
        let office = Office::new(random, ORDER_IN);
        let mut all_runs = Vec::new();
        for _ in 0..SCRIPTS {
            let script = generate::script(random, &office);
            let of_script = runs(&script.lines, &script.expected);
            all_runs.extend(some_of(random, of_script, RECORDED));
        }
        let logs = all_runs.iter().map(|run| record(random, tally, run));
        let logs: Vec<Log> = logs.collect();
        let places = (0..BEFORE).flat_map(|before| [SEAM - before, WINDOW - before]);
        let long = places.map(|place| record_long(random, tally, &all_runs, place));
        let (mut long, up_to_seam): (Vec<Log>, Vec<Log>) = long.unzip();
        long.push(record_many(random, &all_runs));
        for recorded in [&logs, &long, &up_to_seam] {
            self.compare_recorded(recorded)?;
        }
        self.compare_changed(&logs, CHANGED)?;
        self.compare_changed(&long, LONG_CHANGED)
    }
}

/// Says where the log is kept.
fn keep(log: &[u8]) -> String {
    match fs::write(FILE, log) {
        Ok(()) => format!("is kept in {FILE}"),
        Err(error) => format!("cannot be kept in {FILE}: {error}"),
    }
}

fn signed_otherwise(random: &mut Random, mut log: Log) -> Log {
    for entry in &mut log.entries {
        if let Given::Reply(reply) = &mut entry.given {
            sign(random, reply);
        }
    }
    log
}

fn main() -> ExitCode {
    let words: Vec<String> = std::env::args().skip(1).collect();
    let (program, seed) = match &words[..] {
        [program, seed] => (program, seed.parse().ok()),
        _ => {
            eprintln!("logs JUDGE SEED");
            return ExitCode::from(2);
        }
    };
    let Some(seed) = seed else {
        eprintln!("logs: the seed is a number");
        return ExitCode::from(2);
    };
    let mut comparison = Comparison {
        program,
        random: Random::new(seed),
        tallies: Tallies::default(),
        logs: 0,
    };
    println!("judge, seed {seed}");
    if let Err(failure) = comparison.compare_all() {
        println!("{failure}");
        return ExitCode::FAILURE;
    }
    println!("{}", comparison.tallies.occurred);
    let shortfalls = comparison.tallies.shortfalls();
    for shortfall in &shortfalls {
        println!("too seldom: {shortfall}");
    }
    if !shortfalls.is_empty() {
        return ExitCode::FAILURE;
    }
    // as long as nothing differs it is of no use
    let _ = fs::remove_file(FILE);
    println!(
        "{} logs judged and compared, seed {seed}: all equal",
        comparison.logs
    );
    ExitCode::SUCCESS
}
