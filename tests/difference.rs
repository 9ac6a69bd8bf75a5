//! Where the proved program and the model part over a script, and the shortest script found that shows it.
use crate::generate::Script;
use crate::model::script::{Output, Player};
use std::io::{self, Write};
use std::process::{Command, Stdio};

/// What the program prints for a script.
fn run_program(program: &str, lines: &[String]) -> io::Result<Vec<String>> {
    let mut child = Command::new(program)
        .stdin(Stdio::piped())
        .stdout(Stdio::piped())
        .spawn()?;
    let mut input = child.stdin.take().expect("a piped input");
    let text: String = lines
        .iter()
        .flat_map(|line| [line.as_str(), "\n"])
        .collect();
    // The program may print before it has read all: a thread writes, so that neither waits for the other.
    let writer = std::thread::spawn(move || input.write_all(text.as_bytes()));
    let output = child.wait_with_output()?;
    // A program that stopped reading early is told by its missing lines.
    let _ = writer.join();
    let text = String::from_utf8_lossy(&output.stdout);
    let mut printed: Vec<String> = text.split_terminator('\n').map(String::from).collect();
    if !output.status.success() {
        printed.push(format!("({})", output.status));
    }
    Ok(printed)
}

/// The first line at which program and model part.
pub struct Difference {
    pub at: usize,
    pub expected: String,
    pub given: String,
}

fn first_difference(expected: &[Output], given: &[String]) -> Option<Difference> {
    let missing = || "(no line)".to_string();
    for at in 0..expected.len().max(given.len()) {
        let expected = expected.get(at).map_or_else(missing, Output::to_string);
        let given = given.get(at).cloned().unwrap_or_else(missing);
        if expected != given {
            return Some(Difference {
                at,
                expected,
                given,
            });
        }
    }
    None
}

/// Plays a script in both.
pub fn find(program: &str, lines: &[String]) -> io::Result<Option<Difference>> {
    let mut player = Player::default();
    let expected: Vec<Output> = lines.iter().map(|line| player.play(line)).collect();
    Ok(first_difference(&expected, &run_program(program, lines)?))
}

/// The lines with all messages in hex, so that removing lines renumbers none.
fn spelled_out(lines: &[String]) -> Vec<String> {
    let mut player = Player::default();
    let mut spelled = Vec::new();
    for line in lines {
        spelled.push(player.spelled_out(line));
        player.play(line);
    }
    spelled
}

/// A script being shrunk, and its first difference.
struct Failure<'a> {
    program: &'a str,
    lines: Vec<String>,
    difference: Difference,
}

impl Failure<'_> {
    /// Takes another script if it differs too.
    fn try_instead(&mut self, lines: Vec<String>) -> bool {
        let Ok(Some(difference)) = find(self.program, &lines) else {
            return false;
        };
        self.lines = lines;
        self.difference = difference;
        true
    }

    /// A program that dies may lose what it printed: then the lines behind the difference are needed.
    fn try_up_to_difference(&mut self) {
        let lines = self.lines.iter().take(self.difference.at + 1);
        self.try_instead(lines.cloned().collect());
    }

    fn shrink(&mut self) {
        self.try_up_to_difference();
        let last_run = self.lines.iter().rposition(|line| line == "new");
        self.try_instead(self.lines[last_run.unwrap_or(0)..].to_vec());
        self.try_instead(spelled_out(&self.lines));
        let mut size = self.lines.len();
        while size > 0 {
            let removed = self.remove_parts(size);
            self.try_up_to_difference();
            if !removed || size > 1 {
                size /= 2;
            }
        }
    }

    /// Tries to do without each part of `size` lines, from the end; answers whether one could go.
    fn remove_parts(&mut self, size: usize) -> bool {
        let mut end = self.lines.len();
        let mut removed = false;
        while end > 0 {
            let start = end.saturating_sub(size);
            let without = [&self.lines[..start], &self.lines[end..]].concat();
            removed |= self.try_instead(without);
            end = start;
        }
        removed
    }

    fn print(&self, seed: u64) {
        println!(
            "A difference, seed {seed}. The shortest script found, of {} lines:",
            self.lines.len()
        );
        for line in &self.lines {
            println!("{line}");
        }
        println!("Its line {} must print", self.difference.at + 1);
        println!("{}", self.difference.expected);
        println!("but {} prints", self.program);
        println!("{}", self.difference.given);
    }
}

/// What the program prints for a script, if that is what it must print. Otherwise the difference is printed.
pub fn play(program: &str, seed: u64, script: &Script) -> io::Result<Option<Vec<String>>> {
    let given = run_program(program, &script.lines)?;
    let Some(difference) = first_difference(&script.expected, &given) else {
        return Ok(Some(given));
    };
    let mut failure = Failure {
        program,
        lines: script.lines.clone(),
        difference,
    };
    failure.shrink();
    failure.print(seed);
    Ok(None)
}
