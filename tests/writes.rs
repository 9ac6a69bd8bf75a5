//! WRITEs in either order (document 02, #111), at replicas that random runs have brought to some record: what the program answers
//! is compared with the model, and each order with the other.
mod answers;
mod choice;
mod classes;
mod heaps;
mod rules;

use crate::generate::Script;
use crate::model::random::Random;
use crate::model::script::hex;
use crate::office::Office;
use crate::{difference, ORDER_IN};
use answers::Observed;
use classes::Classes;
use heaps::Heap;
use std::{fs, io};

/// So many pairs are compared, if the words do not say.
pub const PAIRS: usize = 10_000;

/// Where a script is left in which a rule is broken.
const FILE: &str = "target/writes.script";

/// Holds what the program answers to a heap against the rules, and counts the heap.
fn check(heap: &Heap, given: &[String], classes: &mut Classes) -> Result<(), String> {
    let observed = Observed::new(heap, given).ok_or("A WRITE or a read is refused.")?;
    if let Some((rule, at)) = rules::broken(&observed) {
        let pair = at.map(|at| heap.pairs[at].each_ref().map(|write| hex(&write.encode())));
        let with = pair.map(|[one, other]| format!(", with\n{one}\nand\n{other}"));
        return Err(format!(
            "It is not so that {rule}{}",
            with.unwrap_or_default()
        ));
    }
    classes.count(&observed);
    Ok(())
}

/// Keeps the script, and says where the heap stands.
fn keep(script: &Script, heap: &Heap) -> io::Result<()> {
    fs::write(FILE, script.lines.join("\n") + "\n")?;
    let [one, other] = heap.delivered.map(|place| place + 1);
    println!("The WRITEs begin in line {one} and in line {other} of {FILE}");
    Ok(())
}

/// Compares so many pairs. `Ok(false)` where the comparison failed.
pub fn compare(program: &str, seed: u64, pairs: usize) -> io::Result<bool> {
    let mut random = Random::new(seed);
    let mut classes = Classes::default();
    let office = Office::new(&mut random, ORDER_IN);
    while classes.pairs < pairs {
        let (script, heaps) = heaps::script(&mut random, &office);
        let Some(given) = difference::play(program, seed, &script)? else {
            return Ok(false);
        };
        for heap in &heaps {
            if let Err(fault) = check(heap, &given, &mut classes) {
                println!("{fault}");
                keep(&script, heap)?;
                return Ok(false);
            }
        }
    }
    Ok(occurred_as_wanted(&classes, seed))
}

fn occurred_as_wanted(classes: &Classes, seed: u64) -> bool {
    println!("{}", classes.occurred);
    let shortfalls = classes.shortfalls();
    for shortfall in &shortfalls {
        println!("too seldom: {shortfall}");
    }
    if shortfalls.is_empty() {
        println!(
            "{} pairs of WRITEs compared in both orders, seed {seed}: all as they must be",
            classes.pairs
        );
    }
    shortfalls.is_empty()
}
