//! Compares the proved bank with the plain one on many requests, and prints for each step of `steps` what it costs
//! either: time, instructions (by callgrind) and bytes copied (listed by `copies`, whose output is the standard input).
//! With the argument `rows` it prints the rows of docs/SPEED.md's table. Run by `bench/run`.
#[allow(dead_code)] // the tests use more of it
#[path = "../rust/bank.rs"]
mod bank;
mod plain_bank;
#[path = "../model/sha256.rs"]
mod plain_sha256;
mod steps;

use plain_sha256::sha256;
use std::hint::black_box;
use std::process::Command;
use std::time::{Duration, Instant};
use std::{env, fs, io};
use steps::*;

/// Numbers that look random, the same in each run (xorshift).
struct Numbers(u64);

impl Numbers {
    fn below(&mut self, bound: usize) -> usize {
        self.0 ^= self.0 << 13;
        self.0 ^= self.0 >> 7;
        self.0 ^= self.0 << 17;
        (self.0 % bound as u64) as usize
    }
}

/// A card, damaged in each second case: a bit is changed, or it is cut, or has a byte more.
fn any_card(numbers: &mut Numbers) -> Vec<u8> {
    let mut card = [&CARD[..], &[0, 0]][numbers.below(2)].to_vec();
    match numbers.below(6) {
        0 => {
            let at = numbers.below(card.len());
            card[at] ^= 1 << numbers.below(8);
        }
        1 => card.truncate(numbers.below(card.len())),
        2 => card.push(0),
        _ => {}
    }
    card
}

/// A request with few clients, one of which only reads, few registers and few timestamps, so that some are taken; each third has
/// a byte changed, or is cut.
fn any_request(numbers: &mut Numbers) -> Request {
    let client = [1, 2, 3, 1, 2, 3, 65][numbers.below(7)];
    let count = 1 + numbers.below(4) as u32;
    let card = any_card(numbers);
    let digest = [sha256(&card), [9; 32]][numbers.below(2)];
    let shown = prepared_proof(count, 1 + numbers.below(3) as u8, digest);
    let last = written_proof(count, [client, client, client, 3][numbers.below(4)]);
    let (first, next) = (timestamp(1, client), timestamp(count + 1, client));
    let mut any = match numbers.below(6) {
        0 => read_stamp(client),
        1 => read(client),
        2 => request(0x21b, 2, client, &[&first, &digest], 0),
        3 => request(0x25b, 2, client, &[&next, &digest, &shown], QUORUM),
        4 => request(
            0x2db,
            2,
            client,
            &[&next, &digest, &shown, &last],
            2 * QUORUM,
        ),
        _ => {
            let mut write = write(count, client, &card);
            // of the proof's first entry; the second one is replica 7's
            let first_signer = 4 + 1 + card.len() + 5 + 32 + 1;
            write.message[first_signer] = 1 + numbers.below(6) as u8;
            write
        }
    };
    any.set_register([1, 1, 1, 1, 2, 2, 2, 2, 16, 16, 0, 17][numbers.below(12)]);
    match numbers.below(9) {
        0 => {
            let at = numbers.below(any.message.len());
            any.message[at] ^= 1 << numbers.below(8);
        }
        1 => any.message.truncate(numbers.below(any.message.len() + 1)),
        2 => {
            let at = numbers.below(any.verdicts.len());
            any.verdicts[at] = numbers.below(3) as u8;
        }
        _ => {}
    }
    any
}

/// The office's key and its order against client 3, of the story of a contractor's last day.
fn key_and_order() -> (Vec<u8>, Vec<u8>) {
    let script = fs::read_to_string("examples/last-day.script").unwrap();
    let set_up = script.lines().find(|line| line.starts_with("replica "));
    let key = set_up.unwrap().rsplit(' ').next().unwrap();
    let byte = |at| u8::from_str_radix(&key[at..at + 2], 16).unwrap();
    let key = (0..key.len()).step_by(2).map(byte).collect();
    (key, fs::read("examples/last-day.order").unwrap())
}

/// Both are handed the same requests, in each second round with client 3 withdrawn, and must answer, write and keep the same.
/// How many were sent, then refused 1 to 23.
fn compare() -> [u32; 24] {
    let mut numbers = Numbers(0x9e37_79b9_7f4a_7c15);
    let mut answers = [0u32; 24];
    let (key, order) = key_and_order();
    for round in 0..2_000 {
        let (mut proved, mut plain) = (bank::Bank::made(&key), plain_bank::Bank::made(&key));
        if round % 2 == 1 {
            proved.withdraw(&order);
            plain.withdraw(&order);
        }
        for _ in 0..50 {
            let request = any_request(&mut numbers);
            let length = OUTPUT + 9 - numbers.below(11);
            let (mut one, mut other) = ([1; OUTPUT + 19], [1; OUTPUT + 19]);
            let answer = proved.hand(&request, &mut one[..length]);
            let expected = plain.hand(&request, &mut other[..length]);
            assert_eq!(answer, expected, "{request:02x?}");
            assert_eq!(one, other, "{request:02x?}");
            assert_eq!(
                proved.held_signers(),
                plain.held_signers(),
                "{request:02x?}"
            );
            answers[answer.err().map_or(0, usize::from)] += 1;
        }
    }
    answers
}

const ROUNDS: usize = 4_000;
const BATCH: usize = 250;
const DEPTHS: usize = 32;

fn take<R: Served>(step: &Step) -> Duration {
    let mut taking = Box::new(Taking::<R>::new(step));
    let began = Instant::now();
    for _ in 0..BATCH {
        taking.again();
    }
    began.elapsed()
}

/// Does something at so many levels deeper in the stack.
#[inline(never)]
fn deeper(levels: usize, run: &mut dyn FnMut()) {
    let room = black_box([0u8; 32]);
    match levels {
        0 => run(),
        _ => deeper(levels - 1, run),
    }
    black_box(room);
}

/// Nanoseconds a step: of the best batch, and of the median one.
struct Times {
    best: f64,
    median: f64,
}

impl Times {
    fn of(mut batches: Vec<Duration>) -> Times {
        batches.sort();
        let of_step = |batch: Duration| batch.as_nanos() as f64 / BATCH as f64;
        Times {
            best: of_step(batches[0]),
            median: of_step(batches[batches.len() / 2]),
        }
    }
}

/// The times of both sides for each step. All take turns, so that a slow spell of the machine meets all of them, and each
/// round has another place in the stack: the time of a copy depends on where its two ends lie in a page.
fn times(steps: &[Step]) -> Vec<[Times; 2]> {
    let mut batches = vec![[const { Vec::new() }; 2]; steps.len()];
    for round in 0..ROUNDS {
        deeper(round % DEPTHS, &mut || {
            for (step, [proved, plain]) in steps.iter().zip(&mut batches) {
                proved.push(take::<bank::Bank>(step));
                plain.push(take::<plain_bank::Bank>(step));
            }
        });
    }
    let of_step = |batches: [Vec<Duration>; 2]| batches.map(Times::of);
    batches.into_iter().map(of_step).collect()
}

const SIDES: [&str; 2] = ["proved", "plain"];

fn take_at<R: Served>(steps: &[Step], place: &str) {
    take::<R>(&steps[place.parse::<usize>().unwrap()]);
}

/// Instructions a step, by callgrind on this very program; none where valgrind is missing.
fn instructions(place: usize, side: &str) -> Option<usize> {
    let output = Command::new("valgrind")
        .args(["--tool=callgrind", "--callgrind-out-file=/dev/null"])
        .arg("--toggle-collect=*measured_step*")
        .arg(env::current_exe().unwrap())
        .args(["take", &place.to_string(), side])
        .output()
        .ok()?;
    let said = String::from_utf8_lossy(&output.stderr);
    let (_, collected) = said
        .split_once("Collected : ")
        .unwrap_or_else(|| panic!("callgrind collected nothing: {said}"));
    let count: usize = collected.lines().next().unwrap().trim().parse().unwrap();
    Some(count / BATCH)
}

/// What a step costs one side.
struct Cost {
    times: Times,
    instructions: Option<usize>,
    copied: usize,
    copies: String,
}

impl Cost {
    /// The instructions as text.
    fn counted(&self) -> String {
        self.instructions.map_or(String::from("?"), grouped)
    }
}

/// The costs of both sides; `copies` is the step's line of the list of copies.
fn costs(place: usize, times: [Times; 2], copies: &str) -> [Cost; 2] {
    let mut copies = copies.split('\t').skip(1);
    let mut times = times.into_iter();
    SIDES.map(|side| Cost {
        times: times.next().unwrap(),
        instructions: instructions(place, side),
        copied: copies.next().unwrap().parse().unwrap(),
        copies: copies.next().unwrap().to_string(),
    })
}

/// A number below a million, with a comma.
fn grouped(number: usize) -> String {
    match (number / 1_000, number % 1_000) {
        (0, number) => number.to_string(),
        (thousands, rest) => format!("{thousands},{rest:03}"),
    }
}

/// The cost with the medians and the copies' sizes.
fn print_costs(step: &Step, costs: &[Cost; 2], [best, median]: [f64; 2]) {
    println!("{}", step.name);
    for (side, cost) in SIDES.iter().zip(costs) {
        println!(
            "  {side:8} best {:7.1} ns  median {:7.1} ns  {:>6} instructions  {:>6} bytes copied  {}",
            cost.times.best,
            cost.times.median,
            cost.counted(),
            grouped(cost.copied),
            cost.copies,
        );
    }
    println!("  proved / plain: best {best:.2}  median {median:.2}");
}

/// The cost as a row of the table.
fn print_row(step: &Step, [proved, plain]: &[Cost; 2], [best, median]: [f64; 2]) {
    println!(
        "| {} | {:.1} | {:.1} | {best:.2} | {median:.2} | {} | {} | {} | {} |",
        step.name,
        proved.times.best,
        plain.times.best,
        proved.counted(),
        plain.counted(),
        grouped(proved.copied),
        grouped(plain.copied),
    );
}

fn print_all(steps: &[Step], print: impl Fn(&Step, &[Cost; 2], [f64; 2])) {
    let copies = io::read_to_string(io::stdin()).unwrap();
    let measured = steps.iter().zip(times(steps)).zip(copies.lines());
    for (place, ((step, times), copies)) in measured.enumerate() {
        let ratios = [
            times[0].best / times[1].best,
            times[0].median / times[1].median,
        ];
        print(step, &costs(place, times, copies), ratios);
    }
}

fn main() {
    let arguments: Vec<String> = env::args().skip(1).collect();
    let steps = steps::all();
    match arguments.iter().map(String::as_str).collect::<Vec<_>>()[..] {
        [] => {
            println!(
                "100,000 requests are answered alike; sent, then refused 1 to 23: {:?}",
                compare()
            );
            print_all(&steps, print_costs);
        }
        ["rows"] => {
            compare();
            print_all(&steps, print_row);
        }
        // What callgrind runs.
        ["take", place, "proved"] => take_at::<bank::Bank>(&steps, place),
        ["take", place, "plain"] => take_at::<plain_bank::Bank>(&steps, place),
        _ => panic!("usage: bank [rows] <COPIES, or bank take PLACE proved|plain"),
    }
}
