//! Times the proved SHA-256 of the crate `wire` beside a plain Rust one, after comparing their digests. With the argument
//! `rows` it prints the rows of docs/SPEED.md's table. Run by `bench/run`, which links the static library of `wire`.
#[path = "../model/sha256.rs"]
mod plain_sha256;

use plain_sha256::sha256;
use std::env;
use std::hint::black_box;
use std::time::Instant;

extern "C" {
    // A slice crosses as its pointer and its length.
    fn wire_sha256(message: *const u8, length: usize, out: *mut [u8; 32]) -> bool;
}

const LONGEST_MESSAGE: usize = 4_096;

#[inline(never)]
fn proved(message: &[u8]) -> [u8; 32] {
    let mut out = [0; 32];
    unsafe { wire_sha256(message.as_ptr(), message.len(), &mut out) };
    out
}

#[inline(never)]
fn plain(message: &[u8]) -> [u8; 32] {
    sha256(message)
}

fn bytes(length: usize) -> Vec<u8> {
    (0..length).map(|i| (7 * i + 3) as u8).collect()
}

fn compare() {
    let message = bytes(LONGEST_MESSAGE + 1);
    for length in 0..=message.len() {
        let part = &message[..length];
        let mut out = [1; 32];
        let fits = unsafe { wire_sha256(part.as_ptr(), part.len(), &mut out) };
        assert_eq!(fits, length <= LONGEST_MESSAGE, "at {length} bytes");
        let expected = if fits { plain(part) } else { [0; 32] };
        assert_eq!(out, expected, "at {length} bytes");
    }
}

/// Nanoseconds a digest, in one batch.
fn batch(digest: fn(&[u8]) -> [u8; 32], message: &[u8], count: u32) -> f64 {
    let began = Instant::now();
    for _ in 0..count {
        black_box(digest(black_box(message)));
    }
    began.elapsed().as_nanos() as f64 / f64::from(count)
}

const ROUNDS: usize = 400;

/// The batches' times of both, which take turns, each from the best to the worst.
fn measure(length: usize, count: u32) -> [Vec<f64>; 2] {
    let message = bytes(length);
    let mut times = [Vec::new(), Vec::new()];
    for _ in 0..ROUNDS {
        times[0].push(batch(proved, &message, count));
        times[1].push(batch(plain, &message, count));
    }
    for of_one in &mut times {
        of_one.sort_by(f64::total_cmp);
    }
    times
}

fn main() {
    compare();
    let rows = env::args().count() > 1;
    if !rows {
        println!(
            "the digests of all lengths 0 to {} agree",
            LONGEST_MESSAGE + 1
        );
    }
    for (name, length, count) in [("17 bytes", 17, 2000), ("4,096 bytes", LONGEST_MESSAGE, 50)] {
        let [proved, plain] = measure(length, count);
        let [best, median] = [0, ROUNDS / 2].map(|at| proved[at] / plain[at]);
        if rows {
            println!(
                "| {name} | {:.0} | {:.0} | {best:.2} | {median:.2} |",
                proved[0], plain[0]
            );
            continue;
        }
        println!("SHA-256 of {name}");
        for (side, times) in [("proved", &proved), ("plain", &plain)] {
            println!(
                "  {side:8} best {:7.1} ns  median {:7.1} ns",
                times[0],
                times[ROUNDS / 2]
            );
        }
        println!("  proved / plain: best {best:.2}  median {median:.2}");
    }
}
