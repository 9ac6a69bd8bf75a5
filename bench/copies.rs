//! Lists the copies that each step of `steps` makes, proved and plain, by size: the calls of memcpy, memmove and memset.
//! Fails if the proved replica copies slots in a step that is no PREPARE, or more than a register in any. Run by `bench/run`.
//!
//! The three functions are defined here, so that the linker takes them and not the C library's. Copies of up to about a
//! hundred bytes of known length are no calls, and are not counted: the compiler writes them out.
#[allow(dead_code)] // orders are timed by themselves
#[path = "../rust/bank.rs"]
mod bank;
mod plain_bank;
#[path = "../model/sha256.rs"]
mod plain_sha256;
#[allow(dead_code)] // `bank` uses more of it
mod steps;

use std::collections::BTreeMap;
use std::process::ExitCode;
use std::sync::atomic::{AtomicUsize, Ordering::Relaxed};
use steps::{Served, Step, Taking};

/// The sizes of the last calls.
static SIZES: [AtomicUsize; 256] = [const { AtomicUsize::new(0) }; 256];
static CALLS: AtomicUsize = AtomicUsize::new(0);

fn note(size: usize) {
    let call = CALLS.fetch_add(1, Relaxed);
    SIZES[call % SIZES.len()].store(size, Relaxed);
}

// The stores are volatile: of plain ones the compiler would make a call of the very function.
#[no_mangle]
unsafe extern "C" fn memmove(to: *mut u8, from: *const u8, size: usize) -> *mut u8 {
    note(size);
    let forwards = to.cast_const() < from;
    for i in 0..size {
        let at = if forwards { i } else { size - 1 - i };
        to.add(at).write_volatile(*from.add(at));
    }
    to
}

#[no_mangle]
unsafe extern "C" fn memcpy(to: *mut u8, from: *const u8, size: usize) -> *mut u8 {
    memmove(to, from, size)
}

#[no_mangle]
unsafe extern "C" fn memset(to: *mut u8, byte: i32, size: usize) -> *mut u8 {
    note(size);
    for at in 0..size {
        to.add(at).write_volatile(byte as u8);
    }
    to
}

/// The sizes of one step's calls.
fn sizes<R: Served>(step: &Step) -> Vec<usize> {
    let mut taking = Taking::<R>::new(step);
    let before = CALLS.load(Relaxed);
    taking.again();
    let after = CALLS.load(Relaxed);
    assert!(after - before <= SIZES.len(), "too many calls to list");
    (before..after)
        .map(|call| SIZES[call % SIZES.len()].load(Relaxed))
        .filter(|&size| size > 0)
        .collect()
}

/// Bytes of a register: of all slots' counts, of what it holds beside the slots, and of all.
const COUNTS: usize = 256;
const HELD: usize = 776;
const REGISTER: usize = 3_088;

/// Whether a copy of this size has some of the slots in it: no other part of a register is as large.
fn has_slots(size: usize) -> bool {
    size == COUNTS || size > HELD
}

/// The bytes of all calls, and each size with the number of its calls, largest first.
fn listed(sizes: &[usize]) -> String {
    let mut calls = BTreeMap::new();
    for &size in sizes {
        *calls.entry(size).or_insert(0) += 1;
    }
    let each = calls.iter().rev().map(|(size, n)| format!("{n} x {size}"));
    let total: usize = sizes.iter().sum();
    format!("{total}\t{}", each.collect::<Vec<_>>().join(", "))
}

fn main() -> ExitCode {
    let mut good = true;
    for step in steps::all() {
        let proved = sizes::<bank::Bank>(&step);
        let plain = sizes::<plain_bank::Bank>(&step);
        println!("{}\t{}\t{}", step.name, listed(&proved), listed(&plain));
        if !step.name.starts_with("PREPARE") && proved.iter().copied().any(has_slots) {
            eprintln!("copies: the slots are copied in {}", step.name);
            good = false;
        }
        if proved.iter().any(|&size| size > REGISTER) {
            eprintln!("copies: more than a register is copied in {}", step.name);
            good = false;
        }
    }
    if good {
        ExitCode::SUCCESS
    } else {
        ExitCode::FAILURE
    }
}
