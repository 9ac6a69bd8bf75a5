//! Times the proved bank on a withdrawal order beside the model's check, plain Rust, after comparing what the two say of
//! many orders. With the argument `rows` it prints the row of docs/SPEED.md's table. Run by `bench/run`.
#[allow(dead_code)] // messages are timed by themselves
#[path = "../rust/bank.rs"]
mod bank;
#[allow(dead_code)] // the comparisons use more of it
#[path = "../model/mod.rs"]
mod model;

use bank::{Bank, ReplicaId, Taking, KEY};
use model::lms::Signer;
use model::order::{check_order, signed_part, ORDER_LENGTH};
use std::env;
use std::hint::black_box;
use std::time::Instant;

type Order = [u8; ORDER_LENGTH];

/// Order `number` to withdraw a client, signed by leaf q.
fn order(signer: &Signer, q: u32, client: u8, number: u32) -> Order {
    let signed = signed_part(client, number);
    let signature = signer.sign(q, [q as u8; 32], &signed);
    [signed, signature].concat().try_into().unwrap()
}

#[inline(never)]
fn proved(bank: &mut Bank, order: &Order) -> Result<(), u8> {
    match bank.take_order(order) {
        Taking::Taken => Ok(()),
        Taking::Refused(number) => Err(number),
    }
}

#[inline(never)]
fn plain(key: &[u8; KEY], order: &Order) -> Result<(), u8> {
    check_order(key, order).map(|_| ())
}

/// Each order as it is, and with a bit of every part changed: how many both sides take, and refuse by 21 and by 22.
fn compare(bank: &mut Bank, key: &[u8; KEY], orders: &[Order]) -> [u32; 3] {
    let parts = [
        0, 2, 3, 6, 7, 10, 14, 15, 46, 47, 1_134, 1_138, 1_139, 1_298,
    ];
    let mut answers = [0; 3];
    for order in orders {
        for change in [None].into_iter().chain(parts.map(Some)) {
            let mut order = *order;
            if let Some(at) = change {
                order[at] ^= 0x80;
            }
            let answer = proved(bank, &order);
            assert_eq!(answer, plain(key, &order), "{change:?}");
            answers[answer.err().map_or(0, |number| usize::from(number) - 20)] += 1;
        }
    }
    answers
}

const ROUNDS: usize = 100;

/// Microseconds an order, over all of them, so that the lengths of the chains are the usual ones.
fn batch(orders: &[Order], mut take: impl FnMut(&Order) -> Result<(), u8>) -> f64 {
    let began = Instant::now();
    for order in orders {
        black_box(take(black_box(order))).unwrap();
    }
    began.elapsed().as_nanos() as f64 / 1_000.0 / orders.len() as f64
}

/// The batches' times of both, which take turns, each from the best to the worst.
fn measure(bank: &mut Bank, key: &[u8; KEY], orders: &[Order]) -> [Vec<f64>; 2] {
    let mut times = [Vec::new(), Vec::new()];
    for _ in 0..ROUNDS {
        times[0].push(batch(orders, |order| proved(bank, order)));
        times[1].push(batch(orders, |order| plain(key, order)));
    }
    for of_one in &mut times {
        of_one.sort_by(f64::total_cmp);
    }
    times
}

fn main() {
    let signer = Signer::new([7; 16], [7; 32]);
    let key = signer.key();
    let mut bank = Bank::fresh(5, ReplicaId(1), &key).unwrap();
    let orders: Vec<Order> = (0..32)
        .map(|q| order(&signer, q, 1 + 3 * q as u8, 1_000 * q))
        .collect();
    let answers = compare(&mut bank, &key, &orders);
    let [proved, plain] = measure(&mut bank, &key, &orders);
    let [best, median] = [0, ROUNDS / 2].map(|at| proved[at] / plain[at]);
    if env::args().count() > 1 {
        println!(
            "| order, taken | {:.0} | {:.0} | {best:.2} | {median:.2} |",
            proved[0], plain[0]
        );
        return;
    }
    println!("orders answered alike; taken, then refused 21 and 22: {answers:?}");
    println!("an order, taken");
    for (side, times) in [("proved", &proved), ("plain", &plain)] {
        println!(
            "  {side:8} best {:7.1} us  median {:7.1} us",
            times[0],
            times[ROUNDS / 2]
        );
    }
    println!("  proved / plain: best {best:.2}  median {median:.2}");
}
