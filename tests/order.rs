//! Makes an order for the examples, with the model's signer.
//!
//! `order IDENTIFIER SEED` prints the public key of a private one in hex; `order IDENTIFIER SEED LEAF CLIENT NUMBER` writes the
//! bytes of an order against a client, signed with a leaf, 0 to 31. IDENTIFIER has 16 bytes and SEED 32, in hex. Nobody counts
//! which leaves are used. Built by `rustc -O --edition 2021 tests/order.rs -o target/order`.
#[allow(dead_code)] // the comparisons use more of it
#[path = "../model/mod.rs"]
mod model;

use model::lms::{Signer, LEAVES};
use model::order::signed_part;
use model::script::{hex, unhex};
use model::sha256::sha256;
use std::io::{self, Write};
use std::process::ExitCode;

fn bytes<const N: usize>(word: &str) -> Option<[u8; N]> {
    unhex(word)?.try_into().ok()
}

/// What the words ask for.
fn made(words: &[&str]) -> Option<Vec<u8>> {
    let [identifier, seed, rest @ ..] = words else {
        return None;
    };
    let seed = bytes(seed)?;
    let signer = Signer::new(bytes(identifier)?, seed);
    match *rest {
        [] => Some(format!("{}\n", hex(&signer.key())).into_bytes()),
        [leaf, client, number] => {
            let leaf: u32 = leaf.parse().ok().filter(|leaf| *leaf < LEAVES)?;
            let part = signed_part(client.parse().ok()?, number.parse().ok()?);
            // C is any string that nobody can foretell: this one is told by the seed, so that the order can be made again
            let c = sha256(&[&seed[..], &part].concat());
            Some([part.clone(), signer.sign(leaf, c, &part)].concat())
        }
        _ => None,
    }
}

fn main() -> ExitCode {
    let words: Vec<String> = std::env::args().skip(1).collect();
    let words: Vec<&str> = words.iter().map(String::as_str).collect();
    let Some(made) = made(&words) else {
        eprintln!("order IDENTIFIER SEED [LEAF CLIENT NUMBER]");
        return ExitCode::from(2);
    };
    match io::stdout().write_all(&made) {
        Ok(()) => ExitCode::SUCCESS,
        Err(error) => {
            eprintln!("order: {error}");
            ExitCode::FAILURE
        }
    }
}
