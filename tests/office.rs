//! The office: its keys, and orders under them, sound ones and ones with defects.
use crate::model::lms::{key_for, Signer, LEAVES, SIGNATURE_LENGTH};
use crate::model::order::{signed_part, MAP, ORDER_LENGTH, SIGNED_LENGTH};
use crate::model::random::Random;
use std::ops::Range;

/// How many keys there are: making one takes as long as sixty signatures.
pub const KEYS: usize = 2;

/// Where the parts of an order begin, and where the last one ends. Behind what is signed stand the leaf, a type code, C, the 34
/// strings of the one-time signature, the other type code, and the five nodes of the path.
const LEAF: usize = SIGNED_LENGTH;
const ONE_TIME_CODE: usize = LEAF + 4;
const C: usize = ONE_TIME_CODE + 4;
const STRINGS: usize = C + 32;
const TREE_CODE: usize = STRINGS + 34 * 32;
const PATH: usize = TREE_CODE + 4;

pub struct Office {
    signers: Vec<Signer>,
    /// One action of a run in so many is an order: each takes a millisecond to sign, and another to check.
    pub one_in: usize,
}

impl Office {
    pub fn new(random: &mut Random, one_in: usize) -> Office {
        let signer = |_| Signer::new(random.bytes(), random.bytes());
        Office {
            signers: (0..KEYS).map(signer).collect(),
            one_in,
        }
    }

    pub fn key(&self, at: usize) -> Vec<u8> {
        self.signers[at].key().to_vec()
    }

    /// A whole order: what is signed, with a signature over the bytes `over`.
    fn signed(&self, random: &mut Random, at: usize, signed: Vec<u8>, over: &[u8]) -> Vec<u8> {
        let leaf = random.below(LEAVES as usize) as u32;
        let signature = self.signers[at].sign(leaf, random.bytes(), over);
        [signed, signature].concat()
    }

    /// An order against a client, of any number, that is genuine under a key. The order numbers repeat and fall, and so do the
    /// leaves.
    pub fn order(&self, random: &mut Random, at: usize, client: u8) -> Vec<u8> {
        let any = random.number() as u32;
        let number = random.pick(&[0, 1, 2, any, any, u32::MAX]);
        let part = signed_part(client, number);
        self.signed(random, at, part.clone(), &part)
    }

    /// One with a genuine signature all the same: over a bit map or a client that no order has, over fewer bytes or more.
    pub fn misfit(&self, random: &mut Random, at: usize, client: u8) -> Vec<u8> {
        let mut part = signed_part(client, 1);
        match random.below(4) {
            0 => part[..2].copy_from_slice(&bad_map(random)),
            1 => part[2] = bad_client(random),
            2 => return self.signed(random, at, part.clone(), &part[..SIGNED_LENGTH - 1]),
            _ => return self.signed(random, at, part.clone(), &[&part[..], &[0]].concat()),
        }
        self.signed(random, at, part.clone(), &part)
    }
}

fn bad_map(random: &mut Random) -> [u8; 2] {
    random.pick(&[
        [0, 0],
        [0, 1],
        [0, 2],
        [0, 7],
        [0, 0x83],
        [1, 3],
        [0x80, 3],
        [3, 0],
    ])
}

fn bad_client(random: &mut Random) -> u8 {
    let above = 97 + random.below(159) as u8;
    random.pick(&[0, 0, 97, 97, 255, above])
}

/// An order of any bytes with the right codes, and the key under which it is genuine if its leaf is one of the tree's.
pub fn order_and_key(random: &mut Random, client: u8, leaf: u32) -> (Vec<u8>, Vec<u8>) {
    let part = signed_part(client, random.number() as u32);
    let mut order = [part.clone(), random.some_bytes(SIGNATURE_LENGTH)].concat();
    order[LEAF..ONE_TIME_CODE].copy_from_slice(&leaf.to_be_bytes());
    order[ONE_TIME_CODE..C].copy_from_slice(&4u32.to_be_bytes());
    order[TREE_CODE..PATH].copy_from_slice(&5u32.to_be_bytes());
    let key = key_for(&random.bytes(), &part, &order[SIGNED_LENGTH..]);
    (order, key.expect("a signature of this form").to_vec())
}

/// Each part of an order by itself, each string and each node of the path too.
pub fn parts() -> Vec<Range<usize>> {
    let mut starts = vec![0, MAP.len(), MAP.len() + 1, LEAF, ONE_TIME_CODE, C];
    starts.extend((STRINGS..TREE_CODE).step_by(32));
    starts.push(TREE_CODE);
    starts.extend((PATH..=ORDER_LENGTH).step_by(32));
    starts.windows(2).map(|pair| pair[0]..pair[1]).collect()
}

/// Changes a bit of a part.
pub fn flip(random: &mut Random, order: &mut [u8], part: Range<usize>) {
    let at = part.start + random.below(part.len());
    if let Some(byte) = order.get_mut(at) {
        *byte ^= 1 << random.below(8);
    }
}

/// The order with a defect, or with two, so that the order of the tests shows. A second change of client or number may leave none.
pub fn spoiled_order(random: &mut Random, mut order: Vec<u8>) -> Vec<u8> {
    for _ in 0..1 + random.below(2) {
        spoil_order(random, &mut order);
    }
    order
}

fn spoil_order(random: &mut Random, order: &mut Vec<u8>) {
    if order.len() < ORDER_LENGTH {
        return;
    }
    match random.below(8) {
        0 | 1 => {
            let part = random.pick(&parts());
            flip(random, order, part);
        }
        2 => order[2] = 1 + random.below(96) as u8,
        3 => order[2] = bad_client(random),
        4 => order[..2].copy_from_slice(&bad_map(random)),
        5 => order[LEAF..ONE_TIME_CODE].copy_from_slice(&bad_leaf(random).to_be_bytes()),
        6 => spoil_codes(random, order),
        _ => {
            let any = random.below(ORDER_LENGTH);
            let lengths = [0, 1, 6, 7, any, 1298, 1300, 1363, 2048, 2049];
            order.resize(random.pick(&lengths), 0);
        }
    }
}

pub fn bad_leaf(random: &mut Random) -> u32 {
    let above = LEAVES + random.number() as u32 % (u32::MAX - LEAVES);
    random.pick(&[LEAVES, LEAVES, LEAVES + 1, 255, 256, u32::MAX, above])
}

/// The code of another height, or of another width.
fn spoil_codes(random: &mut Random, order: &mut [u8]) {
    if random.percent(50) {
        order[TREE_CODE + 3] = random.pick(&[0, 4, 6]);
    } else {
        order[ONE_TIME_CODE + 3] = random.pick(&[0, 3, 5]);
    }
}

/// A key that is refused with 16; one of 65 bytes has no meaning.
pub fn bad_key(random: &mut Random, mut key: Vec<u8>) -> Vec<u8> {
    match random.below(4) {
        0 | 1 => key.resize(random.pick(&[0, 1, 8, 24, 55, 57, 64, 65]), 0),
        2 => key[random.below(8)] ^= 1 << random.below(8),
        _ => key[..8].rotate_left(4),
    }
    key
}
