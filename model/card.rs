//! The wheel-set card's table.

pub const STARTING_CARD: [u8; 2] = [0, 0];

/// Bytes, smallest and largest value of the field of each bit of the card's bit map.
pub const FIELDS: [(usize, u32, u32); 7] = [
    (2, 4_000, 9_000),
    (2, 4_000, 9_000),
    (2, 150, 350),
    (2, 150, 350),
    (4, 0, 2_000_000),
    (1, 1, 4),
    (2, 0, 65_535),
];

fn big_endian(bytes: &[u8]) -> u32 {
    bytes
        .iter()
        .fold(0, |value, &byte| value << 8 | u32::from(byte))
}

/// Whether the bytes are a card that keeps its table.
pub fn keeps_table(card: &[u8]) -> bool {
    let Some((map, mut rest)) = card.split_at_checked(2) else {
        return false;
    };
    let map = big_endian(map);
    if map >> FIELDS.len() != 0 || map & 1 != map >> 1 & 1 {
        return false;
    }
    for (bit, (length, smallest, largest)) in FIELDS.into_iter().enumerate() {
        if map >> bit & 1 == 0 {
            continue;
        }
        let Some((field, behind)) = rest.split_at_checked(length) else {
            return false;
        };
        if !(smallest..=largest).contains(&big_endian(field)) {
            return false;
        }
        rest = behind;
    }
    rest.is_empty()
}
