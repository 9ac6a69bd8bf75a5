//! Withdrawal orders (document 02, #105): their form, and the tests 21 and 22.
use super::lms::{is_key, verifies, KEY_LENGTH, SIGNATURE_LENGTH};
use super::message::{refuse_if, Refusal, CLIENTS};

/// The bit map: just bits 0 and 1.
pub const MAP: [u8; 2] = [0, 3];
/// What is signed: bit map, client and order number.
pub const SIGNED_LENGTH: usize = 7;
pub const ORDER_LENGTH: usize = SIGNED_LENGTH + SIGNATURE_LENGTH;

/// A key that has no signatures, where a replica is set up that is handed no orders.
pub const ZERO_KEY: [u8; KEY_LENGTH] = {
    let mut key = [0; KEY_LENGTH];
    key[3] = 5;
    key[7] = 4;
    key
};

/// What an order is signed over.
pub fn signed_part(client: u8, number: u32) -> Vec<u8> {
    let mut bytes = MAP.to_vec();
    bytes.push(client);
    bytes.extend(number.to_be_bytes());
    bytes
}

/// Test 16, of the office's key.
pub fn check_key(key: &[u8]) -> Result<(), Refusal> {
    refuse_if(16, !is_key(key))
}

/// Tests 21 and 22: the client that the order withdraws.
pub fn check_order(key: &[u8], order: &[u8]) -> Result<u8, Refusal> {
    refuse_if(21, order.len() != ORDER_LENGTH)?;
    let (signed, signature) = order.split_at(SIGNED_LENGTH);
    let client = signed[2];
    refuse_if(21, signed[..2] != MAP || !CLIENTS.contains(&client))?;
    refuse_if(22, !verifies(key, signed, signature))?;
    Ok(client)
}
