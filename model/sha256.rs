//! A plain Rust SHA-256: the fastest of the shapes that were tried, since the bench measures the proved one by it.

const K: [u32; 64] = [
    0x428a2f98, 0x71374491, 0xb5c0fbcf, 0xe9b5dba5, 0x3956c25b, 0x59f111f1, 0x923f82a4, 0xab1c5ed5,
    0xd807aa98, 0x12835b01, 0x243185be, 0x550c7dc3, 0x72be5d74, 0x80deb1fe, 0x9bdc06a7, 0xc19bf174,
    0xe49b69c1, 0xefbe4786, 0x0fc19dc6, 0x240ca1cc, 0x2de92c6f, 0x4a7484aa, 0x5cb0a9dc, 0x76f988da,
    0x983e5152, 0xa831c66d, 0xb00327c8, 0xbf597fc7, 0xc6e00bf3, 0xd5a79147, 0x06ca6351, 0x14292967,
    0x27b70a85, 0x2e1b2138, 0x4d2c6dfc, 0x53380d13, 0x650a7354, 0x766a0abb, 0x81c2c92e, 0x92722c85,
    0xa2bfe8a1, 0xa81a664b, 0xc24b8b70, 0xc76c51a3, 0xd192e819, 0xd6990624, 0xf40e3585, 0x106aa070,
    0x19a4c116, 0x1e376c08, 0x2748774c, 0x34b0bcb5, 0x391c0cb3, 0x4ed8aa4a, 0x5b9cca4f, 0x682e6ff3,
    0x748f82ee, 0x78a5636f, 0x84c87814, 0x8cc70208, 0x90befffa, 0xa4506ceb, 0xbef9a3f7, 0xc67178f2,
];

const INITIAL_HASH: [u32; 8] = [
    0x6a09e667, 0xbb67ae85, 0x3c6ef372, 0xa54ff53a, 0x510e527f, 0x9b05688c, 0x1f83d9ab, 0x5be0cd19,
];

fn ch(x: u32, y: u32, z: u32) -> u32 {
    z ^ (x & (y ^ z))
}

fn maj(x: u32, y: u32, z: u32) -> u32 {
    y ^ ((x ^ y) & (y ^ z))
}

fn big_sigma0(x: u32) -> u32 {
    x.rotate_right(2) ^ x.rotate_right(13) ^ x.rotate_right(22)
}

fn big_sigma1(x: u32) -> u32 {
    x.rotate_right(6) ^ x.rotate_right(11) ^ x.rotate_right(25)
}

fn small_sigma0(x: u32) -> u32 {
    (x.rotate_right(11) ^ x).rotate_right(7) ^ (x >> 3)
}

fn small_sigma1(x: u32) -> u32 {
    (x.rotate_right(2) ^ x).rotate_right(17) ^ (x >> 10)
}

/// All 64 rounds written out. They rename the variables, and from round 16 on each first makes its word of the schedule,
/// in a ring of 16 words.
fn compress(hash: &mut [u32; 8], block: [u32; 16]) {
    let mut w = block;
    // Kept in memory: as immediates they are added last, a cycle more on the way from round to round.
    let k: &[u32; 64] = std::hint::black_box(&K);
    let [mut a, mut b, mut c, mut d, mut e, mut f, mut g, mut h] = *hash;
    macro_rules! round {
        ($a:ident $b:ident $c:ident $d:ident $e:ident $f:ident $g:ident $h:ident $t:expr) => {
            if $t >= 16 {
                w[$t % 16] = w[$t % 16]
                    .wrapping_add(small_sigma1(w[($t + 14) % 16]))
                    .wrapping_add(w[($t + 9) % 16])
                    .wrapping_add(small_sigma0(w[($t + 1) % 16]));
            }
            let t1 = $h
                .wrapping_add(big_sigma1($e))
                .wrapping_add(ch($e, $f, $g))
                .wrapping_add(k[$t])
                .wrapping_add(w[$t % 16]);
            $d = $d.wrapping_add(t1);
            $h = t1
                .wrapping_add(big_sigma0($a))
                .wrapping_add(maj($a, $b, $c));
        };
    }
    macro_rules! eight_rounds_from {
        ($($t:expr)*) => {$(
            round!(a b c d e f g h $t);
            round!(h a b c d e f g $t + 1);
            round!(g h a b c d e f $t + 2);
            round!(f g h a b c d e $t + 3);
            round!(e f g h a b c d $t + 4);
            round!(d e f g h a b c $t + 5);
            round!(c d e f g h a b $t + 6);
            round!(b c d e f g h a $t + 7);
        )*};
    }
    eight_rounds_from!(0 8 16 24 32 40 48 56);
    for (sum, v) in hash.iter_mut().zip([a, b, c, d, e, f, g, h]) {
        *sum = sum.wrapping_add(v);
    }
}

/// The words of fewer than 64 bytes, with the bit 1 and zeros behind. They are made one by one: a padded copy of the
/// bytes takes 15 ns more.
fn padded(rest: &[u8]) -> [u32; 16] {
    let mut words = [0; 16];
    let mut whole = rest.chunks_exact(4);
    for (word, bytes) in words.iter_mut().zip(&mut whole) {
        *word = u32::from_be_bytes(bytes.try_into().unwrap());
    }
    let left = whole.remainder();
    let end = left.iter().fold(0, |end, &byte| end << 8 | u32::from(byte));
    words[rest.len() / 4] = (end << 8 | 0x80) << (24 - 8 * left.len());
    words
}

/// Full blocks from the message, then its end with the padding in one or two blocks.
pub fn sha256(message: &[u8]) -> [u8; 32] {
    let mut hash = INITIAL_HASH;
    let mut blocks = message.chunks_exact(64);
    for block in &mut blocks {
        let word = |i| u32::from_be_bytes(std::array::from_fn(|j| block[4 * i + j]));
        compress(&mut hash, std::array::from_fn(word));
    }
    let rest = blocks.remainder();
    let mut last = padded(rest);
    if rest.len() >= 56 {
        compress(&mut hash, last);
        last = [0; 16];
    }
    let bits = 8 * message.len() as u64;
    last[14] = (bits >> 32) as u32;
    last[15] = bits as u32;
    compress(&mut hash, last);
    let mut digest = [0; 32];
    for (bytes, word) in digest.chunks_exact_mut(4).zip(hash) {
        bytes.copy_from_slice(&word.to_be_bytes());
    }
    digest
}
