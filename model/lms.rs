//! LMS signatures of RFC 8554, with LMS_SHA256_M32_H5 and LMOTS_SHA256_N32_W8 alone, written from the RFC: how one is checked,
//! and a signer that makes its keys from a seed as the RFC's Appendix A has it.
use super::sha256::sha256;

pub const KEY_LENGTH: usize = 56;
pub const SIGNATURE_LENGTH: usize = 1292;
/// How many leaves the tree has, 2^h: a key signs so many messages, each with a leaf of its own.
pub const LEAVES: u32 = 32;
/// The type codes: those that a key begins with are these two.
pub const LMS_SHA256_M32_H5: u32 = 5;
pub const LMOTS_SHA256_N32_W8: u32 = 4;

/// The lengths n of a one-time signature's strings and m of a node are the same.
type Node = [u8; 32];
/// I, a key pair's identifier.
pub type Identifier = [u8; 16];

/// A one-time signature's chains, p, and the last value of a chain's place, 2^w - 1.
const CHAINS: usize = 34;
const LAST: u8 = 255;
/// The height of the tree, h.
const HEIGHT: usize = 5;

const D_PBLC: u16 = 0x8080;
const D_MESG: u16 = 0x8181;
const D_LEAF: u16 = 0x8282;
const D_INTR: u16 = 0x8383;
/// In the place of j, where a chain's start is made from a seed (Appendix A).
const FROM_SEED: u8 = 0xff;

/// H of I, a number and D, and of what stands behind them.
fn hash(identifier: &Identifier, number: u32, d: u16, behind: &[&[u8]]) -> Node {
    let mut bytes = identifier.to_vec();
    bytes.extend(number.to_be_bytes());
    bytes.extend(d.to_be_bytes());
    bytes.extend(behind.concat());
    sha256(&bytes)
}

/// One chain of a one-time key, by its leaf q and its number i.
struct Chain([u8; 55]);

impl Chain {
    fn new(identifier: &Identifier, leaf: u32, i: usize) -> Chain {
        let mut bytes = [0; 55];
        bytes[..16].copy_from_slice(identifier);
        bytes[16..20].copy_from_slice(&leaf.to_be_bytes());
        bytes[20..22].copy_from_slice(&(i as u16).to_be_bytes());
        Chain(bytes)
    }

    /// H(I || u32str(q) || u16str(i) || u8str(j) || tmp)
    fn step(&mut self, j: u8, tmp: &Node) -> Node {
        self.0[22] = j;
        self.0[23..].copy_from_slice(tmp);
        sha256(&self.0)
    }

    /// The steps from one place to another.
    fn walk(&mut self, from: u8, to: u8, start: Node) -> Node {
        (from..to).fold(start, |tmp, j| self.step(j, &tmp))
    }
}

/// Q with its checksum: a digit of eight bits for each chain.
fn digits(identifier: &Identifier, leaf: u32, c: &Node, message: &[u8]) -> [u8; CHAINS] {
    let q = hash(identifier, leaf, D_MESG, &[c, message]);
    let sum: u16 = q.iter().map(|&digit| u16::from(LAST - digit)).sum();
    let mut digits = [0; CHAINS];
    digits[..32].copy_from_slice(&q);
    digits[32..].copy_from_slice(&sum.to_be_bytes());
    digits
}

/// A node of the tree from the two below it.
fn parent(identifier: &Identifier, number: u32, left: &Node, right: &Node) -> Node {
    hash(identifier, number, D_INTR, &[left, right])
}

/// A signature's parts; its two type codes are right.
struct Signature {
    leaf: u32,
    c: Node,
    y: Vec<Node>,
    path: Vec<Node>,
}

/// Takes so many bytes from the front.
fn take<const N: usize>(bytes: &mut &[u8]) -> Option<[u8; N]> {
    let (taken, rest) = bytes.split_first_chunk()?;
    *bytes = rest;
    Some(*taken)
}

fn take_code(bytes: &mut &[u8], code: u32) -> Option<()> {
    (u32::from_be_bytes(take(bytes)?) == code).then_some(())
}

fn take_nodes(bytes: &mut &[u8], number: usize) -> Option<Vec<Node>> {
    (0..number).map(|_| take(bytes)).collect()
}

impl Signature {
    fn decode(mut bytes: &[u8]) -> Option<Signature> {
        let rest = &mut bytes;
        let leaf = u32::from_be_bytes(take(rest)?);
        take_code(rest, LMOTS_SHA256_N32_W8)?;
        let c = take(rest)?;
        let y = take_nodes(rest, CHAINS)?;
        take_code(rest, LMS_SHA256_M32_H5)?;
        let path = take_nodes(rest, HEIGHT)?;
        let signature = Signature { leaf, c, y, path };
        rest.is_empty().then_some(signature)
    }

    fn encode(&self) -> Vec<u8> {
        let mut bytes = self.leaf.to_be_bytes().to_vec();
        bytes.extend(LMOTS_SHA256_N32_W8.to_be_bytes());
        bytes.extend(self.c);
        bytes.extend(self.y.concat());
        bytes.extend(LMS_SHA256_M32_H5.to_be_bytes());
        bytes.extend(self.path.concat());
        bytes
    }

    /// Algorithm 4b: the candidate Kc for the one-time public key.
    fn one_time_key(&self, identifier: &Identifier, message: &[u8]) -> Node {
        let digits = digits(identifier, self.leaf, &self.c, message);
        let mut ends = Vec::new();
        for (i, (&digit, &y)) in digits.iter().zip(&self.y).enumerate() {
            ends.extend(Chain::new(identifier, self.leaf, i).walk(digit, LAST, y));
        }
        hash(identifier, self.leaf, D_PBLC, &[&ends])
    }

    /// Algorithm 6a: the candidate Tc for the root. It does not test the leaf.
    fn root(&self, identifier: &Identifier, message: &[u8]) -> Node {
        let kc = self.one_time_key(identifier, message);
        let mut number = LEAVES.wrapping_add(self.leaf);
        let mut node = hash(identifier, number, D_LEAF, &[&kc]);
        for beside in &self.path {
            let is_right = number % 2 == 1;
            number /= 2;
            node = if is_right {
                parent(identifier, number, beside, &node)
            } else {
                parent(identifier, number, &node, beside)
            };
        }
        node
    }
}

fn public_key(identifier: &Identifier, root: &Node) -> [u8; KEY_LENGTH] {
    let mut key = [0; KEY_LENGTH];
    key[..4].copy_from_slice(&LMS_SHA256_M32_H5.to_be_bytes());
    key[4..8].copy_from_slice(&LMOTS_SHA256_N32_W8.to_be_bytes());
    key[8..24].copy_from_slice(identifier);
    key[24..].copy_from_slice(root);
    key
}

/// Whether a public key has the length and the type codes.
pub fn is_key(key: &[u8]) -> bool {
    let codes = public_key(&[0; 16], &[0; 32]);
    key.len() == KEY_LENGTH && key[..8] == codes[..8]
}

/// Algorithm 6: whether a signature of a message is valid under a public key.
pub fn verifies(key: &[u8], message: &[u8], signature: &[u8]) -> bool {
    let Some(signature) = Signature::decode(signature) else {
        return false;
    };
    if !is_key(key) || signature.leaf >= LEAVES {
        return false;
    }
    let identifier = key[8..24].try_into().expect("16 bytes");
    key[24..] == signature.root(&identifier, message)
}

/// The key under which a signature with the right length and type codes is valid, if its leaf is one of the tree's.
pub fn key_for(
    identifier: &Identifier,
    message: &[u8],
    signature: &[u8],
) -> Option<[u8; KEY_LENGTH]> {
    let root = Signature::decode(signature)?.root(identifier, message);
    Some(public_key(identifier, &root))
}

/// A private key: it does not count the leaves that it has used.
pub struct Signer {
    identifier: Identifier,
    seed: Node,
    /// The tree by its nodes' numbers, the root's being 1; at 0 stands nothing.
    nodes: Vec<Node>,
}

impl Signer {
    pub fn new(identifier: Identifier, seed: [u8; 32]) -> Signer {
        let mut signer = Signer {
            identifier,
            seed,
            nodes: vec![[0; 32]; 2 * LEAVES as usize],
        };
        for leaf in 0..LEAVES {
            let key = signer.one_time_key(leaf);
            let number = LEAVES + leaf;
            signer.nodes[number as usize] = hash(&identifier, number, D_LEAF, &[&key]);
        }
        for number in (1..LEAVES).rev() {
            let below = 2 * number as usize;
            let [left, right] = [signer.nodes[below], signer.nodes[below + 1]];
            signer.nodes[number as usize] = parent(&identifier, number, &left, &right);
        }
        signer
    }

    pub fn key(&self) -> [u8; KEY_LENGTH] {
        public_key(&self.identifier, &self.nodes[1])
    }

    /// Where a chain of a leaf's one-time key is at a place: its start is of the private key, its end of the public one.
    fn chain_at(&self, leaf: u32, i: usize, place: u8) -> Node {
        let mut chain = Chain::new(&self.identifier, leaf, i);
        let start = chain.step(FROM_SEED, &self.seed);
        chain.walk(0, place, start)
    }

    /// Algorithm 1.
    fn one_time_key(&self, leaf: u32) -> Node {
        let ends: Vec<Node> = (0..CHAINS).map(|i| self.chain_at(leaf, i, LAST)).collect();
        hash(&self.identifier, leaf, D_PBLC, &[&ends.concat()])
    }

    /// Algorithms 3 and 5: a message signed with a leaf of the tree and the random string C.
    pub fn sign(&self, leaf: u32, c: [u8; 32], message: &[u8]) -> Vec<u8> {
        let digits = digits(&self.identifier, leaf, &c, message);
        let chains = digits.into_iter().enumerate();
        let number = (LEAVES + leaf) as usize;
        let signature = Signature {
            leaf,
            c,
            y: chains
                .map(|(i, digit)| self.chain_at(leaf, i, digit))
                .collect(),
            path: (0..HEIGHT)
                .map(|level| self.nodes[number >> level ^ 1])
                .collect(),
        };
        signature.encode()
    }
}
