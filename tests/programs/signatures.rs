//! LMS signatures: the model on RFC 8554's vectors, which the crate `lms_vectors` has, and the program of that name on those and
//! on random ones.
use crate::model::lms::{verifies, Identifier, Signer, LEAVES};
use crate::model::random::Random;
use crate::model::script::{hex, unhex};
use crate::program::{Failure, Line, Program, HUGE_BUFFER};
use crate::tally::Tally;
use std::fs;

const LINES: usize = 300;
/// The digest takes 4,096 bytes, so a longer message has no signature.
const LONGEST_MESSAGE: usize = 4_042;

pub const FLOORS: [(&str, usize); 4] = [
    ("genuine", 100),
    ("not", 100),
    ("too long", 5),
    ("vectors: genuine", 3),
];

/// The second tree of Appendix F's test case 2, whose private key the RFC tells, and the leaf that signs.
const SECOND_TREE: Identifier = [
    0x21, 0x5f, 0x83, 0xb7, 0xcc, 0xb9, 0xac, 0xbc, 0xd0, 0x8d, 0xb9, 0x7b, 0x0d, 0x04, 0xdc, 0x2b,
];
const SECOND_SEED: [u8; 32] = [
    0xa1, 0xc4, 0x69, 0x6e, 0x26, 0x08, 0x03, 0x5a, 0x88, 0x61, 0x00, 0xd0, 0x5c, 0xd9, 0x99, 0x45,
    0xeb, 0x33, 0x70, 0x73, 0x18, 0x84, 0xa8, 0x23, 0x5e, 0x2f, 0xb3, 0xd4, 0xd7, 0x1f, 0x25, 0x47,
];
const SECOND_LEAF: u32 = 4;

/// A line of the program.
struct Case {
    key: Vec<u8>,
    message: Vec<u8>,
    signature: Vec<u8>,
}

impl Case {
    fn read(line: &str) -> Option<Case> {
        let words: Option<Vec<_>> = line.to_uppercase().split(' ').map(unhex).collect();
        let [key, message, signature] = words?.try_into().ok()?;
        Some(Case {
            key,
            message,
            signature,
        })
    }

    fn text(&self) -> String {
        let words = [&self.key, &self.message, &self.signature];
        words.map(|bytes| hex(bytes)).join(" ")
    }

    fn verdict(&self) -> &'static str {
        let fits = self.message.len() <= LONGEST_MESSAGE;
        if fits && verifies(&self.key, &self.message, &self.signature) {
            "genuine"
        } else {
            "not"
        }
    }
}

fn said(words: String) -> Failure {
    Failure::NotRun(words)
}

fn read(name: &str) -> Result<String, Failure> {
    let path = format!("crates/lms_vectors/{name}");
    fs::read_to_string(&path).map_err(|error| said(format!("{path}: {error}")))
}

/// The model on the RFC's vectors, and on those that were made from them.
fn check_vectors(tally: &mut Tally) -> Result<(), Failure> {
    let (lines, verdicts) = (read("stdin")?, read("stdout")?);
    for (at, (line, verdict)) in (1..).zip(lines.lines().zip(verdicts.lines())) {
        let given = Case::read(line).map_or("unread", |case| case.verdict());
        if given != verdict {
            let must = format!("vector {at} must be {verdict}, but for the model it is {given}");
            return Err(said(must));
        }
        tally.count(format!("vectors: {verdict}"));
    }
    check_signer(&lines)
}

/// The model's signer makes the RFC's own key and signature of test case 2.
fn check_signer(lines: &str) -> Result<(), Failure> {
    let signer = Signer::new(SECOND_TREE, SECOND_SEED);
    let mut cases = lines.lines().filter_map(Case::read);
    let first = cases.find(|case| case.key == signer.key());
    let first = first.ok_or_else(|| said("no vector has the key of test case 2".to_string()))?;
    let c = first.signature[8..40].try_into().expect("32 bytes");
    if signer.sign(SECOND_LEAF, c, &first.message) != first.signature {
        return Err(said("the model signs otherwise than the RFC".to_string()));
    }
    Ok(())
}

fn flip(random: &mut Random, bytes: &mut [u8]) {
    if !bytes.is_empty() {
        bytes[random.below(bytes.len())] ^= 1 << random.below(8);
    }
}

fn spoil(random: &mut Random, case: &mut Case) {
    let part = match random.weighted(&[1, 1, 6]) {
        0 => &mut case.key,
        1 => &mut case.message,
        _ => &mut case.signature,
    };
    match random.below(6) {
        0 => drop(part.pop()),
        1 => part.push(0),
        2 => part.clear(),
        _ => flip(random, part),
    }
}

fn case(random: &mut Random, signer: &Signer, tally: &mut Tally) -> Case {
    let any = random.below(600);
    let length = random.pick(&[0, 1, 7, 9, 10, 73, 74, any, any, any, 4_042, 4_043]);
    let message = random.some_bytes(length);
    let leaf = random.below(LEAVES as usize) as u32;
    let signature = signer.sign(leaf, random.bytes(), &message);
    let mut case = Case {
        key: signer.key().to_vec(),
        message,
        signature,
    };
    if length > LONGEST_MESSAGE {
        tally.count("too long");
    } else if random.percent(50) {
        spoil(random, &mut case);
    }
    case
}

pub fn compare(program: &Program, random: &mut Random, tally: &mut Tally) -> Result<(), Failure> {
    check_vectors(tally)?;
    let signer = Signer::new(random.bytes(), random.bytes());
    let mut line = || {
        let case = case(random, &signer, tally);
        let verdict = case.verdict();
        tally.count(verdict);
        Line {
            text: case.text().into_bytes(),
            expected: verdict.to_string(),
        }
    };
    let lines: Vec<Line> = (0..LINES).map(|_| line()).collect();
    program.must_answer(&lines, HUGE_BUFFER)?;
    program.must_say_rest(HUGE_BUFFER)
}
