//! Written proofs by themselves for the program `messages` (document 02, #106): what tests 4, 20, 7 and 9 to 11 make of them, and
//! whose their signatures are.
use crate::forge::{bad_register, good_register, rising, spoiled_handing, written_proof, Handing};
use crate::messages::{entry_signatures, timestamp};
use crate::model::message::*;
use crate::model::random::Random;
use crate::program::{hex, Failure, Line, Program, HUGE_BUFFER};
use crate::tally::Tally;

const PROOFS: usize = 6_000;
const MOST_ENTRIES: u8 = u8::MAX;

pub const FLOORS: [(&str, usize); 11] = [
    ("accepted", 500),
    ("refused 4", 100),
    ("refused 7", 100),
    ("refused 9", 100),
    ("refused 10", 30),
    ("refused 11", 100),
    ("refused 20", 300),
    ("most entries refused 9", 15),
    ("no signatures", 10),
    ("signatures for register 1", 100),
    ("signatures for another", 1_000),
];

fn proof(random: &mut Random, f: u8) -> WrittenProof {
    let timestamp = timestamp(random);
    if random.percent(2) {
        let entries = rising(random, MOST_ENTRIES);
        return WrittenProof { timestamp, entries };
    }
    written_proof(random, timestamp, f)
}

fn handing(random: &mut Random, f: u8) -> Handing {
    let register = if random.percent(15) {
        bad_register(random)
    } else {
        good_register(random)
    };
    let proof = proof(random, f);
    if random.percent(50) {
        return spoiled_handing(random, register, proof, f);
    }
    Handing {
        register,
        proof: proof.encode(),
        verdicts: vec![1; proof.entries.len()],
    }
}

fn judgement(handing: &Handing, f: u8, tally: &mut Tally) -> String {
    let Handing {
        register,
        proof,
        verdicts,
    } = handing;
    match WrittenProof::check(proof, *register, verdicts, f) {
        Ok(_) => "accepted".to_string(),
        Err(refusal) => {
            if refusal == 9 && proof[5] == MOST_ENTRIES {
                tally.count("most entries refused 9");
            }
            format!("refused {refusal}")
        }
    }
}

/// A signature for each entry, the one that a message which shows the proof has of it, and that there is no further one.
fn signatures(handing: &Handing, tally: &mut Tally) -> String {
    let proof = match WrittenProof::decode(&handing.proof) {
        Ok(proof) => proof,
        Err(refusal) => return format!("signatures 0 refused {refusal}"),
    };
    let shown = Message {
        written: Some(proof),
        ..Message::new(PREPARE, 1, handing.register)
    };
    let signatures = entry_signatures(&shown);
    tally.count(match (signatures.is_empty(), handing.register) {
        (true, _) => "no signatures",
        (false, 1) => "signatures for register 1",
        (false, _) => "signatures for another",
    });
    format!(
        "signatures {}{} nothing",
        signatures.len(),
        signatures.concat()
    )
}

fn lines(random: &mut Random, tally: &mut Tally) -> [Line; 2] {
    let f = random.pick(&[1, 1, 1, 2, 3, 4, 5]);
    let handing = handing(random, f);
    let words = format!("{:02X} {}", handing.register, hex(&handing.proof));
    let expected = judgement(&handing, f, tally);
    tally.count(expected.clone());
    let judged = Line {
        text: format!("w{f} {words} {}", hex(&handing.verdicts)).into_bytes(),
        expected,
    };
    let signed = Line {
        text: format!("s w {words}").into_bytes(),
        expected: signatures(&handing, tally),
    };
    [judged, signed]
}

pub fn compare(program: &Program, random: &mut Random, tally: &mut Tally) -> Result<(), Failure> {
    let lines: Vec<Line> = (0..PROOFS).flat_map(|_| lines(random, tally)).collect();
    program.must_answer(&lines, HUGE_BUFFER)
}
