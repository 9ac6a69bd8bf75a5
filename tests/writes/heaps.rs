//! Scripts that bring replicas to some record, and hand each heaps of WRITEs from there, in either order.
use super::choice::{served_client, Chooser};
use crate::generate::{add_run, Script};
use crate::model::message::*;
use crate::model::random::Random;
use crate::model::replica::Replica;
use crate::model::script::hex;
use crate::office::Office;

/// The front of a run has about so many bytes at most. Behind it replicas are visited so many times, each time with so many heaps
/// of at most so many pairs.
const FRONT_BYTES: usize = 250_000;
const VISITS: usize = 4;
const HEAPS: usize = 4;
const MOST_PAIRS: usize = 6;
/// The proved program reads 1,048,576 bytes of a script: a heap begins before this one, and takes less than 100,000.
const LAST_HEAP: usize = 930_000;
/// So many heaps of 100 also come with each pair's latter WRITE twice.
const TWICE: usize = 20;

/// The kinds of request that read a register.
pub const READS: [u8; 2] = [READ, READ_TIMESTAMP];

/// The ways in which a pair is delivered, and those with the latter WRITE twice: the WRITEs' places in the pair, one right after
/// the other.
pub const WAYS: [[usize; 2]; 2] = [[0, 1], [1, 0]];
pub const WAYS_TWICE: [[usize; 3]; 2] = [[0, 1, 1], [1, 0, 0]];

/// Pairs of WRITEs that a replica gets from one record, and the lines of a script that hand them over; "WRITEs come in a heap".
/// Each pair is for a register or two of its own: one reading behind them all shows what each has left, and reading takes most of
/// the time.
pub struct Heap {
    pub f: u8,
    pub pairs: Vec<[Message; 2]>,
    /// Where the record is read: with a READ and a READ-STAMP of each register.
    pub before: usize,
    /// Where the WRITEs begin, in each of `WAYS`. Behind them the registers are read again.
    pub delivered: [usize; 2],
    /// The same in one of `WAYS_TWICE`, with its place there in front.
    pub twice: Option<(usize, usize)>,
}

fn to_replica(id: u8, request: &Message) -> String {
    format!("to-replica {id} {} +", hex(&request.encode()))
}

/// Lines that read all registers. They have one nonce, so that what they show can be compared.
fn reads(random: &mut Random, id: u8, replica: &Replica) -> Vec<String> {
    let sender = served_client(random, replica);
    let nonce = random.number();
    let read = |kind, register| Message {
        nonce: Some(nonce),
        ..Message::new(kind, sender, register)
    };
    REGISTERS
        .flat_map(|register| READS.map(|kind| read(kind, register)))
        .map(|request| to_replica(id, &request))
        .collect()
}

fn pairs(random: &mut Random, replica: &Replica) -> Vec<[Message; 2]> {
    let number = 1 + random.below(MOST_PAIRS);
    let mut chooser = Chooser::new(random, replica);
    (0..number).map(|_| chooser.pair()).collect()
}

/// Heaps for one replica, each from the record that the last one left.
struct Visit<'a> {
    random: &'a mut Random,
    script: &'a mut Script,
    id: u8,
    reads: Vec<String>,
    /// The first line that read the record that it has now.
    reading: usize,
}

impl<'a> Visit<'a> {
    fn new(random: &'a mut Random, script: &'a mut Script) -> Visit<'a> {
        let id = some_replica(random, script);
        let reads = reads(random, id, replica(script, id));
        let mut visit = Visit {
            random,
            script,
            id,
            reads,
            reading: 0,
        };
        visit.read();
        visit
    }

    fn read(&mut self) {
        self.reading = self.script.lines.len();
        for line in &self.reads {
            self.script.add(line.clone());
        }
    }

    fn heaps(mut self) -> Vec<Heap> {
        let mut heaps = Vec::new();
        while heaps.len() < HEAPS && self.script.bytes < LAST_HEAP {
            heaps.push(self.heap());
        }
        heaps
    }

    /// Pairs from the record that it has now.
    fn heap(&mut self) -> Heap {
        let replica = replica(self.script, self.id);
        let f = replica.f;
        let pairs = pairs(self.random, replica);
        let line = |write| to_replica(self.id, write);
        let lines = Vec::from_iter(pairs.iter().map(|pair| pair.each_ref().map(line)));
        let before = self.reading;
        self.script.add(format!("keep replica {}", self.id));
        let delivered = WAYS.map(|way| self.deliver(&lines, &way));
        let at = self.random.below(WAYS_TWICE.len());
        let repeats = self.random.percent(TWICE);
        let twice = repeats.then(|| (at, self.deliver(&lines, &WAYS_TWICE[at])));
        Heap {
            f,
            pairs,
            before,
            delivered,
            twice,
        }
    }

    /// Hands each pair in this way to the record that was kept, and reads what they leave. Answers the first WRITE's line.
    fn deliver(&mut self, pairs: &[[String; 2]], way: &[usize]) -> usize {
        self.script.add(format!("restore replica {}", self.id));
        let first = self.script.lines.len();
        for pair in pairs {
            for &at in way {
                self.script.add(pair[at].clone());
            }
        }
        self.read();
        first
    }
}

fn replica(script: &Script, id: u8) -> &Replica {
    script.player.replica(id).expect("a replica that is set up")
}

/// The number of a replica, most often of one that holds cards in many registers.
fn some_replica(random: &mut Random, script: &Script) -> u8 {
    let ids = 1..=replicas(*FAULT_BOUNDS.end());
    let present = ids.filter(|&id| script.player.replica(id).is_some());
    let present = Vec::from_iter(present);
    let weight = |&id: &u8| {
        let registers = replica(script, id).registers.values();
        1 + 10 * registers.filter(|register| register.held.is_some()).count()
    };
    let weights = Vec::from_iter(present.iter().map(weight));
    present[random.weighted(&weights)]
}

/// The front of a random run, up to some place in its latter half.
fn add_front(random: &mut Random, script: &mut Script, office: &Office) {
    let mut run = Script::default();
    add_run(random, &mut run, office);
    let length = run.lines.len() - random.below(run.lines.len() / 2);
    let end = script.bytes + FRONT_BYTES;
    for line in run.lines.into_iter().take(length) {
        if script.bytes > end {
            break;
        }
        script.add(line);
    }
}

/// A script with heaps behind the fronts of runs, and where they stand.
pub fn script(random: &mut Random, office: &Office) -> (Script, Vec<Heap>) {
    let mut script = Script::default();
    let mut heaps = Vec::new();
    while script.bytes + FRONT_BYTES < LAST_HEAP {
        add_front(random, &mut script, office);
        for _ in 0..VISITS {
            if script.bytes < LAST_HEAP {
                heaps.extend(Visit::new(random, &mut script).heaps());
            }
        }
    }
    (script, heaps)
}
