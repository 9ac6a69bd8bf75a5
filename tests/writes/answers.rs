//! What the program answers to a heap of WRITEs and to the reads around it. It is what the model answers.
use super::heaps::{Heap, READS, WAYS, WAYS_TWICE};
use crate::model::message::{Message, REGISTERS};
use crate::model::script::unhex;

/// The message that a line sends, in hex, without its number, which hangs on the lines before.
fn sent(line: &String) -> Option<&str> {
    let (_, message) = line.strip_prefix("sent ")?.split_once(' ')?;
    Some(message)
}

/// What a register shows: its CARD and its STAMP, in hex.
pub type Shown<'a> = [&'a str; 2];

pub fn messages(shown: Shown) -> [Message; 2] {
    let message = |hex| Message::decode(&unhex(hex)?).ok();
    shown.map(|hex| message(hex).expect("the model sends whole messages"))
}

/// What all registers show.
pub struct Reading<'a>(Vec<Shown<'a>>);

impl<'a> Reading<'a> {
    /// In the lines from a place on.
    fn new(given: &'a [String], at: usize) -> Option<Reading<'a>> {
        let reads = REGISTERS.count() * READS.len();
        let lines = given.get(at..at + reads)?.chunks(READS.len());
        let shown = lines.map(|lines| Some([sent(&lines[0])?, sent(&lines[1])?]));
        Some(Reading(shown.collect::<Option<_>>()?))
    }

    pub fn of(&self, register: u8) -> Shown<'a> {
        self.0[usize::from(register - 1)]
    }
}

/// What a heap is answered in one way.
pub struct Answers<'a> {
    /// Of each pair, as they came.
    pub replies: Vec<Vec<&'a str>>,
    pub left: Reading<'a>,
}

impl<'a> Answers<'a> {
    fn new(given: &'a [String], at: usize, heap: &Heap, way: &[usize]) -> Option<Answers<'a>> {
        let behind = at + heap.pairs.len() * way.len();
        let pairs = given.get(at..behind)?.chunks(way.len());
        let replies = pairs.map(|lines| lines.iter().map(sent).collect());
        Some(Answers {
            replies: replies.collect::<Option<_>>()?,
            left: Reading::new(given, behind)?,
        })
    }
}

/// All that is answered about a heap.
pub struct Observed<'a> {
    pub heap: &'a Heap,
    pub before: Reading<'a>,
    /// In each of `WAYS`.
    pub ways: [Answers<'a>; 2],
    /// In one of `WAYS_TWICE`, with its place there in front.
    pub twice: Option<(usize, Answers<'a>)>,
}

impl<'a> Observed<'a> {
    /// `None` where a line sends no message: a WRITE or a READ was refused.
    pub fn new(heap: &'a Heap, given: &'a [String]) -> Option<Observed<'a>> {
        let [at_one, at_other] = heap.delivered;
        let one = Answers::new(given, at_one, heap, &WAYS[0])?;
        let other = Answers::new(given, at_other, heap, &WAYS[1])?;
        let twice = match heap.twice {
            Some((way, at)) => Some((way, Answers::new(given, at, heap, &WAYS_TWICE[way])?)),
            None => None,
        };
        Some(Observed {
            heap,
            before: Reading::new(given, heap.before)?,
            ways: [one, other],
            twice,
        })
    }

    /// What the record before held in a register, as its CARD.
    pub fn held(&self, register: u8) -> Message {
        let [card, _] = messages(self.before.of(register));
        card
    }

    /// Whether the WRITE is stored, if it comes first.
    pub fn is_stored(&self, write: &Message) -> bool {
        write.prepared_timestamp() > self.held(write.register()).prepared_timestamp()
    }

    /// Whether a register shows in every way what it showed before.
    pub fn leaves_untouched(&self, register: u8) -> bool {
        let before = self.before.of(register);
        let twice = self.twice.iter().map(|(_, answers)| answers);
        let mut ways = self.ways.iter().chain(twice);
        ways.all(|answers| answers.left.of(register) == before)
    }
}
