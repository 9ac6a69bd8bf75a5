//! What document 02, #111, asks of WRITEs in either order, by the program's answers alone.
use super::answers::{messages, Observed, Reading};
use crate::model::message::{Message, REGISTERS};

/// Whether it holds of the pair at a place.
type Rule = fn(&Observed, usize) -> bool;

const RULES: [(&str, Rule); 8] = [
    (
        "each WRITE gets the same reply in both orders",
        replies_alike,
    ),
    (
        "WRITEs of two timestamps or registers leave the same in both orders",
        left_alike,
    ),
    (
        "a register in which nothing is stored stays as it was",
        unstored_untouched,
    ),
    (
        "WRITEs of one timestamp leave the same timestamp in both orders",
        timestamps_agree,
    ),
    (
        "WRITEs of one timestamp and card leave the same card in both orders",
        cards_agree,
    ),
    (
        "of WRITEs of one timestamp that are stored the first one's card and proof are kept",
        first_kept,
    ),
    (
        "a WRITE that comes twice gets the same reply twice",
        replies_alike_twice,
    ),
    (
        "a WRITE that comes twice leaves what it leaves if it comes once",
        left_alike_twice,
    ),
];

/// A rule that the answers break, and the place of the pair, if it is about one.
pub fn broken(observed: &Observed) -> Option<(&'static str, Option<usize>)> {
    if !others_untouched(observed) {
        return Some(("a register that no WRITE is for stays as it was", None));
    }
    let mut pairs = 0..observed.heap.pairs.len();
    pairs.find_map(|at| {
        let broken = RULES.iter().find(|(_, holds)| !holds(observed, at));
        broken.map(|(rule, _)| (*rule, Some(at)))
    })
}

/// Whether the WRITEs are for one register, with one timestamp.
fn are_rivals([one, other]: &[Message; 2]) -> bool {
    one.register == other.register && one.prepared_timestamp() == other.prepared_timestamp()
}

/// Whether two readings show the same of the registers that a pair is for.
fn show_same(one: &Reading, other: &Reading, pair: &[Message; 2]) -> bool {
    let mut registers = pair.iter().map(Message::register);
    registers.all(|register| one.of(register) == other.of(register))
}

fn replies_alike(observed: &Observed, at: usize) -> bool {
    let [one, other] = observed.ways.each_ref().map(|way| way.replies[at].iter());
    one.eq(other.rev())
}

fn others_untouched(observed: &Observed) -> bool {
    let writes = observed.heap.pairs.iter().flatten();
    let written = Vec::from_iter(writes.map(Message::register));
    let mut others = REGISTERS.filter(|register| !written.contains(register));
    others.all(|register| observed.leaves_untouched(register))
}

fn left_alike(observed: &Observed, at: usize) -> bool {
    let pair = &observed.heap.pairs[at];
    let [one, other] = &observed.ways;
    are_rivals(pair) || show_same(&one.left, &other.left, pair)
}

fn unstored_untouched(observed: &Observed, at: usize) -> bool {
    let pair = &observed.heap.pairs[at];
    let is_stored_in = |register| {
        let mut writes = pair.iter().filter(|write| write.register() == register);
        writes.any(|write| observed.is_stored(write))
    };
    let registers = pair.iter().map(Message::register);
    let mut unstored = registers.filter(|&register| !is_stored_in(register));
    unstored.all(|register| observed.leaves_untouched(register))
}

/// Of WRITEs of one timestamp the CARD and the STAMP that each order leaves.
fn left_by_rivals(observed: &Observed, at: usize) -> Option<[[Message; 2]; 2]> {
    let pair = &observed.heap.pairs[at];
    let ways = observed.ways.each_ref();
    are_rivals(pair).then(|| ways.map(|way| messages(way.left.of(pair[0].register()))))
}

fn timestamps_agree(observed: &Observed, at: usize) -> bool {
    let Some(left) = left_by_rivals(observed, at) else {
        return true;
    };
    let mut timestamps = left.iter().flatten().map(Message::prepared_timestamp);
    let first = timestamps.next();
    timestamps.all(|timestamp| Some(timestamp) == first)
}

fn cards_agree(observed: &Observed, at: usize) -> bool {
    let [one, other] = &observed.heap.pairs[at];
    match left_by_rivals(observed, at) {
        Some([[left, _], [left_back, _]]) if one.card == other.card => left.card == left_back.card,
        _ => true,
    }
}

/// In the first of the ways the pair's first WRITE comes first, in the other its second.
fn first_kept(observed: &Observed, at: usize) -> bool {
    let pair = &observed.heap.pairs[at];
    let Some(left) = left_by_rivals(observed, at).filter(|_| observed.is_stored(&pair[0])) else {
        return true;
    };
    left.iter().zip(pair).all(|([card, stamp], first)| {
        card.card == first.card
            && card.prepared == first.prepared
            && stamp.prepared == first.prepared
    })
}

fn replies_alike_twice(observed: &Observed, at: usize) -> bool {
    let Some((_, answers)) = &observed.twice else {
        return true;
    };
    let replies = &answers.replies[at];
    replies[1] == replies[2]
}

fn left_alike_twice(observed: &Observed, at: usize) -> bool {
    let Some((way, answers)) = &observed.twice else {
        return true;
    };
    let once = &observed.ways[*way];
    show_same(&answers.left, &once.left, &observed.heap.pairs[at])
}
