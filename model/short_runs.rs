//! All short runs (document 02, #109): every list of deliveries, in order, without those in which one occurs twice.
use std::collections::BTreeSet;

const MESSAGES: [u8; 2] = [1, 2];
const REPLICAS: [u8; 4] = [1, 2, 3, 4];
const OPENING: &str = "w 1 0000\nr 2\n";

#[derive(Clone, Copy, PartialEq, Eq, PartialOrd, Ord)]
pub struct Delivery {
    message: u8,
    replica: u8,
}

fn deliveries() -> Vec<Delivery> {
    let of = |message| REPLICAS.map(|replica| Delivery { message, replica });
    MESSAGES.into_iter().flat_map(of).collect()
}

/// All lists of so many deliveries, 8^k of them.
fn lists(k: usize) -> Vec<Vec<Delivery>> {
    (0..k).fold(vec![Vec::new()], |lists, _| {
        let longer = |list: &Vec<Delivery>| {
            let list = list.clone();
            let with = move |last| [&list[..], &[last]].concat();
            deliveries().into_iter().map(with).collect::<Vec<_>>()
        };
        lists.iter().flat_map(longer).collect()
    })
}

/// The runs of so many deliveries.
pub fn runs(k: usize) -> Vec<Vec<Delivery>> {
    let mut runs = lists(k);
    runs.retain(|run| run.iter().collect::<BTreeSet<_>>().len() == k);
    runs
}

pub fn text(run: &[Delivery]) -> String {
    let line = |delivery: &Delivery| format!("h {} {}\n", delivery.replica, delivery.message);
    OPENING.to_string() + &run.iter().map(line).collect::<String>()
}
