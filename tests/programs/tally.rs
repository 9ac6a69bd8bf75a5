//! Counts of what occurred in a comparison.
use std::collections::BTreeMap;
use std::fmt;

#[derive(Default)]
pub struct Tally(BTreeMap<String, usize>);

impl Tally {
    pub fn count(&mut self, name: impl Into<String>) {
        *self.0.entry(name.into()).or_default() += 1;
    }

    pub fn shortfalls(&self, floors: &[(&str, usize)]) -> Vec<String> {
        let mut short = Vec::new();
        for &(name, least) in floors {
            let times = self.0.get(name).copied().unwrap_or(0);
            if times < least {
                short.push(format!(
                    "{name} occurred {times} times, wanted at least {least}"
                ));
            }
        }
        short
    }
}

impl fmt::Display for Tally {
    fn fmt(&self, to: &mut fmt::Formatter) -> fmt::Result {
        let counts = self.0.iter().map(|(name, times)| format!("{name} {times}"));
        write!(to, "  {}", counts.collect::<Vec<_>>().join(", "))
    }
}
