//! What was met: pairs of a call and its answer, counted, and held against the pairs that the documents allow.

use std::collections::BTreeMap;

#[derive(Clone, Default)]
pub struct Tally {
    pairs: BTreeMap<(String, String), u64>,
}

impl Tally {
    pub fn count(&mut self, call: &str, answer: &str) {
        *self.pairs.entry((call.to_string(), answer.to_string())).or_insert(0) += 1;
    }

    pub fn add(&mut self, other: &Tally) {
        for (pair, count) in &other.pairs {
            *self.pairs.entry(pair.clone()).or_insert(0) += count;
        }
    }

    pub fn print(&self) {
        let mut calls: BTreeMap<&str, Vec<String>> = BTreeMap::new();
        for ((call, answer), count) in &self.pairs {
            calls.entry(call).or_default().push(format!("{answer}: {count}"));
        }
        for (call, answers) in calls {
            println!("  {call}: {}", answers.join(", "));
        }
    }

    /// The pairs of the list that were not met. A line of the list is a call, a colon, and answers with commas between.
    pub fn missing(&self, list: &str) -> Vec<String> {
        let mut missing = Vec::new();
        for line in list.lines().filter(|line| !line.trim().is_empty()) {
            let (call, answers) = line.split_once(':').expect("a line of the list has a colon");
            for answer in answers.split(',') {
                let pair = (call.trim().to_string(), answer.trim().to_string());
                if !self.pairs.contains_key(&pair) {
                    missing.push(format!("{}: {}", pair.0, pair.1));
                }
            }
        }
        missing
    }

    /// The pairs met that the list has not, though it has their call: answers that the documents do not allow there.
    pub fn unlisted(&self, list: &str) -> Vec<String> {
        let mut unlisted = Vec::new();
        for (call, answers) in list.lines().filter_map(|line| line.split_once(':')) {
            let allowed: Vec<&str> = answers.split(',').map(str::trim).collect();
            for (met, answer) in self.pairs.keys() {
                if met == call.trim() && !allowed.contains(&answer.as_str()) {
                    unlisted.push(format!("{met}: {answer}"));
                }
            }
        }
        unlisted
    }
}
