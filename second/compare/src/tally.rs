//! What a run met: how often each answer and each refusal came, and sizes.

use std::collections::BTreeMap;

/// Amounts by where they were met, a word and its number (0 if it has none).
#[derive(Default)]
pub struct Tally(BTreeMap<(&'static str, &'static str, u32), u64>);

/// The first words of the lines of a text; a line of one ticket has none.
const WORDS: [&str; 10] = [
    "started", "granted", "held", "touched", "released", "finished", "wait", "refused", "order",
    "accepted",
];

/// Every refusal number of the paper.
const REFUSALS: [u32; 18] = [1, 2, 3, 4, 5, 6, 7, 8, 20, 21, 22, 23, 24, 25, 26, 27, 28, 40];

impl Tally {
    pub fn add(&mut self, place: &'static str, word: &'static str, number: u32, amount: u64) {
        *self.0.entry((place, word, number)).or_default() += amount;
    }

    /// Adds what another tally has.
    pub fn join(&mut self, other: &Tally) {
        for (&(place, word, number), &amount) in &other.0 {
            self.add(place, word, number, amount);
        }
    }

    /// Counts the lines of a text.
    pub fn add_text(&mut self, place: &'static str, text: &str) {
        for line in text.lines() {
            if let Some((word, number)) = word_and_number(line) {
                self.add(place, word, number, 1);
            }
        }
    }

    /// How much there is of a word at a place.
    pub fn amount(&self, place: &'static str, word: &'static str) -> u64 {
        self.0.get(&(place, word, 0)).copied().unwrap_or(0)
    }

    /// All that was met at a place, in one line.
    pub fn line(&self, place: &'static str) -> String {
        let of_place = self.0.iter().filter(|((at, _, _), _)| *at == place);
        let parts: Vec<String> = of_place
            .map(|(&(_, word, number), amount)| format!("{} {amount}", name(word, number)))
            .collect();
        format!("{place}: {}", parts.join(", "))
    }

    /// The answers and refusals that were met at none of some places.
    pub fn never_met(&self, places: &[&'static str]) -> String {
        let met = |word, number| places.iter().any(|at| self.0.contains_key(&(at, word, number)));
        let plain = WORDS[..6].iter().chain(&WORDS[8..]).map(|&word| (word, 0));
        let waits = [1, 2].map(|number| ("wait", number));
        let refusals = REFUSALS.map(|number| ("refused", number));
        let all = plain.chain(waits).chain(refusals);
        let never: Vec<String> = all
            .filter(|&(word, number)| !met(word, number))
            .map(|(word, number)| name(word, number))
            .collect();
        if never.is_empty() {
            "none".to_string()
        } else {
            never.join(", ")
        }
    }
}

/// A word with its number, if it has one.
fn name(word: &str, number: u32) -> String {
    if number == 0 {
        word.to_string()
    } else {
        format!("{word} {number}")
    }
}

/// A line's word, and its number for waits and refusals.
fn word_and_number(line: &str) -> Option<(&'static str, u32)> {
    let mut parts = line.split(' ');
    let first = parts.next()?;
    let word = WORDS.into_iter().find(|&word| word == first)?;
    match word {
        "wait" | "refused" => Some((word, parts.next()?.parse().ok()?)),
        _ => Some((word, 0)),
    }
}
