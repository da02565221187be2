//! What the run has seen so far, and what it has to have seen by its end.

use crate::classes::Classes;
use crate::damage::DAMAGES;
use crate::intent::Intent;
use crate::layout::WORDS;
use crate::outside::{Due, KEPT, REFUSED};
use std::collections::BTreeMap;

/// Every answer of 01 to a message, and to a roster.
pub const MESSAGE_ANSWERS: [u8; 29] = [
    1, 2, 3, 4, 5, 6, 7, 8, 9, 10, 11, 12, 13, 14, 15, 16, 20, 21, 22, 23, 24, 25, 30, 31, 32, 33, 34, 35, 37,
];
/// To rosters by their form: of form 1, of form 2, and others, a first byte that is missing included.
pub const ROSTER_ANSWERS: [(&str, &[u8]); 3] = [
    ("form 1", &[0, 40, 41, 42, 43, 44, 45, 46]),
    ("form 2", &[0, 40, 41, 42, 44, 45, 46]),
    ("another form", &[40, 41]),
];

/// Before the names of breakings and near misses that a table of the other form cannot have.
pub const ONLY: [&str; 2] = ["form 1: ", "form 2: "];

/// How often each answer, and each situation, has to come.
pub const LEAST: u64 = 100;

pub(crate) type Counts = BTreeMap<&'static str, u64>;

pub struct Tally {
    messages: [u64; 256],
    /// In the order of `ROSTER_ANSWERS`.
    rosters: [[u64; 256]; 3],
    buffers: [u64; 301],
    /// Notify replies by how many bytes of the name's length were padding.
    paddings: [u64; 32],
    intents: BTreeMap<Intent, u64>,
    damages: Counts,
    situations: Counts,
    /// By the form of the table's roster, 1 and 2.
    breakings: [Counts; 2],
    near_misses: [Counts; 2],
    outside: Counts,
    /// How often each word of a table was changed.
    words: Vec<u64>,
    words_refused: u64,
    pub classes: Classes,
    pub compared: u64,
    pub changed: u64,
    pub changed_refused: u64,
}

impl Tally {
    /// Nothing seen yet. The names are those that the run has to reach.
    pub fn new(situations: &[&'static str], breakings: &[&'static str], near: &[&'static str]) -> Tally {
        let zeros = |names: &[&'static str]| names.iter().map(|&name| (name, 0)).collect();
        let of_form = |names: &[&'static str], other: usize| {
            let possible = names.iter().filter(|name| !name.starts_with(ONLY[other]));
            possible.map(|&name| (name, 0)).collect()
        };
        let mut damages: Counts = DAMAGES.iter().map(|&(name, _)| (name, 0)).collect();
        damages.insert("random bytes", 0);
        Tally {
            messages: [0; 256],
            rosters: [[0; 256]; 3],
            buffers: [0; 301],
            paddings: [0; 32],
            intents: BTreeMap::new(),
            damages,
            situations: zeros(situations),
            breakings: [of_form(breakings, 1), of_form(breakings, 0)],
            near_misses: [of_form(near, 1), of_form(near, 0)],
            outside: REFUSED.iter().chain(KEPT).map(|&name| (name, 0)).collect(),
            words: vec![0; WORDS],
            words_refused: 0,
            classes: Classes::default(),
            compared: 0,
            changed: 0,
            changed_refused: 0,
        }
    }

    pub fn message(&mut self, answer: u8, buffer: usize) {
        self.compared += 1;
        self.messages[usize::from(answer)] += 1;
        self.buffers[buffer] += 1;
    }

    pub fn padding(&mut self, bytes: usize) {
        self.paddings[bytes] += 1;
    }

    pub fn roster(&mut self, bytes: &[u8], answer: u8) {
        let form = match bytes.first().map(|first| first >> 4) {
            Some(1) => 0,
            Some(2) => 1,
            _ => 2,
        };
        self.rosters[form][usize::from(answer)] += 1;
    }

    pub fn intent(&mut self, intent: Intent) {
        *self.intents.entry(intent).or_default() += 1;
    }

    pub fn damage(&mut self, name: &'static str) {
        raise(&mut self.damages, name);
    }

    pub fn situation(&mut self, name: &'static str) {
        raise(&mut self.situations, name);
    }

    /// Of a table of this form.
    pub fn breaking(&mut self, form: u32, name: &'static str) {
        raise(&mut self.breakings[form as usize - 1], name);
        self.messages[1] += 1;
    }

    pub fn near_miss(&mut self, form: u32, name: &'static str) {
        raise(&mut self.near_misses[form as usize - 1], name);
    }

    /// A table with this word changed, and whether it was answered 1.
    pub fn word(&mut self, word: usize, due: Due, refused: bool) {
        self.words[word] += 1;
        self.words_refused += u64::from(refused);
        if let Due::Refused(name) | Due::Kept(name) = due {
            raise(&mut self.outside, name);
        }
    }

    pub fn word_total(&self) -> u64 {
        self.words.iter().sum()
    }

    pub fn roster_total(&self) -> u64 {
        self.rosters.as_flattened().iter().sum()
    }

    pub fn broken_total(&self) -> u64 {
        self.breakings.iter().flat_map(Counts::values).sum()
    }

    pub fn print(&self) {
        print_answers("answers to messages", &self.messages);
        for ((form, _), counts) in ROSTER_ANSWERS.iter().zip(&self.rosters) {
            print_answers(&format!("answers to rosters, {form}"), counts);
        }
        println!("messages by what they ask:");
        for (intent, count) in &self.intents {
            println!("{count:>9}  {intent:?}");
        }
        let least = self.paddings.iter().min().expect("names have a length");
        println!("replies to names with 0 to 31 bytes of padding: each at least {least} times");
        print_counts("damages", &self.damages);
        print_counts("situations", &self.situations);
        for form in [1, 2] {
            let broken = format!("tables of form {form} broken, by rule (answer 1 from both)");
            print_counts(&broken, &self.breakings[form - 1]);
            let near = format!("tables of form {form} nearly broken (no answer 1)");
            print_counts(&near, &self.near_misses[form - 1]);
        }
        let (changed, refused) = (self.changed, self.changed_refused);
        println!("single fields changed at random: {changed}, of which {refused} were answered 1");
        print_counts(
            "values outside a word's field (answer 1), or any that it may have",
            &self.outside,
        );
        let (changed, refused) = (self.word_total(), self.words_refused);
        let least = self.words.iter().min().expect("a table has words");
        println!("single words changed: {changed}, each at least {least} times, of which {refused} were answered 1");
        println!(
            "objects by class, message, place and fault: {} kinds",
            self.classes.count()
        );
    }

    /// What the run should have reached and has not.
    pub fn lacking(&self) -> Vec<String> {
        let mut lacking = lacking_answers("answer", &MESSAGE_ANSWERS, &self.messages);
        for ((form, answers), counts) in ROSTER_ANSWERS.iter().zip(&self.rosters) {
            lacking.extend(lacking_answers(&format!("{form}, roster answer"), answers, counts));
        }
        lacking.extend(lacking_counts("", &self.damages));
        lacking.extend(lacking_counts("", &self.situations));
        lacking.extend(lacking_counts("", &self.outside));
        for form in [1, 2] {
            let table = format!("table of form {form}, ");
            lacking.extend(lacking_counts(&table, &self.breakings[form - 1]));
            lacking.extend(lacking_counts(&table, &self.near_misses[form - 1]));
        }
        for (word, &count) in self.words.iter().enumerate() {
            if count < LEAST {
                lacking.push(format!("word {word}: changed {count} times only"));
            }
        }
        for (bytes, &count) in self.paddings.iter().enumerate() {
            if count < LEAST {
                lacking.push(format!(
                    "reply to a name with {bytes} bytes of padding: came {count} times only"
                ));
            }
        }
        for (length, &count) in self.buffers.iter().enumerate() {
            if count == 0 {
                lacking.push(format!("buffer length {length}: never came"));
            }
        }
        lacking.extend(self.classes.lacking());
        lacking
    }
}

/// Counts one more; the name has to be one that was announced, so that none is looked for in vain.
pub(crate) fn raise(counts: &mut Counts, name: &'static str) {
    *counts.get_mut(name).unwrap_or_else(|| panic!("{name}: not announced")) += 1;
}

/// Answers under `LEAST`, and answers that 01 does not have.
pub(crate) fn lacking_answers(what: &str, known: &[u8], counts: &[u64; 256]) -> Vec<String> {
    let mut lacking = Vec::new();
    for answer in 0..=u8::MAX {
        let count = counts[usize::from(answer)];
        if known.contains(&answer) && count < LEAST {
            lacking.push(format!("{what} {answer}: came {count} times only"));
        } else if !known.contains(&answer) && count > 0 {
            lacking.push(format!("{what} {answer}: 01 has no such answer"));
        }
    }
    lacking
}

/// Names that came fewer than `LEAST` times.
pub(crate) fn lacking_counts(what: &str, counts: &Counts) -> Vec<String> {
    let few = counts.iter().filter(|line| *line.1 < LEAST);
    few.map(|(name, count)| format!("{what}{name}: came {count} times only"))
        .collect()
}

pub(crate) fn print_answers(what: &str, counts: &[u64; 256]) {
    println!("{what}:");
    for (answer, count) in counts.iter().enumerate().filter(|line| *line.1 > 0) {
        println!("{count:>9}  {answer}");
    }
}

pub(crate) fn print_counts(what: &str, counts: &Counts) {
    println!("{what}:");
    for (name, count) in counts {
        println!("{count:>9}  {name}");
    }
}
