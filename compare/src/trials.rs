//! Tables handed in that no program made: broken ones (answer 1 from both), near misses (never 1), random changes,
//! values outside their fields.

use crate::both::{self, Done};
use crate::breaks;
use crate::change;
use crate::checkpoints;
use crate::clock;
use crate::intent::CHURN;
use crate::layout::{field, words};
use crate::near;
use crate::outside::{self, Changed, Due};
use crate::random::Random;
use crate::source;
use crate::tally::Tally;
use crate::values::Values;
use second::table::Table;
use second::{Clock, Node};

/// How often a field of a table is changed at random, and how often a word.
const CHANGES: usize = 60;
const WORDS: usize = 60;

/// Messages that are sent in turns to a table whose words are changed one by one.
const LETTERS: usize = 400;

/// A buffer that the largest checkpoint of a table fits into.
pub(crate) const CHECKPOINT: usize = 26_000;

/// A message, and what comes with it: the length of the buffer, time and period.
struct Letter {
    message: Vec<u8>,
    buffer: usize,
    clock: Clock,
}

pub struct Trials<'a> {
    /// A table that breaks no rule.
    pub table: &'a Table,
    pub values: &'a Values,
    pub random: &'a mut Random,
    pub tally: &'a mut Tally,
}

impl Trials<'_> {
    pub fn all(&mut self) -> Result<(), String> {
        if self.table.listed > 0 {
            for (name, change) in breaks::all() {
                self.broken(name, *change)
                    .map_err(|what| format!("broken ({name}): {what}"))?;
            }
            for (name, change) in near::all() {
                self.near(name, *change)
                    .map_err(|what| format!("nearly broken ({name}): {what}"))?;
            }
        }
        for _ in 0..CHANGES {
            self.changed().map_err(|what| format!("changed at random: {what}"))?;
        }
        for _ in 0..WORDS {
            if let Some(changed) = outside::some_word(self.table, self.random) {
                let letter = self.letter();
                self.word(&changed, &letter)?;
            }
        }
        Ok(())
    }

    /// Every word of the table with values of every kind.
    pub fn every_word(&mut self) -> Result<(), String> {
        let table = self.table;
        let letters: Vec<Letter> = (0..LETTERS).map(|_| self.letter()).collect();
        let first = self.random.below(LETTERS);
        let mut changes = outside::every_word(table, first).zip(letters.iter().cycle());
        changes.try_for_each(|(changed, letter)| self.word(&changed, letter))
    }

    /// One word changed: what is certainly outside its field is answered 1, and the rest alike by both.
    fn word(&mut self, changed: &Changed, letter: &Letter) -> Result<(), String> {
        let Changed { word, value, due } = *changed;
        let table = changed.of(self.table);
        let place = |what| {
            let old = words(self.table)[word];
            format!("word {word} ({:?}) {old} set to {value}, {due:?}: {what}", field(word))
        };
        let done = self.send(&table, letter).map_err(place)?;
        let refused = done.answer == 1;
        if refused {
            untouched(&done, &table).map_err(place)?;
        }
        if matches!(due, Due::Refused(_)) && !refused || matches!(due, Due::Kept(_)) && refused {
            return Err(place(format!("both answer {}", done.answer)));
        }
        // The rule check before a checkpoint is written is the same.
        if self.random.chance(1, 16) {
            let (answer, _) = checkpoints::both::write(&table, CHECKPOINT, self.random).map_err(place)?;
            if (answer == 1) != refused {
                return Err(place(format!("both answer {}, writing {answer}", done.answer)));
            }
        }
        self.tally.word(word, due, refused);
        Ok(())
    }

    fn broken(&mut self, name: &'static str, change: breaks::Break) -> Result<(), String> {
        let mut table = *self.table;
        if !change(&mut table, self.random) {
            return Ok(());
        }
        let done = self.compare(&table)?;
        if done.answer != 1 {
            return Err(format!("both answer {}, not 1", done.answer));
        }
        untouched(&done, &table)?;
        self.tally.breaking(self.table.form, name);
        Ok(())
    }

    fn near(&mut self, name: &'static str, change: breaks::Break) -> Result<(), String> {
        let mut table = *self.table;
        if !change(&mut table, self.random) {
            return Ok(());
        }
        if self.compare(&table)?.answer == 1 {
            return Err("both answer 1".into());
        }
        self.tally.near_miss(self.table.form, name);
        Ok(())
    }

    fn changed(&mut self) -> Result<(), String> {
        let mut table = *self.table;
        change::one_field(&mut table, self.random);
        let done = self.compare(&table)?;
        self.tally.changed += 1;
        self.tally.changed_refused += u64::from(done.answer == 1);
        Ok(())
    }

    /// A message for the table as it was, mostly of good form.
    fn letter(&mut self) -> Letter {
        let (values, random) = (self.values, &mut *self.random);
        let clock = clock::any(self.table, random);
        if random.chance(3, 4) {
            let message = source::sound_message(values, self.table, random);
            let buffer = random.between(128, 300);
            return Letter { message, buffer, clock };
        }
        let message = source::message(CHURN, 60, values, self.table, random, self.tally).bytes;
        let buffer = source::buffer_length(random);
        Letter { message, buffer, clock }
    }

    /// A message to both programs with the changed table.
    fn send(&mut self, table: &Table, letter: &Letter) -> Result<Done, String> {
        let Letter { message, buffer, clock } = letter;
        both::message((table, table), message, *clock, *buffer, self.random)
            .map_err(|what| format!("{what}\nbuffer {buffer}\n{clock:?}\nmessage {}", hex(message)))
    }

    /// The same with a message of its own, and the second program's rule check by itself.
    fn compare(&mut self, table: &Table) -> Result<Done, String> {
        let letter = self.letter();
        let done = self.send(table, &letter)?;
        if Node::from_table(table).is_none() != (done.answer == 1) {
            return Err(format!(
                "both answer {}, the second's rule check says otherwise",
                done.answer
            ));
        }
        Ok(done)
    }
}

/// Answer 1 leaves the table and the buffer as they were.
fn untouched(done: &Done, table: &Table) -> Result<(), String> {
    both::same_tables(&done.first, table).map_err(|what| format!("answer 1, but {what}"))?;
    if done.length != 0 || done.old != done.buffer {
        return Err("answer 1 with a reply".into());
    }
    Ok(())
}

pub fn hex(bytes: &[u8]) -> String {
    bytes.iter().map(|byte| format!("{byte:02x}")).collect()
}
