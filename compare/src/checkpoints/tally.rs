//! What the checkpoints have shown so far, and what they have to have shown by the run's end.

use super::expected::{KEPT, REASONS};
use crate::tally::{lacking_answers, lacking_counts, print_answers, print_counts, raise, Counts};

const READING: [u8; 11] = [0, 40, 41, 42, 43, 44, 45, 46, 70, 71, 72];
const WRITING: [u8; 3] = [0, 1, 73];

/// What has to be dropped of checkpoints that were written under form 2 and are read under form 1.
const NARROWED: &[(&str, &str)] = &[
    (
        "call alone: slot 64 to 199 under form 1",
        "written under form 2, read under form 1: slot",
    ),
    (
        "call beside others: limit",
        "written under form 2, read under form 1: limit",
    ),
    ("call beside others: S", "written under form 2, read under form 1: S"),
    (
        "connection: no such call",
        "written under form 2, read under form 1: connections of dropped calls",
    ),
];

/// Checkpoints that a run has to read.
const CHECKPOINTS: u64 = 20_000;

pub struct Tally {
    reading: [u64; 256],
    writing: [u64; 256],
    kinds: Counts,
    reasons: Counts,
    kept: Counts,
    /// The same where a copy that was written under form 2 is read under form 1, by the first record of each kind.
    narrowed: Counts,
    pub checkpoints: u64,
    /// Checkpoints that were read again as they were written, and those salvaged with records dropped.
    pub round_trips: u64,
    pub salvaged: u64,
}

impl Tally {
    /// Nothing seen yet. The kinds of checkpoints are those that the run has to reach.
    pub fn new(kinds: impl Iterator<Item = &'static str>) -> Tally {
        Tally {
            reading: [0; 256],
            writing: [0; 256],
            kinds: kinds.map(|name| (name, 0)).collect(),
            reasons: REASONS.iter().map(|&name| (name, 0)).collect(),
            kept: KEPT.iter().map(|&name| (name, 0)).collect(),
            narrowed: NARROWED.iter().map(|&(_, name)| (name, 0)).collect(),
            checkpoints: 0,
            round_trips: 0,
            salvaged: 0,
        }
    }

    pub fn read(&mut self, answer: u8) {
        self.reading[usize::from(answer)] += 1;
    }

    pub fn written(&mut self, answer: u8) {
        self.writing[usize::from(answer)] += 1;
    }

    pub fn kind(&mut self, name: &'static str) {
        raise(&mut self.kinds, name);
    }

    pub fn dropped(&mut self, reason: &'static str) {
        raise(&mut self.reasons, reason);
    }

    pub fn kept(&mut self, kind: &'static str) {
        raise(&mut self.kept, kind);
    }

    /// Why records were dropped of a copy of form 2, as it was written, under form 1.
    pub fn narrowed(&mut self, reasons: &[&'static str]) {
        for (reason, name) in NARROWED {
            if reasons.contains(reason) {
                raise(&mut self.narrowed, name);
            }
        }
    }

    pub fn print(&self) {
        print_answers("answers to reading a checkpoint", &self.reading);
        print_answers("answers to writing a checkpoint", &self.writing);
        print_counts("checkpoints, by what was done to them or to the roster", &self.kinds);
        print_counts("records dropped by salvage", &self.reasons);
        print_counts("made calls kept, and calls by their last refresh", &self.kept);
        print_counts("checkpoints of form 2 read under form 1", &self.narrowed);
        let (trips, salvaged) = (self.round_trips, self.salvaged);
        println!("round trips: {trips}; checkpoints salvaged with records dropped: {salvaged}");
    }

    /// What the run should have reached and has not.
    pub fn lacking(&self) -> Vec<String> {
        let mut lacking = lacking_answers("answer to reading", &READING, &self.reading);
        lacking.extend(lacking_answers("answer to writing", &WRITING, &self.writing));
        for counts in [&self.kinds, &self.reasons, &self.kept, &self.narrowed] {
            lacking.extend(lacking_counts("", counts));
        }
        if self.checkpoints < CHECKPOINTS {
            lacking.push(format!("checkpoints: {} only, {CHECKPOINTS} due", self.checkpoints));
        }
        lacking
    }
}
