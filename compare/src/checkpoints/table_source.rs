//! Tables that checkpoints are written of: reached by messages, full, or nearly broken; each with its roster.

use crate::both;
use crate::build::{Record, Roster};
use crate::clock::{self, Habit};
use crate::coverage::situations;
use crate::form;
use crate::full::Full;
use crate::intent::{Mode, FILL, MODES};
use crate::near;
use crate::random::Random;
use crate::rosters::{self, Shape, SHAPES};
use crate::source;
use crate::tables;
use crate::tally::Tally;
use crate::trials::hex;
use crate::values::Values;
use second::table::Table;

/// Messages from one table to the next: more where there are more calls to fill the table with. Tables of one roster.
fn steps(form: u8) -> usize {
    4 + form::total(form) / 8
}
const TABLES: usize = 30;

/// Times that mostly close nothing, so that there are calls to write.
const HABITS: [(usize, Habit); 2] = [(9, Habit::Calm), (1, Habit::Closing)];

pub struct TableSource {
    values: Values,
    table: Table,
    mode: Mode,
    left: usize,
    /// A full table.
    full: Table,
    /// For the messages' source; nobody reads it.
    tally: Tally,
}

impl TableSource {
    pub fn new(random: &mut Random) -> Result<TableSource, String> {
        let full = Full::new(2, random)?;
        Ok(TableSource {
            values: full.values,
            table: full.fresh.first,
            mode: FILL,
            left: TABLES,
            full: full.full.first,
            tally: Tally::new(&situations(), &[], &[]),
        })
    }

    /// The next table. It breaks no rule.
    pub fn table(&mut self, random: &mut Random) -> Result<Table, String> {
        if self.left == 0 {
            self.restart(random)?;
        }
        self.left -= 1;
        for _ in 0..steps(self.table.form as u8) {
            self.step(random)?;
        }
        if random.chance(1, 3) {
            self.mode = random.weighted(&MODES);
        }
        let mut table = match random.below(10) {
            0 => self.full,
            _ => self.table,
        };
        if random.chance(1, 4) {
            nearly_break(&mut table, random);
        }
        Ok(table)
    }

    fn restart(&mut self, random: &mut Random) -> Result<(), String> {
        let mut shape = random.weighted(&SHAPES);
        if shape == Shape::Refused {
            shape = Shape::Random;
            self.full = Full::new(rosters::some_form(random), random)?.full.first;
        }
        let roster = rosters::shaped(rosters::some_form(random), shape, random);
        self.values = Values::new(&roster, random);
        self.table = both::roster(&roster.bytes(), random)?.1;
        (self.mode, self.left) = (FILL, TABLES);
        Ok(())
    }

    fn step(&mut self, random: &mut Random) -> Result<(), String> {
        let made = source::message(self.mode, 3, &self.values, &self.table, random, &mut self.tally);
        let habit = random.weighted(&HABITS);
        let clock = clock::next(habit, &self.table, random);
        let done = both::message((&self.table, &self.table), &made.bytes, clock, 128, random);
        let done = done.map_err(|what| format!("{what}\n{clock:?}\nmessage {}", hex(&made.bytes)))?;
        self.table = *done.first;
        Ok(())
    }
}

/// One of the near misses: calls in any slots, only the last place taken, S at the total and so on.
fn nearly_break(table: &mut Table, random: &mut Random) {
    let before = *table;
    let all: Vec<_> = near::all().collect();
    let (_, change) = **random.pick(&all);
    if table.listed == 0 || !change(table, random) {
        *table = before;
    }
}

/// The roster that the table was made from. The empty table's has no records, and no form.
pub fn roster_of(table: &Table) -> Roster {
    let record = |one: &second::table::Customer| Record {
        address: one.address,
        guarantee: one.guarantee as u8,
        limit: one.limit as u8,
        spare: 0,
    };
    Roster {
        form: table.form as u8,
        address: table.address,
        epoch: table.epoch,
        records: tables::listed(table).iter().map(record).collect(),
    }
}
