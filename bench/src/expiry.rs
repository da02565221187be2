//! bench expiry: the proved program's times for messages that come with a period (A7) beside its own with period 0, at
//! the same tables; then the worst ratio where no call is due, and the deepest stack. Against what they were before
//! there was a time, messages with period 0 are to take 1.1 times as long at most, those with nothing due 1.15 times.

use crate::inputs::{calls, wide, Calls, Pairs};
use crate::messages::{self, in_turns, Row};
use crate::output;
use crate::sizes::stack_of;
use second::table::{Place, Table};
use second::Clock;

pub const TABLES: [Calls; 4] = [
    wide(200, Pairs::One),
    wide(200, Pairs::Own),
    wide(100, Pairs::Eight),
    calls(64, Pairs::One),
];

/// The node's time in these tables; how long young calls have waited, and a period of which five are longer.
const TIME: u32 = 1_000_000;
const WAITED: u32 = 10;
const LONG: u32 = 1_000;

/// How the calls of a table stand to the time.
#[derive(Clone, Copy, PartialEq, Eq)]
pub enum Age {
    /// None has waited for five periods.
    Young,
    /// All have waited, and each has a connection in its last place only.
    Lit,
    /// All have waited, and none has a connection.
    Due,
}

/// A row at a table of these calls.
pub struct Aged {
    pub age: Age,
    pub calls: Calls,
    pub row: Row,
}

impl Aged {
    /// For the row's name.
    pub fn input(&self) -> String {
        let age = match self.age {
            Age::Young => "period, nothing due",
            Age::Lit => "period, nothing due for connections",
            Age::Due => "period, all due, with a copy of the table",
        };
        format!("{}, {age}{}", self.row.what, self.calls.form_name())
    }

    /// The same with period 0, which closes nothing: a setup that opened a call anew is a retry.
    fn without_period(&self) -> Row {
        let answer = |due: u8| match (self.age, due) {
            (Age::Due, 20) => 21,
            _ => due,
        };
        let messages = self.row.messages.iter();
        Row {
            what: self.row.what,
            name: self.row.name.clone(),
            table: self.row.table,
            messages: messages.map(|(message, due)| (message.clone(), answer(*due))).collect(),
            clock: Clock { time: TIME, period: 0 },
            anew: self.row.anew,
        }
    }
}

/// The usual messages where nothing is due; where all are, a retry, which opens its call anew, and a refusal.
pub fn rows(calls: Calls) -> Vec<Aged> {
    let aged = |age, calls, row| Aged { age, calls, row };
    let young = messages::rows(calls).into_iter().map(|row| Row {
        table: young(at_time(row.table)),
        clock: Clock {
            time: TIME,
            period: LONG,
        },
        ..row
    });
    let lit = messages::rows(calls).into_iter().map(|row| Row {
        table: last_places(at_time(row.table)),
        clock: Clock { time: TIME, period: 1 },
        ..row
    });
    let due = messages::rows(calls).into_iter().filter_map(|row| all_due(calls, row));
    let young = young.map(|row| aged(Age::Young, calls, row));
    let lit = lit.map(|row| aged(Age::Lit, calls, row));
    let due = due.map(|row| aged(Age::Due, calls, row));
    young.chain(lit).chain(due).collect()
}

/// The table at a later time, its calls refreshed at 0.
fn at_time(table: Table) -> Table {
    Table { time: TIME, ..table }
}

/// Its calls refreshed a short time ago.
fn young(mut table: Table) -> Table {
    let used: Vec<usize> = table.used().collect();
    for slot in used {
        table.calls[slot].refreshed = TIME - WAITED;
    }
    table
}

/// Each call keeps its last connection only; one with none keeps none.
fn last_places(mut table: Table) -> Table {
    for call in &mut table.calls {
        let last = call.places.into_iter().rfind(|place| place.taken == 1);
        call.places = [Place::FREE, Place::FREE, Place::FREE, last.unwrap_or(Place::FREE)];
    }
    table
}

/// The retry and the refusal at 3, with calls that have no connections.
fn all_due(calls: Calls, row: Row) -> Option<Row> {
    let messages = match row.what {
        "retry" => vec![(calls.open(calls.last()), 20)],
        "refused at 3" => row.messages,
        _ => return None,
    };
    let mut table = at_time(row.table);
    table.calls.iter_mut().for_each(|call| call.places = [Place::FREE; 4]);
    Some(Row {
        messages,
        table,
        clock: Clock { time: TIME, period: 1 },
        anew: true,
        ..row
    })
}

pub fn print() {
    output::head_of_expiry();
    let (mut worst, mut deepest) = (0f64, 0);
    for aged in TABLES.into_iter().flat_map(rows) {
        let times = in_turns(&aged.row, &aged.without_period());
        output::ratio(&aged.input(), (aged.calls.count, aged.calls.pairs()), times);
        if aged.age != Age::Due {
            worst = worst.max(times.0 / times.1);
        }
        deepest = deepest.max(stack_of(&aged.row));
    }
    println!("worst ratio {worst:.2}, nothing due");
    println!("stack {deepest}");
}

#[cfg(test)]
mod tests {
    use super::*;
    use compare::expiry::closings;
    use second::Node;

    /// Every table keeps the rules, and as many calls are due as the row says.
    #[test]
    fn rows_are_what_they_say() {
        for aged in TABLES.into_iter().flat_map(rows) {
            assert!(Node::from_table(&aged.row.table).is_some());
            let due = match aged.age {
                Age::Due => aged.calls.count as usize,
                _ => 0,
            };
            assert_eq!(closings(&aged.row.table, aged.row.clock).len(), due, "{}", aged.input());
            assert_eq!(closings(&aged.row.table, aged.without_period().clock), []);
        }
    }
}
