//! Handling a message: both programs take the table as they find it and check every rule of it before each message. A
//! reply buffer has 128 bytes and is not cleared between messages; each message gets the table that the one before it
//! left.

use crate::clock::{LONG, SHORT};
use crate::inputs::Calls;
use crate::output;
use compare::build::{self, Sum};
use compare::first::{self, NO_CLOSINGS};
use compare::layout::Closings;
use second::table::Table;
use second::{Clock, Node};
use std::hint::black_box;

/// A message and the answer that is due to it.
pub type Due = (Vec<u8>, u8);

/// A row: what it is, its name, the table that it starts from, and the messages that are sent in turns, at this time
/// and with this period. After the last of them, the table's calls and connections are those that it started with;
/// where they are not, the table is copied in anew before the first.
pub struct Row {
    pub what: &'static str,
    pub name: String,
    pub table: Table,
    pub messages: Vec<Due>,
    pub clock: Clock,
    pub anew: bool,
}

impl Row {
    /// One turn of the proved program.
    pub fn turn(&self, table: &mut Table, reply: &mut [u8; 128], closings: &mut Closings) -> u64 {
        if self.anew {
            *table = self.table;
        }
        for (message, due) in &self.messages {
            let done = first::handle(black_box(table), message, reply, self.clock, closings);
            assert_eq!(done.answer, *due);
        }
        u64::from(table.next)
    }
}

/// Retry, opening and closing, Path and PathTear, and refusals. A table of no calls has the one that a retry or a Path
/// is about, and no other.
pub fn rows(calls: Calls) -> Vec<Row> {
    let last = calls.last();
    let open = calls.open(last);
    let mut rows = vec![
        row(
            ("retry", "(a) retry 21"),
            calls.name("1 call, the one retried"),
            calls.table_of(0..last + 1, 4),
            vec![(open.clone(), 21)],
        ),
        row(
            ("open and close", "(b) open 20, close 22"),
            calls.name("0 calls before and after"),
            calls.table_before_last(),
            vec![(open, 20), (calls.close(last), 22)],
        ),
        row(
            ("Path and PathTear", "(c) Path 23, PathTear 25"),
            calls.name("1 call, the one of the Path"),
            calls.table_of(0..last + 1, 3),
            vec![(calls.path(last, 3), 23), (calls.path_tear(last, 3), 25)],
        ),
    ];
    rows.extend(refusals(calls));
    rows
}

/// Of a cut message, of wrong padding, and of an overtaken close (A8).
fn refusals(calls: Calls) -> [Row; 3] {
    let (name, last) = (calls.name("0 calls"), calls.last());
    let open = calls.open(last);
    let (cut, padded, late) = (open[..7].to_vec(), wrong_padding(&open), calls.late_close(last));
    let refused = |names, table, message, answer| row(names, name.clone(), table, vec![(message, answer)]);
    [
        refused(("refused at 3", "(d) refused at 3"), calls.table(), cut, 3),
        refused(("refused at 9", "(d) refused at 9"), calls.table(), padded, 9),
        refused(
            ("refused at 16", "(d) refused at 16"),
            calls.table_with_kept(),
            late,
            16,
        ),
    ]
}

fn row((what, name): (&'static str, &str), of_calls: String, table: Table, messages: Vec<Due>) -> Row {
    Row {
        what,
        name: format!("{name}, {of_calls}"),
        table,
        messages,
        clock: Clock::ZERO,
        anew: false,
    }
}

/// A setup with a byte set in the padding behind its name.
fn wrong_padding(open: &[u8]) -> Vec<u8> {
    let mut message = open.to_vec();
    // The SENDER_TEMPLATE, the last object, has 12 bytes.
    let end_of_attribute = message.len() - 12;
    message[end_of_attribute - 1] = 1;
    build::write_sum(&mut message, Sum::Right);
    message
}

/// Times a row and prints it.
pub fn measure(row: &Row) {
    let count = row.messages.len() as f64;
    let (mut one, mut two) = (row.table, row.table);
    let (mut reply, mut other) = ([0; 128], [0; 128]);
    let mut closings = NO_CLOSINGS;
    let mut first = || row.turn(&mut one, &mut reply, &mut closings);
    let mut second = || {
        for (message, due) in &row.messages {
            let (done, after) = second::handle(&two, row.clock, message, &mut other);
            assert_eq!(done.answer, *due);
            two = after;
        }
        u64::from(two.next)
    };
    let (proved, checked) = LONG.in_turns(&mut first, &mut second);
    let unchecked = unchecked(row) / count;
    output::times(&row.name, (proved / count, checked / count), Some(unchecked));
}

/// The second program with its own state kept between messages, and no rule checked.
fn unchecked(row: &Row) -> f64 {
    let mut node = Node::from_table(&row.table).expect("a table that keeps the rules");
    let mut reply = [0; 128];
    let mut run = || {
        let mut lengths = 0;
        for (message, _) in &row.messages {
            lengths += node.answer(row.clock, message, &mut reply).length as u64;
        }
        lengths
    };
    LONG.alone(&mut run)
}

/// Nanoseconds per message of two rows of the proved program's, which have as many.
pub fn in_turns(row: &Row, beside: &Row) -> (f64, f64) {
    let count = row.messages.len() as f64;
    let (mut table, mut other) = (row.table, beside.table);
    let (mut reply, mut closings) = ([0; 128], NO_CLOSINGS);
    let (mut second_reply, mut second_closings) = ([0; 128], NO_CLOSINGS);
    let mut first = || row.turn(&mut table, &mut reply, &mut closings);
    let mut second = || beside.turn(&mut other, &mut second_reply, &mut second_closings);
    let times = SHORT.in_turns(&mut first, &mut second);
    (times.0 / count, times.1 / count)
}
