//! One checkpoint through both programs, written or read: answer, counts, every byte of the buffer, every word of the
//! table.

use crate::both::{any_table, same_buffers, same_tables, GUARD};
use crate::first;
use crate::layout::Lent;
use crate::random::Random;
use second::table::Table;
use std::panic::{catch_unwind, AssertUnwindSafe};

/// What both programs read.
pub struct Read {
    pub answer: u8,
    pub table: Table,
    /// Dropped calls and connections.
    pub dropped: (usize, usize),
}

/// Reads a checkpoint. The first one's table holds any words before.
pub fn read(salvages: bool, roster: &[u8], checkpoint: &[u8]) -> Result<Read, String> {
    let mut lent = Lent::new(&any_table(&mut Random::new(checkpoint.len() as u64)));
    let (answer, calls, connections) = first::read_checkpoint(&mut lent.table, salvages, roster, checkpoint);
    lent.check()?;
    let second = catch_unwind(|| second::read_checkpoint(salvages, roster, checkpoint));
    let second = second.map_err(|_| format!("reading: first {answer}, second panics"))?;
    let (table, (other, _, others, other_connections)) = (lent.table, second);
    if (answer, calls, connections) != (other, others, other_connections) {
        return Err(format!(
            "reading: first {answer}, dropped {calls} and {connections}; second {other}, dropped {others} and \
             {other_connections}"
        ));
    }
    let answers = format!("reading: both {answer}, dropped {calls} and {connections}");
    same_tables(&table, &second.1).map_err(|what| format!("{answers}; {what}"))?;
    Ok(Read {
        answer,
        table,
        dropped: (calls, connections),
    })
}

/// The answer and the checkpoint, none where writing is refused. The buffer holds the same old bytes for both.
pub fn write(table: &Table, buffer: usize, random: &mut Random) -> Result<(u8, Vec<u8>), String> {
    let old = random.bytes(buffer + 2 * GUARD);
    let (mut one, mut other) = (old.clone(), old.clone());
    let lent = GUARD..GUARD + buffer;
    let first_table = Lent::new(table);
    let first = first::write_checkpoint(&first_table.table, &mut one[lent.clone()]);
    first_table.check()?;
    same_tables(&first_table.table, table).map_err(|what| format!("writing changed the table: {what}"))?;
    let second = AssertUnwindSafe(|| second::write_checkpoint(table, &mut other[lent]));
    let second = catch_unwind(second).map_err(|_| format!("writing: first {}, second panics", first.0))?;
    if first != second {
        return Err(format!(
            "writing: first {} length {}, second {} length {}",
            first.0, first.1, second.0, second.1
        ));
    }
    let (answer, length) = first;
    let answers = format!("writing: both {answer} length {length}, buffer {buffer}");
    same_buffers(&one, &other, &old, length).map_err(|what| format!("{answers}; {what}"))?;
    if answer != 0 && length != 0 {
        return Err(format!("{answers}: a refusal has length 0"));
    }
    Ok((answer, one[GUARD..][..length].to_vec()))
}
