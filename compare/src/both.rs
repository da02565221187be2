//! One input through both programs: answer, length, every byte of the buffer, every word of the table, the closings and
//! the words behind them. Messages go through the yardstick as well; what is closed before them, whether
//! they are late and what is kept of them is found a third time (`expiry`, `late`).

use crate::difference;
use crate::expiry;
use crate::first;
use crate::late;
use crate::layout::{words, words_mut, Closings, Lent, LentRow, SLOTS};
use crate::random::Random;
use second::table::Table;
use second::{Answered, Clock, Closing, Node};
use std::panic::{catch_unwind, AssertUnwindSafe};

/// Bytes before and behind the buffer that neither program is handed.
pub(crate) const GUARD: usize = 32;

/// What both programs made of a message.
pub struct Done {
    pub answer: u8,
    pub length: usize,
    /// The calls that were closed before it.
    pub closings: Vec<Closing>,
    /// The table behind the closings; the one handed in for answers 1 and 2. In boxes, for they are large and are
    /// handed on.
    pub behind: Box<Table>,
    pub first: Box<Table>,
    pub second: Box<Table>,
    /// The bytes that the buffer held before, guards included, and those that it holds now.
    pub old: Vec<u8>,
    pub buffer: Vec<u8>,
}

impl Done {
    /// The reply that was sent.
    pub fn reply(&self) -> &[u8] {
        &self.buffer[GUARD..][..self.length]
    }
}

/// A message to both programs, each with its own table, both with the same old bytes in the buffer.
pub fn message(
    tables: (&Table, &Table),
    message: &[u8],
    clock: Clock,
    buffer: usize,
    random: &mut Random,
) -> Result<Done, String> {
    let old = random.bytes(buffer + 2 * GUARD);
    let (mut one, mut other) = (old.clone(), old.clone());
    let lent = GUARD..GUARD + buffer;
    let any = any_row(random);
    let (mut table, mut row) = (Lent::new(tables.0), LentRow::new(&any));
    let first = first::handle(&mut table.table, message, &mut one[lent.clone()], clock, &mut row.row);
    table.check().and_then(|()| row.check())?;
    let mut after = Box::new(Table::EMPTY);
    let second = AssertUnwindSafe(|| {
        let (answered, table) = second::handle(tables.1, clock, message, &mut other[lent]);
        *after = table;
        answered
    });
    let second = catch_unwind(second).map_err(|_| format!("answers: first {}, second panics", first.answer))?;
    let Answered {
        answer,
        length,
        closings,
    } = second;
    if (first.answer, first.length, first.closed) != (answer, length, closings.len()) {
        return Err(format!(
            "answers: first {} length {} closed {}, second {answer} length {length} closed {}",
            first.answer,
            first.length,
            first.closed,
            closings.len()
        ));
    }
    let answers = format!("answers: both {answer} length {length} closed {}", closings.len());
    let place = |what: String| format!("{answers}; {what}");
    same_rows(&row.row, &closings, &any).map_err(place)?;
    same_buffers(&one, &other, &old, length).map_err(place)?;
    same_tables(&table.table, &after).map_err(place)?;
    let behind = closed_before(tables.1, clock, answer, &closings).map_err(place)?;
    changed_as_due(&behind, message, buffer, answer, &after).map_err(place)?;
    let done = Done {
        answer,
        length,
        closings,
        behind,
        first: Box::new(table.table),
        second: after,
        old,
        buffer: one,
    };
    yardstick(tables.1, message, clock, &done).map_err(|what| format!("{answers}; the peer: {what}"))?;
    Ok(done)
}

/// The table behind the closings, which have to be those that are due: none with answers 1 and 2.
fn closed_before(table: &Table, clock: Clock, answer: u8, closings: &[Closing]) -> Result<Box<Table>, String> {
    let is_refused = answer == 1 || answer == 2;
    let due = match is_refused {
        true => Vec::new(),
        false => expiry::closings(table, clock),
    };
    if due != closings {
        return Err(format!("both closed {closings:x?}, {due:x?} being due"));
    }
    Ok(Box::new(match is_refused {
        true => *table,
        false => expiry::behind(table, clock, &due),
    }))
}

/// What the message changed of the table behind the closings: what is kept (A8), and nothing else than may be.
fn changed_as_due(behind: &Table, message: &[u8], buffer: usize, answer: u8, after: &Table) -> Result<(), String> {
    let due = late::keeping(behind, message, buffer, answer)?;
    late::check(&due, after)?;
    expiry::check_change(answer, &due, after)
}

/// A row of any words.
fn any_row(random: &mut Random) -> Closings {
    let word = random.word();
    // Every one has others, and none is drawn by itself: there are many.
    std::array::from_fn(|at| Closing {
        slot: word.wrapping_mul(2 * at as u32 + 1),
        address: word.rotate_left(7) ^ at as u32,
    })
}

/// The row's front is the closings, and what is behind them is as it was.
fn same_rows(row: &Closings, closings: &[Closing], old: &Closings) -> Result<(), String> {
    let (front, rest) = row.split_at(closings.len().min(SLOTS));
    if front != closings {
        return Err(format!("closings: first {front:x?}, second {closings:x?}"));
    }
    match rest == &old[front.len()..] {
        true => Ok(()),
        false => Err("the first wrote behind its closings".into()),
    }
}

/// The same message to the benchmark's peer, which has to do the same, so that it is known what is measured.
fn yardstick(table: &Table, message: &[u8], clock: Clock, done: &Done) -> Result<(), String> {
    let (mut table, mut reply) = (*table, done.old.clone());
    let old = [[0xc0ff_ee11; 2]; SLOTS];
    let mut row = old;
    let end = reply.len() - GUARD;
    let answered = AssertUnwindSafe(|| {
        let reply = &mut reply[GUARD..end];
        peer::handle(
            words_mut(&mut table),
            message,
            reply,
            clock.time,
            clock.period,
            &mut row,
        )
    });
    let peer::Done { answer, length, closed } = catch_unwind(answered).map_err(|_| "panics")?;
    if (answer, length, closed) != (done.answer, done.length, done.closings.len()) {
        return Err(format!("{answer} length {length} closed {closed}"));
    }
    let front = done.closings.iter().map(|one| [one.slot, one.address]);
    if !row[..closed].iter().copied().eq(front) || row[closed..] != old[closed..] {
        return Err(format!("closings {:x?}", &row[..closed]));
    }
    if let Some(found) = difference::of_bytes(&done.buffer, &reply, GUARD) {
        return Err(format!("its buffer, {found}"));
    }
    same_tables(&done.first, &table)?;
    match peer::rules_hold(words(&done.first)) == (answer != 1) {
        true => Ok(()),
        false => Err("its rule check says otherwise".into()),
    }
}

/// The buffers are equal, and hold their old bytes but in the reply or checkpoint.
pub(crate) fn same_buffers(one: &[u8], other: &[u8], old: &[u8], length: usize) -> Result<(), String> {
    if let Some(found) = difference::of_bytes(one, other, GUARD) {
        return Err(format!("buffers differ first in {found}"));
    }
    let behind = GUARD + length;
    if behind > one.len() - GUARD || one[..GUARD] != old[..GUARD] || one[behind..] != old[behind..] {
        return Err("both wrote outside it".into());
    }
    Ok(())
}

pub fn same_tables(first: &Table, second: &Table) -> Result<(), String> {
    match difference::of_tables(first, second) {
        None => Ok(()),
        Some(found) => Err(format!("tables differ first in {found}")),
    }
}

/// A roster to both programs: the answer and the two tables. The first one's table holds any words before.
pub fn roster(bytes: &[u8], random: &mut Random) -> Result<(u8, Table, Table), String> {
    let mut table = Lent::new(&any_table(random));
    let answer = first::read_roster(&mut table.table, bytes);
    table.check()?;
    let second =
        catch_unwind(|| second::read_roster(bytes)).map_err(|_| format!("roster: first {answer}, second panics"))?;
    if answer != second.0 {
        return Err(format!("roster: first {answer}, second {}", second.0));
    }
    same_tables(&table.table, &second.1).map_err(|what| format!("roster: both {answer}; {what}"))?;
    Ok((answer, table.table, second.1))
}

/// Any words.
pub(crate) fn any_table(random: &mut Random) -> Table {
    let mut table = Table::EMPTY;
    words_mut(&mut table).fill_with(|| random.word());
    table
}

/// The same message to a node of the second program that stands since the stream's start: it has to do the same.
pub fn lasting(node: &mut Node, message: &[u8], clock: Clock, done: &Done) -> Result<(), String> {
    let mut reply = done.old.clone();
    let end = reply.len() - GUARD;
    let answered = AssertUnwindSafe(|| node.answer(clock, message, &mut reply[GUARD..end]));
    let answered = catch_unwind(answered);
    let answered = answered.map_err(|_| format!("both {}, the lasting node panics", done.answer))?;
    if (answered.answer, answered.length, &answered.closings) != (done.answer, done.length, &done.closings) {
        let both = format!("both {} length {}", done.answer, done.length);
        return Err(format!("answers: {both}, the lasting node {answered:?}"));
    }
    if let Some(found) = difference::of_bytes(&done.buffer, &reply, GUARD) {
        return Err(format!("the lasting node's buffer, {found}"));
    }
    same_tables(&done.first, &node.to_table()).map_err(|what| format!("the lasting node: {what}"))
}
