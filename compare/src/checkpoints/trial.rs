//! One checkpoint and roster, read plain and with salvage, and compared with what A13 makes due.

use super::both::{self, Read};
use super::expected::{expected_drops, Drops};
use super::parts::Parts;
use super::tally::Tally;
use super::writing;
use crate::both::{roster as read_roster, same_tables};
use crate::form;
use crate::random::Random;
use second::table::Table;
use second::Node;

/// What is due.
enum Due {
    /// The roster's refusal, 70 or 71.
    Refused(u8),
    /// 0, or 72 where something is dropped and not salvaged.
    Kept(Drops),
}

/// The reasons for which records are dropped, if the checkpoint is read at all.
pub fn read(roster: &[u8], checkpoint: &[u8], tally: &mut Tally) -> Result<Vec<&'static str>, String> {
    let (_, fresh, _) = read_roster(roster, &mut Random::new(0))?;
    let due = due(roster, checkpoint);
    for salvages in [false, true] {
        let what = if salvages { "salvage" } else { "plain" };
        let read = both::read(salvages, roster, checkpoint).map_err(|error| format!("{what}, {error}"))?;
        tally.read(read.answer);
        check(&read, &due, salvages, &fresh).map_err(|error| format!("{what}, both {}: {error}", read.answer))?;
        if read.answer == 0 {
            writing::again(&read.table, roster).map_err(|error| format!("{what}, read and written: {error}"))?;
        }
    }
    let Due::Kept(Drops {
        mut calls,
        connections,
        kept,
        ..
    }) = due
    else {
        return Ok(Vec::new());
    };
    calls.extend(connections);
    kept.iter().for_each(|kind| tally.kept(kind));
    tally.salvaged += u64::from(!calls.is_empty());
    calls.iter().for_each(|reason| tally.dropped(reason));
    Ok(calls)
}

fn due(roster: &[u8], checkpoint: &[u8]) -> Due {
    let answer = form::roster(roster);
    if answer != 0 {
        return Due::Refused(answer);
    }
    match Parts::of(checkpoint) {
        None => Due::Refused(70),
        Some(_) if checkpoint[0] >> 4 != 1 => Due::Refused(71),
        Some(parts) => Due::Kept(expected_drops(roster, &parts)),
    }
}

/// Answer and counts are those due, and the table is one that may come with them.
fn check(read: &Read, due: &Due, salvages: bool, fresh: &Table) -> Result<(), String> {
    let (answer, dropped, time) = match due {
        Due::Refused(answer) => (*answer, (0, 0), 0),
        Due::Kept(drops) => match (drops.calls.len(), drops.connections.len()) {
            (0, 0) => (0, (0, 0), drops.time),
            dropped if salvages => (0, dropped, drops.time),
            _ => (72, (0, 0), 0),
        },
    };
    if (read.answer, read.dropped) != (answer, dropped) {
        return Err(format!("dropped {:?}; {answer} and {dropped:?} are due", read.dropped));
    }
    if read.table.time != time {
        return Err(format!("time {}; {time} is due", read.table.time));
    }
    if answer != 0 {
        return same_tables(&read.table, fresh);
    }
    if Node::from_table(&read.table).is_none() {
        return Err("the table breaks a rule".into());
    }
    let mut emptied = read.table;
    (emptied.time, emptied.occupied, emptied.calls) = (fresh.time, fresh.occupied, fresh.calls);
    for (customer, record) in emptied.customers.iter_mut().zip(&fresh.customers) {
        (customer.endpoints, customer.places) = (record.endpoints, record.places);
    }
    same_tables(&emptied, fresh).map_err(|what| format!("besides calls and connections, {what}"))
}
