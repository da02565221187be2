//! A8 a third time, in the plainest way: which identifiers lie behind which, which messages are late for a table, and
//! what they leave kept there. It looks at messages and tables and shares nothing with either program.

use crate::form::{self, Form};
use crate::tables;
use second::table::{Customer, Table};

/// A MESSAGE_ID's epoch and identifier.
pub type Numbers = (u32, u32);

/// How far a new identifier lies behind an old one. They go round at 2^32.
pub fn behind(old: u32, new: u32) -> u64 {
    (u64::from(old) + (1 << 32) - u64::from(new)) % (1 << 32)
}

/// Late: in the same epoch, behind by less than half of the way round.
pub fn is_late(old: Numbers, new: Numbers) -> bool {
    old.0 == new.0 && (1..1 << 31).contains(&behind(old.1, new.1))
}

/// The MESSAGE_ID that a record keeps.
pub fn kept(record: &Customer) -> Option<Numbers> {
    (record.kept == 1).then_some((record.epoch, record.identifier))
}

/// The one that a table keeps of this sender.
pub fn last(table: &Table, sender: u32) -> Option<Numbers> {
    let record = tables::listed(table).iter().find(|one| one.address == sender);
    record.and_then(kept)
}

pub fn set_kept(record: &mut Customer, numbers: Option<Numbers>) {
    let (epoch, identifier) = numbers.unwrap_or_default();
    (record.kept, record.epoch, record.identifier) = (numbers.is_some().into(), epoch, identifier);
}

/// What a message leaves kept in the table behind the closings, which for answers 1 and 2 is the one handed in. It is
/// an error where 16 comes to what has no such fault of form, or anything else to what has.
pub fn keeping(behind: &Table, message: &[u8], buffer: usize, answer: u8) -> Result<Table, String> {
    let mut table = *behind;
    if answer == 1 {
        return Ok(table);
    }
    let senders: Vec<u32> = tables::listed(behind).iter().map(|one| one.address).collect();
    let form = form::read(message, buffer, &senders, |sender| last(behind, sender));
    if (answer == 16) != (form == Form::Fault(16)) {
        return Err(format!("answer {answer}, read as {form:?}"));
    }
    if let (Form::Notify(request), 20..=34) = (form, answer) {
        let mut records = table.customers.iter_mut();
        let record = records.find(|one| one.address == request.sender);
        set_kept(record.ok_or("a sender that is not listed")?, Some(request.numbers));
    }
    Ok(table)
}

/// Every record keeps what is due.
pub fn check(due: &Table, after: &Table) -> Result<(), String> {
    for (number, (due, record)) in due.customers.iter().zip(&after.customers).enumerate() {
        let fields = |one: &Customer| (one.kept, one.epoch, one.identifier);
        if fields(record) != fields(due) {
            return Err(format!(
                "record {number} keeps {:x?}, {:x?} being due",
                fields(record),
                fields(due)
            ));
        }
    }
    Ok(())
}

#[cfg(test)]
mod tests {
    use super::*;
    use crate::build::{close, nameless, path, Connection};
    use crate::tables::EMPTY;

    const HALF: u32 = 1 << 31;

    #[test]
    fn half_of_the_way_round() {
        for old in [0, 1, 77, HALF - 1, HALF, HALF + 1, u32::MAX] {
            for (less, late) in [
                (0, false),
                (1, true),
                (HALF - 1, true),
                (HALF, false),
                (HALF + 1, false),
                (u32::MAX, false),
            ] {
                let new = old.wrapping_sub(less);
                assert_eq!(behind(old, new), less.into());
                assert_eq!(is_late((9, old), (9, new)), late);
                assert!(!is_late((9, old), (8, new)));
            }
        }
    }

    /// Customers 3 and 4, of which the second has 9 and 78 kept.
    fn two() -> Table {
        let mut table = EMPTY;
        table.listed = 2;
        (table.customers[0].address, table.customers[1].address) = (3, 4);
        set_kept(&mut table.customers[1], Some((9, 78)));
        table
    }

    #[test]
    fn what_is_kept() {
        // `close` has the numbers 9 and 77.
        let keeps = |message: &[u8], answer| {
            keeping(&two(), message, 128, answer).map(|table| table.customers.map(|one| kept(&one)))
        };
        let before = two().customers.map(|one| kept(&one));
        let mut after = before;
        after[0] = Some((9, 77));
        for answer in [20, 21, 22, 30, 31, 32, 33, 34] {
            assert_eq!(keeps(&close(7, 3, 1, b"a"), answer), Ok(after));
            assert!(keeps(&close(7, 4, 1, b"a"), answer).is_err());
        }
        assert_eq!(keeps(&close(7, 4, 1, b"a"), 16), Ok(before));
        assert!(keeps(&close(7, 3, 1, b"a"), 16).is_err());
        assert_eq!(keeps(&close(7, 4, 0, b"a"), 13), Ok(before));
        assert!(keeps(&close(7, 4, 0, b"a"), 16).is_err());
        after = before;
        after[1] = Some((8, 0));
        assert_eq!(keeps(&nameless(7, 4, (8, 0)), 20), Ok(after));
        let connection = Connection {
            endpoint: 7,
            tunnel: 1,
            extended: 1,
            sender: 3,
            lsp: 1,
        };
        assert_eq!(keeps(&path(connection, 0), 23), Ok(before));
        assert!(keeping(&two(), &close(7, 4, 1, b"a"), 127, 2).is_ok());
        assert!(check(&two(), &EMPTY).is_err() && check(&two(), &two()).is_ok());
    }
}
