//! Faults of A8 that the stand-in can have, so that the comparison is known to find them. Each does something else with
//! the messages that it is about, and leaves all others to the second program.

use crate::damage;
use crate::form::{self, Form};
use crate::late::{self, behind, is_late, Numbers};
use crate::tables;
use second::table::{Customer, Table};
use second::{handle, Answered, Clock};
use std::cell::{Cell, RefCell};

#[derive(Clone, Copy, PartialEq, Eq, Debug)]
pub(crate) enum Fault {
    /// `<=` for `<` at 2^31.
    HalfIsLate,
    /// The new identifier less the old.
    Turned,
    /// The identifiers as they are, not as they go round.
    Unsigned,
    EpochsNotCompared,
    /// The lower 16 bits of an epoch.
    EpochsHalfCompared,
    EqualIsLate,
    PathKept,
    PathCompared,
    Before12,
    Before13,
    /// 33 comes before 16.
    Behind33,
    Only20And21Keep,
    RefusalForShareKeepsNone,
    FaultsKeep,
    WrongRecord,
    OneForAll,
    LateKeeps,
    LateRefreshes,
    LateTakesIdentifier,
    LateWritesReply,
    LateBeforeClosings,
    ForgottenWithTheLastCall,
    SurvivesRestore,
    LateNotTested,
}

thread_local! {
    static PLANTED: Cell<Option<Fault>> = const { Cell::new(None) };
    static WRITTEN: RefCell<Vec<Customer>> = const { RefCell::new(Vec::new()) };
}

/// From now on, in this thread, the stand-in has this fault.
pub(crate) fn plant(fault: Fault) {
    PLANTED.set(Some(fault));
}

/// A message from answer 11 on, and what the second program answers it.
struct Asked<'a> {
    table: &'a Table,
    clock: Clock,
    message: &'a [u8],
    /// The sender's place in the roster, what is kept of it, and the message's own numbers.
    place: usize,
    old: Option<Numbers>,
    new: Numbers,
    answer: u8,
}

/// What the second program does, or the planted fault.
pub(crate) fn handled(table: &Table, clock: Clock, message: &[u8], reply: &mut [u8]) -> (Answered, Table) {
    let asked = Asked::of(table, clock, message, reply);
    let faulty = match (PLANTED.get(), asked) {
        (Some(fault), Some(asked)) => asked.refused(fault, reply).or_else(|| asked.changed(fault, reply)),
        _ => None,
    };
    faulty.unwrap_or_else(|| handle(table, clock, message, reply))
}

/// The message's sender and MESSAGE_ID, whatever else is wrong with it.
fn sent_by(message: &[u8]) -> Option<(u32, Numbers)> {
    let objects = damage::objects(message);
    let word = |class: u8, at: usize| {
        let object = objects.iter().find(|object| message[object.start + 2] == class)?;
        let bytes = message.get(object.start + at..object.start + at + 4)?;
        Some(u32::from_be_bytes(bytes.try_into().ok()?))
    };
    Some((word(11, 4)?, (word(23, 4)? & 0x00ff_ffff, word(23, 8)?)))
}

impl<'a> Asked<'a> {
    fn of(table: &'a Table, clock: Clock, message: &'a [u8], reply: &[u8]) -> Option<Asked<'a>> {
        let answer = handle(table, clock, message, &mut reply.to_vec()).0.answer;
        let (sender, new) = sent_by(message).filter(|_| answer > 11)?;
        let place = tables::listed(table).iter().position(|one| one.address == sender)?;
        Some(Asked {
            table,
            clock,
            message,
            place,
            old: late::kept(&table.customers[place]),
            new,
            answer,
        })
    }

    fn is_accepted(&self) -> bool {
        matches!(self.answer, 20..=22 | 30..=34)
    }

    /// Another reading of what is late.
    fn is_late(&self, fault: Fault) -> Option<bool> {
        let (new, old) = (self.new, self.old);
        let same = |old: &Numbers| old.0 == new.0;
        let low = |numbers: Numbers| (numbers.0 & 0xffff, numbers.1);
        let late = match fault {
            Fault::HalfIsLate => old
                .filter(same)
                .map(|old| (1..=1 << 31).contains(&behind(old.1, new.1))),
            Fault::Turned => old.map(|old| is_late(new, old)),
            Fault::Unsigned => old.filter(same).map(|old| new.1 < old.1),
            Fault::EpochsNotCompared => old.map(|old| is_late((new.0, old.1), new)),
            Fault::EpochsHalfCompared => old.map(|old| is_late(low(old), low(new))),
            Fault::EqualIsLate => old.map(|old| old == new || is_late(old, new)),
            Fault::LateNotTested => None,
            Fault::OneForAll => {
                let mut all = tables::listed(self.table).iter().filter_map(late::kept);
                Some(all.any(|old| is_late(old, new)))
            }
            _ => return None,
        };
        Some(late.unwrap_or(false))
    }

    /// 16 to what is not late, or something else to what is.
    fn refused(&self, fault: Fault, reply: &mut [u8]) -> Option<(Answered, Table)> {
        let would_be = self.old.is_some_and(|old| is_late(old, self.new));
        let called_late = match fault {
            Fault::PathCompared => would_be && matches!(self.answer, 14 | 15 | 23..=25 | 35 | 37),
            Fault::Before12 => would_be && self.answer == 12,
            Fault::Before13 => would_be && self.answer == 13,
            _ => self.is_accepted() && self.is_late(fault) == Some(true),
        };
        if called_late {
            return Some(self.late(reply));
        }
        let behind_33 = fault == Fault::Behind33;
        if self.answer != 16 || !behind_33 && self.is_late(fault) != Some(false) {
            return None;
        }
        let mut table = *self.table;
        late::set_kept(&mut table.customers[self.place], None);
        let mut other = reply.to_vec();
        let taken = handle(&table, self.clock, self.message, &mut other);
        if behind_33 && taken.0.answer != 33 {
            return None;
        }
        reply.copy_from_slice(&other);
        Some(taken)
    }

    /// 16, behind the closings. An empty message is refused 3 and changes nothing else.
    fn late(&self, reply: &[u8]) -> (Answered, Table) {
        let (answered, after) = handle(self.table, self.clock, &[], &mut reply.to_vec());
        (Answered { answer: 16, ..answered }, after)
    }

    /// The right answer, and something else changed.
    fn changed(&self, fault: Fault, reply: &mut [u8]) -> Option<(Answered, Table)> {
        let (mut answered, mut after) = handle(self.table, self.clock, self.message, reply);
        let calls = tables::count(&after, after.customers[self.place].address);
        let (is_late, new) = (self.answer == 16, Some(self.new));
        let record = &mut after.customers[self.place];
        match fault {
            Fault::PathKept if matches!(self.answer, 23..=25) => late::set_kept(record, new),
            Fault::Only20And21Keep if self.is_accepted() && self.answer > 21 => late::set_kept(record, self.old),
            Fault::RefusalForShareKeepsNone if self.answer == 34 => late::set_kept(record, self.old),
            Fault::FaultsKeep if matches!(self.answer, 12 | 13) => late::set_kept(record, new),
            Fault::LateKeeps if is_late => late::set_kept(record, new),
            Fault::ForgottenWithTheLastCall if self.answer == 22 && calls == 0 => late::set_kept(record, None),
            Fault::WrongRecord if self.is_accepted() && after.listed > 1 => {
                late::set_kept(record, self.old);
                let other = (self.place + 1) % after.listed as usize;
                late::set_kept(&mut after.customers[other], new);
            }
            Fault::LateRefreshes if is_late => refresh(&mut after, self.message),
            Fault::LateTakesIdentifier if is_late => after.next = after.next.wrapping_add(1),
            Fault::LateWritesReply if is_late => reply[0] = !reply[0],
            Fault::LateBeforeClosings if is_late => {
                answered.closings.clear();
                after = *self.table;
            }
            _ => {}
        }
        Some((answered, after))
    }
}

/// The call that a Notify names.
fn refresh(table: &mut Table, message: &[u8]) {
    let senders: Vec<u32> = tables::listed(table).iter().map(|one| one.address).collect();
    if let Form::Notify(request) = form::read(message, 128, &senders, |_| None) {
        let (pair, id) = ((request.endpoint, request.sender), u32::from(request.short));
        let used = tables::used(table);
        let of_slot = |slot: &usize| {
            let call = &table.calls[*slot];
            (call.endpoint, call.sender) == pair && call.id == id && tables::name(call) == request.long
        };
        if let Some(slot) = used.into_iter().find(of_slot) {
            table.calls[slot].refreshed = table.time;
        }
    }
}

/// What was kept in the table that a checkpoint was written of.
pub(crate) fn note_written(table: &Table) {
    WRITTEN.set(table.customers.to_vec());
}

/// The table that was read, with the fault.
pub(crate) fn restored(mut table: Table) -> Table {
    if PLANTED.get() == Some(Fault::SurvivesRestore) {
        let listed = table.listed as usize;
        for (record, old) in table.customers[..listed].iter_mut().zip(WRITTEN.take()) {
            if record.address == old.address {
                late::set_kept(record, late::kept(&old));
            }
        }
    }
    table
}

#[cfg(test)]
mod tests {
    use super::{plant, Fault};
    use crate::run::tests::short_run;

    #[test]
    fn every_fault_is_found() {
        use Fault::*;
        for fault in [
            HalfIsLate,
            Turned,
            Unsigned,
            EpochsNotCompared,
            EpochsHalfCompared,
            EqualIsLate,
            PathKept,
            PathCompared,
            Before12,
            Before13,
            Behind33,
            Only20And21Keep,
            RefusalForShareKeepsNone,
            FaultsKeep,
            WrongRecord,
            OneForAll,
            LateKeeps,
            LateRefreshes,
            LateTakesIdentifier,
            LateWritesReply,
            LateBeforeClosings,
            ForgottenWithTheLastCall,
            SurvivesRestore,
            LateNotTested,
        ] {
            plant(fault);
            assert!(short_run().is_err(), "{fault:?}");
        }
    }
}
