//! Calls that nobody refreshes: what comes before a message.

use crate::rules::Counts;
use crate::table::{Call, Table};
use crate::Closings;

/// The caller's time and period.
#[derive(Clone, Copy)]
pub struct Clock {
    pub time: u32,
    pub period: u32,
}

/// Raises the time and closes the calls that are due: how many.
#[inline(always)]
pub fn elapse(table: &mut Table, counts: &mut Counts, clock: Clock, closings: &mut Closings) -> usize {
    table.time = table.time.max(clock.time);
    if clock.period == 0 {
        return 0;
    }
    // A call that was refreshed at this time is due, and one that was later is not.
    match u64::from(table.time).checked_sub(5 * u64::from(clock.period)) {
        Some(latest) => close_due(table, counts, latest as u32, closings),
        None => 0,
    }
}

/// One look at the refresh of each used slot, and at its places where that is not enough.
#[inline(never)]
fn close_due(table: &mut Table, counts: &mut Counts, latest: u32, closings: &mut Closings) -> usize {
    let mut closed = 0;
    for w in 0..4 {
        let mut used = table.used(w);
        while used != 0 {
            let slot = 64 * w + used.trailing_zeros() as usize;
            used &= used - 1;
            let call = &table.calls[slot];
            if call.refreshed <= latest && call.is_idle() {
                closings[closed] = [slot as u32, call.sender];
                closed += 1;
                table.free(slot);
            }
        }
    }
    if closed > 0 {
        recount(table, counts, &closings[..closed]);
    }
    closed
}

/// The counts without the calls that were closed.
#[cold]
#[inline(never)]
fn recount(table: &Table, counts: &mut Counts, closings: &[[u32; 2]]) {
    let customers = &table.customers[..table.listed as usize];
    for &[_, address] in closings {
        let k = customers.iter().position(|one| one.address == address);
        counts.calls[k.expect("a call's sender is listed")] -= 1;
    }
    let larger = customers.iter().zip(&counts.calls);
    counts.sum = larger.map(|(one, &count)| one.guarantee.max(count.into())).sum();
}

impl Call {
    /// Whether no connection stands under it.
    #[inline(always)]
    fn is_idle(&self) -> bool {
        self.places.iter().fold(0, |any, place| any | place.taken) == 0
    }
}

#[cfg(test)]
mod tests {
    use super::*;
    use crate::table::Place;
    use crate::{handle, Done, Words};

    /// Calls of customer 5 in slots 0, 70 and 199, refreshed at 100, 110 and 110; the last has a connection.
    fn three() -> Words {
        let mut words = [0; 6622];
        let table = Table::of_mut(&mut words);
        (table.epoch, table.next, table.time, table.listed, table.form) = (7, 1, 120, 1, 2);
        (table.customers[0].address, table.customers[0].limit) = (5, 200);
        for (slot, refreshed) in [(0, 100), (70, 110), (199, 110)] {
            table.occupied[slot / 32] |= 1 << (slot % 32);
            let call = &mut table.calls[slot];
            (call.endpoint, call.sender, call.refreshed) = (6, 5, refreshed);
            (call.id, call.size, call.name[0]) = (1 + slot as u32, 1, 1 + slot as u8);
        }
        table.calls[199].places[3] = Place::new(1, 2, 3);
        words
    }

    /// A message that is refused 3 or, by the buffer, 2: what was closed before it, and the time afterwards.
    fn closed(buffer: usize, time: u32, period: u32) -> (Vec<u32>, u32) {
        let (mut words, mut closings) = (three(), [[9; 2]; 200]);
        let done = handle(&mut words, &[], &mut vec![0; buffer], time, period, &mut closings);
        let Done { answer, closed, .. } = done;
        assert_eq!(answer, if buffer < 128 { 2 } else { 3 });
        assert!(closings[..closed].iter().all(|one| one[1] == 5));
        assert!(closings[closed..].iter().all(|one| *one == [9; 2]));
        let slots = closings[..closed].iter().map(|one| one[0]).collect();
        (slots, Table::of(&words).time)
    }

    #[test]
    fn five_periods_or_longer() {
        assert_eq!(closed(128, 149, 10), (vec![], 149));
        assert_eq!(closed(128, 150, 10), (vec![0], 150));
        assert_eq!(closed(128, 159, 10), (vec![0], 159));
        assert_eq!(closed(128, 160, 10), (vec![0, 70], 160));
        assert_eq!(closed(127, 160, 10), (vec![], 120));
        // By the table's time, not the caller's.
        assert_eq!(closed(128, 0, 4), (vec![0], 120));
        assert_eq!(closed(128, 160, 0), (vec![], 160));
        assert_eq!(closed(128, u32::MAX, u32::MAX / 5 + 1), (vec![], u32::MAX));
    }

    #[test]
    fn counts_without_what_was_closed() {
        let mut words = three();
        let table = Table::of_mut(&mut words);
        table.customers[0].guarantee = 2;
        let mut counts = crate::rules::check(table).expect("the rules hold");
        assert_eq!((counts.calls[0], counts.sum), (3, 3));
        let clock = Clock { time: 160, period: 10 };
        assert_eq!(elapse(table, &mut counts, clock, &mut [[0; 2]; 200]), 2);
        assert_eq!((counts.calls[0], counts.sum), (1, 2));
        let again = crate::rules::check(table).expect("the rules hold");
        assert_eq!((again.calls, again.sum), (counts.calls, counts.sum));
    }

    #[test]
    fn no_refresh_after_the_time() {
        let breaks = |slot: usize, refreshed: u32| {
            let mut words = three();
            Table::of_mut(&mut words).calls[slot].refreshed = refreshed;
            !crate::rules_hold(&words)
        };
        assert!(!breaks(0, 120) && !breaks(199, 0));
        assert!(breaks(0, 121) && breaks(199, u32::MAX));
        assert!(breaks(1, 1) && breaks(198, 120));
    }
}
