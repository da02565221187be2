//! A7 a third time, in the plainest way: which calls of a table are due at a time, the table behind their closing, and
//! what a message may change there. It looks at the tables and shares nothing with either program.

use crate::difference;
use crate::tables::{is_taken, is_used, set_used, FREE_CALL};
use second::table::{Call, Table};
use second::{Clock, Closing};

/// The node's time with a message: no earlier than it was.
pub fn raised(table: &Table, clock: Clock) -> u32 {
    table.time.max(clock.time)
}

/// Seconds from the last refresh to this time.
pub fn age(call: &Call, time: u32) -> u64 {
    u64::from(time).saturating_sub(call.refreshed.into())
}

pub fn is_lit(call: &Call) -> bool {
    call.places.iter().any(is_taken)
}

/// Five times the period, in as many bits as it takes.
pub fn five_periods(clock: Clock) -> u64 {
    5 * u64::from(clock.period)
}

/// Whether a call is due, but for its connections. A period of 0 makes none so.
pub fn is_old(call: &Call, time: u32, clock: Clock) -> bool {
    clock.period > 0 && age(call, time) >= five_periods(clock)
}

/// The calls of a table that are closed before a message, in slot order.
pub fn closings(table: &Table, clock: Clock) -> Vec<Closing> {
    let time = raised(table, clock);
    let mut closings = Vec::new();
    for (slot, call) in table.calls.iter().enumerate() {
        if is_used(table, slot) && !is_lit(call) && is_old(call, time, clock) {
            closings.push(Closing {
                slot: slot as u32,
                address: call.sender,
            });
        }
    }
    closings
}

/// The table with its time raised and these calls closed.
pub fn behind(table: &Table, clock: Clock, closings: &[Closing]) -> Table {
    let mut behind = *table;
    behind.time = raised(table, clock);
    for closing in closings {
        let slot = closing.slot as usize;
        behind.calls[slot] = FREE_CALL;
        set_used(&mut behind, slot, false);
    }
    behind
}

/// What a message may change of the table behind the closings, which for answers 1 and 2 is the one handed in, once
/// what is kept of it (A8) has been put there: the own identifier with a Notify; nothing else but with 20, 22, 23 and
/// 25; and with 21 one call's refresh, to the time. No other answer refreshes a call that stays, and a new one is
/// refreshed at the time.
pub fn check_change(answer: u8, behind: &Table, after: &Table) -> Result<(), String> {
    let mut due = *behind;
    let sends = matches!(answer, 20..=22 | 30..=34);
    due.next = due.next.wrapping_add(sends.into());
    let refreshed = |&slot: &usize| behind.calls[slot].refreshed != after.calls[slot].refreshed;
    let slots: Vec<usize> = (0..due.calls.len()).filter(refreshed).collect();
    if answer == 21 && slots.len() < 2 {
        slots.iter().for_each(|&slot| due.calls[slot].refreshed = due.time);
    }
    if matches!(answer, 20 | 22 | 23 | 25) {
        return check_refreshes(&due, after, &slots);
    }
    match difference::of_tables(after, &due) {
        Some(found) => Err(format!("answer {answer} changed {found} being due")),
        None => Ok(()),
    }
}

/// Time and own identifier are those due, and these slots, whose refresh is another, were opened or closed.
fn check_refreshes(due: &Table, after: &Table, slots: &[usize]) -> Result<(), String> {
    if (after.time, after.next) != (due.time, due.next) {
        return Err(format!(
            "time {} and next {}, {} and {} being due",
            after.time, after.next, due.time, due.next
        ));
    }
    for &slot in slots {
        let (was, is) = (is_used(due, slot), is_used(after, slot));
        if was == is || is && after.calls[slot].refreshed != due.time {
            return Err(format!("refresh of slot {slot} is {}", after.calls[slot].refreshed));
        }
    }
    let opened = (0..due.calls.len()).filter(|&slot| is_used(after, slot) && !is_used(due, slot));
    for slot in opened {
        if after.calls[slot].refreshed != due.time {
            return Err(format!("slot {slot} was opened with another refresh than the time"));
        }
    }
    Ok(())
}

#[cfg(test)]
mod tests {
    use super::*;
    use crate::tables::EMPTY;

    const CLOCK: Clock = Clock { time: 160, period: 10 };

    /// Slots 3, refreshed at 110, and 70, at 111; the time is 149.
    fn two() -> Table {
        let mut table = EMPTY;
        table.time = 149;
        for (slot, refreshed) in [(3, 110), (70, 111)] {
            set_used(&mut table, slot, true);
            (table.calls[slot].sender, table.calls[slot].refreshed) = (9, refreshed);
        }
        table
    }

    #[test]
    fn five_periods_or_longer() {
        let slots = |clock| {
            let closings = closings(&two(), clock);
            closings.into_iter().map(|one| one.slot).collect::<Vec<u32>>()
        };
        assert_eq!(slots(Clock { time: 159, ..CLOCK }), [0; 0]);
        assert_eq!(slots(CLOCK), [3]);
        assert_eq!(slots(Clock { time: 161, ..CLOCK }), [3, 70]);
        // The time does not go back, a period of 0 closes none, and 5 x 858,993,460 is above 2^32.
        assert_eq!(slots(Clock { time: 0, period: 7 }), [3, 70]);
        assert_eq!(slots(Clock { time: 161, period: 0 }), [0; 0]);
        assert_eq!(
            slots(Clock {
                time: u32::MAX,
                period: 858_993_460
            }),
            [0; 0]
        );
        let mut lit = two();
        lit.calls[3].places[3].taken = 1;
        assert_eq!(closings(&lit, CLOCK), []);
    }

    #[test]
    fn what_may_change() {
        let before = two();
        let behind = behind(&before, CLOCK, &closings(&before, CLOCK));
        assert_eq!(
            (behind.time, is_used(&behind, 3), is_used(&behind, 70)),
            (160, false, true)
        );
        assert!(check_change(3, &behind, &behind).is_ok());
        assert!(check_change(3, &behind, &before).is_err());
        let mut after = behind;
        after.calls[70].refreshed = 160;
        for answer in [3, 15, 20, 21, 23, 24, 25, 30] {
            assert!(check_change(answer, &behind, &after).is_err());
        }
        after.next += 1;
        assert!(check_change(21, &behind, &after).is_ok());
        for answer in [3, 15, 20, 22, 23, 24, 25, 30] {
            assert!(check_change(answer, &behind, &after).is_err());
        }
        after.calls[70].refreshed = 159;
        assert!(check_change(21, &behind, &after).is_err());
    }
}
