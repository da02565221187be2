//! The caller's times and periods (A7): what a stream hands in beside its messages. They are drawn for the table as it
//! stands, so that calls are due to the second, one second short, a few at a time or all at once.

use crate::expiry::{age, is_lit};
use crate::random::Random;
use crate::tables;
use second::table::{Call, Table};
use second::Clock;

/// The largest period of which five are no more than the largest time: 2^32 less 1.
pub const FIFTH: u32 = u32::MAX / 5;

/// Five of each are above 2^32, and little or nothing is left of them in 32 bits.
const WIDE: [u32; 7] = [
    FIFTH + 1,
    FIFTH + 2,
    1 << 30,
    0x6666_6667,
    1 << 31,
    0xcccc_cccd,
    u32::MAX,
];

/// What a stretch of a stream does with its time.
#[derive(Clone, Copy, PartialEq, Eq, Debug)]
pub enum Habit {
    /// Hardly any call is due: no period, a wide one, or one that is longer than any call has waited.
    Calm,
    /// The calls that have waited longest are due, or are nearly.
    Closing,
    /// Period 1, and the time goes on by a second or two.
    Tight,
    /// All calls without connections are due, but for a period that is above all times.
    Sweep,
}

pub fn next(habit: Habit, table: &Table, random: &mut Random) -> Clock {
    match habit {
        Habit::Calm => calm(table, random),
        Habit::Closing => closing(table, random),
        Habit::Sweep => sweep(table, random),
        Habit::Tight => Clock {
            time: later(table.time, random.below(3)),
            period: 1,
        },
    }
}

/// Any of them, for tables that no stream led to.
pub fn any(table: &Table, random: &mut Random) -> Clock {
    let habit = *random.pick(&[Habit::Calm, Habit::Closing, Habit::Closing, Habit::Tight, Habit::Sweep]);
    let clock = next(habit, table, random);
    let (time, period) = (random.word(), random.word() >> random.below(32));
    *random.pick(&[clock, clock, clock, Clock { time, ..clock }, Clock { time, period }])
}

fn later(time: u32, by: usize) -> u32 {
    time.saturating_add(by as u32)
}

/// The same time, a later or an earlier one; sometimes one that is years later.
fn some_time(table: &Table, random: &mut Random) -> u32 {
    let (little, more) = (random.between(1, 3), random.between(1, 4000));
    let back = table.time.saturating_sub(random.between(1, 100) as u32);
    let any = random.below(table.time as usize + 1) as u32;
    let more = if random.chance(1, 64) { 40_000_000 } else { more };
    let (little, more) = (later(table.time, little), later(table.time, more));
    *random.pick(&[table.time, table.time, little, little, more, back, any, 0])
}

fn idle(table: &Table) -> impl Iterator<Item = &Call> {
    tables::calls(table).filter(|call| !is_lit(call))
}

fn calm(table: &Table, random: &mut Random) -> Clock {
    let time = some_time(table, random);
    let raised = table.time.max(time);
    let longest = idle(table).map(|call| age(call, raised)).max().unwrap_or(0);
    let patient = u32::try_from(longest / 5 + 1).expect("a fifth of what 32 bits hold");
    let wide = *random.pick(&WIDE);
    let period = *random.pick(&[0, 0, patient, patient.saturating_mul(2), wide]);
    Clock { time, period }
}

/// One of the calls that were refreshed first, and a time and a period that make it due, or nearly.
fn closing(table: &Table, random: &mut Random) -> Clock {
    let mut refreshes: Vec<u32> = idle(table).map(|call| call.refreshed).collect();
    if refreshes.is_empty() {
        return calm(table, random);
    }
    refreshes.sort_unstable();
    let rank = *random.pick(&[0, 0, 0, 1, 2, 5]);
    let oldest = refreshes[rank.min(refreshes.len() - 1)];
    let by = *random.pick(&[0, 0, 1, 3, 30, 900]);
    let time = later(table.time.max(later(oldest, 5)), by);
    let waited = time - oldest;
    // A time that makes what it waited a whole number of five periods, or a second less.
    let (short, up) = (random.chance(1, 6), (5 - waited % 5) % 5);
    let (time, waited) = match time.checked_add(up) {
        Some(time) => (time, waited + up),
        None => (time, waited),
    };
    let period = (waited / 5).max(1);
    let time = if short && time > table.time { time - 1 } else { time };
    // Where the time is the node's already, an earlier one of the caller's does as well.
    let back = (time <= table.time && random.chance(1, 2)).then(|| random.below(time as usize + 1) as u32);
    Clock {
        time: back.unwrap_or(time),
        period,
    }
}

fn sweep(table: &Table, random: &mut Random) -> Clock {
    let latest = idle(table).map(|call| call.refreshed).max().unwrap_or(table.time);
    let period = *random.pick(&[1, 1, 2, 60, 86_400]);
    let least = latest.saturating_add(5 * period).max(table.time);
    let over = random.below(1000);
    let time = *random.pick(&[least, least, later(least, 1), later(least, over), u32::MAX]);
    match latest {
        // Five periods from 0 to the largest time, or just above it: then none is due.
        0 if random.chance(2, 3) => Clock {
            time: u32::MAX,
            period: *random.pick(&[FIFTH, FIFTH + 1]),
        },
        _ => Clock { time, period },
    }
}

#[cfg(test)]
mod tests {
    use super::*;
    use crate::expiry;
    use crate::tables::{set_used, EMPTY};

    /// Calls in some slots, a part of them with a connection.
    fn table(random: &mut Random) -> Table {
        let mut table = EMPTY;
        table.time = random.word() >> random.below(32);
        for slot in 0..random.below(20) {
            set_used(&mut table, slot, true);
            let call = &mut table.calls[slot];
            call.refreshed = random.below(table.time as usize + 1) as u32;
            call.places[3].taken = random.chance(1, 4).into();
        }
        table
    }

    #[test]
    fn habits_do_what_they_say() {
        let mut random = Random::new(5);
        let (mut closed, mut tried) = (0, 0);
        for _ in 0..2000 {
            let table = table(&mut random);
            let calm = next(Habit::Calm, &table, &mut random);
            assert_eq!(expiry::closings(&table, calm), []);
            if idle(&table).next().is_none() || table.time > u32::MAX - 10_000_000 {
                continue;
            }
            tried += 1;
            let clock = next(Habit::Closing, &table, &mut random);
            closed += usize::from(!expiry::closings(&table, clock).is_empty());
            let sweep = next(Habit::Sweep, &table, &mut random);
            let due = if sweep.period > FIFTH { 0 } else { idle(&table).count() };
            assert_eq!(expiry::closings(&table, sweep).len(), due);
        }
        assert!(4 * closed > 3 * tried, "{closed} of {tried}");
    }

    #[test]
    fn five_of_a_wide_period() {
        assert_eq!(u64::from(FIFTH) * 5, u64::from(u32::MAX));
        assert!(WIDE.iter().all(|&period| 5 * u64::from(period) > 1 << 32));
        // Nearly nothing is left of the last but one in 32 bits.
        assert_eq!(0xcccc_cccdu32.wrapping_mul(5), 1);
    }
}
