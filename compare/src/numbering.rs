//! The MESSAGE_IDs that messages are given (A8): for the table as it stands, or in the order of their senders.

use crate::build::Fields;
use crate::intent::Intent::{self, *};
use crate::late::{self, Numbers};
use crate::random::Random;
use crate::source::Made;
use crate::tables;
use second::table::Table;

const HALF: u32 = 1 << 31;

/// Gives a message its numbers.
pub type Numbering<'a> = &'a mut dyn FnMut(&mut Fields, &mut Random);

/// Whether what a message asks lies in its numbers, so that it keeps those that it has.
pub fn is_bound(intent: Intent) -> bool {
    matches!(
        intent,
        NamelessAgain | NamelessElsewhere | NamelessBeside | NamelessZeros | OpenNumbers
    )
}

/// Half the time, where one is kept of the sender: next in order, equal, late, or half of the way round from it; in its
/// epoch or in one beside it. Sometimes near what is kept of another customer.
pub fn by_table(fields: &mut Fields, table: &Table, random: &mut Random) {
    let Some((epoch, identifier)) = late::last(table, fields.sender) else {
        return;
    };
    if random.chance(1, 2) {
        return;
    }
    let (some, any) = (random.below(1000) as u32, random.below(1 << 31) as u32);
    // From the old identifier down: minus 1 is the next one.
    let less = random.weighted(&[
        (8, 1u32.wrapping_neg()),
        (2, (2 + some).wrapping_neg()),
        (3, 0),
        (3, 1),
        (1, 1 + some),
        (1, any),
        (1, HALF - 1),
        (1, HALF),
        (1, HALF + 1),
    ]);
    (fields.epoch, fields.identifier) = (epoch, identifier.wrapping_sub(less));
    match random.below(10) {
        0 => fields.epoch ^= 1 << random.below(24),
        1 => near_another(fields, table, random),
        _ => {}
    }
}

/// Numbers behind what is kept of the sender, if there is anything: for Paths, whose are not compared.
pub fn make_old(fields: &mut Fields, table: &Table, random: &mut Random) {
    if let Some((epoch, identifier)) = late::last(table, fields.sender) {
        let less = 1 + random.below(1000) as u32;
        (fields.epoch, fields.identifier) = (epoch, identifier.wrapping_sub(less));
    }
}

/// What is kept of some customer, or one before it.
fn near_another(fields: &mut Fields, table: &Table, random: &mut Random) {
    let kept: Vec<Numbers> = tables::listed(table).iter().filter_map(late::kept).collect();
    let (epoch, identifier) = *random.pick(&kept);
    let less = *random.pick(&[0, 1]);
    (fields.epoch, fields.identifier) = (epoch, identifier.wrapping_sub(less));
}

/// A sender's counter: the numbers that its next message gets, and those of the epoch that it left.
struct Counter {
    sender: u32,
    next: Numbers,
    left: Option<Numbers>,
}

impl Counter {
    /// In any epoch; from the start, before the numbers go round, or from any.
    fn new(sender: u32, random: &mut Random) -> Counter {
        let epoch = random.word() >> 8;
        Counter {
            sender,
            next: (epoch, first_identifier(random)),
            left: None,
        }
    }

    /// Leaves its epoch for one beside it or any other; or goes back.
    fn change_epoch(&mut self, random: &mut Random) {
        let old = self.next;
        let (beside, any) = (old.0 ^ 1 << random.below(24), random.word() >> 8);
        // Mostly the identifiers go on below those of the epoch before.
        let first = first_identifier(random);
        let earlier = old.1.wrapping_sub(1 + random.below(40) as u32);
        let new = (*random.pick(&[beside, any]), *random.pick(&[earlier, earlier, first]));
        self.next = match self.left {
            Some(left) if random.chance(1, 2) => left,
            _ => new,
        };
        self.left = Some(old);
    }
}

fn first_identifier(random: &mut Random) -> u32 {
    let (near, any) = (0u32.wrapping_sub(random.below(30) as u32), random.word());
    *random.pick(&[0, 1, near, near, HALF, any])
}

/// Messages on their way: each sender numbers its own in order, and they arrive out of order, some of them twice.
#[derive(Default)]
pub struct Transit {
    counters: Vec<Counter>,
    waiting: Vec<Made>,
}

/// So many are on their way.
const WAITING: usize = 5;

impl Transit {
    /// Gives the message the next numbers of its sender, which now and then begins another epoch.
    pub fn number(&mut self, fields: &mut Fields, random: &mut Random) {
        let known = self.counters.iter().position(|one| one.sender == fields.sender);
        let place = known.unwrap_or_else(|| {
            self.counters.push(Counter::new(fields.sender, random));
            self.counters.len() - 1
        });
        let counter = &mut self.counters[place];
        if random.chance(1, 12) {
            counter.change_epoch(random);
        }
        (fields.epoch, fields.identifier) = counter.next;
        let step = *random.pick(&[1, 1, 1, 2]);
        counter.next.1 = counter.next.1.wrapping_add(step);
    }

    pub fn is_short(&self) -> bool {
        self.waiting.len() < WAITING
    }

    pub fn send(&mut self, made: Made) {
        self.waiting.push(made);
    }

    /// The message that arrives next: mostly the one that has waited longest. Some arrive once more.
    pub fn arrive(&mut self, random: &mut Random) -> Made {
        let any = random.below(self.waiting.len());
        let place = random.weighted(&[(3, 0), (2, any)]);
        match random.chance(1, 6) {
            true => self.waiting[place].clone(),
            false => self.waiting.remove(place),
        }
    }
}

#[cfg(test)]
mod tests {
    use super::*;
    use crate::late::is_late;
    use crate::tables::EMPTY;

    /// Numbers that are late come, and most are not.
    #[test]
    fn a_part_is_late() {
        let mut random = Random::new(8);
        let mut table = EMPTY;
        table.listed = 2;
        late::set_kept(&mut table.customers[0], Some((7, 3)));
        late::set_kept(&mut table.customers[1], Some((7, HALF)));
        table.customers[1].address = 5;
        let mut late = 0;
        for _ in 0..4000 {
            let mut fields = Fields {
                epoch: 9,
                ..Fields::default()
            };
            by_table(&mut fields, &table, &mut random);
            late += u32::from(is_late((7, 3), (fields.epoch, fields.identifier)));
        }
        assert!((300..1000).contains(&late), "{late}");
    }
}
