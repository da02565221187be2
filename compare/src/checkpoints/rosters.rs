//! Rosters other than the one that the checkpoint was written under. All are acceptable.

use crate::build::{Record, Roster};
use crate::form;
use crate::random::Random;
use crate::rosters::{shaped, some_form, ACCEPTABLE};

/// Changes a roster with records, or says that it cannot.
type Change = fn(&mut Roster, &mut Random) -> bool;

pub const CHANGES: &[(&str, Change)] = &[
    ("roster: customer gone", gone),
    ("roster: customer more", more),
    ("roster: limits lowered", limits_lowered),
    ("roster: guarantees raised", guarantees_raised),
    ("roster: guarantees and limits moved round", shares_moved),
    ("roster: another order", another_order),
    ("roster: own address and epoch", own_numbers),
    ("roster: another customer's address", another_address),
    ("roster: another altogether", another),
];

/// Rosters of the other form.
pub const FORMS: &[(&str, Change)] = &[
    (TO_FORM_1, to_form_1),
    ("roster: form 2 in place of 1", |roster, _| to_form_2(roster, false)),
    ("roster: form 2 in place of 1, all limits 200", |roster, _| {
        to_form_2(roster, true)
    }),
];

/// What a copy that was written under form 2 loses under form 1 is counted.
pub const TO_FORM_1: &str = "roster: form 1 in place of 2";

/// Limits and guarantees are brought within what form 1 can have: cut off there, or all lowered alike.
fn to_form_1(roster: &mut Roster, random: &mut Random) -> bool {
    if roster.form != 2 {
        return false;
    }
    let (wide, narrow) = (form::total(2), form::total(1));
    roster.form = 1;
    let mut left = narrow;
    let (lowered, guaranteed) = (random.chance(1, 2), random.chance(1, 2));
    for record in &mut roster.records {
        let limit = usize::from(record.limit);
        let limit = if lowered { limit * narrow / wide } else { limit };
        let limit = limit.clamp(1, narrow);
        let most = if guaranteed { left.min(limit) } else { 0 };
        let guarantee = usize::from(record.guarantee).min(most);
        (record.guarantee, record.limit) = (guarantee as u8, limit as u8);
        left -= guarantee;
    }
    true
}

/// The same records, which form 2 can all have, or wider ones.
fn to_form_2(roster: &mut Roster, widened: bool) -> bool {
    if roster.form != 1 {
        return false;
    }
    roster.form = 2;
    if widened {
        let limit = form::total(2) as u8;
        roster.records.iter_mut().for_each(|record| record.limit = limit);
    }
    true
}

fn gone(roster: &mut Roster, random: &mut Random) -> bool {
    if roster.records.len() < 2 {
        return false;
    }
    roster.records.remove(random.below(roster.records.len()));
    true
}

fn fresh_address(roster: &Roster, random: &mut Random) -> u32 {
    loop {
        let near = random.pick(&roster.records).address ^ 1 << random.below(32);
        if roster.records.iter().all(|record| record.address != near) {
            return near;
        }
    }
}

/// What the guarantees leave of the total.
fn room(roster: &Roster) -> usize {
    let guarantees = roster.records.iter().map(|record| usize::from(record.guarantee));
    roster.total() - guarantees.sum::<usize>()
}

fn more(roster: &mut Roster, random: &mut Random) -> bool {
    if roster.records.len() == 8 {
        return false;
    }
    let record = Record {
        address: fresh_address(roster, random),
        guarantee: random.between(0, room(roster)) as u8,
        limit: roster.total() as u8,
        spare: 0,
    };
    let place = random.between(0, roster.records.len());
    roster.records.insert(place, record);
    true
}

fn limits_lowered(roster: &mut Roster, random: &mut Random) -> bool {
    let most = *random.pick(&[1, 2, 4, 12]);
    for record in &mut roster.records {
        if random.chance(2, 3) {
            let lower = random.between(1, most) as u8;
            record.limit = record.limit.min(lower);
            record.guarantee = record.guarantee.min(record.limit);
        }
    }
    true
}

/// Often one customer gets all that is left.
fn guarantees_raised(roster: &mut Roster, random: &mut Random) -> bool {
    let place = random.below(roster.records.len());
    if random.chance(1, 2) {
        for record in &mut roster.records {
            record.guarantee = 0;
        }
    }
    let left = room(roster);
    let any = random.between(0, left);
    let raised = *random.pick(&[left, left, left.saturating_sub(1), any]);
    let record = &mut roster.records[place];
    record.guarantee += raised as u8;
    record.limit = record.limit.max(record.guarantee);
    raised > 0
}

fn shares_moved(roster: &mut Roster, random: &mut Random) -> bool {
    let mut shares: Vec<(u8, u8)> = roster.records.iter().map(|one| (one.guarantee, one.limit)).collect();
    random.shuffle(&mut shares);
    for (record, (guarantee, limit)) in roster.records.iter_mut().zip(shares) {
        (record.guarantee, record.limit) = (guarantee, limit);
    }
    true
}

fn another_order(roster: &mut Roster, random: &mut Random) -> bool {
    random.shuffle(&mut roster.records);
    roster.records.len() > 1
}

fn own_numbers(roster: &mut Roster, random: &mut Random) -> bool {
    roster.address = random.word();
    roster.epoch = random.word() >> 8;
    true
}

fn another_address(roster: &mut Roster, random: &mut Random) -> bool {
    let address = fresh_address(roster, random);
    let place = random.below(roster.records.len());
    roster.records[place].address = address;
    true
}

fn another(roster: &mut Roster, random: &mut Random) -> bool {
    let shape = *random.pick(&ACCEPTABLE);
    *roster = shaped(some_form(random), shape, random);
    true
}
