//! Rosters: the shapes that streams start from, and refused ones of every kind.

use crate::build::{largest_share, Record, Roster};
use crate::form;
use crate::random::Random;

#[derive(Clone, Copy, Debug, PartialEq, Eq)]
pub enum Shape {
    /// One customer, 64 of 64; in form 2, 200 of 200.
    One,
    /// 01's X 1 of 2 and Y 62 of 64; in form 2, Y 198 of 200.
    Two,
    /// Eight customers, 8 of 64 each: S is 64 from the start. In form 2, 25 of 200 each.
    Eight,
    /// Guarantees 0.
    NoGuarantees,
    /// Anything acceptable.
    Random,
    /// Refused: messages are answered all the same, with the empty table.
    Refused,
}

pub const SHAPES: [(usize, Shape); 6] = [
    (5, Shape::One),
    (6, Shape::Two),
    (5, Shape::Eight),
    (5, Shape::NoGuarantees),
    (10, Shape::Random),
    (1, Shape::Refused),
];

/// The acceptable ones.
pub const ACCEPTABLE: [Shape; 5] = [Shape::One, Shape::Two, Shape::Eight, Shape::NoGuarantees, Shape::Random];

/// Form 1 or 2.
pub fn some_form(random: &mut Random) -> u8 {
    *random.pick(&[1, 2])
}

/// A roster of the form and shape; the refused one is refused for its sum of guarantees.
pub fn shaped(form: u8, shape: Shape, random: &mut Random) -> Roster {
    let total = form::total(form) as u8;
    let shares = match shape {
        Shape::One => vec![(total, total)],
        Shape::Two => vec![(1, 2), (total - 2, total)],
        Shape::Eight => vec![(total / 8, total); 8],
        Shape::NoGuarantees => {
            let count = random.between(2, 8);
            let (low, high) = (usize::from(total) / 2 + 1, total.into());
            (0..count).map(|_| (0, random.between(low, high) as u8)).collect()
        }
        Shape::Random => shares(total.into(), random),
        Shape::Refused => vec![(total - 24, total), (25, 30)],
    };
    roster(form, &shares, random)
}

/// Guarantees that add up to the total at most; small limits, limits that are reached before the total is, and any.
fn shares(total: usize, random: &mut Random) -> Vec<(u8, u8)> {
    let count = random.between(1, 8);
    let mut room = total;
    let mut shares = Vec::new();
    for _ in 0..count {
        let (least, most) = *random.pick(&[(1, 3), (1, 8), (total / 3, total / 2), (1, total)]);
        let limit = random.between(least, most);
        let guarantee = random.between(0, limit.min(room));
        room -= guarantee;
        shares.push((guarantee as u8, limit as u8));
    }
    random.shuffle(&mut shares);
    shares
}

/// Customers with these shares at different addresses, some of them next to each other.
fn roster(form: u8, shares: &[(u8, u8)], random: &mut Random) -> Roster {
    let mut addresses = vec![0x0a00_0001, 0x0a00_0101, 0x0100_000a, random.word()];
    addresses.extend([0, u32::MAX, 0x0a00_0003, 0x8a00_0001]);
    addresses.sort_unstable();
    addresses.dedup();
    addresses.resize_with(addresses.len().max(8), || 0xc000_0201);
    random.shuffle(&mut addresses);
    let record = |(&(guarantee, limit), &address)| Record {
        address,
        guarantee,
        limit,
        spare: 0,
    };
    Roster {
        form,
        address: *random.pick(&[0x0a00_0002, 0, 0x0a00_0001]),
        epoch: *random.pick(&[7, 0, 0x00ff_ffff]),
        records: shares.iter().zip(&addresses).map(record).collect(),
    }
}

type Maker = fn(&mut Random) -> Vec<u8>;

/// Rosters of every answer, of both forms: what is due (none where it may be any), and the roster.
pub const MAKERS: [(Option<u8>, Maker); 15] = [
    (Some(0), accepted),
    (Some(40), short),
    (Some(41), other_form),
    (Some(41), other_count),
    (Some(42), other_length),
    (Some(43), |random| spoilt(1, random, spare)),
    (Some(44), |random| spoilt(some_form(random), random, share)),
    (Some(45), |random| spoilt(some_form(random), random, twice)),
    (Some(46), |random| spoilt(some_form(random), random, sum)),
    (Some(0), spare_bits_used),
    (None, several),
    (None, as_the_other_form),
    (None, bits_turned),
    (None, any_bytes),
    (None, any_records),
];

fn accepted(random: &mut Random) -> Vec<u8> {
    some_accepted(random).bytes()
}

fn some_accepted(random: &mut Random) -> Roster {
    let (form, shape) = (some_form(random), *random.pick(&ACCEPTABLE));
    shaped(form, shape, random)
}

/// Any acceptable roster of either form.
fn some_random(random: &mut Random) -> Roster {
    shaped(some_form(random), Shape::Random, random)
}

/// Limits of form 2 with the bits that are spare in form 1.
fn spare_bits_used(random: &mut Random) -> Vec<u8> {
    let mut roster = shaped(2, Shape::Random, random);
    for record in &mut roster.records {
        let bits = record.limit | random.between(1, 3) as u8;
        record.limit = bits.min(199);
        record.guarantee = record.guarantee.min(record.limit);
    }
    roster.bytes()
}

/// Records packed in one form, and the number of the other before them.
fn as_the_other_form(random: &mut Random) -> Vec<u8> {
    let roster = some_accepted(random);
    roster.write(3 - roster.form, roster.records.len() as u8)
}

fn short(random: &mut Random) -> Vec<u8> {
    let mut bytes = accepted(random);
    bytes.truncate(random.below(8));
    bytes
}

fn other_form(random: &mut Random) -> Vec<u8> {
    let roster = some_random(random);
    let form = *random.pick(&[0, 3, 4, 5, 8, 9, 10, 15]);
    roster.write(form, roster.records.len() as u8)
}

fn other_count(random: &mut Random) -> Vec<u8> {
    let count = *random.pick(&[0, 9, 10, 15]);
    let mut roster = some_random(random);
    let record = roster.records[0];
    if random.chance(1, 2) {
        roster.records.resize(usize::from(count), record);
    }
    roster.write(roster.form, count)
}

fn other_length(random: &mut Random) -> Vec<u8> {
    let roster = some_random(random);
    let count = roster.records.len();
    if random.chance(1, 3) {
        let other = random.between(1, 7);
        return roster.write(roster.form, (if other < count { other } else { other + 1 }) as u8);
    }
    let mut bytes = roster.bytes();
    if random.chance(1, 2) {
        let few = random.between(1, 12);
        let more = *random.pick(&[few, few, few, 256, 65_536]);
        bytes.extend(random.bytes(more));
    } else {
        bytes.truncate(random.between(8, bytes.len() - 1));
    }
    bytes
}

/// An acceptable roster of two customers or more with one thing wrong.
fn spoilt(form: u8, random: &mut Random, spoil: fn(&mut Roster, &mut Random)) -> Vec<u8> {
    let mut roster = at_least_two(form, random);
    spoil(&mut roster, random);
    roster.bytes()
}

fn at_least_two(form: u8, random: &mut Random) -> Roster {
    loop {
        let roster = shaped(form, Shape::Random, random);
        if roster.records.len() > 1 {
            return roster;
        }
    }
}

fn some_record<'a>(roster: &'a mut Roster, random: &mut Random) -> &'a mut Record {
    let place = random.below(roster.records.len());
    &mut roster.records[place]
}

/// Form 2 has no such bits.
fn spare(roster: &mut Roster, random: &mut Random) {
    some_record(roster, random).spare = random.between(1, 3) as u8;
}

fn share(roster: &mut Roster, random: &mut Random) {
    let (total, largest) = (roster.total(), largest_share(roster.form));
    let record = some_record(roster, random);
    match random.below(4) {
        0 => (record.guarantee, record.limit) = (0, 0),
        1 => record.limit = total as u8 + 1,
        2 => record.limit = random.between(total + 1, largest) as u8,
        // The largest limit was spoiled before, and no number of the record is above it.
        _ => record.guarantee = random.between(usize::from(record.limit).min(largest - 1) + 1, largest) as u8,
    }
}

fn twice(roster: &mut Roster, random: &mut Random) {
    random.shuffle(&mut roster.records);
    roster.records[0].address = roster.records[1].address;
    random.shuffle(&mut roster.records);
}

/// Guarantees of the total and one or more, each of them within its limit.
fn sum(roster: &mut Roster, random: &mut Random) {
    random.shuffle(&mut roster.records);
    let others: usize = roster.records[1..].iter().map(|one| usize::from(one.guarantee)).sum();
    let total = roster.total();
    roster.records[1].limit = total as u8;
    if others == 0 {
        roster.records[1].guarantee = 1;
    }
    let least = total + 1 - others.clamp(1, total);
    roster.records[0].guarantee = random.between(least, total.min(least + 2)) as u8;
    roster.records[0].limit = total as u8;
}

/// Several things wrong, in any records: the first record with a fault decides, and 46 comes last.
fn several(random: &mut Random) -> Vec<u8> {
    let mut roster = at_least_two(some_form(random), random);
    for _ in 0..random.between(2, 4) {
        let spoil = *random.pick(&[spare, share, twice, sum]);
        spoil(&mut roster, random);
    }
    roster.bytes()
}

fn bits_turned(random: &mut Random) -> Vec<u8> {
    let mut bytes = accepted(random);
    for _ in 0..random.between(1, 3) {
        let at = random.below(bytes.len());
        bytes[at] ^= 1 << random.below(8);
    }
    bytes
}

fn any_bytes(random: &mut Random) -> Vec<u8> {
    let size = random.between(0, 70);
    random.bytes(size)
}

/// Random records behind a head that passes; addresses of few values, shares that are often acceptable.
fn any_records(random: &mut Random) -> Vec<u8> {
    let count = random.between(1, 8);
    let mut roster = shaped(some_form(random), Shape::One, random);
    let total = roster.total();
    roster.records = (0..count)
        .map(|_| Record {
            address: random.below(24) as u32,
            guarantee: random.below(total / 3) as u8,
            limit: random.between(total / 4, total + 6) as u8,
            spare: u8::from(random.chance(1, 40)),
        })
        .collect();
    roster.bytes()
}
