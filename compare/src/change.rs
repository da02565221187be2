//! Changes one field of a table at random: to any value, to one next to it, to zero, or to what the same field holds
//! elsewhere in the table.

use crate::layout::SLOTS;
use crate::random::Random;
use second::table::{Call, Customer, Place, Table};

pub fn one_field(table: &mut Table, random: &mut Random) {
    let (customers, calls, time) = (table.customers, table.calls, table.time);
    match random.below(20) {
        0 => number(&mut table.listed, &[8, 9], random),
        1 => number(&mut table.epoch, &[1 << 24], random),
        2 => number(&mut table.address, &[], random),
        3 => table.occupied[random.below(8)] ^= 1 << random.below(32),
        4 => number(&mut table.next, &[], random),
        5 => number(&mut table.form, &[1, 2, 3], random),
        17 => {
            let refreshed = calls.map(|call| call.refreshed);
            number(&mut table.time, &refreshed, random);
        }
        6..=9 | 18..=19 => {
            let listed = (table.listed as usize).clamp(1, 8);
            let end = *random.pick(&[listed, 8]);
            let place = random.below(end);
            of_customer(&mut table.customers[place], random.pick(&customers), random);
        }
        _ => {
            let end = *random.pick(&[16, 64, SLOTS]);
            let slot = random.below(end);
            of_call(&mut table.calls[slot], random.pick(&calls), time, random);
        }
    }
}

fn of_customer(customer: &mut Customer, other: &Customer, random: &mut Random) {
    let place = random.below(4);
    match random.below(10) {
        0 => number(&mut customer.address, &[other.address], random),
        1 => number(&mut customer.guarantee, &[other.guarantee, customer.limit], random),
        2 => number(&mut customer.limit, &[other.limit, customer.guarantee, 64, 200], random),
        3 => number(&mut customer.endpoints[place], &other.endpoints, random),
        4 => number(&mut customer.kept, &[1, 2], random),
        5 => number(&mut customer.epoch, &[1 << 24, other.epoch], random),
        6 => number(&mut customer.identifier, &[1 << 31, other.identifier], random),
        7 => (customer.kept, customer.epoch, customer.identifier) = (other.kept, other.epoch, other.identifier),
        8 => {
            let from = random.below(4);
            customer.places[place] = other.places[from];
            customer.endpoints[place] = other.endpoints[from];
        }
        _ => of_place(&mut customer.places[place], random.pick(&other.places), random),
    }
}

fn of_call(call: &mut Call, other: &Call, time: u32, random: &mut Random) {
    match random.below(13) {
        0 => number(&mut call.endpoint, &[other.endpoint], random),
        1 => number(&mut call.sender, &[other.sender], random),
        2 => number(&mut call.id, &[other.id, 1 << 16], random),
        3 => number(&mut call.size, &[other.size, 32, 33], random),
        4 => number(random_byte(&mut call.name, random), &[], random),
        5 => number(&mut call.refreshed, &[1 << 31, time, time.saturating_add(1)], random),
        6 => number(&mut call.epoch, &[1 << 24, other.epoch], random),
        7 => number(&mut call.identifier, &[1 << 31, other.identifier], random),
        8 => number(&mut call.made, &[1, 2], random),
        9 => (call.made, call.epoch, call.identifier) = (other.made, other.epoch, other.identifier),
        _ => {
            let place = random.below(4);
            of_place(&mut call.places[place], random.pick(&other.places), random);
        }
    }
}

fn random_byte<'a>(bytes: &'a mut [u8], random: &mut Random) -> &'a mut u8 {
    let at = random.below(bytes.len());
    &mut bytes[at]
}

fn of_place(place: &mut Place, other: &Place, random: &mut Random) {
    match random.below(5) {
        0 => number(&mut place.taken, &[1, 2], random),
        1 => number(&mut place.tunnel, &[other.tunnel, 1 << 16], random),
        2 => number(&mut place.extended, &[other.extended], random),
        3 => number(&mut place.lsp, &[other.lsp, 1 << 16], random),
        _ => *place = *other,
    }
}

/// Any value of the field's width, one next to the old, zero, or one of those given.
fn number<T>(field: &mut T, given: &[T], random: &mut Random)
where
    T: Copy + TryFrom<u64> + Into<u64>,
{
    let old: u64 = (*field).into();
    let wide = random.next() >> random.pick(&[32, 48, 56]);
    let mut values = vec![0, old + 1, old.saturating_sub(1), old ^ 1 << random.below(8), wide];
    values.extend(given.iter().map(|&value| value.into()));
    if let Ok(value) = T::try_from(*random.pick(&values)) {
        *field = value;
    }
}
