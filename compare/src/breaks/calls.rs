//! "Every call's sender is listed", "no pair has a long or short ID twice", "names 1 to 32 bytes and Call IDs nonzero",
//! "a stored name ends in a nonzero byte" (A1).

use super::tools::*;
use super::Break;
use crate::random::Random;
use crate::tables;
use second::table::{Call, Table};

pub const BREAKS: &[(&str, Break)] = &[
    ("sender of a call not listed", sender),
    ("short ID twice in a pair", short_twice),
    ("long ID twice in a pair", long_twice),
    ("both IDs twice in a pair", both_twice),
    ("name of 0 bytes", name_none),
    ("name of 33 bytes", name_next),
    ("name of 34 to 255 bytes", name_above),
    ("name whose last byte is zero", name_cut),
    ("name with a zero byte more", name_padded),
    ("name padded to 32 bytes", name_filled),
    ("name of zeros only", name_zeros),
    ("names a and a with a zero byte", names_alike),
    ("Call ID 0", id_none),
    ("byte right behind the name", byte_behind),
    ("byte anywhere past the name", byte_past),
    ("occupied bit set over a free slot", bit_set),
    ("occupied bit cleared over a used slot", bit_cleared),
];

pub(super) fn with_call(table: &mut Table, random: &mut Random, change: impl FnOnce(&mut Call)) -> bool {
    let Some(slot) = tables::some_used(table, random) else {
        return false;
    };
    change(&mut table.calls[slot]);
    true
}

fn sender(table: &mut Table, random: &mut Random) -> bool {
    let address = unlisted(table, random);
    with_call(table, random, |call| call.sender = address)
}

fn short_twice(table: &mut Table, random: &mut Random) -> bool {
    let Some((one, other)) = two_of_a_pair(table, random) else {
        return false;
    };
    table.calls[other].id = table.calls[one].id;
    true
}

fn long_twice(table: &mut Table, random: &mut Random) -> bool {
    let Some((one, other)) = two_of_a_pair(table, random) else {
        return false;
    };
    let call = table.calls[one];
    set_name(&mut table.calls[other], tables::name(&call));
    true
}

fn both_twice(table: &mut Table, random: &mut Random) -> bool {
    let Some((one, other)) = two_of_a_pair(table, random) else {
        return false;
    };
    table.calls[other] = table.calls[one];
    table.calls[other].places = tables::FREE_CALL.places;
    true
}

fn name_none(table: &mut Table, random: &mut Random) -> bool {
    with_call(table, random, |call| set_name(call, &[]))
}

/// All 32 bytes are nonzero, so that none of them could stand behind a shorter name.
fn full_name(call: &mut Call, size: u32) {
    call.name = [b'n'; 32];
    call.size = size;
}

fn name_next(table: &mut Table, random: &mut Random) -> bool {
    with_call(table, random, |call| full_name(call, 33))
}

fn name_above(table: &mut Table, random: &mut Random) -> bool {
    let size = *random.pick(&[34, 36, 63, 64, 65, 128, 160, 254, 255]);
    with_call(table, random, |call| full_name(call, size))
}

fn name_cut(table: &mut Table, random: &mut Random) -> bool {
    with_call(table, random, |call| call.name[call.size as usize - 1] = 0)
}

fn name_padded(table: &mut Table, random: &mut Random) -> bool {
    with_short_name(table, random, |call, _| call.size += 1)
}

fn name_filled(table: &mut Table, random: &mut Random) -> bool {
    with_short_name(table, random, |call, _| call.size = 32)
}

fn name_zeros(table: &mut Table, random: &mut Random) -> bool {
    let size = random.between(1, 32);
    with_call(table, random, |call| set_name(call, &[0; 32][..size]))
}

fn names_alike(table: &mut Table, random: &mut Random) -> bool {
    let Some((one, other)) = two_of_a_pair(table, random) else {
        return false;
    };
    let endpoint = fresh_endpoint(table, random);
    table.calls[one].endpoint = endpoint;
    table.calls[other].endpoint = endpoint;
    set_name(&mut table.calls[one], b"a");
    set_name(&mut table.calls[other], b"a\0");
    true
}

fn id_none(table: &mut Table, random: &mut Random) -> bool {
    with_call(table, random, |call| call.id = 0)
}

fn byte_behind(table: &mut Table, random: &mut Random) -> bool {
    let bit = 1 << random.below(8);
    with_short_name(table, random, |call, _| call.name[call.size as usize] = bit)
}

fn byte_past(table: &mut Table, random: &mut Random) -> bool {
    let bit = 1 << random.below(8);
    with_short_name(table, random, |call, random| {
        let at = random.between(call.size as usize, 31);
        call.name[*random.pick(&[at, 31])] = bit;
    })
}

fn with_short_name(table: &mut Table, random: &mut Random, change: impl FnOnce(&mut Call, &mut Random)) -> bool {
    let is_short = |&slot: &usize| table.calls[slot].size < 32;
    let short: Vec<usize> = tables::used(table).into_iter().filter(is_short).collect();
    if short.is_empty() {
        return false;
    }
    change(&mut table.calls[*random.pick(&short)], random);
    true
}

fn bit_set(table: &mut Table, random: &mut Random) -> bool {
    let free = tables::free(table);
    if free.is_empty() {
        return false;
    }
    tables::set_used(table, *random.pick(&free), true);
    true
}

fn bit_cleared(table: &mut Table, random: &mut Random) -> bool {
    let Some(slot) = tables::some_used(table, random) else {
        return false;
    };
    tables::set_used(table, slot, false);
    true
}
