//! A11: "no call stands outside" the total, and the form: 1 or 2 with customers, 0 without.

use super::tools::*;
use super::Break;
use crate::form;
use crate::layout::{words_mut, BITS, CALL, CALLS, SLOTS};
use crate::random::Random;
use crate::tables::{self, EMPTY};
use second::table::Table;

pub const BREAKS: &[(&str, Break)] = &[
    ("form 3 and above", other_form),
    ("form 0 over customers", no_form),
    ("listed 0 with a form", empty_form),
    ("bit that no slot has, 200 to 255", bit_of_no_slot),
    ("form 1: call in a slot outside the total", call_outside),
    ("form 1: call outside the total, beside all others", call_beside),
    ("form 1: bit outside the total, no call", bit_outside),
    ("form 1: call outside the total, no bit", unmarked_outside),
    ("form 1: any word of a slot outside the total", word_outside),
    ("form 2: form 1 over a call in a slot from 64 on", form_1_over_slot),
    ("form 2: form 1 over a limit above 64", form_1_over_limit),
    ("form 2: form 1 over guarantees above 64", form_1_over_guarantees),
    ("form 2: form 1 over S above 64", form_1_over_sum),
];

fn other_form(table: &mut Table, random: &mut Random) -> bool {
    // The right one with a bit above it, too, which a test of its low bits would not see.
    let far = 1 << random.between(2, 31) | table.form;
    table.form = *random.pick(&[3, 4, 15, 255, u32::MAX, far, far]);
    true
}

fn no_form(table: &mut Table, _: &mut Random) -> bool {
    table.form = 0;
    true
}

fn empty_form(table: &mut Table, random: &mut Random) -> bool {
    *table = EMPTY;
    table.form = *random.pick(&[1, 1, 2, 2, 3]);
    true
}

fn bit_of_no_slot(table: &mut Table, random: &mut Random) -> bool {
    let any = random.between(SLOTS, BITS - 1);
    tables::set_used(table, *random.pick(&[SLOTS, BITS - 1, any]), true);
    true
}

/// A slot that the table has and its roster has not; often the first of them, or the last.
fn outside(table: &Table, random: &mut Random) -> Option<usize> {
    let total = tables::total(table);
    if total == SLOTS {
        return None;
    }
    let any = random.between(total, SLOTS - 1);
    Some(*random.pick(&[total, SLOTS - 1, any]))
}

/// Moved there from its slot, with its bit: nothing else is at odds.
fn call_outside(table: &mut Table, random: &mut Random) -> bool {
    let (Some(from), Some(to)) = (tables::some_used(table, random), outside(table, random)) else {
        return false;
    };
    table.calls.swap(from, to);
    tables::set_used(table, from, false);
    tables::set_used(table, to, true);
    true
}

/// One call more, where limit and S have room for it.
fn call_beside(table: &mut Table, random: &mut Random) -> bool {
    let (Some(slot), Some(customer)) = (outside(table, random), some_customer(table, random)) else {
        return false;
    };
    narrow(table);
    if tables::taken(table) == tables::total(table) {
        return false;
    }
    put_call(table, customer, slot, random);
    true
}

fn bit_outside(table: &mut Table, random: &mut Random) -> bool {
    let Some(slot) = outside(table, random) else {
        return false;
    };
    tables::set_used(table, slot, true);
    true
}

fn unmarked_outside(table: &mut Table, random: &mut Random) -> bool {
    let (Some(slot), Some(customer)) = (outside(table, random), some_customer(table, random)) else {
        return false;
    };
    put_call(table, customer, slot, random);
    tables::set_used(table, slot, false);
    true
}

fn word_outside(table: &mut Table, random: &mut Random) -> bool {
    let Some(slot) = outside(table, random) else {
        return false;
    };
    words_mut(table)[CALLS + CALL * slot + random.below(CALL)] = 1 << random.below(32);
    true
}

/// Makes the table one that form 1 allows, or would but for its form: calls in the first 64 slots, all limits 64, no
/// guarantees.
pub fn narrow(table: &mut Table) {
    let total = form::total(1);
    keep_calls(table, |slot, _| slot < total);
    let listed = table.listed as usize;
    for customer in &mut table.customers[..listed] {
        (customer.guarantee, customer.limit) = (0, total as u32);
    }
}

fn form_1_over_slot(table: &mut Table, random: &mut Random) -> bool {
    let far: Vec<usize> = (form::total(1)..SLOTS).collect();
    let slot = *random.pick(&far);
    let Some(customer) = some_customer(table, random) else {
        return false;
    };
    narrow(table);
    if table.form == 1 || tables::taken(table) == form::total(1) {
        return false;
    }
    put_call(table, customer, slot, random);
    table.form = 1;
    true
}

fn form_1_over_limit(table: &mut Table, random: &mut Random) -> bool {
    let Some(customer) = some_customer(table, random) else {
        return false;
    };
    let was = table.form;
    narrow(table);
    table.customers[customer].limit = random.between(form::total(1) + 1, form::total(2)) as u32;
    table.form = 1;
    was == 2
}

/// No calls, and no limit above 64.
fn form_1_over_guarantees(table: &mut Table, random: &mut Random) -> bool {
    let Some((one, other)) = two_customers(table, random) else {
        return false;
    };
    let was = table.form;
    narrow(table);
    keep_calls(table, |_, _| false);
    let guarantee = random.between(1, form::total(1));
    table.customers[one].guarantee = guarantee as u32;
    table.customers[other].guarantee = (form::total(1) + 1 - guarantee) as u32;
    table.form = 1;
    was == 2
}

/// Calls in the first 64 slots, and a guarantee beside them that is within 64 itself.
fn form_1_over_sum(table: &mut Table, random: &mut Random) -> bool {
    let was = table.form;
    narrow(table);
    let Some((one, count)) = customer_with(table, 1, random) else {
        return false;
    };
    let others: Vec<usize> = (0..table.listed as usize).filter(|&other| other != one).collect();
    if others.is_empty() {
        return false;
    }
    let other = *random.pick(&others);
    let address = table.customers[other].address;
    keep_calls(table, |_, call| call.sender != address);
    table.customers[other].guarantee = (form::total(1) + 1 - count) as u32;
    table.form = 1;
    was == 2
}
