//! Values outside their fields, for every word of a table: what a word is set to, and which rule that breaks for sure.

use crate::layout::{
    field, words, words_mut, Field, OfCall, OfCustomer, OfPlace, CALL, CALLS, CUSTOMER, CUSTOMERS, WORDS,
};
use crate::random::Random;
use crate::tables::{is_taken, is_used, total, used};
use second::table::{Call, Customer, Place, Table};

/// What every word is set to, besides each of its bits turned over.
pub const VALUES: [u32; 27] = [
    0,
    1,
    2,
    3,
    7,
    8,
    9,
    32,
    33,
    40,
    64,
    65,
    200,
    201,
    255,
    256,
    257,
    65_535,
    65_536,
    65_537,
    70_000,
    (1 << 24) - 1,
    1 << 24,
    (1 << 31) - 1,
    1 << 31,
    u32::MAX - 1,
    u32::MAX,
];

/// Values outside a field: answer 1, and the table as it was. One each for the roster's and the node's numbers, for a
/// used call, for a taken and a free place of a call and of a customer, and for what is unused.
pub const REFUSED: &[&str] = &[
    "word: own address of the empty table",
    "word: own epoch of the empty table",
    "word: own epoch above 24 bits",
    "word: listed above 8",
    "word: form of the empty table",
    "word: form 0 or above 2",
    "word: occupied bits",
    "word: occupied bits outside the total",
    "word: guarantee above the limit",
    "word: limit 0 or above the total",
    "word: customer's kept mark above 1",
    "word: customer's kept mark 0 over numbers",
    "word: epoch where none is kept",
    "word: identifier where none is kept",
    "word: kept epoch above 24 bits",
    "word: time before a call's refresh",
    "word: call's refresh after the time",
    "word: unmarked call's request epoch",
    "word: unmarked call's request identifier",
    "word: made call's request epoch above 24 bits",
    "word: call's made mark above 1",
    "word: call's made mark 0 over numbers",
    "word: call's short ID 0 or above 65,535",
    "word: call's name size 0 or above 32",
    "word: call's name past its size",
    "word: call's name size up to a zero byte",
    "word: call's name with a last byte of zero",
    "word: call's place, taken above 1",
    "word: call's place, taken 0 over a connection",
    "word: call's place, Tunnel ID above 65,535",
    "word: call's place, LSP ID above 65,535",
    "word: call's free place not zeros",
    "word: customer's place, taken above 1",
    "word: customer's place, taken 0 over a connection",
    "word: customer's place, Tunnel ID above 65,535",
    "word: customer's place, LSP ID above 65,535",
    "word: customer's free place not zeros",
    "word: customer's free place, end point",
    "word: unused record not zeros",
    "word: free slot not zeros",
    "word: slot outside the total not zeros",
];

/// Values that no rule looks at: never answer 1.
pub const KEPT: &[&str] = &[
    "word: any own address",
    "word: any own epoch of 24 bits",
    "word: any next identifier",
    "word: any time from the latest refresh on",
    "word: any refresh up to the time",
    "word: kept mark over zeros, or any numbers kept",
];

/// What is due to a table with one word changed.
#[derive(Clone, Copy, PartialEq, Eq, Debug)]
pub enum Due {
    /// Answer 1, for this reason.
    Refused(&'static str),
    /// Another answer.
    Kept(&'static str),
    /// The rest of the table decides.
    Open,
}

use Due::{Kept, Open, Refused};

/// A change of one word of a table that breaks no rule.
#[derive(Clone, Copy)]
pub struct Changed {
    pub word: usize,
    pub value: u32,
    pub due: Due,
}

impl Changed {
    /// The table with this change.
    pub fn of(&self, table: &Table) -> Table {
        let mut changed = *table;
        words_mut(&mut changed)[self.word] = self.value;
        changed
    }
}

/// `word` set to `value`; none where it has that value.
pub fn change(table: &Table, word: usize, value: u32) -> Option<Changed> {
    (words(table)[word] != value).then(|| Changed {
        word,
        value,
        due: due(table, word, value),
    })
}

/// The word of a customer's record that says whether a MESSAGE_ID is kept.
const KEPT_MARK: usize = 3;

/// A word of a call gets one of so many values at a time, for there are many calls with the same words.
const PART: usize = 4;

/// Every word with every value and with each bit turned over; a call's words with a part of them. Which part it is goes
/// round from slot to slot, so that each field of a call gets them all; it begins with `first`.
pub fn every_word(table: &Table, first: usize) -> impl Iterator<Item = Changed> + '_ {
    (0..WORDS).flat_map(move |word| {
        let old = words(table)[word];
        let flips = (0..32).map(move |bit| old ^ 1 << bit);
        let values = VALUES.into_iter().chain(flips).enumerate();
        let wanted = move |number: usize| match field(word) {
            Field::Call(slot, _) => (number + slot + first).is_multiple_of(PART),
            _ => true,
        };
        let values = values.filter(move |line| wanted(line.0));
        values.filter_map(move |(_, value)| change(table, word, value))
    })
}

/// Some word with some value. Words of listed customers and of used slots come as often as all others.
pub fn some_word(table: &Table, random: &mut Random) -> Option<Changed> {
    let mut word = random.below(WORDS);
    if random.chance(1, 2) {
        let used = used(table);
        word = match random.below(4) {
            0 => random.below(CUSTOMERS),
            1 if table.listed > 0 => {
                // What is kept (A8) comes more often: few values of the mark are good for anything.
                let (record, any) = (random.below(table.listed as usize), random.below(CUSTOMER));
                CUSTOMERS + CUSTOMER * record + *random.pick(&[any, any, any, KEPT_MARK])
            }
            _ if !used.is_empty() => CALLS + CALL * random.pick(&used) + random.below(CALL),
            _ => word,
        };
    }
    let old = words(table)[word];
    let flipped = old ^ 1 << random.below(32);
    let (beside, any) = (old.wrapping_add(1), random.word());
    let listed = *random.pick(&VALUES);
    let values = [0, listed, listed, flipped, flipped, beside, any];
    change(table, word, *random.pick(&values))
}

fn when(broken: bool, reason: &'static str) -> Due {
    if broken {
        Refused(reason)
    } else {
        Open
    }
}

/// `value` is not the one that the word has, and the table breaks no rule.
fn due(table: &Table, word: usize, value: u32) -> Due {
    let empty = table.listed == 0;
    match field(word) {
        Field::Address if empty => Refused("word: own address of the empty table"),
        Field::Epoch if empty => Refused("word: own epoch of the empty table"),
        Field::Epoch if value >= 1 << 24 => Refused("word: own epoch above 24 bits"),
        Field::Address => Kept("word: any own address"),
        Field::Epoch => Kept("word: any own epoch of 24 bits"),
        Field::Next => Kept("word: any next identifier"),
        Field::Time if value < latest(table) => Refused("word: time before a call's refresh"),
        Field::Time => Kept("word: any time from the latest refresh on"),
        Field::Listed => when(value > 8, "word: listed above 8"),
        Field::Form if empty => Refused("word: form of the empty table"),
        Field::Form => when(value == 0 || value > 2, "word: form 0 or above 2"),
        Field::Occupied(part) if 32 * part >= total(table) => Refused("word: occupied bits outside the total"),
        Field::Occupied(_) => Refused("word: occupied bits"),
        Field::Customer(customer, _) if customer >= table.listed as usize => Refused("word: unused record not zeros"),
        Field::Customer(customer, of) => due_of_customer(table, customer, of, value),
        Field::Call(slot, _) if slot >= total(table) => Refused("word: slot outside the total not zeros"),
        Field::Call(slot, _) if !is_used(table, slot) => Refused("word: free slot not zeros"),
        Field::Call(slot, of) => due_of_call(table, slot, of, value),
    }
}

/// The latest refresh; free slots hold 0.
fn latest(table: &Table) -> u32 {
    table.calls.iter().map(|call| call.refreshed).max().unwrap_or(0)
}

fn due_of_customer(table: &Table, customer: usize, of: OfCustomer, value: u32) -> Due {
    let total = total(table) as u32;
    let customer = &table.customers[customer];
    match of {
        OfCustomer::Address => Open,
        OfCustomer::Guarantee => when(value > customer.limit, "word: guarantee above the limit"),
        OfCustomer::Limit => when(value == 0 || value > total, "word: limit 0 or above the total"),
        OfCustomer::Kept | OfCustomer::Epoch | OfCustomer::Identifier => due_of_kept(customer, of, value),
        OfCustomer::EndPoint(n) => when(!is_taken(&customer.places[n]), "word: customer's free place, end point"),
        OfCustomer::Place(n, of) => {
            let reasons = [
                "word: customer's place, taken above 1",
                "word: customer's place, taken 0 over a connection",
                "word: customer's place, Tunnel ID above 65,535",
                "word: customer's place, LSP ID above 65,535",
                "word: customer's free place not zeros",
            ];
            due_of_place(&customer.places[n], customer.endpoints[n], of, value, reasons)
        }
    }
}

fn due_of_call(table: &Table, slot: usize, of: OfCall, value: u32) -> Due {
    let call = &table.calls[slot];
    match of {
        OfCall::EndPoint | OfCall::Sender => Open,
        OfCall::Refreshed if value > table.time => Refused("word: call's refresh after the time"),
        OfCall::Refreshed => Kept("word: any refresh up to the time"),
        OfCall::Epoch | OfCall::Identifier | OfCall::Made => due_of_request(call, of, value),
        OfCall::Id => when(value == 0 || value > 65_535, "word: call's short ID 0 or above 65,535"),
        OfCall::Size if value == 0 || value > 32 => Refused("word: call's name size 0 or above 32"),
        OfCall::Size if value > call.size => Refused("word: call's name size up to a zero byte"),
        OfCall::Size => Refused("word: call's name past its size"),
        OfCall::Name(n) => {
            let (bytes, size) = (value.to_le_bytes(), call.size as usize);
            let past = |at: usize| 4 * n + at >= size && bytes[at] != 0;
            let last = |at: usize| 4 * n + at + 1 == size && bytes[at] == 0;
            match (0..4).any(past) {
                true => Refused("word: call's name past its size"),
                false => when((0..4).any(last), "word: call's name with a last byte of zero"),
            }
        }
        OfCall::Place(n, of) => {
            let reasons = [
                "word: call's place, taken above 1",
                "word: call's place, taken 0 over a connection",
                "word: call's place, Tunnel ID above 65,535",
                "word: call's place, LSP ID above 65,535",
                "word: call's free place not zeros",
            ];
            due_of_place(&call.places[n], 0, of, value, reasons)
        }
    }
}

/// A8: the mark and the numbers of a customer's last MESSAGE_ID. Nothing else of the table has a say.
fn due_of_kept(customer: &Customer, of: OfCustomer, value: u32) -> Due {
    let zeros = (customer.epoch, customer.identifier) == (0, 0);
    match (of, customer.kept) {
        (OfCustomer::Epoch, 0) => Refused("word: epoch where none is kept"),
        (OfCustomer::Identifier, 0) => Refused("word: identifier where none is kept"),
        (OfCustomer::Epoch, _) if value >= 1 << 24 => Refused("word: kept epoch above 24 bits"),
        (OfCustomer::Kept, _) if value > 1 => Refused("word: customer's kept mark above 1"),
        (OfCustomer::Kept, _) if !zeros => Refused("word: customer's kept mark 0 over numbers"),
        _ => Kept("word: kept mark over zeros, or any numbers kept"),
    }
}

/// A6: the mark and the numbers of a request. Other calls of the pair decide the rest.
fn due_of_request(call: &Call, of: OfCall, value: u32) -> Due {
    match (of, call.made) {
        (OfCall::Epoch, 0) => Refused("word: unmarked call's request epoch"),
        (OfCall::Identifier, 0) => Refused("word: unmarked call's request identifier"),
        (OfCall::Epoch, _) => when(value >= 1 << 24, "word: made call's request epoch above 24 bits"),
        (OfCall::Made, _) if value > 1 => Refused("word: call's made mark above 1"),
        (OfCall::Made, 1) => when(
            (call.epoch, call.identifier) != (0, 0),
            "word: call's made mark 0 over numbers",
        ),
        _ => Open,
    }
}

fn due_of_place(place: &Place, endpoint: u32, of: OfPlace, value: u32, reasons: [&'static str; 5]) -> Due {
    let left = place.tunnel | place.extended | place.lsp | endpoint;
    match of {
        OfPlace::Taken if value > 1 => Refused(reasons[0]),
        OfPlace::Taken => when(value == 0 && left != 0, reasons[1]),
        _ if !is_taken(place) => Refused(reasons[4]),
        OfPlace::Tunnel => when(value > 65_535, reasons[2]),
        OfPlace::Lsp => when(value > 65_535, reasons[3]),
        OfPlace::Extended => Open,
    }
}

#[cfg(test)]
mod tests {
    use super::*;
    use crate::tables::EMPTY;

    #[test]
    fn of_the_empty_table() {
        for changed in every_word(&EMPTY, 0) {
            match changed.word {
                2 => assert_eq!(changed.due, Kept("word: any next identifier")),
                3 => assert_eq!(changed.due, Kept("word: any time from the latest refresh on")),
                // None of the records listed would have a limit.
                4 => assert_ne!(changed.due, Kept("word: any own address")),
                _ => assert!(matches!(changed.due, Refused(_)), "word {}", changed.word),
            }
        }
    }

    #[test]
    fn the_kept_mark() {
        assert_eq!(field(CUSTOMERS + KEPT_MARK), Field::Customer(0, OfCustomer::Kept));
    }

    /// Each field of a call gets each value, in some slot.
    #[test]
    fn no_value_is_left_out() {
        for first in 0..PART {
            let mut seen = vec![false; CALL * VALUES.len()];
            for changed in every_word(&EMPTY, first).filter(|changed| changed.word >= CALLS) {
                if let Some(number) = VALUES.iter().position(|&one| one == changed.value) {
                    seen[(changed.word - CALLS) % CALL * VALUES.len() + number] = true;
                }
            }
            // Zero is what they had.
            let lacking = seen.chunks(VALUES.len()).any(|values| values[1..].contains(&false));
            assert!(!lacking);
        }
    }

    #[test]
    fn every_reason_is_announced() {
        let mut table = EMPTY;
        (table.time, table.listed, table.form) = (9, 7, 2);
        table.customers[0].limit = 64;
        table.customers[0].places[1] = Place {
            taken: 1,
            tunnel: 1,
            extended: 1,
            lsp: 1,
        };
        // Kept over numbers, over zeros, and none kept.
        (table.customers[1].kept, table.customers[1].epoch) = (1, 7);
        table.customers[2].kept = 1;
        for call in &mut table.calls[..2] {
            (call.size, call.name[4], call.refreshed) = (5, 1, 9);
        }
        table.calls[0].places[2] = table.customers[0].places[1];
        (table.calls[1].made, table.calls[1].epoch) = (1, 7);
        table.occupied[0] = 3;
        let mut seen: Vec<&str> = Vec::new();
        for changed in every_word(&table, 0).chain(every_word(&EMPTY, 0)) {
            if let Refused(reason) | Kept(reason) = changed.due {
                seen.push(reason);
            }
        }
        seen.sort_unstable();
        seen.dedup();
        let mut due: Vec<&str> = REFUSED.iter().chain(KEPT).copied().collect();
        due.sort_unstable();
        assert_eq!(seen, due);
    }
}
