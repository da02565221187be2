//! The table by its words, numbered as the papers number them: which field each word is, and how a table is lent.
//!
//! A head of 14 words, then 8 customers of 26 from word 14, then 200 calls of 32 from word 222.

pub use second::table::{Call, Customer, Place, Table};
pub use second::Closing;
use std::mem::{align_of, offset_of, size_of};

/// Words of a table.
pub const WORDS: usize = 6622;

pub type Words = [u32; WORDS];

/// Where the occupied bits, the customers and the calls begin, and how many words each of them has.
const OCCUPIED: usize = 6;
pub const CUSTOMERS: usize = 14;
pub const CUSTOMER: usize = 26;
pub const CALLS: usize = 222;
pub const CALL: usize = 32;

/// Slots of a table, whatever its roster's total.
pub const SLOTS: usize = 200;
/// Occupied bits, those that no slot has included.
pub const BITS: usize = 32 * (CUSTOMERS - OCCUPIED);

// The header's own static assertions.
const _: () = assert!(size_of::<Table>() == 4 * WORDS && align_of::<Table>() == 4);
const _: () = assert!(size_of::<Customer>() == 4 * CUSTOMER && size_of::<Call>() == 4 * CALL);
const _: () = assert!(size_of::<Place>() == 16);
const _: () = assert!(offset_of!(Place, taken) == 0 && offset_of!(Place, tunnel) == 4);
const _: () = assert!(offset_of!(Place, extended) == 8 && offset_of!(Place, lsp) == 12);
const _: () = assert!(offset_of!(Call, endpoint) == 0 && offset_of!(Call, sender) == 4);
const _: () = assert!(offset_of!(Call, refreshed) == 8 && offset_of!(Call, epoch) == 12);
const _: () = assert!(offset_of!(Call, identifier) == 16 && offset_of!(Call, id) == 20);
const _: () = assert!(offset_of!(Call, made) == 24 && offset_of!(Call, size) == 28);
const _: () = assert!(offset_of!(Call, name) == 32 && offset_of!(Call, places) == 64);
const _: () = assert!(offset_of!(Customer, address) == 0 && offset_of!(Customer, guarantee) == 4);
const _: () = assert!(offset_of!(Customer, limit) == 8 && offset_of!(Customer, kept) == 12);
const _: () = assert!(offset_of!(Customer, epoch) == 16 && offset_of!(Customer, identifier) == 20);
const _: () = assert!(offset_of!(Customer, endpoints) == 24 && offset_of!(Customer, places) == 40);
const _: () = assert!(offset_of!(Table, address) == 0 && offset_of!(Table, epoch) == 4);
const _: () = assert!(offset_of!(Table, next) == 8 && offset_of!(Table, time) == 12);
const _: () = assert!(offset_of!(Table, listed) == 16 && offset_of!(Table, form) == 20);
const _: () = assert!(offset_of!(Table, occupied) == 4 * OCCUPIED);
const _: () = assert!(offset_of!(Table, customers) == 4 * CUSTOMERS && offset_of!(Table, calls) == 4 * CALLS);
const _: () = assert!(CALLS + CALL * SLOTS == WORDS);
const _: () = assert!(size_of::<Closing>() == 8 && align_of::<Closing>() == 4);
const _: () = assert!(offset_of!(Closing, slot) == 0 && offset_of!(Closing, address) == 4);

/// Which field a word is. Numbers of customers, slots and places are from 0.
#[derive(Clone, Copy, PartialEq, Eq, Debug)]
pub enum Field {
    Address,
    Epoch,
    Next,
    Time,
    Listed,
    Form,
    /// 32 of the bits.
    Occupied(usize),
    Customer(usize, OfCustomer),
    Call(usize, OfCall),
}

#[derive(Clone, Copy, PartialEq, Eq, Debug)]
pub enum OfCustomer {
    Address,
    Guarantee,
    Limit,
    Kept,
    Epoch,
    Identifier,
    EndPoint(usize),
    Place(usize, OfPlace),
}

#[derive(Clone, Copy, PartialEq, Eq, Debug)]
pub enum OfCall {
    EndPoint,
    Sender,
    Refreshed,
    Epoch,
    Identifier,
    Id,
    Made,
    Size,
    /// Four bytes of the name.
    Name(usize),
    Place(usize, OfPlace),
}

#[derive(Clone, Copy, PartialEq, Eq, Debug)]
pub enum OfPlace {
    Taken,
    Tunnel,
    Extended,
    Lsp,
}

/// The field of word `word`.
pub fn field(word: usize) -> Field {
    match word {
        0 => Field::Address,
        1 => Field::Epoch,
        2 => Field::Next,
        3 => Field::Time,
        4 => Field::Listed,
        5 => Field::Form,
        OCCUPIED..CUSTOMERS => Field::Occupied(word - OCCUPIED),
        CUSTOMERS..CALLS => {
            let at = word - CUSTOMERS;
            Field::Customer(at / CUSTOMER, of_customer(at % CUSTOMER))
        }
        _ => {
            let at = word - CALLS;
            Field::Call(at / CALL, of_call(at % CALL))
        }
    }
}

fn of_customer(at: usize) -> OfCustomer {
    match at {
        0 => OfCustomer::Address,
        1 => OfCustomer::Guarantee,
        2 => OfCustomer::Limit,
        3 => OfCustomer::Kept,
        4 => OfCustomer::Epoch,
        5 => OfCustomer::Identifier,
        6..10 => OfCustomer::EndPoint(at - 6),
        _ => OfCustomer::Place((at - 10) / 4, of_place((at - 10) % 4)),
    }
}

fn of_call(at: usize) -> OfCall {
    match at {
        0 => OfCall::EndPoint,
        1 => OfCall::Sender,
        2 => OfCall::Refreshed,
        3 => OfCall::Epoch,
        4 => OfCall::Identifier,
        5 => OfCall::Id,
        6 => OfCall::Made,
        7 => OfCall::Size,
        8..16 => OfCall::Name(at - 8),
        _ => OfCall::Place((at - 16) / 4, of_place(at % 4)),
    }
}

fn of_place(at: usize) -> OfPlace {
    match at {
        0 => OfPlace::Taken,
        1 => OfPlace::Tunnel,
        2 => OfPlace::Extended,
        _ => OfPlace::Lsp,
    }
}

/// The table's words.
pub fn words(table: &Table) -> &Words {
    // SAFETY: a table is its words: size and alignment are those above, and all of its bytes are values.
    unsafe { &*(table as *const Table).cast::<Words>() }
}

pub fn words_mut(table: &mut Table) -> &mut Words {
    // SAFETY: as above, and any words are a table.
    unsafe { &mut *(table as *mut Table).cast::<Words>() }
}

/// A table as it is lent: no better aligned than it has to be, with words before and behind it that stay.
#[repr(C, align(16))]
pub struct Lent {
    before: [u32; 9],
    pub table: Table,
    behind: [u32; 9],
}

const _: () = assert!(offset_of!(Lent, table) % 16 == 4);

const GUARD: u32 = 0xc0ff_ee11;

impl Lent {
    pub fn new(table: &Table) -> Lent {
        Lent {
            before: [GUARD; 9],
            table: *table,
            behind: [GUARD; 9],
        }
    }

    /// Nothing was written before or behind the table.
    pub fn check(&self) -> Result<(), String> {
        match [self.before, self.behind] == [[GUARD; 9]; 2] {
            true => Ok(()),
            false => Err("the first wrote before or behind the table".into()),
        }
    }
}

/// A row of closings, one for each slot.
pub type Closings = [Closing; SLOTS];

/// A row as it is lent: no better aligned than it has to be, with words before and behind it that stay. It holds any
/// words before.
#[repr(C, align(16))]
pub struct LentRow {
    before: [u32; 9],
    pub row: Closings,
    behind: [u32; 9],
}

const _: () = assert!(offset_of!(LentRow, row) % 16 == 4);

impl LentRow {
    pub fn new(row: &Closings) -> LentRow {
        LentRow {
            before: [GUARD; 9],
            row: *row,
            behind: [GUARD; 9],
        }
    }

    /// Nothing was written before or behind the row.
    pub fn check(&self) -> Result<(), String> {
        match [self.before, self.behind] == [[GUARD; 9]; 2] {
            true => Ok(()),
            false => Err("the first wrote before or behind the closings".into()),
        }
    }
}

#[cfg(test)]
mod tests {
    use super::*;
    use crate::tables::EMPTY;

    /// Each field of the struct is at the word that has its name.
    #[test]
    fn each_word_is_its_field() {
        for word in 0..WORDS {
            let mut table = EMPTY;
            words_mut(&mut table)[word] = 0x0403_0201;
            let place = |place: &Place, of| match of {
                OfPlace::Taken => place.taken,
                OfPlace::Tunnel => place.tunnel,
                OfPlace::Extended => place.extended,
                OfPlace::Lsp => place.lsp,
            };
            let found = match field(word) {
                Field::Address => table.address,
                Field::Epoch => table.epoch,
                Field::Next => table.next,
                Field::Time => table.time,
                Field::Listed => table.listed,
                Field::Form => table.form,
                Field::Occupied(part) => table.occupied[part],
                Field::Customer(customer, of) => {
                    let customer = &table.customers[customer];
                    match of {
                        OfCustomer::Address => customer.address,
                        OfCustomer::Guarantee => customer.guarantee,
                        OfCustomer::Limit => customer.limit,
                        OfCustomer::Kept => customer.kept,
                        OfCustomer::Epoch => customer.epoch,
                        OfCustomer::Identifier => customer.identifier,
                        OfCustomer::EndPoint(n) => customer.endpoints[n],
                        OfCustomer::Place(n, of) => place(&customer.places[n], of),
                    }
                }
                Field::Call(slot, of) => {
                    let call = &table.calls[slot];
                    match of {
                        OfCall::EndPoint => call.endpoint,
                        OfCall::Sender => call.sender,
                        OfCall::Refreshed => call.refreshed,
                        OfCall::Epoch => call.epoch,
                        OfCall::Identifier => call.identifier,
                        OfCall::Id => call.id,
                        OfCall::Made => call.made,
                        OfCall::Size => call.size,
                        OfCall::Place(n, of) => place(&call.places[n], of),
                        // Low byte first.
                        OfCall::Name(n) => {
                            assert_eq!(call.name[4 * n..][..4], [1, 2, 3, 4]);
                            0x0403_0201
                        }
                    }
                }
            };
            assert_eq!(found, 0x0403_0201, "word {word}");
            assert_eq!(words(&table)[word], 0x0403_0201);
        }
    }

    #[test]
    fn numbers_of_the_papers() {
        assert_eq!(
            (field(3), field(5), field(6), field(13)),
            (Field::Time, Field::Form, Field::Occupied(0), Field::Occupied(7))
        );
        assert_eq!(field(14 + 26 * 7 + 3), Field::Customer(7, OfCustomer::Kept));
        assert_eq!(field(14 + 26 * 7 + 5), Field::Customer(7, OfCustomer::Identifier));
        assert_eq!(field(14 + 26 * 7 + 6), Field::Customer(7, OfCustomer::EndPoint(0)));
        assert_eq!(
            field(14 + 26 * 7 + 25),
            Field::Customer(7, OfCustomer::Place(3, OfPlace::Lsp))
        );
        assert_eq!(field(222), Field::Call(0, OfCall::EndPoint));
        assert_eq!(field(WORDS - 1), Field::Call(199, OfCall::Place(3, OfPlace::Lsp)));
    }
}
