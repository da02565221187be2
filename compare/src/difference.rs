//! Says which field of two tables differs first.

use crate::layout::words;
use second::table::{Call, Customer, Place, Table};
use std::fmt::Debug;

/// Where the two differ first, with the first program's value and then the second's.
pub fn of_tables(first: &Table, second: &Table) -> Option<String> {
    // Most are equal, and their words are compared in no time.
    if words(first) == words(second) {
        return None;
    }
    differ("address", &first.address, &second.address)
        .or_else(|| differ("epoch", &first.epoch, &second.epoch))
        .or_else(|| differ("next", &first.next, &second.next))
        .or_else(|| differ("time", &first.time, &second.time))
        .or_else(|| differ("listed", &first.listed, &second.listed))
        .or_else(|| differ("form", &first.form, &second.form))
        .or_else(|| differ("occupied", &first.occupied, &second.occupied))
        .or_else(|| each("customers", &first.customers, &second.customers, of_customers))
        .or_else(|| each("calls", &first.calls, &second.calls, of_calls))
        .or_else(|| differ("table", first, second))
}

fn of_customers(first: &Customer, second: &Customer) -> Option<String> {
    differ("address", &first.address, &second.address)
        .or_else(|| differ("guarantee", &first.guarantee, &second.guarantee))
        .or_else(|| differ("limit", &first.limit, &second.limit))
        .or_else(|| differ("kept", &first.kept, &second.kept))
        .or_else(|| differ("epoch", &first.epoch, &second.epoch))
        .or_else(|| differ("identifier", &first.identifier, &second.identifier))
        .or_else(|| differ("endpoints", &first.endpoints, &second.endpoints))
        .or_else(|| each("places", &first.places, &second.places, of_places))
}

fn of_calls(first: &Call, second: &Call) -> Option<String> {
    differ("endpoint", &first.endpoint, &second.endpoint)
        .or_else(|| differ("sender", &first.sender, &second.sender))
        .or_else(|| differ("refreshed", &first.refreshed, &second.refreshed))
        .or_else(|| differ("epoch", &first.epoch, &second.epoch))
        .or_else(|| differ("identifier", &first.identifier, &second.identifier))
        .or_else(|| differ("id", &first.id, &second.id))
        .or_else(|| differ("made", &first.made, &second.made))
        .or_else(|| differ("size", &first.size, &second.size))
        .or_else(|| differ("name", &first.name, &second.name))
        .or_else(|| each("places", &first.places, &second.places, of_places))
}

fn of_places(first: &Place, second: &Place) -> Option<String> {
    differ("taken", &first.taken, &second.taken)
        .or_else(|| differ("tunnel", &first.tunnel, &second.tunnel))
        .or_else(|| differ("extended", &first.extended, &second.extended))
        .or_else(|| differ("lsp", &first.lsp, &second.lsp))
}

fn differ<T: Debug + PartialEq>(field: &str, first: &T, second: &T) -> Option<String> {
    (first != second).then(|| format!("{field}: first {first:x?}, second {second:x?}"))
}

fn each<T>(field: &str, first: &[T], second: &[T], of_one: impl Fn(&T, &T) -> Option<String>) -> Option<String> {
    let mut pairs = first.iter().zip(second).enumerate();
    pairs.find_map(|(place, (one, other))| of_one(one, other).map(|found| format!("{field}[{place}].{found}")))
}

/// Where two byte strings of one length differ first, counted from byte `origin`.
pub fn of_bytes(first: &[u8], second: &[u8], origin: usize) -> Option<String> {
    let at = first.iter().zip(second).position(|(one, other)| one != other)?;
    let from = at as isize - origin as isize;
    Some(format!(
        "byte {from}: first {:02x}, second {:02x}",
        first[at], second[at]
    ))
}

#[cfg(test)]
mod tests {
    use super::{of_bytes, of_tables};
    use crate::tables::EMPTY;

    #[test]
    fn names_the_field() {
        assert_eq!(of_tables(&EMPTY, &EMPTY), None);
        let mut other = EMPTY;
        other.calls[199].places[3].lsp = 0x12;
        let found = of_tables(&EMPTY, &other).expect("a difference");
        assert_eq!(found, "calls[199].places[3].lsp: first 0, second 12");
        other.calls[199].made = 1;
        let found = of_tables(&EMPTY, &other).expect("a difference");
        assert_eq!(found, "calls[199].made: first 0, second 1");
        other.customers[7].endpoints[2] = 1;
        let found = of_tables(&EMPTY, &other).expect("a difference");
        assert_eq!(found, "customers[7].endpoints: first [0, 0, 0, 0], second [0, 0, 1, 0]");
        other.form = 2;
        assert_eq!(of_tables(&EMPTY, &other), Some("form: first 0, second 2".into()));
        other.time = 7;
        assert_eq!(of_tables(&EMPTY, &other), Some("time: first 0, second 7".into()));
        other.next = 2;
        assert_eq!(of_tables(&EMPTY, &other), Some("next: first 1, second 2".into()));
    }

    #[test]
    fn names_the_byte() {
        assert_eq!(of_bytes(&[1, 2], &[1, 2], 0), None);
        assert_eq!(
            of_bytes(&[1, 2], &[1, 3], 2),
            Some("byte -1: first 02, second 03".into())
        );
    }
}
