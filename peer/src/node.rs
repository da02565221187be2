//! One message: the rule check, the answer, the change of the table in place, the reply.

use crate::expiry::{elapse, Clock};
use crate::message::{be16, be32, read, sum, Kind, Objects, Read};
use crate::rules::{check, Counts};
use crate::table::{pair_of, Call, Customer, Place, Table, CALLS, TOTALS};
use crate::{Closings, Done};

/// The whole of it.
#[inline(always)]
pub fn handle(table: &mut Table, message: &[u8], reply: &mut [u8], clock: Clock, closings: &mut Closings) -> Done {
    let refused = |answer| Done {
        answer,
        length: 0,
        closed: 0,
    };
    let Some(mut counts) = check(table) else {
        return refused(1);
    };
    if reply.len() < 128 {
        return refused(2);
    }
    let closed = elapse(table, &mut counts, clock, closings);
    let (answer, length) = answer(table, &counts, message, reply);
    Done { answer, length, closed }
}

/// From answer 3 on, for a table that keeps the rules: the answer and the reply's length.
#[inline(always)]
fn answer(table: &mut Table, counts: &Counts, s: &[u8], reply: &mut [u8]) -> (u8, usize) {
    let (kind, o) = match read(s) {
        Read::Fault(answer) => return (answer, 0),
        Read::Unfit(answer, sender) => return (if customer(table, sender) < 8 { answer } else { 11 }, 0),
        Read::Message(kind, o) => (kind, o),
    };
    let (endpoint, sender) = (be32(s, o.session + 4), be32(s, o.template + 4));
    let k = customer(table, sender);
    if k == 8 {
        return (11, 0);
    }
    if matches!(kind, Kind::Open | Kind::OpenNameless | Kind::Close) && !keep(&mut table.customers[k], requested(s, &o))
    {
        return (16, 0);
    }
    let (pair, id) = (pair_of(endpoint, sender), u32::from(be16(s, o.session + 8)));
    match kind {
        Kind::Open => {
            let (answer, code) = open(table, counts, k, pair, id, name(s, &o));
            (answer, notify(table, s, &o, 8, code, reply))
        }
        Kind::OpenNameless => match open_nameless(table, counts, k, pair, requested(s, &o)) {
            (answer, Some(slot)) => (answer, notify_made(table, s, &o, slot, reply)),
            (answer, None) => (answer, notify(table, s, &o, 8, 0x0002_0000, reply)),
        },
        Kind::Close => {
            let (answer, code) = close(table, pair, id, name(s, &o));
            (answer, notify(table, s, &o, 9, code, reply))
        }
        Kind::Add => match add(table, k, pair, id, connection(s, &o)) {
            35 => (35, path_err(table, s, &o, 0x0020_0003, reply)),
            37 => (37, path_err(table, s, &o, 0x0002_0000, reply)),
            answer => (answer, 0),
        },
        Kind::Drop => (drop_connection(table, k, pair, connection(s, &o)), 0),
    }
}

/// The customer's place in the roster, 8 where it has none.
#[inline(always)]
fn customer(table: &Table, address: u32) -> usize {
    let listed = &table.customers[..table.listed as usize];
    listed.iter().position(|one| one.address == address).unwrap_or(8)
}

/// Keeps a Notify's MESSAGE_ID, whatever it will be answered, unless it lies behind the one kept: then false.
#[inline(always)]
fn keep(customer: &mut Customer, (epoch, identifier): (u32, u32)) -> bool {
    // 1 to 2^31 - 1 behind.
    let behind = customer.identifier.wrapping_sub(identifier).wrapping_sub(1) < 0x7fff_ffff;
    let is_late = (customer.kept != 0) & (customer.epoch == epoch) & behind;
    if !is_late {
        (customer.kept, customer.epoch, customer.identifier) = (1, epoch, identifier);
    }
    !is_late
}

/// The roster's total, for a table that keeps the rules.
#[inline(always)]
fn total(table: &Table) -> usize {
    TOTALS[table.form as usize] as usize
}

/// The lowest free slot, for a table that has one.
#[inline(always)]
fn lowest_free(table: &Table) -> usize {
    let full = |w: &usize| table.occupied[*w] == u32::MAX;
    let word = (0..7).take_while(full).count();
    32 * word + table.occupied[word].trailing_ones() as usize
}

/// Each open call of the pair, until one is enough.
#[inline(always)]
fn calls_of(table: &Table, pair: u64, mut enough: impl FnMut(usize, &Call) -> bool) {
    // No call stands behind the total, and what is free there has no pair to compare.
    for (i, call) in table.calls[..total(table)].iter().enumerate() {
        if call.pair() == pair && table.is_used(i) && enough(i, call) {
            return;
        }
    }
}

/// The message's long Call ID.
#[inline(always)]
fn name<'a>(s: &'a [u8], o: &Objects) -> &'a [u8] {
    &s[o.attribute + 8..][..o.name]
}

#[inline(always)]
fn is_named(call: &Call, name: &[u8]) -> bool {
    call.size as usize == name.len() && call.name[..name.len()] == *name
}

/// The answer, and error code and value.
#[inline(always)]
fn open(table: &mut Table, counts: &Counts, k: usize, pair: u64, id: u32, name: &[u8]) -> (u8, u32) {
    let (mut known, mut long, mut short) = (CALLS, false, false);
    calls_of(table, pair, |i, call| {
        let (a, b) = (call.id == id, is_named(call, name));
        if a & b {
            known = i;
        }
        short |= a;
        long |= b;
        a & b
    });
    if known < CALLS {
        table.calls[known].refreshed = table.time;
        return (21, 0);
    }
    if long {
        return (31, 0x0020_0004);
    }
    if short {
        return (30, 0x0020_0001);
    }
    if share_is_used(table, counts, k) {
        return (34, 0x0002_0000);
    }
    add_call(table, pair, id, name);
    (20, 0)
}

#[inline(always)]
fn share_is_used(table: &Table, counts: &Counts, k: usize) -> bool {
    let (count, one) = (u32::from(counts.calls[k]), &table.customers[k]);
    count == one.limit || count >= one.guarantee && counts.sum as usize == total(table)
}

/// Puts a call into the lowest free slot.
#[inline(always)]
fn add_call(table: &mut Table, pair: u64, id: u32, name: &[u8]) -> usize {
    let slot = lowest_free(table);
    table.occupied[slot / 32] |= 1 << (slot % 32);
    let call = &mut table.calls[slot];
    // The rest of a free slot is zeros already.
    (call.endpoint, call.sender, call.refreshed) = (pair as u32, (pair >> 32) as u32, table.time);
    (call.id, call.size) = (id, name.len() as u32);
    call.name[..name.len()].copy_from_slice(name);
    slot
}

/// The MESSAGE_ID's epoch and identifier.
#[inline(always)]
fn requested(s: &[u8], o: &Objects) -> (u32, u32) {
    (be32(s, o.identifier + 4) & 0x00ff_ffff, be32(s, o.identifier + 8))
}

/// The answer, and the slot of the call where it is 20 or 21. It stands apart, so that named requests are as fast as they
/// were.
#[cold]
#[inline(never)]
fn open_nameless(table: &mut Table, counts: &Counts, k: usize, pair: u64, request: (u32, u32)) -> (u8, Option<usize>) {
    // Each call is in the way of two numbers.
    let mut in_the_way = [false; 2 * CALLS + 2];
    let mut note = |number: usize| {
        if let Some(mark) = in_the_way.get_mut(number) {
            *mark = true;
        }
    };
    let made = made_name(pair, 0);
    let mut known = None;
    calls_of(table, pair, |i, call| {
        if call.made != 0 && (call.epoch, call.identifier) == request {
            known = Some(i);
        }
        note(call.id as usize);
        if call.size == 20 && call.name[..16] == made[..16] {
            note(number_of(&call.name[16..20]));
        }
        known.is_some()
    });
    if let Some(slot) = known {
        table.calls[slot].refreshed = table.time;
        return (21, known);
    }
    if share_is_used(table, counts, k) {
        return (34, None);
    }
    let id = 1 + in_the_way[1..].iter().take_while(|&&mark| mark).count();
    let slot = add_call(table, pair, id as u32, &made_name(pair, id));
    let call = &mut table.calls[slot];
    (call.made, call.epoch, call.identifier) = (1, request.0, request.1);
    (20, Some(slot))
}

const DIGITS: &[u8; 16] = b"0123456789abcdef";

/// Sender, end point and short ID in lower case hex digits.
#[inline(always)]
fn made_name(pair: u64, id: usize) -> [u8; 20] {
    let mut name = [0; 20];
    for (at, digit) in name.iter_mut().enumerate() {
        let bits = if at < 16 {
            pair >> (60 - 4 * at)
        } else {
            (id >> (76 - 4 * at)) as u64
        };
        *digit = DIGITS[(bits & 15) as usize];
    }
    name
}

/// The number that four lower case hex digits are, 0 where they are something else.
#[inline(always)]
fn number_of(digits: &[u8]) -> usize {
    let value = |digit: &u8| DIGITS.iter().position(|one| one == digit);
    let number = digits
        .iter()
        .try_fold(0, |number, digit| Some(16 * number + value(digit)?));
    number.unwrap_or(0)
}

#[inline(always)]
fn close(table: &mut Table, pair: u64, id: u32, name: &[u8]) -> (u8, u32) {
    let mut slot = CALLS;
    calls_of(table, pair, |i, call| {
        if call.id == id && is_named(call, name) {
            slot = i;
        }
        slot < CALLS
    });
    if slot == CALLS {
        return (33, 0x0020_0003);
    }
    if table.calls[slot].places.iter().any(|place| place.taken != 0) {
        return (32, 0x0020_0002);
    }
    table.free(slot);
    (22, 0)
}

/// The message's connection.
#[inline(always)]
fn connection(s: &[u8], o: &Objects) -> Place {
    Place::new(
        be16(s, o.session + 10),
        be32(s, o.session + 12),
        be16(s, o.template + 10),
    )
}

#[inline(always)]
fn held(places: &[Place; 4], connection: Place) -> Option<usize> {
    places.iter().position(|place| place.halves() == connection.halves())
}

/// The customer's place with this connection of Call ID 0.
#[inline(always)]
fn held_standalone(customer: &Customer, endpoint: u32, connection: Place) -> Option<usize> {
    (0..4).find(|&j| customer.endpoints[j] == endpoint && customer.places[j].halves() == connection.halves())
}

#[inline(always)]
fn add(table: &mut Table, k: usize, pair: u64, id: u32, connection: Place) -> u8 {
    let (mut slot, mut under) = (CALLS, None);
    calls_of(table, pair, |i, call| {
        if held(&call.places, connection).is_some() {
            under = Some(call.id);
        }
        if call.id == id {
            slot = i;
        }
        under.is_some()
    });
    if under.is_none() && held_standalone(&table.customers[k], pair as u32, connection).is_some() {
        under = Some(0);
    }
    if let Some(other) = under {
        return if other == id { 24 } else { 14 };
    }
    if id == 0 {
        let customer = &mut table.customers[k];
        let Some(j) = customer.places.iter().position(|place| place.taken == 0) else {
            return 37;
        };
        customer.endpoints[j] = pair as u32;
        customer.places[j] = connection;
        return 23;
    }
    if slot == CALLS {
        return 35;
    }
    let Some(place) = table.calls[slot].places.iter_mut().find(|place| place.taken == 0) else {
        return 37;
    };
    *place = connection;
    23
}

#[inline(always)]
fn drop_connection(table: &mut Table, k: usize, pair: u64, connection: Place) -> u8 {
    let mut found = None;
    calls_of(table, pair, |i, call| {
        found = held(&call.places, connection).map(|j| (i, j));
        found.is_some()
    });
    if let Some((i, j)) = found {
        table.calls[i].places[j] = Place::FREE;
        return 25;
    }
    let customer = &mut table.customers[k];
    match held_standalone(customer, pair as u32, connection) {
        Some(j) => {
            customer.endpoints[j] = 0;
            customer.places[j] = Place::FREE;
            25
        }
        None => 15,
    }
}

#[inline(always)]
fn put32(reply: &mut [u8], at: usize, value: u32) {
    reply[at..at + 4].copy_from_slice(&value.to_be_bytes());
}

/// Writes the checksum.
#[inline(always)]
fn seal(reply: &mut [u8]) {
    let checksum = !sum(reply);
    let checksum = if checksum == 0 { 0xffff } else { checksum };
    reply[2..4].copy_from_slice(&checksum.to_ne_bytes());
}

#[inline(always)]
fn notify(table: &mut Table, s: &[u8], o: &Objects, status: u32, error: u32, reply: &mut [u8]) -> usize {
    let size = usize::from(be16(s, o.attribute));
    let r = &mut reply[..80 + size];
    put_front(table, s, o, status, error, r);
    r[68..68 + size].copy_from_slice(&s[o.attribute..o.attribute + size]);
    r[68 + size..].copy_from_slice(&s[o.template..o.template + 12]);
    seal(r);
    80 + size
}

/// The reply to a nameless request that was answered 20 or 21: the IDs are the call's.
#[cold]
#[inline(never)]
fn notify_made(table: &mut Table, s: &[u8], o: &Objects, slot: usize, reply: &mut [u8]) -> usize {
    let call = table.calls[slot];
    let size = 8 + (call.size as usize).next_multiple_of(4);
    let r = &mut reply[..80 + size];
    put_front(table, s, o, 8, 0, r);
    r[52..54].copy_from_slice(&(call.id as u16).to_be_bytes());
    put32(r, 68, (size as u32) << 16 | 0xcf07);
    r[72..75].copy_from_slice(&s[o.attribute + 4..o.attribute + 7]);
    r[75] = call.size as u8;
    // Behind a name its bytes are zeros.
    r[76..68 + size].copy_from_slice(&call.name[..size - 8]);
    r[68 + size..].copy_from_slice(&s[o.template..o.template + 12]);
    seal(r);
    80 + size
}

/// All that stands before the SESSION_ATTRIBUTE; the own identifier moves.
#[inline(always)]
fn put_front(table: &mut Table, s: &[u8], o: &Objects, status: u32, error: u32, r: &mut [u8]) {
    let n = r.len();
    put32(r, 0, 0x1015_0000);
    put32(r, 4, 0xff00_0000 | n as u32);
    put32(r, 8, 0x000c_1801);
    put32(r, 12, be32(s, o.identifier + 4) & 0x00ff_ffff);
    r[16..20].copy_from_slice(&s[o.identifier + 8..o.identifier + 12]);
    put32(r, 20, 0x000c_1701);
    put32(r, 24, 0x0100_0000 | table.epoch);
    put32(r, 28, table.next);
    put32(r, 32, 0x000c_0601);
    put32(r, 36, table.address);
    put32(r, 40, error);
    r[44..60].copy_from_slice(&s[o.session..o.session + 16]);
    put32(r, 60, 0x0008_c401);
    put32(r, 64, status);
    table.next = table.next.wrapping_add(1);
}

#[inline(always)]
fn path_err(table: &Table, s: &[u8], o: &Objects, error: u32, reply: &mut [u8]) -> usize {
    let r = &mut reply[..48];
    put32(r, 0, 0x1003_0000);
    put32(r, 4, 0xff00_0030);
    r[8..24].copy_from_slice(&s[o.session..o.session + 16]);
    put32(r, 24, 0x000c_0601);
    put32(r, 28, table.address);
    put32(r, 32, error);
    r[36..48].copy_from_slice(&s[o.template..o.template + 12]);
    seal(r);
    48
}

#[cfg(test)]
mod tests {
    use super::*;
    use crate::Words;

    /// Whether a Notify with these numbers is late behind 9 and this identifier.
    fn is_late(old: u32, epoch: u32, identifier: u32) -> bool {
        let mut words: Words = [0; 6622];
        let customer = &mut Table::of_mut(&mut words).customers[3];
        assert!(keep(customer, (9, old)));
        let late = !keep(customer, (epoch, identifier));
        let due = if late { (1, 9, old) } else { (1, epoch, identifier) };
        assert_eq!((customer.kept, customer.epoch, customer.identifier), due);
        late
    }

    #[test]
    fn late_messages() {
        const HALF: u32 = 1 << 31;
        for old in [0, 1, 42, HALF - 1, HALF, HALF + 1, u32::MAX] {
            for (less, late) in [
                (1, true),
                (HALF - 1, true),
                (HALF, false),
                (HALF + 1, false),
                (0, false),
            ] {
                assert_eq!(is_late(old, 9, old.wrapping_sub(less)), late);
                assert!(!is_late(old, 8, old.wrapping_sub(less)));
            }
        }
    }
}
