//! Answer 1: every table rule in one pass over the table. Keys (pair and short ID, pair and name, connections) go into
//! small hash chains on the stack; what met something in its chain is compared exactly afterwards. A table made so that
//! chains grow long is sorted instead, as the numbers of made calls always are. A table of few calls gets fewer chains,
//! for they are zeroed every time.

use crate::table::{pair_of, Call, Customer, Place, Table, CALLS, TOTALS};
use std::mem::MaybeUninit;

/// What the pass counted, for the share rule.
pub struct Counts {
    pub calls: [u16; 8],
    pub sum: u32,
}

/// Up to so many calls are few: all that a roster of form 1 has.
const FEW: u32 = TOTALS[1];
/// Keys are numbered from 1.
const CONNECTION_KEYS: usize = 4 * CALLS + 4 * 8 + 1;
const ID_KEYS: usize = CALLS + 1;

const K0: u64 = 0x9e37_79b9_7f4a_7c15;
const K1: u64 = 0xd6e8_feb8_6659_fd93;
const K2: u64 = 0xa076_1d64_78bd_642f;
const K3: u64 = 0xe703_7ed1_a0b4_28db;

#[inline(always)]
fn mix(a: u64, b: u64) -> u64 {
    let m = u128::from(a).wrapping_mul(u128::from(b));
    (m as u64) ^ (m >> 64) as u64
}

/// 32 zeros, then 32 bytes of ones.
static PAST: [u8; 64] = {
    let mut past = [0; 64];
    let mut i = 32;
    while i < 64 {
        past[i] = 0xff;
        i += 1;
    }
    past
};

#[inline(always)]
unsafe fn word(bytes: *const u8, at: usize) -> u64 {
    bytes.add(at).cast::<u64>().read_unaligned()
}

/// Whether all of these calls are zeros. Eight words go beside each other, so that none waits for the one before it.
#[inline(always)]
fn are_zeros(calls: &[Call]) -> bool {
    const PARTS: usize = size_of::<Call>() / 8;
    let mut any = [0u64; 8];
    for call in calls {
        let bytes = (call as *const Call).cast::<u8>();
        for part in 0..PARTS {
            // SAFETY: a call is a whole number of such words.
            any[part % 8] |= unsafe { word(bytes, 8 * part) };
        }
    }
    any.iter().fold(0, |any, one| any | one) == 0
}

/// Chains: `head[h]` is the last key put there, from 1; `next[key]` the one before it, 0 for none; `met` has the keys
/// that were put behind another.
struct Chains<const HEADS: usize, const KEYS: usize> {
    head: [u16; HEADS],
    next: MaybeUninit<[u16; KEYS]>,
    met: MaybeUninit<[u16; KEYS]>,
    count: usize,
}

impl<const HEADS: usize, const KEYS: usize> Chains<HEADS, KEYS> {
    /// A hash is brought below HEADS by this shift.
    const SHIFT: u32 = 64 - HEADS.trailing_zeros();

    #[inline(always)]
    fn new() -> Self {
        Chains {
            head: [0; HEADS],
            next: MaybeUninit::uninit(),
            met: MaybeUninit::uninit(),
            count: 0,
        }
    }

    /// # Safety
    /// Each key from 1 to KEYS - 1 is put at most once.
    #[inline(always)]
    unsafe fn put(&mut self, hash: u64, key: usize) {
        let head = self.head.as_mut_ptr().add((hash >> Self::SHIFT) as usize);
        let before = *head;
        *head = key as u16;
        *self.next.as_mut_ptr().cast::<u16>().add(key) = before;
        if before != 0 {
            *self.met.as_mut_ptr().cast::<u16>().add(self.count) = key as u16;
            self.count += 1;
        }
    }

    /// Whether two keys are the same; None where the chains are too long.
    #[inline(always)]
    fn twice(&self, budget: usize, same: impl Fn(usize, usize) -> bool) -> Option<bool> {
        let mut left = budget;
        let next = self.next.as_ptr().cast::<u16>();
        for i in 0..self.count {
            // SAFETY: the first `count` of `met` are keys that were put, and so is what `next` leads to.
            let key = usize::from(unsafe { *self.met.as_ptr().cast::<u16>().add(i) });
            let mut other = usize::from(unsafe { *next.add(key) });
            while other != 0 {
                if same(key, other) {
                    return Some(true);
                }
                if left == 0 {
                    return None;
                }
                left -= 1;
                other = usize::from(unsafe { *next.add(other) });
            }
        }
        Some(false)
    }
}

/// Which of the eight are the sender, a bit each.
#[inline(always)]
fn equal(addresses: &[u32; 8], sender: u32) -> u32 {
    #[cfg(target_arch = "x86_64")]
    {
        use std::arch::x86_64::*;
        // SAFETY: every x86-64 has these instructions, and both loads lie in the eight.
        unsafe {
            let s = _mm_set1_epi32(sender as i32);
            let a = _mm_cmpeq_epi32(s, _mm_loadu_si128(addresses.as_ptr().cast()));
            let b = _mm_cmpeq_epi32(s, _mm_loadu_si128(addresses.as_ptr().add(4).cast()));
            let m = _mm_packs_epi16(_mm_packs_epi32(a, b), _mm_setzero_si128());
            _mm_movemask_epi8(m) as u32
        }
    }
    #[cfg(not(target_arch = "x86_64"))]
    {
        let bits = addresses.iter().enumerate();
        bits.fold(0, |found, (k, &address)| found | u32::from(address == sender) << k)
    }
}

/// The roster's own rules: how many are listed, their addresses and their total, or None where one is broken.
#[inline(always)]
fn roster(table: &Table) -> Option<(usize, [u32; 8], u32)> {
    let listed = table.listed as usize;
    if listed == 0 {
        if table.address != 0 || table.epoch != 0 || table.form != 0 {
            return None;
        }
    } else if listed > 8 || table.epoch >= 1 << 24 || table.form == 0 {
        return None;
    }
    let total = *TOTALS.get(table.form as usize)?;
    let mut addresses = [0; 8];
    let (mut sum, mut bad) = (0u32, false);
    for (k, customer) in table.customers.iter().enumerate() {
        if k < listed {
            bad |= customer.limit == 0 || customer.limit > total || customer.guarantee > customer.limit;
            sum = sum.wrapping_add(customer.guarantee);
            // Those past k are zero and are masked away.
            bad |= equal(&addresses, customer.address) & ((1 << k) - 1) != 0;
            addresses[k] = customer.address;
            // What is taken from 0 has all bits set, from 1 none.
            let numbers = (customer.epoch | customer.identifier) & customer.kept.wrapping_sub(1);
            bad |= numbers | customer.kept >> 1 | customer.epoch >> 24 != 0;
        } else {
            bad |= customer.address | customer.guarantee | customer.limit != 0;
            bad |= customer.kept | customer.epoch | customer.identifier != 0;
        }
    }
    (!bad && sum <= total).then_some((listed, addresses, total))
}

/// How many slots are used, or None where one outside the total is.
#[inline(always)]
fn used_slots(table: &Table, total: u32) -> Option<u32> {
    let (mut count, mut outside) = (0, 0);
    for (w, &bits) in table.occupied.iter().enumerate() {
        let inside = total.saturating_sub(32 * w as u32).min(32);
        outside |= (u64::from(bits) >> inside) as u32;
        count += bits.count_ones();
    }
    (outside == 0).then_some(count)
}

/// Bits that neither a connection nor a free place has, in the two halves of a place.
const EXCESS: (u64, u64) = (0xffff_0000_ffff_fffe, 0xffff_0000_0000_0000);

/// What a connection is known by. Keys are numbered by slot and place, then by customer and place.
#[inline(always)]
fn connection(table: &Table, key: usize) -> (u64, u64) {
    let n = key - 1;
    if n < 4 * CALLS {
        let call = &table.calls[n / 4];
        (call.pair(), call.places[n % 4].number())
    } else {
        let (customer, j) = (&table.customers[n / 4 - CALLS], n % 4);
        let pair = pair_of(customer.endpoints[j], customer.address);
        (pair, customer.places[j].number())
    }
}

/// All rules; None where one is broken.
#[inline(always)]
pub fn check(table: &Table) -> Option<Counts> {
    let (listed, addresses, total) = roster(table)?;
    match used_slots(table, total)? {
        0..=FEW => Pass::<2048, 256>::check(table, listed, &addresses, total),
        _ => Pass::<4096, 1024>::check(table, listed, &addresses, total),
    }
}

/// One pass over calls and connections, with so many chains for connections and for IDs: powers of two.
struct Pass<const HEADS: usize, const IDS: usize> {
    shorts: Chains<IDS, ID_KEYS>,
    longs: Chains<IDS, ID_KEYS>,
    connections: Chains<HEADS, CONNECTION_KEYS>,
    /// By customer, and those of none.
    calls: [u16; 9],
}

/// Bits put together over the whole table. They stand apart from the chains, so that they stay in registers.
#[derive(Default)]
struct Bits {
    /// What no rule allows.
    bad: u64,
    /// All marks and numbers of made calls.
    requests: u32,
    /// All bits of all places.
    low: u64,
    high: u64,
}

impl<const HEADS: usize, const IDS: usize> Pass<HEADS, IDS> {
    #[inline(never)]
    fn check(table: &Table, listed: usize, addresses: &[u32; 8], total: u32) -> Option<Counts> {
        let mut pass = Self {
            shorts: Chains::new(),
            longs: Chains::new(),
            connections: Chains::new(),
            calls: [0; 9],
        };
        let mut bits = Bits::default();
        let mask = (1u32 << listed) - 1;
        for (w, calls) in table.calls.chunks(64).enumerate() {
            let used = table.used(w);
            if used == 0 {
                bits.bad |= u64::from(!are_zeros(calls));
                continue;
            }
            for (i, call) in calls.iter().enumerate() {
                if used >> i & 1 == 0 {
                    bits.bad |= u64::from(!are_zeros(std::slice::from_ref(call)));
                } else {
                    bits.bad |= u64::from(call.refreshed > table.time);
                    pass.call(&mut bits, 64 * w + i, call, equal(addresses, call.sender) & mask)?;
                }
            }
        }
        pass.standalone(&mut bits, table, listed);
        let excess = bits.low & EXCESS.0 | bits.high & EXCESS.1;
        if bits.bad | excess != 0 || pass.calls[8] != 0 {
            return None;
        }
        let sum = share_sum(&table.customers[..listed], &pass.calls, total)?;
        if pass.twice(table) || bits.requests != 0 && !requests_hold(table) {
            return None;
        }
        let mut counted = [0; 8];
        counted.copy_from_slice(&pass.calls[..8]);
        Some(Counts { calls: counted, sum })
    }

    /// A used slot, and which customer's it is, a bit.
    #[inline(always)]
    fn call(&mut self, bits: &mut Bits, slot: usize, call: &Call, known: u32) -> Option<()> {
        let size = call.size as usize;
        if size.wrapping_sub(1) >= 32 || call.id.wrapping_sub(1) >= 0xffff {
            return None;
        }
        bits.requests |= call.epoch | call.identifier | call.made;
        bits.bad |= u64::from(call.name[size - 1] == 0);
        // SAFETY: all reads lie within the name or, the size being 1 to 32, within PAST.
        let name = unsafe {
            let (name, past) = (call.name.as_ptr(), PAST.as_ptr().add(32 - size));
            let words = [word(name, 0), word(name, 8), word(name, 16), word(name, 24)];
            bits.bad |= words[0] & word(past, 0) | words[1] & word(past, 8);
            bits.bad |= words[2] & word(past, 16) | words[3] & word(past, 24);
            words
        };
        self.calls[(known | 0x100).trailing_zeros() as usize] += 1;
        let base = mix(call.pair() ^ K0, K1);
        let short = (base ^ u64::from(call.id)).wrapping_mul(K2);
        let long = mix(name[0] ^ base, name[1] ^ K2) ^ mix(name[2] ^ K3 ^ size as u64, name[3] ^ base);
        // SAFETY: each slot is visited once.
        unsafe {
            self.shorts.put(short, slot + 1);
            self.longs.put(long.wrapping_mul(K0), slot + 1);
        }
        for (j, place) in call.places.iter().enumerate() {
            self.place(bits, place, base, 4 * slot + j + 1);
        }
        Some(())
    }

    /// A place, for which the pair was hashed.
    #[inline(always)]
    fn place(&mut self, bits: &mut Bits, place: &Place, base: u64, key: usize) {
        let (low, high) = place.halves();
        (bits.low, bits.high) = (bits.low | low, bits.high | high);
        if low as u32 != 0 {
            let hash = (place.number() ^ base).wrapping_mul(K3);
            // SAFETY: each place is visited once.
            unsafe { self.connections.put(hash, key) };
        } else {
            bits.bad |= low | high;
        }
    }

    /// The customers' places.
    #[inline(always)]
    fn standalone(&mut self, bits: &mut Bits, table: &Table, listed: usize) {
        for (k, customer) in table.customers.iter().enumerate() {
            for (j, place) in customer.places.iter().enumerate() {
                let (taken, endpoint) = (place.taken != 0, u64::from(customer.endpoints[j]));
                bits.bad |= if taken { u64::from(k >= listed) } else { endpoint };
                let base = mix(pair_of(customer.endpoints[j], customer.address) ^ K0, K1);
                self.place(bits, place, base, 4 * CALLS + 4 * k + j + 1);
            }
        }
    }

    /// Whether anything stands twice.
    #[inline(always)]
    fn twice(&self, table: &Table) -> bool {
        let calls = |a: usize, b: usize| (&table.calls[a - 1], &table.calls[b - 1]);
        let shorts = self.shorts.twice(4 * CALLS, |a, b| {
            let (one, other) = calls(a, b);
            one.id == other.id && one.pair() == other.pair()
        });
        let longs = self.longs.twice(4 * CALLS, |a, b| {
            let (one, other) = calls(a, b);
            one.size == other.size && one.pair() == other.pair() && one.name == other.name
        });
        let same = |a, b| connection(table, a) == connection(table, b);
        let connections = self.connections.twice(8 * CALLS, same);
        match (shorts, longs, connections) {
            (Some(short), Some(long), Some(connection)) => short | long | connection,
            _ => sorted_twice(table),
        }
    }
}

/// S; None where a customer is above its limit, or S above the total.
#[inline(always)]
fn share_sum(customers: &[Customer], calls: &[u16; 9], total: u32) -> Option<u32> {
    let mut sum = 0;
    for (customer, &count) in customers.iter().zip(calls) {
        let count = u32::from(count);
        if count > customer.limit {
            return None;
        }
        sum += count.max(customer.guarantee);
    }
    (sum <= total).then_some(sum)
}

/// Whether anything stands twice, by sorting: for tables whose keys were made to meet in few chains.
#[cold]
#[inline(never)]
fn sorted_twice(table: &Table) -> bool {
    let mut ids = [(0u64, 0u32); CALLS];
    let mut names = [(0u64, 0u32, [0u8; 32]); CALLS];
    let mut connections = [(0u64, 0u64); CONNECTION_KEYS];
    let (mut n, mut m) = (0, 0);
    for (i, call) in table.calls.iter().enumerate() {
        if !table.is_used(i) {
            continue;
        }
        ids[n] = (call.pair(), call.id);
        names[n] = (call.pair(), call.size, call.name);
        n += 1;
        for place in call.places.iter().filter(|place| place.taken != 0) {
            connections[m] = (call.pair(), place.number());
            m += 1;
        }
    }
    for customer in &table.customers {
        for (place, &endpoint) in customer.places.iter().zip(&customer.endpoints) {
            if place.taken != 0 {
                connections[m] = (pair_of(endpoint, customer.address), place.number());
                m += 1;
            }
        }
    }
    let (ids, names, connections) = (&mut ids[..n], &mut names[..n], &mut connections[..m]);
    ids.sort_unstable();
    names.sort_unstable();
    connections.sort_unstable();
    beside(ids) || beside(names) || beside(connections)
}

/// The rules of made calls, for a table that may have some: a mark is 0 or 1, an epoch has 24 bits, unmarked calls have
/// zeros there, and no two made calls of a pair share both numbers. Free slots are zeros.
#[cold]
#[inline(never)]
fn requests_hold(table: &Table) -> bool {
    let mut requests = [(0u64, 0u64); CALLS];
    let (mut n, mut bad) = (0, 0);
    for call in &table.calls {
        // What is taken from 0 has all bits set, from 1 none.
        let numbers = (call.epoch | call.identifier) & call.made.wrapping_sub(1);
        bad |= numbers | call.made >> 1 | call.epoch >> 24;
        if call.made != 0 {
            requests[n] = (call.pair(), u64::from(call.epoch) << 32 | u64::from(call.identifier));
            n += 1;
        }
    }
    let requests = &mut requests[..n];
    requests.sort_unstable();
    bad == 0 && !beside(requests)
}

fn beside<T: PartialEq>(sorted: &[T]) -> bool {
    sorted.windows(2).any(|two| two[0] == two[1])
}

#[cfg(test)]
mod tests {
    use super::*;
    use crate::{rules_hold, Words};

    /// The x with x * k = 1.
    fn inverse(k: u64) -> u64 {
        let mut x = k;
        for _ in 0..6 {
            x = x.wrapping_mul(2u64.wrapping_sub(k.wrapping_mul(x)));
        }
        x
    }

    /// A full table of one pair, of this form, whose connections all meet in one chain.
    fn all_meet(form: u32) -> Words {
        let total = TOTALS[form as usize];
        let mut words = [0; 6622];
        let table = Table::of_mut(&mut words);
        (table.address, table.epoch, table.next, table.listed, table.form) = (9, 7, 1, 1, form);
        (table.customers[0].address, table.customers[0].limit) = (5, total);
        for (i, call) in table.calls[..total as usize].iter_mut().enumerate() {
            table.occupied[i / 32] |= 1 << (i % 32);
            (call.endpoint, call.sender) = (6, 5);
            (call.id, call.size, call.name[0]) = (1 + i as u32, 1, 1 + i as u8);
            let base = mix(call.pair() ^ K0, K1);
            for (j, place) in call.places.iter_mut().enumerate() {
                let hash = 0x155 << 53 | (4 * i + j) as u64;
                let number = hash.wrapping_mul(inverse(K3)) ^ base;
                // What `number` puts together, taken apart.
                *place = Place::new(number as u16, (number >> 16) as u32, (number >> 48) as u16);
                assert_eq!(place.number(), number);
            }
        }
        words
    }

    #[test]
    fn tables_made_to_meet_are_sorted() {
        for form in [1, 2] {
            let (words, last) = (all_meet(form), TOTALS[form as usize] as usize - 1);
            let breaks = |change: &dyn Fn(&mut Table)| {
                let mut broken = words;
                change(Table::of_mut(&mut broken));
                !rules_hold(&broken)
            };
            assert!(!breaks(&|_| ()));
            assert!(breaks(&|table| table.calls[last].places[3] = table.calls[5].places[1]));
            assert!(breaks(&|table| table.calls[last].id = 1));
            assert!(breaks(&|table| table.calls[last].name[0] = 1));
        }
    }

    #[test]
    fn made_calls() {
        let breaks = |change: &dyn Fn(&mut Table)| {
            let mut broken = all_meet(2);
            let table = Table::of_mut(&mut broken);
            for call in &mut table.calls[..2] {
                (call.made, call.epoch) = (1, 7);
            }
            table.calls[1].identifier = 8;
            change(table);
            !rules_hold(&broken)
        };
        assert!(!breaks(&|_| ()));
        assert!(breaks(&|table| table.calls[0].identifier = 8));
        assert!(!breaks(
            &|table| (table.calls[0].endpoint, table.calls[0].identifier) = (7, 8)
        ));
        assert!(breaks(&|table| table.calls[0].made = 0));
        assert!(breaks(&|table| table.calls[0].made = 3));
        assert!(breaks(&|table| table.calls[0].epoch = 1 << 24));
        assert!(breaks(&|table| table.calls[2].identifier = 1));
        assert!(!breaks(&|table| table.calls[2].made = 1));
    }

    #[test]
    fn kept_identifiers() {
        let breaks = |customer: usize, fields: (u32, u32, u32)| {
            let mut words = all_meet(2);
            let record = &mut Table::of_mut(&mut words).customers[customer];
            (record.kept, record.epoch, record.identifier) = fields;
            !rules_hold(&words)
        };
        for kept in [(0, 0, 0), (1, 0, 0), (1, 0x00ff_ffff, u32::MAX)] {
            assert!(!breaks(0, kept));
            assert_eq!(breaks(1, kept), kept.0 == 1);
        }
        for broken in [(2, 0, 0), (u32::MAX, 0, 0), (0, 1, 0), (0, 0, 1), (1, 1 << 24, 0)] {
            assert!(breaks(0, broken) && breaks(1, broken) && breaks(7, broken));
        }
    }

    #[test]
    fn names_that_end_in_zero() {
        for size in 1..=32 {
            let mut words = all_meet(1);
            let call = &mut Table::of_mut(&mut words).calls[9];
            call.size = size as u32;
            call.name[..size].fill(b'n');
            assert!(rules_hold(&words));
            Table::of_mut(&mut words).calls[9].name[size - 1] = 0;
            assert!(!rules_hold(&words));
        }
    }
}
