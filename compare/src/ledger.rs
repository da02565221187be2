//! The ledger behind demand 3 (01), a third time. It is fed the roster's bytes and each message with its answer, the
//! calls closed before it and what else the caller hands in, never the table, and says which sentence of demand 3 does
//! not hold. The IDs of a call that came without names it makes from its own entries (A6). Whether a call was due to be
//! closed it does not judge: it knows no connections (A7). Whether a Notify is late it reads from its list of those
//! before it (A8).

use crate::form::{self, Form, Request};
use crate::late::Numbers;
use crate::made::{self, Ids};
use second::{Clock, Closing};

struct Customer {
    address: u32,
    guarantee: usize,
    limit: usize,
    opened: usize,
    /// By 22, and before a message (A7).
    closed: usize,
    lapsed: usize,
}

struct Entry {
    endpoint: u32,
    sender: u32,
    short: u16,
    long: Vec<u8>,
    /// The two numbers of the nameless request that made it.
    made_by: Option<(u32, u32)>,
    /// The lowest that no other entry had when it was added (A7), or the one that it was restored in.
    slot: u32,
    /// For the situations only, nothing is due by them: the Name Length and the two numbers that it was opened with.
    size: usize,
    numbers: (u32, u32),
}

/// A call that a checkpoint's reading restored.
pub struct Restored {
    pub slot: u32,
    /// The ledger has no use for it.
    pub refreshed: u32,
    pub endpoint: u32,
    pub sender: u32,
    pub ids: Ids,
    pub made_by: Option<(u32, u32)>,
}

/// A Notify that it was fed, read as an open or a close, and its answer.
#[derive(Clone, Copy, Debug)]
pub struct Heard {
    pub sender: u32,
    pub numbers: Numbers,
    pub answer: u8,
}

impl Heard {
    /// A8: only these answers keep a MESSAGE_ID.
    pub fn is_accepted(&self) -> bool {
        (20..=34).contains(&self.answer)
    }
}

/// What the ledger is fed of a message.
pub struct Fed<'a> {
    pub message: &'a [u8],
    pub buffer: usize,
    pub clock: Clock,
    pub answer: u8,
    pub closings: &'a [Closing],
}

pub struct Ledger {
    /// The roster's.
    total: usize,
    customers: Vec<Customer>,
    addresses: Vec<u32>,
    entries: Vec<Entry>,
    /// The Notifies without a fault of form, in their order (A8).
    heard: Vec<Heard>,
    /// Made calls that were closed, by pair and numbers: for the situations only.
    gone: Vec<(u32, u32, (u32, u32))>,
}

/// What the ledger saw of one message.
#[derive(Clone, Debug, PartialEq, Eq)]
pub struct Seen {
    /// A setup of no fault of form: the answer that was due.
    pub due: Option<u8>,
    /// The setup's customer was below its guarantee.
    pub below: bool,
    /// It was at its limit.
    pub at_limit: bool,
    /// No room was left.
    pub no_room: bool,
    /// A setup due 20 or 21: the slot of its call.
    pub slot: Option<u32>,
    /// A Notify of no fault of form whose long ID the pair has open: the Name Lengths of that open and of this one.
    pub sizes: Option<(usize, usize)>,
    /// A nameless setup: the IDs that its reply carries. They are its call's, and empty where 34 is due.
    pub ids: Option<Ids>,
    /// A nameless setup with the two numbers that a call of the pair was opened with by name.
    pub named_before: bool,
    /// A nameless setup whose call was closed.
    pub closed_before: bool,
    /// A nameless setup whose IDs pass over a made name that was opened by name with padding.
    pub past_padding: bool,
}

const NOTHING: Seen = Seen {
    due: None,
    below: false,
    at_limit: false,
    no_room: false,
    slot: None,
    sizes: None,
    ids: None,
    named_before: false,
    closed_before: false,
    past_padding: false,
};

impl Customer {
    /// Nothing opened yet.
    fn of(one: form::Customer) -> Customer {
        Customer {
            address: one.address,
            guarantee: one.guarantee,
            limit: one.limit,
            opened: 0,
            closed: 0,
            lapsed: 0,
        }
    }
}

impl Entry {
    /// The entry of a setup that names its call.
    fn named(request: &Request, slot: u32) -> Entry {
        Entry {
            slot,
            endpoint: request.endpoint,
            sender: request.sender,
            short: request.short,
            long: request.long.to_vec(),
            made_by: None,
            size: request.size,
            numbers: request.numbers,
        }
    }

    /// The entry of a nameless one, whose IDs were made.
    fn made(request: &Request, slot: u32, ids: Ids) -> Entry {
        Entry {
            size: ids.long.len(),
            short: ids.short,
            long: ids.long,
            made_by: Some(request.numbers),
            ..Entry::named(request, slot)
        }
    }

    fn restored(call: Restored) -> Entry {
        Entry {
            slot: call.slot,
            endpoint: call.endpoint,
            sender: call.sender,
            size: call.ids.long.len(),
            short: call.ids.short,
            long: call.ids.long,
            made_by: call.made_by,
            numbers: call.made_by.unwrap_or_default(),
        }
    }

    /// The call that the request names; for a nameless one, the call that it made.
    fn is_call(&self, request: &Request) -> bool {
        let is_it = match request.is_nameless() {
            true => self.made_by == Some(request.numbers),
            false => self.short == request.short && self.long == request.long,
        };
        self.of_pair(request) && is_it
    }

    fn ids(&self) -> Ids {
        let (short, long) = (self.short, self.long.clone());
        Ids { short, long }
    }

    fn of_pair(&self, request: &Request) -> bool {
        self.endpoint == request.endpoint && self.sender == request.sender
    }
}

impl Ledger {
    /// The ledger of an accepted roster.
    pub fn new(roster: &[u8]) -> Ledger {
        let (total, customers) = form::accepted(roster);
        let customers: Vec<Customer> = customers.into_iter().map(Customer::of).collect();
        Ledger {
            total,
            addresses: customers.iter().map(|customer| customer.address).collect(),
            customers,
            entries: Vec::new(),
            heard: Vec::new(),
            gone: Vec::new(),
        }
    }

    /// The ledger of a checkpoint's reading under an accepted roster: what was restored counts as opened (A13).
    pub fn restored(roster: &[u8], calls: impl IntoIterator<Item = Restored>) -> Ledger {
        let mut ledger = Ledger::new(roster);
        ledger.entries = calls.into_iter().map(Entry::restored).collect();
        for customer in &mut ledger.customers {
            let own = ledger.entries.iter().filter(|entry| entry.sender == customer.address);
            customer.opened = own.count();
        }
        ledger
    }

    /// Takes in a message and its answer, and checks what demand 3 says of them. The closings come first.
    pub fn feed(&mut self, fed: &Fed) -> Result<Seen, String> {
        let answer = fed.answer;
        if answer == 1 {
            return Err("answer 1 to a table that only the program changed".into());
        }
        self.drop_closed(fed)?;
        let form = form::read(fed.message, fed.buffer, &self.addresses, |sender| self.last(sender));
        let mut seen = self.check_setup(&form, answer)?;
        if let Form::Notify(request) = &form {
            seen.sizes = self.sizes(request);
            self.heard.push(Heard {
                sender: request.sender,
                numbers: request.numbers,
                answer,
            });
        }
        self.book(&form, answer, &seen)?;
        self.check_counts()?;
        Ok(seen)
    }

    /// A8: the MESSAGE_ID of the latest Notify of this sender that was answered 20 to 34.
    fn last(&self, sender: u32) -> Option<Numbers> {
        let mut latest_first = self.heard.iter().rev();
        let last = latest_first.find(|one| one.sender == sender && one.is_accepted());
        last.map(|one| one.numbers)
    }

    /// The Notifies so far that had no fault of form.
    pub fn heard(&self) -> &[Heard] {
        &self.heard
    }

    /// Drops the entries whose slots are listed. Each slot is that of one entry, whose sender is the address beside it;
    /// slots rise; none is listed with answer 2, or with a period of 0.
    fn drop_closed(&mut self, fed: &Fed) -> Result<(), String> {
        let closings = fed.closings;
        if !closings.is_empty() && (fed.answer == 2 || fed.clock.period == 0) {
            return Err(format!("closings with answer {}, {:?}", fed.answer, fed.clock));
        }
        if closings.windows(2).any(|two| two[0].slot >= two[1].slot) {
            return Err("closings whose slots do not rise".into());
        }
        for closing in closings {
            let of_slot: Vec<&Entry> = self.entries.iter().filter(|one| one.slot == closing.slot).collect();
            let [entry] = of_slot[..] else {
                return Err(format!("{closing:x?}: {} entries have that slot", of_slot.len()));
            };
            if entry.sender != closing.address {
                return Err(format!("{closing:x?}: the sender is {:x}", entry.sender));
            }
            let gone = entry.made_by.map(|numbers| (entry.endpoint, entry.sender, numbers));
            self.gone.extend(gone);
            self.entries.retain(|one| one.slot != closing.slot);
            let customer = self.customers.iter_mut().find(|one| one.address == closing.address);
            customer.ok_or("a call of a sender that is not listed")?.lapsed += 1;
        }
        Ok(())
    }

    /// The lowest slot that no entry has.
    fn lowest_free(&self) -> u32 {
        let is_free = |slot: &u32| self.entries.iter().all(|entry| entry.slot != *slot);
        (0..).find(is_free).expect("few are in use")
    }

    /// A fault of form is answered by its number, a setup without one by what is due.
    fn check_setup(&self, form: &Form, answer: u8) -> Result<Seen, String> {
        let seen = match form {
            Form::Fault(fault) if *fault != answer => {
                return Err(format!("fault of form {fault} answered {answer}"));
            }
            Form::Notify(request) if !request.closes => self.due(request),
            _ => NOTHING,
        };
        match seen.due {
            Some(due) if due != answer => Err(format!("setup due {due} answered {answer}")),
            _ => Ok(seen),
        }
    }

    fn sizes(&self, request: &Request) -> Option<(usize, usize)> {
        let is_named = |entry: &&Entry| entry.of_pair(request) && entry.long == request.long;
        let opened = self.entries.iter().find(is_named)?;
        Some((opened.size, request.size))
    }

    /// What the ledger as it is makes due to a setup of no fault of form.
    fn due(&self, setup: &Request) -> Seen {
        let customer = self.customers.iter().find(|one| one.address == setup.sender);
        let customer = customer.expect("a setup of no fault of form comes from a listed sender");
        let count = self.count(customer.address);
        let below = count < customer.guarantee;
        let at_limit = count == customer.limit;
        let no_room = self.taken() == self.total;
        let mut of_pair = self.entries.iter().filter(|entry| entry.of_pair(setup));
        // Neither ID of a nameless setup counts as in use: no entry's is empty.
        let due = if of_pair.clone().any(|entry| entry.is_call(setup)) {
            21
        } else if of_pair.clone().any(|entry| entry.long == setup.long) {
            31
        } else if of_pair.any(|entry| entry.short == setup.short) {
            30
        } else if below || !(at_limit || no_room) {
            20
        } else {
            34
        };
        let open = self.entries.iter().find(|entry| entry.is_call(setup));
        let slot = match due {
            20 => Some(self.lowest_free()),
            21 => open.map(|entry| entry.slot),
            _ => None,
        };
        Seen {
            due: Some(due),
            slot,
            below,
            at_limit,
            no_room,
            ..self.nameless(setup, due)
        }
    }

    /// What is to be seen of a nameless setup only.
    fn nameless(&self, setup: &Request, due: u8) -> Seen {
        if !setup.is_nameless() {
            return NOTHING;
        }
        let mut of_pair = self.entries.iter().filter(|entry| entry.of_pair(setup));
        let by_name = |entry: &Entry| entry.made_by.is_none() && entry.numbers == setup.numbers;
        let gone = (setup.endpoint, setup.sender, setup.numbers);
        let ids = match due {
            21 => of_pair.clone().find(|entry| entry.is_call(setup)).map(Entry::ids),
            20 => Some(self.make(setup)),
            _ => Some(Ids::default()),
        };
        let below = |number: u16| ids.as_ref().is_some_and(|ids| number < ids.short);
        let is_padded = |entry: &Entry| {
            let number = made::number_of(entry.endpoint, entry.sender, &entry.long);
            entry.size > entry.long.len() && number.is_some_and(below)
        };
        Seen {
            past_padding: of_pair.clone().any(is_padded),
            named_before: of_pair.any(by_name),
            closed_before: self.gone.contains(&gone),
            ids,
            ..NOTHING
        }
    }

    /// The least short ID from 1 such that neither it nor the name made of it is in use by the pair.
    fn make(&self, setup: &Request) -> Ids {
        let of_pair: Vec<&Entry> = self.entries.iter().filter(|entry| entry.of_pair(setup)).collect();
        let ids = (1..).map(|short| Ids {
            short,
            long: made::name(setup.endpoint, setup.sender, short),
        });
        let is_unused = |ids: &Ids| of_pair.iter().all(|one| one.short != ids.short && one.long != ids.long);
        ids.into_iter().find(is_unused).expect("few are in use")
    }

    /// 20 adds an entry, with the IDs seen if they were made; 22 takes one out.
    fn book(&mut self, form: &Form, answer: u8, seen: &Seen) -> Result<(), String> {
        if answer != 20 && answer != 22 {
            return Ok(());
        }
        let Form::Notify(request) = form else {
            return Err(format!("answer {answer} to what is no Notify of good form"));
        };
        let customer = self.customers.iter_mut().find(|one| one.address == request.sender);
        let customer = customer.ok_or("a call of a sender that is not listed")?;
        if answer == 20 {
            customer.opened += 1;
            let slot = seen.slot.ok_or("a call that was not due")?;
            self.entries.push(match seen.ids.clone() {
                Some(ids) => Entry::made(request, slot, ids),
                None => Entry::named(request, slot),
            });
        } else {
            customer.closed += 1;
            let closed = self.entries.iter().find(|entry| entry.is_call(request));
            let numbers = closed.and_then(|entry| entry.made_by);
            self.gone
                .extend(numbers.map(|numbers| (request.endpoint, request.sender, numbers)));
            self.entries.retain(|entry| !entry.is_call(request));
        }
        Ok(())
    }

    fn check_counts(&self) -> Result<(), String> {
        for customer in &self.customers {
            let (count, address) = (self.count(customer.address), customer.address);
            if customer.opened != count + customer.closed + customer.lapsed {
                return Err(format!("{address:08x}: opened is not count plus closed and lapsed"));
            }
            if count > customer.limit {
                return Err(format!("{address:08x}: count {count} above the limit"));
            }
        }
        match self.taken() {
            taken if taken > self.total => Err(format!("S is {taken}")),
            _ => Ok(()),
        }
    }

    fn count(&self, sender: u32) -> usize {
        self.entries.iter().filter(|entry| entry.sender == sender).count()
    }

    /// S: the sum of the larger of count and guarantee.
    pub fn taken(&self) -> usize {
        let larger = |one: &Customer| self.count(one.address).max(one.guarantee);
        self.customers.iter().map(larger).sum()
    }

    /// How many calls are open.
    pub fn calls(&self) -> usize {
        self.entries.len()
    }
}

#[cfg(test)]
mod tests {
    use super::*;
    use crate::build::{close, close_numbered, nameless, open, open_numbered, path, Connection, Record, Roster};

    const X: u32 = 0x0a00_0001;
    const Y: u32 = 0x0a00_0003;

    /// 01's two customers: X 1 of 2, Y 62 of 64.
    fn two() -> Ledger {
        two_of(1, 62, 64)
    }

    /// The same in any form, with other numbers of Y's.
    fn two_of(form: u8, guarantee: u8, limit: u8) -> Ledger {
        let record = |address, guarantee, limit| Record {
            address,
            guarantee,
            limit,
            spare: 0,
        };
        let roster = Roster {
            form,
            address: 0x0a00_0002,
            epoch: 7,
            records: vec![record(X, 1, 2), record(Y, guarantee, limit)],
        };
        Ledger::new(&roster.bytes())
    }

    /// Feeds it and says whether it was content.
    fn feeds(ledger: &mut Ledger, message: &[u8], answer: u8) -> bool {
        fed(ledger, message, answer).is_ok()
    }

    fn fed(ledger: &mut Ledger, message: &[u8], answer: u8) -> Result<Seen, String> {
        ledger.feed(&with(&[], message, answer))
    }

    /// What it is fed, with a buffer that is enough.
    fn with<'a>(closings: &'a [Closing], message: &'a [u8], answer: u8) -> Fed<'a> {
        Fed {
            message,
            buffer: 128,
            clock: Clock { time: 9, period: 1 },
            answer,
            closings,
        }
    }

    /// Feeds it a cut message, which is refused 3, behind closings by slot and address.
    fn lapses(ledger: &mut Ledger, closings: &[(u32, u32)]) -> bool {
        let closings = closings.iter().map(|&(slot, address)| Closing { slot, address });
        let closings: Vec<Closing> = closings.collect();
        ledger.feed(&with(&closings, &[], 3)).is_ok()
    }

    /// X has calls in slots 0 and 1, Y in 2.
    fn three() -> Ledger {
        let mut ledger = two();
        assert!(feeds(&mut ledger, &open(9, X, 1, b"a"), 20));
        assert!(feeds(&mut ledger, &open(9, X, 2, b"b"), 20));
        assert!(feeds(&mut ledger, &nameless(9, Y, (3, 4)), 20));
        ledger
    }

    /// A7: each slot listed is that of one entry, of the customer listed; slots rise.
    #[test]
    fn closings_by_slot() {
        assert!(lapses(&mut three(), &[(0, X), (1, X), (2, Y)]));
        assert!(lapses(&mut three(), &[(1, X)]));
        for wrong in [
            &[(3, Y)][..],
            &[(1, Y)],
            &[(2, X)],
            &[(1, X), (0, X)],
            &[(0, X), (0, X)],
        ] {
            assert!(!lapses(&mut three(), wrong), "{wrong:x?}");
        }
        // Once only.
        let mut ledger = three();
        assert!(lapses(&mut ledger, &[(0, X)]) && !lapses(&mut ledger, &[(0, X)]));
    }

    #[test]
    fn no_closings_with_answer_2_or_period_0() {
        let closings = [Closing { slot: 0, address: X }];
        let cut = with(&closings, &[], 3);
        assert!(three()
            .feed(&Fed {
                clock: Clock::ZERO,
                ..cut
            })
            .is_err());
        let (cut, short) = (with(&closings, &[], 2), with(&[], &[], 2));
        assert!(three().feed(&Fed { buffer: 127, ..cut }).is_err());
        assert!(three().feed(&Fed { buffer: 127, ..short }).is_ok());
    }

    /// The message is looked at behind the closings: IDs, share, slots.
    #[test]
    fn closings_come_first() {
        let closings = [Closing { slot: 0, address: X }];
        for (message, before, due) in [
            (open(9, X, 1, b"a"), 21, 20),
            (open(9, X, 1, b"c"), 30, 20),
            (open(9, X, 3, b"a"), 31, 20),
            (open(9, X, 3, b"c"), 34, 20),
            (open(9, X, 2, b"b"), 21, 21),
        ] {
            assert!(feeds(&mut three(), &message, before));
            for answer in [20, 21, 30, 31, 34] {
                let seen = three().feed(&with(&closings, &message, answer));
                assert_eq!(seen.is_ok(), answer == due);
                assert!(seen.is_err() || seen.map(|seen| seen.slot) == Ok(Some((due == 21).into())));
            }
        }
        // The lowest free slot is taken again; a close of what lapsed is not due.
        let mut ledger = three();
        assert!(lapses(&mut ledger, &[(1, X)]));
        assert!(!feeds(&mut ledger, &close(9, X, 2, b"b"), 22));
        let mut ledger = three();
        assert!(lapses(&mut ledger, &[(1, X), (2, Y)]));
        assert_eq!(
            fed(&mut ledger, &nameless(9, Y, (3, 4)), 20).map(|seen| seen.slot),
            Ok(Some(1))
        );
        assert!(lapses(&mut ledger, &[(0, X), (1, Y)]) && ledger.calls() == 0);
    }

    /// A8, from the list: the same epoch, behind the last of that sender that was answered 20 to 34.
    #[test]
    fn late_messages() {
        let open = |numbers| open_numbered(9, X, 1, b"a", numbers);
        let close = |numbers| close_numbered(9, X, 1, b"a", numbers);
        let mut ledger = two();
        assert!(feeds(&mut ledger, &open((3, 7)), 20));
        for answer in [22, 32, 33] {
            assert!(!feeds(&mut ledger, &close((3, 6)), answer));
        }
        for (message, answer) in [
            (close((3, 6)), 16),
            (close_numbered(9, X, 0, b"a", (3, 6)), 13),
            (close_numbered(9, 5, 1, b"a", (3, 6)), 11),
            // Another customer's is no matter of X's.
            (open_numbered(9, Y, 1, b"a", (3, 9)), 20),
            (open((3, 7)), 21),
            // 2^31 is not behind, in either direction.
            (open_numbered(9, X, 1, b"b", (3, 7 + (1 << 31))), 30),
            (open((3, 7)), 21),
            (close_numbered(9, X, 2, b"c", (4, 1)), 33),
            (close((4, 0)), 16),
            (close((4, u32::MAX)), 16),
            (close((3, 0)), 22),
            (nameless(9, X, (3, u32::MAX)), 16),
        ] {
            assert!(feeds(&mut ledger, &message, answer));
        }
        for answer in [13, 20, 21, 30, 31, 34] {
            assert!(!feeds(&mut ledger, &nameless(9, X, (3, u32::MAX)), answer));
        }
        // Not late, and called so to get out of opening it.
        for message in [nameless(9, X, (3, 0)), open((3, 1)), open((2, 0)), open((3, 1 << 31))] {
            assert!(!feeds(&mut ledger, &message, 16));
        }
    }

    /// Only the one answer that is due passes, in every state of 01's example.
    #[test]
    fn only_what_is_due_passes() {
        let steps: [(Vec<u8>, u8); 8] = [
            (open(9, X, 1, b"a"), 20),
            (open(9, X, 1, b"a"), 21),
            (open(9, X, 2, b"a"), 31),
            (open(9, X, 1, b"b"), 30),
            (open(9, X, 2, b"b"), 20),
            (open(9, X, 2, b"a"), 31),
            (open(9, X, 3, b"c"), 34),
            (open(9, Y, 1, b"a"), 20),
        ];
        for (step, (message, due)) in steps.iter().enumerate() {
            for answer in (0..=46).filter(|answer| answer != due) {
                let mut ledger = two();
                for (message, answer) in &steps[..step] {
                    assert!(feeds(&mut ledger, message, *answer));
                }
                assert!(!feeds(&mut ledger, message, answer), "step {step}: {answer}");
            }
        }
    }

    #[test]
    fn no_room_and_room_again() {
        let mut ledger = two();
        assert!(feeds(&mut ledger, &open(9, X, 1, b"a"), 20) && ledger.taken() == 63);
        assert!(feeds(&mut ledger, &open(9, X, 2, b"b"), 20) && ledger.taken() == 64);
        for id in 1..=62 {
            assert!(feeds(&mut ledger, &open(9, Y, id, &[id as u8]), 20));
        }
        assert!(feeds(&mut ledger, &open(9, Y, 63, &[63]), 34));
        assert!(feeds(&mut ledger, &close(9, X, 1, b"a"), 22));
        assert!(!feeds(&mut ledger, &open(9, Y, 63, &[63]), 34));
    }

    /// A11: the same with a total of 200, and the numbers of form 1 in form 2.
    #[test]
    fn no_room_in_form_2() {
        let mut ledger = two_of(2, 198, 200);
        assert_eq!(ledger.taken(), 199);
        assert!(feeds(&mut ledger, &open(9, X, 1, b"a"), 20) && feeds(&mut ledger, &open(9, X, 2, b"b"), 20));
        for id in 1..=198 {
            assert!(feeds(&mut ledger, &open(9, Y, id, &[id as u8]), 20));
        }
        assert!(ledger.taken() == 200 && !feeds(&mut ledger, &open(9, Y, 199, &[199]), 20));
        assert!(feeds(&mut ledger, &open(9, Y, 199, &[199]), 34));
        let mut ledger = two_of(2, 62, 64);
        assert!(feeds(&mut ledger, &open(9, X, 1, b"a"), 20) && feeds(&mut ledger, &open(9, X, 2, b"b"), 20));
        for id in 1..=64 {
            assert!(feeds(&mut ledger, &open(9, Y, id, &[id as u8]), 20));
        }
        assert!(!feeds(&mut ledger, &open(9, Y, 65, &[65]), 20));
    }

    #[test]
    fn closing_what_is_not_open() {
        assert!(!feeds(&mut two(), &close(9, X, 1, b"a"), 22));
        assert!(feeds(&mut two(), &close(9, X, 1, b"a"), 33));
    }

    /// A1, by 02's words: zeros at the end are no part of a name, and others are.
    #[test]
    fn padding() {
        let mut ledger = two();
        assert!(feeds(&mut ledger, &open(9, X, 1, b"a\0\0"), 20));
        for name in [&b"a"[..], b"a\0", b"a\0\0\0\0"] {
            assert!(feeds(&mut ledger, &open(9, X, 1, name), 21));
            assert!(feeds(&mut ledger, &open(9, X, 2, name), 31));
        }
        for name in [&b"a\0b"[..], b"\0a"] {
            assert!(feeds(&mut ledger, &open(9, X, 1, name), 30));
            assert!(feeds(&mut ledger, &open(9, X, 2, name), 20));
            assert!(feeds(&mut ledger, &close(9, X, 2, &[name, b"\0"].concat()), 22));
        }
        let seen = fed(&mut ledger, &open(9, X, 1, b"a"), 21);
        assert_eq!(seen.map(|seen| seen.sizes), Ok(Some((3, 1))));
        assert!(feeds(&mut ledger, &close(9, X, 1, b"a\0"), 22) && ledger.calls() == 0);
    }

    #[test]
    fn setups_without_names() {
        let mut ledger = two_of(2, 100, 200);
        let mut made = |message: &[u8], answer: u8| {
            let seen = fed(&mut ledger, message, answer).expect("what is due");
            seen.ids.map(|ids| (ids.short, ids.long))
        };
        let one = b"0a000003000000090001".to_vec();
        assert_eq!(made(&nameless(9, Y, (3, 4)), 20), Some((1, one.clone())));
        assert_eq!(made(&nameless(9, Y, (3, 4)), 21), Some((1, one.clone())));
        assert_eq!(made(&open(9, Y, 5, b"0a000003000000090002"), 20), None);
        assert_eq!(made(&open(9, Y, 3, b"three"), 20), None);
        assert_eq!(made(&nameless(9, Y, (4, 3)), 20).map(|ids| ids.0), Some(4));
        assert_eq!(made(&nameless(9, X, (3, 4)), 20).map(|ids| ids.0), Some(1));
        assert_eq!(made(&nameless(8, Y, (3, 4)), 20).map(|ids| ids.0), Some(1));
        assert_eq!(made(&open(9, Y, 1, &one), 21), None);
        assert_eq!(made(&close(9, Y, 1, &one), 22), None);
        assert_eq!(made(&nameless(9, Y, (3, 4)), 20).map(|ids| ids.0), Some(1));
        assert_eq!(made(&close(9, Y, 0, b""), 13), None);
        assert_eq!(made(&open(9, Y, 0, &[0; 4]), 13), None);
    }

    #[test]
    fn a_nameless_setup_is_never_30_or_31() {
        for answer in [13, 21, 30, 31, 34] {
            assert!(!feeds(&mut two(), &nameless(9, X, (0, 0)), answer));
        }
        let mut ledger = two();
        assert!(feeds(&mut ledger, &open(9, X, 1, b"a"), 20));
        assert!(feeds(&mut ledger, &nameless(9, X, (0, 0)), 20));
        assert!(feeds(&mut ledger, &nameless(9, X, (0, 0)), 21));
        assert!(feeds(&mut ledger, &nameless(9, X, (0, 1)), 34));
    }

    #[test]
    fn restored_calls_count_as_opened() {
        let roster = Roster {
            form: 1,
            address: 0x0a00_0002,
            epoch: 7,
            records: vec![Record {
                address: X,
                guarantee: 0,
                limit: 2,
                spare: 0,
            }],
        };
        let call = |short: u16, long: &[u8], made_by| Restored {
            slot: short.into(),
            refreshed: 0,
            endpoint: 9,
            sender: X,
            ids: Ids {
                short,
                long: long.to_vec(),
            },
            made_by,
        };
        let calls = [call(7, b"n", Some((1, 2))), call(1, b"m", None)];
        let mut ledger = Ledger::restored(&roster.bytes(), calls);
        let seen = fed(&mut ledger, &nameless(9, X, (1, 2)), 21).expect("what is due");
        let long = b"n".to_vec();
        assert_eq!(seen.ids, Some(Ids { short: 7, long }));
        assert!(feeds(&mut ledger, &nameless(9, X, (0, 0)), 34));
        assert!(feeds(&mut ledger, &close(9, X, 7, b"n"), 22));
        assert!(feeds(&mut ledger, &nameless(9, X, (1, 2)), 20));
    }

    #[test]
    fn names_of_zeros_only() {
        for size in 1..=33 {
            assert!(feeds(&mut two(), &open(9, X, 1, &vec![0; size]), 13));
            assert!(feeds(&mut two(), &close(9, X, 1, &vec![0; size]), 13));
        }
        let mut name = [0; 33];
        name[0] = b'a';
        assert!(feeds(&mut two(), &open(9, X, 1, &name), 13));
        assert!(feeds(&mut two(), &open(9, X, 1, &name[..32]), 20));
    }

    #[test]
    fn faults_of_form() {
        let setup = open(9, X, 1, b"a");
        for (answer, passes) in [(2, true), (20, false)] {
            let fed = with(&[], &setup, answer);
            assert_eq!(two().feed(&Fed { buffer: 127, ..fed }).is_ok(), passes);
        }
        assert!(feeds(&mut two(), &open(9, 5, 1, b"a"), 11));
        assert!(feeds(&mut two(), &open(9, X, 0, b"a"), 13));
        assert!(feeds(&mut two(), &open(9, X, 1, &[b'n'; 33]), 13));
        assert!(!feeds(&mut two(), &open(9, X, 1, &[b'n'; 32]), 13));
        assert!(feeds(&mut two(), &setup[..40], 3));
    }

    /// Answers 1, and 20 or 22 to what is no request, never pass.
    #[test]
    fn never() {
        let connection = Connection {
            endpoint: 9,
            tunnel: 1,
            extended: 1,
            sender: X,
            lsp: 1,
        };
        let path = path(connection, 1);
        assert!(feeds(&mut two(), &path, 35));
        for answer in [1, 20, 22] {
            assert!(!feeds(&mut two(), &path, answer));
        }
    }
}
