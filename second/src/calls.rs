//! 01, "Every answer" and "Share": opening and closing calls; A6, calls that arrive without names.

use crate::keys::{CallIds, MessageId, Name, Pair, ShortId};
use crate::message::CallRequest;
use crate::node::{Node, OpenCall};
use crate::places::Places;

impl Node {
    /// Open: 21, 31, 30, 34, 20.
    pub(crate) fn open(&mut self, request: &CallRequest<'_>, customer: usize) -> u8 {
        let name = Name::new(request.name);
        let (short, long) = ((request.pair, request.id), (request.pair, name));
        match self.long_ids.get(&long) {
            Some(&id) if id == request.id => {
                self.refresh(short);
                return 21;
            }
            Some(_) => return 31,
            None => {}
        }
        if self.calls.contains_key(&short) {
            return 30;
        }
        if self.roster.share_is_used(customer) {
            return 34;
        }
        self.add_call(request.pair, CallIds { id: request.id, name }, None, customer);
        20
    }

    /// A6, an open without names: 21 by its two numbers, 34, 20. With 20 and 21 the call's IDs, to be sent.
    pub(crate) fn open_nameless(&mut self, request: &CallRequest<'_>, customer: usize) -> (u8, Option<CallIds>) {
        let (pair, made_by) = (request.pair, request.numbers());
        if let Some(&id) = self.made.get(&(pair, made_by)) {
            self.refresh((pair, id));
            let name = self.calls[&(pair, id)].name;
            return (21, Some(CallIds { id, name }));
        }
        if self.roster.share_is_used(customer) {
            return (34, None);
        }
        let ids = self.unused_ids(pair);
        self.add_call(pair, ids, Some(made_by), customer);
        (20, Some(ids))
    }

    /// A6: the least short ID from 1 such that neither it nor its name is in use by the pair.
    fn unused_ids(&self, pair: Pair) -> CallIds {
        let unused =
            |ids: &CallIds| !self.calls.contains_key(&(pair, ids.id)) && !self.long_ids.contains_key(&(pair, ids.name));
        let mut made = (1..=u16::MAX).map(|id| CallIds::made_of(pair, id));
        made.find(unused).expect("200 calls are in the way of 400 numbers")
    }

    /// A call that share allows, with IDs that its pair does not use.
    fn add_call(&mut self, pair: Pair, ids: CallIds, made_by: Option<MessageId>, customer: usize) {
        // Calls are at most S. Either S is under the total, or this customer is under its guarantee and calls are
        // under S.
        let slot = self.free.take_lowest().expect("share leaves a free slot");
        let call = OpenCall {
            slot,
            name: ids.name,
            made_by,
            refreshed: self.time,
            places: Places::default(),
        };
        self.enter(pair, ids.id, call);
        self.roster.accounts[customer].open += 1;
    }

    /// Puts a call into the maps. False where its pair had one with its short ID, its long ID or its two numbers.
    pub(crate) fn enter(&mut self, pair: Pair, id: u16, call: OpenCall) -> bool {
        let (name, made_by) = (call.name, call.made_by);
        let id_twice = self.calls.insert((pair, id), call).is_some();
        let name_twice = self.long_ids.insert((pair, name), id).is_some();
        let request_twice = made_by.is_some_and(|request| self.made.insert((pair, request), id).is_some());
        !id_twice && !name_twice && !request_twice
    }

    /// Close: 33, 32, 22.
    pub(crate) fn close(&mut self, request: &CallRequest<'_>) -> u8 {
        let (short, long) = ((request.pair, request.id), (request.pair, Name::new(request.name)));
        if self.long_ids.get(&long) != Some(&request.id) {
            return 33;
        }
        if !self.calls[&short].places.all_free() {
            return 32;
        }
        self.remove_call(short);
        22
    }

    /// Takes an open call without connections out of the maps, and frees its slot.
    pub(crate) fn remove_call(&mut self, short: ShortId) {
        let pair = short.0;
        let call = self.calls.remove(&short).expect("an open call");
        self.long_ids.remove(&(pair, call.name));
        if let Some(made_by) = call.made_by {
            self.made.remove(&(pair, made_by));
        }
        self.free.release(call.slot);
        let customer = self.roster.find(pair.sender).expect("a call's sender is listed");
        self.roster.accounts[customer].open -= 1;
    }
}
