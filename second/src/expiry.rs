//! A7: the node's time, and the calls that nobody refreshes.

use std::collections::BTreeMap;

use crate::keys::ShortId;
use crate::node::{Node, OpenCall};

/// A call is closed when it was not refreshed for this many of the caller's periods.
const PERIODS: u64 = 5;

/// What the caller hands in beside a message, both in seconds.
#[derive(Clone, Copy, PartialEq, Eq, Debug)]
pub struct Clock {
    pub time: u32,
    /// How often a call is to be refreshed. With 0 none is closed.
    pub period: u32,
}

/// A call that was closed before a message: its slot and its customer's address. The fields and their order are those
/// of chaffmoor.h.
#[repr(C)]
#[derive(Clone, Copy, PartialEq, Eq, Debug)]
pub struct Closing {
    pub slot: u32,
    pub address: u32,
}

impl Clock {
    /// Time 0 and period 0, which change nothing.
    pub const ZERO: Clock = Clock { time: 0, period: 0 };

    /// How long a call may go without a refresh; None where it may for ever.
    fn patience(self) -> Option<u64> {
        (self.period != 0).then(|| PERIODS * u64::from(self.period))
    }
}

impl Node {
    /// What comes before a message: the time is raised, and the calls that are due are closed, in slot order.
    pub(crate) fn elapse(&mut self, clock: Clock) -> Vec<Closing> {
        self.time = self.time.max(clock.time);
        let Some(patience) = clock.patience() else {
            return Vec::new();
        };
        let is_due = |call: &OpenCall| call.places.all_free() && self.age(call) >= patience;
        let due = self.calls.iter().filter(|call| is_due(call.1));
        let due: BTreeMap<usize, ShortId> = due.map(|(&short, call)| (call.slot, short)).collect();
        let mut closings = Vec::with_capacity(due.len());
        for (slot, short) in due {
            self.remove_call(short);
            closings.push(Closing {
                slot: slot as u32,
                address: short.0.sender,
            });
        }
        closings
    }

    /// Seconds since the call's last refresh, which does not lie after the time.
    fn age(&self, call: &OpenCall) -> u64 {
        u64::from(self.time - call.refreshed)
    }

    /// 21: an open call is refreshed.
    pub(crate) fn refresh(&mut self, short: ShortId) {
        let call = self.calls.get_mut(&short).expect("an open call");
        call.refreshed = self.time;
    }
}
