//! The yardstick: a tuned program that does the whole job of `chaffmoor_handle` for each message, every table rule over
//! the whole table, reading, answering, changing the table in place, writing the reply. Nothing here is proved, and
//! nothing of the node uses it. The benchmark measures the proved program beside it (`bench/run peer`), and the
//! comparison hands it every message too, so that it is known to do the same job.

mod expiry;
mod message;
mod node;
mod rules;
mod table;

use expiry::Clock;
use table::Table;

/// A table as its words.
pub type Words = [u32; 6622];

/// Calls that were closed before a message: slot and address of each.
pub type Closings = [[u32; 2]; table::CALLS];

/// What a message gets.
#[derive(Clone, Copy, PartialEq, Eq, Debug)]
pub struct Done {
    pub answer: u8,
    /// The reply's, or 0.
    pub length: usize,
    /// How many of the closings were written.
    pub closed: usize,
}

/// Handles a message at the caller's time and period. The table is changed in place.
#[inline(never)]
pub fn handle(
    table: &mut Words,
    message: &[u8],
    reply: &mut [u8],
    time: u32,
    period: u32,
    closings: &mut Closings,
) -> Done {
    node::handle(Table::of_mut(table), message, reply, Clock { time, period }, closings)
}

/// Whether the table keeps every rule.
#[inline(never)]
pub fn rules_hold(table: &Words) -> bool {
    rules::check(Table::of(table)).is_some()
}

/// The fault of form that the bytes alone show, 0 where there is none.
#[inline(never)]
pub fn read_number(message: &[u8]) -> u8 {
    match message::read(message) {
        message::Read::Fault(answer) | message::Read::Unfit(answer, _) => answer,
        message::Read::Message(..) => 0,
    }
}
