//! 01, "What the node does" and the order of "Every answer".

use std::collections::HashMap;

use crate::expiry::{Clock, Closing};
use crate::keys::{Connection, LongId, MessageId, Name, PairRequest, ShortId};
use crate::message::{read, CallRequest, Message};
use crate::places::Places;
use crate::reply::{self, Outcome, Own};
use crate::roster::Roster;
use crate::slots::Slots;
use crate::table::Table;

/// What the node knows, in maps and sets.
#[derive(Clone, Debug)]
pub struct Node {
    pub(crate) address: u32,
    pub(crate) epoch: u32,
    /// The identifier that the next Notify carries.
    pub(crate) next: u32,
    /// In seconds: the latest that was handed in (A7).
    pub(crate) time: u32,
    pub(crate) roster: Roster,
    /// The open calls.
    pub(crate) calls: HashMap<ShortId, OpenCall>,
    /// The short Call ID that goes with a long one.
    pub(crate) long_ids: HashMap<LongId, u16>,
    /// The short Call ID of the call that a nameless request made (A6).
    pub(crate) made: HashMap<PairRequest, u16>,
    /// The free ones of the total's slots.
    pub(crate) free: Slots,
    /// The connections, and where each stands.
    pub(crate) connections: HashMap<Connection, Position>,
    /// By a customer's address, the last MESSAGE_ID accepted in a Notify of its (A8).
    pub(crate) last_ids: HashMap<u32, MessageId>,
}

#[derive(Clone, Debug)]
pub(crate) struct OpenCall {
    pub slot: usize,
    pub name: Name,
    /// The nameless request that made it (A6). None where it was opened by name.
    pub made_by: Option<MessageId>,
    /// The node's time at its last 20 or 21 (A7).
    pub refreshed: u32,
    pub places: Places,
}

/// Where a connection stands.
#[derive(Clone, Copy, Debug)]
pub(crate) struct Position {
    pub holder: Holder,
    pub place: usize,
}

/// Whose four places it stands in.
#[derive(Clone, Copy, Debug)]
pub(crate) enum Holder {
    /// Call ID 0, by the customer's place in the roster.
    Customer(usize),
    /// A call of the connection's pair, by its short Call ID and slot.
    Call { id: u16, slot: usize },
}

impl Holder {
    /// The Call ID, 0 for no call.
    pub fn call_id(self) -> u16 {
        match self {
            Holder::Customer(_) => 0,
            Holder::Call { id, .. } => id,
        }
    }
}

/// What a message gets.
#[derive(Clone, PartialEq, Eq, Debug)]
pub struct Answered {
    pub answer: u8,
    /// The reply's, 0 where none is sent.
    pub length: usize,
    /// The calls that were closed before the message, in slot order (A7).
    pub closings: Vec<Closing>,
}

impl Answered {
    /// An answer by itself: nothing is sent, and nothing was closed.
    fn only(answer: u8) -> Answered {
        Answered {
            answer,
            length: 0,
            closings: Vec::new(),
        }
    }
}

/// Everything 01 asks of one message, the rule check included, and the table afterwards.
pub fn handle(table: &Table, clock: Clock, message: &[u8], reply: &mut [u8]) -> (Answered, Table) {
    let Some(mut node) = Node::from_table(table) else {
        return (Answered::only(1), *table);
    };
    let answered = node.answer(clock, message, reply);
    (answered, node.to_table())
}

impl Node {
    /// Answers a message, the rules taken as held. Writes the reply to the front of `reply`.
    pub fn answer(&mut self, clock: Clock, message: &[u8], reply: &mut [u8]) -> Answered {
        if reply.len() < reply::SMALLEST_BUFFER {
            return Answered::only(2);
        }
        let closings = self.elapse(clock);
        let (answer, length) = self.answer_now(message, reply);
        Answered {
            answer,
            length,
            closings,
        }
    }

    /// From answer 3 on, behind the closings: answer, and reply length or 0.
    fn answer_now(&mut self, message: &[u8], reply: &mut [u8]) -> (u8, usize) {
        let (message, customer) = match self.admit(message) {
            Ok(admitted) => admitted,
            Err(fault) => return (fault, 0),
        };
        match message {
            Message::Open(request) => {
                let (answer, made) = match request.is_nameless() {
                    true => self.open_nameless(&request, customer),
                    false => (self.open(&request, customer), None),
                };
                let closes = false;
                (answer, self.notify(reply, &request, Outcome { closes, answer, made }))
            }
            Message::Close(request) => {
                let answer = self.close(&request);
                let (closes, made) = (true, None);
                (answer, self.notify(reply, &request, Outcome { closes, answer, made }))
            }
            Message::Add(request) => match self.add(&request, customer) {
                refusal @ (35 | 37) => {
                    let length = reply::path_err(reply, self.address, &request, refusal);
                    (refusal, length)
                }
                answer => (answer, 0),
            },
            Message::Drop(request) => (self.drop_connection(&request), 0),
        }
    }

    /// The message and its customer's place in the roster, or the fault of form; 11 stands before 12 and 13, and 16
    /// behind them.
    fn admit<'a>(&self, message: &'a [u8]) -> Result<(Message<'a>, usize), u8> {
        match read(message) {
            Ok(message) => {
                let customer = self.roster.find(message.sender()).ok_or(11)?;
                match self.is_late(&message) {
                    true => Err(16),
                    false => Ok((message, customer)),
                }
            }
            Err(fault) => match fault.sender {
                Some(sender) if self.roster.find(sender).is_none() => Err(11),
                _ => Err(fault.answer),
            },
        }
    }

    /// Sends a Notify, which uses up one own identifier; the one that it answers was accepted (A8: 20 to 34).
    fn notify(&mut self, reply: &mut [u8], request: &CallRequest<'_>, outcome: Outcome) -> usize {
        let own = Own {
            address: self.address,
            epoch: self.epoch,
            identifier: self.next,
        };
        self.next = self.next.wrapping_add(1);
        self.last_ids.insert(request.pair.sender, request.numbers());
        reply::notify(reply, own, request, outcome)
    }
}
