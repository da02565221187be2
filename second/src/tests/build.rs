//! Messages, rosters and a node under test.

use crate::table::{Call, Table};
use crate::{handle, read_message, read_roster, Answered, Clock, Closing, Message, Node};

/// The customers of "Two customers, one table", and an address that is not listed.
pub const X: u32 = 0x0a00_0001;
pub const Y: u32 = 0x0b00_0001;
pub const UNLISTED: u32 = 0x0c00_0001;
pub const END: u32 = 0x0a00_0002;

pub const PATH: u8 = 1;
pub const PATH_TEAR: u8 = 5;
pub const NOTIFY: u8 = 21;

/// ADMIN_STATUS with R and C, and with D as well.
pub const SETUP: u32 = 0x8000_0008;
pub const CLOSE: u32 = 0x8000_0009;

/// What the reply buffer holds before each message.
pub const OLD: u8 = 0x5a;

/// Bytes from hex, blanks let go by.
pub fn hex(text: &str) -> Vec<u8> {
    let digits: Vec<u8> = text.chars().filter_map(|c| c.to_digit(16)).map(|d| d as u8).collect();
    digits.chunks(2).map(|two| two[0] << 4 | two[1]).collect()
}

pub fn object(class: u8, c_type: u8, body: &[u8]) -> Vec<u8> {
    let mut object = ((body.len() + 4) as u16).to_be_bytes().to_vec();
    object.extend([class, c_type]);
    object.extend(body);
    object
}

pub fn session(endpoint: u32, call: u16, tunnel: u16, extended: u32) -> Vec<u8> {
    let mut body = endpoint.to_be_bytes().to_vec();
    body.extend(call.to_be_bytes());
    body.extend(tunnel.to_be_bytes());
    body.extend(extended.to_be_bytes());
    object(1, 7, &body)
}

pub fn template(sender: u32, lsp: u16) -> Vec<u8> {
    let mut body = sender.to_be_bytes().to_vec();
    body.extend([0, 0]);
    body.extend(lsp.to_be_bytes());
    object(11, 7, &body)
}

pub fn error_spec(code: u8, value: u16) -> Vec<u8> {
    let [high, low] = value.to_be_bytes();
    object(6, 1, &[0, 0, 0, 0, 0, code, high, low])
}

pub fn message_id() -> Vec<u8> {
    numbered(9, 42)
}

/// A MESSAGE_ID without flags. An epoch has 24 bits.
pub fn numbered(epoch: u32, identifier: u32) -> Vec<u8> {
    object(23, 1, &[epoch.to_be_bytes(), identifier.to_be_bytes()].concat())
}

pub fn admin_status(bits: u32) -> Vec<u8> {
    object(196, 1, &bits.to_be_bytes())
}

pub fn attribute(name: &[u8]) -> Vec<u8> {
    let mut body = vec![0, 0, 0, name.len() as u8];
    body.extend(name);
    body.resize(4 + name.len().div_ceil(4) * 4, 0);
    object(207, 7, &body)
}

/// A message without a checksum.
pub fn message(kind: u8, objects: &[Vec<u8>]) -> Vec<u8> {
    let body = objects.concat();
    let mut message = vec![0x10, kind, 0, 0, 255, 0];
    message.extend(((body.len() + 8) as u16).to_be_bytes());
    message.extend(body);
    message
}

/// An open or a close with this MESSAGE_ID.
pub fn with_numbers(sender: u32, id: u16, name: &[u8], status: u32, (epoch, identifier): (u32, u32)) -> Vec<u8> {
    let mut objects = six(sender, id, name, status);
    objects[3] = numbered(epoch, identifier);
    message(NOTIFY, &objects)
}

/// The six objects of a Notify. Tests change single ones.
pub fn six(sender: u32, id: u16, name: &[u8], status: u32) -> Vec<Vec<u8>> {
    vec![
        session(END, id, 1, X),
        error_spec(0, 0),
        template(sender, 1),
        message_id(),
        admin_status(status),
        attribute(name),
    ]
}

pub fn open(sender: u32, id: u16, name: &[u8]) -> Vec<u8> {
    message(NOTIFY, &six(sender, id, name, SETUP))
}

pub fn close(sender: u32, id: u16, name: &[u8]) -> Vec<u8> {
    message(NOTIFY, &six(sender, id, name, CLOSE))
}

/// An open without names (A6): Name Length 0 and Call ID 0.
pub fn nameless(sender: u32, epoch: u32, identifier: u32) -> Vec<u8> {
    nameless_at(END, sender, epoch, identifier)
}

pub fn nameless_at(endpoint: u32, sender: u32, epoch: u32, identifier: u32) -> Vec<u8> {
    let mut objects = six(sender, 0, b"", SETUP);
    objects[0] = session(endpoint, 0, 1, X);
    objects[3] = numbered(epoch, identifier);
    message(NOTIFY, &objects)
}

/// A connection told from others by its LSP ID.
pub fn path(sender: u32, call: u16, lsp: u16) -> Vec<u8> {
    message(PATH, &[session(END, call, 1, X), template(sender, lsp)])
}

pub fn tear(sender: u32, call: u16, lsp: u16) -> Vec<u8> {
    message(PATH_TEAR, &[session(END, call, 1, X), template(sender, lsp)])
}

/// A roster of form 1: own address 10.0.0.2, epoch 7, records of address, guarantee and limit.
pub fn roster(records: &[(u32, u16, u16)]) -> Vec<u8> {
    packed(0x10, records, |guarantee, limit| guarantee << 9 | limit << 2)
}

/// The same in form 2 (A11): 8 bits of guarantee and 8 of limit.
pub fn roster_2(records: &[(u32, u16, u16)]) -> Vec<u8> {
    packed(0x20, records, |guarantee, limit| guarantee << 8 | limit)
}

fn packed(form: u8, records: &[(u32, u16, u16)], share: fn(u16, u16) -> u16) -> Vec<u8> {
    let mut bytes = vec![form | records.len() as u8];
    bytes.extend(hex("0a000002 000007"));
    for &(address, guarantee, limit) in records {
        bytes.extend(address.to_be_bytes());
        bytes.extend(share(guarantee, limit).to_be_bytes());
    }
    bytes
}

/// A time and a period.
pub fn at(time: u32, period: u32) -> Clock {
    Clock { time, period }
}

/// A message at time 0 with period 0, to a table whose time is 0: answer, reply length and the table afterwards.
pub fn handle_at_0(table: &Table, message: &[u8], reply: &mut [u8]) -> (u8, usize, Table) {
    let (answered, after) = handle(table, Clock::ZERO, message, reply);
    assert_eq!(answered.closings, []);
    (answered.answer, answered.length, after)
}

/// What a copy of the table is read as, places closed up: own identifiers from 1 (A13), no MESSAGE_ID kept (A8).
pub fn read_back(table: &Table) -> Table {
    let mut read = Table { next: 1, ..*table };
    for record in &mut read.customers {
        (record.kept, record.epoch, record.identifier) = (0, 0, 0);
    }
    read
}

/// A node under test: the table from message to message, and beside it a `Node` that stays.
pub struct TestNode {
    pub table: Table,
    pub node: Node,
    pub reply: Vec<u8>,
    pub closings: Vec<Closing>,
}

impl TestNode {
    pub fn new(records: &[(u32, u16, u16)]) -> TestNode {
        TestNode::of(&roster(records))
    }

    /// Of an acceptable roster's bytes.
    pub fn of(roster: &[u8]) -> TestNode {
        let (answer, table) = read_roster(roster);
        assert_eq!(answer, 0);
        TestNode::with(table)
    }

    /// X with guarantee 1 and limit 2, Y with 62 and 64.
    pub fn two() -> TestNode {
        TestNode::new(&[(X, 1, 2), (Y, 62, 64)])
    }

    pub fn with(table: Table) -> TestNode {
        let node = Node::from_table(&table).expect("the rules hold");
        assert_eq!(node.to_table(), table);
        TestNode {
            table,
            node,
            reply: Vec::new(),
            closings: Vec::new(),
        }
    }

    /// The answer to a message at time 0 with period 0.
    pub fn ask(&mut self, message: &[u8]) -> u8 {
        self.ask_at(Clock::ZERO, message)
    }

    /// The answer to a message. Checks what 01 and A7 say of every answer.
    pub fn ask_at(&mut self, clock: Clock, message: &[u8]) -> u8 {
        let (mut buffer, mut other) = ([OLD; 160], [OLD; 160]);
        let (answered, after) = handle(&self.table, clock, message, &mut buffer);
        assert_eq!(self.node.answer(clock, message, &mut other), answered);
        assert_eq!(buffer, other);
        assert_eq!(self.node.to_table(), after);
        assert!(Node::from_table(&after).is_some(), "answer 1 never comes");
        let Answered {
            answer,
            length,
            closings,
        } = answered;
        let before = elapsed(&self.table, clock, &closings);
        check_change(answer, &accepted(before, message, answer), &after);
        let replied = matches!(answer, 20..=22 | 30..=35 | 37);
        assert_eq!(length > 0, replied);
        assert!(buffer[length..].iter().all(|&byte| byte == OLD));
        self.table = after;
        self.reply = buffer[..length].to_vec();
        self.closings = closings;
        answer
    }

    /// S, from the table.
    pub fn s(&self) -> usize {
        let larger = |address: u32, guarantee: u32| {
            let calls = self.table.calls.iter();
            calls
                .filter(|call| call.id != 0 && call.sender == address)
                .count()
                .max(guarantee as usize)
        };
        let listed = &self.table.customers[..self.table.listed as usize];
        listed.iter().map(|c| larger(c.address, c.guarantee)).sum()
    }

    /// Opens calls with the IDs 1 to `count`, each named by its ID.
    pub fn open_many(&mut self, sender: u32, count: u16) {
        for id in 1..=count {
            assert_eq!(self.ask(&open(sender, id, &id.to_be_bytes())), 20);
        }
    }
}

/// The table behind the closings: its time raised, and the slots listed freed. Each of them was a call of the address
/// listed, without connections.
fn elapsed(before: &Table, clock: Clock, closings: &[Closing]) -> Table {
    let mut table = Table {
        time: before.time.max(clock.time),
        ..*before
    };
    for closing in closings {
        let slot = closing.slot as usize;
        assert!(table.uses(slot) && table.calls[slot].sender == closing.address);
        assert!(table.calls[slot].places.iter().all(|place| place.taken == 0));
        table.calls[slot] = Call::FREE;
        table.occupied[slot / 32] ^= 1 << (slot % 32);
    }
    table
}

/// The table with the MESSAGE_ID of a Notify that was answered 20 to 34 in its sender's record (A8).
fn accepted(mut table: Table, message: &[u8], answer: u8) -> Table {
    if let (20..=34, Ok(Message::Open(request) | Message::Close(request))) = (answer, read_message(message)) {
        let mut customers = table.customers.iter_mut();
        let record = customers.find(|record| record.address == request.pair.sender);
        let record = record.expect("an accepted Notify's sender is listed");
        let numbers = request.numbers();
        (record.kept, record.epoch, record.identifier) = (1, numbers.epoch, numbers.identifier);
    }
    table
}

/// "Answers that send none leave the table equal, but for 23 and 25"; the own identifier moves with a Notify. Equal is
/// read from the table behind the closings, the refresh that a 21 sets left out (A7), as is the MESSAGE_ID kept (A8).
fn check_change(answer: u8, before: &Table, after: &Table) {
    let notify = matches!(answer, 20..=22 | 30..=34);
    let next = before.next.wrapping_add(notify.into());
    assert_eq!((after.next, after.time), (next, before.time));
    let changes = matches!(answer, 20 | 22 | 23 | 25);
    let mut rest = Table { next, ..*before };
    if answer == 21 {
        let refreshed = (0..200).find(|&slot| rest.calls[slot] != after.calls[slot]);
        refreshed.inspect(|&slot| rest.calls[slot].refreshed = before.time);
    }
    assert_eq!(rest != *after, changes);
}
