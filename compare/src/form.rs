//! The ledger's own reader (01, "Every answer", and 02's A1, A6 and A8): the tests for the answers 2 to 13 and 16, on
//! the message's bytes, the buffer's length, the roster's addresses and the last MESSAGE_IDs; and a roster's answer. It
//! is a third reading, used by neither program.

use crate::late::{is_late, Numbers};

/// What a message is to the ledger.
#[derive(Debug, PartialEq, Eq)]
pub enum Form<'a> {
    /// The fault of form, 2 to 13 or 16.
    Fault(u8),
    /// A Notify without one.
    Notify(Request<'a>),
    /// A Path or PathTear without one.
    Connection,
}

/// A Notify's four, its MESSAGE_ID's two numbers, and whether D is set.
#[derive(Debug, PartialEq, Eq)]
pub struct Request<'a> {
    pub endpoint: u32,
    pub sender: u32,
    pub short: u16,
    /// The name up to its last byte that is not zero (A1).
    pub long: &'a [u8],
    /// Name Length as received, counted padding included.
    pub size: usize,
    /// Epoch and identifier.
    pub numbers: Numbers,
    pub closes: bool,
}

impl Request<'_> {
    /// A6: an open with neither of the two IDs.
    pub fn is_nameless(&self) -> bool {
        self.short == 0
    }
}

/// The objects of 01's table, in its order, MESSAGE_ID_ACK left out: class, C-Type.
pub const OBJECTS: [(u8, u8); 6] = [(1, 7), (6, 1), (11, 7), (23, 1), (196, 1), (207, 7)];
const SESSION: usize = 0;
const ERROR_SPEC: usize = 1;
const SENDER_TEMPLATE: usize = 2;
const MESSAGE_ID: usize = 3;
const ADMIN_STATUS: usize = 4;
const SESSION_ATTRIBUTE: usize = 5;

pub const SKIPPED: [u8; 16] = [0, 3, 4, 5, 12, 13, 14, 19, 20, 21, 24, 34, 35, 36, 37, 133];

/// The bodies found of each object.
type Found<'a> = [Vec<&'a [u8]>; 6];

/// `last` says which MESSAGE_ID was accepted last of a sender (A8).
pub fn read<'a>(message: &'a [u8], buffer: usize, listed: &[u32], last: impl Fn(u32) -> Option<Numbers>) -> Form<'a> {
    match tested(message, buffer, listed) {
        Ok(Form::Notify(request)) if last(request.sender).is_some_and(|old| is_late(old, request.numbers)) => {
            Form::Fault(16)
        }
        Ok(form) => form,
        Err(fault) => Form::Fault(fault),
    }
}

/// All tests but the one for lateness, which is the last.
fn tested<'a>(message: &'a [u8], buffer: usize, listed: &[u32]) -> Result<Form<'a>, u8> {
    if buffer < 128 {
        return Err(2);
    }
    let kind = header(message)?;
    let found = objects(&message[8..])?;
    let bodies = counted(kind, &found)?;
    let sender = word(bodies[SENDER_TEMPLATE], 0);
    if !listed.contains(&sender) {
        return Err(11);
    }
    if kind != 21 {
        return Ok(Form::Connection);
    }
    request(&bodies, sender).map(Form::Notify)
}

/// Answers 3 to 6; the message's type.
fn header(message: &[u8]) -> Result<u8, u8> {
    let size = message.len();
    if !(8..=1024).contains(&size) || !size.is_multiple_of(4) || usize::from(half(message, 6)) != size {
        return Err(3);
    }
    if message[0] / 16 != 1 {
        return Err(4);
    }
    // A sum that is 0 modulo FFFF and not 0 itself comes to FFFF once all carries are brought round.
    let sum: u64 = (0..size).step_by(2).map(|at| u64::from(half(message, at))).sum();
    if half(message, 2) != 0 && !sum.is_multiple_of(0xffff) {
        return Err(5);
    }
    match message[1] {
        kind @ (1 | 5 | 21) => Ok(kind),
        _ => Err(6),
    }
}

/// Answers 7 to 9, object by object.
fn objects(mut rest: &[u8]) -> Result<Found<'_>, u8> {
    let mut found = Found::default();
    while !rest.is_empty() {
        let length = usize::from(half(rest, 0));
        if length < 4 || !length.is_multiple_of(4) || length > rest.len() {
            return Err(7);
        }
        let (class, c_type, body) = (rest[2], rest[3], &rest[4..length]);
        if let Some(place) = OBJECTS.iter().position(|object| object.0 == class) {
            if c_type != OBJECTS[place].1 || !shaped(place, body) {
                return Err(9);
            }
            found[place].push(body);
        } else if class < 128 && !SKIPPED.contains(&class) {
            return Err(8);
        }
        rest = &rest[length..];
    }
    Ok(found)
}

/// Whether the body has the length, and the padding, of its line in 01's table.
fn shaped(place: usize, body: &[u8]) -> bool {
    match place {
        SESSION => body.len() == 12,
        ADMIN_STATUS => body.len() == 4,
        SESSION_ATTRIBUTE => {
            let Some(&size) = body.get(3) else {
                return false;
            };
            let end = 4 + usize::from(size);
            body.len() == end.div_ceil(4) * 4 && body[end..].iter().all(|&byte| byte == 0)
        }
        _ => body.len() == 8,
    }
}

/// Answer 10; the body of each object, empty where a Path or PathTear has none.
fn counted<'a>(kind: u8, found: &Found<'a>) -> Result<[&'a [u8]; 6], u8> {
    let mut bodies: [&[u8]; 6] = [&[]; 6];
    for (place, all) in found.iter().enumerate() {
        let needed = kind == 21 || place == SESSION || place == SENDER_TEMPLATE;
        match all[..] {
            [] if !needed => {}
            [body] => bodies[place] = body,
            _ => return Err(10),
        }
    }
    Ok(bodies)
}

/// Answers 12 and 13.
fn request<'a>(bodies: &[&'a [u8]; 6], sender: u32) -> Result<Request<'a>, u8> {
    let status = word(bodies[ADMIN_STATUS], 0);
    let (r, c, d) = (status >> 31, status >> 3 & 1, status & 1);
    let (code, value) = (bodies[ERROR_SPEC][5], half(bodies[ERROR_SPEC], 6));
    if r == 0 || c == 0 || code != 0 || value != 0 {
        return Err(12);
    }
    let (session, attribute) = (bodies[SESSION], bodies[SESSION_ATTRIBUTE]);
    let (short, size) = (half(session, 4), usize::from(attribute[3]));
    let long = long_id(&attribute[4..4 + size]);
    let is_nameless = d == 0 && short == 0 && size == 0;
    if !is_nameless && (short == 0 || size > 32 || long.is_empty()) {
        return Err(13);
    }
    let message_id = bodies[MESSAGE_ID];
    Ok(Request {
        endpoint: word(session, 0),
        sender,
        short,
        long,
        size,
        numbers: (word(message_id, 0) & 0x00ff_ffff, word(message_id, 4)),
        closes: d == 1,
    })
}

/// The long Call ID of a name as received (A1): the zeros at its end are taken off.
pub fn long_id(name: &[u8]) -> &[u8] {
    let mut long = name;
    while let [rest @ .., 0] = long {
        long = rest;
    }
    long
}

/// A roster's answer (01, "The roster", and A11).
pub fn roster(bytes: &[u8]) -> u8 {
    if bytes.len() < 8 {
        return 40;
    }
    let (form, count) = (bytes[0] / 16, usize::from(bytes[0] % 16));
    if ![1, 2].contains(&form) || !(1..=8).contains(&count) {
        return 41;
    }
    let total = total(form);
    if bytes.len() != 8 + 6 * count {
        return 42;
    }
    let (mut addresses, mut guarantees) = (Vec::new(), 0);
    for record in bytes[8..].chunks(6) {
        let (address, bits) = (word(record, 0), half(record, 4));
        let (guarantee, limit) = share(form, bits);
        if form == 1 && bits & 3 != 0 {
            return 43;
        }
        if !(1..=total).contains(&limit) || guarantee > limit {
            return 44;
        }
        if addresses.contains(&address) {
            return 45;
        }
        addresses.push(address);
        guarantees += guarantee;
    }
    if guarantees > total {
        return 46;
    }
    0
}

/// Guarantee and limit, from the last 16 bits of a record: 7, 7 and 2 that are spare in form 1, 8 and 8 in form 2.
fn share(form: u8, bits: u16) -> (usize, usize) {
    let (guarantee, limit) = match form {
        1 => (bits >> 9, bits >> 2 & 127),
        _ => (bits >> 8, bits & 255),
    };
    (guarantee.into(), limit.into())
}

/// A customer of an accepted roster.
pub struct Customer {
    pub address: u32,
    pub guarantee: usize,
    pub limit: usize,
}

/// The total and the customers of an accepted roster.
pub fn accepted(roster: &[u8]) -> (usize, Vec<Customer>) {
    let form = roster[0] / 16;
    let customer = |record: &[u8]| {
        let (guarantee, limit) = share(form, half(record, 4));
        Customer {
            address: word(record, 0),
            guarantee,
            limit,
        }
    };
    (total(form), roster[8..].chunks(6).map(customer).collect())
}

/// How many calls the customers of a roster of this form can have together (A11); without a roster there are none.
pub const fn total(form: u8) -> usize {
    match form {
        1 => 64,
        2 => 200,
        _ => 0,
    }
}

fn half(bytes: &[u8], at: usize) -> u16 {
    u16::from_be_bytes([bytes[at], bytes[at + 1]])
}

fn word(bytes: &[u8], at: usize) -> u32 {
    u32::from(half(bytes, at)) << 16 | u32::from(half(bytes, at + 2))
}
