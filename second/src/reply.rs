//! 01, "Reply bytes".

use crate::checksum;
use crate::keys::{CallIds, Name};
use crate::message::{CallRequest, PathRequest};

/// A reply buffer has to have this many bytes, or the answer is 2.
pub(crate) const SMALLEST_BUFFER: usize = 128;

const PATH_ERR: u8 = 3;
const NOTIFY: u8 = 21;

/// ADMIN_STATUS of a reply: C for an open, C and D for a close.
const OPENING: u32 = 8;
const CLOSING: u32 = 9;

/// What the node puts into its own objects.
#[derive(Clone, Copy)]
pub(crate) struct Own {
    pub address: u32,
    pub epoch: u32,
    pub identifier: u32,
}

/// What became of an open or a close.
#[derive(Clone, Copy)]
pub(crate) struct Outcome {
    pub closes: bool,
    pub answer: u8,
    /// The IDs to send in place of those received: the call's, where a nameless request was answered 20 or 21 (A6).
    pub made: Option<CallIds>,
}

/// Writes the Notify that answers an open or a close, and gives its length.
pub(crate) fn notify(reply: &mut [u8], own: Own, request: &CallRequest<'_>, outcome: Outcome) -> usize {
    let status = if outcome.closes { CLOSING } else { OPENING };
    let mut writer = Writer::behind_header(reply);
    writer.put(&[0, 12, 24, 1, 0]);
    writer.put(&request.message_id[5..]);
    writer.put(&[0, 12, 23, 1]);
    writer.put(&(own.epoch | 0x0100_0000).to_be_bytes());
    writer.put(&own.identifier.to_be_bytes());
    writer.put_error_spec(own.address, outcome.answer);
    match &outcome.made {
        Some(made) => writer.put(&session_with(request.session, made.id)),
        None => writer.put(request.session),
    }
    writer.put(&[0, 8, 196, 1]);
    writer.put(&status.to_be_bytes());
    match &outcome.made {
        Some(made) => writer.put(&attribute_with(request.attribute, &made.name)),
        None => writer.put(request.attribute),
    }
    writer.put(request.template);
    writer.finish(NOTIFY)
}

/// A6: the SESSION as received but for the Call ID.
fn session_with(received: &[u8; 16], id: u16) -> [u8; 16] {
    let mut session = *received;
    session[8..10].copy_from_slice(&id.to_be_bytes());
    session
}

/// A6: a SESSION_ATTRIBUTE of the priorities and flags received and this name.
fn attribute_with(received: &[u8], name: &Name) -> Vec<u8> {
    let length = 8 + usize::from(name.size).next_multiple_of(4);
    let mut attribute = vec![0, length as u8, 207, 7];
    attribute.extend(&received[4..7]);
    attribute.push(name.size);
    attribute.extend(name.as_bytes());
    attribute.resize(length, 0);
    attribute
}

/// Writes the PathErr that refuses a Path, and gives its length.
pub(crate) fn path_err(reply: &mut [u8], address: u32, request: &PathRequest<'_>, answer: u8) -> usize {
    let mut writer = Writer::behind_header(reply);
    writer.put(request.session);
    writer.put_error_spec(address, answer);
    writer.put(request.template);
    writer.finish(PATH_ERR)
}

/// The error code and value that an answer is sent with.
fn error(answer: u8) -> (u8, u8) {
    match answer {
        30 => (32, 1),
        31 => (32, 4),
        32 => (32, 2),
        33 | 35 => (32, 3),
        34 | 37 => (2, 0),
        _ => (0, 0),
    }
}

/// Puts each object behind the one before it.
struct Writer<'a> {
    reply: &'a mut [u8],
    length: usize,
}

impl<'a> Writer<'a> {
    fn behind_header(reply: &'a mut [u8]) -> Writer<'a> {
        Writer { reply, length: 8 }
    }

    fn put(&mut self, bytes: &[u8]) {
        self.reply[self.length..][..bytes.len()].copy_from_slice(bytes);
        self.length += bytes.len();
    }

    fn put_error_spec(&mut self, address: u32, answer: u8) {
        let (code, value) = error(answer);
        self.put(&[0, 12, 6, 1]);
        self.put(&address.to_be_bytes());
        self.put(&[0, code, 0, value]);
    }

    /// Writes the header, the checksum last.
    fn finish(self, kind: u8) -> usize {
        let message = &mut self.reply[..self.length];
        let [high, low] = (self.length as u16).to_be_bytes();
        message[..8].copy_from_slice(&[0x10, kind, 0, 0, 255, 0, high, low]);
        let checksum = checksum::to_send(message).to_be_bytes();
        message[2..4].copy_from_slice(&checksum);
        self.length
    }
}
