//! 01, "Message layout" and "Every answer", and 02's A1 and A6: reading a message as one of four kinds, and answers 3 to
//! 10, 12 and 13.

use crate::bytes::{long, word};
use crate::checksum;
use crate::keys::{without_padding, Connection, MessageId, Pair};
use crate::objects::{walk, Objects};
use crate::table::NAME;

const PATH: u8 = 1;
const PATH_TEAR: u8 = 5;
const NOTIFY: u8 = 21;

const LONGEST: usize = 1024;

/// ADMIN_STATUS bits.
const REFLECT: u32 = 0x8000_0000;
const CALL: u32 = 0x0000_0008;
const DELETE: u32 = 0x0000_0001;

/// A message without a fault of form, but for answer 11, which needs the roster.
#[derive(Clone, Copy, PartialEq, Eq, Debug)]
pub enum Message<'a> {
    Open(CallRequest<'a>),
    Close(CallRequest<'a>),
    Add(PathRequest<'a>),
    Drop(PathRequest<'a>),
}

/// What a Notify says, and the objects that its reply sends back.
#[derive(Clone, Copy, PartialEq, Eq, Debug)]
pub struct CallRequest<'a> {
    pub pair: Pair,
    /// The short Call ID. It is 0 in a nameless open only.
    pub id: u16,
    /// The long Call ID, 1 to 32 bytes, without the zeros that were counted in Name Length. It is empty in a nameless
    /// open only.
    pub name: &'a [u8],
    pub session: &'a [u8; 16],
    pub template: &'a [u8; 12],
    pub message_id: &'a [u8; 12],
    pub attribute: &'a [u8],
}

/// What a Path or PathTear says, and the objects that a PathErr sends back.
#[derive(Clone, Copy, PartialEq, Eq, Debug)]
pub struct PathRequest<'a> {
    pub connection: Connection,
    /// The Call ID, 0 for no call.
    pub call: u16,
    pub session: &'a [u8; 16],
    pub template: &'a [u8; 12],
}

/// A fault of form. Where the sender is given, 11 is tested before it.
pub(crate) struct Fault {
    pub answer: u8,
    pub sender: Option<u32>,
}

impl From<u8> for Fault {
    fn from(answer: u8) -> Fault {
        Fault { answer, sender: None }
    }
}

impl CallRequest<'_> {
    /// A6: an open that leaves both IDs to the node.
    pub fn is_nameless(&self) -> bool {
        self.id == 0
    }

    /// The MESSAGE_ID's epoch and identifier, its flags apart.
    pub fn numbers(&self) -> MessageId {
        MessageId {
            epoch: long(self.message_id, 4) & 0x00ff_ffff,
            identifier: long(self.message_id, 8),
        }
    }
}

impl Message<'_> {
    pub fn sender(&self) -> u32 {
        match self {
            Message::Open(request) | Message::Close(request) => request.pair.sender,
            Message::Add(request) | Message::Drop(request) => request.connection.pair.sender,
        }
    }
}

/// Reading alone: the fault of form that the bytes alone show (3 to 10, 12, 13), or the message's kind and fields.
/// A node answers 11 in place of 12 or 13 where the sender is not in its roster.
pub fn read_message(message: &[u8]) -> Result<Message<'_>, u8> {
    read(message).map_err(|fault| fault.answer)
}

/// Reads a message. Faults 12 and 13 come with the sender, for 11 stands before them.
pub(crate) fn read(message: &[u8]) -> Result<Message<'_>, Fault> {
    let kind = header(message)?;
    let objects = walk(&message[8..])?;
    match kind {
        PATH => Ok(Message::Add(path(&objects)?)),
        PATH_TEAR => Ok(Message::Drop(path(&objects)?)),
        _ => notify(&objects),
    }
}

/// The message's type, or an answer from 3 to 6.
fn header(message: &[u8]) -> Result<u8, u8> {
    let length = message.len();
    if !(8..=LONGEST).contains(&length) || !length.is_multiple_of(4) {
        return Err(3);
    }
    if usize::from(word(message, 6)) != length {
        return Err(3);
    }
    if message[0] >> 4 != 1 {
        return Err(4);
    }
    if word(message, 2) != 0 && !checksum::is_right(message) {
        return Err(5);
    }
    match message[1] {
        kind @ (PATH | PATH_TEAR | NOTIFY) => Ok(kind),
        _ => Err(6),
    }
}

/// A Path or PathTear: one SESSION, one SENDER_TEMPLATE, none of the six twice. Else 10.
fn path<'a>(objects: &Objects<'a>) -> Result<PathRequest<'a>, u8> {
    let &Objects {
        session: Some(session),
        template: Some(template),
        repeated: false,
        ..
    } = objects
    else {
        return Err(10);
    };
    Ok(PathRequest {
        connection: Connection {
            pair: pair(session, template),
            tunnel: word(session, 10),
            extended: long(session, 12),
            lsp: word(template, 10),
        },
        call: word(session, 8),
        session,
        template,
    })
}

/// A Notify: exactly one of each of the six, else 10; then 12 and 13.
fn notify<'a>(objects: &Objects<'a>) -> Result<Message<'a>, Fault> {
    let &Objects {
        session: Some(session),
        error_spec: Some(error_spec),
        template: Some(template),
        message_id: Some(message_id),
        admin_status: Some(admin_status),
        attribute: Some(attribute),
        repeated: false,
    } = objects
    else {
        return Err(10.into());
    };
    let pair = pair(session, template);
    let status = long(admin_status, 4);
    let id = word(session, 8);
    let received = &attribute[8..8 + usize::from(attribute[7])];
    if let Some(answer) = notify_fault(status, error_spec, id, received) {
        let sender = Some(pair.sender);
        return Err(Fault { answer, sender });
    }
    let request = CallRequest {
        pair,
        id,
        name: without_padding(received),
        session,
        template,
        message_id,
        attribute,
    };
    Ok(match status & DELETE {
        0 => Message::Open(request),
        _ => Message::Close(request),
    })
}

/// Answers 12 and 13. The name is as received: its 32 counts padding, but a name of nothing else is none. An open may
/// leave out both IDs (A6): Name Length 0, for zeros are no empty name, and Call ID 0.
fn notify_fault(status: u32, error_spec: &[u8; 12], id: u16, received: &[u8]) -> Option<u8> {
    let (code, value) = (error_spec[9], word(error_spec, 10));
    if status & CALL == 0 || status & REFLECT == 0 || code != 0 || value != 0 {
        return Some(12);
    }
    if status & DELETE == 0 && id == 0 && received.is_empty() {
        return None;
    }
    if id == 0 || received.len() > NAME || without_padding(received).is_empty() {
        return Some(13);
    }
    None
}

fn pair(session: &[u8; 16], template: &[u8; 12]) -> Pair {
    Pair {
        endpoint: long(session, 4),
        sender: long(template, 4),
    }
}
