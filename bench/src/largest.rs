//! Checkpoints of the largest counts that the format allows, as `plain` has them and as `chosen_checkpoints` does.

/// How many calls and connections a checkpoint can have.
pub const CALLS: u16 = 4095;
const CONNECTIONS: u16 = 65535;

pub const ENDPOINT: u32 = 0x0a01_0000;
pub const SENDER: u32 = 0x0a00_0001;

/// Slots go round from call to call, unless a call is put elsewhere.
const SLOTS: u16 = 200;

/// What a row is about, and its checkpoint.
pub type Row = (&'static str, Vec<u8>);

/// A call's record. Its sender is SENDER.
#[derive(Clone, Copy)]
pub struct Call {
    pub slot: u8,
    pub id: u16,
    pub endpoint: u32,
    pub name: [u8; 32],
}

/// A connection's record: what differs from one to another. Its LSP ID is 1.
#[derive(Clone, Copy)]
pub struct Connection {
    pub endpoint: u32,
    pub id: u16,
    pub tunnel: u16,
    pub sender: u32,
}

pub fn plain() -> Vec<Row> {
    vec![
        ("one pair and long ID", largest(one_name, spread(one_name))),
        ("one pair, long IDs of their own", largest(own_name, spread(own_name))),
        (
            "one pair, all connections of the last call",
            largest(own_name, |n| own_name(CALLS - 1).connection(n)),
        ),
        ("pairs of their own", largest(own_pair, spread(own_pair))),
    ]
}

/// Calls of one pair and long ID.
pub fn one_name(number: u16) -> Call {
    Call {
        slot: (number % SLOTS) as u8,
        id: number + 1,
        endpoint: ENDPOINT,
        name: [b'n'; 32],
    }
}

/// Calls of one pair, long IDs of their own.
pub fn own_name(number: u16) -> Call {
    let mut name = [b'n'; 32];
    name[..2].copy_from_slice(&number.to_be_bytes());
    Call {
        name,
        ..one_name(number)
    }
}

/// Calls of pairs of their own, with one short ID.
fn own_pair(number: u16) -> Call {
    Call {
        id: 1,
        endpoint: ENDPOINT + u32::from(number),
        ..one_name(number)
    }
}

/// Connections that go round from call to call.
pub fn spread(call: impl Fn(u16) -> Call) -> impl Fn(u16) -> Connection {
    move |n| call(n % CALLS).connection(n)
}

impl Call {
    /// One under the call.
    pub fn connection(self, tunnel: u16) -> Connection {
        Connection {
            endpoint: self.endpoint,
            id: self.id,
            tunnel,
            sender: SENDER,
        }
    }

    fn put(self, checkpoint: &mut Vec<u8>) {
        checkpoint.push(self.slot);
        checkpoint.extend(self.id.to_be_bytes());
        checkpoint.extend(self.endpoint.to_be_bytes());
        checkpoint.extend(SENDER.to_be_bytes());
        checkpoint.push(32);
        checkpoint.extend(self.name);
        checkpoint.extend([0; 11]);
    }
}

impl Connection {
    fn put(self, checkpoint: &mut Vec<u8>) {
        checkpoint.extend(self.endpoint.to_be_bytes());
        checkpoint.extend(self.id.to_be_bytes());
        checkpoint.extend(self.tunnel.to_be_bytes());
        checkpoint.extend(SENDER.to_be_bytes());
        checkpoint.extend(self.sender.to_be_bytes());
        checkpoint.extend([0, 1]);
    }
}

/// The checkpoint of these calls and connections.
pub fn largest(call: impl Fn(u16) -> Call, connection: impl Fn(u16) -> Connection) -> Vec<u8> {
    let mut checkpoint = vec![0x1f, 0xff, 0xff, 0xff];
    (0..CALLS).for_each(|number| call(number).put(&mut checkpoint));
    (0..CONNECTIONS).for_each(|number| connection(number).put(&mut checkpoint));
    checkpoint
}
