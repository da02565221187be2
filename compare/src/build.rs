//! Builds messages and rosters from the layouts of 01 ("Message layout", "The roster"): every object, and the
//! checksum right, left out or wrong.

use crate::form;

pub const PATH: u8 = 1;
pub const PATH_TEAR: u8 = 5;
pub const NOTIFY: u8 = 21;

/// ADMIN_STATUS bits.
pub const R: u32 = 0x8000_0000;
pub const C: u32 = 0x0000_0008;
pub const D: u32 = 0x0000_0001;

/// What the objects of one message carry.
#[derive(Clone, Debug, Default)]
pub struct Fields {
    pub endpoint: u32,
    pub call: u16,
    pub tunnel: u16,
    pub extended: u32,
    pub node: u32,
    pub error_flags: u8,
    pub code: u8,
    pub value: u16,
    pub sender: u32,
    pub reserved: u16,
    pub lsp: u16,
    pub id_flags: u8,
    pub epoch: u32,
    pub identifier: u32,
    pub status: u32,
    pub priorities: [u8; 2],
    pub attribute_flags: u8,
    pub name: Vec<u8>,
}

/// An object: its length with the header, class, C-Type, body.
pub fn object(class: u8, c_type: u8, body: &[u8]) -> Vec<u8> {
    let length = u16::try_from(4 + body.len()).expect("an object is under 65,536 bytes");
    let mut bytes = length.to_be_bytes().to_vec();
    bytes.extend([class, c_type]);
    bytes.extend(body);
    bytes
}

impl Fields {
    pub fn session(&self) -> Vec<u8> {
        let mut body = self.endpoint.to_be_bytes().to_vec();
        body.extend(self.call.to_be_bytes());
        body.extend(self.tunnel.to_be_bytes());
        body.extend(self.extended.to_be_bytes());
        object(1, 7, &body)
    }

    pub fn error_spec(&self) -> Vec<u8> {
        let mut body = self.node.to_be_bytes().to_vec();
        body.extend([self.error_flags, self.code]);
        body.extend(self.value.to_be_bytes());
        object(6, 1, &body)
    }

    pub fn sender_template(&self) -> Vec<u8> {
        let mut body = self.sender.to_be_bytes().to_vec();
        body.extend(self.reserved.to_be_bytes());
        body.extend(self.lsp.to_be_bytes());
        object(11, 7, &body)
    }

    pub fn message_id(&self) -> Vec<u8> {
        object(23, 1, &self.message_id_body())
    }

    pub fn message_id_ack(&self) -> Vec<u8> {
        object(24, 1, &self.message_id_body())
    }

    fn message_id_body(&self) -> Vec<u8> {
        let first = u32::from(self.id_flags) << 24 | self.epoch & 0x00ff_ffff;
        let mut body = first.to_be_bytes().to_vec();
        body.extend(self.identifier.to_be_bytes());
        body
    }

    pub fn admin_status(&self) -> Vec<u8> {
        object(196, 1, &self.status.to_be_bytes())
    }

    pub fn session_attribute(&self) -> Vec<u8> {
        let size = u8::try_from(self.name.len()).expect("a name is under 256 bytes");
        let [setup, holding] = self.priorities;
        let mut body = vec![setup, holding, self.attribute_flags, size];
        body.extend(&self.name);
        body.resize(body.len().next_multiple_of(4), 0);
        object(207, 7, &body)
    }

    /// The objects that a Notify needs.
    pub fn request(&self) -> Vec<Vec<u8>> {
        vec![
            self.message_id(),
            self.error_spec(),
            self.session(),
            self.admin_status(),
            self.session_attribute(),
            self.sender_template(),
        ]
    }

    /// The objects that a Path or a PathTear needs.
    pub fn connection(&self) -> Vec<Vec<u8>> {
        vec![self.session(), self.sender_template()]
    }
}

/// The common header but its checksum and length.
#[derive(Clone, Copy, Debug)]
pub struct Header {
    pub version: u8,
    pub flags: u8,
    pub kind: u8,
    pub ttl: u8,
    pub reserved: u8,
}

impl Header {
    pub fn of(kind: u8) -> Header {
        Header {
            version: 1,
            flags: 0,
            kind,
            ttl: 255,
            reserved: 0,
        }
    }
}

/// How a message's checksum field is written.
#[derive(Clone, Copy, Debug, PartialEq, Eq)]
pub enum Sum {
    Right,
    /// A zero field: none was sent.
    Absent,
    /// The right one with these bits turned over.
    Off(u16),
}

/// Header and objects put together, length and checksum written.
pub fn message(header: Header, objects: &[Vec<u8>], sum: Sum) -> Vec<u8> {
    let first = header.version << 4 | header.flags & 15;
    let mut bytes = vec![first, header.kind, 0, 0, header.ttl, header.reserved, 0, 0];
    bytes.extend(objects.iter().flatten());
    write_length(&mut bytes);
    write_sum(&mut bytes, sum);
    bytes
}

/// Writes the length field, where the message has one.
pub fn write_length(bytes: &mut [u8]) {
    let length = bytes.len() as u16;
    if let Some(field) = bytes.get_mut(6..8) {
        field.copy_from_slice(&length.to_be_bytes());
    }
}

/// Writes the checksum field, where the message has one.
pub fn write_sum(bytes: &mut [u8], sum: Sum) {
    if bytes.len() < 4 {
        return;
    }
    bytes[2..4].fill(0);
    let field = match sum {
        Sum::Right => checksum(bytes),
        Sum::Absent => 0,
        Sum::Off(bits) => checksum(bytes) ^ bits,
    };
    bytes[2..4].copy_from_slice(&field.to_be_bytes());
}

/// The field that makes all words add up to FFFF; the field itself is zero in `bytes`.
fn checksum(bytes: &[u8]) -> u16 {
    let word = |pair: &[u8]| u32::from(pair[0]) << 8 | u32::from(*pair.get(1).unwrap_or(&0));
    let mut total: u32 = bytes.chunks(2).map(word).sum();
    while total > 0xffff {
        total = (total >> 16) + (total & 0xffff);
    }
    match !(total as u16) {
        0 => 0xffff,
        field => field,
    }
}

/// A Notify request that opens the call (end point, sender, short ID, name).
pub fn open(endpoint: u32, sender: u32, call: u16, name: &[u8]) -> Vec<u8> {
    request((endpoint, sender), (call, name), R | C, NUMBERS)
}

/// The same with these two numbers in its MESSAGE_ID.
pub fn open_numbered(endpoint: u32, sender: u32, call: u16, name: &[u8], numbers: (u32, u32)) -> Vec<u8> {
    request((endpoint, sender), (call, name), R | C, numbers)
}

/// One without names, with these two numbers in its MESSAGE_ID (A6).
pub fn nameless(endpoint: u32, sender: u32, (epoch, identifier): (u32, u32)) -> Vec<u8> {
    let fields = Fields {
        endpoint,
        sender,
        status: R | C,
        epoch,
        identifier,
        ..Fields::default()
    };
    message(Header::of(NOTIFY), &fields.request(), Sum::Right)
}

/// A Notify request that closes it.
pub fn close(endpoint: u32, sender: u32, call: u16, name: &[u8]) -> Vec<u8> {
    request((endpoint, sender), (call, name), R | C | D, NUMBERS)
}

/// The same with these two numbers in its MESSAGE_ID.
pub fn close_numbered(endpoint: u32, sender: u32, call: u16, name: &[u8], numbers: (u32, u32)) -> Vec<u8> {
    request((endpoint, sender), (call, name), R | C | D, numbers)
}

/// The numbers of requests that are given none: no one of them is late behind another (A8).
pub const NUMBERS: (u32, u32) = (9, 77);

fn request(
    (endpoint, sender): (u32, u32),
    (call, name): (u16, &[u8]),
    status: u32,
    (epoch, identifier): (u32, u32),
) -> Vec<u8> {
    let fields = Fields {
        endpoint,
        sender,
        call,
        name: name.to_vec(),
        status,
        epoch,
        identifier,
        ..Fields::default()
    };
    message(Header::of(NOTIFY), &fields.request(), Sum::Right)
}

/// A connection's five fields.
#[derive(Clone, Copy, Debug, PartialEq, Eq)]
pub struct Connection {
    pub endpoint: u32,
    pub tunnel: u16,
    pub extended: u32,
    pub sender: u32,
    pub lsp: u16,
}

/// A Path that puts the connection under the Call ID (0: none).
pub fn path(connection: Connection, call: u16) -> Vec<u8> {
    of_connection(PATH, connection, call)
}

/// A PathTear that removes it.
pub fn path_tear(connection: Connection, call: u16) -> Vec<u8> {
    of_connection(PATH_TEAR, connection, call)
}

fn of_connection(kind: u8, connection: Connection, call: u16) -> Vec<u8> {
    let fields = Fields {
        endpoint: connection.endpoint,
        call,
        tunnel: connection.tunnel,
        extended: connection.extended,
        sender: connection.sender,
        lsp: connection.lsp,
        ..Fields::default()
    };
    message(Header::of(kind), &fields.connection(), Sum::Right)
}

/// A roster's record.
#[derive(Clone, Copy, Debug)]
pub struct Record {
    pub address: u32,
    /// Seven bits each in form 1, eight in form 2.
    pub guarantee: u8,
    pub limit: u8,
    /// Two bits, zero in an acceptable record of form 1. Form 2 has none.
    pub spare: u8,
}

/// The largest guarantee and limit that a record has room for.
pub fn largest_share(form: u8) -> usize {
    match form {
        2 => 255,
        _ => 127,
    }
}

/// A roster. Form and customer count that are sent are its own, unless `write` is told others.
#[derive(Clone, Debug)]
pub struct Roster {
    /// How its records are packed.
    pub form: u8,
    pub address: u32,
    pub epoch: u32,
    pub records: Vec<Record>,
}

impl Roster {
    pub fn bytes(&self) -> Vec<u8> {
        self.write(self.form, self.records.len() as u8)
    }

    pub fn total(&self) -> usize {
        form::total(self.form)
    }

    /// The roster with this form number and customer count, whatever it has.
    pub fn write(&self, form: u8, count: u8) -> Vec<u8> {
        let mut bytes = vec![form << 4 | count & 15];
        bytes.extend(self.address.to_be_bytes());
        bytes.extend(&self.epoch.to_be_bytes()[1..]);
        for record in &self.records {
            bytes.extend(record.address.to_be_bytes());
            bytes.extend(share_bits(self.form, record).to_be_bytes());
        }
        bytes
    }
}

/// A record's last 16 bits: 7 guarantee, 7 limit, 2 spare in form 1; 8 and 8 in form 2.
fn share_bits(form: u8, record: &Record) -> u16 {
    let (guarantee, limit) = (u16::from(record.guarantee), u16::from(record.limit));
    match form {
        2 => guarantee << 8 | limit,
        _ => (guarantee & 127) << 9 | (limit & 127) << 2 | u16::from(record.spare & 3),
    }
}

#[cfg(test)]
mod tests {
    use super::*;

    fn bytes(hex: &str) -> Vec<u8> {
        let digits: Vec<u32> = hex.chars().filter_map(|c| c.to_digit(16)).collect();
        digits.chunks(2).map(|d| (d[0] << 4 | d[1]) as u8).collect()
    }

    #[test]
    fn input_of_the_tap_example() {
        let record = Record {
            address: 0x0a00_0001,
            guarantee: 1,
            limit: 2,
            spare: 0,
        };
        let roster = Roster {
            form: 1,
            address: 0x0a00_0002,
            epoch: 7,
            records: vec![record],
        };
        assert_eq!(roster.bytes(), bytes("110a000002000007 0a0000010208"));
        let roster = Roster { form: 2, ..roster };
        assert_eq!(roster.bytes(), bytes("210a000002000007 0a0000010102"));
        let fields = Fields {
            endpoint: 0x0a00_0002,
            call: 5,
            tunnel: 1,
            extended: 0x0a00_0001,
            sender: 0x0a00_0001,
            lsp: 1,
            ..Fields::default()
        };
        let path = message(Header::of(PATH), &fields.connection(), Sum::Absent);
        let expected = "10010000ff000024 00100107 0a000002 0005 0001 0a000001 000c0b07 0a000001 0000 0001";
        assert_eq!(path, bytes(expected));
    }

    #[test]
    fn checksum_of_the_tap_example() {
        let mut reply = bytes(
            "10030000ff000030 00100107 0a000002 0005 0001 0a000001 000c0601 0a000002 00200003 \
             000c0b07 0a000001 0000 0001",
        );
        write_sum(&mut reply, Sum::Right);
        assert_eq!(reply[2..4], [0xb6, 0x64]);
    }

    #[test]
    fn a_computed_zero_is_written_ffff() {
        let mut bytes = vec![0xff, 0xff, 0, 0];
        write_sum(&mut bytes, Sum::Right);
        assert_eq!(bytes, [0xff; 4]);
    }
}
