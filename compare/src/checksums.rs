//! Messages made so that a checksum comes to zero, and is therefore sent as FFFF: their own, or the reply's. By chance
//! that is one message in 65,535.

use crate::build::{self, Sum};
use crate::damage;
use crate::first;
use second::table::Table;

/// The message's own checksum field becomes FFFF.
pub fn make_own_ffff(bytes: &mut [u8]) {
    build::write_sum(bytes, Sum::Right);
    let field = u16::from_be_bytes([bytes[2], bytes[3]]);
    add_to_reserved(bytes, field);
    build::write_sum(bytes, Sum::Right);
}

/// The reply's checksum field becomes FFFF: what is added to the SENDER_TEMPLATE is sent back in it.
pub fn make_reply_ffff(bytes: &mut [u8], table: &Table) {
    let mut reply = [0; 128];
    let (_, length) = first::handle_at_0(&mut table.clone(), bytes, &mut reply);
    if length == 0 {
        return;
    }
    let had_sum = bytes[2..4] != [0, 0];
    add_to_reserved(bytes, u16::from_be_bytes([reply[2], reply[3]]));
    build::write_sum(bytes, if had_sum { Sum::Right } else { Sum::Absent });
}

/// Adds to the SENDER_TEMPLATE's reserved field, which has no test, in one's complement.
fn add_to_reserved(bytes: &mut [u8], more: u16) {
    let objects = damage::objects(bytes);
    let Some(object) = objects.into_iter().find(|object| bytes[object.start + 2] == 11) else {
        return;
    };
    let field = &mut bytes[object.start + 8..object.start + 10];
    let sum = u32::from(u16::from_be_bytes([field[0], field[1]])) + u32::from(more);
    let sum = (sum >> 16) + (sum & 0xffff);
    field.copy_from_slice(&(sum as u16).to_be_bytes());
}
