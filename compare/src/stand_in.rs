//! The second program behind the first one's C interface, to test the comparison without the library.

#[cfg(test)]
use crate::damage;
use crate::first::{CheckpointRead, CheckpointWritten, MessageReply};
#[cfg(test)]
use crate::planted::{self, handled};
#[cfg(not(test))]
use second::handle as handled;
use second::table::Table;
use second::{Clock, Closing};
#[cfg(test)]
use std::cell::Cell;
use std::slice;

#[cfg(test)]
thread_local! {
    static REFUSED: Cell<Option<u8>> = const { Cell::new(None) };
}

/// From now on, in this thread, the stand-in refuses this class too: a fault that the comparison has to find.
#[cfg(test)]
pub(crate) fn refuse(class: u8) {
    REFUSED.set(Some(class));
}

#[cfg(test)]
fn refused(message: &[u8]) -> bool {
    let classes = damage::objects(message)
        .into_iter()
        .map(|object| message[object.start + 2]);
    REFUSED
        .get()
        .is_some_and(|refused| classes.into_iter().any(|class| class == refused))
}

#[cfg(not(test))]
fn refused(_: &[u8]) -> bool {
    false
}

/// # Safety
/// As in chaffmoor.h: the pointers are good, one of them for its length, and do not overlap.
#[no_mangle]
unsafe extern "C" fn chaffmoor_read_roster(table: *mut Table, roster: *const u8, length: usize) -> u8 {
    let (answer, read) = second::read_roster(slice::from_raw_parts(roster, length));
    *table = read;
    answer
}

/// # Safety
/// As in chaffmoor.h: the pointers are good, two of them for their lengths and one for 200 closings, and do not overlap.
#[no_mangle]
unsafe extern "C" fn chaffmoor_handle(
    table: *mut Table,
    message: *const u8,
    message_length: usize,
    reply: *mut u8,
    reply_length: usize,
    time: u32,
    period: u32,
    closings: *mut Closing,
) -> MessageReply {
    let message = slice::from_raw_parts(message, message_length);
    if refused(message) {
        return MessageReply {
            answer: 8,
            length: 0,
            closed: 0,
        };
    }
    let reply = slice::from_raw_parts_mut(reply, reply_length);
    let (answered, after) = handled(&*table, Clock { time, period }, message, reply);
    *table = after;
    let closed = answered.closings.len();
    slice::from_raw_parts_mut(closings, closed).copy_from_slice(&answered.closings);
    MessageReply {
        answer: answered.answer,
        length: answered.length,
        closed,
    }
}

/// # Safety
/// As in chaffmoor.h: the pointers are good, one of them for its length, and do not overlap.
#[no_mangle]
unsafe extern "C" fn chaffmoor_write_checkpoint(
    table: *const Table,
    checkpoint: *mut u8,
    length: usize,
) -> CheckpointWritten {
    #[cfg(test)]
    planted::note_written(&*table);
    let (answer, length) = second::write_checkpoint(&*table, slice::from_raw_parts_mut(checkpoint, length));
    CheckpointWritten { answer, length }
}

/// # Safety
/// As in chaffmoor.h: the pointers are good, two of them for their lengths, and do not overlap.
#[no_mangle]
unsafe extern "C" fn chaffmoor_read_checkpoint(
    table: *mut Table,
    salvage: u32,
    roster: *const u8,
    roster_length: usize,
    checkpoint: *const u8,
    checkpoint_length: usize,
) -> CheckpointRead {
    let roster = slice::from_raw_parts(roster, roster_length);
    let checkpoint = slice::from_raw_parts(checkpoint, checkpoint_length);
    let (answer, read, calls, connections) = second::read_checkpoint(salvage == 1, roster, checkpoint);
    #[cfg(test)]
    let read = planted::restored(read);
    *table = read;
    CheckpointRead {
        answer,
        calls,
        connections,
    }
}

/// For the benchmark: reading alone.
///
/// # Safety
/// The pointer is good for its length.
#[no_mangle]
unsafe extern "C" fn chaffmoor_part_read(message: *const u8, length: usize) -> u8 {
    match second::read_message(slice::from_raw_parts(message, length)) {
        Ok(_) => 0,
        Err(answer) => answer,
    }
}

/// For the benchmark: the rule check alone.
///
/// # Safety
/// The pointer is good.
#[no_mangle]
unsafe extern "C" fn chaffmoor_part_rules(table: *const Table) -> bool {
    second::Node::from_table(&*table).is_some()
}

/// For the comparison of sums (A5): the sum alone.
///
/// # Safety
/// The pointer is good for its length.
#[no_mangle]
unsafe extern "C" fn chaffmoor_part_sum(bytes: *const u8, length: usize, words: usize) -> u16 {
    if length > 65_535 || words > length / 2 {
        return 0;
    }
    second::words_sum(&slice::from_raw_parts(bytes, length)[..2 * words])
}
