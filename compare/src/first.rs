//! The first program, through its C interface (chaffmoor.h), and its sum by itself (crates/bench_parts). The structs
//! are those of the second program's `table` module, so that both programs' tables are of one type and `==` compares
//! them word by word.

use crate::layout::{Closings, Table, SLOTS};
use second::{Clock, Closing};

/// `chaffmoor_message_reply`.
#[repr(C)]
pub(crate) struct MessageReply {
    pub answer: u8,
    pub length: usize,
    pub closed: usize,
}

/// `chaffmoor_checkpoint_written`.
#[repr(C)]
pub(crate) struct CheckpointWritten {
    pub answer: u8,
    pub length: usize,
}

/// `chaffmoor_checkpoint_read`.
#[repr(C)]
pub(crate) struct CheckpointRead {
    pub answer: u8,
    pub calls: usize,
    pub connections: usize,
}

extern "C" {
    fn chaffmoor_read_roster(table: *mut Table, roster: *const u8, roster_length: usize) -> u8;
    fn chaffmoor_handle(
        table: *mut Table,
        message: *const u8,
        message_length: usize,
        reply: *mut u8,
        reply_length: usize,
        time: u32,
        period: u32,
        closings: *mut Closing,
    ) -> MessageReply;
    fn chaffmoor_write_checkpoint(
        table: *const Table,
        checkpoint: *mut u8,
        checkpoint_length: usize,
    ) -> CheckpointWritten;
    fn chaffmoor_read_checkpoint(
        table: *mut Table,
        salvage: u32,
        roster: *const u8,
        roster_length: usize,
        checkpoint: *const u8,
        checkpoint_length: usize,
    ) -> CheckpointRead;
    fn chaffmoor_part_sum(bytes: *const u8, length: usize, words: usize) -> u16;
}

/// A roster's answer. The table is afterwards the roster's, whatever it was.
pub fn read_roster(table: &mut Table, bytes: &[u8]) -> u8 {
    // SAFETY: both pointers are good, and the table and the bytes do not overlap; the library keeps neither.
    unsafe { chaffmoor_read_roster(table, bytes.as_ptr(), bytes.len()) }
}

/// What a message gets: its answer, the reply's length (0 where none is sent), and how many closings were written.
#[derive(Clone, Copy, PartialEq, Eq, Debug)]
pub struct Replied {
    pub answer: u8,
    pub length: usize,
    pub closed: usize,
}

/// Closings that nobody has written to.
pub const NO_CLOSINGS: Closings = [Closing { slot: 0, address: 0 }; SLOTS];

/// Handles a message. The table is changed in place.
pub fn handle(table: &mut Table, message: &[u8], reply: &mut [u8], clock: Clock, closings: &mut Closings) -> Replied {
    let (bytes, length) = (message.as_ptr(), message.len());
    let (buffer, room) = (reply.as_mut_ptr(), reply.len());
    let (Clock { time, period }, row) = (clock, closings.as_mut_ptr());
    // SAFETY: all pointers are good for their lengths and do not overlap; the library keeps none.
    let done = unsafe { chaffmoor_handle(table, bytes, length, buffer, room, time, period, row) };
    Replied {
        answer: done.answer,
        length: done.length,
        closed: done.closed,
    }
}

/// The same at time 0 with period 0, which close nothing: answer and length.
pub fn handle_at_0(table: &mut Table, message: &[u8], reply: &mut [u8]) -> (u8, usize) {
    let done = handle(table, message, reply, Clock::ZERO, &mut NO_CLOSINGS.clone());
    (done.answer, done.length)
}

/// The answer and the checkpoint's length, 0 where it is refused.
pub fn write_checkpoint(table: &Table, checkpoint: &mut [u8]) -> (u8, usize) {
    // SAFETY: both pointers are good, and the table and the buffer do not overlap; the library keeps neither.
    let written = unsafe { chaffmoor_write_checkpoint(table, checkpoint.as_mut_ptr(), checkpoint.len()) };
    (written.answer, written.length)
}

/// The answer, and how many calls and connections were dropped. The table is afterwards the one read, whatever it was.
pub fn read_checkpoint(table: &mut Table, salvage: bool, roster: &[u8], checkpoint: &[u8]) -> (u8, usize, usize) {
    let (bytes, length) = (checkpoint.as_ptr(), checkpoint.len());
    // 1 is salvage, and every other number plain: which one depends on the checkpoint, so that many are tried.
    let plain = [0, 2, 0x100, 0x101, u32::MAX][length % 5];
    let salvage = if salvage { 1 } else { plain };
    // SAFETY: all pointers are good for their lengths, and the table overlaps with nothing; the library keeps none.
    let read = unsafe { chaffmoor_read_checkpoint(table, salvage, roster.as_ptr(), roster.len(), bytes, length) };
    (read.answer, read.calls, read.connections)
}

/// The one's complement sum of the first words of the bytes.
pub fn words_sum(bytes: &[u8], words: usize) -> u16 {
    // SAFETY: the pointer is good for `len` bytes, and the library only reads them.
    unsafe { chaffmoor_part_sum(bytes.as_ptr(), bytes.len(), words) }
}
