//! A13: reading a checkpoint under a roster. Refusals: the roster's 40 to 46, then 70, 71 and, in plain only, 72.

use super::layout::{CallRecord, ConnectionRecord, Head, CALL, CONNECTION, FORM, HEAD};
use super::salvage::salvage;
use crate::roster::read_roster;
use crate::table::Table;

/// The answer, the table, and how many calls and connections were dropped. A refused roster gives the empty table,
/// a checkpoint refused 70 to 72 the roster's fresh one; both drop none.
pub fn read_checkpoint(salvages: bool, roster: &[u8], checkpoint: &[u8]) -> (u8, Table, usize, usize) {
    let (answer, fresh) = read_roster(roster);
    if answer != 0 {
        return (answer, fresh, 0, 0);
    }
    let (calls, connections) = match records(checkpoint) {
        Ok(records) => records,
        Err(refusal) => return (refusal, fresh, 0, 0),
    };
    let kept = salvage(&fresh, &calls, &connections);
    let dropped_calls = calls.len() - kept.calls.len();
    let dropped_connections = connections.len() - kept.connections.len();
    if !salvages && dropped_calls + dropped_connections > 0 {
        return (72, fresh, 0, 0);
    }
    (0, kept.to_table(), dropped_calls, dropped_connections)
}

type Records = (Vec<CallRecord>, Vec<ConnectionRecord>);

/// The records of a checkpoint, or 70 or 71.
fn records(checkpoint: &[u8]) -> Result<Records, u8> {
    let (head, records) = checkpoint.split_first_chunk::<HEAD>().ok_or(70)?;
    let head = Head::of(head);
    if checkpoint.len() != head.length() {
        return Err(70);
    }
    if head.form != FORM {
        return Err(71);
    }
    let (calls, connections) = records.split_at(CALL * head.calls);
    let calls = calls.chunks_exact(CALL).map(CallRecord::of);
    let connections = connections.chunks_exact(CONNECTION);
    Ok((calls.collect(), connections.map(ConnectionRecord::of).collect()))
}
