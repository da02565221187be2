//! A7: calls that nobody refreshes.

use super::build::*;
use crate::table::Table;
use crate::{handle, Answered, Closing};

/// A message of four bytes, which is refused 3.
const CUT: &[u8] = &[0; 4];

fn closing(slot: u32, address: u32) -> Closing {
    Closing { slot, address }
}

/// The refreshes of the used slots.
fn refreshes(table: &Table) -> Vec<(usize, u32)> {
    table.used().map(|slot| (slot, table.calls[slot].refreshed)).collect()
}

/// X and Y, with enough for all.
fn roomy() -> TestNode {
    TestNode::of(&roster_2(&[(X, 0, 200), (Y, 0, 200)]))
}

/// The rows of the request: from 100 to 160, and what a refused message changes.
#[test]
fn a_refresh_keeps_a_call_and_another_goes() {
    let mut tested = roomy();
    assert_eq!(tested.ask_at(at(100, 10), &open(X, 5, b"kept")), 20);
    assert_eq!(tested.ask_at(at(110, 10), &open(Y, 6, b"gone")), 20);
    assert_eq!(refreshes(&tested.table), [(0, 100), (1, 110)]);
    // Five periods less a second.
    assert_eq!(tested.ask_at(at(149, 10), CUT), 3);
    assert_eq!((&tested.closings[..], tested.table.time), (&[][..], 149));
    assert_eq!(tested.ask_at(at(149, 10), &open(X, 5, b"kept")), 21);
    assert_eq!(refreshes(&tested.table), [(0, 149), (1, 110)]);
    assert_eq!(tested.ask_at(at(159, 10), CUT), 3);
    assert_eq!(tested.closings, []);
    // Five periods.
    assert_eq!(tested.ask_at(at(160, 10), CUT), 3);
    assert_eq!(tested.closings, [closing(1, Y)]);
    assert_eq!(refreshes(&tested.table), [(0, 149)]);
    assert_eq!((tested.table.time, tested.table.occupied[0]), (160, 1));
}

/// A buffer of 127 at time 1,000: 2, and neither time nor calls change.
#[test]
fn answer_2_changes_nothing() {
    let mut tested = roomy();
    assert_eq!(tested.ask_at(at(100, 10), &open(X, 5, b"kept")), 20);
    for message in [CUT, &open(X, 5, b"kept"), &open(Y, 5, b"new")] {
        let (answered, after) = handle(&tested.table, at(1000, 10), message, &mut [OLD; 127]);
        let due = Answered {
            answer: 2,
            length: 0,
            closings: Vec::new(),
        };
        assert_eq!((answered, after), (due, tested.table));
        assert_eq!(tested.node.answer(at(1000, 10), message, &mut [OLD; 127]).answer, 2);
        assert_eq!(tested.node.to_table(), tested.table);
    }
    // With a buffer that is enough, the same message closes it.
    assert_eq!(tested.ask_at(at(1000, 10), CUT), 3);
    assert_eq!(tested.closings, [closing(0, X)]);
}

#[test]
fn answer_1_changes_nothing() {
    let mut tested = roomy();
    assert_eq!(tested.ask_at(at(100, 10), &open(X, 5, b"a")), 20);
    let broken = Table {
        epoch: 1 << 24,
        ..tested.table
    };
    let (answered, after) = handle(&broken, at(1000, 10), CUT, &mut [OLD; 128]);
    assert_eq!((answered.answer, &answered.closings[..], after), (1, &[][..], broken));
}

/// A connection keeps its call, however old it is; an earlier time does not bring the node's back.
#[test]
fn a_connection_keeps_its_call() {
    let mut tested = roomy();
    assert_eq!(tested.ask_at(at(100, 10), &open(X, 5, b"lit")), 20);
    assert_eq!(tested.ask_at(at(100, 10), &path(X, 5, 1)), 23);
    assert_eq!(tested.ask_at(at(9999, 10), CUT), 3);
    assert_eq!((&tested.closings[..], tested.table.time), (&[][..], 9999));
    assert_eq!(tested.ask_at(at(5, 10), CUT), 3);
    assert_eq!((&tested.closings[..], tested.table.time), (&[][..], 9999));
    // Neither a Path nor a PathTear is a refresh.
    assert_eq!(tested.ask_at(at(5, 10), &path(X, 5, 1)), 24);
    assert_eq!(tested.ask_at(at(5, 10), &tear(X, 5, 1)), 25);
    assert_eq!(refreshes(&tested.table), [(0, 100)]);
    // Its own close comes too late, and so does a Path.
    let torn = tested.table;
    for (message, answer) in [(close(X, 5, b"lit"), 33), (path(X, 5, 1), 35), (tear(X, 5, 1), 15)] {
        let mut tested = TestNode::with(torn);
        assert_eq!(tested.ask_at(at(5, 10), &message), answer);
        assert_eq!(tested.closings, [closing(0, X)]);
    }
}

/// Connections of Call ID 0 are no call's.
#[test]
fn standalone_connections_keep_nothing() {
    let mut tested = roomy();
    assert_eq!(tested.ask_at(at(0, 1), &open(X, 5, b"a")), 20);
    assert_eq!(tested.ask_at(at(4, 1), &path(X, 0, 1)), 23);
    assert_eq!(tested.ask_at(at(5, 1), &path(X, 0, 1)), 24);
    assert_eq!(tested.closings, [closing(0, X)]);
    assert_eq!(tested.table.customers[0].places[0].taken, 1);
}

/// Before the message: a retry at the very end of five periods finds its call closed.
#[test]
fn a_retry_that_is_too_late() {
    let mut tested = roomy();
    assert_eq!(tested.ask_at(at(1, 10), &open(Y, 4, b"first")), 20);
    assert_eq!(tested.ask_at(at(100, 0), &open(X, 5, b"late")), 20);
    assert_eq!(tested.ask_at(at(100, 0), &nameless(X, 9, 42)), 20);
    assert_eq!(tested.ask_at(at(149, 10), CUT), 3);
    assert_eq!(tested.closings, [closing(0, Y)]);
    assert_eq!(refreshes(&tested.table), [(1, 100), (2, 100)]);
    // Both are listed, and the one that the message asks for is opened in the lowest free slot.
    let before = tested.table;
    assert_eq!(tested.ask_at(at(150, 10), &open(X, 5, b"late")), 20);
    assert_eq!(tested.closings, [closing(1, X), closing(2, X)]);
    assert_eq!(refreshes(&tested.table), [(0, 150)]);
    let mut tested = TestNode::with(before);
    assert_eq!(tested.ask_at(at(150, 10), &nameless(X, 9, 42)), 20);
    assert_eq!(tested.closings, [closing(1, X), closing(2, X)]);
    assert_eq!(
        (refreshes(&tested.table), tested.table.calls[0].made),
        (vec![(0, 150)], 1)
    );
    assert_eq!(tested.ask_at(at(199, 10), &nameless(X, 9, 42)), 21);
    assert_eq!(refreshes(&tested.table), [(0, 199)]);
}

/// 21 refreshes the call that it is about, by the four or by the two numbers, and no other.
#[test]
fn what_refreshes() {
    let mut tested = roomy();
    assert_eq!(tested.ask_at(at(10, 0), &open(X, 7, b"named")), 20);
    assert_eq!(tested.ask_at(at(10, 0), &nameless(X, 9, 42)), 20);
    assert_eq!(tested.ask_at(at(10, 0), &open(Y, 7, b"named")), 20);
    assert_eq!(tested.ask_at(at(20, 0), &open(X, 7, b"named\0\0")), 21);
    assert_eq!(tested.ask_at(at(30, 0), &nameless(X, 9, 42)), 21);
    assert_eq!(refreshes(&tested.table), [(0, 20), (1, 30), (2, 10)]);
    // A made call by its names.
    assert_eq!(tested.ask_at(at(40, 0), &open(X, 1, b"0a0000010a0000020001")), 21);
    assert_eq!(refreshes(&tested.table), [(0, 20), (1, 40), (2, 10)]);
    // The node's time, not the caller's.
    assert_eq!(tested.ask_at(at(3, 0), &open(Y, 7, b"named")), 21);
    assert_eq!(tested.ask_at(at(3, 0), &open(Y, 8, b"new")), 20);
    assert_eq!(refreshes(&tested.table), [(0, 20), (1, 40), (2, 40), (3, 40)]);
    // Nothing else does.
    let others = [
        (open(X, 7, b"other"), 30),
        (open(X, 8, b"named"), 31),
        (close(X, 7, b"other"), 33),
        (path(X, 7, 1), 23),
        (path(X, 7, 1), 24),
        (path(X, 0, 1), 14),
        (path(X, 9, 9), 35),
        (close(X, 7, b"named"), 32),
        (tear(X, 7, 1), 25),
        (tear(X, 7, 1), 15),
    ];
    for (message, answer) in others {
        assert_eq!(tested.ask_at(at(1000, 0), &message), answer);
        assert_eq!(refreshes(&tested.table), [(0, 20), (1, 40), (2, 40), (3, 40)]);
    }
}

#[test]
fn a_period_of_0_closes_none() {
    let mut tested = roomy();
    assert_eq!(tested.ask_at(at(0, 1), &open(X, 5, b"a")), 20);
    assert_eq!(tested.ask_at(at(u32::MAX, 0), CUT), 3);
    assert_eq!((&tested.closings[..], tested.table.time), (&[][..], u32::MAX));
    assert_eq!(tested.ask_at(at(0, 1), CUT), 3);
    assert_eq!(tested.closings, [closing(0, X)]);
}

/// Five times the period does not go round at 2^32.
#[test]
fn periods_above_all_times() {
    let opened = || {
        let mut tested = roomy();
        assert_eq!(tested.ask(&open(X, 5, b"a")), 20);
        tested
    };
    // 5 x 858,993,459 is 2^32 less 1; one more makes 2^32 and 4.
    let fifth = 858_993_459;
    for (time, period, closes) in [
        (u32::MAX, fifth, true),
        (u32::MAX - 1, fifth, false),
        (u32::MAX, fifth + 1, false),
        (u32::MAX, 1 << 30, false),
        (u32::MAX, 1 << 31, false),
        (u32::MAX, u32::MAX, false),
        (u32::MAX, 0xcccc_cccd, false),
    ] {
        let mut tested = opened();
        assert_eq!(tested.ask_at(at(time, period), CUT), 3);
        assert_eq!(!tested.closings.is_empty(), closes, "{time} {period}");
    }
}

/// Two hundred at once, in slot order, and those between them that have connections stay.
#[test]
fn many_at_once() {
    let mut tested = roomy();
    for id in 1..=200 {
        let sender = if id % 3 == 0 { X } else { Y };
        assert_eq!(tested.ask_at(at(7, 0), &open(sender, id, &id.to_be_bytes())), 20);
    }
    let full = tested.table;
    let due = (0..200).map(|slot| closing(slot, if (slot + 1) % 3 == 0 { X } else { Y }));
    let due: Vec<Closing> = due.collect();
    assert_eq!(tested.ask_at(at(12, 1), CUT), 3);
    assert_eq!((&tested.closings, tested.table.used().count()), (&due, 0));
    let mut tested = TestNode::with(full);
    assert_eq!(tested.ask_at(at(7, 1), &path(Y, 1, 1)), 23);
    assert_eq!(tested.ask_at(at(7, 1), &path(X, 99, 2)), 23);
    assert_eq!(tested.ask_at(at(11, 1), &open(Y, 200, &[0, 200])), 21);
    assert_eq!(tested.ask_at(at(12, 1), CUT), 3);
    let kept = [0, 98, 199];
    let due: Vec<Closing> = due.into_iter().filter(|one| !kept.contains(&one.slot)).collect();
    assert_eq!(tested.closings, due);
    assert_eq!(refreshes(&tested.table), [(0, 7), (98, 7), (199, 11)]);
    // The lowest free slot is one that was below a used one.
    assert_eq!(tested.ask_at(at(12, 1), &open(Y, 2, b"again")), 20);
    assert_eq!(refreshes(&tested.table), [(0, 7), (1, 12), (98, 7), (199, 11)]);
}

/// What is closed leaves room for others, with the very message that it was closed before.
#[test]
fn share_and_ids_are_free_again() {
    let mut tested = TestNode::two();
    tested.open_many(X, 2);
    assert_eq!(tested.ask_at(at(4, 1), &open(X, 3, b"c")), 34);
    assert_eq!(tested.ask_at(at(5, 1), &open(X, 3, b"c")), 20);
    assert_eq!(tested.closings, [closing(0, X), closing(1, X)]);
    // A short ID, a name and two numbers.
    let mut tested = roomy();
    assert_eq!(tested.ask(&open(X, 5, b"name")), 20);
    assert_eq!(tested.ask(&nameless(X, 9, 42)), 20);
    let opened = tested.table;
    for message in [open(X, 5, b"other"), open(X, 6, b"name"), nameless(X, 9, 42)] {
        let mut tested = TestNode::with(opened);
        assert_eq!(tested.ask_at(at(5, 1), &message), 20);
        assert_eq!(tested.closings.len(), 2);
    }
}

/// Every message that is not refused 1 or 2 raises the time, the empty table's too.
#[test]
fn the_empty_table_has_a_time() {
    let mut tested = TestNode::with(Table::EMPTY);
    assert_eq!(tested.ask_at(at(77, 3), &open(X, 5, b"a")), 11);
    assert_eq!(
        tested.table,
        Table {
            time: 77,
            ..Table::EMPTY
        }
    );
    assert_eq!(tested.ask_at(at(76, 3), CUT), 3);
    assert_eq!(tested.table.time, 77);
}
