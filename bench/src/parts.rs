//! The proved program's reading and rule check by themselves (crates/bench_parts), beside the second program's.

use crate::clock::LONG;
use crate::inputs::{self, Calls};
use crate::output;
use compare::build::{self, Fields, Header, Sum};
use second::table::Table;
use second::Node;

extern "C" {
    fn chaffmoor_part_read(message: *const u8, length: usize) -> u8;
    fn chaffmoor_part_rules(table: *const Table) -> bool;
}

/// The fault of form that the bytes alone show, 0 where there is none.
pub fn read(message: &[u8]) -> u8 {
    // SAFETY: the pointer is good for `len` bytes, and the library only reads them.
    unsafe { chaffmoor_part_read(message.as_ptr(), message.len()) }
}

/// Whether the proved program's rule check holds.
pub fn rules_hold(table: &Table) -> bool {
    // SAFETY: the pointer is good for a table, and the library only reads it.
    unsafe { chaffmoor_part_rules(table) }
}

/// The rule check of a table.
pub fn measure_rules(calls: Calls) {
    let table = calls.table();
    let mut first = || u64::from(rules_hold(&table));
    let mut second = || u64::from(Node::from_table(&table).is_some());
    assert_eq!((first(), second()), (1, 1));
    let name = format!("(e) rule check alone, {}", calls.name("0 calls"));
    output::times(&name, LONG.in_turns(&mut first, &mut second), None);
}

/// Reading messages, each of which is read to its end.
pub fn measure_reading() {
    for (name, message) in messages() {
        let mut first = || u64::from(read(&message));
        let mut second = || u64::from(second::read_message(&message).err().unwrap_or(0));
        assert_eq!((first(), second()), (0, 0));
        let name = format!("(f) reading alone, {name}");
        output::times(&name, LONG.in_turns(&mut first, &mut second), None);
    }
}

/// Short and long ones, few and many objects, with and without a checksum.
pub fn messages() -> Vec<(&'static str, Vec<u8>)> {
    let fields = Fields {
        endpoint: inputs::ENDPOINT,
        sender: 0x0a00_0001,
        call: 5,
        status: build::R | build::C,
        name: b"transfer-0001".to_vec(),
        ..Fields::default()
    };
    let request = fields.request();
    let notify = |objects: &[Vec<u8>], sum| build::message(Header::of(build::NOTIFY), objects, sum);
    let with = |object: Vec<u8>, times: usize| {
        let mut objects = request.clone();
        objects.extend(vec![object; times]);
        notify(&objects, Sum::Right)
    };
    let room = 1024 - notify(&request, Sum::Absent).len();
    let one_long = with(build::object(14, 1, &vec![7; room - 4]), 1);
    let many_short = with(build::object(14, 1, &[]), room / 4);
    let path = build::message(Header::of(build::PATH), &fields.connection(), Sum::Right);
    vec![
        ("Notify, no checksum", notify(&request, Sum::Absent)),
        ("Notify", notify(&request, Sum::Right)),
        ("Path", path),
        ("1,024 bytes, 7 objects", one_long),
        ("1,024 bytes, many objects", many_short),
    ]
}
