//! Writes every kind of reply that the proved program sends, for another program to dissect (tools/dissect): a line
//! each, the answer and the reply's bytes in hex. Names of 1 to 32 bytes, so that every padding occurs.

use compare::build::{self, Connection, Record, Roster};
use compare::first;
use compare::made;
use second::table::Table;

const X: u32 = 0x0a00_0001;
const Y: u32 = 0x0a00_0003;
const END: u32 = 0x0a00_0002;

struct Node {
    table: Table,
}

impl Node {
    /// X may have two calls, Y sixty-four.
    fn new() -> Node {
        let record = |address, guarantee, limit| Record {
            address,
            guarantee,
            limit,
            spare: 0,
        };
        let roster = Roster {
            form: 1,
            address: END,
            epoch: 7,
            records: vec![record(X, 1, 2), record(Y, 0, 64)],
        };
        let mut table = Table::EMPTY;
        let answer = first::read_roster(&mut table, &roster.bytes());
        assert_eq!(answer, 0);
        Node { table }
    }

    /// Sends a message that has to be answered so, and writes the reply, if there is one.
    fn send(&mut self, message: &[u8], due: u8) {
        let mut reply = [0; 128];
        let (answer, length) = first::handle_at_0(&mut self.table, message, &mut reply);
        assert_eq!(answer, due);
        if length > 0 {
            let hex: String = reply[..length].iter().map(|byte| format!("{byte:02x}")).collect();
            println!("{answer} {hex}");
        }
    }
}

/// A connection of Y's, numbered.
fn connection(n: u16) -> Connection {
    Connection {
        endpoint: END,
        tunnel: n,
        extended: Y,
        sender: Y,
        lsp: n,
    }
}

fn main() {
    let mut node = Node::new();
    for size in 1..=32 {
        let name = vec![b'a' + size as u8 % 26; size];
        let id = size as u16;
        node.send(&build::open(END, Y, id, &name), 20);
        node.send(&build::open(END, Y, id, &name), 21);
        node.send(&build::open(END, Y, id, b"another one"), 30);
        node.send(&build::open(END, Y, 1000 + id, &name), 31);
        node.send(&build::close(END, Y, id, b"another one"), 33);
        node.send(&build::path(connection(id), id), 23);
        node.send(&build::close(END, Y, id, &name), 32);
        for n in 1..4 {
            node.send(&build::path(connection(100 * n + id), id), 23);
        }
        node.send(&build::path(connection(400 + id), id), 37);
        node.send(&build::path(connection(500 + id), 2000 + id), 35);
    }
    for call in 1..=2 {
        node.send(&build::open(END, X, call, &[b'x'; 9]), if call == 1 { 20 } else { 31 });
    }
    node.send(&build::open(END, X, 2, b"second"), 20);
    node.send(&build::open(END, X, 3, b"third"), 34);
    node.send(&build::close(END, X, 2, b"second"), 22);
    // Without names (A6): made, again, at the limit, by the made IDs.
    node.send(&build::nameless(END, X, (10, 1)), 20);
    node.send(&build::nameless(END, X, (10, 1)), 21);
    node.send(&build::nameless(END, X, (10, 2)), 34);
    node.send(&build::close(END, X, 2, &made::name(END, X, 2)), 22);
}
