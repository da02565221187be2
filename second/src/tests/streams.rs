//! Long streams of messages, held against the ledger of 01, "The ledger behind demand 3".

use super::build::*;

/// A small random source; the same numbers every time.
struct Dice(u64);

impl Dice {
    fn below(&mut self, bound: u64) -> u64 {
        self.0 ^= self.0 << 13;
        self.0 ^= self.0 >> 7;
        self.0 ^= self.0 << 17;
        self.0 % bound
    }
}

/// An entry: end point, sender, short ID, long ID.
type Entry = (u32, u32, u16, Vec<u8>);

struct Ledger {
    /// Guarantee and limit of each customer, and the roster's total.
    shares: [(usize, usize); 2],
    total: usize,
    entries: Vec<Entry>,
    opened: [usize; 2],
    closed: [usize; 2],
}

const CUSTOMERS: [u32; 2] = [X, Y];

impl Ledger {
    fn new(shares: [(usize, usize); 2], total: usize) -> Ledger {
        Ledger {
            shares,
            total,
            entries: Vec::new(),
            opened: [0; 2],
            closed: [0; 2],
        }
    }

    fn count(&self, customer: usize) -> usize {
        let sender = CUSTOMERS[customer];
        self.entries.iter().filter(|e| e.1 == sender).count()
    }

    /// What a setup without a fault of form is answered.
    fn expects(&self, customer: usize, entry: &Entry) -> u8 {
        let mut pair = self.entries.iter().filter(|e| (e.0, e.1) == (entry.0, entry.1));
        let s: usize = (0..2).map(|i| self.count(i).max(self.shares[i].0)).sum();
        let (count, (guarantee, limit)) = (self.count(customer), self.shares[customer]);
        if self.entries.contains(entry) {
            21
        } else if pair.clone().any(|e| e.3 == entry.3) {
            31
        } else if pair.any(|e| e.2 == entry.2) {
            30
        } else if count == limit || (count >= guarantee && s == self.total) {
            34
        } else {
            20
        }
    }

    fn note(&mut self, answer: u8, customer: usize, entry: Entry) {
        if answer == 20 {
            self.opened[customer] += 1;
            self.entries.push(entry);
        } else if answer == 22 {
            self.closed[customer] += 1;
            let at = self.entries.iter().position(|e| *e == entry);
            self.entries.remove(at.expect("the closed call was open"));
        }
    }
}

/// One random message to the node and the ledger.
fn step(dice: &mut Dice, tested: &mut TestNode, ledger: &mut Ledger) -> u8 {
    let customer = usize::from(dice.below(3) > 0);
    let sender = CUSTOMERS[customer];
    // Somewhat more IDs than calls.
    let ids = ledger.total as u64 + 6;
    let id = 1 + dice.below(ids) as u16;
    let lsp = dice.below(6) as u16;
    match dice.below(10) {
        0 => return tested.ask(&path(sender, 0, lsp)),
        1..=2 => return tested.ask(&path(sender, id % 8, lsp)),
        3 => return tested.ask(&tear(sender, 0, lsp)),
        _ => {}
    }
    // Mostly the name that goes with the ID.
    let name = match dice.below(6) {
        0 => vec![b'n', 1 + dice.below(ids) as u8],
        _ => vec![b'n', id as u8],
    };
    let entry = (END, sender, id, name);
    let answer = if dice.below(4) == 0 {
        tested.ask(&close(sender, id, &entry.3))
    } else {
        let expected = ledger.expects(customer, &entry);
        let answer = tested.ask(&open(sender, id, &entry.3));
        assert_eq!(answer, expected);
        answer
    };
    ledger.note(answer, customer, entry);
    answer
}

#[test]
fn the_ledger_agrees() {
    agrees(6, 1500, &roster(&[(X, 1, 8), (Y, 58, 60)]), || {
        Ledger::new([(1, 8), (58, 60)], 64)
    });
}

#[test]
fn the_ledger_agrees_in_form_2() {
    agrees(2, 3000, &roster_2(&[(X, 1, 8), (Y, 194, 196)]), || {
        Ledger::new([(1, 8), (194, 196)], 200)
    });
}

fn agrees(seeds: u64, messages: usize, roster: &[u8], ledger: fn() -> Ledger) {
    let (mut seen, mut full) = ([0usize; 64], 0);
    for seed in 1..=seeds {
        let mut dice = Dice(seed.wrapping_mul(0x9e37_79b9_7f4a_7c15));
        let mut tested = TestNode::of(roster);
        let mut ledger = ledger();
        for _ in 0..messages {
            let answer = step(&mut dice, &mut tested, &mut ledger);
            seen[usize::from(answer)] += 1;
            full += usize::from(answer == 34 && tested.s() == ledger.total);
            for customer in 0..2 {
                let count = ledger.count(customer);
                assert_eq!(ledger.opened[customer], count + ledger.closed[customer]);
            }
        }
        let held = tested.table.calls.iter().filter(|call| call.id != 0).count();
        assert_eq!(held, ledger.entries.len());
    }
    for answer in [14, 15, 20, 21, 22, 23, 24, 25, 30, 31, 32, 33, 34, 35, 37] {
        assert!(seen[answer] > 0, "answer {answer} came up");
    }
    assert!(full > 0, "a setup without room came up");
}

#[test]
fn any_bytes_get_an_answer() {
    let mut dice = Dice(0x1234_5678_9abc_def1);
    let mut tested = TestNode::two();
    let sound = [open(X, 5, b"ab"), close(X, 5, b"ab"), path(X, 5, 1), tear(X, 0, 1)];
    for _ in 0..8000 {
        let mut message = sound[dice.below(4) as usize].clone();
        for _ in 0..dice.below(4) {
            let at = dice.below(message.len() as u64) as usize;
            message[at] = match dice.below(3) {
                0 => dice.below(256) as u8,
                1 => message[at] ^ 1 << dice.below(8),
                _ => message[at].wrapping_add(4),
            };
        }
        if dice.below(8) == 0 {
            message.truncate(dice.below(message.len() as u64) as usize);
        }
        tested.ask(&message);
    }
}
