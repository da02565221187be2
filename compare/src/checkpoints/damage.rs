//! Damage to the records of a checkpoint, and to its bytes. Each says whether it could do it.

use super::calls;
use super::connections;
use super::duplicates;
use super::parts::{Parts, CALL, CONNECTION, HEAD};
use crate::build::Roster;
use crate::random::Random;

/// Damage to records, under the roster that the checkpoint was written under.
pub type Damage = fn(&mut Parts, &Roster, &mut Random) -> bool;

pub fn of_records() -> impl Iterator<Item = &'static (&'static str, Damage)> {
    calls::DAMAGES
        .iter()
        .chain(connections::DAMAGES)
        .chain(duplicates::DAMAGES)
}

type ByteDamage = fn(&mut Vec<u8>, &mut Random) -> bool;

pub const OF_BYTES: &[(&str, ByteDamage)] = &[
    ("bytes: cut", cut),
    ("bytes: cut by whole records", cut_records),
    ("bytes: lengthened", lengthened),
    ("bytes: counts changed", |checkpoint, random| {
        counts_changed(checkpoint, random)
    }),
    ("bytes: counts changed, the length right", |checkpoint, random| {
        counts_traded(checkpoint, random)
    }),
    ("bytes: form changed", |checkpoint, random| {
        form_changed(checkpoint, random)
    }),
    ("bytes: any bits flipped", |checkpoint, random| {
        bits_flipped(checkpoint, random)
    }),
    ("bytes: moved by one", |checkpoint, random| moved(checkpoint, random)),
];

fn cut(checkpoint: &mut Vec<u8>, random: &mut Random) -> bool {
    let few = random.between(1, checkpoint.len().min(4));
    let any = random.between(1, checkpoint.len());
    checkpoint.truncate(checkpoint.len() - *random.pick(&[few, any]));
    true
}

fn cut_records(checkpoint: &mut Vec<u8>, random: &mut Random) -> bool {
    let size = *random.pick(&[CALL, CONNECTION]);
    if checkpoint.len() < HEAD + size {
        return false;
    }
    checkpoint.truncate(checkpoint.len() - size);
    true
}

fn lengthened(checkpoint: &mut Vec<u8>, random: &mut Random) -> bool {
    let few = random.between(1, 4);
    let more = *random.pick(&[few, few, CALL, CONNECTION, 300]);
    checkpoint.extend(random.bytes(more));
    true
}

fn head(checkpoint: &[u8]) -> (u16, u16) {
    let number = |at: usize| u16::from_be_bytes([checkpoint[at], checkpoint[at + 1]]);
    (number(0), number(2))
}

fn set_head(checkpoint: &mut [u8], calls: u16, connections: u16) {
    checkpoint[..2].copy_from_slice(&calls.to_be_bytes());
    checkpoint[2..4].copy_from_slice(&connections.to_be_bytes());
}

fn counts_changed(checkpoint: &mut [u8], random: &mut Random) -> bool {
    let (calls, connections) = head(checkpoint);
    match random.below(4) {
        0 => set_head(checkpoint, calls ^ 1 << random.below(12), connections),
        1 => set_head(checkpoint, calls, connections ^ 1 << random.below(16)),
        2 => set_head(checkpoint, calls, random.half()),
        _ => set_head(checkpoint, 0x1000 | random.half() & 0xfff, connections),
    }
    head(checkpoint) != (calls, connections)
}

/// Eighteen calls are as long as fifty-five connections: the records are read at other places.
fn counts_traded(checkpoint: &mut [u8], random: &mut Random) -> bool {
    let (calls, connections) = head(checkpoint);
    if connections >= 55 && random.chance(1, 2) {
        set_head(checkpoint, calls + 18, connections - 55);
    } else if calls & 0xfff >= 18 {
        set_head(checkpoint, calls - 18, connections + 55);
    } else {
        return false;
    }
    true
}

fn form_changed(checkpoint: &mut [u8], random: &mut Random) -> bool {
    let form = (2 + random.below(15) as u8) % 16;
    checkpoint[0] = form << 4 | checkpoint[0] & 15;
    true
}

fn bits_flipped(checkpoint: &mut [u8], random: &mut Random) -> bool {
    for _ in 0..random.between(1, 6) {
        let at = random.below(checkpoint.len());
        checkpoint[at] ^= 1 << random.below(8);
    }
    true
}

/// Everything behind the head one byte on.
fn moved(checkpoint: &mut [u8], _: &mut Random) -> bool {
    if checkpoint.len() == HEAD {
        return false;
    }
    checkpoint[HEAD..].rotate_right(1);
    true
}
