//! The source of a stream's messages and buffer lengths.

use crate::build::{self, Fields, Sum, C, D, NOTIFY, PATH, R};
use crate::checksums;
use crate::damage;
use crate::encode;
use crate::intent::{self, Intent, Mode};
use crate::numbering::{self, Numbering};
use crate::random::Random;
use crate::tables;
use crate::tally::Tally;
use crate::values::Values;
use second::table::{Call, Table};

/// A message and what it was made of.
#[derive(Clone)]
pub struct Made {
    pub bytes: Vec<u8>,
    pub fields: Fields,
    /// Nothing was damaged, and the bytes are not random ones: the fields are what the bytes say.
    pub whole: bool,
    /// It is the message before it once more.
    pub again: bool,
    /// It is about the call whose last connection the message before it removed (A7).
    pub torn: bool,
}

impl Made {
    fn of(bytes: Vec<u8>, fields: Fields, whole: bool) -> Made {
        Made {
            bytes,
            fields,
            whole,
            again: false,
            torn: false,
        }
    }
}

/// A nameless request of these fields' pair (A6), with any numbers.
pub fn nameless(fields: &Fields, random: &mut Random) -> Made {
    let mut fields = Fields {
        call: 0,
        epoch: random.word() >> 8,
        identifier: random.word(),
        ..fields.clone()
    };
    fields.name.clear();
    whole(NOTIFY, fields, random)
}

/// A message of these fields, nothing of it damaged.
fn whole(kind: u8, fields: Fields, random: &mut Random) -> Made {
    let bytes = encode::message(kind, fields.clone(), random);
    Made::of(bytes, fields, true)
}

/// A message about a call that may be closed before it (A7): its retry, a setup with one of its IDs, its close, or a Path
/// under it.
pub fn about(call: &Call, random: &mut Random) -> Made {
    let mut fields = Fields {
        endpoint: call.endpoint,
        sender: call.sender,
        call: call.id as u16,
        tunnel: random.half(),
        extended: random.word(),
        lsp: random.half(),
        name: tables::name(call).to_vec(),
        epoch: call.epoch,
        identifier: call.identifier,
        status: R | C,
        ..Fields::default()
    };
    match random.below(8) {
        0 | 1 => return whole(PATH, fields, random),
        2 | 3 => fields.status |= D,
        4 => fields.call = 1 + (random.half() >> 1),
        5 => fields.name = random.long_id(12),
        6 if call.made == 1 => (fields.call, fields.name) = (0, Vec::new()),
        _ => {}
    }
    whole(NOTIFY, fields, random)
}

/// A message for the table as it stands. `trouble`: how many of a hundred are faulty or damaged.
pub fn message(
    mode: Mode,
    trouble: usize,
    values: &Values,
    table: &Table,
    random: &mut Random,
    tally: &mut Tally,
) -> Made {
    let mut by_table = |fields: &mut Fields, random: &mut Random| numbering::by_table(fields, table, random);
    numbered(mode, trouble, values, table, random, tally, &mut by_table)
}

/// The same with other numbers in its MESSAGE_ID.
pub fn numbered(
    mode: Mode,
    trouble: usize,
    values: &Values,
    table: &Table,
    random: &mut Random,
    tally: &mut Tally,
    numbering: Numbering,
) -> Made {
    let intent = random.weighted(mode);
    let (kind, mut fields) = intent::fields(intent, values, table, random);
    if !numbering::is_bound(intent) {
        numbering(&mut fields, random);
    }
    if kind != NOTIFY && random.chance(1, 3) {
        numbering::make_old(&mut fields, table, random);
    }
    let troubled = random.chance(trouble, 100);
    if troubled && random.chance(1, 8) {
        tally.damage("random bytes");
        return Made::of(random_bytes(random), fields, false);
    }
    let (fault, damage) = *random.pick(&[(true, false), (false, true), (true, true)]);
    if troubled && fault {
        encode::add_faults(&mut fields, values, random);
    }
    let mut bytes = encode::message(kind, fields.clone(), random);
    let damaged = troubled && damage;
    if damaged {
        damage::damage(&mut bytes, random, |name| tally.damage(name));
    } else {
        force_checksums(&mut bytes, table, random);
    }
    tally.intent(intent);
    Made::of(bytes, fields, !damaged)
}

/// One message in sixty gets the checksum FFFF, and two get a reply with it.
fn force_checksums(bytes: &mut [u8], table: &Table, random: &mut Random) {
    match random.below(60) {
        0 => checksums::make_own_ffff(bytes),
        1 | 2 => checksums::make_reply_ffff(bytes, table),
        _ => {}
    }
}

/// A message of good form, for tables that are handed in broken.
pub fn sound_message(values: &Values, table: &Table, random: &mut Random) -> Vec<u8> {
    let intent = *random.pick(&[
        Intent::OpenNew,
        Intent::NamelessNew,
        Intent::NamelessAgain,
        Intent::CloseOpen,
        Intent::PathNew,
        Intent::TearHeld,
    ]);
    let (kind, fields) = intent::fields(intent, values, table, random);
    let objects = if kind == NOTIFY {
        fields.request()
    } else {
        fields.connection()
    };
    build::message(build::Header::of(kind), &objects, Sum::Right)
}

/// Any bytes, 0 to 1,100 of them; half the time behind a header that passes.
fn random_bytes(random: &mut Random) -> Vec<u8> {
    let most = *random.pick(&[16, 100, 1100]);
    let size = random.between(0, most);
    if random.chance(1, 2) {
        return random.bytes(size);
    }
    let body = random.bytes(size / 4 * 4);
    let kind = *random.pick(&[build::PATH, build::PATH_TEAR, NOTIFY]);
    build::message(build::Header::of(kind), &[body], Sum::Right)
}

/// A buffer's length: mostly enough, sometimes any from 0 to 300.
pub fn buffer_length(random: &mut Random) -> usize {
    match random.below(100) {
        0..=3 => random.between(118, 129),
        4..=9 => random.between(0, 300),
        _ => random.between(128, 300),
    }
}
