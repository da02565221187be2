//! Every class in every kind of message: an object of each of the 256 classes, of several C-Types and lengths, before
//! the other objects, between them and behind them; and two of it.

use crate::both;
use crate::build::{self, object, Connection, Fields, Header, Record, Roster, Sum, C, D, NOTIFY, PATH, PATH_TEAR, R};
use crate::form::{self, Form, OBJECTS, SKIPPED};
use crate::full::{send, Tables};
use crate::random::Random;
use crate::tally::Tally;
use crate::trials::hex;
use second::Clock;
use std::collections::BTreeSet;

const SENDER: u32 = 0x0a00_0001;
const ENDPOINT: u32 = 0x0a00_0002;
const OLD: (u16, &[u8]) = (5, b"old");
const NEW: (u16, &[u8]) = (6, b"new");
const BUFFER: usize = 128;

const C_TYPES: [u8; 5] = [0, 1, 2, 7, 255];
/// With the object's header. Every object of 01's table has one of these.
const LENGTHS: [usize; 5] = [4, 8, 12, 16, 20];
/// The C-Types and lengths of 01's table.
const FORMS: [(u8, usize); 5] = [(7, 16), (1, 12), (7, 12), (1, 8), (7, 8)];
/// Length fields that are 7 wherever the object stands: under 4, no multiple of 4, past the end of any message.
const WRONG_LENGTHS: [u16; 7] = [0, 1, 3, 5, 6, 7, 65_532];

const PLACES: [&str; 3] = ["first", "in the middle", "last"];

/// A message of no fault, and its answer.
struct Base {
    name: &'static str,
    kind: u8,
    objects: Vec<Vec<u8>>,
    answer: u8,
}

fn bases() -> [Base; 7] {
    let notify = |status, (call, name): (u16, &[u8])| {
        let mut fields = fields(0, call);
        (fields.status, fields.name) = (status, name.to_vec());
        fields.request()
    };
    let base = |name, kind, objects, answer| Base {
        name,
        kind,
        objects,
        answer,
    };
    [
        base("open", NOTIFY, notify(R | C, NEW), 20),
        base("open without names", NOTIFY, notify(R | C, (0, b"")), 20),
        base("close", NOTIFY, notify(R | C | D, OLD), 22),
        base("Path", PATH, fields(2, OLD.0).connection(), 23),
        base("Path of six objects", PATH, fields(2, OLD.0).request(), 23),
        base("PathTear", PATH_TEAR, fields(1, 0).connection(), 25),
        base("PathTear of six objects", PATH_TEAR, fields(1, 0).request(), 25),
    ]
}

fn fields(tunnel: u16, call: u16) -> Fields {
    Fields {
        endpoint: ENDPOINT,
        sender: SENDER,
        tunnel,
        call,
        ..Fields::default()
    }
}

/// One customer, its call OLD, and a connection of Call ID 0.
fn tables(random: &mut Random) -> Result<Tables, String> {
    let record = Record {
        address: SENDER,
        guarantee: 1,
        limit: 2,
        spare: 0,
    };
    let roster = Roster {
        form: 1,
        address: ENDPOINT,
        epoch: 7,
        records: vec![record],
    };
    let (_, first, second) = both::roster(&roster.bytes(), random)?;
    let mut tables = Tables { first, second };
    let standalone = Connection {
        endpoint: ENDPOINT,
        tunnel: 1,
        extended: 0,
        sender: SENDER,
        lsp: 0,
    };
    let open = build::open(ENDPOINT, SENDER, OLD.0, OLD.1);
    send(&mut tables, Clock::ZERO, &open, 20, random)?;
    send(&mut tables, Clock::ZERO, &build::path(standalone, 0), 23, random)?;
    Ok(tables)
}

/// An object as it is put in, how often, and whether its length goes past the message's end by 4.
struct Extra {
    bytes: Vec<u8>,
    twice: bool,
    past: bool,
}

fn extras(class: u8, random: &mut Random) -> Vec<Extra> {
    let once = |bytes| Extra {
        bytes,
        twice: false,
        past: false,
    };
    let mut extras = Vec::new();
    for length in LENGTHS {
        extras.extend(C_TYPES.map(|c_type| once(object(class, c_type, &attribute_body(length)))));
        extras.push(once(object(class, random.byte(), &random.bytes(length - 4))));
        extras.push(once(object(class, 7, &random.bytes(length - 4))));
    }
    for (c_type, length) in FORMS {
        let bytes = object(class, c_type, &attribute_body(length));
        for (twice, past) in [(true, false), (false, true)] {
            let bytes = bytes.clone();
            extras.push(Extra { bytes, twice, past });
        }
    }
    for length in WRONG_LENGTHS {
        let mut bytes = object(class, *random.pick(&C_TYPES), &attribute_body(8));
        bytes[..2].copy_from_slice(&length.to_be_bytes());
        extras.push(once(bytes));
    }
    extras
}

/// A body of this object length that is right for a SESSION_ATTRIBUTE; the others of 01's table can hold anything.
fn attribute_body(length: usize) -> Vec<u8> {
    let mut body = vec![b'n'; length - 4];
    if let Some(size) = body.get_mut(3) {
        *size = (length - 8) as u8;
    }
    body
}

/// The message with the object in it, and where the object starts.
fn with(base: &Base, place: usize, extra: &Extra) -> (Vec<u8>, usize) {
    let index = [0, base.objects.len() / 2, base.objects.len()][place];
    let mut objects = base.objects.clone();
    objects.insert(index, extra.bytes.clone());
    if extra.twice {
        objects.push(extra.bytes.clone());
    }
    if extra.past {
        let past = objects[index..].iter().map(Vec::len).sum::<usize>() + 4;
        objects[index][..2].copy_from_slice(&(past as u16).to_be_bytes());
    }
    let start = 8 + objects[..index].iter().map(Vec::len).sum::<usize>();
    (build::message(Header::of(base.kind), &objects, Sum::Right), start)
}

/// Compares each of these classes in every message and place.
pub fn run(classes: impl Iterator<Item = u8>, random: &mut Random, tally: &mut Tally) -> Result<(), String> {
    let tables = tables(random)?;
    for class in classes {
        for extra in extras(class, random) {
            everywhere(&extra, &tables, random, tally).map_err(|what| format!("class {class}, {what}"))?;
        }
    }
    Ok(())
}

fn everywhere(extra: &Extra, tables: &Tables, random: &mut Random, tally: &mut Tally) -> Result<(), String> {
    for (number, base) in bases().iter().enumerate() {
        for (place, name) in PLACES.iter().enumerate() {
            let (message, start) = with(base, place, extra);
            let fault = compare(tables, &message, base.answer, random, tally)
                .map_err(|what| format!("{}, {name}: {what}\nmessage {}", base.name, hex(&message)))?;
            tally.classes.note(message[start + 2], number, place, fault);
        }
    }
    Ok(())
}

/// Both programs, and the ledger's reader: its fault, 0 where it finds none and the answer is the message's own.
fn compare(tables: &Tables, message: &[u8], own: u8, random: &mut Random, tally: &mut Tally) -> Result<u8, String> {
    let done = both::message((&tables.first, &tables.second), message, Clock::ZERO, BUFFER, random)?;
    let (fault, due) = match form::read(message, BUFFER, &[SENDER], |_| None) {
        Form::Fault(fault) => (fault, fault),
        _ => (0, own),
    };
    if done.answer != due {
        return Err(format!("both answer {}, {due} due", done.answer));
    }
    tally.message(done.answer, BUFFER);
    Ok(fault)
}

/// What has come: class, message, place, and the fault, 0 for none.
#[derive(Default)]
pub struct Classes {
    met: BTreeSet<(u8, usize, usize, u8)>,
}

impl Classes {
    fn note(&mut self, class: u8, base: usize, place: usize, fault: u8) {
        self.met.insert((class, base, place, fault));
    }

    pub fn count(&self) -> usize {
        self.met.len()
    }

    /// What each class has to have come to and has not.
    pub fn lacking(&self) -> Vec<String> {
        let mut lacking = Vec::new();
        for class in 0..=u8::MAX {
            for (number, base) in bases().iter().enumerate() {
                for (place, name) in PLACES.iter().enumerate() {
                    for &fault in due(class, base) {
                        if !self.met.contains(&(class, number, place, fault)) {
                            lacking.push(format!("class {class}, {}, {name}: never {fault}", base.name));
                        }
                    }
                }
            }
        }
        lacking
    }
}

/// The faults that an object of the class can be the cause of, 0 for none.
fn due(class: u8, base: &Base) -> &'static [u8] {
    if OBJECTS.iter().any(|object| object.0 == class) {
        let carried = base.objects.iter().any(|object| object[2] == class);
        return if carried { &[7, 9, 10] } else { &[0, 7, 9, 10] };
    }
    match class < 128 && !SKIPPED.contains(&class) {
        true => &[7, 8],
        false => &[0, 7],
    }
}

#[cfg(all(test, feature = "stand_in"))]
mod tests {
    use super::*;
    use crate::stand_in;

    fn tried(classes: impl Iterator<Item = u8>) -> Result<Vec<String>, String> {
        let mut tally = Tally::new(&[], &[], &[]);
        run(classes, &mut Random::new(1), &mut tally)?;
        Ok(tally.classes.lacking())
    }

    #[test]
    fn every_class_comes_to_what_it_can() {
        assert_eq!(tried(0..=255), Ok(Vec::new()));
    }

    #[test]
    fn a_class_that_does_not_come_is_missed() {
        let lacking = tried(240..=240).unwrap();
        for class in 0..=u8::MAX {
            let start = format!("class {class}, ");
            assert_eq!(lacking.iter().any(|line| line.starts_with(&start)), class != 240);
        }
    }

    /// A node that refuses one class more, ignored or skipped by 01.
    #[test]
    fn a_class_refused_in_error_is_found() {
        for class in [240, 128, 133, 0, 37] {
            stand_in::refuse(class);
            let found = tried(class..=class).unwrap_err();
            assert!(found.contains("first 8 length 0 closed 0, second 20 "), "{found}");
        }
    }
}
