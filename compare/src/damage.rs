//! Damage to a message's bytes, one function a kind. Each says whether it found something to damage.

// All damages have one type, those that keep the length too.
#![allow(clippy::ptr_arg)]

use crate::build::{self, Sum};
use crate::random::Random;
use std::ops::Range;

pub type Damage = fn(&mut Vec<u8>, &mut Random) -> bool;

pub const DAMAGES: [(&str, Damage); 23] = [
    ("bits turned over", turn_bits),
    ("cut anywhere", cut),
    ("cut by words", cut_words),
    ("bytes put behind", lengthen),
    ("words put behind", lengthen_words),
    ("65,536 bytes put behind", lengthen_far),
    ("version", version),
    ("type", kind),
    ("length field", length_field),
    ("checksum field", checksum_field),
    ("object length under 4", object_length_small),
    ("object length no multiple of 4", object_length_odd),
    ("object past the end", object_length_past),
    ("object length of another object", object_length_other),
    ("object longer by words", object_longer),
    ("object shorter by words", object_shorter),
    ("C-Type", c_type),
    ("class refused", class_refused),
    ("class at random", class_any),
    ("padding", padding),
    ("name length", name_length),
    ("object missing", missing),
    ("object repeated", repeated),
];

/// One to three damages, and half the time the fix-up, so that the tests behind the header's are reached. Says which
/// damages took place.
pub fn damage(bytes: &mut Vec<u8>, random: &mut Random, mut done: impl FnMut(&'static str)) {
    for _ in 0..*random.pick(&[1, 1, 1, 1, 2, 2, 3]) {
        let (name, damage) = *random.pick(&DAMAGES);
        let mended = random.chance(3, 4);
        let header_only = ["version", "type", "length field", "checksum field"].contains(&name);
        if damage(bytes, random) {
            done(name);
        }
        if mended && !header_only {
            mend(bytes, random);
        }
    }
}

/// The fix-up: writes length field and checksum anew.
fn mend(bytes: &mut [u8], random: &mut Random) {
    build::write_length(bytes);
    if bytes.get(2..4).is_some_and(|field| field != [0, 0]) || random.chance(1, 2) {
        build::write_sum(bytes, Sum::Right);
    }
}

/// Where the objects are, as far as their lengths can be followed.
pub fn objects(bytes: &[u8]) -> Vec<Range<usize>> {
    let mut found = Vec::new();
    let mut at = 8;
    while at + 4 <= bytes.len() {
        let length = usize::from(u16::from_be_bytes([bytes[at], bytes[at + 1]]));
        if length < 4 || at + length > bytes.len() {
            break;
        }
        found.push(at..at + length);
        at += length;
    }
    found
}

fn some_object(bytes: &[u8], random: &mut Random) -> Option<Range<usize>> {
    let objects = objects(bytes);
    (!objects.is_empty()).then(|| random.pick(&objects).clone())
}

/// Does something to one object of the message.
fn with_object(
    bytes: &mut Vec<u8>,
    random: &mut Random,
    change: impl FnOnce(&mut Vec<u8>, Range<usize>, &mut Random) -> bool,
) -> bool {
    some_object(bytes, random).is_some_and(|object| change(bytes, object, random))
}

fn turn_bits(bytes: &mut Vec<u8>, random: &mut Random) -> bool {
    if bytes.is_empty() {
        return false;
    }
    for _ in 0..*random.pick(&[1, 1, 1, 2, 8]) {
        let at = random.below(bytes.len());
        bytes[at] ^= 1 << random.below(8);
    }
    true
}

fn cut(bytes: &mut Vec<u8>, random: &mut Random) -> bool {
    let whole = bytes.len();
    bytes.truncate(random.between(0, whole));
    bytes.len() < whole
}

fn cut_words(bytes: &mut Vec<u8>, random: &mut Random) -> bool {
    let whole = bytes.len();
    bytes.truncate(4 * random.between(0, whole / 4));
    bytes.len() < whole
}

fn lengthen(bytes: &mut Vec<u8>, random: &mut Random) -> bool {
    let count = random.between(1, 12);
    bytes.extend(random.bytes(count));
    true
}

fn lengthen_words(bytes: &mut Vec<u8>, random: &mut Random) -> bool {
    let count = 4 * random.between(1, 6);
    if random.chance(1, 2) {
        bytes.extend(random.bytes(count));
    } else {
        bytes.resize(bytes.len() + count, 0);
    }
    true
}

/// The length field, written anew, is then that of the message without them.
fn lengthen_far(bytes: &mut Vec<u8>, _: &mut Random) -> bool {
    bytes.resize(bytes.len() + 65_536, 0);
    true
}

fn version(bytes: &mut Vec<u8>, random: &mut Random) -> bool {
    if let Some(first) = bytes.first_mut() {
        *first ^= (random.between(1, 15) as u8) << 4;
    }
    !bytes.is_empty()
}

/// PathErr, Resv and other types, and any number; then the fix-up, else the checksum would be looked at first.
fn kind(bytes: &mut Vec<u8>, random: &mut Random) -> bool {
    let any = random.byte();
    let kind = *random.pick(&[0, 1, 2, 3, 4, 5, 6, 20, 21, 22, any]);
    if bytes.len() < 2 || bytes[1] == kind {
        return false;
    }
    bytes[1] = kind;
    if random.chance(3, 4) {
        mend(bytes, random);
    }
    true
}

fn length_field(bytes: &mut Vec<u8>, random: &mut Random) -> bool {
    if bytes.len() < 8 {
        return false;
    }
    let any = random.half();
    let off = *random.pick(&[1, 4, 8, 0xff00, 0xfffc, 0xffff, any]);
    let length = u16::from_be_bytes([bytes[6], bytes[7]]).wrapping_add(off);
    bytes[6..8].copy_from_slice(&length.to_be_bytes());
    if random.chance(3, 4) {
        build::write_sum(bytes, Sum::Right);
    }
    off != 0
}

fn checksum_field(bytes: &mut Vec<u8>, random: &mut Random) -> bool {
    let bits = random.half() | 1;
    let sum = *random.pick(&[Sum::Absent, Sum::Off(bits), Sum::Off(0xffff)]);
    build::write_sum(bytes, sum);
    bytes.len() >= 4
}

fn write_object_length(bytes: &mut [u8], at: usize, length: usize) {
    bytes[at..at + 2].copy_from_slice(&(length as u16).to_be_bytes());
}

fn object_length_small(bytes: &mut Vec<u8>, random: &mut Random) -> bool {
    with_object(bytes, random, |bytes, object, random| {
        write_object_length(bytes, object.start, random.below(4));
        true
    })
}

fn object_length_odd(bytes: &mut Vec<u8>, random: &mut Random) -> bool {
    with_object(bytes, random, |bytes, object, random| {
        write_object_length(bytes, object.start, object.len() + random.between(1, 3));
        true
    })
}

fn object_length_past(bytes: &mut Vec<u8>, random: &mut Random) -> bool {
    with_object(bytes, random, |bytes, object, random| {
        let past = *random.pick(&[4, 8, 256, 64_000]);
        let length = (bytes.len() - object.start + past).min(65_532);
        write_object_length(bytes, object.start, length);
        length > bytes.len() - object.start
    })
}

fn object_length_other(bytes: &mut Vec<u8>, random: &mut Random) -> bool {
    with_object(bytes, random, |bytes, object, random| {
        let length = 4 * random.between(1, 6);
        write_object_length(bytes, object.start, length);
        length != object.len()
    })
}

fn object_longer(bytes: &mut Vec<u8>, random: &mut Random) -> bool {
    with_object(bytes, random, |bytes, object, random| {
        let more = 4 * random.between(1, 2);
        write_object_length(bytes, object.start, object.len() + more);
        bytes.splice(object.end..object.end, vec![0; more]);
        true
    })
}

fn object_shorter(bytes: &mut Vec<u8>, random: &mut Random) -> bool {
    with_object(bytes, random, |bytes, object, random| {
        if object.len() < 8 {
            return false;
        }
        let less = 4 * random.between(1, object.len() / 4 - 1);
        write_object_length(bytes, object.start, object.len() - less);
        bytes.drain(object.end - less..object.end);
        true
    })
}

fn c_type(bytes: &mut Vec<u8>, random: &mut Random) -> bool {
    with_object(bytes, random, |bytes, object, random| {
        let any = random.byte();
        let c_type = *random.pick(&[0, 1, 7, 8, any]);
        let old = std::mem::replace(&mut bytes[object.start + 3], c_type);
        old != c_type
    })
}

fn class_refused(bytes: &mut Vec<u8>, random: &mut Random) -> bool {
    const REFUSED: [u8; 12] = [2, 7, 8, 9, 10, 15, 18, 22, 25, 33, 38, 127];
    with_object(bytes, random, |bytes, object, random| {
        bytes[object.start + 2] = *random.pick(&REFUSED);
        true
    })
}

fn class_any(bytes: &mut Vec<u8>, random: &mut Random) -> bool {
    with_object(bytes, random, |bytes, object, random| {
        let any = random.byte();
        bytes[object.start + 2] = *random.pick(&[1, 6, 11, 23, 196, 207, any]);
        true
    })
}

/// The SESSION_ATTRIBUTE's place and its name's size, if the message has one that can be followed.
fn attribute(bytes: &[u8]) -> Option<(Range<usize>, usize)> {
    let is_one = |object: &Range<usize>| bytes[object.start + 2] == 207 && object.len() >= 8;
    let object = objects(bytes).into_iter().find(is_one)?;
    let size = usize::from(bytes[object.start + 7]);
    Some((object, size))
}

fn padding(bytes: &mut Vec<u8>, random: &mut Random) -> bool {
    let Some((object, size)) = attribute(bytes) else {
        return false;
    };
    let behind = object.start + 8 + size;
    if behind >= object.end {
        return false;
    }
    bytes[random.between(behind, object.end - 1)] = 1 << random.below(8);
    true
}

fn name_length(bytes: &mut Vec<u8>, random: &mut Random) -> bool {
    let Some((object, size)) = attribute(bytes) else {
        return false;
    };
    let size = size as u8;
    let near = [size.wrapping_add(1), size.wrapping_sub(1), size ^ 4];
    let any = random.byte();
    bytes[object.start + 7] = *random.pick(&[near[0], near[1], near[2], 0, any]);
    true
}

fn missing(bytes: &mut Vec<u8>, random: &mut Random) -> bool {
    with_object(bytes, random, |bytes, object, _| {
        bytes.drain(object);
        true
    })
}

/// An object twice, the second time at another object's place or at the end.
fn repeated(bytes: &mut Vec<u8>, random: &mut Random) -> bool {
    with_object(bytes, random, |bytes, object, random| {
        let again = bytes[object].to_vec();
        let mut places: Vec<usize> = objects(bytes).iter().map(|other| other.start).collect();
        places.push(bytes.len());
        let place = *random.pick(&places);
        bytes.splice(place..place, again);
        true
    })
}
