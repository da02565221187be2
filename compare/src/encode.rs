//! Encodes fields as a message: what no test looks at is drawn at random, the objects come in any order, and skipped
//! and ignored objects stand between them.

use crate::build::{self, object, Fields, Header, Sum, C, D, NOTIFY, R};
use crate::random::Random;
use crate::values::Values;

/// Classes that 01 skips, and some that it ignores.
const PASSED_OVER: [u8; 26] = [
    0, 3, 4, 5, 12, 13, 14, 19, 20, 21, 24, 34, 35, 36, 37, 133, // skipped
    128, 129, 132, 134, 195, 197, 206, 208, 229, 255, // ignored
];

/// A whole message of these fields.
pub fn message(kind: u8, mut fields: Fields, random: &mut Random) -> Vec<u8> {
    fill_untested(&mut fields, random);
    let mut objects = objects(kind, &mut fields, random);
    if random.chance(1, 2) {
        random.shuffle(&mut objects);
    }
    if random.chance(1, 30) {
        lengthen(&mut objects, random);
    }
    build::message(header(kind, random), &objects, some_sum(random))
}

/// Right twice out of three times, else none or a wrong one.
fn some_sum(random: &mut Random) -> Sum {
    let bits = random.half() | 1;
    random.weighted(&[(40, Sum::Right), (20, Sum::Absent), (1, Sum::Off(bits))])
}

fn header(kind: u8, random: &mut Random) -> Header {
    let mut header = Header::of(kind);
    if random.chance(1, 2) {
        header.flags = random.byte() & 15;
        header.ttl = random.byte();
        header.reserved = random.byte();
    }
    header
}

/// Random values in the fields that have no test.
fn fill_untested(fields: &mut Fields, random: &mut Random) {
    if random.chance(1, 2) {
        return;
    }
    fields.node = random.word();
    fields.error_flags = random.byte();
    fields.reserved = random.half();
    fields.id_flags = random.byte();
    fields.priorities = [random.byte(), random.byte()];
    fields.attribute_flags = random.byte();
    fields.status |= random.word() & !(R | C | D);
}

/// A Notify's six objects, or a Path's two and some of the four that it may have; then others between them.
fn objects(kind: u8, fields: &mut Fields, random: &mut Random) -> Vec<Vec<u8>> {
    let mut objects = if kind == NOTIFY {
        fields.request()
    } else {
        optional(fields, random)
    };
    for _ in 0..*random.pick(&[0, 0, 0, 1, 1, 2, 3]) {
        let place = random.between(0, objects.len());
        objects.insert(place, passed_over(random));
    }
    objects
}

/// The contents of a Path's optional objects are not looked at, so they are such that a Notify would be refused.
fn optional(fields: &mut Fields, random: &mut Random) -> Vec<Vec<u8>> {
    let mut objects = fields.connection();
    if random.chance(1, 2) {
        return objects;
    }
    fields.status = random.word();
    fields.code = random.byte();
    fields.value = random.half();
    fields.name = some_name(random);
    let four = [
        fields.message_id(),
        fields.error_spec(),
        fields.admin_status(),
        fields.session_attribute(),
    ];
    for object in four {
        if random.chance(1, 2) {
            objects.push(object);
        }
    }
    objects
}

/// Any name: 0 to 40 bytes, seldom up to 255.
fn some_name(random: &mut Random) -> Vec<u8> {
    let most = *random.pick(&[40, 40, 40, 255]);
    let size = random.between(0, most);
    random.bytes(size)
}

/// A skipped or ignored object of any C-Type and any length that is a multiple of 4.
fn passed_over(random: &mut Random) -> Vec<u8> {
    let most = *random.pick(&[0, 3, 3, 16]);
    let words = random.between(0, most);
    let body = random.bytes(4 * words);
    object(*random.pick(&PASSED_OVER), random.byte(), &body)
}

/// Brings the message to 1,020, 1,024 or 1,028 bytes.
fn lengthen(objects: &mut Vec<Vec<u8>>, random: &mut Random) {
    let whole = *random.pick(&[1020, 1024, 1024, 1028]);
    let size: usize = 8 + objects.iter().map(Vec::len).sum::<usize>();
    if size + 4 > whole {
        return;
    }
    let body = random.bytes(whole - size - 4);
    let place = random.between(0, objects.len());
    objects.insert(place, object(*random.pick(&PASSED_OVER), random.byte(), &body));
}

/// One to three faults in what a Notify says, or a sender that is not listed: answers 11 to 13, and their order.
pub fn add_faults(fields: &mut Fields, values: &Values, random: &mut Random) {
    for _ in 0..*random.pick(&[1, 1, 1, 2, 3]) {
        match random.below(12) {
            0 => fields.status &= !R,
            1 => fields.status &= !C,
            2 => fields.code = 1 << random.below(8),
            3 => fields.value = 1 << random.below(16),
            4 => fields.call = 0,
            5 => fields.name.clear(),
            6 => {
                let far = random.between(41, 255);
                let size = *random.pick(&[33, 33, 33, 33, 34, 36, 40, far]);
                fields.name = random.bytes(size);
            }
            7 | 8 => {
                let any = random.between(1, 32);
                fields.name = vec![0; *random.pick(&[1, 2, 3, 4, 31, 32, any])];
            }
            9 => {
                fields.name.truncate(32);
                fields.name.resize(33, 0);
            }
            // Neither of the two IDs: 13 for a close only (A6).
            10 => {
                fields.call = 0;
                fields.name.clear();
            }
            _ => fields.sender = *random.pick(&values.unlisted),
        }
    }
}
