//! A6 once more: the name that the node makes of a short ID, and the IDs that a reply carries. The generator and the
//! ledger use it; neither program does.

/// The two IDs of a call.
#[derive(Clone, Default, Debug, PartialEq, Eq)]
pub struct Ids {
    pub short: u16,
    pub long: Vec<u8>,
}

/// The name made of a short ID, in lower case hex digits: sender 8, end point 8, short ID 4.
pub fn name(endpoint: u32, sender: u32, short: u16) -> Vec<u8> {
    [digits(sender, 8), digits(endpoint, 8), digits(short.into(), 4)].concat()
}

fn digits(number: u32, count: u32) -> Vec<u8> {
    let digit = |place: u32| match (number >> (4 * place) & 15) as u8 {
        low @ 0..10 => b'0' + low,
        high => b'a' + high - 10,
    };
    (0..count).rev().map(digit).collect()
}

/// The short ID that a name is made of, if it is one that the pair's short IDs make.
pub fn number_of(endpoint: u32, sender: u32, long: &[u8]) -> Option<u16> {
    let digits = std::str::from_utf8(long.get(16..20)?).ok()?;
    let short = u16::from_str_radix(digits, 16).ok()?;
    (name(endpoint, sender, short) == long).then_some(short)
}

/// Makes a name of end point, sender and short ID.
pub type Maker = fn(u32, u32, u16) -> Vec<u8>;

/// Names that are nearly made of a short ID, each of which a careless reader of names takes for it.
pub const NEARLY: [(&str, Maker); 5] = [
    (
        "nameless 20 of a number with a name in upper case digits",
        |endpoint, sender, short| name(endpoint, sender, short).to_ascii_uppercase(),
    ),
    (
        "nameless 20 of a number with a name that has the addresses exchanged",
        |endpoint, sender, short| name(sender, endpoint, short),
    ),
    (
        "nameless 20 of a number with a name that lacks its first digit",
        |endpoint, sender, short| name(endpoint, sender, short)[1..].to_vec(),
    ),
    (
        "nameless 20 of a number with a name that has a digit more",
        |endpoint, sender, short| [&name(endpoint, sender, short)[..], b"0"].concat(),
    ),
    ("nameless 20 of a number with a name whose last digit is none", no_digit),
];

/// The last digit is the character as far from `0`, or from `a`, as that digit's value wants.
fn no_digit(endpoint: u32, sender: u32, short: u16) -> Vec<u8> {
    let mut name = name(endpoint, sender, short);
    let value = (short & 15) as u8;
    name[19] = if value < 10 { b'a' - 10 + value } else { b'0' + value };
    name
}

/// Where a Notify reply has its SESSION's Call ID, its SESSION_ATTRIBUTE's name length and its name.
const SHORT: usize = 52;
const SIZE: usize = 75;
const NAME: usize = 76;
/// What comes behind the name and its padding: a SENDER_TEMPLATE.
const BEHIND: usize = 12;

/// Whether a Notify reply carries these IDs: the Call ID, the name with its length, zeros up to a multiple of 4.
pub fn carries(reply: &[u8], ids: &Ids) -> bool {
    let mut padded = ids.long.clone();
    padded.resize(ids.long.len().next_multiple_of(4), 0);
    let attribute = ((8 + padded.len()) as u16).to_be_bytes();
    reply.len() == NAME + padded.len() + BEHIND
        && reply[SHORT..SHORT + 2] == ids.short.to_be_bytes()
        && reply[SIZE - 7..SIZE - 3] == [attribute[0], attribute[1], 207, 7]
        && usize::from(reply[SIZE]) == ids.long.len()
        && reply[NAME..][..padded.len()] == padded
}

#[cfg(test)]
mod tests {
    use super::*;

    #[test]
    fn digits_of_the_addresses_and_the_short_id() {
        assert_eq!(name(0x0a00_0002, 0x0a00_0001, 1), b"0a0000010a0000020001");
        assert_eq!(name(0x00ab_000f, 0xfeed_c0de, 0x01b9), b"feedc0de00ab000f01b9");
    }

    #[test]
    fn nearly_made() {
        let names: Vec<Vec<u8>> = NEARLY
            .iter()
            .map(|line| line.1(0x0a00_0002, 0x0b00_0001, 0xc9))
            .collect();
        assert_eq!(names[0], b"0B0000010A00000200C9");
        assert_eq!(names[1], b"0a0000020b00000100c9");
        assert_eq!(names[2], b"b0000010a00000200c9");
        assert_eq!(names[3], b"0b0000010a00000200c90");
        assert_eq!(names[4], b"0b0000010a00000200c`");
        assert!(names
            .iter()
            .all(|name| number_of(0x0a00_0002, 0x0b00_0001, name).is_none()));
    }

    #[test]
    fn and_back() {
        for short in [1, 9, 10, 0xab, 399, 0xffff] {
            assert_eq!(number_of(7, 8, &name(7, 8, short)), Some(short));
            assert_eq!(number_of(8, 7, &name(7, 8, short)), None);
        }
        assert_eq!(number_of(7, 8, b"0000000800000007000A"), None);
        assert_eq!(number_of(7, 8, b"0000000800000007000a1"), None);
        assert_eq!(number_of(7, 8, b"000000080000000700+a"), None);
        assert_eq!(number_of(7, 8, b"a"), None);
    }
}
