//! Reading a message: answers 3 to 10, 12 and 13. 11 stands before the last two and needs the roster.

/// Where the objects that a reply needs stand in the message; 0 for one that is missing.
#[derive(Clone, Copy)]
pub struct Objects {
    pub session: usize,
    pub template: usize,
    pub identifier: usize,
    pub attribute: usize,
    /// Bytes of the long Call ID, in a Notify; 0 where it is nameless.
    pub name: usize,
}

pub enum Kind {
    Open,
    /// Name Length 0 and Call ID 0.
    OpenNameless,
    Close,
    Add,
    Drop,
}

pub enum Read {
    Fault(u8),
    /// 12 or 13, and the sender.
    Unfit(u8, u32),
    Message(Kind, Objects),
}

#[inline(always)]
pub fn be16(s: &[u8], at: usize) -> u16 {
    u16::from_be_bytes(s[at..at + 2].try_into().expect("two bytes"))
}

#[inline(always)]
pub fn be32(s: &[u8], at: usize) -> u32 {
    u32::from_be_bytes(s[at..at + 4].try_into().expect("four bytes"))
}

/// The one's complement sum in the machine's own byte order; the length is a multiple of 4.
#[inline(always)]
pub fn sum(s: &[u8]) -> u16 {
    let mut total = 0u64;
    for w in s.chunks_exact(4) {
        total += u64::from(u32::from_ne_bytes([w[0], w[1], w[2], w[3]]));
    }
    let mut total = (total & 0xffff_ffff) + (total >> 32);
    total = (total & 0xffff) + (total >> 16);
    total = (total & 0xffff) + (total >> 16);
    total = (total & 0xffff) + (total >> 16);
    total as u16
}

/// What an object of a class is.
const SKIP: u8 = 0;
const READ: u8 = 1;
const ATTRIBUTE: u8 = 2;
const BAD: u8 = 3;

static CLASS: [u8; 256] = {
    let mut c = [BAD; 256];
    let mut i = 128;
    while i < 256 {
        c[i] = SKIP;
        i += 1;
    }
    let skipped = [0, 3, 4, 5, 12, 13, 14, 19, 20, 21, 24, 34, 35, 36, 37];
    let mut i = 0;
    while i < skipped.len() {
        c[skipped[i]] = SKIP;
        i += 1;
    }
    c[1] = READ;
    c[6] = READ;
    c[11] = READ;
    c[23] = READ;
    c[196] = READ;
    c[207] = ATTRIBUTE;
    c
};

/// Bytes of a name up to its last one that is not zero, four at a time from its end: those behind it are zeros.
#[inline(always)]
fn name_length(s: &[u8], at: usize, size: usize) -> usize {
    let mut n = size.next_multiple_of(4);
    while n > 0 {
        let last = be32(s, at + n - 4);
        if last != 0 {
            return n - (last.trailing_zeros() / 8) as usize;
        }
        n -= 4;
    }
    0
}

#[inline(always)]
pub fn read(s: &[u8]) -> Read {
    let n = s.len();
    if !(8..=1024).contains(&n) || !n.is_multiple_of(4) || usize::from(be16(s, 6)) != n {
        return Read::Fault(3);
    }
    if s[0] >> 4 != 1 {
        return Read::Fault(4);
    }
    if be16(s, 2) != 0 && sum(s) != 0xffff {
        return Read::Fault(5);
    }
    let kind = s[1];
    if kind != 21 && kind != 1 && kind != 5 {
        return Read::Fault(6);
    }
    let mut at = 8;
    let (mut session, mut error, mut template, mut identifier, mut status, mut attribute) = (0, 0, 0, 0, 0, 0);
    let mut repeated = false;
    while at < n {
        // at and n are multiples of 4
        let left = n - at;
        let head = be32(s, at);
        // A header that is as it should be is one comparison, and the next object's place is known without its length.
        macro_rules! fixed {
            ($field:ident, $len:expr) => {{
                if left < $len {
                    return Read::Fault(7);
                }
                repeated |= $field != 0;
                $field = at;
                at += $len;
            }};
        }
        match head {
            0x0010_0107 => fixed!(session, 16),
            0x000c_0601 => fixed!(error, 12),
            0x000c_0b07 => fixed!(template, 12),
            0x000c_1701 => fixed!(identifier, 12),
            0x0008_c401 => fixed!(status, 8),
            _ => {
                let len = (head >> 16) as usize;
                if len < 4 || !len.is_multiple_of(4) || len > left {
                    return Read::Fault(7);
                }
                let class = CLASS[(head >> 8 & 0xff) as usize];
                if class != SKIP {
                    if class == BAD {
                        return Read::Fault(8);
                    }
                    if class != ATTRIBUTE || head & 0xff != 7 || len < 8 {
                        return Read::Fault(9);
                    }
                    let name = usize::from(s[at + 7]);
                    if len != 8 + name.next_multiple_of(4) {
                        return Read::Fault(9);
                    }
                    if !name.is_multiple_of(4) && be32(s, at + len - 4) << (8 * (name % 4)) != 0 {
                        return Read::Fault(9);
                    }
                    repeated |= attribute != 0;
                    attribute = at;
                }
                at += len;
            }
        }
    }
    let mut o = Objects {
        session,
        template,
        identifier,
        attribute,
        name: 0,
    };
    if repeated || session == 0 || template == 0 {
        return Read::Fault(10);
    }
    if kind != 21 {
        return Read::Message(if kind == 1 { Kind::Add } else { Kind::Drop }, o);
    }
    if error == 0 || identifier == 0 || status == 0 || attribute == 0 {
        return Read::Fault(10);
    }
    let sender = be32(s, template + 4);
    let bits = be32(s, status + 4);
    if bits & 0x8000_0008 != 0x8000_0008 || be32(s, error + 8) & 0x00ff_ffff != 0 {
        return Read::Unfit(12, sender);
    }
    let size = s[attribute + 7];
    if bits & 1 == 0 && size == 0 && be16(s, session + 8) == 0 {
        return Read::Message(Kind::OpenNameless, o);
    }
    if be16(s, session + 8) == 0 || size > 32 {
        return Read::Unfit(13, sender);
    }
    o.name = name_length(s, attribute + 8, usize::from(size));
    if o.name == 0 {
        return Read::Unfit(13, sender);
    }
    Read::Message(if bits & 1 == 0 { Kind::Open } else { Kind::Close }, o)
}
