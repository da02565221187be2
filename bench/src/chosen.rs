//! Names and connections chosen to be slow: tables in which the keys of all calls and connections coincide.

/// How the names and connections of a table are chosen.
#[derive(Clone, Copy, PartialEq, Eq)]
pub enum Chosen {
    /// As customers would: one after another.
    Next,
    /// Names three apart, so that sums of their bytes often coincide.
    Spread,
    /// So that all keys of one kind coincide in the chains of the rule check (crates/rule_keys).
    Chains,
    /// So that they coincided in the marks that stood before the chains. There are names for 100 calls.
    Marks,
}

/// What a key is multiplied with: the first two words of a name, a Tunnel ID and an extended ID.
const NAME: [u32; 2] = [205_589_543, 206_140_127];
const TUNNEL: u32 = 206_379_567;
const EXTENDED: u32 = 189_846_391;

/// The same of the marks, of which 24 bits counted.
const TUNNEL_MARK: u32 = 12_759_727;
const EXTENDED_MARK: u32 = 6_559_613;
const MARK: u32 = 0x00ff_ffff;

impl Chosen {
    /// In the name of a row.
    pub fn row_name(self) -> &'static str {
        match self {
            Chosen::Next => "",
            Chosen::Spread => ", names spread",
            Chosen::Chains => ", chosen for chains",
            Chosen::Marks => ", chosen for marks",
        }
    }

    /// The name of a call.
    pub fn name(self, call: u32) -> Vec<u8> {
        match self {
            Chosen::Next => format!("transfer-{call:04}").into_bytes(),
            Chosen::Spread => format!("transfer-{:04}", 3 * call).into_bytes(),
            Chosen::Chains => alike(call),
            // The sum of the bytes, and the sum of all sums on the way, are the same for each.
            Chosen::Marks => vec![100 + call as u8, (200 - 2 * call) as u8, 100 + call as u8],
        }
    }

    /// The extended ID beside a Tunnel ID, where it is not the sender.
    pub fn extended(self, tunnel: u16) -> Option<u32> {
        let tunnel = u32::from(tunnel);
        match self {
            Chosen::Next | Chosen::Spread => None,
            Chosen::Chains => Some(beside(tunnel, TUNNEL, EXTENDED)),
            Chosen::Marks => Some(beside(tunnel, TUNNEL_MARK, EXTENDED_MARK) & MARK),
        }
    }
}

/// The number y with x a + y b = 0; b is odd.
pub fn beside(x: u32, a: u32, b: u32) -> u32 {
    0u32.wrapping_sub(x.wrapping_mul(a)).wrapping_mul(inverse(b))
}

/// The number x with x b = 1; b is odd.
fn inverse(b: u32) -> u32 {
    (0..5).fold(b, |x, _| x.wrapping_mul(2u32.wrapping_sub(b.wrapping_mul(x))))
}

/// Two words that have the same key for each call, and a byte.
fn alike(call: u32) -> Vec<u8> {
    let first = 0x4141_4100 + call;
    let second = beside(first, NAME[0], NAME[1]);
    [&first.to_le_bytes()[..], &second.to_le_bytes(), b"n"].concat()
}

#[cfg(test)]
mod tests {
    use super::*;

    fn word(name: &[u8], at: usize) -> u32 {
        u32::from_le_bytes(name[at..at + 4].try_into().expect("four bytes"))
    }

    #[test]
    fn names_with_one_key() {
        let key = |name: &[u8]| {
            let product = |k: usize| word(name, 4 * k).wrapping_mul(NAME[k]);
            product(0).wrapping_add(product(1))
        };
        let names: Vec<_> = (0..200).map(|call| Chosen::Chains.name(call)).collect();
        assert!(names.iter().all(|name| key(name) == key(&names[0]) && name.len() == 9));
        assert!((1..200).all(|i| !names[..i].contains(&names[i])));
    }

    #[test]
    fn connections_with_one_key() {
        for tunnel in 0..800 {
            let extended = |chosen: Chosen| chosen.extended(tunnel).expect("another than the sender");
            let product = u32::from(tunnel).wrapping_mul(TUNNEL);
            assert_eq!(product.wrapping_add(extended(Chosen::Chains).wrapping_mul(EXTENDED)), 0);
            let product = u32::from(tunnel).wrapping_mul(TUNNEL_MARK);
            let mark = product.wrapping_add(extended(Chosen::Marks).wrapping_mul(EXTENDED_MARK));
            assert_eq!(mark & MARK, 0);
        }
    }
}
