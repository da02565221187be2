//! The values that one stream's messages are drawn from: few addresses, IDs and names, so that they meet often.

use crate::build::Roster;
use crate::random::Random;

pub struct Values {
    pub senders: Vec<u32>,
    /// Addresses that are not listed.
    pub unlisted: Vec<u32>,
    pub endpoints: Vec<u32>,
    pub ids: Vec<u16>,
    /// Long Call IDs: no padding.
    pub names: Vec<Vec<u8>>,
    /// A MESSAGE_ID's epochs and identifiers.
    pub requests: Vec<(u32, u32)>,
    pub tunnels: Vec<u16>,
    pub extended: Vec<u32>,
    pub lsps: Vec<u16>,
}

impl Values {
    pub fn new(roster: &Roster, random: &mut Random) -> Values {
        let mut senders: Vec<u32> = roster.records.iter().map(|record| record.address).collect();
        let endpoints = endpoints(roster, &senders, random);
        // Mostly enough for all calls of the total.
        let many = 40.max(roster.total() * 3 / 5);
        let count = *random.pick(&[3, 6, many, many, many]);
        let ids = ids(count, random);
        // Sometimes one customer sends most, so that it comes to its limit before the others.
        if random.chance(1, 3) {
            senders.extend([senders[0]; 12]);
        }
        Values {
            unlisted: unlisted(&senders, &endpoints, random),
            tunnels: vec![0, ids[0], ids[1]],
            extended: vec![0, endpoints[0], senders[0]],
            lsps: vec![0, ids[0], ids[2], 0x0100],
            names: names(count, random),
            requests: requests(count, random),
            senders,
            endpoints,
            ids,
        }
    }

    /// All messages of one pair, so that it has all calls.
    pub fn of_one_pair(roster: &Roster, random: &mut Random) -> Values {
        let mut values = Values::new(roster, random);
        values.endpoints.truncate(1);
        // The one that may have most calls.
        let most = roster.records.iter().max_by_key(|record| record.limit);
        values.senders = vec![most.expect("a roster has a record").address];
        values
    }
}

/// Zeros, the largest, such that have one number in common, and any.
fn requests(count: usize, random: &mut Random) -> Vec<(u32, u32)> {
    let largest = (0x00ff_ffff, u32::MAX);
    let (epoch, identifier) = (random.word() >> 8, random.word());
    let mut requests = vec![(0, 0), largest, (0, 1), (1, 0), (epoch, identifier)];
    requests.extend([(epoch, 0), (0, identifier), (largest.0, 0), (0, largest.1)]);
    requests.extend([(epoch, identifier.wrapping_add(1)), (identifier >> 8, epoch)]);
    while requests.len() < count {
        let (other, any) = (random.word() >> 8, random.word());
        requests.push((*random.pick(&[epoch, other]), *random.pick(&[identifier, any, any])));
    }
    requests
}

/// Two to four end points; senders are among them, so that a pair and its swap both occur.
fn endpoints(roster: &Roster, senders: &[u32], random: &mut Random) -> Vec<u32> {
    let mut endpoints = vec![roster.address, *random.pick(senders), *random.pick(senders)];
    if random.chance(1, 2) {
        endpoints.push(*random.pick(&[0, 0x0a00_0063, u32::MAX]));
    }
    endpoints
}

/// Addresses next to listed ones, and others.
fn unlisted(senders: &[u32], endpoints: &[u32], random: &mut Random) -> Vec<u32> {
    let near = random.pick(senders) ^ 1 << random.below(32);
    let mut unlisted = vec![near, 0, random.word()];
    unlisted.extend(endpoints);
    unlisted.retain(|address| !senders.contains(address));
    unlisted.push(
        (0..)
            .find(|address| !senders.contains(address))
            .expect("few are listed"),
    );
    unlisted
}

/// Nonzero IDs, the outermost and such with one byte zero among them.
fn ids(count: usize, random: &mut Random) -> Vec<u16> {
    let mut ids = vec![1, 0x0100, 0xffff];
    while ids.len() < count {
        let id = random.half();
        if id != 0 && !ids.contains(&id) {
            ids.push(id);
        }
    }
    ids
}

/// Long Call IDs of 1 to 32 bytes: zeros before the last byte, and long ones that differ in that byte only.
fn names(count: usize, random: &mut Random) -> Vec<Vec<u8>> {
    let mut long = vec![b'n'; 32];
    let mut names = vec![b"a".to_vec(), b"a\0b".to_vec(), long.clone()];
    long[31] = 1;
    names.extend([long, b"\0a".to_vec(), b"a\0\0b".to_vec()]);
    random.shuffle(&mut names[2..]);
    names.truncate(count);
    while names.len() < count + count / 4 {
        let size = random.between(1, 32);
        let name = random.long_id(size);
        if !names.contains(&name) {
            names.push(name);
        }
    }
    names
}
