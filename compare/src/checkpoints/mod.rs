//! A13: checkpoints, written by both programs and read by both, plain and with salvage. A written checkpoint is read as
//! it is, damaged, or under another roster; others are generated.

pub(crate) mod both;
mod calls;
mod connections;
mod damage;
mod duplicates;
pub(crate) mod expected;
mod generated;
pub(crate) mod parts;
mod rosters;
mod table_source;
mod tally;
mod trial;
mod writing;

use crate::build::Roster;
use crate::random::Random;
use crate::rosters::{shaped, some_form, Shape};
use crate::trials::hex;
use parts::Parts;
use table_source::TableSource;
use tally::Tally;

const AS_WRITTEN: &str = "as written";
const REFUSED: &str = "roster: refused";

/// Checkpoints read of one table.
const OF_TABLE: u64 = 4;

/// Runs this many checkpoints through both programs, and the largest ones beside them.
pub fn run(seed: u64, count: u64) -> Result<Tally, String> {
    let mut random = Random::of_part(seed, u64::MAX - 1);
    let mut tally = Tally::new(kinds());
    let mut tables = TableSource::new(&mut random)?;
    let mut written = None;
    for number in 0..count {
        let place = |what| format!("seed {seed}, checkpoint {number}: {what}");
        if number % OF_TABLE == 0 {
            let table = tables.table(&mut random).map_err(place)?;
            written = Some(writing::all(&table, &mut random, &mut tally).map_err(place)?);
        }
        let (roster, checkpoint) = written.as_ref().expect("the first checkpoint is written");
        let made = Made::new(roster, checkpoint, &mut random);
        made.read(&mut tally).map_err(place)?;
    }
    for (name, maker) in generated::LARGEST {
        let roster = shaped(some_form(&mut random), Shape::Random, &mut random);
        let made = Made::of(&roster, maker(&roster, &mut random));
        let place = |what| format!("seed {seed}, large checkpoint ({name}): {what}");
        made.read(&mut tally).map_err(place)?;
    }
    Ok(tally)
}

/// What a run has to reach.
fn kinds() -> impl Iterator<Item = &'static str> {
    let records = damage::of_records().map(|line| line.0);
    let bytes = damage::OF_BYTES.iter().map(|line| line.0);
    let changes = rosters::CHANGES.iter().chain(rosters::FORMS).map(|line| line.0);
    let makers = generated::MAKERS.iter().map(|line| line.0);
    let others = [AS_WRITTEN, REFUSED].into_iter();
    records.chain(bytes).chain(changes).chain(makers).chain(others)
}

/// A checkpoint to read, with the roster to read it under and what was done to the two.
struct Made {
    roster: Vec<u8>,
    checkpoint: Vec<u8>,
    kinds: Vec<&'static str>,
}

impl Made {
    fn of(roster: &Roster, checkpoint: Vec<u8>) -> Made {
        Made {
            roster: roster.bytes(),
            checkpoint,
            kinds: Vec::new(),
        }
    }

    /// Something done to a written checkpoint, or another in its place.
    fn new(roster: &Roster, checkpoint: &[u8], random: &mut Random) -> Made {
        let mut made = Made::of(roster, checkpoint.to_vec());
        match random.below(100) {
            0..5 => made.kinds.push(AS_WRITTEN),
            5..46 => made.damage_records(roster, random),
            46..60 => made.damage_bytes(roster, random),
            60..70 => made.change_roster(roster, random),
            70..82 => made.change_form(roster, random),
            82..88 => made.refuse_roster(roster, random),
            _ => {
                let (name, maker) = *random.pick(generated::MAKERS);
                made.checkpoint = maker(roster, random);
                made.kinds.push(name);
            }
        }
        made
    }

    /// One to three damages; some may not be possible.
    fn damage_records(&mut self, roster: &Roster, random: &mut Random) {
        let damages: Vec<_> = damage::of_records().collect();
        let mut parts = Parts::of(&self.checkpoint).expect("a written checkpoint");
        for _ in 0..random.between(1, 3) {
            let (name, damage) = **random.pick(&damages);
            if damage(&mut parts, roster, random) {
                self.kinds.push(name);
            }
        }
        self.checkpoint = parts.bytes();
    }

    fn damage_bytes(&mut self, roster: &Roster, random: &mut Random) {
        if random.chance(1, 5) {
            self.damage_records(roster, random);
        }
        let (name, damage) = *random.pick(damage::OF_BYTES);
        if damage(&mut self.checkpoint, random) {
            self.kinds.push(name);
        }
    }

    fn change_roster(&mut self, roster: &Roster, random: &mut Random) {
        if random.chance(1, 3) {
            self.damage_records(roster, random);
        }
        let mut roster = roster.clone();
        for _ in 0..random.between(1, 2) {
            let (name, change) = *random.pick(rosters::CHANGES);
            if change(&mut roster, random) {
                self.kinds.push(name);
            }
        }
        self.roster = roster.bytes();
    }

    /// The checkpoint as it was written, under a roster of the other form.
    fn change_form(&mut self, roster: &Roster, random: &mut Random) {
        let mut roster = roster.clone();
        let mut ways = rosters::FORMS.to_vec();
        random.shuffle(&mut ways);
        if let Some((name, _)) = ways.iter().find(|way| way.1(&mut roster, random)) {
            self.kinds.push(name);
        }
        self.roster = roster.bytes();
    }

    fn refuse_roster(&mut self, roster: &Roster, random: &mut Random) {
        if random.chance(1, 2) {
            self.damage_bytes(roster, random);
        }
        let (_, maker) = *random.pick(&crate::rosters::MAKERS[1..]);
        self.roster = maker(random);
        self.kinds.push(REFUSED);
    }

    fn read(&self, tally: &mut Tally) -> Result<(), String> {
        let dropped = trial::read(&self.roster, &self.checkpoint, tally).map_err(|what| {
            let shown = &self.checkpoint[..self.checkpoint.len().min(20_000)];
            let (kinds, roster, checkpoint) = (self.kinds.join("; "), hex(&self.roster), hex(shown));
            let length = self.checkpoint.len();
            format!("{what}\n({kinds})\nroster {roster}\ncopy of {length} bytes {checkpoint}")
        })?;
        tally.checkpoints += 1;
        self.kinds.iter().for_each(|name| tally.kind(name));
        if self.kinds == [rosters::TO_FORM_1] {
            tally.narrowed(&dropped);
        }
        Ok(())
    }
}

#[cfg(all(test, feature = "stand_in"))]
mod tests {
    #[test]
    fn the_second_program_agrees_with_itself() {
        let tally = super::run(1, 500).unwrap_or_else(|what| panic!("{what}"));
        assert_eq!(tally.round_trips.min(100), 100);
        // Too few checkpoints for a run that counts.
        assert!(!tally.lacking().is_empty());
    }
}
