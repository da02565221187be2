//! A5: the one's complement sum by itself. Byte strings of every even length, with sums at and around multiples of
//! FFFF, and both programs' sums of every even prefix.

use crate::first;
use crate::random::Random;
use crate::tally::{lacking_counts, print_counts, raise, Counts};
use crate::trials::hex;

/// How many byte strings there are, by turns of every length and of every kind.
const STRINGS: usize = 20_000;

/// Even lengths up to 1,024 bytes, and how often each has to come.
const LENGTHS: usize = 1024 / 2 + 1;
const LEAST_OF_LENGTH: u64 = (STRINGS / LENGTHS) as u64;

/// This many words.
type Maker = fn(usize, &mut Random) -> Vec<u16>;

/// Their number and that of the lengths have no divisor in common, so that every kind comes with every length.
const KINDS: [(&str, Maker); 10] = [
    ("all FFFF", |words, _| vec![0xffff; words]),
    ("FFFE and 0001 in turn", in_turn),
    ("zeros and one FFFF", |words, random| zeros_and(0xffff, words, random)),
    ("zeros and one 0001", |words, random| zeros_and(1, words, random)),
    ("zeros and one FFFE", |words, random| zeros_and(0xfffe, words, random)),
    ("zeros and one random word", |words, random| {
        zeros_and(random.half(), words, random)
    }),
    ("a multiple of FFFF", |words, random| leaving(0, words, random)),
    ("one below a multiple", |words, random| leaving(0xfffe, words, random)),
    ("one above a multiple", |words, random| leaving(1, words, random)),
    ("random words", random_words),
];

/// Either may be the first.
fn in_turn(words: usize, random: &mut Random) -> Vec<u16> {
    let first = random.below(2);
    (first..first + words).map(|place| [0xfffe, 1][place % 2]).collect()
}

/// The word is anywhere.
fn zeros_and(word: u16, words: usize, random: &mut Random) -> Vec<u16> {
    let mut made = vec![0; words];
    if words > 0 {
        made[random.below(words)] = word;
    }
    made
}

/// Random words and a last one, chosen so that the sum of all leaves `rest` when it is divided by FFFF.
fn leaving(rest: u32, words: usize, random: &mut Random) -> Vec<u16> {
    let mut made = random_words(words, random);
    if let Some((last, others)) = made.split_last_mut() {
        let sum: u32 = others.iter().map(|&word| u32::from(word)).sum();
        *last = ((rest + 0xffff - sum % 0xffff) % 0xffff) as u16;
        // FFFF leaves the same as 0.
        if *last == 0 && random.chance(1, 2) {
            *last = 0xffff;
        }
    }
    made
}

fn random_words(words: usize, random: &mut Random) -> Vec<u16> {
    (0..words).map(|_| random.half()).collect()
}

/// A byte string, and its kind's name.
fn made(number: usize, random: &mut Random) -> (&'static str, Vec<u8>) {
    let (name, maker) = KINDS[number % KINDS.len()];
    let words = maker(number % LENGTHS, random);
    (name, words.into_iter().flat_map(u16::to_be_bytes).collect())
}

/// Compares the sums of the run with this seed.
pub fn run(seed: u64) -> Result<Tally, String> {
    compare(seed, STRINGS, first::words_sum)
}

/// Compares the sum to test, of bytes and a number of words, on the first byte strings of the run.
fn compare(seed: u64, strings: usize, first: impl Fn(&[u8], usize) -> u16) -> Result<Tally, String> {
    let mut random = Random::of_part(seed, u64::MAX - 2);
    let mut tally = Tally::new();
    for number in 0..strings {
        let (name, bytes) = made(number, &mut random);
        prefixes(&bytes, &first, &mut tally).map_err(|what| {
            format!(
                "seed {seed}, byte string {number} ({name}): {what}\nbytes {}",
                hex(&bytes)
            )
        })?;
        tally.string(name, bytes.len());
    }
    Ok(tally)
}

/// Every even prefix, the bytes behind it being there.
fn prefixes(bytes: &[u8], first: impl Fn(&[u8], usize) -> u16, tally: &mut Tally) -> Result<(), String> {
    for words in 0..=bytes.len() / 2 {
        let (one, other) = (first(bytes, words), second::words_sum(&bytes[..2 * words]));
        if one != other {
            let length = bytes.len();
            return Err(format!(
                "length {length}, words summed {words}: first {one:04x}, second {other:04x}"
            ));
        }
        tally.sum(words, one);
    }
    Ok(())
}

const NOTHING: &str = "0, of no words";
const ZEROS: &str = "0, of zeros";
const ONE: &str = "1";
const FFFE: &str = "FFFE";
const ONE_FFFF: &str = "FFFF, of one word";
const FFFF: &str = "FFFF, of more words";
const OTHER: &str = "others";

/// What the sums have shown so far, and what they have to have shown by the run's end.
pub struct Tally {
    lengths: [u64; LENGTHS],
    kinds: Counts,
    sums: Counts,
    pub strings: u64,
}

impl Tally {
    fn new() -> Tally {
        let sums = [NOTHING, ZEROS, ONE, FFFE, ONE_FFFF, FFFF, OTHER];
        Tally {
            lengths: [0; LENGTHS],
            kinds: KINDS.iter().map(|&(name, _)| (name, 0)).collect(),
            sums: sums.map(|name| (name, 0)).into(),
            strings: 0,
        }
    }

    fn string(&mut self, kind: &'static str, length: usize) {
        self.strings += 1;
        self.lengths[length / 2] += 1;
        raise(&mut self.kinds, kind);
    }

    /// The sum of this many words. Only zeros add up to 0.
    fn sum(&mut self, words: usize, sum: u16) {
        let name = match (sum, words) {
            (0, 0) => NOTHING,
            (0, _) => ZEROS,
            (1, _) => ONE,
            (0xfffe, _) => FFFE,
            (0xffff, 1) => ONE_FFFF,
            (0xffff, _) => FFFF,
            _ => OTHER,
        };
        raise(&mut self.sums, name);
    }

    pub fn sum_total(&self) -> u64 {
        self.sums.values().sum()
    }

    pub fn print(&self) {
        print_counts("byte strings, by their words or their sum", &self.kinds);
        let least = self.lengths.iter().min().expect("there are lengths");
        println!("byte strings of every even length from 0 to 1024: each at least {least} times");
        print_counts("sums of their words, from none to all", &self.sums);
    }

    /// What the run should have reached and has not.
    pub fn lacking(&self) -> Vec<String> {
        let mut lacking = lacking_counts("byte strings, ", &self.kinds);
        lacking.extend(lacking_counts("sum ", &self.sums));
        for (words, &count) in self.lengths.iter().enumerate() {
            if count < LEAST_OF_LENGTH {
                lacking.push(format!("byte string of {} bytes: came {count} times only", 2 * words));
            }
        }
        lacking
    }
}

#[cfg(test)]
mod tests {
    use super::*;
    use std::collections::BTreeSet;

    fn words(bytes: &[u8]) -> Vec<u16> {
        let pairs = bytes.chunks_exact(2);
        pairs.map(|pair| u16::from_be_bytes([pair[0], pair[1]])).collect()
    }

    /// Whether the words are what the name of their kind says.
    fn is_of_kind(name: &str, words: &[u16]) -> bool {
        let rest = words.iter().map(|&word| u32::from(word)).sum::<u32>() % 0xffff;
        let others: Vec<u16> = words.iter().copied().filter(|&word| word != 0).collect();
        match name {
            "all FFFF" => words.iter().all(|&word| word == 0xffff),
            "FFFE and 0001 in turn" => words.windows(2).all(|two| two == [0xfffe, 1] || two == [1, 0xfffe]),
            "zeros and one FFFF" => others == [0xffff],
            "zeros and one 0001" => others == [1],
            "zeros and one FFFE" => others == [0xfffe],
            "zeros and one random word" => others.len() < 2,
            "a multiple of FFFF" => rest == 0,
            "one below a multiple" => rest == 0xfffe,
            "one above a multiple" => rest == 1,
            "random words" => true,
            _ => false,
        }
    }

    #[test]
    fn every_kind_with_every_length() {
        let mut random = Random::new(1);
        let mut seen = BTreeSet::new();
        for number in 0..STRINGS {
            let (name, bytes) = made(number, &mut random);
            let words = words(&bytes);
            assert!(words.is_empty() || is_of_kind(name, &words), "{name}: {words:x?}");
            seen.insert((name, bytes.len()));
        }
        let pairs = KINDS
            .iter()
            .flat_map(|kind| (0..=1024).step_by(2).map(|length| (kind.0, length)));
        assert_eq!(seen, pairs.collect());
    }

    /// The sum in 16-bit numbers, `carried` saying by old sum, word and new sum whether there was a carry.
    fn sum_by(words: &[u16], carried: impl Fn(u16, u16, u16) -> bool) -> u16 {
        words.iter().fold(0, |old: u16, &word| {
            let new = old.wrapping_add(word);
            new.wrapping_add(carried(old, word, new).into())
        })
    }

    fn right(words: &[u16]) -> u16 {
        sum_by(words, |_, word, new| new < word)
    }

    /// A wrong sum of the first words, of which there are `n`.
    type Fault = fn(&[u16], usize) -> u16;

    const FAULTS: [(&str, Fault); 9] = [
        ("no carry", |all, n| sum_by(&all[..n], |_, _, _| false)),
        ("a carry where a word is 0", |all, n| {
            sum_by(&all[..n], |old, _, new| new <= old)
        }),
        ("a carry where the sum was 0", |all, n| {
            sum_by(&all[..n], |_, word, new| new <= word)
        }),
        ("no carry from the last word", |all, n| match all[..n].split_last() {
            Some((last, others)) => right(others).wrapping_add(*last),
            None => 0,
        }),
        ("the last word left out", |all, n| right(&all[..n.saturating_sub(1)])),
        ("a word too many", |all, n| right(&all[..all.len().min(n + 1)])),
        ("all words", |all, _| right(all)),
        ("bytes exchanged", |all, n| {
            let exchanged: Vec<u16> = all[..n].iter().map(|word| word.swap_bytes()).collect();
            right(&exchanged)
        }),
        ("FFFF as 0", |all, n| match right(&all[..n]) {
            0xffff => 0,
            sum => sum,
        }),
    ];

    #[test]
    fn every_fault_is_found() {
        for (name, fault) in FAULTS {
            let found = compare(1, STRINGS, |bytes, n| fault(&words(bytes), n));
            assert!(found.is_err(), "{name}");
        }
    }

    #[test]
    fn no_fault_is_found_where_there_is_none() {
        let strings = 2 * LENGTHS;
        let tally = compare(1, strings, |bytes, n| right(&words(&bytes[..2 * n]))).unwrap();
        assert_eq!(tally.strings, strings as u64);
        // Too few byte strings for a run that counts.
        assert!(!tally.lacking().is_empty());
    }

    #[test]
    fn a_difference_says_where() {
        let without_carry: Fault = FAULTS[0].1;
        let bytes = [0xff, 0xff, 0, 1, 0, 0];
        let found = prefixes(&bytes, |bytes, n| without_carry(&words(bytes), n), &mut Tally::new());
        let due = "length 6, words summed 2: first 0000, second 0001";
        assert_eq!(found, Err(due.into()));
    }

    #[cfg(feature = "stand_in")]
    #[test]
    fn a_whole_run_lacks_nothing() {
        let tally = run(1).unwrap();
        assert_eq!(tally.strings, STRINGS as u64);
        assert_eq!(tally.lacking(), Vec::<String>::new());
    }
}
