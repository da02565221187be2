//! Captured messages: a file of lines of name, packet number and hex bytes; `#` starts a comment line.

use crate::both;
use crate::clock;
use crate::full::Full;
use crate::random::Random;
use crate::tally::Tally;
use crate::trials::hex;

/// Sends every message of the file to both programs, with a fresh table and with a full one of each form. How many there
/// were.
pub fn run(text: &str, random: &mut Random, tally: &mut Tally) -> Result<usize, String> {
    let (one, two) = (Full::new(1, random)?, Full::new(2, random)?);
    let states = [
        ("fresh, form 1", &one.fresh),
        ("full, form 1", &one.full),
        ("fresh, form 2", &two.fresh),
        ("full, form 2", &two.full),
    ];
    let lines = text.lines().map(str::trim);
    let lines = lines.filter(|line| !line.is_empty() && !line.starts_with('#'));
    let mut count = 0;
    for line in lines {
        let message = message(line).ok_or_else(|| format!("no captured message: {line}"))?;
        for (state, tables) in states {
            for buffer in [127, 128, 300] {
                let clock = clock::any(&tables.first, random);
                let done = both::message((&tables.first, &tables.second), &message, clock, buffer, random);
                let done = done.map_err(|what| {
                    format!(
                        "{line}: table {state}, buffer {buffer}: {what}\nmessage {}",
                        hex(&message)
                    )
                })?;
                tally.message(done.answer, buffer);
            }
        }
        count += 1;
    }
    if count == 0 {
        return Err("the file has no captured message".into());
    }
    Ok(count)
}

/// The bytes of a line's third word.
fn message(line: &str) -> Option<Vec<u8>> {
    let mut words = line.split_whitespace();
    let (_name, packet, digits) = (words.next()?, words.next()?, words.next()?);
    packet.parse::<u32>().ok()?;
    let digits: Option<Vec<u32>> = digits.chars().map(|digit| digit.to_digit(16)).collect();
    let digits = digits.filter(|digits| digits.len() % 2 == 0 && words.next().is_none())?;
    Some(digits.chunks(2).map(|pair| (pair[0] << 4 | pair[1]) as u8).collect())
}

#[cfg(test)]
mod tests {
    use super::message;

    #[test]
    fn lines() {
        assert_eq!(message("a.pcap 3 10ff"), Some(vec![0x10, 0xff]));
        for bad in ["a.pcap 3", "a.pcap x 10", "a.pcap 3 1", "a.pcap 3 1g", "a.pcap 3 10 10"] {
            assert_eq!(message(bad), None);
        }
    }
}
