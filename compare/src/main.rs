//! compare [SEED] [MESSAGES] [--captures FILE] [--checkpoints N]: exit 0 if the two programs agree on everything and
//! all of 01's answers (with --checkpoints, A13's too) and all kinds of sums came often enough, 1 if not, 2 if the
//! arguments or the file cannot be read.

use compare::run;
use std::process::ExitCode;

struct Arguments {
    seed: u64,
    messages: u64,
    captures: Option<String>,
    checkpoints: Option<u64>,
}

fn main() -> ExitCode {
    let arguments = match arguments(std::env::args().skip(1)) {
        Ok(arguments) => arguments,
        Err(what) => {
            eprintln!("{what}\nusage: compare [SEED] [MESSAGES] [--captures FILE] [--checkpoints N]");
            return ExitCode::from(2);
        }
    };
    match lines(&arguments) {
        Ok(lines) => println!("{}", lines.join("\n")),
        Err(what) => {
            println!("FAILED: {what}");
            return ExitCode::from(1);
        }
    }
    ExitCode::SUCCESS
}

fn arguments(mut words: impl Iterator<Item = String>) -> Result<Arguments, String> {
    let mut numbers = Vec::new();
    let mut captures = None;
    let mut checkpoints = None;
    while let Some(word) = words.next() {
        if word == "--captures" {
            let file = words.next().ok_or("--captures needs a file")?;
            let text = std::fs::read_to_string(&file).map_err(|error| format!("{file}: {error}"))?;
            captures = Some(text);
        } else if word == "--checkpoints" {
            checkpoints = Some(number(&words.next().ok_or("--checkpoints needs a number")?)?);
        } else {
            numbers.push(number(&word)?);
        }
    }
    if numbers.len() > 2 {
        return Err("too many numbers".into());
    }
    Ok(Arguments {
        seed: numbers.first().copied().unwrap_or(4974),
        messages: numbers.get(1).copied().unwrap_or(240_000),
        captures,
        checkpoints,
    })
}

fn number(word: &str) -> Result<u64, String> {
    word.parse().map_err(|_| format!("{word}: not a number"))
}

/// What was compared, a line each. The sums are first: where they differ, checksums do, and the sums say it shortest.
fn lines(arguments: &Arguments) -> Result<Vec<String>, String> {
    let sums = sums(arguments.seed)?;
    let messages = messages(arguments)?;
    let checkpoints = checkpoints(arguments)?;
    Ok([Some(messages), checkpoints, Some(sums)]
        .into_iter()
        .flatten()
        .collect())
}

fn sums(seed: u64) -> Result<String, String> {
    let tally = compare::sums::run(seed)?;
    tally.print();
    enough(tally.lacking())?;
    Ok(format!(
        "compared {} sums of {} byte strings: equal",
        tally.sum_total(),
        tally.strings
    ))
}

fn messages(arguments: &Arguments) -> Result<String, String> {
    let tally = run::all(arguments.seed, arguments.messages, arguments.captures.as_deref())?;
    tally.print();
    enough(tally.lacking())?;
    Ok(format!(
        "compared {} messages, {} rosters, {} broken tables, {} changed words: equal",
        tally.compared,
        tally.roster_total(),
        tally.broken_total(),
        tally.word_total()
    ))
}

/// The line for checkpoints, none without --checkpoints.
fn checkpoints(arguments: &Arguments) -> Result<Option<String>, String> {
    let Some(count) = arguments.checkpoints else {
        return Ok(None);
    };
    let tally = compare::checkpoints::run(arguments.seed, count)?;
    tally.print();
    enough(tally.lacking())?;
    Ok(Some(format!(
        "compared {} checkpoints, {} round trips: equal",
        tally.checkpoints, tally.round_trips
    )))
}

fn enough(lacking: Vec<String>) -> Result<(), String> {
    match lacking.is_empty() {
        true => Ok(()),
        false => Err(format!(
            "no difference, but too little was seen:\n{}",
            lacking.join("\n")
        )),
    }
}
