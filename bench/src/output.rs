//! What is printed: tables that can be pasted into markdown.

use crate::versions::Spread;

/// Above the rows of times.
pub fn head_of_times() {
    println!("| input | proved, ns | second, ns | ratio | second, unchecked, ns |");
    println!("|---|---|---|---|---|");
}

/// Nanoseconds of both programs and, where it was measured, of the second one without its rule check.
pub fn times(input: &str, (proved, second): (f64, f64), unchecked: Option<f64>) {
    let unchecked = unchecked.map_or(String::new(), whole);
    let ratio = proved / second;
    println!(
        "| {input} | {} | {} | {ratio:.2} | {unchecked} |",
        whole(proved),
        whole(second)
    );
}

/// Above the rows of the proved program beside the peer.
pub fn head_of_ratios() {
    println!("| input | calls | pairs | proved, ns | peer, ns | ratio |");
    println!("|---|---|---|---|---|---|");
}

/// Above the rows of the proved program without names beside itself with names.
pub fn head_of_nameless() {
    println!("| input | calls | pairs | nameless, ns | named, ns | ratio |");
    println!("|---|---|---|---|---|---|");
}

/// Above the rows of the proved program with a period beside itself with period 0.
pub fn head_of_expiry() {
    println!("| input | calls | pairs | with a period, ns | period 0, ns | ratio |");
    println!("|---|---|---|---|---|---|");
}

/// Above the rows of two versions of the proved program.
pub fn head_of_versions() {
    println!("| input | before, best | after, best | ratio | before, mean | after, mean | ratio |");
    println!("|---|---|---|---|---|---|---|");
}

/// Nanoseconds of two versions over all places: the best one, and the mean.
pub fn versions(input: &str, (before, after): (Spread, Spread)) {
    let of = |before: f64, after: f64| format!("{} | {} | {:.2}", whole(before), whole(after), after / before);
    let (best, mean) = (of(before.best, after.best), of(before.mean, after.mean));
    println!("| {input} | {best} | {mean} |");
}

/// Nanoseconds of both at a table of so many calls and address pairs.
pub fn ratio(input: &str, (calls, pairs): (u32, u32), (proved, peer): (f64, f64)) {
    let ratio = proved / peer;
    println!(
        "| {input} | {calls} | {pairs} | {} | {} | {ratio:.2} |",
        whole(proved),
        whole(peer)
    );
}

/// Nanoseconds of both for reading a message: no table is needed.
pub fn reading(message: &str, (proved, peer): (f64, f64)) {
    let ratio = proved / peer;
    println!(
        "| reading alone, {message} | | | {} | {} | {ratio:.2} |",
        whole(proved),
        whole(peer)
    );
}

/// Above the rows of sizes.
pub fn head_of_sizes() {
    println!();
    println!("| what | bytes |");
    println!("|---|---|");
}

pub fn size(what: &str, bytes: usize) {
    println!("| {what} | {} |", thousands(bytes as u64));
}

fn whole(ns: f64) -> String {
    thousands(ns.round() as u64)
}

/// The number with a comma before every three digits.
pub fn thousands(number: u64) -> String {
    match number {
        0..1000 => number.to_string(),
        _ => format!("{},{:03}", thousands(number / 1000), number % 1000),
    }
}

#[cfg(test)]
mod tests {
    use super::thousands;

    #[test]
    fn commas() {
        assert_eq!([0, 999].map(thousands), ["0", "999"]);
        assert_eq!(
            [1000, 12_034, 1_000_007].map(thousands),
            ["1,000", "12,034", "1,000,007"]
        );
    }
}
