//! bench nameless: the proved program's times for calls that arrive without names (A6) beside its own for named ones,
//! at tables of as many calls and pairs; then the worst ratio, which is to be 1.2 at most, and the deepest stack.

use crate::inputs::{opened, wide, Calls, Opened, Pairs};
use crate::messages::{self, in_turns};
use crate::output;
use crate::sizes::stack_of;

/// Numbers can be in the way of one pair's calls only.
const TABLES: [Calls; 3] = [
    opened(wide(200, Pairs::One), Opened::Nameless),
    opened(wide(200, Pairs::One), Opened::InTheWay),
    opened(wide(200, Pairs::Own), Opened::Nameless),
];

pub fn print() {
    output::head_of_nameless();
    let (mut worst, mut deepest) = (0f64, 0);
    for calls in TABLES {
        let named = messages::rows(opened(calls, Opened::ByName));
        for (row, named) in messages::rows(calls).iter().zip(&named) {
            let times = in_turns(row, named);
            let input = format!("{}{}{}", row.what, calls.opened_name(), calls.form_name());
            output::ratio(&input, (calls.count, calls.pairs()), times);
            worst = worst.max(times.0 / times.1);
            deepest = deepest.max(stack_of(row));
        }
    }
    println!("worst ratio {worst:.2}");
    println!("stack {deepest}");
}
