//! bench [quick]: time per message of the proved program, through its C interface, as a ratio to the second program
//! doing the same checks, at tables of 200, 100 and 0 calls under a roster of form 2 and of 64, 32, 16 and 0 under one of
//! form 1; then the size of the table and the stack that is used.
//! With `quick` each is measured once only, to see that it runs.
//!
//! bench peer [quick]: the same as a ratio to the yardstick, the tuned peer, at the same tables, at tables chosen to be
//! slow, and in reading alone.
//!
//! bench nameless [quick]: messages about calls that arrived without names as a ratio to the same about named ones, both
//! of the proved program.
//!
//! bench expiry [quick]: messages with a period, where no call is due and where all are, as a ratio to the same with
//! period 0, both of the proved program.
//!
//! bench versions FOLDER [quick]: two versions of the proved program (bench/versions), each at several places.

mod checkpoints;
mod chosen;
mod chosen_checkpoints;
mod clock;
mod expiry;
mod inputs;
mod largest;
mod loaded;
mod messages;
mod nameless;
mod output;
mod parts;
mod sizes;
mod stack;
mod tried_checkpoints;
mod versions;
mod yardstick;

use inputs::{Calls, Pairs, ALL};

fn main() {
    let asked = |what: &str| std::env::args().any(|argument| argument == what);
    match () {
        () if asked("peer") => yardstick::print(),
        () if asked("nameless") => nameless::print(),
        () if asked("expiry") => expiry::print(),
        () if asked("versions") => versions::print(),
        () => beside_the_second(),
    }
}

fn beside_the_second() {
    output::head_of_times();
    for calls in ALL {
        messages::rows(calls).iter().for_each(messages::measure);
    }
    for calls in ALL {
        parts::measure_rules(calls);
    }
    parts::measure_reading();
    let of_eight = |calls: &&Calls| calls.count == 0 || calls.pairs == Pairs::Eight;
    ALL.iter()
        .filter(of_eight)
        .for_each(|calls| checkpoints::measure(*calls));
    checkpoints::measure_large();
    sizes::print();
}
