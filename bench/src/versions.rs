//! bench versions FOLDER: two versions of the proved library beside each other, whatever their tables look like inside.
//! A row's time depends on where its code, its table and its stack happen to stand, by more than a version may cost: so
//! each version is linked at several places (bench/versions leaves them in the folder), lent tables at several addresses and
//! called at several depths of the stack, and a row's time is the mean over all of these, each the best of some rounds in
//! turns.

use crate::checkpoints;
use crate::clock::TURN;
use crate::inputs::{Calls, ALL};
use crate::loaded::{Loaded, Row as Closings, MOST_WORDS};
use crate::messages::{self, Due};
use crate::output;
use compare::first;
use std::hint::black_box;
use std::path::{Path, PathBuf};

/// How many addresses tables are lent at, and how far one is from the next, in words: each has its own place in a line of
/// 64 bytes, and they are spread over a page.
const ADDRESSES: usize = 16;
const APART: usize = 65;

/// How far down the stack the library is called: as many as there are addresses, each with its own place in a line too.
const DEPTHS: [fn(&mut dyn FnMut()); ADDRESSES] = [
    deeper::<0>,
    deeper::<272>,
    deeper::<544>,
    deeper::<816>,
    deeper::<1088>,
    deeper::<1360>,
    deeper::<1632>,
    deeper::<1904>,
    deeper::<2176>,
    deeper::<2448>,
    deeper::<2720>,
    deeper::<2992>,
    deeper::<3264>,
    deeper::<3536>,
    deeper::<3808>,
    deeper::<4080>,
];

/// Runs something with so many bytes more between it and the caller.
#[inline(never)]
fn deeper<const BYTES: usize>(run: &mut dyn FnMut()) {
    let gap = black_box([0u8; BYTES]);
    run();
    black_box(gap);
}

/// What a version may cost: a row above it is counted.
const BOUND: f64 = 1.05;

/// A row of messages at the table that a checkpoint says.
struct Scene {
    roster: Vec<u8>,
    checkpoint: Vec<u8>,
    messages: Vec<Due>,
}

/// One version at one place, and room for its table at every address.
struct Placed {
    library: Loaded,
    room: Vec<u32>,
    reply: [u8; 128],
    closings: Closings,
}

impl Placed {
    fn new(library: Loaded) -> Placed {
        Placed {
            library,
            room: vec![0; MOST_WORDS + ADDRESSES * APART],
            reply: [0; 128],
            closings: [0; 400],
        }
    }

    fn restore(&mut self, scene: &Scene, address: usize) {
        let table = &mut self.room[address * APART..];
        self.library.restore(table, &scene.roster, &scene.checkpoint);
    }

    /// Whether every message of one turn is answered as is due.
    fn turn(&mut self, scene: &Scene, address: usize) -> bool {
        let table = &mut self.room[address * APART..];
        let mut good = true;
        for (message, due) in &scene.messages {
            good &= self.library.answer(table, message, &mut self.reply, &mut self.closings) == *due;
        }
        good
    }
}

pub fn print() {
    let folder = folder();
    let (mut before, mut after) = (versions(&folder, "before"), versions(&folder, "after"));
    output::head_of_versions();
    let mut ratios = Vec::new();
    for calls in ALL {
        for row in messages::rows(calls) {
            let scene = scene(calls, &row);
            if !understood(&mut before[0], &scene) || !understood(&mut after[0], &scene) {
                continue;
            }
            let times = in_all_places(&scene, &mut before, &mut after);
            ratios.push(times.1.mean / times.0.mean);
            output::versions(&row.name, times);
        }
    }
    let above = ratios.iter().filter(|ratio| **ratio > BOUND).count();
    let mean = ratios.iter().sum::<f64>() / ratios.len() as f64;
    let worst = ratios.iter().copied().fold(0f64, f64::max);
    println!(
        "{above} of {} rows above {BOUND}, worst {worst:.3}, mean {mean:.3}",
        ratios.len()
    );
}

/// The argument behind `versions`.
fn folder() -> PathBuf {
    let mut arguments = std::env::args().skip_while(|argument| argument != "versions").skip(1);
    arguments.next().expect("bench versions FOLDER").into()
}

/// The places that a version was linked at: VERSION-0.so, VERSION-1.so and so on.
fn versions(folder: &Path, version: &str) -> Vec<Placed> {
    let files = (0..).map(|place| folder.join(format!("{version}-{place}.so")));
    let there: Vec<Placed> = files
        .take_while(|file| file.exists())
        .map(|file| Placed::new(Loaded::from(&file)))
        .collect();
    assert!(!there.is_empty(), "no {version}-0.so in {}", folder.display());
    there
}

fn scene(calls: Calls, row: &messages::Row) -> Scene {
    let mut checkpoint = vec![0; checkpoints::MOST];
    let (answer, length) = first::write_checkpoint(&row.table, &mut checkpoint);
    assert_eq!(answer, 0);
    checkpoint.truncate(length);
    Scene {
        roster: calls.roster(),
        checkpoint,
        messages: row.messages.clone(),
    }
}

/// Not every version knows every answer, and what a checkpoint has not cannot be restored.
fn understood(placed: &mut Placed, scene: &Scene) -> bool {
    placed.restore(scene, 0);
    placed.turn(scene, 0)
}

/// Nanoseconds per message over all places and addresses.
#[derive(Clone, Copy)]
pub struct Spread {
    pub best: f64,
    pub mean: f64,
}

impl Spread {
    fn of(times: &[f64]) -> Spread {
        Spread {
            best: times.iter().copied().fold(f64::INFINITY, f64::min),
            mean: times.iter().sum::<f64>() / times.len() as f64,
        }
    }
}

fn in_all_places(scene: &Scene, before: &mut [Placed], after: &mut [Placed]) -> (Spread, Spread) {
    let (mut of_before, mut of_after) = (Vec::new(), Vec::new());
    let count = scene.messages.len() as f64;
    for (place, (one, two)) in before.iter_mut().zip(after).enumerate() {
        for address in 0..ADDRESSES {
            one.restore(scene, address);
            two.restore(scene, address);
            // Every address meets eight of the depths.
            let depth = (5 * address + 2 * place) % ADDRESSES;
            DEPTHS[depth](&mut || {
                let mut first = || u64::from(one.turn(scene, address));
                let mut second = || u64::from(two.turn(scene, address));
                let times = TURN.in_turns(&mut first, &mut second);
                of_before.push(times.0 / count);
                of_after.push(times.1 / count);
            });
        }
    }
    (Spread::of(&of_before), Spread::of(&of_after))
}
