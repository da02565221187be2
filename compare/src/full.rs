//! A table at all its limits, reached by messages: 64 calls of eight customers, or 200 in form 2, four connections under
//! each call and four of Call ID 0 with each customer. Every third call came without names. The time goes on from message
//! to message.

use crate::both;
use crate::build::{self, Connection};
use crate::random::Random;
use crate::rosters::{self, Shape};
use crate::trials::hex;
use crate::values::Values;
use second::table::Table;
use second::Clock;

/// Both programs' tables.
#[derive(Clone, Copy)]
pub struct Tables {
    pub first: Table,
    pub second: Table,
}

/// A roster of eight, its fresh table and its full one.
pub struct Full {
    pub roster: Vec<u8>,
    pub values: Values,
    pub fresh: Tables,
    pub full: Tables,
}

const ENDPOINT: u32 = 0x0a00_0063;

impl Full {
    pub fn new(form: u8, random: &mut Random) -> Result<Full, String> {
        let roster = rosters::shaped(form, Shape::Eight, random);
        let values = Values::new(&roster, random);
        let (_, first, second) = both::roster(&roster.bytes(), random)?;
        let fresh = Tables { first, second };
        let mut full = fresh;
        let began = *random.pick(&[0, 0, 1_000, 1 << 31]);
        let began = Clock { time: began, period: 0 };
        send(&mut full, began, &[], 3, random)?;
        for record in &roster.records {
            fill(&mut full, record.address, record.guarantee.into(), random)?;
        }
        let roster = roster.bytes();
        Ok(Full {
            roster,
            values,
            fresh,
            full,
        })
    }
}

/// This many calls of a customer, and four connections under each and of Call ID 0.
fn fill(tables: &mut Tables, sender: u32, calls: u16, random: &mut Random) -> Result<(), String> {
    for call in 0..=calls {
        if call > 0 {
            let long = [b'n'; 32];
            let short = [call as u8];
            let name = if call == 1 { &long[..] } else { &short };
            // All lower numbers are in use, so that a nameless one gets this one.
            let numbers = (9, call.into());
            let open = match call % 3 {
                0 => build::nameless(ENDPOINT, sender, numbers),
                _ => build::open_numbered(ENDPOINT, sender, call, name, numbers),
            };
            send(tables, later(tables, random), &open, 20, random)?;
        }
        for lsp in 0..4 {
            let connection = Connection {
                endpoint: ENDPOINT,
                tunnel: call,
                extended: 0,
                sender,
                lsp,
            };
            send(
                tables,
                later(tables, random),
                &build::path(connection, call),
                23,
                random,
            )?;
        }
    }
    Ok(())
}

/// The same time or a little later, with no period.
fn later(tables: &Tables, random: &mut Random) -> Clock {
    let time = tables.first.time + random.below(3) as u32;
    Clock { time, period: 0 }
}

/// A message to both, which has to get this answer.
pub(crate) fn send(
    tables: &mut Tables,
    clock: Clock,
    message: &[u8],
    due: u8,
    random: &mut Random,
) -> Result<(), String> {
    let done = both::message((&tables.first, &tables.second), message, clock, 128, random);
    let done = done.map_err(|what| format!("{what}\nmessage {}", hex(message)))?;
    if done.answer != due {
        let message = hex(message);
        return Err(format!(
            "filling a table: answer {}, {due} due\nmessage {message}",
            done.answer
        ));
    }
    (tables.first, tables.second) = (*done.first, *done.second);
    Ok(())
}
