//! Tables that break a table rule of 01, one function a rule and way. Each is handed a table that breaks none and
//! says whether it could break it; the answer due is then 1. Each leaves all other rules as they are where it can. A
//! name that begins with a form is that of a breaking which only a table of that form can have.

mod calls;
mod connections;
pub mod form;
mod free;
mod kept;
mod made;
mod refreshed;
mod roster;
pub mod tools;

use crate::random::Random;
use second::table::Table;

pub type Break = fn(&mut Table, &mut Random) -> bool;

/// Every breaking, with its name.
pub fn all() -> impl Iterator<Item = &'static (&'static str, Break)> {
    roster::BREAKS
        .iter()
        .chain(calls::BREAKS)
        .chain(made::BREAKS)
        .chain(refreshed::BREAKS)
        .chain(kept::BREAKS)
        .chain(connections::BREAKS)
        .chain(free::BREAKS)
        .chain(form::BREAKS)
}
