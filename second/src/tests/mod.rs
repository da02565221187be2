//! Tests from document 01's own examples and sentences and from those of requests A1, A6, A7, A8, A11 and A13. Expected
//! values come from there.

mod build;
mod calls;
mod checkpoint_bytes;
mod checkpoints;
mod connections;
mod expiry;
mod expiry_rules;
mod form;
mod late;
mod late_rules;
mod nameless;
mod nameless_rules;
mod objects;
mod replies;
mod rosters;
mod rules;
mod salvage_alone;
mod salvage_beside;
mod salvage_duplicates;
mod streams;
mod two_hundred;
