//! Compares the proved program (first, through its C interface) with the second program, which was written from
//! documents 01 and 02 by itself. The generator and the ledger here are written from them as well.

pub mod both;
pub mod breaks;
pub mod build;
pub mod captures;
pub mod change;
pub mod checkpoints;
pub mod checksums;
pub mod classes;
pub mod clock;
pub mod coverage;
pub mod coverage_expiry;
pub mod coverage_late;
pub mod coverage_nameless;
pub mod damage;
pub mod difference;
pub mod encode;
pub mod expiry;
pub mod first;
pub mod form;
pub mod full;
pub mod intent;
pub mod late;
pub mod layout;
pub mod ledger;
pub mod made;
pub mod nameless;
pub mod near;
mod near_kept;
mod near_made;
mod near_refreshed;
pub mod numbering;
pub mod outside;
#[cfg(all(test, feature = "stand_in"))]
mod planted;
pub mod random;
pub mod restored;
pub mod rosters;
pub mod run;
pub mod source;
#[cfg(feature = "stand_in")]
mod stand_in;
pub mod stream;
pub mod sums;
pub mod tables;
pub mod tally;
pub mod trials;
pub mod values;
