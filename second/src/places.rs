//! 01, "Every answer": the four places of a call, or of a customer for Call ID 0.

use crate::table::PLACES;

/// Which of the four are taken. What stands in them is in the node's map of connections.
#[derive(Clone, Copy, Default, Debug)]
pub(crate) struct Places([bool; PLACES]);

impl Places {
    /// Takes the lowest free place, if there is one.
    pub fn take_lowest(&mut self) -> Option<usize> {
        let place = self.0.iter().position(|taken| !taken)?;
        self.0[place] = true;
        Some(place)
    }

    pub fn take(&mut self, place: usize) {
        self.0[place] = true;
    }

    /// Frees a place. The others stay where they are.
    pub fn release(&mut self, place: usize) {
        self.0[place] = false;
    }

    pub fn all_free(&self) -> bool {
        !self.0.contains(&true)
    }
}
