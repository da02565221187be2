//! 01, "Share", and A11: the slots of the roster's total.

use crate::table::CALLS;

/// Which slots are free. Those outside the total never are.
#[derive(Clone, Debug)]
pub(crate) struct Slots([bool; CALLS]);

impl Slots {
    /// The first `total` slots, all free.
    pub fn all_free(total: usize) -> Slots {
        let mut free = [false; CALLS];
        free[..total].fill(true);
        Slots(free)
    }

    /// Takes the lowest free slot, if there is one.
    pub fn take_lowest(&mut self) -> Option<usize> {
        let slot = self.0.iter().position(|&free| free)?;
        self.0[slot] = false;
        Some(slot)
    }

    /// Takes a slot, and says whether it was there and free.
    pub fn take(&mut self, slot: usize) -> bool {
        self.0.get_mut(slot).is_some_and(std::mem::take)
    }

    /// Whether the slot is there and free.
    pub fn is_free(&self, slot: usize) -> bool {
        self.0.get(slot) == Some(&true)
    }

    pub fn release(&mut self, slot: usize) {
        self.0[slot] = true;
    }
}
