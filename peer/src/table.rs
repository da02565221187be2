//! The fields of the words, as in chaffmoor.h.

use crate::Words;

/// Slots for calls.
pub const CALLS: usize = 200;
/// How many of them are the total of a roster, by its form; with no customers, of form 0, none are.
pub const TOTALS: [u32; 3] = [0, 64, CALLS as u32];

#[repr(C)]
#[derive(Clone, Copy)]
pub struct Place {
    pub taken: u32,
    pub tunnel: u32,
    pub extended: u32,
    pub lsp: u32,
}

#[repr(C)]
#[derive(Clone, Copy)]
pub struct Call {
    pub endpoint: u32,
    pub sender: u32,
    pub refreshed: u32,
    pub epoch: u32,
    pub identifier: u32,
    pub id: u32,
    pub made: u32,
    pub size: u32,
    pub name: [u8; 32],
    pub places: [Place; 4],
}

#[repr(C)]
#[derive(Clone, Copy)]
pub struct Customer {
    pub address: u32,
    pub guarantee: u32,
    pub limit: u32,
    pub kept: u32,
    pub epoch: u32,
    pub identifier: u32,
    pub endpoints: [u32; 4],
    pub places: [Place; 4],
}

#[repr(C)]
#[derive(Clone, Copy)]
pub struct Table {
    pub address: u32,
    pub epoch: u32,
    pub next: u32,
    pub time: u32,
    pub listed: u32,
    pub form: u32,
    pub occupied: [u32; 8],
    pub customers: [Customer; 8],
    pub calls: [Call; CALLS],
}

const _: () = assert!(size_of::<Table>() == size_of::<Words>() && align_of::<Table>() == align_of::<Words>());
const _: () = assert!(size_of::<Customer>() == 104 && size_of::<Call>() == 128);
const _: () = assert!(cfg!(target_endian = "little"));

impl Table {
    #[inline(always)]
    pub fn of(words: &Words) -> &Table {
        // SAFETY: one size and one alignment, and any words are a table.
        unsafe { &*(words as *const Words).cast::<Table>() }
    }

    #[inline(always)]
    pub fn of_mut(words: &mut Words) -> &mut Table {
        // SAFETY: as above.
        unsafe { &mut *(words as *mut Words).cast::<Table>() }
    }

    /// The used ones of slots 64 w to 64 w + 63, a bit each.
    #[inline(always)]
    pub fn used(&self, w: usize) -> u64 {
        u64::from(self.occupied[2 * w]) | u64::from(self.occupied[2 * w + 1]) << 32
    }

    #[inline(always)]
    pub fn is_used(&self, slot: usize) -> bool {
        self.occupied[slot / 32] >> (slot % 32) & 1 == 1
    }

    /// Frees a used slot.
    #[inline(always)]
    pub fn free(&mut self, slot: usize) {
        self.calls[slot] = Call::FREE;
        self.occupied[slot / 32] ^= 1 << (slot % 32);
    }
}

impl Call {
    pub const FREE: Call = Call {
        endpoint: 0,
        sender: 0,
        refreshed: 0,
        epoch: 0,
        identifier: 0,
        id: 0,
        made: 0,
        size: 0,
        name: [0; 32],
        places: [Place::FREE; 4],
    };

    /// The pair as one number.
    #[inline(always)]
    pub fn pair(&self) -> u64 {
        pair_of(self.endpoint, self.sender)
    }
}

impl Place {
    pub const FREE: Place = Place {
        taken: 0,
        tunnel: 0,
        extended: 0,
        lsp: 0,
    };

    pub fn new(tunnel: u16, extended: u32, lsp: u16) -> Place {
        Place {
            taken: 1,
            tunnel: tunnel.into(),
            extended,
            lsp: lsp.into(),
        }
    }

    /// The four words as two numbers: mark and tunnel, extended ID and LSP ID.
    #[inline(always)]
    pub fn halves(&self) -> (u64, u64) {
        let words = (self as *const Place).cast::<u64>();
        // SAFETY: a place is sixteen bytes. The machine's order makes the first word the lower half.
        unsafe { (words.read_unaligned(), words.add(1).read_unaligned()) }
    }

    /// LSP ID, extended ID and tunnel as one number, where the first and the last are in their sixteen bits.
    #[inline(always)]
    pub fn number(&self) -> u64 {
        let (low, high) = self.halves();
        high << 16 | low >> 32
    }
}

#[inline(always)]
pub fn pair_of(endpoint: u32, sender: u32) -> u64 {
    u64::from(endpoint) | u64::from(sender) << 32
}
