//! 01, "Table rules": the table as plain data, 6,622 words of 32 bits with the fields and the order of chaffmoor.h. A
//! field can hold more than its values are: 01's widths are table rules (`rules`).

/// Slots for calls. A roster's total may be less (A11).
pub const CALLS: usize = 200;
/// Words of occupied bits. The bits past the last slot are clear.
pub const OCCUPIED: usize = 8;
/// Records of a roster.
pub const CUSTOMERS: usize = 8;
/// Connections under a call, and of Call ID 0 with a customer.
pub const PLACES: usize = 4;
/// Bytes of a long Call ID.
pub const NAME: usize = 32;

/// A connection; `taken` is 1, or 0 for none.
#[repr(C)]
#[derive(Clone, Copy, PartialEq, Eq, Debug)]
pub struct Place {
    pub taken: u32,
    pub tunnel: u32,
    pub extended: u32,
    pub lsp: u32,
}

/// A call. Its long Call ID is the first `size` bytes of `name`. `made` is 1 where the node made its IDs (A6), and then
/// `epoch` and `identifier` are the request's. `refreshed` is the node's time at its last 20 or 21 (A7).
#[repr(C)]
#[derive(Clone, Copy, PartialEq, Eq, Debug)]
pub struct Call {
    pub endpoint: u32,
    pub sender: u32,
    pub refreshed: u32,
    pub epoch: u32,
    pub identifier: u32,
    pub id: u32,
    pub made: u32,
    pub size: u32,
    pub name: [u8; NAME],
    pub places: [Place; PLACES],
}

/// A record of the roster. `kept` is 1 where a MESSAGE_ID of the customer's Notifies is kept, and then `epoch` and
/// `identifier` are its (A8). Behind them are the customer's connections of Call ID 0: the one in a place has the end
/// point of the same number.
#[repr(C)]
#[derive(Clone, Copy, PartialEq, Eq, Debug)]
pub struct Customer {
    pub address: u32,
    pub guarantee: u32,
    pub limit: u32,
    pub kept: u32,
    pub epoch: u32,
    pub identifier: u32,
    pub endpoints: [u32; PLACES],
    pub places: [Place; PLACES],
}

#[repr(C)]
#[derive(Clone, Copy, PartialEq, Eq, Debug)]
pub struct Table {
    pub address: u32,
    pub epoch: u32,
    pub next: u32,
    /// The node's, in seconds (A7).
    pub time: u32,
    pub listed: u32,
    /// The roster's form, 0 where no customer is listed.
    pub form: u32,
    /// Bit i % 32 of word i / 32: slot i of `calls` is used.
    pub occupied: [u32; OCCUPIED],
    pub customers: [Customer; CUSTOMERS],
    pub calls: [Call; CALLS],
}

impl Place {
    pub const FREE: Place = Place {
        taken: 0,
        tunnel: 0,
        extended: 0,
        lsp: 0,
    };
}

impl Call {
    pub const FREE: Call = Call {
        endpoint: 0,
        sender: 0,
        refreshed: 0,
        epoch: 0,
        identifier: 0,
        id: 0,
        made: 0,
        size: 0,
        name: [0; NAME],
        places: [Place::FREE; PLACES],
    };
}

impl Customer {
    pub const UNUSED: Customer = Customer {
        address: 0,
        guarantee: 0,
        limit: 0,
        kept: 0,
        epoch: 0,
        identifier: 0,
        endpoints: [0; PLACES],
        places: [Place::FREE; PLACES],
    };
}

impl Table {
    /// No customers, all zeros, next own identifier 1.
    pub const EMPTY: Table = Table {
        address: 0,
        epoch: 0,
        next: 1,
        time: 0,
        listed: 0,
        form: 0,
        occupied: [0; OCCUPIED],
        customers: [Customer::UNUSED; CUSTOMERS],
        calls: [Call::FREE; CALLS],
    };

    /// Whether the slot is used.
    pub fn uses(&self, slot: usize) -> bool {
        self.occupied[slot / 32] >> (slot % 32) & 1 == 1
    }

    /// The numbers whose bits are set, those that no slot has included.
    pub fn used(&self) -> impl Iterator<Item = usize> + '_ {
        (0..32 * OCCUPIED).filter(|&slot| self.uses(slot))
    }

    /// Marks the slot as used.
    pub fn occupy(&mut self, slot: usize) {
        self.occupied[slot / 32] |= 1 << (slot % 32);
    }
}
