//! 01, "The roster" and, for the counts of calls, "Share"; A11, the two forms.

use std::collections::HashMap;

use crate::bytes::{long, word};
use crate::places::Places;
use crate::table::{Customer, Table, CUSTOMERS};

/// A11: how a roster's records are packed, and how many calls its customers can have together.
#[derive(Clone, Copy, PartialEq, Eq, Debug)]
pub(crate) enum Form {
    One,
    Two,
}

impl Form {
    /// The form with this number.
    pub fn numbered(number: u32) -> Option<Form> {
        match number {
            1 => Some(Form::One),
            2 => Some(Form::Two),
            _ => None,
        }
    }

    pub fn number(self) -> u32 {
        match self {
            Form::One => 1,
            Form::Two => 2,
        }
    }

    pub fn total(self) -> usize {
        match self {
            Form::One => 64,
            Form::Two => 200,
        }
    }

    /// Guarantee and limit from the last 16 bits of a record: 7, 7 and 2 spare ones that are zero, else 43; or 8 and 8.
    fn share(self, bits: u16) -> Result<(u8, u8), u8> {
        match self {
            Form::One if bits & 3 != 0 => Err(43),
            Form::One => Ok(((bits >> 9) as u8, (bits >> 2 & 0x7f) as u8)),
            Form::Two => Ok(((bits >> 8) as u8, bits as u8)),
        }
    }
}

/// A customer: its record, its open calls and its places for Call ID 0.
#[derive(Clone, Debug)]
pub(crate) struct Account {
    pub address: u32,
    pub guarantee: u8,
    pub limit: u8,
    pub open: u8,
    pub places: Places,
}

/// The customers in the order of their records, and where each address stands.
#[derive(Clone, Debug)]
pub(crate) struct Roster {
    /// None where there are no customers.
    pub form: Option<Form>,
    pub accounts: Vec<Account>,
    by_address: HashMap<u32, usize>,
}

impl Roster {
    pub fn new(form: Option<Form>, customers: usize) -> Roster {
        Roster {
            form,
            accounts: Vec::with_capacity(customers),
            by_address: HashMap::with_capacity(customers),
        }
    }

    /// The calls that all customers can have together, and the slots for them.
    pub fn total(&self) -> usize {
        self.form.map_or(0, Form::total)
    }

    /// Lists one more customer, or refuses it: 44 for its numbers, 45 for its address.
    pub fn list(&mut self, address: u32, guarantee: u8, limit: u8) -> Result<(), u8> {
        if limit == 0 || usize::from(limit) > self.total() || guarantee > limit {
            return Err(44);
        }
        if self.by_address.insert(address, self.accounts.len()).is_some() {
            return Err(45);
        }
        self.accounts.push(Account {
            address,
            guarantee,
            limit,
            open: 0,
            places: Places::default(),
        });
        Ok(())
    }

    /// Where the customer with this address stands.
    pub fn find(&self, address: u32) -> Option<usize> {
        self.by_address.get(&address).copied()
    }

    /// S: the sum of the larger of open calls and guarantee. Without calls, the sum of the guarantees.
    pub fn share_sum(&self) -> usize {
        self.accounts
            .iter()
            .map(|account| usize::from(account.open.max(account.guarantee)))
            .sum()
    }

    /// Whether one more call of this customer is refused for share.
    pub fn share_is_used(&self, customer: usize) -> bool {
        let account = &self.accounts[customer];
        account.open == account.limit || (account.open >= account.guarantee && self.share_sum() == self.total())
    }
}

/// 01, The roster: 0 and the fresh table, or 40 to 46 and the empty table.
pub fn read_roster(bytes: &[u8]) -> (u8, Table) {
    match read(bytes) {
        Ok(roster) => (0, fresh_table(bytes, &roster)),
        Err(refusal) => (refusal, Table::EMPTY),
    }
}

fn read(bytes: &[u8]) -> Result<Roster, u8> {
    if bytes.len() < 8 {
        return Err(40);
    }
    let customers = usize::from(bytes[0] & 0xf);
    let form = Form::numbered((bytes[0] >> 4).into()).ok_or(41)?;
    if customers == 0 || customers > CUSTOMERS {
        return Err(41);
    }
    if bytes.len() != 8 + 6 * customers {
        return Err(42);
    }
    let mut roster = Roster::new(Some(form), customers);
    for record in bytes[8..].chunks_exact(6) {
        let (guarantee, limit) = form.share(word(record, 4))?;
        roster.list(long(record, 0), guarantee, limit)?;
    }
    if roster.share_sum() > roster.total() {
        return Err(46);
    }
    Ok(roster)
}

/// The table of an accepted roster.
fn fresh_table(bytes: &[u8], roster: &Roster) -> Table {
    let mut table = Table {
        address: long(bytes, 1),
        epoch: long(bytes, 4) & 0x00ff_ffff,
        listed: roster.accounts.len() as u32,
        form: roster.form.map_or(0, Form::number),
        ..Table::EMPTY
    };
    for (record, account) in table.customers.iter_mut().zip(&roster.accounts) {
        *record = Customer {
            address: account.address,
            guarantee: account.guarantee.into(),
            limit: account.limit.into(),
            ..Customer::UNUSED
        };
    }
    table
}
