//! Requests about many bonds: imports of them, and redemptions of one or several bonds each from all over the register.

use anyhow::{Context, Result};
use ee_calculator::Bond;
use ee_desk_model::{Act, Desk, Number, RateRow, Reply, Request, Rows, Unserved};
use ee_units::{Customer, Day, Rate, Serial};
use ee_value::Rates;
use std::alloc::Global;

/// The bonds of an import.
const ROWS: u64 = 500;

/// How many bonds, how many tickets, how many of them a day, and how many bonds a ticket: a divisor of 100.
#[derive(Clone, Copy)]
pub struct Size {
    pub bonds: u64,
    pub tickets: u64,
    pub a_day: u64,
    pub each: u64,
}

/// The request of an act under a number of the first desk.
pub fn ask(number: u64, act: Act) -> Result<Request> {
    let desk = Desk::first();
    let number = Number::new(number).context("number")?;
    Ok(Request { desk, number, act })
}

/// A hundred bonds belong to one customer.
fn owner(number: u64) -> Result<Customer> {
    Ok(Customer::new(number.saturating_sub(1) / 100 + 1).context("customer")?)
}

fn serial(number: u64) -> Result<Serial> {
    Ok(Serial::new(1, number).context("serial")?)
}

/// The day of that place, from 0 on.
pub fn day(place: u64) -> Result<Day> {
    let first: Day = "2015-05-04".parse()?;
    let count = u64::from(first.count()).saturating_add(place);
    Ok(Day::new(count).context("day")?)
}

/// The import of one period of rates.
pub fn rates(alloc: Global) -> Result<Request> {
    let row = RateRow {
        from: "2010-05".parse()?,
        rates: Rates::new(Rate::from_hundredths(350), None),
    };
    ask(1, Act::AddRates(Rows::new(vec![in alloc; row]?)))
}

/// How many imports enter `bonds` bonds.
pub fn count_of_imports(bonds: u64) -> u64 {
    bonds.div_ceil(ROWS)
}

/// The import at a place, from 0, of `bonds` bonds in all.
pub fn import(alloc: Global, bonds: u64, place: u64) -> Result<Request> {
    let first = place.saturating_mul(ROWS).saturating_add(1);
    let end = first.saturating_add(ROWS).min(bonds.saturating_add(1));
    let mut items = Vec::new(alloc);
    for number in first..end {
        items.push(Bond {
            serial: serial(number)?,
            denom: "50".parse()?,
            issued: "2010-05".parse()?,
            owner: owner(number)?,
            coowner: None,
        })?;
    }
    ask(place.saturating_add(2), Act::AddBonds(Rows::new(items)))
}

/// Bonds that follow one another.
fn serials(alloc: Global, first: u64, count: u64) -> Result<Vec<Serial>> {
    let mut serials = Vec::new(alloc);
    for number in first..first.saturating_add(count) {
        serials.push(serial(number)?)?;
    }
    Ok(serials)
}

/// The redemption of a ticket's bonds, taken from all over the register.
fn redemption(alloc: Global, size: Size, ticket: u64) -> Result<Request> {
    let groups = (size.bonds / size.each.max(1)).max(1);
    let step = (groups / size.tickets.max(1)).max(1);
    let group = ticket.wrapping_mul(step) % groups;
    let number = group.wrapping_mul(size.each).saturating_add(1);
    let act = Act::Redeem {
        day: day(ticket / size.a_day.max(1))?,
        payee: owner(number)?,
        serials: Rows::new(serials(alloc, number, size.each)?),
    };
    ask(ticket.saturating_add(1_000_000_000), act)
}

/// The redemptions of one day, from a ticket on.
pub fn redemptions(alloc: Global, size: Size, first: u64) -> Result<Vec<Request>> {
    let end = first.saturating_add(size.a_day).min(size.tickets);
    let mut requests = Vec::new(alloc);
    for ticket in first..end {
        requests.push(redemption(alloc, size, ticket)?)?;
    }
    Ok(requests)
}

/// How many tickets or batches, and their sum in cents.
#[derive(Clone, Copy)]
pub struct Sum {
    pub count: u64,
    pub cents: u64,
}

impl Sum {
    /// None of them.
    pub const NONE: Sum = Sum { count: 0, cents: 0 };

    /// With other ones.
    pub fn and(self, count: u64, cents: u64) -> Sum {
        Sum {
            count: self.count.wrapping_add(count),
            cents: self.cents.wrapping_add(cents),
        }
    }
}

/// The tickets that were made.
pub fn paid(answers: &[Result<Reply, Unserved>]) -> Sum {
    let mut sum = Sum::NONE;
    for answer in answers {
        if let Ok(Reply::Ticket(ticket)) = answer {
            sum = sum.and(1, ticket.total.0);
        }
    }
    sum
}

/// The batches that were made.
pub fn settled(answers: &[Result<Reply, Unserved>]) -> Sum {
    let mut sum = Sum::NONE;
    for answer in answers {
        if let Ok(Reply::Batch(batch)) = answer {
            sum = sum.and(1, batch.total.0);
        }
    }
    sum
}
