//! Bonds paid over a store: each redemption is one transaction.

use crate::requests::{Size, Sum, ask, count_of_imports, day, import, paid, rates, redemptions};
use anyhow::{Context, Result, bail};
use ee_counter::run;
use ee_desk_model::{Act, Reply, Request};
use ee_keeper::Keeper;
use ee_store::{SqlKeeper, open_as};
use sqlite::{Alter, Connection, MemStore, Unknown};
use std::alloc::Global;
use std::time::{Duration, Instant};

/// The size without arguments.
const SMALL: Size = Size {
    bonds: 1000,
    tickets: 900,
    a_day: 1000,
    each: 1,
};

/// The arguments are the file, which must not exist, the number of bonds in it, the number of tickets that are paid,
/// the tickets a day, and the bonds on a ticket, a divisor of 100, which is 1 if it is left out. Without arguments,
/// a store in memory with 1,000 bonds and 900 tickets of one day.
pub fn bench(rt: &HostRuntime, arguments: &[String]) -> Result<()> {
    match arguments {
        [] => in_memory(rt, SMALL),
        [path, numbers @ ..] => in_file(rt, path, size_of(numbers)?),
    }
}

/// The size that numbers name.
fn size_of(numbers: &[String]) -> Result<Size> {
    let (bonds, tickets, a_day, each) = match numbers {
        [bonds, tickets, a_day] => (bonds, tickets, a_day, 1),
        [bonds, tickets, a_day, each] => (bonds, tickets, a_day, each.parse()?),
        _ => bail!("store FILE BONDS TICKETS TICKETS_A_DAY [BONDS_A_TICKET]"),
    };
    Ok(Size {
        bonds: bonds.parse()?,
        tickets: tickets.parse()?,
        a_day: a_day.parse()?,
        each,
    })
}

fn deliver<K: Keeper>(keeper: &mut K, request: &Request) -> Result<()> {
    match keeper.deliver(request) {
        Ok(Reply::Refused(_)) => bail!("refused"),
        Ok(_) => Ok(()),
        Err(_) => bail!("unserved"),
    }
}

/// Delivers an act under a number.
fn deliver_act<K: Keeper>(keeper: &mut K, number: u64, act: Act) -> Result<()> {
    deliver(keeper, &ask(number, act)?)
}

/// Enters the bonds of an import.
fn enter_bonds<K: Keeper>(alloc: Global, keeper: &mut K, bonds: u64, place: u64) -> Result<()> {
    deliver(keeper, &import(alloc, bonds, place)?)
}

/// Enters the rates and all bonds.
fn enter<K: Keeper>(alloc: Global, keeper: &mut K, bonds: u64) -> Result<()> {
    deliver(keeper, &rates(alloc)?)?;
    for place in 0..count_of_imports(bonds) {
        enter_bonds(alloc, keeper, bonds, place)?;
    }
    Ok(())
}

/// The tickets that were paid, and how long that took.
#[derive(Clone, Copy)]
struct Payments {
    sum: Sum,
    took: Duration,
}

/// The tickets of a day from this one on, and what they took.
fn pay_tickets<K: Keeper>(
    rt: &HostRuntime,
    keeper: &mut K,
    size: Size,
    first: u64,
) -> Result<Payments> {
    let requests = redemptions(rt.alloc(), size, first)?;
    let start = Instant::now(rt)?;
    let answers = run(rt.alloc(), keeper, &requests)?;
    let took = start.elapsed(rt)?;
    Ok(Payments {
        sum: paid(&answers),
        took,
    })
}

/// One day: it is opened, bonds are paid, and it is closed.
fn pay_day<K: Keeper>(
    rt: &HostRuntime,
    keeper: &mut K,
    size: Size,
    first: u64,
) -> Result<Payments> {
    let today = day(first / size.a_day.max(1))?;
    deliver_act(
        keeper,
        first.saturating_add(2_000_000_000),
        Act::OpenDay(today),
    )?;
    let payments = pay_tickets(rt, keeper, size, first)?;
    deliver_act(
        keeper,
        first.saturating_add(3_000_000_000),
        Act::CloseDay(today),
    )?;
    Ok(payments)
}

/// All days.
fn pay<K: Keeper>(rt: &HostRuntime, keeper: &mut K, size: Size) -> Result<Payments> {
    let mut sum = Sum::NONE;
    let mut took = Duration::from_secs(0);
    let a_day = size.a_day.max(1);
    for count in 0..size.tickets.div_ceil(a_day) {
        let today = pay_day(rt, keeper, size, count.saturating_mul(a_day))?;
        sum = sum.and(today.sum.count, today.sum.cents);
        took = took.saturating_add(today.took);
    }
    Ok(Payments { sum, took })
}

/// Enters the bonds, pays some of them, and prints that.
fn measure<K: Keeper>(rt: &HostRuntime, keeper: &mut K, size: Size) -> Result<()> {
    let start = Instant::now(rt)?;
    enter(rt.alloc(), keeper, size.bonds)?;
    let entered = start.elapsed(rt)?.as_millis();
    eprintln!(rt; "bonds entered in {entered} ms")?;
    print(rt, size, pay(rt, keeper, size)?)
}

/// Prints what was paid.
fn print(rt: &HostRuntime, size: Size, payments: Payments) -> Result<()> {
    println!(rt;
        "{} bonds, {} tickets of {} cents",
        size.bonds, payments.sum.count, payments.sum.cents
    )?;
    let one = payments.took.as_nanos() / u128::from(payments.sum.count).max(1);
    eprintln!(rt;
        "{one} ns a redemption, {} a second",
        1_000_000_000 / one.max(1)
    )?;
    Ok(())
}

/// Prints how long a store took to open.
fn opened<S: Alter>(rt: &HostRuntime, start: Instant, keeper: &mut SqlKeeper<S>) -> Result<()> {
    let took = start.elapsed(rt)?.as_millis();
    let found = keeper.ticket(1).ok().context("unserved")?;
    let told = match found {
        Some(_) => "ticket 1 is there",
        None => "no ticket",
    };
    println!(rt; "opened again: {told}")?;
    eprintln!(rt; "opened in {took} ms")?;
    Ok(())
}

/// What is done over a store.
#[derive(Clone, Copy)]
enum Work {
    /// Bonds are entered, and some of them paid.
    Payments(Size),
    /// Prints how long the store took to open, from that time on.
    Opening(Instant),
}

impl Work {
    fn over<S: Alter>(self, rt: &HostRuntime, keeper: &mut SqlKeeper<S>) -> Result<()> {
        match self {
            Work::Payments(size) => measure(rt, keeper, size),
            Work::Opening(start) => opened(rt, start, keeper),
        }
    }
}

/// Work over the store of a connection, which is handed back.
fn over_memory(
    rt: &HostRuntime,
    conn: Connection<MemStore>,
    work: Work,
) -> Result<Connection<MemStore>> {
    match SqlKeeper::adopt(conn, rt.alloc()) {
        Ok(mut keeper) => {
            let done = work.over(rt, &mut keeper);
            let conn = keeper.close();
            done?;
            Ok(conn)
        }
        Err(_) => bail!("not adopted"),
    }
}

fn in_memory(rt: &HostRuntime, size: Size) -> Result<()> {
    let Ok(conn) = Connection::open_in_memory(rt.alloc()) else {
        bail!("store");
    };
    let conn = over_memory(rt, conn, Work::Payments(size))?;
    let start = Instant::now(rt)?;
    let _conn = over_memory(rt, conn, Work::Opening(start))?;
    Ok(())
}

/// Work over the store in a file, which is opened for it and closed.
fn over_file(rt: &HostRuntime, path: &str, work: Work) -> Result<()> {
    match open_as(rt, path, Unknown) {
        Ok(mut keeper) => work.over(rt, &mut keeper),
        Err(_) => bail!("store"),
    }
}

fn in_file(rt: &HostRuntime, path: &str, size: Size) -> Result<()> {
    over_file(rt, path, Work::Payments(size))?;
    over_file(rt, path, Work::Opening(Instant::now(rt)?))
}
