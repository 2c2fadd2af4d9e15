//! Redemptions over a desk in memory that holds many bonds, new and repeated, and days that are opened and closed.

use crate::requests::{
    Size, ask, count_of_imports, day, import, paid, rates, redemptions, settled,
};
use anyhow::Result;
use ee_counter::run;
use ee_desk::ListKeeper;
use ee_desk_model::{Act, Reply, Request, Unserved};
use std::alloc::Global;
use std::time::Instant;

/// The tickets of a run, which is a full day.
const TICKETS: u64 = 1000;

/// The days that are opened and closed without tickets.
const DAYS: u64 = 500;

/// The argument is the number of bonds, at most 9,999,999,999; without one, 1,000 and then 10,000.
pub fn bench(rt: &HostRuntime, arguments: &[String]) -> Result<()> {
    if let Some(bonds) = arguments.first() {
        return measure(rt, bonds.parse()?);
    }
    measure(rt, 1_000)?;
    measure(rt, 10_000)
}

/// One period of rates, the bonds, and an open day.
fn setup(alloc: Global, bonds: u64) -> Result<Vec<Request>> {
    let mut requests = Vec::new(alloc);
    requests.push(rates(alloc)?)?;
    for place in 0..count_of_imports(bonds) {
        requests.push(import(alloc, bonds, place)?)?;
    }
    requests.push(ask(999_999_999, Act::OpenDay(day(0)?))?)?;
    Ok(requests)
}

/// The close of the day with the tickets, then days that are opened and closed.
fn days(alloc: Global) -> Result<Vec<Request>> {
    let mut requests = Vec::new(alloc);
    requests.push(ask(2_000_000_000, Act::CloseDay(day(0)?))?)?;
    for place in 1..=DAYS {
        let number = place.saturating_mul(2).saturating_add(2_000_000_000);
        let today = day(place)?;
        requests.push(ask(number, Act::OpenDay(today))?)?;
        requests.push(ask(number.saturating_add(1), Act::CloseDay(today))?)?;
    }
    Ok(requests)
}

/// Prints what requests paid.
fn print_sums(rt: &HostRuntime, what: &str, answers: &[Result<Reply, Unserved>]) -> Result<()> {
    let tickets = paid(answers);
    let batches = settled(answers);
    println!(rt;
        "{what}: {} answers, {} tickets of {} cents, {} batches of {} cents",
        answers.len(),
        tickets.count,
        tickets.cents,
        batches.count,
        batches.cents
    )?;
    Ok(())
}

/// Prints how long a number of requests took.
fn print_time(rt: &HostRuntime, what: &str, count: usize, nanos: u128) -> Result<()> {
    let one = nanos / (count as u128).max(1);
    eprintln!(rt;
        "{what}: {one} ns a request, {} a second",
        1_000_000_000 / one.max(1)
    )?;
    Ok(())
}

/// Runs the requests, and prints what they paid and how long they took.
fn timed(
    rt: &HostRuntime,
    keeper: &mut ListKeeper,
    requests: &[Request],
    what: &str,
) -> Result<()> {
    let start = Instant::now(rt)?;
    let answers = run(rt.alloc(), keeper, requests)?;
    let nanos = start.elapsed(rt)?.as_nanos();
    print_sums(rt, what, &answers)?;
    print_time(rt, what, answers.len(), nanos)
}

/// Enters the bonds, and opens the day.
fn enter(rt: &HostRuntime, keeper: &mut ListKeeper, bonds: u64) -> Result<()> {
    timed(rt, keeper, &setup(rt.alloc(), bonds)?, "imports")
}

/// The redemptions of a full day, and the same once more.
fn pay(rt: &HostRuntime, keeper: &mut ListKeeper, bonds: u64) -> Result<()> {
    let size = Size {
        bonds,
        tickets: TICKETS,
        a_day: TICKETS,
        each: 1,
    };
    let requests = redemptions(rt.alloc(), size, 0)?;
    timed(rt, keeper, &requests, "new")?;
    timed(rt, keeper, &requests, "repeated")
}

fn measure(rt: &HostRuntime, bonds: u64) -> Result<()> {
    println!(rt; "{bonds} bonds")?;
    eprintln!(rt; "{bonds} bonds")?;
    let mut keeper = ListKeeper::empty(rt.alloc());
    enter(rt, &mut keeper, bonds)?;
    pay(rt, &mut keeper, bonds)?;
    timed(rt, &mut keeper, &days(rt.alloc())?, "days")
}
