//! The unit tables of all rates from 0.00 to 20.00 %, and as many of a rate with another extension.

use anyhow::Result;
use ee_units::{Age, Bits, Rate};
use ee_value::{Rates, UnitTable, ValueFault, unit_table};
use std::alloc::Global;
use std::time::Instant;

/// The rates of a sweep, in hundredths of a percent, and so the tables that it makes.
const RATES: u16 = 2001;

/// Which tables a sweep makes.
#[derive(Clone, Copy)]
enum Sweep {
    /// One for each rate, which stays the same for the whole life.
    EachRate,
    /// As many for a fixed rate of 3.40 % with an extension of 4.00 %.
    OnePair,
}

impl Sweep {
    /// The sum of the values of all tables, wrapped round.
    fn sum(self, alloc: Global) -> Result<u64, ValueFault> {
        let mut total: u64 = 0;
        for hundredths in 0..RATES {
            let rates = match self {
                Sweep::EachRate => Rates::new(Rate::from_hundredths(hundredths), None),
                Sweep::OnePair => pair(),
            };
            let table = unit_table(alloc, rates, Bits::from_places(62))?;
            total = total.wrapping_add(sum(&table));
        }
        Ok(total)
    }

    /// What the tables are.
    fn tables(self) -> &'static str {
        match self {
            Sweep::EachRate => "tables of 361 values",
            Sweep::OnePair => "tables of 3.40% with extension 4.00%",
        }
    }
}

fn pair() -> Rates {
    let extension = Rate::from_hundredths(400);
    Rates::new(Rate::from_hundredths(340), Some(extension))
}

/// The sum of a table's values, wrapped round.
fn sum(table: &UnitTable) -> u64 {
    let mut sum: u64 = 0;
    for months in 0..=360 {
        sum = sum.wrapping_add(table.at(Age::from_months(months)));
    }
    sum
}

/// Makes a number of sweeps, and prints what was made and how long it took.
fn measure(rt: &HostRuntime, sweep: Sweep, sweeps: u32) -> Result<()> {
    let start = Instant::now(rt)?;
    let mut total: u64 = 0;
    for _ in 0..sweeps {
        total = total.wrapping_add(sweep.sum(rt.alloc())?);
    }
    let nanos = start.elapsed(rt)?.as_nanos();
    let tables = sweep.tables();
    println!(rt; "{sweeps} sweeps of {RATES} {tables}, sum {total}")?;
    let one_sweep = nanos / u128::from(sweeps.max(1));
    let table = one_sweep / u128::from(RATES);
    eprintln!(rt;
        "{} us a sweep, {table} ns a table and its sum",
        one_sweep / 1000
    )?;
    Ok(())
}

/// The argument is the number of sweeps over the rates, 100 without one.
pub fn bench(rt: &HostRuntime, arguments: &[String]) -> Result<()> {
    let sweeps = match arguments.first() {
        Some(text) => text.parse()?,
        None => 100,
    };
    measure(rt, Sweep::EachRate, sweeps)?;
    measure(rt, Sweep::OnePair, sweeps)
}
