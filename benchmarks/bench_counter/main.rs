//! Makes tables of values, runs redemptions over many bonds, in memory and over a store, splits streams into messages,
//! and times it.
//!
//! The first argument chooses: `values [SWEEPS]`, `desk [BONDS]`, `wire [ROUNDS]` or `store [FILE BONDS TICKETS
//! TICKETS_A_DAY [BONDS_A_TICKET]]`; without one, the four are run at a small size, one after the other. Standard
//! output has what was done, standard error how long it took.
#![tactic(auto)]

mod desk;
mod requests;
mod store;
mod values;
mod wire;

use anyhow::{Result, bail};
use std::env;

/// The benchmark of that name, whose arguments are these.
fn chosen(rt: &HostRuntime, name: &str, arguments: &[String]) -> Result<()> {
    match name {
        "values" => values::bench(rt, arguments),
        "desk" => desk::bench(rt, arguments),
        "wire" => wire::bench(rt, arguments),
        "store" => store::bench(rt, arguments),
        _ => bail!("no benchmark: {name}"),
    }
}

fn main(rt: HostRuntime) -> Result<()> {
    let words: Vec<String> = env::args(&rt)?.skip(1).collect(rt.alloc())?;
    if let Some((name, arguments)) = words.split_first() {
        return chosen(&rt, name, arguments);
    }
    for name in ["values", "desk", "wire", "store"] {
        chosen(&rt, name, &[])?;
    }
    Ok(())
}
