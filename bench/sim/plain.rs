//! A simulator in plain Rust that does what `dnp sim --plain` does, for `bench/sim/run` to measure that beside it: the
//! same plans and scripts, substations, a concentrator and two centres over lines that carry link frames, and the same
//! report. Its words are those of the scripts that are measured, and those that cost nothing more: `hangup`, `damage`,
//! `time`, `tick` and `restart` it doesn't know.
//!
//! `plain PLAN < SCRIPT` prints the report. Exit status 1: plan or script was refused.

#[path = "../plain_rust/controls.rs"]
mod controls;
#[path = "../plain_rust/fragments.rs"]
mod fragments;
#[path = "../plain_rust/links.rs"]
mod links;
#[path = "../plain_rust/master.rs"]
mod master;
#[path = "../plain_rust/outstation.rs"]
mod outstation;
#[path = "../plain_rust/streams.rs"]
mod streams;

mod lines;
mod plan;
mod relay;
mod report;
mod script;
mod world;

use std::io::{self, BufWriter, Read, Write};
use std::process::ExitCode;

fn run() -> Result<ExitCode, io::Error> {
    let mut out = BufWriter::new(io::stdout().lock());
    let plan = std::fs::read_to_string(std::env::args().nth(1).expect("plain PLAN"))?;
    let Some(plan) = plan::read(&plan) else {
        writeln!(out, "refused plan")?;
        return Ok(ExitCode::from(1));
    };
    let mut text = String::new();
    io::stdin().lock().read_to_string(&mut text)?;
    let script = match script::read(&text, plan.substations.len()) {
        Ok(script) => script,
        Err(line) => {
            writeln!(out, "refused line {line}")?;
            return Ok(ExitCode::from(1));
        }
    };
    let mut world = world::World::new(&plan);
    for line in &script {
        world.run(line, &mut out)?;
    }
    report::print(&mut world, &mut out)?;
    out.flush()?;
    Ok(ExitCode::SUCCESS)
}

fn main() -> ExitCode {
    run().unwrap_or_else(|cause| {
        eprintln!("plain: {cause}");
        ExitCode::from(3)
    })
}
