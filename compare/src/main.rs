//! Runs Mizdrek and the Rust it was translated from on the same inputs: compares every number, times
//! both, and writes the Rust's answers for others to replay.

#![deny(unsafe_code)]
// Where a group is left out, what only it uses is idle.

mod args;
mod av2;
mod bench;
mod check;
mod difference;
mod lent;
#[allow(unsafe_code)]
mod mizdrek;
mod oracle;
#[allow(unsafe_code)]
mod probe;
mod random;
mod rules;
mod samples;
mod settings;
mod vectors;

use args::{Args, Mode};
use std::process::ExitCode;

fn main() -> ExitCode {
    let args = match args::read(std::env::args().skip(1)).and_then(known_groups) {
        Ok(args) => args,
        Err(why) => {
            eprintln!("{why}\n{}", args::USAGE);
            return ExitCode::from(2);
        }
    };
    match args.mode {
        Mode::Check if !check::compare(&args.groups, args.seed, args.count) => {
            return ExitCode::FAILURE;
        }
        Mode::Check => {}
        Mode::Bench => bench::bench(&args.groups),
        Mode::Vectors => vectors::write(args.seed),
    }
    ExitCode::SUCCESS
}

/// Refuses a group that isn't built in, or that the mode has nothing to do with.
fn known_groups(args: Args) -> Result<Args, String> {
    let known: Vec<&str> = match args.mode {
        Mode::Check => check::GROUPS.iter().map(|group| group.name).collect(),
        Mode::Bench => bench::GROUPS.iter().map(|group| group.name).collect(),
        Mode::Vectors => Vec::new(),
    };
    match args.groups.iter().find(|name| !known.contains(&name.as_str())) {
        Some(name) => Err(format!("{name} is not one of the groups here: {}", known.join(" "))),
        None => Ok(args),
    }
}
