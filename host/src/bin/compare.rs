//! Compares the proved library's functions with the independent ones.
//!
//! compare [N] [SEED]

use distelhut_host::compare::COMPARISONS;
use distelhut_host::functions::INDEPENDENT;
use distelhut_host::proved::PROVED;
use std::process::ExitCode;

const USAGE: &str = "usage: compare [N] [SEED]
  N     how many cases are generated for each function (200000)
  SEED  the seed of the generator (1)";

/// Reads the arguments; none if they are not as the usage says.
fn wish(mut arguments: impl Iterator<Item = String>) -> Option<(usize, u64)> {
    let count = arguments.next().map_or(Some(200_000), |word| word.parse().ok())?;
    let seed = arguments.next().map_or(Some(1), |word| word.parse().ok())?;
    match arguments.next() {
        None => Some((count, seed)),
        Some(_) => None,
    }
}

fn main() -> ExitCode {
    let Some((count, seed)) = wish(std::env::args().skip(1)) else {
        eprintln!("{USAGE}");
        return ExitCode::from(2);
    };
    for (_, compare) in COMPARISONS {
        match compare(count, seed, &[INDEPENDENT, PROVED]) {
            Ok(line) => println!("compare: {line}"),
            Err(difference) => {
                println!("compare: {difference}");
                return ExitCode::FAILURE;
            }
        }
    }
    ExitCode::SUCCESS
}
