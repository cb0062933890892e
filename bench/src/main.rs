//! Compares the proved reader with its plain twin on random records, then times both.
//!
//! Arguments, both optional: the seed of the records, and how many to compare.

mod compare;
mod proved;
mod records;
mod speed;
mod twin;

use std::process::ExitCode;

const SEED: u64 = 1;
const COUNT: u64 = 200_000;

fn main() -> ExitCode {
    let Some((seed, count)) = arguments() else {
        eprintln!("usage: bench [SEED [COUNT]]");
        return ExitCode::from(2);
    };
    println!("Compared, seed {seed}:");
    match compare::compare(seed, count) {
        Ok(tally) => print!("{tally}"),
        Err(difference) => {
            print!("{difference}");
            return ExitCode::FAILURE;
        }
    }
    println!();
    speed::print_tables(seed);
    ExitCode::SUCCESS
}

fn arguments() -> Option<(u64, u64)> {
    let mut arguments = std::env::args().skip(1);
    let mut number = |default| arguments.next().map_or(Some(default), |text| text.parse().ok());
    let numbers = (number(SEED)?, number(COUNT)?);
    arguments.next().is_none().then_some(numbers)
}
