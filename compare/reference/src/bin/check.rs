//! Checks demand 3 on generated scenes of every family.

use std::process::ExitCode;

use reference::answer::hex;
use reference::families::{generate, names};
use reference::tally::{tally, Tally};

const USAGE: &str = "check --seed S --count N: N scenes of each family, from seed S on";

fn main() -> ExitCode {
    let arguments: Vec<String> = std::env::args().skip(1).collect();
    let arguments: Vec<&str> = arguments.iter().map(String::as_str).collect();
    let ["--seed", seed, "--count", count] = arguments[..] else {
        eprintln!("{USAGE}");
        return ExitCode::FAILURE;
    };
    let (Ok(seed), Ok(count)) = (seed.parse::<u64>(), count.parse::<u64>()) else {
        eprintln!("{USAGE}");
        return ExitCode::FAILURE;
    };
    let mut all = Tally::default();
    for family in names() {
        let mut own = Tally::default();
        for k in 0..count {
            let scene = generate(family, seed.wrapping_add(k));
            if let Err(message) = tally(&scene, &mut own) {
                eprintln!("{family}: {message}\n{}", hex(&scene));
                return ExitCode::FAILURE;
            }
        }
        println!("{family}: {own}");
        all.add(&own);
    }
    println!("all: {all}");
    ExitCode::SUCCESS
}
