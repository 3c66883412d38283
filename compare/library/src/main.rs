//! Compares the linked library with the original on generated scenes, in one process.

mod check;
mod lengths;

use std::process::ExitCode;

use reference::families::{generate, names};

const USAGE: &str = "library --seed S --count N: N scenes of each family, from seed S on";

fn main() -> ExitCode {
    let arguments: Vec<String> = std::env::args().skip(1).collect();
    let arguments: Vec<&str> = arguments.iter().map(String::as_str).collect();
    let ["--seed", seed, "--count", count] = arguments[..] else {
        eprintln!("{USAGE}");
        return ExitCode::FAILURE;
    };
    let (Ok(seed), Ok(count)) = (seed.parse::<u64>(), count.parse::<u64>()) else {
        eprintln!("{USAGE}");
        return ExitCode::FAILURE;
    };
    let (mut scenes, mut refused) = (0u64, 0u64);
    let mut compare = |name: String, scene: &[u8], turn: u64| {
        let accepted = check::scene(scene, turn).map_err(|message| format!("{name}: {message}"))?;
        scenes += 1;
        refused += u64::from(!accepted);
        Ok(())
    };
    if let Err(message) = all(seed, count, &mut compare) {
        eprintln!("{message}");
        return ExitCode::FAILURE;
    }
    println!("{scenes} scenes, {refused} of them refused, no difference");
    ExitCode::SUCCESS
}

type Compare<'a> = &'a mut dyn FnMut(String, &[u8], u64) -> Result<(), String>;

fn all(seed: u64, count: u64, compare: Compare) -> Result<(), String> {
    for (turn, length) in (0..).zip(lengths::LENGTHS) {
        for scene in lengths::scenes(length) {
            compare(format!("{length} bytes"), &scene, turn)?;
        }
    }
    for family in names() {
        // A scene of these families takes the original many milliseconds.
        let long = ["slow", "wound"].contains(&family);
        let count = if long { count.div_ceil(100) } else { count };
        for k in 0..count {
            let seed = seed.wrapping_add(k);
            compare(format!("{family} seed {seed}"), &generate(family, seed), k)?;
        }
    }
    Ok(())
}
