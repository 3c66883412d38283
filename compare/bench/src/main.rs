//! Times the original Rust and the linked library on the same scenes, in turn.

mod building;
mod cutting;
mod filling;
mod memory;
mod outlines;
mod reading;
mod scenes;
mod slowest;
mod solids;
mod timing;
mod validating;

use std::process::ExitCode;

const USAGE: &str = "bench [--only TEXT]: all families, or those whose name has TEXT";

fn main() -> ExitCode {
    let arguments: Vec<String> = std::env::args().skip(1).collect();
    let arguments: Vec<&str> = arguments.iter().map(String::as_str).collect();
    let only = match arguments[..] {
        [] => "",
        ["--only", text] => text,
        [memory::CHILD, side, length] => {
            memory::child(side, length);
            return ExitCode::SUCCESS;
        }
        _ => {
            eprintln!("{USAGE}");
            return ExitCode::FAILURE;
        }
    };
    timing::keep_memory();
    building::table(only);
    cutting::table(only);
    filling::table(only);
    reading::table(only);
    slowest::table(only);
    validating::table(only);
    memory::table(only);
    ExitCode::SUCCESS
}
