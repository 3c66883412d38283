//! Makes what the test program `crates/test_rounding` reads and must print, by
//! Rust's own `f32::sqrt` and `as f32`. In this folder:
//!
//!     cargo run --offline --release -- ../../crates/test_rounding
//!
//! A pattern is a word of four bytes, or two for an f64, the lowest first. A
//! line holds the pattern of an answer as a decimal number, or `nan`.

use std::{env, fs};

mod patterns;

fn line(x: f32) -> String {
    if x.is_nan() {
        "nan\n".to_string()
    } else {
        format!("{}\n", x.to_bits())
    }
}

fn main() {
    let folder = env::args().nth(1).expect("the folder of the test program");
    let mut random = patterns::Random(0x9E37_79B9_7F4A_7C15);
    let roots = patterns::roots(&mut random);
    let narrowings = patterns::narrowings(&mut random);
    let lines: String = roots
        .iter()
        .map(|&b| line(f32::from_bits(b).sqrt()))
        .chain(narrowings.iter().map(|&b| line(f64::from_bits(b) as f32)))
        .collect();
    let roots: Vec<u8> = roots.iter().flat_map(|b| b.to_le_bytes()).collect();
    let narrowings: Vec<u8> = narrowings.iter().flat_map(|b| b.to_le_bytes()).collect();
    fs::write(format!("{folder}/data/roots"), roots).expect("data/roots is written");
    fs::write(format!("{folder}/data/narrowings"), narrowings).expect("data/narrowings is written");
    fs::write(format!("{folder}/stdout"), lines).expect("stdout is written");
}
