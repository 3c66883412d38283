//! Lists of several objects, with repeated ids.

use super::{generate, Family};
use crate::random::Random;
use crate::write::Writer;

pub const FAMILIES: &[Family] = &[
    ("none", |_| Writer::new().finish()),
    ("list", |r| list(r, 2, 6)),
    ("listlong", |r| list(r, 20, 60)),
    ("listempty", |r| {
        of(r, 8, &["solidzero", "zeroarea", "few", "sweepodd"])
    }),
];

const KINDS: &[&str] = &[
    "solid",
    "solidzero",
    "solidnegative",
    "solidodd",
    "convex",
    "concave",
    "grid",
    "open",
    "few",
    "holes",
    "holesgrid",
    "holesodd",
    "vertical",
    "sweep",
    "sweepthin",
    "sweepodd",
    "round",
    "roundodd",
    "zeroarea",
    "repeated",
];

fn list(r: &mut Random, from: i32, to: i32) -> Vec<u8> {
    let n = r.range(from, to) as usize;
    of(r, n, KINDS)
}

/// Records of single-object scenes end to end, with few different ids.
fn of(r: &mut Random, n: usize, kinds: &[&str]) -> Vec<u8> {
    (0..n)
        .fold(Writer::new(), |scene, _| {
            let one = generate(r.pick(kinds), r.word());
            let mut record = one[..one.len() - 8].to_vec();
            record[1..5].copy_from_slice(&(r.below(3) as u32).to_le_bytes());
            scene.raw(&record)
        })
        .finish()
}
