//! The slowest scene known: 16 MiB of the slowest roof known. The original takes most of a minute
//! for it, and is timed on one such roof in the table of building.

use std::time::Duration;

use crate::building::library;
use crate::outlines::wound;
use crate::scenes::to_the_limit;
use crate::timing::{ms, shortest, timed};
use library::calls;

const NAME: &str = "slowest, 16 MiB of the slowest roof known";

pub fn table(only: &str) {
    println!("| scene | bytes | Measure ms | Build ms |");
    println!("|---|--:|--:|--:|");
    if NAME.contains(only) {
        let scene = to_the_limit(wound);
        println!("| {NAME} | {} | {} |", scene.len(), time(&scene).map(ms).join(" | "));
    }
    println!();
}

fn time(scene: &[u8]) -> [Duration; 2] {
    let mut lent = library(scene);
    shortest([
        &mut || timed(|| calls::measure(scene)),
        &mut || timed(|| calls::build(scene, &mut lent)),
    ])
}
