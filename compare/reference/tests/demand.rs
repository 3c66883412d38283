//! Demand 3 on every family, and that its check finds what is wrong.

mod common;

use common::{built, courtyard};
use reference::demand::check;
use reference::families::{generate, names};
use reference::tally::{tally, Tally};
use reference::Built;

#[test]
fn every_family() {
    let mut all = Tally::default();
    for family in names() {
        for seed in 0..20 {
            let scene = generate(family, seed);
            tally(&scene, &mut all).unwrap_or_else(|e| panic!("{family} {seed}: {e}"));
        }
    }
    assert!(all.refusals()[1..].iter().all(|&n| n > 0), "{all}");
    assert!(all.marks()[1..].iter().all(|&n| n > 0), "{all}");
}

#[test]
fn finds_what_is_wrong() {
    let changes: [fn(&mut Built); 16] = [
        |b| b.account[0] += 1,
        |b| b.account[1] -= 1,
        |b| b.account[3] -= 1,
        |b| b.account[2] += 1,
        |b| b.spans[0] += 1,
        |b| b.spans[1] = 1,
        |b| b.spans[4] -= 3,
        |b| b.spans.clear(),
        |b| b.indices[5] = 48,
        |b| b.indices[1] = b.indices[0],
        |b| b.vertices[0] = f32::NAN,
        |b| b.vertices.truncate(3 * 47),
        |b| b.log[0] = 5,
        |b| b.log[2] += 1,
        |b| b.log[4] = 2,
        |b| b.log.swap(5, 6),
    ];
    let (objects, sound) = built(&courtyard());
    assert_eq!(check(&objects, &sound), Ok(()));
    let mut missed = Vec::new();
    for (n, change) in changes.iter().enumerate() {
        let mut wrong = sound.clone();
        change(&mut wrong);
        if check(&objects, &wrong).is_ok() {
            missed.push(n);
        }
    }
    assert_eq!(missed, [] as [usize; 0]);
}
