//! Damaged bytes.

use super::{generate, Family};
use crate::random::Random;

pub const FAMILIES: &[Family] = &[
    ("truncated", truncated),
    ("flipped", flipped),
    ("trailer", trailer),
    ("moved", moved),
    ("junk", junk),
    ("short", |r| {
        (0..r.below(6)).map(|_| r.word() as u8).collect()
    }),
];

fn some(r: &mut Random) -> Vec<u8> {
    generate(
        r.pick(&["list", "solid", "holes", "sweepodd", "few", "open"]),
        r.word(),
    )
}

fn truncated(r: &mut Random) -> Vec<u8> {
    let mut scene = some(r);
    let keep = r.below(scene.len() + 1);
    if r.chance(50) {
        scene.truncate(keep);
        return scene;
    }
    // The front cut off, so that the trailer stays.
    scene.split_off(scene.len() - keep)
}

fn flipped(r: &mut Random) -> Vec<u8> {
    let mut scene = some(r);
    for _ in 0..1 + r.below(3) {
        let at = r.below(scene.len());
        scene[at] ^= 1 << r.below(8);
    }
    scene
}

/// The last words of a list changed: the offsets or the number of objects.
fn trailer(r: &mut Random) -> Vec<u8> {
    let mut scene = generate("list", r.word());
    let words = 1 + r.below(3);
    let at = scene.len() - 4 * words;
    let to = match r.below(4) {
        0 => r.word() as u32,
        1 => r.below(300) as u32,
        2 => r.pick(&[65_536, 65_537, 1 << 30, u32::MAX]),
        _ => 0,
    };
    scene[at..at + 4].copy_from_slice(&to.to_le_bytes());
    scene
}

/// A byte put in or taken out.
fn moved(r: &mut Random) -> Vec<u8> {
    let mut scene = some(r);
    let at = r.below(scene.len());
    if r.chance(50) {
        scene.insert(at, r.word() as u8);
    } else {
        scene.remove(at);
    }
    scene
}

/// Any bytes before a trailer that may fit.
fn junk(r: &mut Random) -> Vec<u8> {
    let n = r.below(200);
    let mut scene: Vec<u8> = (0..n).map(|_| r.word() as u8).collect();
    if r.chance(70) && n > 0 {
        scene[0] %= 8;
    }
    scene.extend([0, 0, 0, 0, 1, 0, 0, 0]);
    scene
}
