//! Arrangements of holes.

use super::rings::{concave, convex, reversed, round, square, Ring};
use crate::random::Random;

/// Small rings anywhere within `size` of the middle, so that some cross.
pub fn anywhere(r: &mut Random, count: usize, size: f64) -> Vec<Ring> {
    (0..count)
        .map(|_| {
            let middle = [r.between(-size, size), r.between(-size, size)];
            let radius = size * r.between(0.02, 0.2);
            let n = 3 + r.below(5);
            turned(r, round(n, middle, |_| radius))
        })
        .collect()
}

/// Apart from each other in cells of a square of side `size`.
pub fn apart(r: &mut Random, count: usize, size: f64) -> Vec<Ring> {
    let side = (1..)
        .find(|n| n * n >= count)
        .expect("some square is larger");
    let cell = size / side as f64;
    (0..count)
        .map(|k| {
            let middle = [k % side, k / side].map(|c| (c as f64 + 0.5) * cell - size / 2.0);
            let n = 3 + r.below(5);
            let ring = round(n, middle, |_| cell * r.between(0.1, 0.45));
            turned(r, ring)
        })
        .collect()
}

/// Squares on whole numbers: rightmost ties, shared corners and edges.
pub fn on_grid(r: &mut Random, count: usize, cells: i32) -> Vec<Ring> {
    (0..count)
        .map(|_| {
            let (x, y) = (r.range(0, cells - 1), r.range(0, cells - 1));
            let side = r.pick(&[1.0, 1.0, 1.0, 2.0, 0.5]);
            let ring = square(f64::from(x), f64::from(y), side);
            let ring = rolled(r.below(4), ring);
            turned(r, ring)
        })
        .collect()
}

/// Each inside the one before.
pub fn nested(r: &mut Random, count: usize, size: f64) -> Vec<Ring> {
    (0..count)
        .map(|k| {
            let radius = size * (1.0 - k as f64 / count as f64) * 0.9;
            let n = 3 + r.below(6);
            turned(r, round(n, [0.0, 0.0], |_| radius))
        })
        .collect()
}

/// In a row, each touching the next at a corner, or along an edge.
pub fn touching(r: &mut Random, count: usize) -> Vec<Ring> {
    let upright = r.chance(50);
    (0..count)
        .map(|k| {
            let t = k as f64;
            let (x, y) = if upright {
                (1.0, t + 1.0)
            } else {
                (t + 1.0, 1.0)
            };
            let diamond = vec![
                [x, y + 0.5],
                [x + 0.5, y],
                [x + 1.0, y + 0.5],
                [x + 0.5, y + 1.0],
            ];
            let ring = if r.chance(50) {
                diamond
            } else {
                square(x, y, 1.0)
            };
            turned(r, ring)
        })
        .collect()
}

/// Few corners, no area, outside, on the outer ring's corners, ordinary.
pub fn odd(r: &mut Random, count: usize, outer: &Ring, size: f64) -> Vec<Ring> {
    (0..count)
        .map(|_| match r.below(7) {
            0 => Vec::new(),
            1 => vec![[r.between(-size, size), 0.0]],
            2 => vec![[0.0, 0.0], [size / 2.0, size / 3.0]],
            3 => (0..4).map(|k| [f64::from(k), 2.0 * f64::from(k)]).collect(),
            4 => outer.iter().take(3 + r.below(3)).copied().collect(),
            5 => concave(r, 6, size)
                .iter()
                .map(|p| [p[0] + 2.0 * size, p[1]])
                .collect(),
            _ => convex(r, 5, size / 3.0),
        })
        .collect()
}

fn turned(r: &mut Random, ring: Ring) -> Ring {
    if r.chance(50) {
        reversed(ring)
    } else {
        ring
    }
}

fn rolled(by: usize, mut ring: Ring) -> Ring {
    let n = ring.len();
    ring.rotate_left(by % n);
    ring
}
