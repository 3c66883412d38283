//! Records of walls and roofs.

use reference::families::plan::Plan;
use reference::families::rings::{self, Ring};
use reference::families::stand::{scene, Stand};
use reference::long::record;
use reference::random::Random;

#[derive(Clone, Copy)]
pub enum Shape {
    Convex,
    Star,
    Comb,
    Spiral,
}

impl Shape {
    pub fn name(self) -> &'static str {
        match self {
            Self::Convex => "convex",
            Self::Star => "star",
            Self::Comb => "comb",
            Self::Spiral => "spiral",
        }
    }
}

fn standing(r: &mut Random, closed: bool, outer: Ring, holes: Vec<Ring>) -> Vec<u8> {
    let plan = Plan::new(outer, holes);
    record(scene(r, closed, &plan, Stand::Prism(3.0)))
}

pub fn open_wall(r: &mut Random, corners: usize) -> Vec<u8> {
    let line = (0..corners)
        .map(|k| [2.0 * k as f64, r.between(-1.0, 1.0)])
        .collect();
    standing(r, false, line, Vec::new())
}

/// A convex roof.
pub fn roof(r: &mut Random, corners: usize) -> Vec<u8> {
    ring(r, Shape::Convex, corners)
}

pub fn ring(r: &mut Random, shape: Shape, corners: usize) -> Vec<u8> {
    let outer = match shape {
        Shape::Convex => rings::convex(r, corners, 10.0),
        Shape::Star => rings::star(r, corners, 10.0),
        // The bar has two corners and a tooth has four.
        Shape::Comb => rings::comb(r, corners / 4, 10.0)
            .into_iter()
            .take(corners)
            .collect(),
        Shape::Spiral => rings::spiral(r, corners, 10.0),
    };
    standing(r, true, outer, Vec::new())
}

/// A convex roof with square holes apart from each other; `corners` counts theirs too.
pub fn holed(r: &mut Random, corners: usize, holes: usize) -> Vec<u8> {
    let outer = rings::round(corners - 4 * holes, [0.0, 0.0], |_| 10.0);
    let side = (1..)
        .find(|n| n * n >= holes)
        .expect("some square is larger");
    let cell = 11.0 / side as f64;
    let holes = (0..holes)
        .map(|k| {
            let [x, y] = [k % side, k / side].map(|c| c as f64 * cell - 5.5);
            let width = cell * r.between(0.2, 0.6);
            let [dx, dy] = [0; 2].map(|_| r.between(0.1, 0.3) * cell);
            rings::square(x + dx, y + dy, width)
        })
        .collect();
    standing(r, true, outer, holes)
}

/// The slowest roof known, of 512 corners.
pub fn wound(r: &mut Random) -> Vec<u8> {
    standing(r, true, rings::wound(341, 171, 100.0), Vec::new())
}
