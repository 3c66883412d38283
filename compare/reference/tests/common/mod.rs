//! Corners and solids for the tests.
#![allow(dead_code)]

use reference::coords::Point;
use reference::network::Object;
use reference::object::Corner;
use reference::pair::Pair;
use reference::write::Writer;
use reference::{build, read_scene, validate, Built};

pub const UPRIGHT: [Pair; 3] = [Pair {
    sine: 0.0,
    cosine: 1.0,
}; 3];

pub fn solid(sizes: &[f32]) -> Vec<u8> {
    Writer::new().solid(7, [0.0; 3], UPRIGHT, sizes).finish()
}

/// Corners of a prism of this height.
pub fn prism(plan: &[[f32; 2]], height: f32) -> Vec<Corner> {
    plan.iter()
        .map(|&[x, y]| Corner {
            base: Point::new(x, y, 0.0),
            top: Point::new(x, y, height),
        })
        .collect()
}

pub fn built(scene: &[u8]) -> (Vec<Object>, Built) {
    let objects = read_scene(scene).expect("an accepted scene");
    let built = build(&objects);
    (objects, built)
}

/// Offered, kept and thin of the only object, and the verdict.
pub fn account(scene: &[u8]) -> ([u32; 3], u32) {
    let (_, built) = built(scene);
    let verdict = validate(&built.vertices, &built.indices).verdict;
    (
        [built.account[0], built.account[1], built.account[2]],
        verdict,
    )
}

pub fn courtyard() -> Vec<u8> {
    let outer = prism(&[[0.0, 0.0], [4.0, 0.0], [4.0, 4.0], [0.0, 4.0]], 3.0);
    let hole = prism(&[[1.0, 1.0], [1.0, 2.0], [2.0, 2.0], [2.0, 1.0]], 3.0);
    Writer::new().outline(1, true, &outer, &[hole]).finish()
}
