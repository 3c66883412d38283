//! An outline's rings in the plane, within the limits of a scene.

use super::holes;
use super::rings::{self, Ring};
use crate::random::Random;

pub const MAX_CORNERS: usize = 512;
pub const MAX_HOLES: usize = 32;

#[derive(Clone, Default)]
pub struct Plan {
    pub outer: Ring,
    pub holes: Vec<Ring>,
}

impl Plan {
    pub fn new(outer: Ring, holes: Vec<Ring>) -> Self {
        let mut plan = Self { outer, holes };
        plan.outer.truncate(MAX_CORNERS);
        plan.holes.truncate(MAX_HOLES);
        let mut room = MAX_CORNERS - plan.outer.len();
        for hole in &mut plan.holes {
            hole.truncate(room);
            room -= hole.len();
        }
        plan
    }

    pub fn map(&self, f: impl Fn([f64; 2]) -> [f64; 2]) -> Self {
        let ring = |ring: &Ring| ring.iter().map(|&p| f(p)).collect();
        Self {
            outer: ring(&self.outer),
            holes: self.holes.iter().map(ring).collect(),
        }
    }

    pub fn scaled(&self, by: f64) -> Self {
        self.map(|p| p.map(|x| x * by))
    }

    pub fn moved(&self, by: [f64; 2]) -> Self {
        self.map(|p| [p[0] + by[0], p[1] + by[1]])
    }
}

/// One ring of some kind, without holes.
pub fn any_ring(r: &mut Random, size: f64) -> Ring {
    let n = 3 + r.below(20);
    let ring = match r.below(7) {
        0 => rings::convex(r, n, size),
        1 => rings::concave(r, n, size),
        2 => rings::star(r, 2 * n, size),
        3 => rings::comb(r, 1 + n / 4, size),
        4 => rings::spiral(r, 2 * n, size),
        5 => rings::scattered(r, n, size),
        _ => rings::grid(r, n),
    };
    if r.chance(30) {
        rings::reversed(ring)
    } else {
        ring
    }
}

/// A ring of some kind with holes of some kind, or none.
pub fn any_plan(r: &mut Random, size: f64) -> Plan {
    let outer = any_ring(r, size);
    let count = r.below(7);
    let holes = match r.below(6) {
        0 => holes::anywhere(r, count, size),
        1 => holes::apart(r, count, size),
        2 => holes::on_grid(r, count, 5),
        3 => holes::odd(r, count, &outer, size),
        4 => holes::nested(r, count, size / 2.0),
        _ => Vec::new(),
    };
    Plan::new(outer, holes)
}
