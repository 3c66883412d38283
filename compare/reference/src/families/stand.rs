//! From a plan to corners: how an outline stands.

use super::plan::Plan;
use crate::coords::Point;
use crate::object::Corner;
use crate::random::Random;
use crate::write::Writer;

const LARGEST: f64 = 16_777_216.0;

#[derive(Clone, Copy)]
pub enum Stand {
    /// Walls of one height.
    Prism(f64),
    /// Base and top the same.
    Flat,
    /// Tops in a sloped plane, bases level.
    Sloped(f64, f64),
    /// The plan's second axis upward, bases behind.
    Upright(f64),
    /// Tops anywhere above or below.
    Odd,
    /// Tops moved off to the side, bases on one point.
    Pyramid(f64),
}

pub fn number(x: f64) -> f32 {
    x.clamp(-LARGEST, LARGEST) as f32
}

pub fn point(p: [f64; 3]) -> Point {
    Point::from_array(p.map(number))
}

fn corner(r: &mut Random, [x, y]: [f64; 2], stand: Stand) -> Corner {
    let (base, top) = match stand {
        Stand::Prism(h) => ([x, y, 0.0], [x, y, h]),
        Stand::Flat => ([x, y, 0.0], [x, y, 0.0]),
        Stand::Sloped(a, b) => ([x, y, 0.0], [x, y, 3.0 + a * x + b * y]),
        Stand::Upright(depth) => ([x, depth, y], [x, 0.0, y]),
        Stand::Odd => ([x, y, r.between(-1.0, 1.0)], [x, y, r.between(-4.0, 4.0)]),
        Stand::Pyramid(h) => ([0.0, 0.0, 0.0], [x, y, h]),
    };
    Corner {
        base: point(base),
        top: point(top),
    }
}

pub fn any_stand(r: &mut Random) -> Stand {
    match r.below(10) {
        0 => Stand::Flat,
        1 => Stand::Sloped(r.between(-2.0, 2.0), r.between(-2.0, 2.0)),
        2 => Stand::Upright(r.pick(&[0.0, 0.5, -0.5])),
        3 => Stand::Odd,
        4 => Stand::Pyramid(r.between(-3.0, 3.0)),
        5 => Stand::Prism(-3.0),
        _ => Stand::Prism(3.0),
    }
}

pub fn corners(r: &mut Random, plan: &Plan, stand: Stand) -> (Vec<Corner>, Vec<Vec<Corner>>) {
    let mut raise = |ring: &Vec<[f64; 2]>| ring.iter().map(|&p| corner(r, p, stand)).collect();
    (raise(&plan.outer), plan.holes.iter().map(raise).collect())
}

/// A scene of this one outline.
pub fn scene(r: &mut Random, closed: bool, plan: &Plan, stand: Stand) -> Vec<u8> {
    let id = r.below(100) as u32;
    let (outer, holes) = corners(r, plan, stand);
    Writer::new().outline(id, closed, &outer, &holes).finish()
}
