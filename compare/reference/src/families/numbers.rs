//! Outlines by the size of their numbers.

use super::plan::{any_plan, Plan};
use super::stand::{any_stand, corners, number, scene, Stand};
use super::{rings, Family};
use crate::coords::Point;
use crate::object::Corner;
use crate::random::Random;
use crate::write::Writer;

pub const FAMILIES: &[Family] = &[
    ("threshold", threshold),
    ("tiny", |r| scaled(r, -12, -3)),
    ("subnormal", subnormal),
    ("large", |r| scaled(r, 2, 5)),
    ("huge", huge),
    ("faraway", far_away),
    ("negzero", negative_zeros),
    ("anybits", any_bits),
    ("halves", halves),
];

fn power(r: &mut Random, from: i32, to: i32) -> f64 {
    let exponent = r.range(from, to);
    let ten = if exponent < 0 { 0.1 } else { 10.0 };
    (0..exponent.abs()).fold(1.0, |x, _| x * ten)
}

fn scaled(r: &mut Random, from: i32, to: i32) -> Vec<u8> {
    let by = power(r, from, to);
    let plan = any_plan(r, 9.0).scaled(by);
    let stand = if r.chance(50) {
        Stand::Prism(by)
    } else {
        any_stand(r)
    };
    scene(r, true, &plan, stand)
}

/// Areas on both sides of 1e-6, holes' too.
fn threshold(r: &mut Random) -> Vec<u8> {
    let near =
        |r: &mut Random| 1e-6 * r.pick(&[0.5, 0.999_999, 0.999_999_9, 1.0, 1.000_000_1, 1.5]);
    let (w, area) = (r.pick(&[1.0, 0.001, 0.5, 64.0]), near(r));
    let sliver = |w: f64, area: f64| vec![[0.0, 0.0], [w, 0.0], [0.0, area / w]];
    let (outer, holes) = if r.chance(50) {
        (sliver(w, area), Vec::new())
    } else {
        let hole = sliver(0.5, near(r))
            .iter()
            .map(|p| [p[0] + 1.0, p[1] + 1.0])
            .collect();
        (rings::square(0.0, 0.0, 4.0), vec![hole])
    };
    let height = r.pick(&[0.0, 1e-6, 2e-6, 1.0]);
    scene(r, true, &Plan::new(outer, holes), Stand::Prism(height))
}

/// All coordinates that small, or only those that were 0.
fn subnormal(r: &mut Random) -> Vec<u8> {
    let by = r.pick(&[1e-40, 1e-44, 1e-38, 1e-20]);
    let plan = if r.chance(50) {
        any_plan(r, 9.0).scaled(by)
    } else {
        let outer = rings::grid(r, 8);
        let holes = super::holes::on_grid(r, 2, 4);
        Plan::new(outer, holes).map(|p| p.map(|x| if x == 0.0 { by } else { x }))
    };
    let stand = Stand::Prism(r.pick(&[by, 0.0, 1.0]));
    let closed = r.chance(80);
    scene(r, closed, &plan, stand)
}

fn huge(r: &mut Random) -> Vec<u8> {
    let plan = any_plan(r, 9.0).scaled(r.pick(&[1_864_135.0, 3e6, 1e5]));
    let stand = Stand::Prism(r.pick(&[16_777_216.0, -16_777_216.0, 1.0]));
    scene(r, true, &plan, stand)
}

/// Small outlines at large coordinates, where rounding is coarse.
fn far_away(r: &mut Random) -> Vec<u8> {
    let far = r.pick(&[1e3, 1e5, 1e6, 8e6, 16_777_200.0]);
    let size = r.pick(&[1.0, 9.0, 50.0]);
    let plan = any_plan(r, size).moved([far, -far]);
    let stand = any_stand(r);
    scene(r, true, &plan, stand)
}

/// Zeros of both signs.
fn negative_zeros(r: &mut Random) -> Vec<u8> {
    let n = 4 + r.below(8);
    let plan = Plan::new(rings::grid(r, n), Vec::new()).moved([-1.0, -1.0]);
    let stand = r.pick(&[
        Stand::Flat,
        Stand::Prism(1.0),
        Stand::Upright(0.0),
        Stand::Prism(0.0),
    ]);
    let (mut outer, _) = corners(r, &plan, stand);
    let hole = rings::square(-0.5, -0.5, 0.5);
    let (mut hole, _) = corners(r, &Plan::new(hole, Vec::new()), stand);
    for c in outer.iter_mut().chain(&mut hole) {
        *c = Corner {
            base: some_negated(r, c.base),
            top: some_negated(r, c.top),
        };
    }
    Writer::new()
        .outline(9, r.chance(85), &outer, &[hole])
        .finish()
}

fn some_negated(r: &mut Random, p: Point) -> Point {
    let zero = |x: f32, negate: bool| if x == 0.0 && negate { -0.0 } else { x };
    Point::new(
        zero(p.x, r.chance(50)),
        zero(p.y, r.chance(50)),
        zero(p.z, r.chance(50)),
    )
}

/// Each coordinate any f32 that a scene allows.
fn any_bits(r: &mut Random) -> Vec<u8> {
    let mut coordinate = || loop {
        let x = f32::from_bits(r.word() as u32);
        if x.abs() <= number(f64::INFINITY) {
            return x;
        }
    };
    let mut point = || Point::new(coordinate(), coordinate(), coordinate());
    let mut ring = |n: usize| -> Vec<Corner> {
        (0..n)
            .map(|_| Corner {
                base: point(),
                top: point(),
            })
            .collect()
    };
    let (outer, hole) = (ring(6), ring(4));
    Writer::new().outline(5, true, &outer, &[hole]).finish()
}

/// Coordinates in the middle between two millimetres and beside it, and those
/// at the ends of the range.
fn halves(r: &mut Random) -> Vec<u8> {
    let corners: Vec<Corner> = (0..2 + r.below(12))
        .map(|_| Corner {
            base: Point::from_array([0; 3].map(|_| near_half(r))),
            top: Point::from_array([0; 3].map(|_| near_half(r))),
        })
        .collect();
    Writer::new()
        .outline(6, r.chance(30), &corners, &[])
        .finish()
}

fn near_half(r: &mut Random) -> f32 {
    match r.below(8) {
        0 | 1 => r.pick(&[0.0625, 0.1875, -0.0625]),
        2 => r.pick(&[16_777_216.0, -16_777_216.0]),
        3 => r.pick(&[0x0000_0001, 0x8000_0001, 0x007F_FFFF, 0x8000_0000].map(f32::from_bits)),
        _ => {
            let size = r.below(24);
            let odd = r.below(2 << size) | 1;
            let half = f32::from_bits((odd as f32 / 16.0).to_bits() - 1 + r.below(3) as u32);
            r.pick(&[half, -half])
        }
    }
}
