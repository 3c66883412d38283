//! Outlines by the shape of their rings and the way they stand.

use super::plan::{any_plan, any_ring, Plan, MAX_HOLES};
use super::rings::{self, reversed, square, Ring};
use super::stand::{any_stand, scene, Stand};
use super::{holes, Family};
use crate::random::Random;

pub const FAMILIES: &[Family] = &[
    ("convex", |r| alone(r, |r, n| rings::convex(r, n, 10.0))),
    ("concave", |r| alone(r, |r, n| rings::concave(r, n, 10.0))),
    ("star", |r| alone(r, |r, n| rings::star(r, n, 10.0))),
    ("comb", |r| alone(r, |r, n| rings::comb(r, 1 + n / 4, 10.0))),
    ("spiral", |r| alone(r, |r, n| rings::spiral(r, n, 10.0))),
    ("selfcross", |r| {
        alone(r, |r, n| rings::scattered(r, n, 10.0))
    }),
    ("grid", |r| alone(r, rings::grid)),
    ("collinear", collinear),
    ("repeated", repeated),
    ("zeroarea", |r| alone(r, |r, n| rings::no_area(r, n, 8.0))),
    ("few", few),
    ("open", open),
    ("holes", |r| with_holes(r, |r, n| holes::apart(r, n, 11.0))),
    ("holescross", |r| {
        with_holes(r, |r, n| holes::anywhere(r, n, 8.0))
    }),
    ("holesnested", |r| {
        with_holes(r, |r, n| holes::nested(r, n, 6.0))
    }),
    ("holesgrid", holes_grid),
    ("holestouch", holes_touch),
    ("holesodd", holes_odd),
    ("pockets", pockets),
    ("flat", |r| standing(r, Stand::Flat)),
    ("flatbase", flat_base),
    ("sloped", sloped),
    ("vertical", vertical),
    ("oddtops", |r| standing(r, Stand::Odd)),
    ("corners512", corners_512),
    ("slow", slow),
    ("wound", wound),
];

fn some_corners(r: &mut Random) -> usize {
    match r.below(10) {
        0 => 3,
        1 => 60 + r.below(100),
        _ => 4 + r.below(24),
    }
}

fn alone(r: &mut Random, ring: impl Fn(&mut Random, usize) -> Ring) -> Vec<u8> {
    let n = some_corners(r);
    let ring = ring(r, n);
    let ring = if r.chance(50) { reversed(ring) } else { ring };
    let stand = if r.chance(70) {
        Stand::Prism(3.0)
    } else {
        any_stand(r)
    };
    scene(r, true, &Plan::new(ring, Vec::new()), stand)
}

fn collinear(r: &mut Random) -> Vec<u8> {
    alone(r, |r, n| {
        let ring = if r.chance(50) {
            square(0.0, 0.0, 4.0)
        } else {
            rings::convex(r, n, 8.0)
        };
        rings::with_straight_runs(r, &ring)
    })
}

fn repeated(r: &mut Random) -> Vec<u8> {
    alone(r, |r, _| {
        let ring = any_ring(r, 6.0);
        rings::with_repeats(r, &ring)
    })
}

fn few(r: &mut Random) -> Vec<u8> {
    let n = r.below(4);
    let outer = rings::scattered(r, n, 5.0);
    let count = r.below(4);
    let mut holes = holes::odd(r, count, &outer, 5.0);
    for hole in &mut holes {
        let n = r.below(5);
        hole.truncate(n);
    }
    let (closed, stand) = (r.chance(80), any_stand(r));
    scene(r, closed, &Plan::new(outer, holes), stand)
}

fn open(r: &mut Random) -> Vec<u8> {
    let (plan, stand) = (any_plan(r, 8.0), any_stand(r));
    scene(r, false, &plan, stand)
}

fn hole_count(r: &mut Random) -> usize {
    if r.chance(10) {
        MAX_HOLES
    } else {
        1 + r.below(9)
    }
}

fn with_holes(r: &mut Random, holes: impl Fn(&mut Random, usize) -> Vec<Ring>) -> Vec<u8> {
    let outer = match r.below(3) {
        0 => square(-8.0, -8.0, 16.0),
        1 => rings::convex(r, 12, 14.0),
        _ => rings::concave(r, 16, 16.0),
    };
    let outer = if r.chance(50) { reversed(outer) } else { outer };
    let n = hole_count(r);
    let holes = holes(r, n);
    let stand = if r.chance(80) {
        Stand::Prism(3.0)
    } else {
        any_stand(r)
    };
    scene(r, true, &Plan::new(outer, holes), stand)
}

fn holes_grid(r: &mut Random) -> Vec<u8> {
    let cells = r.range(3, 9);
    let n = hole_count(r);
    let holes = holes::on_grid(r, n, cells);
    let side = f64::from(cells);
    let outer = match r.below(3) {
        0 => square(-1.0, -1.0, side + 2.0),
        1 => square(0.0, 0.0, side),
        _ => rings::with_straight_runs(r, &square(-1.0, -1.0, side + 2.0)),
    };
    scene(r, true, &Plan::new(outer, holes), Stand::Prism(2.0))
}

fn holes_touch(r: &mut Random) -> Vec<u8> {
    let n = hole_count(r);
    let holes = holes::touching(r, n);
    let side = n as f64 + 2.0;
    scene(
        r,
        true,
        &Plan::new(square(0.0, 0.0, side), holes),
        Stand::Prism(2.0),
    )
}

fn holes_odd(r: &mut Random) -> Vec<u8> {
    let (outer, n) = (any_ring(r, 8.0), hole_count(r));
    let holes = holes::odd(r, n, &outer, 8.0);
    let stand = any_stand(r);
    scene(r, true, &Plan::new(outer, holes), stand)
}

/// A comb or a spiral with holes in its arms: corners that block bridges.
fn pockets(r: &mut Random) -> Vec<u8> {
    let outer = if r.chance(50) {
        let teeth = 2 + r.below(6);
        rings::comb(r, teeth, 12.0)
    } else {
        rings::spiral(r, 40, 12.0)
    };
    let holes = (0..1 + r.below(6))
        .map(|_| {
            let [x, y] = outer[r.below(outer.len())];
            let radius = r.between(0.05, 0.5);
            rings::round(3 + r.below(4), [x - radius, y], |_| radius)
        })
        .collect();
    scene(r, true, &Plan::new(outer, holes), Stand::Prism(3.0))
}

fn standing(r: &mut Random, stand: Stand) -> Vec<u8> {
    let plan = any_plan(r, 9.0);
    scene(r, true, &plan, stand)
}

/// Base and top the same but for the holes', or but for the outer ring's.
fn flat_base(r: &mut Random) -> Vec<u8> {
    let plan = any_plan(r, 9.0);
    let (mut outer, mut holes) = super::stand::corners(r, &plan, Stand::Prism(2.0));
    if r.chance(50) {
        outer.iter_mut().for_each(|c| c.base = c.top);
    } else {
        holes.iter_mut().flatten().for_each(|c| c.top = c.base);
    }
    crate::write::Writer::new()
        .outline(1, true, &outer, &holes)
        .finish()
}

fn sloped(r: &mut Random) -> Vec<u8> {
    let steep = r.pick(&[0.01, 1.0, 30.0]);
    let (a, b) = (r.between(-steep, steep), r.between(-steep, steep));
    standing(r, Stand::Sloped(a, b))
}

fn vertical(r: &mut Random) -> Vec<u8> {
    let depth = r.pick(&[0.0, 0.3, -2.0]);
    standing(r, Stand::Upright(depth))
}

fn corners_512(r: &mut Random) -> Vec<u8> {
    let count = r.pick(&[0, 1, 8, MAX_HOLES]);
    let each = if count == 0 { 0 } else { 3 + r.below(6) };
    let holes: Vec<Ring> = holes::apart(r, count, 8.0)
        .iter()
        .map(|hole| (0..each).map(|k| hole[k % hole.len()]).collect())
        .collect();
    let n = 512 - count * each;
    let outer = match r.below(3) {
        0 => rings::convex(r, n, 10.0),
        1 => rings::concave(r, n, 20.0),
        _ => rings::star(r, n, 12.0),
    };
    scene(r, true, &Plan::new(outer, holes), Stand::Prism(3.0))
}

/// Long searches: corners a third of a turn apart, all convex and all blocked
/// by the ring's last two corners in their middle, then a chain of ears.
fn slow(r: &mut Random) -> Vec<u8> {
    let half = 50 + r.below(206);
    let step = 1.0 / 3.0 + 0.2 / half as f64;
    let blocked = (0..half).map(|i| rings::on_circle(i as f64 * step).map(|x| x * 10.0));
    let chain = (0..half - 2).map(|k| {
        let share = 0.2 * k as f64 / half as f64;
        rings::on_circle(share).map(|x| x * 1000.0)
    });
    let mut outer: Ring = blocked.chain(chain).collect();
    let [x, y] = [r.between(-0.5, 0.5), r.between(-0.5, 0.5)];
    outer.extend([[x + 0.1, y + 0.17], [x, y]]);
    scene(r, true, &Plan::new(outer, Vec::new()), Stand::Prism(1.0))
}

fn wound(r: &mut Random) -> Vec<u8> {
    let around = 4 + r.below(338);
    let ring = rings::wound(around, 1 + r.below(around.div_ceil(2)), 100.0);
    scene(r, true, &Plan::new(ring, Vec::new()), Stand::Prism(3.0))
}
