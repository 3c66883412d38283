//! The scenes, by family. Each is the same bytes in every run.

use reference::generate;
use reference::long::{filled, record, MOST_BYTES};
use reference::random::Random;
use reference::write::Writer;

use crate::outlines::{holed, open_wall, ring, roof, wound, Shape};
use crate::solids::{boxed, cylinder};

type Make = Box<dyn Fn() -> Vec<u8>>;

/// A family's name and how its scene is made.
pub struct Family {
    pub name: String,
    pub make: Make,
}

/// As many records as asked for, each by its own numbers.
fn of(name: &str, count: usize, one: impl Fn(&mut Random) -> Vec<u8> + 'static) -> Family {
    let make = move || {
        let r = &mut Random::new(count as u64);
        (0..count)
            .fold(Writer::new(), |scene, _| scene.raw(&one(r)))
            .finish()
    };
    Family {
        name: name.to_string(),
        make: Box::new(make),
    }
}

fn made(name: &'static str) -> impl Fn(&mut Random) -> Vec<u8> {
    move |r| record(generate(name, r.word()))
}

/// Corners of a roof, and how many roofs.
const ROOFS: [(usize, usize); 6] = [(4, 200), (16, 60), (64, 15), (256, 3), (500, 2), (512, 2)];

/// Corners of a roof with those of its holes, holes, and how many roofs.
const HOLED: [(usize, usize, usize); 5] = [
    (16, 1, 60),
    (64, 4, 12),
    (256, 16, 3),
    (500, 32, 1),
    (512, 32, 1),
];

pub fn families() -> Vec<Family> {
    let mut all = vec![
        of("boxes", 400, boxed),
        of("cylinders", 150, cylinder),
        of("open walls, 64 corners", 40, |r| open_wall(r, 64)),
    ];
    for (corners, count) in ROOFS {
        let name = format!("roofs, {corners} corners");
        all.push(of(&name, count, move |r| roof(r, corners)));
    }
    for (corners, holes, count) in HOLED {
        let plural = if holes == 1 { "" } else { "s" };
        let name = format!("roofs, {corners} corners, {holes} hole{plural} of 4");
        all.push(of(&name, count, move |r| holed(r, corners, holes)));
    }
    for shape in [Shape::Convex, Shape::Star, Shape::Comb, Shape::Spiral] {
        let name = format!("ring of 500 corners, {}", shape.name());
        all.push(of(&name, 2, move |r| ring(r, shape, 500)));
    }
    all.extend([
        of("the slowest roof known", 1, wound),
        of("sweeps", 10, made("sweeplong")),
        of("round sweeps", 3, made("roundlong")),
        of("mix", 100, mixed),
        Family {
            name: "16 MiB, mix".to_string(),
            make: Box::new(largest),
        },
    ]);
    all
}

/// Objects of every kind, of the sizes of a street.
fn mixed(r: &mut Random) -> Vec<u8> {
    match r.below(8) {
        0 | 1 => boxed(r),
        2 => cylinder(r),
        3 => open_wall(r, 32),
        4 => roof(r, 16),
        5 => holed(r, 24, 2),
        6 => made("sweep")(r),
        _ => made("round")(r),
    }
}

/// Exactly 16 MiB, of nearly as many objects as a scene may have.
pub fn largest() -> Vec<u8> {
    to_the_limit(mixed)
}

/// Exactly 16 MiB of such records, and solids behind them.
pub fn to_the_limit(one: impl Fn(&mut Random) -> Vec<u8>) -> Vec<u8> {
    let r = &mut Random::new(16);
    let mut records = Vec::new();
    let mut room = MOST_BYTES - 220_000;
    while room > 0 {
        let next = one(r);
        room = room.saturating_sub(next.len() + 4);
        records.push(next);
    }
    filled(records, MOST_BYTES, r)
}
