//! Boxes, cylinders and objects without a size.

use super::rings::on_circle;
use super::stand::number;
use super::Family;
use crate::pair::Pair;
use crate::random::Random;
use crate::write::Writer;

pub const FAMILIES: &[Family] = &[
    ("solid", |r| solid(r, turn, |r| r.between(0.1, 30.0))),
    ("solidzero", |r| {
        solid(r, turn, |r| r.pick(&[0.0, -0.0, 2.0]))
    }),
    ("solidnegative", |r| {
        solid(r, turn, |r| r.between(-9.0, 9.0))
    }),
    ("solidupright", |r| {
        solid(r, |_| [UPRIGHT; 3], |r| r.pick(&[4.0, 2.0, 1.5, 0.0, -1.0]))
    }),
    ("solidodd", |r| solid(r, odd_turn, odd_size)),
];

pub const UPRIGHT: Pair = Pair {
    sine: 0.0,
    cosine: 1.0,
};

pub fn turn(r: &mut Random) -> [Pair; 3] {
    [0; 3].map(|_| {
        let [cosine, sine] = on_circle(r.unit());
        Pair { sine, cosine }
    })
}

/// Pairs that are no turn: zeros of both signs, 0 and 0, anything up to 1.
fn odd_turn(r: &mut Random) -> [Pair; 3] {
    let odd = |r: &mut Random| match r.below(4) {
        0 => r.pick(&[0.0, -0.0, 1.0, -1.0]),
        1 => r.pick(&[0.0, 5e-324, -1e-310, 1e-40, 1e-30]),
        _ => r.between(-1.0, 1.0),
    };
    [0; 3].map(|_| Pair {
        sine: odd(r),
        cosine: odd(r),
    })
}

fn odd_size(r: &mut Random) -> f64 {
    match r.below(5) {
        0 => r.pick(&[16_777_216.0, -16_777_216.0]),
        1 => r.pick(&[1e-45, 1e-38, -1e-40]),
        2 => r.pick(&[0.001, 1e-6, 0.000_5, 1e-3]),
        3 => r.pick(&[0.0, -0.0]),
        _ => r.between(-5.0, 5.0),
    }
}

fn solid(
    r: &mut Random,
    turn: impl Fn(&mut Random) -> [Pair; 3],
    size: impl Fn(&mut Random) -> f64,
) -> Vec<u8> {
    let far = r.pick(&[0.0, 1.0, 50.0, 1e4, 16_777_216.0]);
    let position = [0; 3].map(|_| number(r.between(-far, far)));
    let sizes: Vec<f32> = (0..r.pick(&[0, 2, 2, 3, 3, 3]))
        .map(|_| number(size(r)))
        .collect();
    let turn = turn(r);
    Writer::new()
        .solid(r.word() as u32, position, turn, &sizes)
        .finish()
}
