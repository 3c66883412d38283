//! Sweeps and round sweeps.

use super::rings::on_circle;
use super::stand::point;
use super::Family;
use crate::object::{Corner, Section};
use crate::random::Random;
use crate::write::Writer;

pub const FAMILIES: &[Family] = &[
    ("sweep", |r| {
        swept(r, false, |r| Cross {
            width: r.between(0.1, 3.0),
            height: 1.0,
        })
    }),
    ("sweepthin", |r| {
        swept(r, false, |_| Cross {
            width: 0.0,
            height: 1.0,
        })
    }),
    ("sweepflat", |r| {
        swept(r, false, |_| Cross {
            width: 2.0,
            height: 0.0,
        })
    }),
    ("sweepodd", |r| swept(r, false, odd)),
    ("round", |r| {
        swept(r, true, |r| Cross {
            width: r.between(0.1, 2.0),
            height: 0.5,
        })
    }),
    ("roundodd", |r| swept(r, true, odd)),
    ("sweeplong", |r| long(r, false)),
    ("roundlong", |r| long(r, true)),
    ("sweepany", any_corners),
];

struct Cross {
    width: f64,
    height: f64,
}

fn odd(r: &mut Random) -> Cross {
    Cross {
        width: r.pick(&[0.0, 0.0, 1.0, -1.0, 1e-7, 1e6]),
        height: r.pick(&[0.0, 0.0, 1.0, -1.0, 1e-7, -0.0]),
    }
}

fn section(at: [f64; 3], left: [f64; 2], cross: &Cross) -> Section {
    let edge = |side: f64| {
        let [x, y] = [0, 1].map(|k| at[k] + left[k] * side * cross.width / 2.0);
        Corner {
            base: point([x, y, at[2]]),
            top: point([x, y, at[2] + cross.height]),
        }
    };
    Section {
        left: edge(1.0),
        right: edge(-1.0),
    }
}

/// Sections along a bend, some of them twice.
fn along(r: &mut Random, n: usize, cross: impl Fn(&mut Random) -> Cross) -> Vec<Section> {
    let (step, bend) = (r.between(0.5, 10.0), r.between(-0.1, 0.1));
    let mut at = [r.between(-100.0, 100.0), r.between(-100.0, 100.0), 0.0];
    let mut share = r.unit();
    let mut sections = Vec::with_capacity(n);
    for _ in 0..n {
        let [c, s] = on_circle(share);
        let cross = cross(r);
        sections.push(section(at, [-s, c], &cross));
        if r.chance(90) {
            at = [
                at[0] + step * c,
                at[1] + step * s,
                at[2] + r.between(-0.2, 0.2),
            ];
            share += bend;
        }
    }
    sections
}

fn swept(r: &mut Random, round: bool, cross: impl Fn(&mut Random) -> Cross) -> Vec<u8> {
    let n = r.pick(&[0, 1, 1, 2, 2, 3, 5, 12]);
    let sections = along(r, n, cross);
    Writer::new()
        .sweep(r.below(9) as u32, round, &sections)
        .finish()
}

fn long(r: &mut Random, round: bool) -> Vec<u8> {
    let n = if r.chance(5) { 4096 } else { 50 + r.below(100) };
    let sections = along(r, n, |_| Cross {
        width: 0.4,
        height: 0.4,
    });
    Writer::new().sweep(7, round, &sections).finish()
}

/// Corners in any place, so that sections twist and cross.
fn any_corners(r: &mut Random) -> Vec<u8> {
    let size = r.pick(&[0.001, 1.0, 100.0, 16_777_216.0]);
    let mut corner = || {
        let mut any = || point([0; 3].map(|_| r.between(-size, size)));
        Corner {
            base: any(),
            top: any(),
        }
    };
    let sections: Vec<Section> = (0..4)
        .map(|_| Section {
            left: corner(),
            right: corner(),
        })
        .collect();
    Writer::new().sweep(3, r.chance(50), &sections).finish()
}
