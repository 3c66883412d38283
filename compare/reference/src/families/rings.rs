//! Rings in the plane.

use crate::random::Random;

pub type Ring = Vec<[f64; 2]>;

/// A point of the unit circle, `share` of the way round, by the half angle's
/// tangent in each quarter.
pub fn on_circle(share: f64) -> [f64; 2] {
    let quarters = 4.0 * share.rem_euclid(1.0);
    let (quarter, t) = (quarters.floor(), quarters.fract());
    let (c, s) = ((1.0 - t * t) / (1.0 + t * t), 2.0 * t / (1.0 + t * t));
    match quarter as u32 {
        0 => [c, s],
        1 => [-s, c],
        2 => [-c, -s],
        _ => [s, -c],
    }
}

/// Corners round a middle, at radii given by `radius`.
pub fn round(n: usize, middle: [f64; 2], mut radius: impl FnMut(usize) -> f64) -> Ring {
    (0..n)
        .map(|i| {
            let [c, s] = on_circle((i as f64 + 0.3) / n as f64);
            let r = radius(i);
            [middle[0] + r * c, middle[1] + r * s]
        })
        .collect()
}

pub fn convex(r: &mut Random, n: usize, size: f64) -> Ring {
    let mut shares: Vec<f64> = (0..n).map(|_| r.unit()).collect();
    shares.sort_by(f64::total_cmp);
    shares
        .into_iter()
        .map(|share| on_circle(share).map(|x| x * size))
        .collect()
}

pub fn concave(r: &mut Random, n: usize, size: f64) -> Ring {
    round(n, [0.0, 0.0], |_| size * r.between(0.3, 1.0))
}

pub fn star(r: &mut Random, n: usize, size: f64) -> Ring {
    let inner = r.between(0.05, 0.9);
    round(
        n,
        [0.0, 0.0],
        |i| if i % 2 == 0 { size } else { size * inner },
    )
}

/// Teeth along a bar, four corners each.
pub fn comb(r: &mut Random, teeth: usize, size: f64) -> Ring {
    let width = size / teeth as f64;
    let depth = size * r.between(0.2, 2.0);
    let mut ring = vec![[0.0, -width], [size, -width]];
    for k in (0..teeth).rev() {
        let (x0, x1) = (k as f64 * width, (k as f64 + 0.5) * width);
        ring.extend([[x1, 0.0], [x1, depth], [x0, depth], [x0, 0.0]]);
    }
    ring
}

/// Out along a spiral and back along one beside it.
pub fn spiral(r: &mut Random, n: usize, size: f64) -> Ring {
    let turns = r.between(1.0, 4.0);
    let half = n.max(4) / 2;
    let at = |k: usize, wider: f64| {
        let share = k as f64 / half as f64;
        let radius = size * (0.1 + 0.9 * share) * wider;
        on_circle(share * turns).map(|x| x * radius)
    };
    let out = (0..half).map(|k| at(k, 1.0));
    let back = (0..half).rev().map(|k| at(k, 0.9));
    out.chain(back).collect()
}

pub fn scattered(r: &mut Random, n: usize, size: f64) -> Ring {
    (0..n)
        .map(|_| [r.between(-size, size), r.between(-size, size)])
        .collect()
}

/// Corners on a small grid: many on one line, many the same.
pub fn grid(r: &mut Random, n: usize) -> Ring {
    let side = r.range(1, 5);
    (0..n)
        .map(|_| [f64::from(r.range(0, side)), f64::from(r.range(0, side))])
        .collect()
}

/// More corners on the ring's own edges, at halves, quarters or anywhere.
pub fn with_straight_runs(r: &mut Random, ring: &Ring) -> Ring {
    let mut longer = Ring::new();
    for (i, a) in ring.iter().enumerate() {
        let b = ring[(i + 1) % ring.len()];
        longer.push(*a);
        let exact = r.chance(60);
        let mut shares: Vec<f64> = (0..r.below(4))
            .map(|_| {
                if exact {
                    r.pick(&[0.25, 0.5, 0.75])
                } else {
                    r.unit()
                }
            })
            .collect();
        shares.sort_by(f64::total_cmp);
        longer.extend(
            shares
                .iter()
                .map(|t| [0, 1].map(|k| a[k] + (b[k] - a[k]) * t)),
        );
    }
    longer
}

/// Some corners twice, some spikes out and back.
pub fn with_repeats(r: &mut Random, ring: &Ring) -> Ring {
    let mut longer = Ring::new();
    for (i, &a) in ring.iter().enumerate() {
        longer.push(a);
        match r.below(5) {
            0 => longer.push(a),
            1 => longer.extend([ring[(i + 1) % ring.len()], a]),
            2 => longer.push(ring[r.below(ring.len())]),
            _ => {}
        }
    }
    longer
}

/// All on one line, or there and back.
pub fn no_area(r: &mut Random, n: usize, size: f64) -> Ring {
    let along = r.pick(&[[1.0, 0.0], [0.0, 1.0], [1.0, 1.0], [3.0, -1.0], [0.1, 0.7]]);
    let there: Ring = (0..n)
        .map(|_| {
            let t = size * f64::from(r.range(-4, 4)) / 4.0;
            along.map(|x| x * t)
        })
        .collect();
    let back = there.iter().rev().copied();
    if r.chance(50) {
        there.iter().copied().chain(back).collect()
    } else {
        there
    }
}

/// The slowest rings known: corners that wind round a circle by about a third of a turn each and
/// end opposite to where the `middle` begin, so that every one of them would be an ear but for
/// those in the middle, which are cut one by one.
pub fn wound(around: usize, middle: usize, size: f64) -> Ring {
    let steps = around as f64 - 1.0;
    let turns = ((steps / 3.0 - 5.0 / 6.0).round() + 5.0 / 6.0 - steps / 3.0) / steps;
    // The tangent of half of what a step turns beyond a third.
    let x = std::f64::consts::PI * turns;
    let t = x + x.powi(3) / 3.0;
    let [c, s] = [(1.0 - t * t) / (1.0 + t * t), 2.0 * t / (1.0 + t * t)];
    let third = [-0.5, 0.75_f64.sqrt()];
    let step = [third[0] * c - third[1] * s, third[0] * s + third[1] * c];
    let mut at = [-0.5, -third[1]];
    let mut ring = Ring::new();
    for _ in 0..around {
        ring.push(at.map(|x| x * size));
        at = [at[0] * step[0] - at[1] * step[1], at[0] * step[1] + at[1] * step[0]];
    }
    let inward = (0..middle).rev().map(|k| 0.001 * size * k as f64);
    ring.extend(inward.map(|r| [0.5 * r, -third[1] * r]));
    ring
}

/// A square ring on whole numbers.
pub fn square(x: f64, y: f64, side: f64) -> Ring {
    vec![[x, y], [x + side, y], [x + side, y + side], [x, y + side]]
}

pub fn reversed(mut ring: Ring) -> Ring {
    ring.reverse();
    ring
}
