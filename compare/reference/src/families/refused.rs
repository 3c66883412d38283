//! Refused scenes of every row from 1 to 7.

use super::{generate, Family};
use crate::random::Random;
use crate::write::Writer;

pub const FAMILIES: &[Family] = &[
    ("refused1", refused_1),
    ("refused2", refused_2),
    ("refused3", refused_3),
    ("refused4", refused_4),
    ("refused5", |r| {
        behind(r, |r, _| head(7 + r.below(249) as u8))
    }),
    ("refused6", |r| behind(r, |r, _| counts(r))),
    ("refused7", |r| behind(r, |r, _| number(r))),
];

fn head(kind: u8) -> Vec<u8> {
    vec![kind, 1, 0, 0, 0]
}

/// A record behind up to three sound ones.
fn behind(r: &mut Random, record: impl Fn(&mut Random, usize) -> Vec<u8>) -> Vec<u8> {
    let before = r.below(4);
    let scene = (0..before).fold(Writer::new(), |scene, _| scene.raw(&sound(r)));
    let last = record(r, before);
    let scene = scene.raw(&last);
    if r.chance(30) {
        scene.raw(&sound(r)).finish()
    } else {
        scene.finish()
    }
}

fn sound(r: &mut Random) -> Vec<u8> {
    let scene = generate(r.pick(&["solid", "few", "sweepodd"]), r.word());
    scene[..scene.len() - 8].to_vec()
}

fn refused_1(r: &mut Random) -> Vec<u8> {
    if r.chance(2) {
        return vec![0; 16_777_217];
    }
    vec![r.word() as u8; r.below(4)]
}

fn refused_2(r: &mut Random) -> Vec<u8> {
    let mut scene = vec![0; r.below(40)];
    let most = scene.len() as u32 / 4;
    let n = r.pick(&[most + 1, 65_536, 65_537, u32::MAX, 1 << 30, (1 << 30) - 1]);
    scene.extend(n.to_le_bytes());
    scene
}

/// An offset that is not the end of the record before, or bytes left over.
fn refused_3(r: &mut Random) -> Vec<u8> {
    let mut scene = generate("list", r.word());
    let end = scene.len() - 4;
    let n = u32::from_le_bytes(scene[end..].try_into().expect("four bytes")) as usize;
    if r.chance(30) {
        let trailer = end - 4 * n;
        scene.insert(trailer, r.word() as u8);
        return scene;
    }
    let at = end - 4 * (1 + r.below(n));
    scene[at] = scene[at].wrapping_add(1 + r.below(255) as u8);
    scene
}

/// A last record cut short.
fn refused_4(r: &mut Random) -> Vec<u8> {
    let before = r.below(3);
    let scene = (0..before).fold(Writer::new(), |scene, _| scene.raw(&sound(r)));
    let mut last = sound(r);
    last.truncate(r.below(last.len()));
    scene.raw(&last).finish()
}

/// Holes, corners or sections over their limit, with or without their bytes.
fn counts(r: &mut Random) -> Vec<u8> {
    let kind = r.pick(&[3, 4, 5, 6]);
    let mut record = head(kind);
    let mut put = |n: usize| record.extend((n as u16).to_le_bytes());
    let missing = r.chance(50);
    let bytes = if kind >= 5 {
        let n = r.pick(&[4_097, 5_000, 65_535]);
        put(n);
        48 * n
    } else if r.chance(50) {
        put(4);
        put(r.pick(&[33, 34, 65_535]));
        0
    } else {
        let outer = r.pick(&[0, 500, 513, 65_535]);
        let hole = r.pick(&[513, 600, 65_535]);
        put(outer);
        put(1);
        put(hole);
        24 * (outer + hole)
    };
    if !missing && bytes < 300_000 {
        record.resize(record.len() + bytes, 0);
    }
    record
}

/// A sound record with one number that a scene does not allow.
fn number(r: &mut Random) -> Vec<u8> {
    let mut record = sound(r);
    while record.len() < 30 || record[0] >= 3 {
        record = sound(r);
    }
    if r.chance(50) {
        let at = 5 + 4 * r.below(3);
        let bad = r.pick(&[
            f32::NAN,
            f32::INFINITY,
            f32::NEG_INFINITY,
            16_777_218.0,
            -3e38,
            -f32::NAN,
        ]);
        record[at..at + 4].copy_from_slice(&bad.to_le_bytes());
    } else {
        let at = 17 + 8 * r.below(6);
        let bad = r.pick(&[
            f64::NAN,
            f64::INFINITY,
            1.000_000_000_000_000_2,
            -2.0,
            f64::MIN,
        ]);
        record[at..at + 8].copy_from_slice(&bad.to_le_bytes());
    }
    record
}
