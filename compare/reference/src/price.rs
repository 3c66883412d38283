//! The price list (document 01, section 5): the triangles a shape offers.

use crate::object::{Corner, Extent, Section, Shape};
use crate::record::Lid;

/// What the shape offers. A lid's T comes from its log and flat corners alone.
pub fn offered(shape: &Shape, lid: Option<&Lid>, log: &[[u32; 4]]) -> u32 {
    match shape {
        Shape::Solid { extent: None, .. } => 0,
        Shape::Solid {
            extent: Some(extent),
            ..
        } => solid(extent),
        Shape::Outline {
            corners,
            closed: false,
            holes,
        } => 2 * (corners.len().saturating_sub(1) + hole_corners(holes)) as u32,
        Shape::Outline {
            corners,
            closed: true,
            holes,
        } => {
            let raised = |ring: &Vec<Corner>| ring.iter().any(|c| c.base != c.top);
            let lids = if raised(corners) || holes.iter().any(raised) {
                2
            } else {
                1
            };
            2 * (corners.len() + hole_corners(holes)) as u32 + lids * lid_triangles(lid, log)
        }
        Shape::Sweep {
            sections,
            round: false,
        } => {
            let caps = if sections.is_empty() { 0 } else { 4 };
            sections.windows(2).map(pair).sum::<u32>() + caps
        }
        Shape::Sweep {
            sections,
            round: true,
        } => match sections.len() as u32 {
            0 => 0,
            n => 32 * (n - 1) + 28,
        },
    }
}

fn solid(extent: &Extent) -> u32 {
    match *extent {
        Extent::Box {
            length,
            width,
            height,
        } => {
            12 - 2 * [length, width, height]
                .iter()
                .filter(|&&x| x == 0.0)
                .count() as u32
        }
        Extent::Cylinder { height, .. } => {
            if height > 0.0 {
                60
            } else {
                46
            }
        }
    }
}

fn hole_corners(holes: &[Vec<Corner>]) -> usize {
    holes.iter().map(Vec::len).sum()
}

fn pair(sections: &[Section]) -> u32 {
    let thin = |s: &Section| s.left == s.right;
    let flat = |s: &Section| s.left.base == s.left.top && s.right.base == s.right.top;
    if sections.iter().all(thin) {
        2
    } else if sections.iter().all(flat) {
        6
    } else {
        8
    }
}

/// T of section 6: the entries marked 1, and one more if 3 corners are left
/// and their rounded turn is above 0.
fn lid_triangles(lid: Option<&Lid>, log: &[[u32; 4]]) -> u32 {
    let Some(lid) = lid else {
        return 0;
    };
    let ears = log.iter().filter(|e| e[0] == 1).count() as u32;
    let left: Vec<[f32; 2]> = log
        .iter()
        .filter(|e| e[0] == 3)
        .map(|e| lid.flat[e[1] as usize])
        .collect();
    match left[..] {
        [a, b, c] if turn(a, b, c) > 0.0 => ears + 1,
        _ => ears,
    }
}

fn turn(a: [f32; 2], b: [f32; 2], c: [f32; 2]) -> f32 {
    (b[0] - a[0]) * (c[1] - a[1]) - (b[1] - a[1]) * (c[0] - a[0])
}
