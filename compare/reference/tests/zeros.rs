//! The larger of two unlike zeros (document 01, section 3) shows in the order in which holes are
//! joined, where both zeros are the greatest first coordinate of one hole.

mod common;

use common::built;
use reference::coords::Point;
use reference::object::Corner;
use reference::write::Writer;

fn corners(plan: &[[f32; 2]], top: f32) -> Vec<Corner> {
    plan.iter()
        .map(|&[x, y]| Corner {
            base: Point::new(x, y, -3.0),
            top: Point::new(x, y, top),
        })
        .collect()
}

/// The holes in the order in which they are joined, and how many triangles are kept. Hole 0 ends
/// at these two zeros on its right, hole 1 at +0.0; they touch at a corner. A hole's top is at -0.0,
/// since a flat coordinate is a sum, and is -0.0 only where every part of it is.
fn joined(zeros: [f32; 2]) -> (Vec<u32>, u32) {
    let outer = [
        [0.0, 8.0],
        [-8.0, 8.0],
        [-8.0, -8.0],
        [8.0, -8.0],
        [8.0, 8.0],
    ];
    let lower = [[-2.0, -2.0], [zeros[0], 0.0], [zeros[1], -2.0]];
    let upper = [[-2.0, 2.0], [-2.0, 4.0], [0.0, 0.0]];
    let holes = [corners(&lower, -0.0), corners(&upper, -0.0)];
    let scene = Writer::new()
        .outline(1, true, &corners(&outer, 0.0), &holes)
        .finish();
    let (_, built) = built(&scene);
    let marks = built.log.chunks(4).filter(|entry| entry[0] == 4);
    (marks.map(|entry| entry[1]).collect(), built.account[1])
}

#[test]
fn both_zeros_in_one_hole_count_as_positive() {
    assert_eq!(joined([-0.0, 0.0]), (vec![0, 1], 26));
    assert_eq!(joined([0.0, -0.0]).0, [0, 1]);
    assert_eq!(joined([-0.0, -0.0]), (vec![1, 0], 30));
}
