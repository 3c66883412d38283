//! Validate's numbers for each case.

use reference::validate;
use reference::verdict::Judgement;

const TRIANGLE: [f32; 9] = [0.0, 0.0, 0.0, 1.0, 0.0, 0.0, 0.0, 1.0, 0.0];

fn judged(verdict: u32, place: u64, index: u32, count: u64) -> Judgement {
    Judgement {
        refusal: 0,
        verdict,
        index,
        place,
        count,
    }
}

#[test]
fn every_case() {
    assert_eq!(validate(&TRIANGLE, &[0, 1, 2]), judged(0, 0, 0, 0));
    assert_eq!(validate(&TRIANGLE, &[]), judged(1, 0, 0, 0));
    let mut broken = TRIANGLE;
    broken[7] = f32::NAN;
    assert_eq!(validate(&broken, &[0, 1, 2]), judged(2, 2, 0, 0));
    assert_eq!(validate(&TRIANGLE, &[0, 1, 2, 0, 9, 8]), judged(3, 1, 9, 3));
    assert_eq!(validate(&TRIANGLE, &[0, 1, 2, 1, 1, 2]), judged(4, 1, 0, 0));
    // A last triangle of under three corners: its range first.
    assert_eq!(validate(&TRIANGLE, &[0, 1, 2, 0]), judged(4, 1, 0, 0));
    assert_eq!(validate(&TRIANGLE, &[0, 1, 2, 3]), judged(3, 1, 3, 3));
}

#[test]
fn part_of_a_vertex() {
    let refused = Judgement {
        refusal: 11,
        ..Judgement::default()
    };
    assert_eq!(validate(&TRIANGLE[..8], &[]), refused);
}
