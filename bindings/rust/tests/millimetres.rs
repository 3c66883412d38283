//! The vertices in whole millimetres.

use object_mesh::{bound, build, measure, Built};

const BOX: &[u8] = include_bytes!("../../../samples/box.scene");
const STREET: &[u8] = include_bytes!("../../../samples/street.scene");

/// The rule: a half goes away from zero. The product is exact in an f64.
fn millimetres(metres: f32) -> i64 {
    (f64::from(metres) * 1000.0).round() as i64
}

fn by_the_rule(built: &Built) -> Vec<[i64; 3]> {
    built.vertices.iter().map(|v| v.map(millimetres)).collect()
}

/// A scene of one open outline, whose face writes the bases of these two corners and then their
/// tops, the second one first.
fn wall([base, top, next_base, next_top]: [[f32; 3]; 4]) -> Vec<u8> {
    let mut bytes = vec![3, 1, 0, 0, 0, 2, 0, 0, 0];
    let numbers = [base, top, next_base, next_top].into_iter().flatten();
    bytes.extend(numbers.flat_map(f32::to_le_bytes));
    bytes.extend([0, 0, 0, 0, 1, 0, 0, 0]);
    bytes
}

#[test]
fn samples_follow_the_rule() {
    for scene in [BOX, STREET] {
        let built = build(scene).unwrap();
        assert!(!built.millimetres.is_empty());
        assert_eq!(built.millimetres, by_the_rule(&built));
    }
    assert!(build(&[0; 4]).unwrap().millimetres.is_empty());
}

#[test]
fn a_half_goes_away_from_zero() {
    let scene = wall([
        [0.0625, 0.1875, -0.0625],
        [0.0625, 0.1875, 3.0],
        [-0.1875, 0.3125, 0.062499996],
        [-0.1875, 0.3125, 0.06250001],
    ]);
    let built = build(&scene).unwrap();
    let expected = [
        [63, 188, -63],
        [-188, 313, 62],
        [-188, 313, 63],
        [63, 188, 3000],
    ];
    assert_eq!(built.millimetres, expected);
    assert_eq!(built.millimetres, by_the_rule(&built));
}

#[test]
fn the_ends_of_the_range() {
    let (far, least) = (16_777_216.0, f32::from_bits(1));
    let scene = wall([
        [far, -0.0, least],
        [far, -far, 0.0],
        [-far, 0.0, -least],
        [-far, 0.0, far],
    ]);
    let built = build(&scene).unwrap();
    let mm = 16_777_216_000;
    assert_eq!(
        built.millimetres,
        [[mm, 0, 0], [-mm, 0, 0], [-mm, 0, mm], [mm, -mm, 0]]
    );
}

#[test]
fn as_many_as_vertex_numbers() {
    for scene in [BOX, STREET, &[0; 4]] {
        for counts in [bound(scene).unwrap(), measure(scene).unwrap()] {
            assert_eq!(counts.millimetres, counts.vertices);
        }
    }
}
