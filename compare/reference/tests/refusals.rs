//! The rows of document 01, section 2, and their order.

mod common;

use common::solid;
use reference::read_scene;
use reference::write::Writer;

fn refused(scene: &[u8]) -> (u32, u32) {
    read_scene(scene).expect_err("a refused scene")
}

/// A record of a kind byte, an id and these u16 counts.
fn counts(kind: u8, counts: &[u16]) -> Vec<u8> {
    let mut record = vec![kind, 1, 0, 0, 0];
    record.extend(counts.iter().flat_map(|n| n.to_le_bytes()));
    record
}

fn alone(record: &[u8]) -> Vec<u8> {
    Writer::new().raw(record).finish()
}

/// A box's record with these bytes put in.
fn changed(at: usize, bytes: &[u8]) -> Vec<u8> {
    let mut scene = solid(&[4.0, 2.0, 1.5]);
    scene[at..at + bytes.len()].copy_from_slice(bytes);
    scene
}

#[test]
fn length_and_trailer() {
    assert_eq!(refused(&[]), (1, 0));
    assert_eq!(refused(&[0; 3]), (1, 0));
    assert_eq!(refused(&vec![0; 16_777_217]), (1, 0));
    assert_eq!(refused(&vec![0; 16_777_216]), (3, 0));
    assert_eq!(refused(&[1, 0, 0, 0]), (2, 0));
    assert_eq!(refused(&[255; 4]), (2, 0));
    let mut many = vec![0; 4 * 65_537];
    many.extend(65_537u32.to_le_bytes());
    assert_eq!(refused(&many), (2, 0));
}

#[test]
fn record_and_trailer_starts() {
    let end = solid(&[4.0, 2.0, 1.5]).len();
    assert_eq!(refused(&changed(end - 8, &[1])), (3, 0));
    let mut longer = solid(&[4.0, 2.0, 1.5]);
    longer.insert(end - 8, 0);
    assert_eq!(refused(&longer), (3, 1));
    assert_eq!(refused(&[9, 0, 0, 0, 0]), (3, 0));
}

#[test]
fn extents() {
    assert_eq!(refused(&alone(&[])), (4, 0));
    assert_eq!(refused(&alone(&[9, 0, 0, 0])), (4, 0));
    for (kind, length) in [(0, 65), (1, 77), (2, 73)] {
        let mut record = vec![0; length];
        record[0] = kind;
        assert!(read_scene(&alone(&record)).is_ok());
        assert_eq!(refused(&alone(&record[..length - 1])), (4, 0));
    }
    assert_eq!(refused(&alone(&counts(4, &[1]))), (4, 0));
    assert_eq!(refused(&alone(&counts(4, &[9_999, 1]))), (4, 0));
    assert_eq!(refused(&alone(&counts(4, &[1, 0]))), (4, 0));
    assert_eq!(refused(&alone(&counts(5, &[]))), (4, 0));
    assert_eq!(refused(&alone(&counts(5, &[4_096]))), (4, 0));
}

#[test]
fn kinds_and_counts() {
    assert_eq!(refused(&alone(&counts(7, &[]))), (5, 0));
    assert_eq!(refused(&alone(&counts(4, &[0, 33]))), (6, 0));
    assert_eq!(refused(&alone(&counts(3, &[513, 0]))), (6, 0));
    assert_eq!(refused(&alone(&counts(4, &[256, 1, 257]))), (6, 0));
    assert_eq!(refused(&alone(&counts(6, &[4_097]))), (6, 0));
}

#[test]
fn numbers() {
    for bad in [f32::NAN, f32::INFINITY, -16_777_218.0] {
        assert_eq!(refused(&changed(5, &bad.to_le_bytes())), (7, 0));
        assert_eq!(refused(&changed(73, &bad.to_le_bytes())), (7, 0));
    }
    for bad in [f64::NAN, f64::NEG_INFINITY, 1.0 + f64::EPSILON] {
        assert_eq!(refused(&changed(17, &bad.to_le_bytes())), (7, 0));
    }
    assert!(read_scene(&changed(17, &(-1f64).to_le_bytes())).is_ok());
}

#[test]
fn the_object_is_named() {
    let sound = counts(5, &[0]);
    let scene = Writer::new().raw(&sound).raw(&sound).raw(&counts(9, &[]));
    assert_eq!(refused(&scene.finish()), (5, 2));
}
