//! The known shapes of document 01, section 9.

mod common;

use common::{account, built, courtyard, prism, solid};
use reference::coords::Point;
use reference::demand::area_sum;
use reference::object::{Corner, Section};
use reference::write::Writer;
use reference::{exact::Whole, read_scene, validate};

#[test]
fn no_objects() {
    let (_, built) = built(&[0; 4]);
    assert_eq!(validate(&built.vertices, &built.indices).verdict, 1);
    assert_eq!(read_scene(&[]), Err((1, 0)));
}

#[test]
fn boxes() {
    assert_eq!(account(&solid(&[0.0, 0.0, 3.0])), ([8, 0, 8], 1));
    assert_eq!(account(&solid(&[4.0, 2.0, 0.0])), ([10, 2, 8], 0));
    assert_eq!(account(&solid(&[4.0, 2.0, 1.5])), ([12, 12, 0], 0));
    assert_eq!(account(&solid(&[])), ([0, 0, 0], 1));
}

#[test]
fn cylinders() {
    assert_eq!(account(&solid(&[1.0, 2.0])), ([60, 60, 0], 0));
    assert_eq!(account(&solid(&[1.0, 0.0])), ([46, 14, 32], 0));
    assert_eq!(account(&solid(&[1.0, -2.0])), ([46, 46, 0], 0));
}

#[test]
fn a_courtyard() {
    let (_, built) = built(&courtyard());
    assert_eq!(built.account, [32, 32, 0, 11]);
    assert_eq!(built.vertices.len(), 3 * 48);
    let marks: Vec<u32> = built.log.chunks(4).map(|e| e[0]).collect();
    assert_eq!(marks, [4, 1, 1, 1, 1, 1, 1, 1, 3, 3, 3]);
    let lid = built.notes[0].lid.as_ref().expect("a lid");
    let (rings, parts) = area_sum(lid, &built.notes[0].log).expect("no mark 7");
    assert_eq!(rings, parts);
    assert_eq!(rings, Whole::of(30.0) * Whole::of(1.0));
}

#[test]
fn two_thin_sections() {
    let section = |x: f32| {
        let corner = Corner {
            base: Point::new(x, 0.0, 0.0),
            top: Point::new(x, 0.0, 1.0),
        };
        Section {
            left: corner,
            right: corner,
        }
    };
    let scene = Writer::new().sweep(1, false, &[section(0.0), section(2.0)]);
    assert_eq!(account(&scene.finish()), ([6, 2, 4], 0));
}

#[test]
fn the_largest_coordinate() {
    let scene = |x: f32| {
        let corners = prism(&[[x, 0.0]], 1.0);
        Writer::new().outline(1, false, &corners, &[]).finish()
    };
    assert!(read_scene(&scene(16_777_216.0)).is_ok());
    assert_eq!(read_scene(&scene(16_777_218.0)), Err((7, 0)));
}

#[test]
fn the_thin_limit() {
    let verdict = |bits: u32| {
        let t = f32::from_bits(bits);
        let vertices = [0.0, 0.0, 0.0, 1.0, 0.0, 0.0, 0.0, t, 0.0];
        validate(&vertices, &[0, 1, 2]).verdict
    };
    assert_eq!(verdict(0x3586_37BD), 0);
    assert_eq!(verdict(0x3586_37BC), 4);
}

#[test]
fn narrowing() {
    let unit = 2f64.powi(-24);
    assert_eq!((1.0 + 3.0 * unit) as f32, 1.0 + 4.0 * unit as f32);
}
