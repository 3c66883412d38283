//! The answers do not turn on the caller's floating-point mode, and that mode is left as it was.

use std::arch::asm;

use object_mesh::{build, validate, Built, Verdict};

const BOX: &[u8] = include_bytes!("../../../samples/box.scene");
const STREET: &[u8] = include_bytes!("../../../samples/street.scene");

/// MXCSR where subnormal numbers are flushed, read as zeros and written as zeros.
const FLUSHED: u32 = 0x9fc0;
/// Rounding up, down and toward zero.
const ROUNDED: [u32; 3] = [0x5f80, 0x3f80, 0x7f80];
/// Every exception traps, an inexact result too.
const TRAPPING: u32 = 0;

/// What `call` gives in a mode, and the mode behind it.
fn within<T>(mode: u32, call: impl FnOnce() -> T) -> (T, u32) {
    let (mut before, mut after) = (0u32, 0u32);
    unsafe {
        asm!("stmxcsr [{}]", in(reg) &mut before);
        asm!("ldmxcsr [{}]", in(reg) &mode);
        let result = call();
        asm!("stmxcsr [{}]", in(reg) &mut after);
        asm!("ldmxcsr [{}]", in(reg) &before);
        (result, after)
    }
}

fn bits(built: &Built) -> Vec<u32> {
    let points = built.vertices.iter().chain(&built.normals);
    points.flatten().map(|x| x.to_bits()).collect()
}

#[test]
fn a_subnormal_height_is_not_zero() {
    let mut scene = BOX.to_vec();
    scene[73..77].copy_from_slice(&1e-40f32.to_le_bytes());
    let (built, after) = within(FLUSHED, || build(&scene));
    let account = built.unwrap().account[0];
    assert_eq!((account.offered, account.kept, account.thin), (12, 4, 8));
    assert_eq!(after, FLUSHED);
}

#[test]
fn a_mesh_is_the_same_bits_in_every_mode() {
    let expected = build(STREET).unwrap();
    for mode in ROUNDED.into_iter().chain([FLUSHED, TRAPPING]) {
        let (built, after) = within(mode, || build(STREET));
        let built = built.unwrap();
        assert_eq!(bits(&built), bits(&expected), "{mode:#x}");
        assert_eq!(built.millimetres, expected.millimetres, "{mode:#x}");
        assert_eq!(after, mode);
    }
}

#[test]
fn judging_a_mesh_does_not_trap() {
    let vertices = [0.0, 0.0, 0.0, 0.1, 0.0, 0.0, 0.0, 0.3, 0.0];
    let (verdict, after) = within(TRAPPING, || validate(&vertices, &[0, 1, 2]));
    assert_eq!(verdict, Ok(Verdict::Ok));
    assert_eq!(after, TRAPPING);
}
