//! Ring sines and cosines, by the bits of the angle (document 01, section 3).

use crate::circle_table::{RING, SIDES};

/// The original asks for no angle outside the table; one would be a fault here.
pub fn sin_cos(angle: f32) -> (f32, f32) {
    let [_, sine, cosine] = RING
        .iter()
        .chain(&SIDES)
        .find(|row| row[0] == angle.to_bits())
        .unwrap_or_else(|| panic!("no angle of the ring: {:08X}", angle.to_bits()));
    (f32::from_bits(*sine), f32::from_bits(*cosine))
}

pub fn sin(angle: f32) -> f32 {
    sin_cos(angle).0
}

pub fn cos(angle: f32) -> f32 {
    sin_cos(angle).1
}
