//! Scenes about the least and the greatest length.

use reference::long::{walls, MOST_BYTES};

pub const LENGTHS: [usize; 12] = [
    0,
    1,
    2,
    3,
    4,
    5,
    MOST_BYTES - 1,
    MOST_BYTES,
    MOST_BYTES + 1,
    MOST_BYTES + 2,
    MOST_BYTES + 3,
    MOST_BYTES + 4,
];

/// Zeros (no objects), a 1 in front of the last zeros (one object); where they
/// fit, records that fill the scene, sound but for its length.
pub fn scenes(length: usize) -> Vec<Vec<u8>> {
    let mut one = vec![0; length];
    if length > 3 {
        one[length - 4] = 1;
    }
    let mut scenes = vec![vec![0; length], one, vec![0xff; length]];
    if length > 16 {
        scenes.push(walls(length, length as u64));
    }
    scenes
}
