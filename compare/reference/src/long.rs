//! Accepted scenes of an exact length.

use crate::families::stand::point;
use crate::object::Corner;
use crate::pair::Pair;
use crate::random::Random;
use crate::write::Writer;

/// The limit of document 01, section 1.
pub const MOST_BYTES: usize = 16_777_216;

/// What an unsized object, a cylinder and a box take, their trailer words included.
const SOLIDS: [usize; 3] = [69, 77, 81];

/// From here on every length is a sum of solids' lengths.
const ANY_SUM: usize = 2_000;

/// The records as they are, filled up with solids to a scene of this length.
/// The records must leave some thousand bytes.
pub fn filled(records: Vec<Vec<u8>>, length: usize, r: &mut Random) -> Vec<u8> {
    let taken: usize = records.iter().map(|record| record.len() + 4).sum();
    let scene = records
        .iter()
        .fold(Writer::new(), |scene, record| scene.raw(record));
    let bytes = solids(scene, length - taken - 4, r).finish();
    assert_eq!(bytes.len(), length);
    bytes
}

/// Open walls of 512 corners and then solids.
pub fn walls(length: usize, seed: u64) -> Vec<u8> {
    let r = &mut Random::new(seed);
    let size = 9 + 24 * 512 + 4;
    let count = (length - 4 - ANY_SUM) / size;
    let records = (0..count).map(|_| wall(r)).collect();
    filled(records, length, r)
}

/// The record alone of a scene of one object.
pub fn record(scene: Vec<u8>) -> Vec<u8> {
    scene[..scene.len() - 8].to_vec()
}

fn wall(r: &mut Random) -> Vec<u8> {
    let [x, y] = [r.between(-1e4, 1e4), r.between(-1e4, 1e4)];
    let corners: Vec<Corner> = (0..512)
        .map(|k| {
            let base = [x + f64::from(k), y + r.between(-1.0, 1.0), 0.0];
            Corner {
                base: point(base),
                top: point([base[0], base[1], r.between(1.0, 3.0)]),
            }
        })
        .collect();
    record(Writer::new().outline(1, false, &corners, &[]).finish())
}

fn solids(mut scene: Writer, length: usize, r: &mut Random) -> Writer {
    let mut left = length;
    while left > 0 {
        let k = (0..3)
            .filter(|&k| is_sum(left.wrapping_sub(SOLIDS[k])))
            .max_by_key(|_| r.word())
            .expect("the length is a sum of solids");
        left -= SOLIDS[k];
        scene = solid(scene, k, r);
    }
    scene
}

/// Whether solids of this length in all can be had.
fn is_sum(length: usize) -> bool {
    let [a, b, c] = SOLIDS;
    if length >= ANY_SUM {
        return length < usize::MAX / 2;
    }
    (0..=length / c).any(|i| {
        let left = length - i * c;
        (0..=left / b).any(|j| (left - j * b).is_multiple_of(a))
    })
}

fn solid(scene: Writer, kind: usize, r: &mut Random) -> Writer {
    let position = [0; 3].map(|_| r.between(-1e4, 1e4) as f32);
    let upright = Pair {
        sine: 0.0,
        cosine: 1.0,
    };
    let sizes: Vec<f32> = (0..[0, 2, 3][kind])
        .map(|_| r.between(0.1, 9.0) as f32)
        .collect();
    scene.solid(2, position, [upright; 3], &sizes)
}
