//! The bound beside Measure, and Build by it, on the samples, on what is left of them and on scenes
//! made from fixed seeds.

use object_mesh::{bound, build, measure, Built, Counts};

const BOX: &[u8] = include_bytes!("../../../samples/box.scene");
const STREET: &[u8] = include_bytes!("../../../samples/street.scene");

/// Numbers from a seed.
struct Random(u64);

impl Random {
    fn below(&mut self, n: u64) -> u64 {
        self.0 = self.0.wrapping_mul(6364136223846793005).wrapping_add(1442695040888963407);
        (self.0 >> 33) % n
    }

    /// One of few values, so that points and sizes often are the same.
    fn metres(&mut self) -> [u8; 4] {
        (self.below(5) as f32 - 1.0).to_le_bytes()
    }

    fn all_metres(&mut self, n: u64) -> Vec<u8> {
        (0..n).flat_map(|_| self.metres()).collect()
    }
}

/// An object of any kind, often with triangles that are thin.
fn record(r: &mut Random) -> Vec<u8> {
    let kind = r.below(7);
    let mut bytes = vec![kind as u8, 7, 0, 0, 0];
    match kind {
        0..=2 => {
            bytes.extend(r.all_metres(3));
            bytes.extend([0.0f64, 1.0, 0.0, 1.0, 0.0, 1.0].into_iter().flat_map(f64::to_le_bytes));
            bytes.extend(r.all_metres([0, 3, 2][kind as usize]));
        }
        3 | 4 => {
            let (outer, holes) = (r.below(12), r.below(3));
            let inner: Vec<u64> = (0..holes).map(|_| r.below(5)).collect();
            let counts = [outer, holes].into_iter().chain(inner.iter().copied());
            bytes.extend(counts.flat_map(|n| (n as u16).to_le_bytes()));
            bytes.extend(r.all_metres(6 * (outer + inner.iter().sum::<u64>())));
        }
        _ => {
            let sections = r.below(6);
            bytes.extend((sections as u16).to_le_bytes());
            bytes.extend(r.all_metres(12 * sections));
        }
    }
    bytes
}

fn scene(seed: u64) -> Vec<u8> {
    let r = &mut Random(seed);
    let (mut bytes, mut starts) = (Vec::new(), Vec::new());
    for _ in 0..r.below(6) {
        starts.push(bytes.len() as u32);
        bytes.extend(record(r));
    }
    starts.push(starts.len() as u32);
    bytes.extend(starts.into_iter().flat_map(u32::to_le_bytes));
    bytes
}

fn numbers(c: &Counts) -> [usize; 7] {
    [c.vertices, c.normals, c.indices, c.spans, c.account, c.log, c.millimetres]
}

fn numbers_of(b: &Built) -> [usize; 7] {
    [
        3 * b.vertices.len(),
        3 * b.normals.len(),
        b.indices.len(),
        5 * b.spans.len(),
        4 * b.account.len(),
        4 * b.log.len(),
        3 * b.millimetres.len(),
    ]
}

/// The bound is no less than what is measured, and that is what is built; or all three refuse
/// alike. Whether the bound is more than what is measured.
fn compare(scene: &[u8]) -> bool {
    match measure(scene) {
        Err(refusal) => {
            assert_eq!(bound(scene), Err(refusal));
            assert_eq!(build(scene), Err(refusal));
            false
        }
        Ok(counts) => {
            let most = numbers(&bound(scene).unwrap());
            let exact = numbers(&counts);
            assert_eq!((most[6], exact[6]), (most[0], exact[0]));
            assert!(most.iter().zip(exact).all(|(&most, n)| most >= n), "{most:?} {exact:?}");
            assert_eq!(numbers_of(&build(scene).unwrap()), exact);
            most != exact
        }
    }
}

#[test]
fn a_box_comes_to_its_bound() {
    assert_eq!(numbers(&bound(BOX).unwrap()), [72, 72, 36, 5, 4, 0, 72]);
    assert!(!compare(BOX));
}

#[test]
fn damaged_samples_are_refused_alike() {
    assert!(compare(STREET));
    for place in 0..STREET.len() {
        compare(&STREET[..place]);
        let mut changed = STREET.to_vec();
        changed[place] ^= 0x41;
        compare(&changed);
    }
}

#[test]
fn generated_scenes_come_to_no_more() {
    let accepted: Vec<_> = (0..2_000).map(scene).filter(|s| bound(s).is_ok()).collect();
    assert_eq!(accepted.len(), 2_000);
    assert!(accepted.iter().filter(|s| compare(s)).count() > 1_000);
}

/// FNV-1a over the bits of all buffers but the millimetres, which follow from the vertices
/// (millimetres.rs).
fn hash(built: &Built) -> u64 {
    let floats = built.vertices.iter().chain(&built.normals).flatten().map(|x| x.to_bits());
    let spans = built.spans.iter().flat_map(|s| {
        [s.id, s.vertices.start, s.vertices.end, s.indices.start, s.indices.end]
    });
    let account = built.account.iter().flat_map(|a| [a.offered, a.kept, a.thin, a.entries]);
    let log = built.log.iter().flatten().copied();
    let words = floats.chain(built.indices.iter().copied()).chain(spans).chain(account).chain(log);
    words.flat_map(u32::to_le_bytes).fold(0xcbf29ce484222325, |h, b| {
        (h ^ u64::from(b)).wrapping_mul(0x100000001b3)
    })
}

/// The hashes are those of buffers that were measured before.
#[test]
fn built_as_into_measured_buffers() {
    let generated = (0..200).map(|seed| hash(&build(&scene(seed)).unwrap()));
    assert_eq!(generated.fold(0, |all: u64, h| all.rotate_left(1) ^ h), 0x61ce72d16fd42df0);
    assert_eq!(hash(&build(STREET).unwrap()), 0xfe43e7ded5e2ed1f);
}
