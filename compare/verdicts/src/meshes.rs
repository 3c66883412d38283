//! The meshes: a strip of triangles with one fault or two in every place, and
//! triangles around the limit.

const NAN: f32 = f32::NAN;
const INF: f32 = f32::INFINITY;
const LIMIT: u32 = 0x3586_37BD;

#[derive(Clone)]
pub struct Plain {
    pub vertices: Vec<f32>,
    pub indices: Vec<u32>,
}

fn plain(vertices: &[f32], indices: &[u32]) -> Plain {
    Plain {
        vertices: vertices.to_vec(),
        indices: indices.to_vec(),
    }
}

/// Seven vertices and five triangles without a fault.
fn strip() -> Plain {
    let vertices = (0..7)
        .flat_map(|k| [k as f32 * 0.5, (k % 2) as f32, k as f32 * 0.25])
        .collect();
    let indices = (0..5).flat_map(|k| [k, k + 1, k + 2]).collect();
    Plain { vertices, indices }
}

/// The triangle of document 01, section 9, and others of its kind.
fn corner(s: f32, t: f32) -> Plain {
    plain(&[0.0, 0.0, 0.0, s, 0.0, 0.0, 0.0, t, 0.0], &[0, 1, 2])
}

struct Random(u64);

impl Random {
    fn next(&mut self) -> u32 {
        self.0 ^= self.0 << 13;
        self.0 ^= self.0 >> 7;
        self.0 ^= self.0 << 17;
        (self.0 >> 16) as u32
    }

    fn below(&mut self, n: u32) -> u32 {
        self.next() % n
    }

    /// Between -1 and 1.
    fn share(&mut self) -> f32 {
        (self.next() >> 8) as f32 / 8_388_608.0 - 1.0
    }
}

fn not_finite(all: &mut Vec<Plain>) {
    for place in 0..21 {
        for value in [NAN, INF, -INF] {
            let mut m = strip();
            m.vertices[place] = value;
            all.push(m);
        }
        // A later one, an index out of range and a repeated vertex beside it.
        let mut m = strip();
        m.vertices[place] = INF;
        m.vertices[20] = NAN;
        m.indices[0] = 9;
        m.indices[4] = m.indices[3];
        all.push(m);
    }
}

fn out_of_range(all: &mut Vec<Plain>) {
    for place in 0..15 {
        for index in [7, 8, u32::MAX] {
            let mut m = strip();
            m.indices[place] = index;
            all.push(m);
        }
        // The next one is out of range as well, and the triangle degenerate.
        let mut m = strip();
        m.indices[place] = 7;
        m.indices[(place + 1) % 15] = 7;
        m.indices[14] = 100;
        all.push(m);
    }
}

fn degenerate(all: &mut Vec<Plain>) {
    for t in 0..5 {
        for (from, to) in [(0, 1), (1, 2), (0, 2)] {
            let mut m = strip();
            m.indices[3 * t + to] = m.indices[3 * t + from];
            all.push(m);
        }
        // Two vertices at one place, and three in a line.
        let mut m = strip();
        m.vertices.copy_within(3 * t..3 * t + 3, 3 * t + 6);
        all.push(m);
        let mut m = strip();
        for k in 0..3 {
            m.vertices[3 * t + 3 + k] = (m.vertices[3 * t + k] + m.vertices[3 * t + 6 + k]) * 0.5;
        }
        all.push(m);
    }
}

fn counts(all: &mut Vec<Plain>) {
    for n in 0..15 {
        let mut m = strip();
        m.indices.truncate(n);
        all.push(m.clone());
        if n % 3 != 0 {
            m.indices[n - 1] = 7;
            all.push(m);
        }
    }
    for n in 0..8 {
        let values = vec![1.0; n];
        all.push(plain(&values, &[]));
        all.push(plain(&values, &[0, 1, 2]));
    }
    all.push(plain(&[NAN, 0.0, 0.0], &[]));
    all.push(plain(&[NAN, 0.0, 0.0, INF], &[0]));
}

fn around_the_limit(all: &mut Vec<Plain>, random: &mut Random) {
    for bits in LIMIT - 3..=LIMIT + 3 {
        all.push(corner(1.0, f32::from_bits(bits)));
        all.push(corner(-f32::from_bits(bits), 1.0));
        all.push(corner(4096.0, f32::from_bits(bits) / 4096.0));
    }
    for t in [
        0.0, -0.0, 1e-45, 1e-38, 1e-12, 1e-3, 1e19, 1e30, 3e38, -3e38,
    ] {
        all.push(corner(1.0, t));
        all.push(corner(t, t));
    }
    for _ in 0..60 {
        let mut m = corner(random.share(), random.share());
        for k in 0..9 {
            m.vertices[k] += random.share() * 1e-3;
        }
        // The second corner is moved so that the area comes near the limit.
        let size = 1e-6 / m.vertices[7].abs().max(1e-3);
        m.vertices[3] = m.vertices[0] + size * (1.0 + random.share() * 0.01);
        m.vertices[4] = m.vertices[1];
        m.vertices[5] = m.vertices[2];
        all.push(m);
    }
}

fn mixed(all: &mut Vec<Plain>, random: &mut Random) {
    for _ in 0..60 {
        let n = 3 + random.below(12);
        let vertices = (0..3 * n).map(|_| random.share() * 100.0).collect();
        let indices = (0..3 + random.below(40)).map(|_| random.below(n)).collect();
        let mut m = Plain { vertices, indices };
        for _ in 0..random.below(3) {
            let at = random.below(m.indices.len() as u32) as usize;
            m.indices[at] = random.below(2 * n);
        }
        if random.below(4) == 0 {
            let at = random.below(3 * n) as usize;
            m.vertices[at] = [NAN, INF, -INF][random.below(3) as usize];
        }
        all.push(m);
    }
}

pub fn all() -> Vec<Plain> {
    let mut all = vec![strip()];
    let mut random = Random(0x9E37_79B9_7F4A_7C15);
    not_finite(&mut all);
    out_of_range(&mut all);
    degenerate(&mut all);
    counts(&mut all);
    around_the_limit(&mut all, &mut random);
    mixed(&mut all, &mut random);
    all
}
