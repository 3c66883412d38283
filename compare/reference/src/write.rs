//! Writing scene bytes (document 01, section 1).

use crate::object::{Corner, Section};
use crate::pair::Pair;

#[derive(Default)]
pub struct Writer {
    bytes: Vec<u8>,
    starts: Vec<u32>,
}

impl Writer {
    pub fn new() -> Self {
        Self::default()
    }

    fn head(&mut self, kind: u8, id: u32) {
        self.starts.push(self.bytes.len() as u32);
        self.bytes.push(kind);
        self.bytes.extend(id.to_le_bytes());
    }

    fn floats(&mut self, numbers: &[f32]) {
        for x in numbers {
            self.bytes.extend(x.to_le_bytes());
        }
    }

    fn count(&mut self, n: usize) {
        self.bytes.extend((n as u16).to_le_bytes());
    }

    fn corner(&mut self, c: &Corner) {
        self.floats(&c.base.to_array());
        self.floats(&c.top.to_array());
    }

    /// No sizes: unsized; three: a box; two: a cylinder.
    pub fn solid(mut self, id: u32, position: [f32; 3], turn: [Pair; 3], sizes: &[f32]) -> Self {
        self.head([0, 0, 2, 1][sizes.len()], id);
        self.floats(&position);
        for pair in turn {
            self.bytes.extend(pair.sine.to_le_bytes());
            self.bytes.extend(pair.cosine.to_le_bytes());
        }
        self.floats(sizes);
        self
    }

    pub fn outline(
        mut self,
        id: u32,
        closed: bool,
        outer: &[Corner],
        holes: &[Vec<Corner>],
    ) -> Self {
        self.head(if closed { 4 } else { 3 }, id);
        self.count(outer.len());
        self.count(holes.len());
        for hole in holes {
            self.count(hole.len());
        }
        for c in outer.iter().chain(holes.iter().flatten()) {
            self.corner(c);
        }
        self
    }

    pub fn sweep(mut self, id: u32, round: bool, sections: &[Section]) -> Self {
        self.head(if round { 6 } else { 5 }, id);
        self.count(sections.len());
        for s in sections {
            self.corner(&s.left);
            self.corner(&s.right);
        }
        self
    }

    /// A record of any bytes.
    pub fn raw(mut self, bytes: &[u8]) -> Self {
        self.starts.push(self.bytes.len() as u32);
        self.bytes.extend(bytes);
        self
    }

    pub fn finish(self) -> Vec<u8> {
        let mut bytes = self.bytes;
        for start in &self.starts {
            bytes.extend(start.to_le_bytes());
        }
        bytes.extend((self.starts.len() as u32).to_le_bytes());
        bytes
    }
}
