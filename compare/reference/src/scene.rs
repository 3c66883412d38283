//! Scene bytes and where a scene is refused (document 01, sections 1 and 2).

use crate::coords::Point;
use crate::network::Object;
use crate::object::{Corner, Extent, ObjectId, Section, Shape};
use crate::pair::Pair;

/// The refusal's number and the object named.
pub type Refusal = (u32, u32);

const MAX_BYTES: usize = 16_777_216;
const MAX_OBJECTS: usize = 65_536;
const MAX_HOLES: usize = 32;
const MAX_CORNERS: usize = 512;
const MAX_SECTIONS: usize = 4_096;
const MAX_NUMBER: f32 = 16_777_216.0;

pub fn read_scene(bytes: &[u8]) -> Result<Vec<Object>, Refusal> {
    let length = bytes.len();
    if !(4..=MAX_BYTES).contains(&length) {
        return Err((1, 0));
    }
    let n = u32_at(bytes, length - 4) as usize;
    if n > MAX_OBJECTS || 4 * n + 4 > length {
        return Err((2, 0));
    }
    let trailer = length - 4 * n - 4;
    let mut reader = Reader {
        records: &bytes[..trailer],
        at: 0,
    };
    let mut objects = Vec::with_capacity(n);
    for i in 0..n {
        let named = |number| (number, i as u32);
        if u32_at(bytes, trailer + 4 * i) as usize != reader.at {
            return Err(named(3));
        }
        objects.push(reader.object().map_err(named)?);
    }
    if reader.at != trailer {
        return Err((3, n as u32));
    }
    Ok(objects)
}

fn u32_at(bytes: &[u8], at: usize) -> u32 {
    u32::from_le_bytes(bytes[at..at + 4].try_into().expect("four bytes"))
}

struct Reader<'a> {
    records: &'a [u8],
    at: usize,
}

impl Reader<'_> {
    fn object(&mut self) -> Result<Object, u32> {
        self.extent(5)?;
        let kind = self.take::<1>()[0];
        let id = ObjectId(u32::from_le_bytes(self.take()) as usize);
        let shape = match kind {
            0..=2 => self.solid(kind)?,
            3 | 4 => self.outline(kind == 4)?,
            5 | 6 => self.sweep(kind == 6)?,
            _ => return Err(5),
        };
        Ok(Object { id, shape })
    }

    fn solid(&mut self, kind: u8) -> Result<Shape, u32> {
        let sizes = [0, 3, 2][kind as usize];
        self.extent(3 * 4 + 6 * 8 + 4 * sizes)?;
        let position = self.point()?;
        let heading = self.pair()?;
        let pitch = self.pair()?;
        let roll = self.pair()?;
        let extent = match kind {
            0 => None,
            1 => Some(Extent::Box {
                length: self.f32()?,
                width: self.f32()?,
                height: self.f32()?,
            }),
            _ => Some(Extent::Cylinder {
                radius: self.f32()?,
                height: self.f32()?,
            }),
        };
        Ok(Shape::Solid {
            position,
            heading,
            pitch,
            roll,
            extent,
        })
    }

    fn outline(&mut self, closed: bool) -> Result<Shape, u32> {
        self.extent(4)?;
        let outer = self.u16();
        let holes = self.u16();
        if holes > MAX_HOLES {
            return Err(6);
        }
        self.extent(2 * holes)?;
        let counts: Vec<usize> = (0..holes).map(|_| self.u16()).collect();
        let total = outer + counts.iter().sum::<usize>();
        if total > MAX_CORNERS {
            return Err(6);
        }
        self.extent(24 * total)?;
        let corners = self.corners(outer)?;
        let holes = counts
            .into_iter()
            .map(|count| self.corners(count))
            .collect::<Result<_, _>>()?;
        Ok(Shape::Outline {
            corners,
            closed,
            holes,
        })
    }

    fn sweep(&mut self, round: bool) -> Result<Shape, u32> {
        self.extent(2)?;
        let count = self.u16();
        if count > MAX_SECTIONS {
            return Err(6);
        }
        self.extent(48 * count)?;
        let sections = (0..count)
            .map(|_| self.section())
            .collect::<Result<_, _>>()?;
        Ok(Shape::Sweep { sections, round })
    }

    /// Row 4: the bytes next needed pass the trailer's start.
    fn extent(&self, need: usize) -> Result<(), u32> {
        if self.at + need > self.records.len() {
            return Err(4);
        }
        Ok(())
    }

    fn take<const N: usize>(&mut self) -> [u8; N] {
        let from = self.at;
        self.at += N;
        self.records[from..self.at]
            .try_into()
            .expect("as many as asked for")
    }

    fn u16(&mut self) -> usize {
        u16::from_le_bytes(self.take()).into()
    }

    fn f32(&mut self) -> Result<f32, u32> {
        let x = f32::from_le_bytes(self.take());
        if x.abs() <= MAX_NUMBER {
            Ok(x)
        } else {
            Err(7)
        }
    }

    fn f64(&mut self) -> Result<f64, u32> {
        let x = f64::from_le_bytes(self.take());
        if x.abs() <= 1.0 {
            Ok(x)
        } else {
            Err(7)
        }
    }

    fn pair(&mut self) -> Result<Pair, u32> {
        Ok(Pair {
            sine: self.f64()?,
            cosine: self.f64()?,
        })
    }

    fn point(&mut self) -> Result<Point, u32> {
        Ok(Point::new(self.f32()?, self.f32()?, self.f32()?))
    }

    fn corner(&mut self) -> Result<Corner, u32> {
        Ok(Corner {
            base: self.point()?,
            top: self.point()?,
        })
    }

    fn section(&mut self) -> Result<Section, u32> {
        Ok(Section {
            left: self.corner()?,
            right: self.corner()?,
        })
    }

    fn corners(&mut self, count: usize) -> Result<Vec<Corner>, u32> {
        (0..count).map(|_| self.corner()).collect()
    }
}
