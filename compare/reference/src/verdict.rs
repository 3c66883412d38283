//! Validate: row 11 of document 01, then the original's verdict in numbers.

use crate::coords::Point;
use crate::mesh::{Mesh, MeshError};

/// Refusal 0 or 11; verdict 0 Ok, 1 Empty, 2 NonFiniteVertex,
/// 3 IndexOutOfRange, 4 DegenerateTriangle; `place` is the vertex or the
/// triangle; what a case does not have is 0.
#[derive(Debug, Clone, Copy, Default, PartialEq, Eq)]
pub struct Judgement {
    pub refusal: u32,
    pub verdict: u32,
    pub index: u32,
    pub place: u64,
    pub count: u64,
}

pub fn validate(vertices: &[f32], indices: &[u32]) -> Judgement {
    if !vertices.len().is_multiple_of(3) {
        return Judgement {
            refusal: 11,
            ..Judgement::default()
        };
    }
    let mesh = Mesh {
        vertices: vertices
            .chunks_exact(3)
            .map(|p| Point::new(p[0], p[1], p[2]))
            .collect(),
        indices: indices.to_vec(),
        ..Mesh::default()
    };
    let (verdict, place, index, count) = match mesh.validate() {
        Ok(()) => (0, 0, 0, 0),
        Err(MeshError::Empty) => (1, 0, 0, 0),
        Err(MeshError::NonFiniteVertex(v)) => (2, v, 0, 0),
        Err(MeshError::IndexOutOfRange(t, index, n)) => (3, t, index, n),
        Err(MeshError::DegenerateTriangle(t)) => (4, t, 0, 0),
    };
    Judgement {
        refusal: 0,
        verdict,
        index,
        place: place as u64,
        count: count as u64,
    }
}
