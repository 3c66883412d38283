//! What Build leaves in the seven buffers (document 01, section 7; document
//! 02, request 1).

use crate::mesh::Mesh;
use crate::millimetre::millimetres;
use crate::network::{Object, RoadNetwork};
use crate::price::offered;
use crate::record::{self, Notes};

#[derive(Debug, Clone, Default, PartialEq)]
pub struct Built {
    pub vertices: Vec<f32>,
    pub normals: Vec<f32>,
    pub indices: Vec<u32>,
    pub spans: Vec<u32>,
    pub account: Vec<u32>,
    pub log: Vec<u32>,
    pub millimetres: Vec<i64>,
    /// Of each object, beyond the buffers: its lid's flat corners among them.
    pub notes: Vec<Notes>,
}

pub fn build(objects: &[Object]) -> Built {
    record::take();
    let mesh = RoadNetwork::new(objects).object_mesh();
    let notes = record::take();
    assert_eq!(notes.len(), objects.len());
    let account = objects
        .iter()
        .zip(&notes)
        .flat_map(|(object, notes)| {
            let offered = offered(&object.shape, notes.lid.as_ref(), &notes.log);
            [offered, notes.kept, notes.thin, notes.log.len() as u32]
        })
        .collect();
    let log = notes.iter().flat_map(|n| n.log.iter().flatten().copied());
    Built {
        account,
        log: log.collect(),
        ..buffers(&mesh, notes.clone())
    }
}

/// The mesh without the instruments, to hold against that of [`build`].
pub fn build_plain(objects: &[Object]) -> Built {
    buffers(&RoadNetwork::new(objects).object_mesh_plain(), Vec::new())
}

fn buffers(mesh: &Mesh, notes: Vec<Notes>) -> Built {
    let span = |s: &crate::object_mesh::ObjectSpan| {
        let id = u32::try_from(s.object.0).expect("ids are u32");
        [
            id,
            s.vertices.start,
            s.vertices.end,
            s.indices.start,
            s.indices.end,
        ]
    };
    let vertices: Vec<f32> = mesh.vertices.iter().flat_map(|p| p.to_array()).collect();
    Built {
        millimetres: vertices.iter().map(|&x| millimetres(x)).collect(),
        vertices,
        normals: mesh.normals.iter().flat_map(|v| v.to_array()).collect(),
        indices: mesh.indices.clone(),
        spans: mesh.objects.iter().flat_map(span).collect(),
        notes,
        ..Built::default()
    }
}
