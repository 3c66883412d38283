//! Makes what the test program `crates/test_verdicts` reads and must print, by the
//! Rust's own `Mesh::validate`. In this folder:
//!
//!     OBJECT_MESH_RUST=FOLDER cargo run --offline --release -- ../../crates/test_verdicts
//!
//! FOLDER is the one that holds src/mesh.rs of the Rust. A mesh is a count of
//! vertex numbers, a count of indices, the numbers and the indices, each a
//! word of four bytes, the lowest first. Refusal 11 is document 01's: the
//! Rust has no vertices that are not whole.

use std::{env, fs};

mod coords {
    #![allow(dead_code)]
    include!(concat!(env!("OUT_DIR"), "/coords.rs"));
}

mod mesh {
    use crate::coords::Point;

    pub struct Mesh {
        pub vertices: Vec<Point>,
        pub indices: Vec<u32>,
    }

    include!(concat!(env!("OUT_DIR"), "/mesh.rs"));
}

mod meshes;

use coords::Point;
use mesh::{Mesh, MeshError};
use meshes::Plain;

fn verdict(m: &Plain) -> String {
    if m.vertices.len() % 3 != 0 {
        return "refused 11 0".to_string();
    }
    let vertices = m
        .vertices
        .chunks(3)
        .map(|c| Point::new(c[0], c[1], c[2]))
        .collect();
    let indices = m.indices.clone();
    match (Mesh { vertices, indices }).validate() {
        Ok(()) => "ok".to_string(),
        Err(MeshError::Empty) => "empty".to_string(),
        Err(MeshError::NonFiniteVertex(i)) => format!("nonfinite {i}"),
        Err(MeshError::IndexOutOfRange(t, i, n)) => format!("range {t} {i} {n}"),
        Err(MeshError::DegenerateTriangle(t)) => format!("degenerate {t}"),
    }
}

fn main() {
    let folder = env::args().nth(1).expect("the folder of the test program");
    let (mut words, mut lines) = (Vec::new(), String::new());
    for m in meshes::all() {
        words.extend([m.vertices.len() as u32, m.indices.len() as u32]);
        words.extend(m.vertices.iter().map(|x| x.to_bits()));
        words.extend(&m.indices);
        lines += &verdict(&m);
        lines.push('\n');
    }
    let bytes: Vec<u8> = words.iter().flat_map(|w| w.to_le_bytes()).collect();
    fs::write(format!("{folder}/data/meshes"), bytes).expect("data/meshes is written");
    fs::write(format!("{folder}/stdout"), lines).expect("stdout is written");
}
