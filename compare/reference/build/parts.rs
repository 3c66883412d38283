//! Which parts of the original files are taken.

use crate::stand_ins;
use crate::text::{item, replace, replace_all, without_head, without_item, Edit};

/// All of coords.rs.
pub fn coords(source: &str) -> String {
    without_head(source)
}

/// All of object_mesh.rs.
pub fn object_mesh(source: &str) -> String {
    without_head(source)
}

/// `orient`, the shapes and the id.
pub fn object(source: &str) -> String {
    let taken: String = [
        "use crate::coords::Point;",
        "pub(crate) fn orient(",
        "pub struct ObjectId(",
        "pub enum Extent {",
        "pub struct Corner {",
        "pub struct Section {",
        "pub enum Shape {",
    ]
    .map(|start| item("object.rs", source, start))
    .concat();
    replace_all("object.rs", &taken, stand_ins::OBJECT)
}

/// The mesh with its spans, `MIN_AREA`, `MeshError` and `validate`.
pub fn mesh(source: &str) -> String {
    let taken: String = [
        "use std::ops::Range;",
        "use crate::coords::{Point, Vector};",
        "use crate::object_mesh::ObjectSpan;",
        "pub struct Mesh {",
        "pub struct LaneSpan {",
        "pub(crate) const MIN_AREA: f32 = 1e-6;",
        "fn no_area(",
        "pub enum MeshError {",
    ]
    .map(|start| item("mesh.rs", source, start))
    .concat();
    let validate = item("mesh.rs", source, "    pub fn validate(&self)");
    let text = format!("{taken}\nuse crate::network::LaneId;\n\nimpl Mesh {{\n{validate}}}\n");
    replace_all("mesh.rs", &text, stand_ins::MESH)
}

/// The same object_mesh.rs with the stand-ins and without the instruments, so
/// that a test can hold the two against each other.
pub fn plain(standing: &str) -> String {
    let text = without_item("object_mesh.rs", standing, "pub struct ObjectSpan {");
    let text = replace(
        "object_mesh.rs",
        &text,
        &Edit {
            times: 1,
            old: "use std::ops::Range;",
            new: "use crate::object_mesh::ObjectSpan;",
        },
    );
    let text = replace(
        "object_mesh.rs",
        &text,
        &Edit {
            times: 1,
            old: "{orient, Corner, Extent, ObjectId, Section, Shape}",
            new: "{orient, Corner, Extent, Section, Shape}",
        },
    );
    replace(
        "object_mesh.rs",
        &text,
        &Edit {
            times: 1,
            old: "pub fn object_mesh(&self) -> Mesh {",
            new: "pub fn object_mesh_plain(&self) -> Mesh {",
        },
    )
}
