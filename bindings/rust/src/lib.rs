//! Triangles of the objects along a road, with an account of each: a safe wrapper of the proved
//! library. include/object_mesh.h documents the scene bytes and every number.
//!
//! Any thread may call, several at once. Each call runs in the default floating-point mode and
//! leaves the caller's as it was, so the answers are the same where a host flushes subnormal
//! numbers, rounds otherwise or traps.

mod calls;
mod mode;
mod refusal;

pub use refusal::Refusal;

/// How many numbers each buffer takes.
#[derive(Debug, Clone, Copy, PartialEq, Eq)]
pub struct Counts {
    pub vertices: usize,
    pub normals: usize,
    pub indices: usize,
    pub spans: usize,
    pub account: usize,
    pub log: usize,
    pub millimetres: usize,
}

/// The stretch of a mesh that belongs to one object.
#[derive(Debug, Clone, PartialEq, Eq)]
pub struct Span {
    pub id: u32,
    pub vertices: std::ops::Range<u32>,
    pub indices: std::ops::Range<u32>,
}

/// What an object offers by the price list, and what became of it: `offered == kept + thin`.
#[derive(Debug, Clone, Copy, PartialEq, Eq)]
pub struct Account {
    pub offered: u32,
    pub kept: u32,
    pub thin: u32,
    /// How many entries of the log are its own.
    pub entries: u32,
}

#[derive(Debug, Clone, Default, PartialEq)]
pub struct Built {
    pub vertices: Vec<[f32; 3]>,
    pub normals: Vec<[f32; 3]>,
    pub indices: Vec<u32>,
    pub spans: Vec<Span>,
    pub account: Vec<Account>,
    pub log: Vec<[u32; 4]>,
    /// The vertices in whole millimetres.
    pub millimetres: Vec<[i64; 3]>,
}

impl Built {
    /// The verdict on the mesh; on one that `build` gave it is `Ok` or `Empty`.
    pub fn validate(&self) -> Verdict {
        validate(self.vertices.as_flattened(), &self.indices)
            .expect("whole vertices are not refused")
    }
}

#[derive(Debug, Clone, Copy, PartialEq, Eq)]
pub enum Verdict {
    Ok,
    Empty,
    NonFiniteVertex(u64),
    IndexOutOfRange { triangle: u64, index: u32, vertices: u64 },
    DegenerateTriangle(u64),
}

/// Counts that suffice for Build, from the kinds and counts of the scene's records: never fewer
/// than `measure` gives, at the price of reading alone.
pub fn bound(scene: &[u8]) -> Result<Counts, Refusal> {
    calls::bound(scene)
}

/// The counts that `build` comes to, exactly: everything is drawn for it.
pub fn measure(scene: &[u8]) -> Result<Counts, Refusal> {
    calls::measure(scene)
}

/// The mesh, spans, account and log of a scene, drawn once, and its vertices in millimetres: memory
/// is taken by `bound`, and what was not needed of it is given back.
pub fn build(scene: &[u8]) -> Result<Built, Refusal> {
    let mut written = calls::build(scene, bound(scene)?)?;
    written.shorten();
    Ok(Built {
        vertices: written.vertices,
        normals: written.normals,
        indices: written.indices,
        spans: written.spans.into_iter().map(span).collect(),
        account: written.account.into_iter().map(account_of).collect(),
        log: written.log,
        millimetres: written.millimetres,
    })
}

/// The verdict on a mesh, three numbers to a vertex; refusal 11 where they are no whole vertices.
pub fn validate(vertices: &[f32], indices: &[u32]) -> Result<Verdict, Refusal> {
    calls::validate(vertices, indices)
}

fn span([id, vertex, vertex_end, index, index_end]: [u32; 5]) -> Span {
    Span {
        id,
        vertices: vertex..vertex_end,
        indices: index..index_end,
    }
}

fn account_of([offered, kept, thin, entries]: [u32; 4]) -> Account {
    Account {
        offered,
        kept,
        thin,
        entries,
    }
}
