//! The library's functions, as include/object_mesh.h declares them, each called in the mode that it
//! needs. A slice's pointer is never null.

use crate::mode::in_default_mode;
use crate::{Counts, Refusal, Verdict};

#[repr(C)]
struct Answer {
    refusal: u32,
    object: u32,
    counts: [u32; 7],
}

#[repr(C)]
struct Judgement {
    refusal: u32,
    object: u32,
    verdict: u32,
    index: u32,
    place: u64,
    count: u64,
}

/// What Build has written, in records.
pub struct Written {
    pub vertices: Vec<[f32; 3]>,
    pub normals: Vec<[f32; 3]>,
    pub indices: Vec<u32>,
    pub spans: Vec<[u32; 5]>,
    pub account: Vec<[u32; 4]>,
    pub log: Vec<[u32; 4]>,
    pub millimetres: Vec<[i64; 3]>,
}

impl Written {
    /// Gives back the memory behind what was written.
    pub fn shorten(&mut self) {
        self.vertices.shrink_to_fit();
        self.normals.shrink_to_fit();
        self.indices.shrink_to_fit();
        self.spans.shrink_to_fit();
        self.account.shrink_to_fit();
        self.log.shrink_to_fit();
        self.millimetres.shrink_to_fit();
    }
}

extern "C" {
    fn object_mesh_bound(scene: *const u8, len: usize) -> Answer;
    fn object_mesh_measure(scene: *const u8, len: usize) -> Answer;
    fn object_mesh_build(
        scene: *const u8,
        len: usize,
        vertices: *mut f32,
        vertices_len: usize,
        normals: *mut f32,
        normals_len: usize,
        indices: *mut u32,
        indices_len: usize,
        spans: *mut u32,
        spans_len: usize,
        account: *mut u32,
        account_len: usize,
        log: *mut u32,
        log_len: usize,
        millimetres: *mut i64,
        millimetres_len: usize,
    ) -> Answer;
    fn object_mesh_validate(
        vertices: *const f32,
        vertices_len: usize,
        indices: *const u32,
        indices_len: usize,
    ) -> Judgement;
}

fn counted(answer: Answer) -> Result<Counts, Refusal> {
    if answer.refusal != 0 {
        return Err(Refusal {
            number: answer.refusal,
            object: answer.object,
        });
    }
    let [vertices, normals, indices, spans, account, log, millimetres] =
        answer.counts.map(|n| n as usize);
    Ok(Counts {
        vertices,
        normals,
        indices,
        spans,
        account,
        log,
        millimetres,
    })
}

pub fn bound(scene: &[u8]) -> Result<Counts, Refusal> {
    counted(in_default_mode(|| unsafe {
        object_mesh_bound(scene.as_ptr(), scene.len())
    }))
}

pub fn measure(scene: &[u8]) -> Result<Counts, Refusal> {
    counted(in_default_mode(|| unsafe {
        object_mesh_measure(scene.as_ptr(), scene.len())
    }))
}

/// Build into memory with room for so many numbers, whatever stood there: it is not cleared before.
pub fn build(scene: &[u8], room: Counts) -> Result<Written, Refusal> {
    let mut w = Written {
        vertices: Vec::with_capacity(room.vertices / 3),
        normals: Vec::with_capacity(room.normals / 3),
        indices: Vec::with_capacity(room.indices),
        spans: Vec::with_capacity(room.spans / 5),
        account: Vec::with_capacity(room.account / 4),
        log: Vec::with_capacity(room.log / 4),
        millimetres: Vec::with_capacity(room.millimetres / 3),
    };
    let counts = counted(in_default_mode(|| unsafe {
        object_mesh_build(
            scene.as_ptr(),
            scene.len(),
            w.vertices.as_mut_ptr().cast(),
            3 * w.vertices.capacity(),
            w.normals.as_mut_ptr().cast(),
            3 * w.normals.capacity(),
            w.indices.as_mut_ptr(),
            w.indices.capacity(),
            w.spans.as_mut_ptr().cast(),
            5 * w.spans.capacity(),
            w.account.as_mut_ptr().cast(),
            4 * w.account.capacity(),
            w.log.as_mut_ptr().cast(),
            4 * w.log.capacity(),
            w.millimetres.as_mut_ptr().cast(),
            3 * w.millimetres.capacity(),
        )
    }))?;
    // By the library's contract the first so many numbers of each buffer are now what the scene
    // says, whatever stood there.
    unsafe {
        w.vertices.set_len(counts.vertices / 3);
        w.normals.set_len(counts.normals / 3);
        w.indices.set_len(counts.indices);
        w.spans.set_len(counts.spans / 5);
        w.account.set_len(counts.account / 4);
        w.log.set_len(counts.log / 4);
        w.millimetres.set_len(counts.millimetres / 3);
    }
    Ok(w)
}

pub fn validate(vertices: &[f32], indices: &[u32]) -> Result<Verdict, Refusal> {
    let j = in_default_mode(|| unsafe {
        object_mesh_validate(
            vertices.as_ptr(),
            vertices.len(),
            indices.as_ptr(),
            indices.len(),
        )
    });
    if j.refusal != 0 {
        return Err(Refusal {
            number: j.refusal,
            object: j.object,
        });
    }
    Ok(match j.verdict {
        0 => Verdict::Ok,
        1 => Verdict::Empty,
        2 => Verdict::NonFiniteVertex(j.place),
        3 => Verdict::IndexOutOfRange {
            triangle: j.place,
            index: j.index,
            vertices: j.count,
        },
        _ => Verdict::DegenerateTriangle(j.place),
    })
}
