//! The library's functions, as include/object_mesh.h declares them.

#[repr(C)]
#[derive(Debug, Clone, Copy, Default, PartialEq, Eq)]
pub struct Answer {
    pub refusal: u32,
    pub object: u32,
    pub counts: [u32; 7],
}

#[repr(C)]
#[derive(Debug, Clone, Copy, PartialEq, Eq)]
pub struct Judgement {
    pub refusal: u32,
    pub object: u32,
    pub verdict: u32,
    pub index: u32,
    pub place: u64,
    pub count: u64,
}

#[derive(Debug, Clone, PartialEq)]
pub struct Buffers {
    pub floats: [Vec<u32>; 2],
    pub numbers: [Vec<u32>; 4],
    pub millimetres: Vec<i64>,
}

extern "C" {
    fn object_mesh_bound(scene: *const u8, len: usize) -> Answer;
    fn object_mesh_measure(scene: *const u8, len: usize) -> Answer;
    #[allow(clippy::too_many_arguments)]
    fn object_mesh_build(
        scene: *const u8,
        len: usize,
        vertices: *mut f32,
        vertices_len: usize,
        normals: *mut f32,
        normals_len: usize,
        indices: *mut u32,
        indices_len: usize,
        spans: *mut u32,
        spans_len: usize,
        account: *mut u32,
        account_len: usize,
        log: *mut u32,
        log_len: usize,
        millimetres: *mut i64,
        millimetres_len: usize,
    ) -> Answer;
    fn object_mesh_validate(
        vertices: *const f32,
        vertices_len: usize,
        indices: *const u32,
        indices_len: usize,
    ) -> Judgement;
}

pub fn bound(scene: &[u8]) -> Answer {
    unsafe { object_mesh_bound(scene.as_ptr(), scene.len()) }
}

pub fn measure(scene: &[u8]) -> Answer {
    unsafe { object_mesh_measure(scene.as_ptr(), scene.len()) }
}

/// Build on the buffers, whose f32 are kept as bits so that every bit is compared.
pub fn build(scene: &[u8], b: &mut Buffers) -> Answer {
    let [vertices, normals] = &mut b.floats;
    let [indices, spans, account, log] = &mut b.numbers;
    unsafe {
        object_mesh_build(
            scene.as_ptr(),
            scene.len(),
            vertices.as_mut_ptr().cast(),
            vertices.len(),
            normals.as_mut_ptr().cast(),
            normals.len(),
            indices.as_mut_ptr(),
            indices.len(),
            spans.as_mut_ptr(),
            spans.len(),
            account.as_mut_ptr(),
            account.len(),
            log.as_mut_ptr(),
            log.len(),
            b.millimetres.as_mut_ptr(),
            b.millimetres.len(),
        )
    }
}

pub fn validate(vertices: &[f32], indices: &[u32]) -> Judgement {
    unsafe {
        object_mesh_validate(
            vertices.as_ptr(),
            vertices.len(),
            indices.as_ptr(),
            indices.len(),
        )
    }
}
