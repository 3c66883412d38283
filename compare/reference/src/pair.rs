//! What stands in a scene for an angle.

#[derive(Debug, Clone, Copy, PartialEq)]
pub struct Pair {
    pub sine: f64,
    pub cosine: f64,
}
