//! The larger of two numbers, +0.0 for unlike zeros (document 01, section 3).

pub fn larger(a: f32, b: f32) -> f32 {
    if a == 0.0 && b == 0.0 && a.to_bits() != b.to_bits() {
        return 0.0;
    }
    a.max(b)
}
