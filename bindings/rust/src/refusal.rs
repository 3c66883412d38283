//! Why a call was refused, in numbers and in English.

use std::fmt;

/// Why a call was refused: its number, and the object named.
#[derive(Debug, Clone, Copy, PartialEq, Eq)]
pub struct Refusal {
    pub number: u32,
    pub object: u32,
}

impl Refusal {
    /// The text of `object_mesh_refusal_text` in include/object_mesh.h.
    pub fn text(&self) -> &'static str {
        match self.number {
            0 => "not refused",
            1 => "the scene has under 4 bytes, or over 16,777,216",
            2 => "over 65,536 objects, or the trailer is longer than the scene",
            3 => "the records do not lie end to end from byte 0 to the trailer",
            4 => "a record's bytes pass the trailer's start",
            5 => "a record's kind is not known",
            6 => "a count is over its limit",
            7 => "a number is not finite, or over its limit",
            8 => "the buffer of vertices or of normals is shorter than measured",
            9 => "the buffer of indices is shorter than measured",
            10 => "the buffer of spans, account or log is shorter than measured",
            11 => "the vertices' length is no multiple of 3",
            12 => "the buffer of millimetres is shorter than measured",
            _ => "unknown refusal",
        }
    }
}

impl fmt::Display for Refusal {
    fn fmt(&self, f: &mut fmt::Formatter) -> fmt::Result {
        let Refusal { number, object } = self;
        write!(f, "refused {number}, object {object}: {}", self.text())
    }
}

impl std::error::Error for Refusal {}
