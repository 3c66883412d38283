//! Document 01's stand-ins (section 3): sines and cosines as bits, the larger
//! of two zeros, the scene's pairs in `orient`. Nothing else of the
//! arithmetic is touched.

use crate::text::Edit;

pub const OBJECT_MESH: &[Edit] = &[
    Edit {
        times: 1,
        old: "let (sin, cos) = angle(k).sin_cos();",
        new: "let (sin, cos) = crate::circle::sin_cos(angle(k));",
    },
    Edit {
        times: 1,
        old: "let (sin, cos) = (angle(k) + angle(1) / 2.0).sin_cos();",
        new: "let (sin, cos) = crate::circle::sin_cos(angle(k) + angle(1) / 2.0);",
    },
    Edit {
        times: 1,
        old: "centre + across * angle.cos() + up * angle.sin()",
        new: "centre + across * crate::circle::cos(angle) + up * crate::circle::sin(angle)",
    },
    Edit {
        times: 1,
        old: ".fold(f32::MIN, f32::max)",
        new: ".fold(f32::MIN, crate::zeros::larger)",
    },
    Edit {
        times: 1,
        old: "(r[0] - m[0]).max(f32::MIN_POSITIVE)",
        new: "crate::zeros::larger(r[0] - m[0], f32::MIN_POSITIVE)",
    },
    Edit {
        times: 1,
        old: "f64::from(*heading)",
        new: "*heading",
    },
    Edit {
        times: 1,
        old: "f64::from(*pitch)",
        new: "*pitch",
    },
    Edit {
        times: 1,
        old: "f64::from(*roll)",
        new: "*roll",
    },
    // No other call whose rounding or sign of zero the standard leaves open.
    Edit {
        times: 0,
        old: ".sin_cos()",
        new: "",
    },
    Edit {
        times: 0,
        old: ".sin()",
        new: "",
    },
    Edit {
        times: 0,
        old: ".cos()",
        new: "",
    },
    Edit {
        times: 0,
        old: ".max(",
        new: "",
    },
    Edit {
        times: 0,
        old: "f32::max",
        new: "",
    },
    Edit {
        times: 0,
        old: "f32::min",
        new: "",
    },
    Edit {
        times: 0,
        old: "mul_add",
        new: "",
    },
];

pub const OBJECT: &[Edit] = &[
    Edit {
        times: 1,
        old: "fn orient(yaw: f64, pitch: f64, roll: f64,",
        new: "fn orient(yaw: Pair, pitch: Pair, roll: Pair,",
    },
    Edit {
        times: 1,
        old: "let (sr, cr) = roll.sin_cos();",
        new: "let (sr, cr) = (roll.sine, roll.cosine);",
    },
    Edit {
        times: 1,
        old: "let (sp, cp) = pitch.sin_cos();",
        new: "let (sp, cp) = (pitch.sine, pitch.cosine);",
    },
    Edit {
        times: 1,
        old: "let (sy, cy) = yaw.sin_cos();",
        new: "let (sy, cy) = (yaw.sine, yaw.cosine);",
    },
    Edit {
        times: 1,
        old: "        heading: f32,\n",
        new: "        heading: Pair,\n",
    },
    Edit {
        times: 1,
        old: "        pitch: f32,\n",
        new: "        pitch: Pair,\n",
    },
    Edit {
        times: 1,
        old: "        roll: f32,\n",
        new: "        roll: Pair,\n",
    },
    Edit {
        times: 1,
        old: "use crate::coords::Point;\n",
        new: "use crate::coords::Point;\nuse crate::pair::Pair;\n\n",
    },
];

/// The error texts need a crate that is not to be had.
pub const MESH: &[Edit] = &[
    Edit {
        times: 1,
        old: "PartialEq, Eq, thiserror::Error)]",
        new: "PartialEq, Eq)]",
    },
    Edit {
        times: 1,
        old: "    #[error(\"mesh has no triangles\")]\n",
        new: "",
    },
    Edit {
        times: 1,
        old: "    #[error(\"vertex {0} is not finite\")]\n",
        new: "",
    },
    Edit {
        times: 1,
        old: "    #[error(\"triangle {0} indexes vertex {1}, past the {2} vertices present\")]\n",
        new: "",
    },
    Edit {
        times: 1,
        old: "    #[error(\"triangle {0} has no area\")]\n",
        new: "",
    },
];
