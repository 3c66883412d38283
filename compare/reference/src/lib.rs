//! The original object mesh module with document 01's stand-ins, its account
//! and log, the vertices in millimetres, a reader of scene bytes, a check of
//! demand 3 and families of scenes.

pub mod answer;
pub mod built;
pub mod circle;
mod circle_table;
pub mod demand;
pub mod exact;
pub mod families;
pub mod fnv;
pub mod long;
pub mod millimetre;
pub mod network;
pub mod pair;
pub mod price;
pub mod random;
pub mod record;
pub mod rings;
pub mod scene;
pub mod tally;
pub mod verdict;
pub mod write;
pub mod zeros;

// The original files, as build.rs leaves them.
pub mod coords {
    include!(concat!(env!("OUT_DIR"), "/coords.rs"));
}
pub mod mesh {
    include!(concat!(env!("OUT_DIR"), "/mesh.rs"));
}
pub mod object {
    include!(concat!(env!("OUT_DIR"), "/object.rs"));
}
pub mod object_mesh {
    include!(concat!(env!("OUT_DIR"), "/object_mesh.rs"));
}
mod plain {
    include!(concat!(env!("OUT_DIR"), "/plain.rs"));

    /// The original's `triangulate`, which is private there.
    pub fn cut(flat: &[[f32; 2]], starts: &[usize]) -> Vec<[usize; 3]> {
        triangulate(flat, starts)
    }
}

pub use built::{build, Built};
pub use families::generate;
pub use network::Object;
pub use plain::cut;
pub use scene::read_scene;
pub use verdict::validate;
