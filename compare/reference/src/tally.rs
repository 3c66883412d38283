//! One scene checked, and what such scenes reach: refusals and log marks.

use std::fmt;

use crate::answer::words;
use crate::built::{build, build_plain};
use crate::demand::check;
use crate::scene::read_scene;

#[derive(Default)]
pub struct Tally {
    scenes: u64,
    empty: u64,
    refusals: [u64; 8],
    marks: [u64; 8],
    /// Lids left with more than three corners.
    stuck: u64,
}

impl Tally {
    pub fn add(&mut self, other: &Self) {
        self.scenes += other.scenes;
        self.empty += other.empty;
        self.stuck += other.stuck;
        for k in 0..8 {
            self.refusals[k] += other.refusals[k];
            self.marks[k] += other.marks[k];
        }
    }

    pub fn refusals(&self) -> [u64; 8] {
        self.refusals
    }

    pub fn marks(&self) -> [u64; 8] {
        self.marks
    }
}

impl fmt::Display for Tally {
    fn fmt(&self, f: &mut fmt::Formatter<'_>) -> fmt::Result {
        write!(f, "{} scenes, {} empty", self.scenes, self.empty)?;
        write!(f, ", refused 1 to 7: {:?}", &self.refusals[1..])?;
        write!(f, ", marks 1 to 7: {:?}", &self.marks[1..])?;
        write!(f, ", {} stuck", self.stuck)
    }
}

/// Demand 3 on the scene, if it is accepted, that the instruments did not
/// change its mesh, and that no entry of the millimetres passes 2^37.
pub fn tally(scene: &[u8], tally: &mut Tally) -> Result<(), String> {
    tally.scenes += 1;
    let objects = match read_scene(scene) {
        Ok(objects) => objects,
        Err((number, _)) => {
            tally.refusals[number as usize] += 1;
            return Ok(());
        }
    };
    let built = build(&objects);
    check(&objects, &built)?;
    let (with, without) = (words(&built), words(&build_plain(&objects)));
    if with[..4] != without[..4] {
        return Err("the instruments changed the mesh".to_string());
    }
    if built.millimetres.iter().any(|n| n.unsigned_abs() > 1 << 37) {
        return Err("a number of millimetres passes 2^37".to_string());
    }
    tally.empty += u64::from(built.indices.is_empty());
    for notes in &built.notes {
        for entry in &notes.log {
            tally.marks[entry[0] as usize] += 1;
        }
        let left = notes.log.iter().filter(|e| e[0] == 3).count();
        tally.stuck += u64::from(left > 3);
    }
    Ok(())
}
