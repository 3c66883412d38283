//! Families of scenes: the same bytes for the same family and seed everywhere
//! (no function of the platform is used).

mod damaged;
pub mod holes;
mod lists;
mod numbers;
mod outlines;
pub mod plan;
mod refused;
pub mod rings;
mod solids;
pub mod stand;
mod sweeps;

use crate::fnv;
use crate::random::Random;

/// A family's name and how it makes a scene.
type Family = (&'static str, fn(&mut Random) -> Vec<u8>);

fn families() -> impl Iterator<Item = &'static Family> {
    [
        solids::FAMILIES,
        outlines::FAMILIES,
        numbers::FAMILIES,
        sweeps::FAMILIES,
        lists::FAMILIES,
        damaged::FAMILIES,
        refused::FAMILIES,
    ]
    .into_iter()
    .flatten()
}

pub fn names() -> Vec<&'static str> {
    families().map(|f| f.0).collect()
}

/// A scene of the family; `None` for a name that is not one.
pub fn try_generate(family: &str, seed: u64) -> Option<Vec<u8>> {
    let (name, make) = families().find(|f| f.0 == family)?;
    let letters: Vec<u32> = name.bytes().map(u32::from).collect();
    let mut random = Random::new(fnv::hash(&letters) ^ seed.wrapping_mul(0xD6E8_FEB8_6659_FD93));
    Some(make(&mut random))
}

pub fn generate(family: &str, seed: u64) -> Vec<u8> {
    try_generate(family, seed).unwrap_or_else(|| panic!("no family {family}"))
}
