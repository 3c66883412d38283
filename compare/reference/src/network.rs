//! What the original takes from files that are not to be had: the network as
//! a list of objects, an object as its id and shape.

use crate::object::{ObjectId, Shape};

/// Only named by the original's mesh; an object mesh has no lanes.
#[derive(Debug, Clone, Copy, PartialEq, Eq)]
pub struct LaneId(pub usize);

#[derive(Debug, Clone, PartialEq)]
pub struct Object {
    pub id: ObjectId,
    pub shape: Shape,
}

pub struct RoadNetwork {
    objects: Vec<Object>,
}

impl RoadNetwork {
    pub fn new(objects: &[Object]) -> Self {
        Self {
            objects: objects.to_vec(),
        }
    }

    pub fn objects(&self) -> &[Object] {
        &self.objects
    }
}

impl From<Vec<Object>> for RoadNetwork {
    fn from(objects: Vec<Object>) -> Self {
        Self { objects }
    }
}
