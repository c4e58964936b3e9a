//! Stub: structures are not used.
use crate::properties::Property;

pub struct ContinuousStructure {
    pub coord_system: crate::coords::CoordSystem,
}

impl ContinuousStructure {
    pub fn properties(&self) -> &[Property] {
        unreachable!()
    }
}
