//! Stub: no file is ever read.
pub mod dom;

pub mod stl {
    pub fn parse(_: &[u8]) -> crate::error::Result<crate::primitives::Polyhedron> {
        unreachable!()
    }
}

pub mod ply {
    pub fn parse(_: &[u8]) -> crate::error::Result<crate::primitives::Polyhedron> {
        unreachable!()
    }
}
