//! Stub: structures are not used.
pub struct PropertyType;

pub struct TypeMask;

impl TypeMask {
    pub fn contains(&self, _: PropertyType) -> bool {
        unreachable!()
    }
}

pub struct Property {
    pub primitives: Vec<crate::primitives::Primitive>,
}

impl Property {
    pub fn property_type(&self) -> PropertyType {
        unreachable!()
    }
}
