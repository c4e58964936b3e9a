//! A file of solids as bytes, field by field. Nothing is checked: a payload may be wrong for its tag.

pub const OPTIONS: u8 = 0x01;
pub const DEFAULT_SYSTEM: u8 = 0x02;
pub const OWN_SYSTEM: u8 = 0x03;
pub const DEGREES: u8 = 0x04;
pub const OPERATION: u8 = 0x05;

pub const BOX: u8 = 0x10;
pub const MULTI_BOX: u8 = 0x11;
pub const SPHERE: u8 = 0x12;
pub const SPHERICAL_SHELL: u8 = 0x13;
pub const CYLINDER: u8 = 0x14;
pub const CYLINDRICAL_SHELL: u8 = 0x15;
pub const POLYGON: u8 = 0x16;
pub const EXTRUDED: u8 = 0x17;
pub const ROTATED: u8 = 0x18;
pub const WIRE: u8 = 0x19;

#[derive(Clone, Debug, Default)]
pub struct File(pub Vec<u8>);

impl File {
    pub fn new() -> File {
        File::default()
    }

    pub fn field(mut self, tag: u8, payload: &[u8]) -> File {
        self.0.push(tag);
        self.0.extend((payload.len() as u16).to_le_bytes());
        self.0.extend(payload);
        self
    }

    pub fn options(self, segments: u16, rings: u16) -> File {
        self.field(OPTIONS, &[segments.to_le_bytes(), rings.to_le_bytes()].concat())
    }

    /// A system or a mark.
    pub fn byte(self, tag: u8, value: u8) -> File {
        self.field(tag, &[value])
    }

    pub fn operation(self, kind: u8, numbers: &[f64]) -> File {
        self.directed(OPERATION, &[kind], numbers)
    }

    /// A solid without directions: its single numbers, then its list.
    pub fn solid(self, tag: u8, numbers: &[f64]) -> File {
        self.directed(tag, &[], numbers)
    }

    /// A solid by its direction bytes, its single numbers, then its list.
    pub fn directed(self, tag: u8, directions: &[u8], numbers: &[f64]) -> File {
        let mut payload = directions.to_vec();
        payload.extend(numbers.iter().flat_map(|x| x.to_le_bytes()));
        self.field(tag, &payload)
    }
}
