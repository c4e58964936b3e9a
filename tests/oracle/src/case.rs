//! A case: its fields, read from and written to bytes.
use std::fmt;
use std::io::{self, Read, Write};

pub const TESSELLATE: u8 = 1;
pub const CLIP: u8 = 2;
pub const APPEND: u8 = 3;
pub const FLIP: u8 = 4;
pub const TRANSFORM: u8 = 5;
pub const MEASURE: u8 = 6;
pub const EXCHANGE: u8 = 7;
pub const LOAD: u8 = 8;
pub const PLAN: u8 = 9;

pub const BOX: u8 = 0;
pub const MULTI_BOX: u8 = 1;
pub const SPHERE: u8 = 2;
pub const SPHERICAL_SHELL: u8 = 3;
pub const CYLINDER: u8 = 4;
pub const CYLINDRICAL_SHELL: u8 = 5;
pub const POLYGON: u8 = 6;
pub const LIN_POLY: u8 = 7;
pub const ROT_POLY: u8 = 8;
pub const WIRE: u8 = 9;

pub const SHAPES: [&str; 10] = [
    "Box",
    "MultiBox",
    "Sphere",
    "SphericalShell",
    "Cylinder",
    "CylindricalShell",
    "Polygon",
    "LinPoly",
    "RotPoly",
    "Wire",
];

/// How many of the ten numbers each shape has.
pub const NUMBERS: [usize; 10] = [6, 0, 4, 5, 7, 8, 1, 2, 3, 1];

/// Bytes of a case before its operations.
const HEAD: usize = 144;

/// How many numbers an operation has, by its kind 1 to 8.
pub const OP_NUMBERS: [usize; 9] = [0, 3, 4, 1, 1, 1, 1, 3, 16];

#[derive(Clone, Debug, Default, PartialEq)]
pub struct Op {
    pub kind: u8,
    pub numbers: [f64; 16],
}

impl Op {
    /// The numbers that the kind has.
    pub fn given(&self) -> &[f64] {
        &self.numbers[..OP_NUMBERS[self.kind as usize]]
    }
}

#[derive(Clone, Debug, Default)]
pub struct Case {
    pub what: u8,
    pub shape: u8,
    /// 0 none, 1 Cartesian, 2 cylindrical.
    pub own: u8,
    /// 0 Cartesian, 1 cylindrical.
    pub default: u8,
    pub degrees: u8,
    pub norm_dir: u8,
    pub rot_axis_dir: u8,
    pub segments: u32,
    pub sphere_rings: u32,
    pub vertex_floats: u32,
    pub triangle_numbers: u32,
    pub work_numbers: u32,
    pub vertex_count: u32,
    pub triangle_count: u32,
    /// The shape's numbers; of a load the first six are the box claimed.
    pub numbers: [f64; 10],
    pub ops: Vec<Op>,
    pub list: Vec<f64>,
    pub triangles: Vec<u32>,
    /// The length of the planner's output.
    pub output_bytes: u32,
    pub file: Bytes,
}

/// The bytes of a file.
#[derive(Clone, Default, PartialEq)]
pub struct Bytes(pub Vec<u8>);

/// In hexadecimal, of a long file the beginning.
impl fmt::Debug for Bytes {
    fn fmt(&self, to: &mut fmt::Formatter) -> fmt::Result {
        write!(to, "{} bytes ", self.0.len())?;
        self.0.iter().take(1000).try_for_each(|byte| write!(to, "{byte:02x}"))?;
        if self.0.len() > 1000 { write!(to, "…") } else { Ok(()) }
    }
}

impl Case {
    /// The next case, or none at the end of the file.
    pub fn read(from: &mut impl Read) -> io::Result<Option<Case>> {
        let mut head = [0u8; HEAD];
        if from.read(&mut head[..1])? == 0 {
            return Ok(None);
        }
        from.read_exact(&mut head[1..])?;
        let word = |at: usize| u32::from_le_bytes(head[at..at + 4].try_into().unwrap());
        let mut case = Case {
            what: head[0],
            shape: head[1],
            own: head[2],
            default: head[3],
            degrees: head[4],
            norm_dir: head[5],
            rot_axis_dir: head[6],
            segments: word(8),
            sphere_rings: word(12),
            vertex_floats: word(16),
            triangle_numbers: word(20),
            work_numbers: word(24),
            vertex_count: word(40),
            triangle_count: word(44),
            output_bytes: word(140),
            ..Case::default()
        };
        for (i, number) in case.numbers.iter_mut().enumerate() {
            *number = f64::from_bits(u64::from_le_bytes(head[48 + 8 * i..56 + 8 * i].try_into().unwrap()));
        }
        for _ in 0..word(28) {
            let mut op = Op { kind: read_float(from)?.to_bits() as u8, numbers: [0.0; 16] };
            for number in &mut op.numbers {
                *number = read_float(from)?;
            }
            case.ops.push(op);
        }
        case.list = (0..word(32)).map(|_| read_float(from)).collect::<io::Result<_>>()?;
        case.triangles = (0..word(36)).map(|_| read_word(from)).collect::<io::Result<_>>()?;
        case.file.0.resize(word(136) as usize, 0);
        from.read_exact(&mut case.file.0)?;
        Ok(Some(case))
    }

    pub fn write(&self, to: &mut impl Write) -> io::Result<()> {
        to.write_all(&[
            self.what,
            self.shape,
            self.own,
            self.default,
            self.degrees,
            self.norm_dir,
            self.rot_axis_dir,
            0,
        ])?;
        for word in [
            self.segments,
            self.sphere_rings,
            self.vertex_floats,
            self.triangle_numbers,
            self.work_numbers,
            self.ops.len() as u32,
            self.list.len() as u32,
            self.triangles.len() as u32,
            self.vertex_count,
            self.triangle_count,
        ] {
            to.write_all(&word.to_le_bytes())?;
        }
        write_floats(to, &self.numbers)?;
        // Two words that are not read.
        write_words(to, &[0, 0, self.file.0.len() as u32, self.output_bytes])?;
        for op in &self.ops {
            write_floats(to, &[f64::from_bits(op.kind as u64)])?;
            write_floats(to, &op.numbers)?;
        }
        write_floats(to, &self.list)?;
        write_words(to, &self.triangles)?;
        to.write_all(&self.file.0)
    }

    /// The shape's numbers.
    pub fn given(&self) -> &[f64] {
        &self.numbers[..NUMBERS[self.shape as usize]]
    }

    /// The box that a load claims: least x, y, z, greatest x, y, z.
    pub fn claimed(&self) -> Bounds {
        self.numbers[..6].try_into().unwrap()
    }

    pub fn claim(&mut self, bounds: Bounds) {
        self.numbers[..6].copy_from_slice(&bounds);
    }

    /// Floats an item of the shape's list, and the most items; none for a shape without a list.
    pub fn items(&self) -> Option<(usize, usize)> {
        match self.shape {
            MULTI_BOX => Some((6, 256)),
            POLYGON | LIN_POLY | ROT_POLY => Some((2, 512)),
            WIRE => Some((3, 256)),
            _ => None,
        }
    }
}

/// A box: least x, y, z, greatest x, y, z.
pub type Bounds = [f64; 6];

/// The box of a mesh without vertices.
pub const EMPTY_BOX: Bounds =
    [f64::INFINITY, f64::INFINITY, f64::INFINITY, f64::NEG_INFINITY, f64::NEG_INFINITY, f64::NEG_INFINITY];

/// A list of pairs.
pub fn pairs(list: &[f64]) -> Vec<(f64, f64)> {
    list.chunks_exact(2).map(|c| (c[0], c[1])).collect()
}

pub fn read_word(from: &mut impl Read) -> io::Result<u32> {
    let mut bytes = [0; 4];
    from.read_exact(&mut bytes)?;
    Ok(u32::from_le_bytes(bytes))
}

pub fn read_float(from: &mut impl Read) -> io::Result<f64> {
    let mut bytes = [0; 8];
    from.read_exact(&mut bytes)?;
    Ok(f64::from_bits(u64::from_le_bytes(bytes)))
}

pub fn write_words(to: &mut impl Write, words: &[u32]) -> io::Result<()> {
    words.iter().try_for_each(|w| to.write_all(&w.to_le_bytes()))
}

pub fn write_floats(to: &mut impl Write, floats: &[f64]) -> io::Result<()> {
    floats.iter().try_for_each(|x| to.write_all(&x.to_bits().to_le_bytes()))
}
