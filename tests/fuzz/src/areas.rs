//! Memory to lend: a run of bytes between two pages without access. What is lent has guard bytes round it, as far as there is room.
use std::ffi::c_void;
use std::ops::Range;

unsafe extern "C" {
    fn mmap(at: *mut c_void, length: usize, access: i32, flags: i32, file: i32, offset: i64) -> *mut c_void;
    fn mprotect(at: *mut c_void, length: usize, access: i32) -> i32;
}

const PAGE: usize = 4096;
/// Guard bytes on either side.
const GUARD: usize = 64;
const GUARD_BYTE: u8 = 0x5A;

/// Where in its area a slice lies.
#[derive(Clone, Copy, Debug)]
pub enum Place {
    /// Guard bytes before and behind, from an offset on.
    Middle(usize),
    /// Directly behind a page without access.
    First,
    /// Directly before a page without access.
    Last,
}

pub struct Area(&'static mut [u8]);

impl Area {
    /// At least so many bytes, and room for guards and offsets.
    pub fn new(bytes: usize) -> Area {
        const NONE: i32 = 0;
        const READ_WRITE: i32 = 3;
        const PRIVATE_ANONYMOUS_NO_RESERVE: i32 = 0x2 | 0x20 | 0x4000;
        let inner = (bytes + 2 * GUARD + PAGE).next_multiple_of(PAGE);
        // A new mapping of three parts, of which the middle one can be written. It is never given back.
        unsafe {
            let start =
                mmap(std::ptr::null_mut(), inner + 2 * PAGE, NONE, PRIVATE_ANONYMOUS_NO_RESERVE, -1, 0) as *mut u8;
            assert_ne!(start as isize, -1, "mmap failed");
            let start = start.add(PAGE);
            assert_eq!(mprotect(start.cast(), inner, READ_WRITE), 0, "mprotect failed");
            Area(std::slice::from_raw_parts_mut(start, inner))
        }
    }

    fn slice(&self, length: usize, place: Place) -> Range<usize> {
        let from = match place {
            Place::Middle(offset) => GUARD + offset % (PAGE / 2),
            Place::First => 0,
            Place::Last => self.0.len() - length,
        };
        from..from + length
    }

    /// The bytes of a slice that was lent.
    pub fn lent(&self, length: usize, place: Place) -> &[u8] {
        &self.0[self.slice(length, place)]
    }

    /// A slice of a length, with its guards written.
    pub fn lend(&mut self, length: usize, place: Place) -> Lent<'_> {
        let slice = self.slice(length, place);
        let lent = Lent { area: self.0, slice };
        let [before, behind] = lent.guards();
        lent.area[before].fill(GUARD_BYTE);
        lent.area[behind].fill(GUARD_BYTE);
        lent
    }
}

pub struct Lent<'a> {
    area: &'a mut [u8],
    slice: Range<usize>,
}

impl Lent<'_> {
    pub fn bytes(&mut self) -> &mut [u8] {
        &mut self.area[self.slice.clone()]
    }

    fn guards(&self) -> [Range<usize>; 2] {
        let Range { start, end } = self.slice;
        [start.saturating_sub(GUARD)..start, end..(end + GUARD).min(self.area.len())]
    }

    pub fn guards_hold(&self) -> bool {
        self.guards().into_iter().all(|guard| self.area[guard].iter().all(|&byte| byte == GUARD_BYTE))
    }
}
